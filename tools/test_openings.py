#!/usr/bin/env python3
"""Tests of openings. The tables of Scid and pgn-extract are read where they are installed."""
import pathlib
import re
import sys
import tempfile
import unittest

import support

TOOL = str(support.TOP / "tools/openings")

SCID = """# a comment
A00a "Start position"  *
B00b "King's Pawn"  1.e4 *

B10 "Caro-Kann: Main Line, 4...Bf5"
  1.e4 c6 2.d4 d5 3.Nc3 dxe4
  4.Nxe4 Bf5 *
"""
SCID_LINES = ("A00\tStart position\t\n"
              "B00\tKing's Pawn\t1.e4\n"
              "B10\tCaro-Kann: Main Line, 4...Bf5\t1.e4 c6 2.d4 d5 3.Nc3 dxe4 4.Nxe4 Bf5\n")
PGN = """{
A comment [with brackets].
}

[ECO "B00"]
[Opening "King's pawn"]

1. e4 *

[ECO "C00"]
[Opening "French"]
[Variation "Réti"]
[SubVariation "\\"x\\" line"]

1. e4 e6
2. b3 *
"""
PGN_LINES = "B00\tKing's pawn\t1. e4\nC00\tFrench: Réti, \"x\" line\t1. e4 e6 2. b3\n"
TABLE = "eco\tname\tpgn\nB00\tKing's Pawn Game\t1. e4\n"

KNIGHTS = " Nf3 Nf6 Ng1 Ng8" * 16

# What is refused, with what is told of it.
REFUSED = [
    (SCID.replace('"  1.e4 *', "  1.e4 *"), 'line 3 begins no entry of the form CODE "NAME" MOVES *'),
    (SCID + "B20 1.e4 c5 *\n", 'line 8 begins no entry of the form CODE "NAME" MOVES *'),
    (PGN.replace("[Opening \"French\"]\n", ""), "the entry on line 10 lacks the tag Opening"),
    (PGN.replace("1. e4 *", "1. e4 1-0"), 'line 5 begins no entry of the form [ECO "CODE"] [Opening "NAME"] .. MOVES *'),
    (TABLE + "B01\t1. e4 d5\n", "line 3 has 1 tabs, and not two"),
    (f'B00 "x"  1.{KNIGHTS} 33. Nf3 *', "the entry on line 1 has 65 moves, and at most 64 are taken"),
    ('B00 "a\tb"  1.e4 *', "the entry on line 1 has a tab in its code or name"),
    ("[Event \"x\"]\n\n1. e4 *\n",
     "it has no opening of a form that is known: scid.eco, eco.pgn, or a table of chess-openings"),
]


def run(text, *words):
    data = text if isinstance(text, bytes) else text.encode()
    return support.run_tool(TOOL, "-", *words, data=data)


class Forms(unittest.TestCase):
    def test_each_form_is_read(self):
        for text, lines in [(SCID, SCID_LINES), (PGN, PGN_LINES), (TABLE, TABLE.partition("\n")[2])]:
            for encoded in (text.encode(), text.replace("\n", "\r\n").encode(), text.encode("latin-1")):
                self.assertEqual(run(encoded), (0, lines, ""))

    def test_codes_stay_as_they_are_where_that_is_asked_for(self):
        long = SCID_LINES.replace("A00\t", "A00a\t").replace("B00\t", "B00b\t")
        self.assertEqual(run(SCID, "--long"), (0, long, ""))

    def test_several_files_make_one(self):
        with tempfile.TemporaryDirectory() as folder:
            names = [str(pathlib.Path(folder, name)) for name in ("a.tsv", "b.tsv", "openings.tsv")]
            for name in names[:2]:
                pathlib.Path(name).write_text(TABLE, encoding="utf-8")
            self.assertEqual(support.run_tool(TOOL, *names[:2], "--output", names[2]), (0, "", ""))
            made = pathlib.Path(names[2]).read_text(encoding="utf-8")
        self.assertEqual(made, 2 * TABLE.partition("\n")[2])

    def test_a_capture_of_the_piece_that_just_moved_has_its_x(self):
        for moves, wanted in (
            ("1.e4 d5 2.exd5 Qd5 3.Nc3", "1.e4 d5 2.exd5 Qxd5 3.Nc3"),
            ("6. Bb5+ Bd7 7. Bxd7+ Nbd7 8. O-O", "6. Bb5+ Bd7 7. Bxd7+ Nbxd7 8. O-O"),
            ("1.e4 e5 2.Nf3 Nc6 3.Bb5 a6 4.Bxc6 dxc6", "1.e4 e5 2.Nf3 Nc6 3.Bb5 a6 4.Bxc6 dxc6"),
            ("1.d4 d5 2.O-O Nd5", "1.d4 d5 2.O-O Nd5"),
        ):
            self.assertEqual(run(f'B01 "x"  {moves} *')[1], f"B01\tx\t{wanted}\n")

    def test_64_moves_are_taken(self):
        lines = f"B00\tx\t1.{KNIGHTS} 33.\n"
        self.assertEqual(run(f'B00 "x"  1.{KNIGHTS} 33. *'), (0, lines, ""))


class Faults(unittest.TestCase):
    def test_what_is_refused_is_told_and_nothing_is_written(self):
        for text, told in REFUSED:
            with self.subTest(told):
                self.assertEqual(run(text), (1, "", f"openings: -: {told}\n"))

    def test_a_file_that_is_too_large(self):
        line = "B00\t" + "x" * 1019 + "\te4\n"
        text = TABLE.partition("\n")[0] + "\n" + line * 4085
        told = f"openings: the openings take {4085 * len(line)} bytes, and at most 4194304 are taken\n"
        self.assertEqual(run(text), (1, "", told))

    def test_files_that_cannot_be_read_or_written(self):
        told = "openings: cannot read /nowhere: No such file or directory\n"
        self.assertEqual(support.run_tool(TOOL, "/nowhere"), (1, "", told))
        told = "openings: cannot write /nowhere/x: No such file or directory; --output names another place\n"
        self.assertEqual(run(TABLE, "--output", "/nowhere/x"), (1, "", told))

    def test_a_pipe_that_closes(self):
        with tempfile.NamedTemporaryFile() as table:
            table.write(TABLE.encode())
            table.flush()
            ended = support.run_into_closed_pipe(TOOL, table.name)
        self.assertEqual(ended, (1, "openings: cannot write the output: Broken pipe\n"))


class Installed(unittest.TestCase):
    """The tables of other programs: how many openings they have, and that each line is one."""

    def check_table(self, name, count):
        if not pathlib.Path(name).exists():
            print(f"skipped, since {name} is not installed", file=sys.stderr)
            self.skipTest(f"{name} is not installed")
        status, output, errors = support.run_tool(TOOL, name)
        self.assertEqual((status, errors), (0, ""))
        lines = output.splitlines()
        self.assertEqual(len(lines), count)
        for line in lines:
            self.assertTrue(re.fullmatch(r"[A-E]\d\d\t[^\t]+\t[^\t]*", line), line)

    def test_that_of_scid(self):
        self.check_table("/usr/share/scid/data/scid.eco", 10_360)

    def test_that_of_pgn_extract(self):
        self.check_table("/usr/share/pgn-extract/eco.pgn", 2_014)


if __name__ == "__main__":
    unittest.main()
