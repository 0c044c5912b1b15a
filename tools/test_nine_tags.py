#!/usr/bin/env python3
"""Tests of nine-tags. What it makes is read by the program itself where there is one."""
import pathlib
import tempfile
import unittest

import support

TOOL = str(support.TOP / "tools/nine-tags")

HASTINGS = """[Event "Hastings"]
[Site "Hastings ENG"]
[Date "1951.12.30"]
[Round "3"]
[White "Barden, Leonard W"]
[Black "Adams, Michael"]
[Result "1-0"]
[ECO "C57"]

1.e4 e5 2.Nf3 Nc6 3.Bc4 Nf6 4.Ng5 d5 {a [bracket] and a "quote"} 1-0
"""
MONACO = """[Event "Monaco"]
[Site "Monaco"]
[Date "1966.??.??"]
[White "Adams"]
[Black "Piket"]
[Result "0-1"]
[WhiteElo "2600"]
[BlackElo "?"]
[TimeControl "40/7200:3600"]

1.d4 Nf6 2.c4 e6 0-1
"""
LICHESS = support.GAMES.read_text(encoding="utf-8").partition("\n[Event ")[0] + "\n"

START = "rnbqkbnr/pppppppp/8/8/8/8/PPPPPPPP/RNBQKBNR w KQkq - 0 1"
# Where Hastings stands before its third move of Black.
ITALIAN = '[Variant "From Position"]\n[SetUp "1"]\n[FEN "r1bqkbnr/pppp1ppp/2n5/4p3/2B1P3/5N2/PPPP1PPP/RNBQK2R b KQkq - 3 3"]\n'
SET_UP = HASTINGS.replace("[ECO", ITALIAN + "[ECO").replace("1.e4 e5 2.Nf3 Nc6 3.Bc4 Nf6", "3... Nf6")

# The causes that stay, by an archive of one game.
STAYS = [
    ("Bad Date", MONACO),
    ("UnknownResult", HASTINGS.replace("1-0", "*")),
    ("ResultDiffers", HASTINGS.replace("} 1-0", "} 0-1")),
    ("SetUp", HASTINGS.replace("[ECO", f'[SetUp "0"]\n[FEN "{START}"]\n[ECO')),
    ("SetUp", HASTINGS.replace("[ECO", '[SetUp "1"]\n[ECO')),
    ("NotStandard", HASTINGS.replace("[ECO", '[Variant "Chess960"]\n[SetUp "1"]\n[FEN "x"]\n[ECO')),
    ("Missing UTCDate", HASTINGS.replace('[Date "1951.12.30"]\n', "")),
    ("Missing Result", HASTINGS.replace('[Result "1-0"]\n', "").replace("} 1-0", "}")),
    ("TooLong", HASTINGS.replace("{a ", "{" + "a" * 66_000)),
]

# What helps, by an archive of one game and the options.
HELPED = [
    ("a month that is unknown", MONACO, ["--unknown-date", "1900.01"], '[UTCDate "1966.01.??"]'),
    ("a date that is unknown", HASTINGS.replace("1951.12.30", "????.??.??"), ["--unknown-date", "1900.02"],
     '[UTCDate "1900.02.??"]'),
    ("the event's date",
     HASTINGS.replace("[Date ", '[EventDate "1951.12.28"]\n[Date ').replace("1951.12.30", "1951.??.??"), [],
     '[UTCDate "1951.12.28"]'),
    ("another spelling of a date", HASTINGS.replace("1951.12.30", "1951-3-5"), [], '[UTCDate "1951.03.05"]'),
    ("a result from the moves", HASTINGS.replace('[Result "1-0"]\n', ""), [], '[Result "1-0"]'),
    ("an end from the result", HASTINGS.replace("} 1-0", "}"), [], '"quote"}\n1-0\n'),
    ("another spelling of a draw", HASTINGS.replace('"1-0"', '"1/2"').replace("} 1-0", "} 1/2-1/2"), [],
     '[Result "1/2-1/2"]'),
    ("quotes in a name", HASTINGS.replace("Barden, Leonard W", 'Leonard "Len" Barden'), [],
     r'[White "Leonard \"Len\" Barden"]'),
    ("tags on one line", HASTINGS.replace('"]\n[Black', '"] [Black'), [], '[Black "Adams, Michael"]'),
    ("a set-up of the start", HASTINGS.replace("[ECO", f'[SetUp "1"]\n[FEN "{START}"]\n[ECO'), [],
     f'[SetUp "1"]\n[FEN "{START}"]\n[ECO'),
    ("a set-up position", SET_UP, [], ITALIAN),
    ("no Event, and Event behind Site", HASTINGS.partition("\n")[2], [], '[Event "?"]\n[Site "Hastings ENG/'),
    ("a result in a variation", HASTINGS.replace("} 1-0", "} (4... a6 (4... b6 0-1) 0-1)"), [], "0-1)\n1-0\n"),
    ("the event's speed", HASTINGS, ["--speed", "blitz"], '[TimeControl "180+2"]'),
    ("a default rating", HASTINGS, ["--rating", "2300"], '[WhiteElo "2300"]\n[BlackElo "2300"]'),
    ("a first period", MONACO, ["--unknown-date", "1900.01"], '[TimeControl "7200"]'),
]


def helped(text, *words):
    """The output and the error lines, as texts, of a run that has to end well."""
    status, output, errors = support.run_tool(TOOL, *words, data=text if isinstance(text, bytes) else text.encode())
    if status != 0:
        raise AssertionError(errors)
    return output, errors.splitlines()


class Tags(unittest.TestCase):
    def assert_accepted(self, text):
        """No text is refused, but where the same game stands twice."""
        try:
            lines = support.count("", text.encode())[2]
            self.assertEqual([line for line in lines if " Twice " not in line], [])
        except unittest.SkipTest:
            pass

    def test_what_can_be_helped_is_accepted(self):
        outputs = []
        for name, archive, words, wanted in HELPED:
            with self.subTest(name):
                output, lines = helped(archive, *words)
                self.assertIn(wanted, output)
                self.assertIn("1 games, of which 0 stay refused", lines[0])
                outputs.append(output)
        self.assert_accepted("".join(outputs))

    def test_what_cannot_be_helped_is_told_and_refused(self):
        texts, wanted = [LICHESS], []
        for why, archive in STAYS:
            wanted.append((sum(map(len, texts)), why))
            texts.append(archive)
        output, lines = helped("".join(texts))
        told = [line for line in lines if "refused: - " in line]
        self.assertEqual(len(told), len(STAYS))
        self.assertEqual(lines[-1], "nine-tags: games without a month: 2; --unknown-date YYYY.MM gives them one")
        places = []
        for line, (place, why) in zip(told, wanted):
            self.assertIn(f"refused: - {place}, in the output ", line)
            words = line.partition("in the output ")[2]
            self.assertIn(f": {why}", words)
            places.append(words.replace(":", "", 1))
        try:
            self.assertEqual(sorted(support.count("", output.encode())[2]), sorted(places))
        except unittest.SkipTest:
            pass

    def test_every_invented_value_is_in_the_summary(self):
        output, lines = helped(HASTINGS + "\n" + MONACO, "--unknown-date", "1900.01")
        self.assertEqual([line.removeprefix("nine-tags: ") for line in lines], [
            "2 games, of which 0 stay refused for their tags or their end",
            'invented BlackElo "1500": 2',
            'invented Site "…/ and an id made from the game itself": 2',
            'invented TimeControl "5400+30": 1',
            'invented UTCDate "the year that is told, and month 01": 1',
            'invented WhiteElo "1500": 1',
            "not invented, TimeControl from its first period: 1",
        ])
        self.assertIn('[Invented "WhiteElo BlackElo TimeControl Site"]', output)
        self.assertIn('[Invented "UTCDate BlackElo Site"]', output)

    def test_games_that_are_accepted_stay_as_they_are(self):
        output, lines = helped(LICHESS)
        self.assertEqual(output.rstrip(), LICHESS.rstrip())
        self.assertEqual(len(lines), 1)

    def test_a_game_has_the_same_id_wherever_it_stands(self):
        one = helped(HASTINGS)[0]
        both, lines = helped(LICHESS + "\n" + HASTINGS + "\n" + HASTINGS)
        self.assertEqual(both.count(one.splitlines()[1]), 2)
        self.assertIn("stored once: 1", lines[-1])

    def test_games_from_two_positions_have_two_ids(self):
        later = SET_UP.replace(" b KQkq - 3 3", " b KQkq - 3 4")
        self.assertNotIn("stored once", helped(SET_UP + "\n" + later)[1][-1])

    def test_other_alphabets(self):
        output, _ = helped(HASTINGS.replace("Barden", "Bárdén").encode("latin-1"))
        self.assertIn("Bárdén", output)
        output, _ = helped(b"\xef\xbb\xbf" + HASTINGS.replace("Barden", "Bárdén").encode())
        self.assertTrue(output.startswith('[Event "Hastings"]'))
        self.assertIn("Bárdén", output)

    def test_games_are_cut_at_tags_outside_comments(self):
        comment = HASTINGS.replace("{a [bracket]", '{see\n[White "someone"]\n[%clk 1:00]')
        output, lines = helped(comment + "\n" + MONACO, "--unknown-date", "1900.01")
        self.assertIn("2 games", lines[0])
        self.assert_accepted(output)
        event_later = HASTINGS.replace('[Event "Hastings"]\n', "").replace("[Date", '[Event "Hastings"]\n[Date')
        self.assertIn("2 games", helped(event_later + event_later)[1][0])


class Command(unittest.TestCase):
    def test_help_and_faulty_words(self):
        self.assertIn("usage: nine-tags", support.run_tool(TOOL, "--help")[1])
        for words in (["--rating", "4001"], ["--unknown-date", "1900"], ["--speed", "slow"], ["--most", "x"]):
            status, _, errors = support.run_tool(TOOL, *words)
            self.assertEqual(status, 2)
            self.assertIn("nine-tags: error:", errors)

    def test_files_without_games(self):
        for data in (b"", b"hello\n", b"\0" * 3_000_000):
            status, output, errors = support.run_tool(TOOL, data=data)
            self.assertEqual((status, output), (0, ""))
            self.assertIn("nine-tags: - has no game: no line of it is a tag; where it is packed, unpack it first\n", errors)

    def test_files_that_cannot_be_read_or_written(self):
        told = "nine-tags: cannot read /nowhere: No such file or directory\n"
        self.assertEqual(support.run_tool(TOOL, "/nowhere")[::2], (1, told))
        status, _, errors = support.run_tool(TOOL, "--output", "/nowhere/x", data=HASTINGS.encode())
        told = "nine-tags: cannot write /nowhere/x: No such file or directory; --output names another place\n"
        self.assertEqual((status, errors), (1, told))

    def test_an_output_that_is_an_archive(self):
        with tempfile.NamedTemporaryFile() as archive:
            archive.write(HASTINGS.encode())
            archive.flush()
            status, _, errors = support.run_tool(TOOL, archive.name, "--output", archive.name)
            self.assertEqual((status, pathlib.Path(archive.name).read_text(encoding="utf-8")), (2, HASTINGS))
            self.assertIn("the output is one of the archives", errors)

    def test_a_pipe_that_closes(self):
        with tempfile.NamedTemporaryFile() as archive:
            archive.write(HASTINGS.encode() * 2000)
            archive.flush()
            ended = support.run_into_closed_pipe(TOOL, archive.name)
            self.assertEqual(ended, (1, "nine-tags: cannot write the output: Broken pipe\n"))


if __name__ == "__main__":
    unittest.main()
