#!/usr/bin/env python3
"""Tests of export, over files that are written by the form that docs/BEHAVIOUR.md gives, and over stores of the program."""
import pathlib
import shutil
import subprocess
import tempfile
import unittest

import support

TOOL = str(support.TOP / "tools/export")
NEXT = "'explorer query' says the same of it; docs/BACKUP.md has what to do"


def payload(texts, label=None):
    """The payload of a batch; one without a label is of format 1."""
    head = b"" if label is None else bytes([len(label)]) + label
    parts = [len(text).to_bytes(4, "little") + text for text in texts]
    return head + len(texts).to_bytes(2, "little") + b"".join(parts)


def store(*payloads, number=2):
    records = [b"\1" + len(each).to_bytes(4, "little") + each for each in payloads]
    return b"OPENEXP1" + number.to_bytes(4, "little") + b"".join(records) + b"\0"


ONE, TWO, THREE = b'[Event "1"]\n\n1. e4 1-0\n\n', b'[Event "2"]\n\n*', b'[Event "3"]\n\n1-0\n'
WHOLE = store(payload([ONE, TWO], b"jan"), payload([THREE], b""))


class Texts(unittest.TestCase):
    def setUp(self):
        folder = tempfile.TemporaryDirectory()
        self.addCleanup(folder.cleanup)
        self.folder = pathlib.Path(folder.name)

    def export(self, content, *words):
        self.place = self.folder / "games.store"
        self.place.write_bytes(content)
        found = support.run_tool(TOOL, str(self.place), *words)
        self.assertEqual(self.place.read_bytes(), content)
        return found

    def test_each_text_is_given_back_in_its_order(self):
        games = (ONE + TWO + b"\n" + THREE).decode()
        self.assertEqual(self.export(WHOLE), (0, games, "export: 3 games of 2 batches\n"))
        self.assertEqual(self.export(WHOLE + b"what follows the last gate"), (0, games, "export: 3 games of 2 batches\n"))
        older = store(payload([ONE, TWO]), payload([THREE]), number=1)
        self.assertEqual(self.export(older), (0, games, "export: 3 games of 2 batches\n"))
        self.assertEqual(self.export(store()), (0, "", "export: 0 games of 0 batches\n"))

    def test_a_label_picks_its_batches(self):
        self.assertEqual(self.export(WHOLE, "--label", "jan"), (0, (ONE + TWO).decode() + "\n", "export: 2 games of 1 batch\n"))
        self.assertEqual(self.export(WHOLE, "--label", ""), (0, THREE.decode(), "export: 1 game of 1 batch\n"))
        self.assertEqual(self.export(WHOLE, "--label", "feb"), (0, "", "export: 0 games of 0 batches\n"))

    def test_a_front_gives_its_batches_back_and_is_refused_at_its_gate(self):
        second = 12 + 5 + len(payload([ONE, TWO], b"jan"))
        for length in (0, 12, 13, 16, 17, 60, second, second + 1, second + 5, len(WHOLE) - 1):
            status, output, errors = self.export(WHOLE[:length])
            told = "not a store" if length <= 12 else f"damaged at {12 if length <= second else second}; the batches before are given back"
            self.assertEqual((status, errors), (1, f"export: {self.place}: {told}; {NEXT}\n"), length)
            self.assertEqual(output, (ONE + TWO).decode() + "\n" if length > second else "")

    def test_what_is_no_payload_is_refused(self):
        batch = payload([ONE], b"jan")
        for wrong in (b"\0", batch + b"x", batch[:-1], payload([], b""), b"\xff" + batch, batch.replace(b"\1\0", b"\2\0", 1)):
            status, output, errors = self.export(store(wrong))
            self.assertEqual((status, output), (1, ""))
            self.assertIn(": damaged at 12; ", errors)
        self.assertEqual(self.export(store(number=3))[2], f"export: {self.place}: format 3; {NEXT}\n")

    def test_files_that_cannot_be_read_or_written(self):
        told = "export: cannot read /nowhere: No such file or directory\n"
        self.assertEqual(support.run_tool(TOOL, "/nowhere"), (1, "", told))
        told = f"export: cannot write {TOOL}: File exists; --output names another place\n"
        self.assertEqual(self.export(WHOLE, "--output", TOOL), (1, "", told))
        self.assertEqual(self.export(WHOLE, "--output", str(self.folder / "games.pgn"))[:2], (0, ""))
        self.assertEqual((self.folder / "games.pgn").read_bytes(), ONE + TWO + b"\n" + THREE)
        told = "export: cannot write the output: Broken pipe\n"
        self.assertEqual(support.run_into_closed_pipe(TOOL, str(self.place)), (1, told))


class Stores(unittest.TestCase):
    def setUp(self):
        self.folder = pathlib.Path(tempfile.mkdtemp())
        self.addCleanup(shutil.rmtree, self.folder)

    def run_program(self, *words):
        return subprocess.run([support.program(), *words], cwd=self.folder, capture_output=True, check=True, timeout=60).stdout

    def test_what_is_given_back_makes_a_store_with_the_same_answers(self):
        games = support.GAMES.read_bytes()
        for name in ("one.store", "two.store"):
            self.run_program("create", name)
        self.run_program("import", "one.store", str(support.GAMES), "--label", "five")
        told = support.run_tool(TOOL, str(self.folder / "one.store"), "--output", str(self.folder / "one.pgn"))
        self.assertEqual(told, (0, "", "export: 5 games of 1 batch\n"))
        self.assertEqual((self.folder / "one.pgn").read_bytes(), games)
        self.run_program("import", "two.store", "one.pgn")
        for query in ("", "play=e2e4&history=true"):
            answers = {self.run_program("query", name, query) for name in ("one.store", "two.store")}
            self.assertEqual(answers, {support.count(query, games)[1] + b"\n"})


if __name__ == "__main__":
    unittest.main()
