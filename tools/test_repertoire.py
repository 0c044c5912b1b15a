#!/usr/bin/env python3
"""Tests of repertoire, over an explorer that has the games of games.pgn."""
import json
import pathlib
import tempfile
import unittest

import support

TOOL = str(support.TOP / "tools/repertoire")


class Walking(unittest.TestCase):
    def test_an_archive_is_imported_and_walked(self):
        with support.explorer() as address, tempfile.TemporaryDirectory() as folder:
            archive = pathlib.Path(folder) / "games.pgn"
            archive.write_bytes(support.GAMES.read_bytes().replace(b"1. d4 e6", b"1. d4 e6x"))
            status, output, errors = support.run_tool(TOOL, str(archive), "--explorer", address, "--plies", "3")
            self.assertEqual((status, output), (0, "1. e4 e5 2. f4  (1 game, 100%)\n1. e4 c6 2. d4  (1 game, 100%)\n"))
            place = archive.read_bytes().index(b'[Event "Casual game"]\n[Site "https://example.org/lasker12"]')
            self.assertEqual(errors.splitlines()[0].rpartition(" ")[0], f"repertoire: {archive} {place} NotSan 2")
            self.assertEqual(errors.splitlines()[1], f"repertoire: {archive}: 4 games stored")
            output = support.run_tool(TOOL, "--explorer", address, "--side", "black", "--plies", "2")[1]
            self.assertEqual(output, "1. e4 e5  (2 games, 0%)\n1. d4 Nf6  (1 game, 100%)\n")
            fen = "rnbqkbnr/pppppppp/8/8/4P3/8/PPPP1PPP/RNBQKBNR b KQkq - 0 1"
            output = support.run_tool(TOOL, "--explorer", address, "--fen", fen, "--plies", "2", "--least", "2")[1]
            self.assertEqual(output, "1… e5  (2 games, 100%)\n")


class Faults(unittest.TestCase):
    def test_an_explorer_that_is_down(self):
        address = f"127.0.0.1:{support.free_port()}"
        told = (f"repertoire: {address}: Connection refused; is an explorer running there?"
                f" explorer serve STORE {address}\n")
        self.assertEqual(support.run_tool(TOOL, "--explorer", address), (1, "", told))

    def test_refusals_of_the_explorer(self):
        full = {"bytes": 12416, "error": "full", "games": 64, "stored": 0}
        with support.CannedExplorer(507, json.dumps(full).encode()).running() as address:
            status, _, errors = support.run_tool(TOOL, str(support.GAMES), "--explorer", address)
            told = ("repertoire: the explorer answers 507: full (bytes 12416, games 64, stored 0);"
                    " what was not stored needs another store (docs/MANY-STORES.md)\n")
            self.assertEqual((status, errors), (1, told))
        with support.CannedExplorer(200, b"<html>").running() as address:
            self.assertEqual(support.run_tool(TOOL, "--explorer", address)[2],
                             f"repertoire: {address} does not answer as an explorer does; is that its address?\n")

    def test_a_pipe_that_closes(self):
        move = {"black": 0, "draws": 0, "san": "e4", "uci": "e2e4", "white": 1}
        with support.CannedExplorer(200, json.dumps({"moves": [move]}).encode()).running() as address:
            ended = support.run_into_closed_pipe(TOOL, "--explorer", address)
            self.assertEqual(ended, (1, "repertoire: the output was closed\n"))

    def test_an_empty_archive(self):
        with support.CannedExplorer(200, b'{"moves":[]}').running() as address:
            status, output, errors = support.run_tool(TOOL, "/dev/null", "--explorer", address)
            self.assertEqual((status, output, errors), (0, "", "repertoire: /dev/null: 0 games stored\n"))

    def test_files_and_words(self):
        status, _, errors = support.run_tool(TOOL, "/nowhere")
        self.assertEqual((status, errors), (1, "repertoire: /nowhere: No such file or directory\n"))
        self.assertIn("usage: repertoire", support.run_tool(TOOL, "--help")[1])
        for words in (["--side", "red"], ["--plies", "-1"], ["--least", "x"]):
            self.assertEqual(support.run_tool(TOOL, *words)[0], 2)


if __name__ == "__main__":
    unittest.main()
