#!/usr/bin/env python3
"""Tests of the board's server, and of what the page reads, cuts and asks where node is installed."""
import json
import pathlib
import re
import shutil
import socket
import subprocess
import sys
import unittest
import urllib.error
import urllib.request

HERE = pathlib.Path(__file__).resolve().parent
sys.path.insert(0, str(HERE.parent))
import support  # noqa: E402

BOARD = str(HERE / "board")


def board_for(address, *words):
    return support.tool_running(BOARD, "--port", "0", "--explorer", address, *words)


def place_of(line):
    return re.search(r"http://\S+?(?=/ )", line)[0]


def ask(place, target, data=None, **headers):
    """A reply as (status, headers, body)."""
    request = urllib.request.Request(place + target, data, headers)
    try:
        with urllib.request.urlopen(request) as reply:
            return reply.status, reply.headers, reply.read()
    except urllib.error.HTTPError as error:
        with error:
            return error.code, error.headers, error.read()


class Passing(unittest.TestCase):
    def test_the_page_and_its_files_are_served(self):
        with board_for("127.0.0.1:1") as (_, line):
            place = place_of(line)
            status, headers, page = ask(place, "/")
            self.assertEqual((status, headers["Content-Type"]), (200, "text/html; charset=utf-8"))
            self.assertIn(b"<title>Opening explorer</title>", page)
            for name in re.findall(rb'(?:src|href)="([^"]+)"', page):
                self.assertEqual(ask(place, f"/{name.decode()}")[0], 200, name)
            for path in ("/board", "/../board", "/test_board.py", "/masters"):
                self.assertEqual(ask(place, path)[0], 404, path)

    def test_requests_are_passed_on_and_their_connections_closed(self):
        stand_in = support.CannedExplorer(200, b'{"white":1}')
        with stand_in.running() as address, board_for(address) as (_, line):
            status, headers, body = ask(place_of(line), "/lichess?play=e2e4&fen=")
            self.assertEqual((status, headers["X-Explorer-Batches"], body), (200, "0", b'{"white":1}'))
            self.assertEqual(ask(place_of(line), "/player?player=Zo%C3%A9&color=white")[::2], (200, b'{"white":1}'))
            ask(place_of(line), "/import", b"games")
        self.assertEqual([(method, target, body) for method, target, _, body in stand_in.asked], [
            ("GET", "/lichess?play=e2e4&fen=", b""), ("GET", "/player?player=Zo%C3%A9&color=white", b""), ("POST", "/import", b"games")])
        self.assertEqual({headers["Connection"] for _, _, headers, _ in stand_in.asked}, {"close"})

    def test_faults_of_the_explorer_are_passed_on(self):
        for status, body in [(400, b'{"error":"malformed parameter","parameter":"fen"}'),
                             (503, b'{"error":"out of memory"}'),
                             (507, b'{"bytes":12416,"error":"full","games":64,"stored":0}')]:
            with support.CannedExplorer(status, body).running() as address, board_for(address) as (_, line):
                for target, games in (("/lichess", None), ("/player", None), ("/import", b"games")):
                    self.assertEqual(ask(place_of(line), target, games)[::2], (status, body))

    def test_an_explorer_that_does_not_answer_is_told(self):
        address = f"127.0.0.1:{support.free_port()}"
        with board_for(address) as (_, line):
            status, _, body = ask(place_of(line), "/lichess")
            self.assertEqual((status, json.loads(body)), (502, {"error": "no explorer", "address": address}))
        with socket.create_server(("127.0.0.1", 0)) as silent:
            address = f"127.0.0.1:{silent.getsockname()[1]}"
            with board_for(address, "--timeout", "0.3") as (_, line):
                status, _, body = ask(place_of(line), "/lichess")
                self.assertEqual((status, json.loads(body)), (504, {"error": "no answer", "address": address}))

    def test_pages_of_other_sites_are_refused(self):
        stand_in = support.CannedExplorer(200, b"{}")
        with stand_in.running() as address, board_for(address) as (_, line):
            place = place_of(line)
            self.assertEqual(ask(place, "/import", b"x", Origin="http://elsewhere.example")[0], 403)
            for target in ("/lichess", "/player"):
                self.assertEqual(ask(place, target, Host="elsewhere.example")[0], 403)
            self.assertEqual(ask(place, "/import", b"x", Origin=place)[0], 200)
        self.assertEqual(len(stand_in.asked), 1)

    def test_what_no_explorer_takes_is_refused(self):
        with board_for("127.0.0.1:1") as (_, line):
            place = place_of(line)
            self.assertEqual(ask(place, "/import", b"x", **{"Content-Length": "4194305"})[0], 413)
            for target in ("/lichess", "/player"):
                self.assertEqual(ask(place, target, b"x")[0], 404)
            self.assertEqual(ask(place, "/import")[0], 404)

    def test_games_come_back_as_the_program_counts_them(self):
        with support.explorer() as address, board_for(address) as (_, line):
            place, games = place_of(line), support.GAMES.read_bytes()
            self.assertEqual(json.loads(ask(place, "/import", games)[2])["stored"], 5)
            for query in ("", "play=e2e4&history=true", "speeds=blitz"):
                self.assertEqual(ask(place, f"/lichess?{query}")[2], support.count(query, games)[1])
            self.assertEqual(ask(place, "/lichess?fen=8/8")[0], 400)
            self.assertIn(b'"averageOpponentRating":2400,', ask(place, "/player?player=edward+lasker&color=white")[2])
            refused = 400, b'{"error":"malformed parameter","parameter":"player"}'
            self.assertEqual(ask(place, "/player?color=white")[::2], refused)


class Command(unittest.TestCase):
    def test_help_and_faulty_words(self):
        self.assertIn("usage: board", support.run_tool(BOARD, "--help")[1])
        for words in (["--explorer", "nowhere"], ["--port", "70000"], ["--port", "x"], ["games.pgn"]):
            status, _, errors = support.run_tool(BOARD, *words)
            self.assertEqual(status, 2)
            self.assertIn("board: error:", errors)

    def test_a_port_that_is_taken_is_told(self):
        with socket.create_server(("127.0.0.1", 0)) as taken:
            port = str(taken.getsockname()[1])
            status, _, errors = support.run_tool(BOARD, "--port", port)
            told = f"board: cannot listen on 127.0.0.1:{port}: Address already in use; --port and --bind name another place\n"
            self.assertEqual((status, errors), (1, told))


@unittest.skipUnless(shutil.which("node"), "node is not installed")
class Page(unittest.TestCase):
    def test_rules_of_chess_cutting_links_and_players(self):
        for name in ("test_chess.mjs", "test_cutting.mjs", "test_link.mjs", "test_player.mjs"):
            run = subprocess.run(["node", "--test", name], cwd=HERE, capture_output=True, check=False)
            self.assertEqual(run.returncode, 0, run.stdout.decode())


if __name__ == "__main__":
    unittest.main()
