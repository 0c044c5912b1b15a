#!/usr/bin/env python3
"""Tests of gather: one archive cut in four answers as the whole does."""
import contextlib
import json
import re
import unittest
import urllib.request

import support

TOOL = str(support.TOP / "tools/gather")
RESULTS = ("1-0", "0-1", "1/2-1/2")
TIMES = ("60+0", "180+2", "600+5", "5400+30")
LINES = [
    "1. e4 e5 2. Nf3 Nc6 3. Bb5", "1. e4 c5 2. Nf3 d6", "1. d4 d5 2. c4 e6", "1. d4 Nf6 2. c4 g6", "1. c4 e5",
    "1. Nf3 d5 2. g3", "1. e4 e6 2. d4 d5", "1. e4 e5 2. Bc4", "1. d4 f5", "1. b3", "1. e4 c6 2. d4 d5",
]
QUERIES = [
    "", "moves=3&history=true&topGames=2", "play=e2e4&history=true", "play=e2e4,e7e5&recentGames=1&moves=0",
    "speeds=blitz,rapid&ratings=1600,1800", "since=2020-03&until=2020-08&history=true", "play=b2b3",
]


def game(number):
    result = RESULTS[number * number % 3]
    tags = {
        "Event": "Rated game", "Site": f"https://example.org/{number:08}", "White": f"w{number % 9}",
        "Black": f"b{number % 7}", "Result": result, "UTCDate": f"2020.{number * 5 % 12 + 1:02}.15",
        "WhiteElo": 1500 + number * 37 % 700, "BlackElo": 1500 + number * 53 % 700,
        "TimeControl": TIMES[number % 4],
    }
    lines = [f'[{name} "{value}"]\n' for name, value in tags.items()]
    return f"{''.join(lines)}\n{LINES[number * 7 % len(LINES)]} {result}\n\n".encode()


SET_UP = "4k3/8/8/8/8/8/4P3/4K3 w - - 0 1"


def set_up(number, movetext="1. e4 Ke7 1-0"):
    """A game of a month of its own that begins in a position that it sets up."""
    tags, _, _ = game(number).decode().partition("\n\n")
    tags = re.sub(r'\[Result .*', f'[Result "{movetext.rpartition(" ")[2]}"]', tags)
    return f'{tags}\n[SetUp "1"]\n[FEN "{SET_UP}"]\n\n{movetext}\n\n'.encode()


EMPTY = {"black": 0, "draws": 0, "moves": [], "opening": None, "recentGames": [], "topGames": [], "white": 0}
PARTS = [b"".join(map(game, range(start, start + 15))) for start in range(0, 60, 15)]


AVERAGES = ("averageRating", "averageOpponentRating")
NO_GAMES_OF_A_PLAYER = {name: value for name, value in EMPTY.items() if name != "topGames"}


def without_averages(answer):
    moves = [{name: value for name, value in move.items() if name not in ("about", *AVERAGES)} for move in answer["moves"]]
    return {**answer, "moves": moves}


class Joining(unittest.TestCase):
    def setUp(self):
        self.contexts = contextlib.ExitStack()
        self.addCleanup(self.contexts.close)

    def stores(self, parts, *words):
        return [self.contexts.enter_context(support.explorer(part, *words)) for part in parts]

    def test_four_parts_answer_as_the_whole(self):
        addresses = self.stores(PARTS)
        for query in QUERIES:
            with self.subTest(query):
                status, output, errors = support.run_tool(TOOL, *addresses, "--query", query)
                self.assertEqual((status, errors), (0, ""))
                answer, whole = json.loads(output), json.loads(support.count(query, b"".join(PARTS))[1])
                self.assertEqual(without_averages(answer), without_averages(whole))
                for move, wanted in zip(answer["moves"], whole["moves"]):
                    self.assertIn(wanted["averageRating"] - move["averageRating"], (0, 1) if "about" in move else (0,))

    def test_games_from_set_up_positions_and_labels_pass_through(self):
        parts = [set_up(1), set_up(2, "1. e3 Kd7 1/2-1/2"), set_up(3, "1. Kd2 0-1") + game(4)]
        addresses = self.stores(parts, "--label", "a part")
        for query in (f"fen={SET_UP}&history=true", f"fen={SET_UP}&play=e2e4", "", "play=d2d4"):
            output = support.run_tool(TOOL, *addresses, "--query", query.replace(" ", "%20"))[1]
            answer, whole = json.loads(output), json.loads(support.count(query, b"".join(parts))[1])
            self.assertEqual(without_averages(answer), without_averages(whole))

    def test_a_players_games_in_four_parts_are_those_of_the_whole(self):
        addresses, [whole] = self.stores(PARTS), self.stores([b"".join(PARTS)])
        for query in ("player=w1&color=white", "player=B3&color=black&moves=1&recentGames=2", "player=w1&color=white&speeds=blitz",
                      "player=w2&color=white&play=e2e4&since=2020-03", "player=w2&color=white&modes=casual", "player=w1&color=black"):
            with self.subTest(query):
                with urllib.request.urlopen(f"http://{whole}/player?{query}", timeout=60) as reply:
                    wanted = reply.read()
                status, output, errors = support.run_tool(TOOL, whole, "--player", "--query", query)
                self.assertEqual((status, output.rstrip("\n").encode(), errors), (0, wanted, ""))
                status, output, errors = support.run_tool(TOOL, *addresses, "--player", "--query", query)
                self.assertEqual((status, errors), (0, ""))
                answer, wanted = json.loads(output), json.loads(wanted)
                self.assertEqual(without_averages(answer), without_averages(wanted))
                for move, one in zip(answer["moves"], wanted["moves"]):
                    self.assertIn(one["averageOpponentRating"] - move["averageOpponentRating"], (0, 1) if "about" in move else (0,))

    def test_one_store_is_printed_as_it_answers(self):
        addresses = self.stores(PARTS[:1])
        for query in QUERIES[:3]:
            output = support.run_tool(TOOL, *addresses, "--query", query)[1]
            self.assertEqual(output.rstrip("\n"), support.count(query, PARTS[0])[1].decode())

    def test_a_malformed_query_is_told(self):
        addresses = self.stores(PARTS[:2])
        malformed = [
            ("fen=8/8", "fen"), ("moves=x", "moves"), ("moves=1&moves=2", "moves"), ("topGames=-1", "topGames"),
        ]
        for query, name in malformed:
            status, output, errors = support.run_tool(TOOL, *addresses, "--query", query)
            self.assertEqual((status, output), (1, ""))
            self.assertIn(f"answers 400: malformed parameter {name}; docs/QUERIES.md has what each parameter takes\n", errors)


class Averages(unittest.TestCase):
    def test_an_average_over_several_stores_is_told_as_about(self):
        def answer(*moves):
            listed = [{"averageRating": rating, "black": 0, "draws": 0, "game": None, "opening": None, "san": uci, "uci": uci,
                       "white": games} for uci, rating, games in moves]
            return json.dumps({**EMPTY, "moves": listed}).encode()

        one = support.CannedExplorer(200, answer(("e2e4", 2000, 2), ("d2d4", 1900, 2)))
        other = support.CannedExplorer(200, answer(("e2e4", 1999, 2)))
        with one.running() as first, other.running() as second:
            for addresses, about in [((first,), {}), ((first, second), {"e2e4": (["averageRating"], 1999)})]:
                moves = json.loads(support.run_tool(TOOL, *addresses)[1])["moves"]
                self.assertEqual({move["uci"]: (move["about"], move["averageRating"]) for move in moves if "about" in move}, about)


def listed(number, month):
    return {"black": {"name": "Bob", "rating": 1400}, "id": f"{number:08}", "mode": "rated", "month": month, "speed": "blitz",
            "uci": "e2e4", "white": {"name": "Ann", "rating": 1500}, "winner": "white", "year": int(month[:4])}


class Players(unittest.TestCase):
    """A player's games, over stand-ins for the explorers."""

    def setUp(self):
        self.contexts = contextlib.ExitStack()
        self.addCleanup(self.contexts.close)

    def answering(self, *bodies, status=200):
        stand_ins = [support.CannedExplorer(status, json.dumps(body).encode()) for body in bodies]
        return stand_ins, [self.contexts.enter_context(stand_in.running()) for stand_in in stand_ins]

    def gather(self, addresses, query="player=ann&color=white"):
        return support.run_tool(TOOL, *addresses, "--player", "--query", query)

    def test_their_answers_are_joined(self):
        def body(games, *moves):
            lines = [{"averageOpponentRating": rating, "black": 0, "draws": 1, "game": only, "opening": None, "san": uci, "uci": uci,
                      "white": white} for uci, rating, white, only in moves]
            return {"black": 0, "draws": len(moves), "moves": lines, "opening": None, "recentGames": games,
                    "white": sum(line["white"] for line in lines)}

        games = [listed(number, f"2020-{month}") for number, month in enumerate(("03", "01", "03", "02", "01"))]
        bodies = [body(games[:2], ("e2e4", 2000, 2, None), ("d2d4", 1900, 1, None)),
                  body(games[2:], ("e2e4", 1999, 1, None), ("c2c4", 1700, 0, games[3]))]
        stand_ins, addresses = self.answering(*bodies)
        status, output, errors = self.gather(addresses)
        self.assertEqual((status, errors), (0, ""))
        moves = [("e2e4", 1999, 3, 2, None), ("d2d4", 1900, 1, 1, None), ("c2c4", 1700, 0, 1, games[3])]
        lines = [{"averageOpponentRating": rating, "black": 0, "draws": draws, "game": only, "opening": None, "san": uci, "uci": uci,
                  "white": white} for uci, rating, white, draws, only in moves]
        lines[0]["about"] = ["averageOpponentRating"]
        self.assertEqual(json.loads(output), {"black": 0, "draws": 4, "moves": lines, "opening": None, "white": 4,
                                              "recentGames": [games[2], games[0], games[3], games[4]]})
        asked = "/player?player=ann&color=white&moves=999999"
        self.assertEqual([stand_in.asked[0][1] for stand_in in stand_ins], [asked, asked])
        status, output, _ = self.gather(addresses, "player=ann&color=white&moves=1&recentGames=0")
        self.assertEqual((status, [move["uci"] for move in json.loads(output)["moves"]]), (0, ["e2e4"]))
        self.assertEqual(json.loads(output)["recentGames"], [])

    def test_one_store_is_printed_as_it_answers(self):
        _, addresses = self.answering(NO_GAMES_OF_A_PLAYER)
        self.assertEqual(self.gather(addresses), (0, support.compact(NO_GAMES_OF_A_PLAYER).decode() + "\n", ""))

    def test_what_an_explorer_refuses_is_told(self):
        for status, body, words in [
            (400, {"error": "malformed parameter", "parameter": "player"},
             " answers 400: malformed parameter player; docs/QUERIES.md has what each parameter takes\n"),
            (404, {"error": "not found"}, " answers 404: not found; the path of a proxy goes behind the address, as HOST:PORT/2024\n"),
            (200, {"white": 1}, " does not answer as an explorer does; is that its address?\n"),
        ]:
            _, [address] = self.answering(body, status=status)
            self.assertEqual(self.gather([address], "color=white"), (1, "", f"gather: {address}{words}"))


class Openings(unittest.TestCase):
    def test_they_are_those_of_an_explorer_that_names_them(self):
        def answer(whole, name):
            move = {"averageRating": 1500, "black": 0, "draws": 0, "game": None, "opening": name, "san": "e4", "uci": "e2e4", "white": 2}
            return json.dumps({**EMPTY, "moves": [move], "opening": whole}).encode()

        whole, name = {"eco": "A00", "name": "Start"}, {"eco": "B00", "name": "King's Pawn"}
        replies = [answer(None, None), answer(whole, name), answer(None, name)]
        with contextlib.ExitStack() as running:
            addresses = [running.enter_context(support.CannedExplorer(200, reply).running()) for reply in replies]
            for asked, wanted in ((addresses, (whole, name)), (addresses[:1], (None, None)), (addresses[2:], (None, name))):
                joined = json.loads(support.run_tool(TOOL, *asked)[1])
                self.assertEqual((joined["opening"], joined["moves"][0]["opening"]), wanted)


class Faults(unittest.TestCase):
    def test_an_explorer_that_is_down(self):
        address = f"127.0.0.1:{support.free_port()}"
        with support.CannedExplorer(200, json.dumps(EMPTY).encode()).running() as other:
            told = (f"gather: {address} does not answer: Connection refused; is an explorer running there?"
                    f" explorer serve STORE {address}\n")
            self.assertEqual(support.run_tool(TOOL, other, address), (1, "", told))

    def test_replies_of_other_status(self):
        path = "the path of a proxy goes behind the address, as HOST:PORT/2024"
        for status, error, more in [(503, "out of memory", "; ask again"), (503, "no reading", "; ask again"),
                                    (404, "not found", f"; {path}"), (500, "disk fault", "")]:
            with support.CannedExplorer(status, json.dumps({"error": error}).encode()).running() as address:
                told = f"gather: {address} answers {status}: {error}{more}\n"
                self.assertEqual(support.run_tool(TOOL, address), (1, "", told))

    def test_a_proxy_whose_explorer_is_down(self):
        with support.CannedExplorer(502, b"<html>").running() as address:
            told = f"gather: {address} answers 502; does the explorer run that the proxy asks?\n"
            self.assertEqual(support.run_tool(TOOL, address), (1, "", told))

    def test_what_is_no_explorer(self):
        for body in (b"<html>", b"{}", b"[]"):
            with support.CannedExplorer(200, body).running() as address:
                told = f"gather: {address} does not answer as an explorer does; is that its address?\n"
                self.assertEqual(support.run_tool(TOOL, address), (1, "", told))

    def test_a_pipe_that_closes(self):
        with support.CannedExplorer(200, json.dumps(EMPTY).encode()).running() as address:
            self.assertEqual(support.run_into_closed_pipe(TOOL, address), (1, "gather: the output was closed\n"))

    def test_a_path_before_that_of_the_explorer(self):
        stand_in = support.CannedExplorer(200, json.dumps(EMPTY).encode())
        with stand_in.running() as address:
            support.run_tool(TOOL, f"{address}/2020/", "--query", "play=e2e4")
        self.assertEqual(stand_in.asked[0][1], "/2020/lichess?play=e2e4&moves=999999")

    def test_help_and_faulty_words(self):
        self.assertIn("usage: gather", support.run_tool(TOOL, "--help")[1])
        for words in ([], ["nowhere"], ["127.0.0.1:99999"], ["127.0.0.1:1", "--timeout", "x"]):
            self.assertEqual(support.run_tool(TOOL, *words)[0], 2)


if __name__ == "__main__":
    unittest.main()
