#!/usr/bin/env python3
"""Tests of the page in a headless Chromium (Debian: apt-get install chromium).

With PICTURES set to a folder, the first tests also write pictures there; ARCHIVE names the games
that they show, and else those of games.pgn are taken; OPENINGS names a file of openings, if any.
"""
import contextlib
import json
import os
import pathlib
import sys
import tempfile
import time
import unittest
import urllib.parse

HERE = pathlib.Path(__file__).resolve().parent
sys.path[:0] = [str(HERE), str(HERE.parent)]
import browser as chromium  # noqa: E402
import test_board  # noqa: E402
import support  # noqa: E402

TAGS = ('[Event "{event}"]\n[Site "https://example.org/{id}"]\n[White "{white}"]\n[Black "Bob"]\n[Result "1-0"]\n'
        '[UTCDate "2020.01.15"]\n[WhiteElo "1500"]\n[BlackElo "1400"]\n[TimeControl "{time}"]\n\n{moves}\n\n')
SETTLED = "document.querySelector('#answer').getAttribute('aria-busy') === 'false'"


def game(number, moves="1. e4 e5 1-0", white="Ann", event="Rated game", time="300+0"):
    return TAGS.format(event=event, id=f"{number:08}", white=white, moves=moves, time=time)


def set_up(number, fen, moves="1. e4 1-0"):
    return game(number, moves).replace("\n\n", f'\n[SetUp "1"]\n[FEN "{fen}"]\n\n', 1)


def total(entry):
    return entry["white"] + entry["draws"] + entry["black"]


def text_of(selector):
    return f"document.querySelector({json.dumps(selector)}).textContent"


class Page(unittest.TestCase):
    """Each test has a page of its own in one browser."""

    @classmethod
    def setUpClass(cls):
        if chromium.installed() is None:
            raise unittest.SkipTest("no Chromium is installed")
        cls.contexts = contextlib.ExitStack()
        cls.browser = cls.contexts.enter_context(chromium.running())

    @classmethod
    def tearDownClass(cls):
        cls.contexts.close()

    def setUp(self):
        self.own = contextlib.ExitStack()
        self.addCleanup(self.own.close)
        self.browser.faults.clear()

    def tearDown(self):
        self.assertEqual(self.browser.faults, [])

    def open(self, address, **look):
        _, line = self.own.enter_context(test_board.board_for(address, "--timeout", "300"))
        self.open_at(test_board.place_of(line), **look)

    def open_at(self, place, **look):
        self.place = place
        self.browser.show(self.place + "/", **look)
        self.browser.wait(SETTLED)

    def open_canned(self, *replies):
        stand_in = support.CannedExplorer(*replies)
        self.open(self.own.enter_context(stand_in.running()))
        return stand_in

    def open_answering(self, answer, *words):
        """Opens the page over an explorer whose replies to queries a function gives, of their parameters and some words."""
        stand_in = support.CannedExplorer(200, EMPTY)
        stand_in.reply_to = lambda _, target, *__: answer(dict(urllib.parse.parse_qsl(target.partition("?")[2])), *words)
        self.open(self.own.enter_context(stand_in.running()))
        return stand_in

    def open_with_games(self, games=None, **look):
        archive = os.environ.get("ARCHIVE", support.GAMES)
        games = pathlib.Path(archive).read_bytes() if games is None else games
        served = ["--openings", os.environ["OPENINGS"]] if "OPENINGS" in os.environ else []
        address = self.own.enter_context(support.explorer(served=served))
        self.open(address, **look)
        test_board.ask(self.place, "/import", games)
        self.browser.show(self.place + "/", **look)
        self.settled()

    def settled(self):
        self.browser.wait(SETTLED, 60)

    def text(self, selector):
        return self.browser.evaluate(text_of(selector))

    def see(self, selector, words):
        self.browser.wait(f"{text_of(selector)}.includes({json.dumps(words)})", 60)

    def play(self, start, end):
        self.browser.click(f"[data-square={start}]")
        self.browser.click(f"[data-square={end}]")
        self.settled()

    def set_fen(self, fen):
        """Sets a position of four fields, which the page shows with six once it has taken it."""
        self.browser.write("#fen", fen)
        self.browser.key("Enter")
        self.browser.wait(f"document.querySelector('#fen').value === {json.dumps(fen + ' 0 1')}")

    def rows(self, selector):
        """The texts of the cells of a table, by row."""
        return self.browser.on(selector, """
            const rows = [...node.querySelectorAll("tbody tr")];
            return rows.map((row) => [...row.cells].map((cell) => cell.textContent));""")

    def file(self, data):
        path = pathlib.Path(self.own.enter_context(tempfile.TemporaryDirectory())) / "games.pgn"
        path.write_bytes(data)
        self.browser.choose("#file", path)

    def picture(self, name, selector="body"):
        folder = os.environ.get("PICTURES")
        if folder:
            self.browser.picture(os.path.join(folder, name), selector)

    def answers(self, query=""):
        return json.loads(test_board.ask(self.place, f"/lichess?{query}")[2])


class Answers(Page):
    def test_three_moves_are_played(self):
        self.open_with_games(height=800)
        self.play("e2", "e4")
        self.browser.drag("[data-square=e7]", "[data-square=e5]")
        self.settled()
        self.browser.click("[data-uci=g1f3] button")
        self.settled()
        self.assertEqual(self.text("#line"), "1. e4e52. Nf3")
        wanted = self.answers("play=e2e4,e7e5,g1f3&moves=99")
        rows = [(move["san"], f"{total(move):,}", str(move["averageRating"])) for move in wanted["moves"]]
        self.assertEqual([(cells[0], cells[1], cells[-1]) for cells in self.rows(".moves")], rows)
        listed = self.browser.evaluate("document.querySelectorAll('#top-games li').length")
        self.assertEqual(listed, len(wanted["topGames"]))
        self.picture("moves.png")

    def test_games_are_filtered(self):
        self.open_with_games(height=800)
        self.browser.click("#speeds label:nth-child(5)")
        self.browser.click("#ratings label:nth-child(8)")
        self.browser.on("#since", "node.value = '1900-01'; node.dispatchEvent(new Event('change'));")
        self.settled()
        wanted = self.answers("speeds=classical&ratings=2200&since=1900-01&moves=99")
        self.see("#totals", f"{total(wanted):,} game" if total(wanted) else "No game")
        self.picture("filter.png")
        self.browser.on("#until", "node.value = '1899-12'; node.dispatchEvent(new Event('change'));")
        self.see("#totals", "No game of the store comes to this position with these filters.")
        self.browser.click("#clear")
        self.see("#totals", "5 games" if "ARCHIVE" not in os.environ else "games")

    def test_steps_go_back_and_forward(self):
        self.open_with_games(support.GAMES.read_bytes())
        for move in ("e2 e4", "c7 c6", "d2 d4"):
            self.play(*move.split())
        for key, games in (("ArrowLeft", "1 game"), ("Home", "5 games"), ("ArrowRight", "3 games"), ("End", "1 game")):
            self.browser.key(key)
            self.settled()
            self.see("#totals", games)
        self.browser.click("#back")
        self.settled()
        self.play("d2", "d4")
        self.assertEqual(self.text("#line"), "1. e4c62. d4")
        self.browser.key("f")
        self.assertEqual(self.browser.evaluate("document.querySelector('.square').dataset.square"), "h1")

    def test_the_board_is_played_by_keys(self):
        self.open_with_games(support.GAMES.read_bytes())
        self.browser.evaluate("document.querySelector('[data-square=e2]').focus()")
        for key in ("Enter", "ArrowUp", "ArrowUp", "Enter"):
            self.browser.key(key)
        self.settled()
        self.see("#totals", "3 games")

    def test_a_phone_in_the_dark(self):
        self.open_with_games(width=390, height=800, dark=True)
        self.browser.call("Emulation.setTouchEmulationEnabled", enabled=True)
        self.browser.touch("[data-square=e2]")
        self.browser.touch("[data-square=e4]")
        self.settled()
        self.browser.call("Emulation.setTouchEmulationEnabled", enabled=False)
        self.assertEqual(self.text("#line"), "1. e4")
        self.assertTrue(self.browser.evaluate("document.documentElement.scrollWidth <= innerWidth"))
        self.picture("phone.png")

    def test_special_moves(self):
        self.open_canned(200, EMPTY)
        for fen, moves, line in SPECIAL:
            self.set_fen(fen)
            for move in moves:
                if len(move) == 1:
                    self.browser.click(f"#promotion [aria-label={PROMOTED[move]}]")
                else:
                    self.play(*move.split())
            self.see("#line", line)

    def test_openings_are_named(self):
        bodies = {"": named(None, ("e4", "e2e4", opening("B00", "King's Pawn Game")), ("d4", "d2d4", None)),
                  "e2e4": named(opening("B00", "King's Pawn Game"), ("c5", "c7c5", opening("B20", "<b>Sicilian</b> Defense")))}
        self.open_answering(lambda asked: (200, support.compact(bodies[asked.get("play", "")])))
        self.assertEqual(self.text("#opening"), "")
        self.assertEqual([row[3] for row in self.rows("#moves")], ["100%B00 King's Pawn Game", "100%"])
        self.browser.click("[data-uci=e2e4] button")
        self.settled()
        self.assertEqual(self.text("#opening"), "B00 King's Pawn Game")
        self.assertEqual([row[3] for row in self.rows("#moves")], ["100%B20 <b>Sicilian</b> Defense"])
        self.browser.call("Emulation.setDeviceMetricsOverride", width=390, height=800, deviceScaleFactor=1, mobile=True)
        self.assertTrue(self.browser.evaluate("document.documentElement.scrollWidth <= innerWidth"))

    def test_openings_are_those_of_a_file(self):
        with tempfile.NamedTemporaryFile() as file:
            file.write(b"B00\tKing's Pawn Game\t1. e4\nC20\tOpen Game\t1. e4 e5\n")
            file.flush()
            address = self.own.enter_context(support.explorer(support.GAMES.read_bytes(), served=["--openings", file.name]))
        self.open(address)
        self.assertIn("B00 King's Pawn Game", self.text("[data-uci=e2e4]"))
        for uci, name in (("e2e4", "B00 King's Pawn Game"), ("e7e5", "C20 Open Game"), ("f2f4", "C20 Open Game")):
            self.browser.click(f"[data-uci={uci}] button")
            self.settled()
            self.see("#opening", name)

    def test_a_link_leads_to_what_is_shown(self):
        stand_in = self.open_canned(200, EMPTY)
        self.set_fen(SPECIAL[0][0])
        self.play("e1", "g1")
        self.browser.click("#speeds [value=blitz] + span")
        self.browser.on("#since", "node.value = '2020-01'; node.dispatchEvent(new Event('change'));")
        self.settled()
        for _ in range(500):
            if "since=2020-01" in stand_in.asked[-1][1]:
                break
            time.sleep(0.02)
        self.browser.click("#link")
        self.browser.wait("document.querySelector('#linked').textContent !== ''")
        link, asked = self.browser.evaluate("location.href"), stand_in.asked[-1][1]
        wanted = "/#fen=r3k2r/8/8/8/8/8/8/R3K2R+w+KQkq+-&play=e1g1&speeds=blitz&since=2020-01"
        self.assertEqual(link, self.place + wanted)
        for place in ("about:blank", link, self.place + "/#play=e2e4", link):
            self.browser.show(place)
        self.settled()
        self.assertEqual((self.text("#line"), stand_in.asked[-1][1]), ("1. O-O", asked))
        self.browser.click("#start")
        self.browser.click("#clear")
        self.settled()
        self.browser.evaluate("history.back()")
        self.see("#line", "1. e4")

    def test_a_faulty_link_is_told(self):
        self.open_canned(200, EMPTY)
        for asked, line, words in [("play=e2e4,e7e6,e4e6", "1. e4e6", "The link goes on with “e4e6”, which is no legal move here."),
                                   ("fen=8/8", "", "The link has no position. The board has 2 ranks, not 8.")]:
            self.browser.show(f"{self.place}/#{asked}")
            self.see("#error", words)
            self.assertEqual(self.text("#line"), line)

    def test_names_are_texts(self):
        name = "<img src=x onerror=alert(1)><b>Ann</b>"
        self.open_with_games(game(1, white=name).encode())
        self.see("#top-games", f"{name} (1500)")


def opening(code, name):
    return {"eco": code, "name": name}


def named(whole, *moves):
    """An answer with the openings of its whole and of its moves, each of which has one game."""
    won = {"averageRating": 1500, "black": 0, "draws": 0, "game": None, "white": 1}
    return {**json.loads(EMPTY), "moves": [{**won, "opening": name, "san": san, "uci": uci} for san, uci, name in moves],
            "opening": whole, "white": len(moves)}


EMPTY = b'{"black":0,"draws":0,"history":[],"moves":[],"opening":null,"recentGames":[],"topGames":[],"white":0}'
PROMOTED = {"q": "queen", "n": "knight"}
SPECIAL = [
    ("r3k2r/8/8/8/8/8/8/R3K2R w KQkq -", ["e1 g1", "e8 c8"], "1. O-OO-O-O"),
    ("4k3/P7/8/8/8/8/8/4K3 w - -", ["a7 a8", "n"], "1. a8=N"),
    ("4k3/3p4/8/4P3/8/8/8/4K3 b - -", ["d7 d5", "e5 d6"], "1… d52. exd6"),
]


def players_reply(asked):
    """The reply to a query, or to one for the games of a player who won two games of four with White and one with Black."""
    if "player" not in asked:
        return 200, EMPTY
    if asked.get("color") not in ("white", "black"):
        return 400, b'{"error":"malformed parameter","parameter":"color"}'
    name = asked["player"]
    if name == "Nobody":
        return 200, support.compact({"black": 0, "draws": 0, "moves": [], "opening": None, "recentGames": [], "white": 0})
    won = {"black": 1, "draws": 1, "white": 2}
    listed = {"black": {"name": "Bob", "rating": 1400}, "id": "00000001", "mode": "rated", "month": "2020-01", "speed": "blitz",
              "uci": "e2e4", "white": {"name": name, "rating": 1500}, "winner": "white", "year": 2020}
    move = {"averageOpponentRating": 1450, **won, "game": None, "opening": opening("B00", "King's Pawn Game"), "san": "e4", "uci": "e2e4"}
    moves = [] if asked.get("play") else [move]
    return 200, support.compact({**won, "moves": moves, "opening": None, "recentGames": [listed], "white": 2})


class Players(Page):
    def ask_for(self, name):
        self.browser.write("#player", name)
        self.browser.key("Enter")
        self.settled()

    def last_asked(self, stand_in):
        """The path and the parameters that the page asked for last, without those that are the same in all questions."""
        path, _, query = stand_in.asked[-1][1].partition("?")
        return path, {name: value for name, value in urllib.parse.parse_qsl(query) if name != "moves"}

    def is_seen(self, selector):
        return self.browser.on(selector, "return node.offsetHeight > 0;")

    def bar(self):
        """The words of the bar of the first move, and its colours from left to right."""
        return self.browser.on("#moves .bar", "return [node.title, [...node.children].map((part) => part.className)];")

    def test_the_games_of_a_player_are_told_from_the_players_side(self):
        stand_in = self.open_answering(players_reply)
        self.ask_for("Ann")
        self.assertEqual(self.last_asked(stand_in), ("/player", {"player": "Ann", "color": "white"}))
        self.assertEqual(self.text("#totals"), "4 games of Ann with White: 50% won, 25% drawn, 25% lost")
        self.assertEqual(self.text("#moves thead"), "MoveGamesShareWon, drawn, lostOpponents’ rating")
        self.assertEqual(self.rows("#moves"), [["e4", "4", "100%", "50%25%25%B00 King's Pawn Game", "1450"]])
        self.assertEqual(self.bar(), ["2 won, 1 drawn, 1 lost", ["white", "draws", "black"]])
        self.assertIn("Ann (1500) – Bob (1400)1-02020-01", self.text("#recent-games"))
        for selector in ("#top-games", "#history", "#ratings"):
            self.assertFalse(self.is_seen(selector), selector)
        self.browser.click("#color label:nth-child(2)")
        self.see("#totals", "4 games of Ann with Black: 25% won, 25% drawn, 50% lost")
        self.assertEqual(self.bar(), ["1 won, 1 drawn, 2 lost", ["black", "draws", "white"]])
        self.browser.click("#modes label:nth-child(2)")
        self.browser.click("#speeds [value=blitz] + span")
        self.settled()
        self.browser.click("[data-uci=e2e4] button")
        self.see("#moves", "No move was played here.")
        self.assertEqual(self.last_asked(stand_in), (
            "/player", {"player": "Ann", "color": "black", "modes": "casual", "play": "e2e4", "speeds": "blitz"}))
        self.ask_for("Nobody")
        self.assertEqual(self.text("#totals"), "No game of Nobody with Black comes to this position with these filters.")

    def test_without_a_name_the_page_is_that_of_all_games(self):
        stand_in = self.open_answering(players_reply)
        wanted = "/lichess", {"history": "true"}
        self.assertEqual(self.last_asked(stand_in), wanted)
        self.browser.click("#color label:nth-child(2)")
        self.ask_for("  ")
        self.assertEqual(self.last_asked(stand_in), wanted)
        for clear in ("#everybody", None):
            self.ask_for(" Ann ")
            self.assertEqual(self.last_asked(stand_in)[1]["player"], "Ann")
            if clear:
                self.browser.click(clear)
            else:
                self.ask_for("")
            self.see("#totals", "No game of the store comes to this position with these filters.")
            self.assertEqual(self.last_asked(stand_in), wanted)
            for selector in ("#top-games", "#history", "#ratings"):
                self.assertTrue(self.is_seen(selector), selector)
        self.assertTrue(self.browser.evaluate("document.querySelector('#everybody').disabled"))

    def test_a_link_leads_to_the_games_of_a_player(self):
        stand_in = self.open_answering(players_reply)
        self.ask_for("Müller, K.")
        self.browser.click("#color label:nth-child(2)")
        self.browser.click("#modes label:nth-child(1)")
        self.see("#totals", "with Black")
        self.settled()
        self.browser.click("#link")
        self.browser.wait("document.querySelector('#linked').textContent !== ''")
        link, asked = self.browser.evaluate("location.href"), self.last_asked(stand_in)
        self.assertEqual(link, f"{self.place}/#player=M%C3%BCller,+K.&color=black&modes=rated")
        self.browser.show("about:blank")
        self.browser.show(link)
        self.settled()
        self.assertEqual(self.browser.evaluate("document.querySelector('#player').value"), "Müller, K.")
        self.assertEqual((self.text("#totals").partition(":")[0], self.last_asked(stand_in)), ("4 games of Müller, K. with Black", asked))
        self.browser.evaluate("location.hash = ''")
        self.see("#totals", "No game of the store")
        self.ask_for("Ann")
        self.assertEqual(self.last_asked(stand_in), ("/player", {"player": "Ann", "color": "white"}))

    def test_what_is_refused_is_told(self):
        self.open_answering(players_reply)
        self.browser.show(f"{self.place}/#player=Ann")
        self.see("#error", "A player's games are those of one colour: pick white or black.")
        self.assertEqual(self.text("#totals"), "")
        self.browser.click("#color label:nth-child(1)")
        self.see("#totals", "4 games of Ann with White")
        self.assertTrue(self.browser.evaluate("document.querySelector('#error').hidden"))
        for status, body, words in [
            (400, b'{"error":"malformed parameter","parameter":"player"}', "A player's games are found by the player's name, which is missing."),
            (404, b'{"error":"not found"}', "What answers knows no games of a player"),
            (503, b'{"error":"out of memory"}', "The explorer had no memory for this."),
        ]:
            self.open_answering(lambda asked, *reply: reply if "player" in asked else (200, EMPTY), status, body)
            self.ask_for("Ann")
            self.see("#error", words)
            self.assertFalse(self.is_seen(".games"))
            self.browser.click("#everybody")
            self.see("#totals", "No game of the store")

    def test_a_player_on_a_phone(self):
        self.open_answering(players_reply)
        self.browser.call("Emulation.setDeviceMetricsOverride", width=390, height=800, deviceScaleFactor=1, mobile=True)
        self.ask_for("<b>" + 60 * "N")
        self.assertIn("<b>NNN", self.text("#totals"))
        self.assertTrue(self.browser.evaluate("document.documentElement.scrollWidth <= innerWidth"))

    def test_the_games_of_a_player_are_those_of_the_store(self):
        self.open_with_games(support.GAMES.read_bytes())
        self.ask_for("edward lasker")
        self.see("#totals", "1 game of edward lasker with White: 100% won")
        self.assertEqual([(cells[0], cells[-1]) for cells in self.rows("#moves")], [("d4", "2400")])
        self.browser.click("#color label:nth-child(2)")
        self.see("#totals", "No game of edward lasker with Black")
        self.browser.click("#modes label:nth-child(1)")
        self.browser.click("#color label:nth-child(1)")
        self.see("#totals", "No game of edward lasker with White")


class Imports(Page):
    def test_a_bad_game_is_reported(self):
        self.open_with_games(height=800)
        bad = game(2, "1. e4 e5 2. Ke3 1-0", white="Zoé")
        before = game(1, "1. c4 e5 1-0")
        self.file((before + bad + game(3, "1. c4 c5 1-0")).encode())
        self.browser.click("#send")
        self.see("#imported", "Done: 2 games stored, 1 refused")
        [cells] = self.rows("#report")
        self.assertEqual(cells[:3], [str(len(before)), str(before.count("\n") + 1), "ply 3 is no legal move"])
        self.assertIn("1. e4 e5 2. Ke3 1-0", cells[3])
        self.assertEqual(self.text("#report mark"), "Ke3")
        self.see("#moves", "c4")
        self.picture("import.png", ".import")

    def test_a_large_file_goes_in_parts(self):
        stored = b'{"batches":1,"refused":[{"place":0,"why":"Lex 5"}],"stored":7}'
        stand_in = self.open_canned(200, EMPTY, (200, stored))
        games = "".join(game(number, "1. e4 {%s} e5 1-0" % ("x" * 20_000)) for number in range(300)).encode()
        self.file(games)
        self.browser.click("#send")
        self.see("#imported", "Done")
        parts = [body for method, _, _, body in stand_in.asked if method == "POST"]
        self.assertEqual(b"".join(parts), games)
        self.assertGreater(len(parts), 4)
        self.assertTrue(all(len(part) < 4_194_304 and part.startswith(b"[Event ") for part in parts))
        self.see("#imported", f"{7 * len(parts)} games stored, {len(parts)} refused")
        self.see("#imported", f"{len(games):,} of {len(games):,} bytes sent.")

    def test_games_from_set_up_positions(self):
        stored = b'{"batches":1,"refused":[{"place":0,"why":"BadSetUp 1"}],"stored":3}'
        self.open_canned(200, EMPTY, (200, stored))
        ending, other = "4k3/8/8/8/8/8/4P3/4K3 w - - 0 1", "4k3/4p3/8/8/8/8/8/4K3 b - - 7 30"
        games = [set_up(1, "8/8/8/8/8/8/8/8 w - -"), set_up(2, other), set_up(3, ending), game(4), set_up(5, ending.replace("0 1", "3 9"))]
        self.file("".join(games).encode())
        self.browser.click("#send")
        self.see("#imported", "Done: 3 games stored, 1 refused")
        self.assertEqual(self.rows("#report")[0][2], "the tag FEN sets up no position: the pieces on the board (field 1)")
        self.assertEqual(self.text("#report mark"), '[FEN "8/8/8/8/8/8/8/8 w - -"]')
        listed = self.browser.on("#set-ups", "return [...node.querySelectorAll('li')].map((item) => item.textContent);")
        self.assertEqual(listed, [f"{ending} 2 games", f"{other.replace('7 30', '0 1')} 1 game"])
        self.browser.click("#set-ups button")
        self.browser.wait(f"document.querySelector('#fen').value === {json.dumps(ending)}")
        self.settled()
        self.play("e2", "e4")
        self.assertEqual(self.text("#line"), "1. e4")

    def test_a_game_from_a_set_up_position_is_counted_there(self):
        self.open_with_games(set_up(1, "4k3/8/8/8/8/8/4P3/4K3 w - - 0 1", "1. e3 Kd7 1-0").encode())
        self.see("#totals", "No game of the store comes to this position")
        self.browser.show(f"{self.place}/#fen=4k3/8/8/8/8/8/4P3/4K3+w+-+-+0+1")
        self.see("#totals", "1 game")
        self.browser.click("[data-uci=e2e3] button")
        self.see("#moves", "Kd7")

    def test_files_that_are_no_games(self):
        stand_in = self.open_canned(200, EMPTY)
        for data, place, words in [
            (b"", "#import-error", "The file is empty."),
            (b"hello\n", "#import-error", "This is no file of games in PGN"),
            (b"\x28\xb5\x2f\xfd0", "#import-error", "packed (Zstandard)"),
        ]:
            self.file(data)
            self.browser.click("#send")
            self.see(place, words)
            self.assertTrue(self.browser.evaluate("document.querySelector('#progress').hidden"))
        self.assertEqual([asked for asked in stand_in.asked if asked[0] == "POST"], [])


class Site(Page):
    def test_nginx_serves_the_page(self):
        support.needs("nginx")
        port = support.free_port()
        stand_in = support.CannedExplorer(200, EMPTY, (200, b'{"batches":1,"refused":[],"stored":1}'))
        with stand_in.running() as address, support.nginx(support.plain_site(port, address), port):
            self.open_at(f"http://127.0.0.1:{port}")
            self.play("e2", "e4")
            self.assertIn("play=e2e4", stand_in.asked[-1][1])
            self.browser.write("#player", "Ann")
            self.browser.key("Enter")
            self.see("#totals", "No game of Ann with White")
            self.assertTrue(stand_in.asked[-1][1].startswith("/player?"))
            self.browser.click("#everybody")
            self.see("#totals", "No game of the store")
            self.file(game(1).encode())
            self.browser.click("#send")
            self.see("#imported", "Done: 1 game stored")
        with support.nginx(support.plain_site(port, f"127.0.0.1:{support.free_port()}"), port):
            self.browser.click("#start")
            self.see("#error", "The web server reaches no explorer. Is it running?")
        self.browser.click("#clear")
        self.see("#error", "The server of this page does not answer any more.")


class Faults(Page):
    def test_a_refused_position(self):
        self.open_with_games(support.GAMES.read_bytes())
        self.browser.write("#fen", "4k3/8/8/8/7/8/8/4K3 w - - 0 1")
        self.browser.key("Enter")
        self.see("#error", "The explorer does not take this position in FEN. Rank 4 has 7 squares, not 8.")

    def test_an_explorer_that_is_down(self):
        address = f"127.0.0.1:{support.free_port()}"
        self.open(address)
        self.see("#error", f"No explorer answers at {address}.")
        self.assertEqual(self.browser.evaluate("document.querySelector('.games').clientHeight"), 0)
        self.file(game(1).encode())
        self.browser.click("#send")
        self.see("#import-error", f"No explorer answers at {address}.")

    def test_a_web_server_in_front_is_told(self):
        for status, words in [(414, "longer than the web server takes"), (418, "The explorer answered with status 418.")]:
            self.open_canned(status, b"<html>")
            self.see("#error", words)

    def test_no_memory_and_a_full_store(self):
        self.open_canned(503, b'{"error":"out of memory"}')
        self.see("#error", "The explorer had no memory for this.")
        self.open_canned(507, b'{"bytes":12416,"error":"full","games":64,"stored":1}')
        self.file(game(1).encode())
        self.browser.click("#send")
        self.see("#import-error", "The store is full: it holds 64 games and 12,416 bytes of text.")
        self.see("#import-error", "1 game of this part was stored.")


if __name__ == "__main__":
    unittest.main()
