#!/usr/bin/env python3
"""Tests of the program over pipes, files and sockets, beside those of the crates over a host in memory: groups of texts, stores that
answer as a count does, batches that are listed, and merged beside answers, and a player's games beside imports."""
import http.client
import pathlib
import shutil
import struct
import subprocess
import tempfile
import threading
import unittest
import urllib.parse

import support


def game(number, outcome="1-0", movetext="1-0"):
    """A text of nine tags, an empty line and a line of movetext. A moveless one that White won has 194 bytes."""
    return (f'[Event "Rated blitz game"]\n[Site "https://lichess.org/{number:08}"]\n[White "Ann"]\n[Black "Bob"]\n[Result "{outcome}"]\n'
            '[UTCDate "2020.01.15"]\n[WhiteElo "1500"]\n[BlackElo "1400"]\n[TimeControl "300+0"]\n\n' f"{movetext}\n").encode()


def listed(number, uci="e2e4", winner="white"):
    """The game as an answer lists it."""
    return {"black": {"name": "Bob", "rating": 1400}, "id": f"{number:08}", "mode": "rated", "month": "2020-01", "speed": "blitz",
            "uci": uci, "white": {"name": "Ann", "rating": 1500}, "winner": winner, "year": 2020}


def counted(white, draws=0, moves=(), top=(), recent=()):
    """The bytes of an answer."""
    return support.compact({"black": 0, "draws": draws, "moves": list(moves), "opening": None, "recentGames": list(recent),
                            "topGames": list(top), "white": white})


def played(white, san, uci, only=None):
    """A move of an answer that White played, and always won."""
    return {"averageRating": 1500, "black": 0, "draws": 0, "game": only, "opening": None, "san": san, "uci": uci, "white": white}


class Counts(unittest.TestCase):
    def test_ids_are_compared_over_the_groups(self):
        # A group has 512 texts. Behind a whole one an id of it is repeated, and within the next one an id comes twice.
        group = b"".join(map(game, range(512)))
        self.assertEqual(support.count("", group), (0, counted(512), []))
        more = group + b"".join(map(game, (512, 7, 512)))
        self.assertEqual(support.count("", more), (0, counted(513), ["99522 Repeated 7", "99716 Twice 99328"]))

    def test_pieces_of_a_stream_do_not_matter(self):
        text = b"hello\n" + game(1, "*", "*") + b"\n" + game(1, "1-0", "0-1") + game(1, "1/2-1/2", "1/2-1/2")
        for size in (*range(1, 20), 100):
            words = {"stdin": subprocess.PIPE, "stdout": subprocess.PIPE, "stderr": subprocess.PIPE}
            run = subprocess.Popen([support.program(), "count"], bufsize=0, **words)
            for at in range(0, len(text), size):
                run.stdin.write(text[at:at + size])
            output, errors = run.communicate()
            told = (run.returncode, output, errors)
            self.assertEqual(told, (0, counted(0, draws=1) + b"\n", b"0 Preamble\n6 UnknownResult\n197 ResultDiffers\n"), size)


class Stores(unittest.TestCase):
    def setUp(self):
        self.folder = pathlib.Path(tempfile.mkdtemp())
        self.addCleanup(shutil.rmtree, self.folder)
        self.store = str(self.folder / "store")

    def run_program(self, *words):
        run = subprocess.run([support.program(), *words], capture_output=True, check=False)
        return run.returncode, run.stdout.decode(), run.stderr.decode()

    def test_a_store_answers_as_a_count_does(self):
        commented = "1. e4 { [%eval 0.17] [%clk 0:00:30] } 1... c5?! { [%clk 0:00:29] } 1-0"
        for games, moves in (
            ([game(1, "1-0", commented)], [("e4", "e2e4")]),
            ([game(1, "1-0", "1. Nf3 Nf6 2. Ng1 Ng8 3. e4 1-0")], [("Nf3", "g1f3")]),
            ([game(1, "1-0", "1. e4 1-0"), game(2, "1-0", "1. d4 1-0")], [("d4", "d2d4"), ("e4", "e2e4")]),
        ):
            shutil.rmtree(self.folder)
            self.folder.mkdir()
            (self.folder / "games").write_bytes(b"".join(games))
            self.assertEqual(self.run_program("create", self.store), (0, "created\n", ""))
            told = f"stored {len(games)}\nbatches 1\njournal 1\n"
            self.assertEqual(self.run_program("import", self.store, str(self.folder / "games")), (0, told, ""))
            status, answer, errors = self.run_program("query", self.store)
            self.assertEqual((status, answer.rstrip("\n").encode(), errors.splitlines()), support.count("", b"".join(games)))
            numbers = {"e2e4": 1, "g1f3": 1, "d2d4": 2}
            wanted = [played(1, san, uci, listed(numbers[uci], uci)) for san, uci in moves]
            by_number = sorted((listed(numbers[uci], uci) for _, uci in moves), key=lambda told: told["id"])
            self.assertEqual(answer.encode(), counted(len(games), moves=wanted, top=by_number, recent=by_number[::-1]) + b"\n")

    def test_batches_are_listed(self):
        self.assertEqual(self.run_program("create", self.store)[0], 0)
        self.assertEqual(self.run_program("batches", self.store), (0, "", ""))
        for numbers in (range(513), (513, 514)):
            (self.folder / "games").write_bytes(b"".join(map(game, numbers)))
            self.assertEqual(self.run_program("import", self.store, str(self.folder / "games"))[0], 0)
        self.assertEqual(self.run_program("batches", self.store), (0, "1 512 \n2 1 \n3 2 \n", ""))

    def test_a_store_is_no_scratch_file(self):
        self.assertEqual(self.run_program("create", self.store)[0], 0)
        (self.folder / "games").write_bytes(game(1, "1-0", "1. e4 1-0"))
        self.assertEqual(self.run_program("import", self.store, str(self.folder / "games"))[0], 0)
        store, soft, hard, scratch = pathlib.Path(self.store), self.folder / "soft", self.folder / "hard", self.folder / "scratch"
        soft.symlink_to(store)
        hard.hardlink_to(store)
        stored, answer = store.read_bytes(), self.run_program("query", self.store)
        self.assertEqual(answer[0], 0)
        for name in (store, soft, hard, self.folder):
            self.assertEqual(self.run_program("query", self.store, "--spill", str(name)), (10, "", f"cannot open {name}\n"), name)
            self.assertEqual(store.read_bytes(), stored, name)
        # A file that is no store is emptied, and has a row of 129 bytes for each of the two positions.
        scratch.write_bytes(b"before")
        self.assertEqual(self.run_program("query", self.store, "--spill", str(scratch)), answer)
        self.assertEqual(scratch.stat().st_size, 2 * 129)

    def first_store(self, batches):
        """Writes a store of format 1 with batches of so many texts of one byte, and gives the bytes of one of format 2 with them, and
        the gate of the last batch."""
        old, new, gate = b"OPENEXP1\1\0\0\0", b"OPENEXP1\2\0\0\0", 0
        for count in batches:
            texts, gate = struct.pack("<H", count) + b"\1\0\0\0x" * count, len(old)
            old += struct.pack("<BL", 1, len(texts)) + texts
            new += struct.pack("<BLB", 1, len(texts) + 1, 0) + texts
        self.old.write_bytes(old + b"\0")
        return new + b"\0", gate

    def test_an_old_store_is_migrated_up_to_its_limit(self):
        self.old = self.folder / "old"
        new, _ = self.first_store([512] * 256)
        self.assertEqual(self.run_program("migrate", str(self.old), self.store), (0, "migrated 256\n", ""))
        self.assertEqual(pathlib.Path(self.store).read_bytes(), new)
        old = self.old.read_bytes()
        self.assertEqual(self.run_program("migrate", str(self.old), str(self.old)), (7, "", f"not empty {len(old)}\n"))
        self.assertEqual(self.old.read_bytes(), old)
        other = self.folder / "other"
        _, gate = self.first_store([512] * 256 + [1])
        self.assertEqual(self.run_program("migrate", str(self.old), str(other)), (7, "", f"damaged at {gate}\n"))
        self.assertFalse(other.exists())

    def test_batches_keep_their_labels(self):
        games, lines = self.folder / "games", ""
        self.assertEqual(self.run_program("create", self.store), (0, "created\n", ""))
        for number, label in enumerate(("a", "", "März", "a b", "x" * 64), 1):
            games.write_bytes(game(number))
            told = f"stored 1\nbatches 1\njournal {number}\n"
            self.assertEqual(self.run_program("import", self.store, str(games), "--label", label), (0, told, ""))
            lines += f"{number} 1 {label}\n"
            self.assertEqual(self.run_program("batches", self.store), (0, lines, ""))
        other = self.folder / "other"
        for label in ("x" * 65, "a\tb"):
            refused = (3, "", "bad parameter label\n")
            self.assertEqual(self.run_program("import", str(other), str(games), "--label", label), refused)
        self.assertFalse(other.exists())

    def test_batches_are_merged_beside_answers(self):
        self.assertEqual(self.run_program("create", self.store)[0], 0)
        numbers = range(1, 6)
        replies = self.replies([("POST", "/import", game(number, "1-0", "1. e4 1-0")) for number in numbers])
        stored = [(200, str(at), f'{{"batches":{at},"refused":[],"stored":1}}'.encode()) for at in numbers]
        self.assertEqual(replies, stored)
        answer = counted(5, moves=[played(5, "e4", "e2e4")], top=map(listed, (1, 2, 3, 4)), recent=map(listed, (5, 4, 3, 2)))
        self.assertEqual(self.replies([("GET", "/lichess", None)]), [(200, "5", answer)])

    def replies(self, requests):
        """The replies of a server to the requests of its one connection, as (status, batches, body); it ends with status 0."""
        address = f"127.0.0.1:{support.free_port()}"
        words = [support.program(), "serve", self.store, address, "--readers", "1", "--connections", "1"]
        server = subprocess.Popen(words, stdout=subprocess.PIPE, stderr=subprocess.PIPE)
        try:
            self.assertEqual(server.stdout.readline().decode(), f"listening {address}\n")
            connection, found = http.client.HTTPConnection(address), []
            for method, path, body in requests:
                connection.request(method, path, body)
                reply = connection.getresponse()
                found.append((reply.status, reply.getheader("X-Explorer-Batches"), reply.read()))
            connection.close()
            self.assertEqual(server.communicate(timeout=60), (b"", b""))
            self.assertEqual(server.returncode, 0)
        finally:
            server.kill()
            server.wait()
            server.stdout.close()
            server.stderr.close()
        return found


# How many games each batch of the players' store has, how many batches are posted, and how many requests each of two peers makes.
GAMES, BATCHES, REQUESTS = 16, 30, 500


def found_of_player(batches, average):
    """The bytes of an answer for a player who is in every game of so many batches, all of which began with 1. e4 and White won."""
    count = GAMES * batches
    move = played(count, "e4", "e2e4")
    del move["averageRating"]
    latest = [listed(number) for number in range(count - 1, max(count - 5, -1), -1)]
    return support.compact({"black": 0, "draws": 0, "moves": [{"averageOpponentRating": average, **move}] if count else [],
                            "opening": None, "recentGames": latest, "white": count})


class Players(unittest.TestCase):
    def test_games_are_told_beside_imports(self):
        faults = []
        with support.explorer(served=("--readers", "3", "--connections", "10")) as address:
            def ask(player, color, average):
                connection, before = http.client.HTTPConnection(address), 0
                for number in range(REQUESTS):
                    connection.request("GET", "/player?" + urllib.parse.urlencode({"player": player, "color": color, "round": number}))
                    reply = connection.getresponse()
                    body, batches = reply.read(), int(reply.getheader("X-Explorer-Batches"))
                    if batches < before or body != found_of_player(batches, average):
                        faults.append((player, before, batches, body))
                    before = batches
                connection.close()

            def send():
                connection = http.client.HTTPConnection(address)
                for batch in range(BATCHES):
                    games = (game(batch * GAMES + number, "1-0", "1. e4 1-0") for number in range(GAMES))
                    connection.request("POST", "/import", b"".join(games))
                    stored = connection.getresponse().read()
                    if not stored.endswith(f'"stored":{GAMES}}}'.encode()):
                        faults.append(stored)
                connection.close()

            threads = [threading.Thread(target=send), threading.Thread(target=ask, args=("ann", "white", 1400)),
                       threading.Thread(target=ask, args=("BOB", "black", 1500))]
            for thread in threads:
                thread.start()
            for thread in threads:
                thread.join()
            self.assertEqual(faults[:3], [])
            for player, color, average in (("Ann", "white", 1400), ("Bob", "black", 1500)):
                self.assertEqual(self.reply(address, player=player, color=color), (200, found_of_player(BATCHES, average)))
            self.assertEqual(self.reply(address, player="Ann", color="black"), (200, found_of_player(0, 0)))

    def test_names_may_be_long_and_not_empty(self):
        refused = {name: (400, support.compact({"error": "malformed parameter", "parameter": name})) for name in ("player", "color")}
        with support.explorer() as address:
            self.assertEqual(self.reply(address, color="white"), refused["player"])
            self.assertEqual(self.reply(address, player="", color="white"), refused["player"])
            self.assertEqual(self.reply(address, player="Ann", color="White"), refused["color"])
            self.assertEqual(self.reply(address, player="x" * 8000, color="white"), (200, found_of_player(0, 0)))
            self.assertEqual(self.reply(address, player="x" * 65_000, color="white")[0], 431)

    def reply(self, address, **asked):
        connection = http.client.HTTPConnection(address)
        connection.request("GET", "/player?" + urllib.parse.urlencode(asked))
        reply = connection.getresponse()
        found = reply.status, reply.read()
        connection.close()
        return found


if __name__ == "__main__":
    unittest.main()
