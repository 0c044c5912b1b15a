#!/usr/bin/env python3
"""Tests of what docs/BACKUP.md says: that each front of a store's file is a store of its first batches or is refused at a known place,
that a copy which is made while the store is served has all that was acknowledged before, and that two stores are joined."""
import concurrent.futures
import contextlib
import http.client
import json
import pathlib
import re
import shutil
import signal
import subprocess
import tempfile
import time
import unittest

import support
from test_program import counted, game, listed, played

HEAD = 12
NOTHING = "moves=0&topGames=0&recentGames=0"
# How many programs run at once, the seconds that a program may take, and those of a whole test.
AT_ONCE, OF_A_RUN, OF_A_TEST = 4, 60, 300
COMMANDS = re.findall(r"(?m)^    (.*)$", (support.TOP / "docs/BACKUP.md").read_text(encoding="utf-8"))


def gates_of(content):
    """The places of the open gates of a file, and that of the closed one."""
    found = [HEAD]
    while content[found[-1]] == 1:
        at = found[-1]
        found.append(at + 5 + int.from_bytes(content[at + 1:at + 5], "little"))
    return found


def won(number):
    """A game that White won by 1. e4."""
    return game(number, "1-0", "1. e4 1-0")


def short(number):
    """A game that White won, of few bytes, since each byte of a file costs a run of the program."""
    return (f'[Event "x"]\n[Site "/{number:08}"]\n[White "A"]\n[Black "B"]\n[Result "1-0"]\n[UTCDate "2020.01.15"]\n'
            '[WhiteElo "9"]\n[BlackElo "9"]\n[TimeControl "-"]\n\n1-0\n').encode()


def answer_over(number):
    """The answer over the first games that White won so, as the program prints it."""
    games = list(map(listed, range(number)))
    moves = [played(number, "e4", "e2e4", games[0] if number == 1 else None)] if number else []
    return counted(number, moves=moves, top=games[:4], recent=games[:-5:-1]).decode() + "\n"


class Stored(unittest.TestCase):
    """A store in a folder of its own, and what the page's commands are there."""

    def setUp(self):
        self.addCleanup(signal.signal, signal.SIGALRM, signal.signal(signal.SIGALRM, self.took_too_long))
        self.addCleanup(signal.alarm, 0)
        signal.alarm(OF_A_TEST)
        self.folder = pathlib.Path(tempfile.mkdtemp())
        self.addCleanup(shutil.rmtree, self.folder)
        self.store = self.folder / "games.store"
        self.run_program("create", self.store)

    def took_too_long(self, *_):
        raise TimeoutError(f"{self.id()} took more than {OF_A_TEST} seconds")

    def run_program(self, *words):
        run = subprocess.run([support.program(), *words], capture_output=True, check=False, timeout=OF_A_RUN)
        return run.returncode, run.stdout.decode(), run.stderr.decode()

    def run_tool(self, name, *words):
        return support.run_tool(str(support.TOP / "tools" / name), *words, timeout=OF_A_RUN)

    def here(self, command):
        words = command.replace("/var/lib/explorer/games.store", str(self.store)).replace("runuser -u explorer -- ", "")
        words = re.sub(r"\b(?=games\.copy|second\.pgn)", f"{self.folder}/", words)
        return re.sub("^explorer-", f"{support.TOP}/tools/", re.sub("^explorer ", f"{support.program()} ", words))

    def bash(self, command):
        return subprocess.run(["bash", "-c", self.here(command)], capture_output=True, check=True, timeout=OF_A_RUN).stdout

    def each(self, task, items):
        """The answers of a task for some items, of which it has a few at once."""
        with concurrent.futures.ThreadPoolExecutor(AT_ONCE) as pool:
            return list(pool.map(task, items))


class Copies(Stored):
    def filled(self, games):
        """The content of the store with a batch for each game."""
        for number in range(games):
            archive = self.folder / "archive"
            archive.write_bytes(short(number))
            self.assertEqual(self.run_program("import", self.store, archive)[0], 0)
        return self.store.read_bytes()

    def queried(self, content):
        """What is told of a file: its games, all of which White won, or the line of its refusal."""
        copy = self.folder / f"front of {len(content)}"
        copy.write_bytes(content)
        status, output, errors = self.run_program("query", copy, NOTHING, "--workers", "1")
        self.assertEqual(copy.read_bytes(), content, "a query has written")
        copy.unlink()
        if status == 0:
            return json.loads(output)["white"]
        self.assertEqual((status, output), (7, ""))
        return errors.rstrip("\n")

    def compare_fronts(self, content, lengths, wanted):
        """What is told of the fronts of these lengths, beside what a function of a length has."""
        told = self.each(lambda length: self.queried(content[:length]), lengths)
        self.assertEqual(list(zip(lengths, told)), [(length, wanted(length)) for length in lengths])

    def test_each_front_is_a_store_or_is_refused_at_its_gate(self):
        content = self.filled(3)
        gates = gates_of(content)
        self.assertEqual((len(gates), gates[-1]), (4, len(content) - 1))

        def wanted(length):
            broken = [gate for gate, behind in zip(gates, gates[1:]) if behind >= length]
            return "not a store" if length <= HEAD else f"damaged at {broken[0]}" if broken else 3

        self.compare_fronts(content, range(len(content) + 1), wanted)

    def test_each_front_of_a_file_whose_last_batch_is_not_open_yet(self):
        content = bytearray(self.filled(3))
        gates = gates_of(content)
        content[gates[2]] = 0
        lengths = range(gates[2], len(content) + 1)
        self.compare_fronts(bytes(content), lengths, lambda length: 2 if length > gates[2] else f"damaged at {gates[1]}")

    def test_what_is_before_a_damaged_gate_is_a_store_once_that_is_closed(self):
        content = self.filled(3)
        [command] = [line for line in COMMANDS if line.startswith("printf ")]
        for batches, gate in enumerate(gates_of(content)[:-1]):
            copy = self.folder / "games.copy"
            copy.write_bytes(content[:gate + 100])
            self.assertEqual(self.queried(copy.read_bytes()), f"damaged at {gate}")
            self.bash(command.replace("GATE", str(gate)) + " 2>&1")
            self.assertEqual(self.queried(copy.read_bytes()), batches)

    def test_a_copy_while_it_is_served_has_what_was_acknowledged(self):
        address = f"127.0.0.1:{support.free_port()}"
        copying, checking = COMMANDS[:2]
        acknowledged, all_games, most, copies = [0], 200, 60, []

        def post():
            with contextlib.closing(http.client.HTTPConnection(address, timeout=OF_A_RUN)) as connection:
                for number in range(all_games):
                    connection.request("POST", "/import", won(number))
                    self.assertEqual(json.loads(connection.getresponse().read())["stored"], 1)
                    acknowledged[0] = number + 1

        with support.serving([support.program(), "serve", str(self.store), address]), concurrent.futures.ThreadPoolExecutor(1) as pool:
            posting = pool.submit(post)
            while not posting.done() and len(copies) < most:
                before = acknowledged[0]
                if before * most < len(copies) * all_games:
                    # The copies are spread over the games.
                    time.sleep(0.001)
                    continue
                self.bash(copying)
                copy = (self.folder / "games.copy").rename(self.folder / f"copy {len(copies)}")
                copies.append((before, copy, acknowledged[0]))
            posting.result()
        self.assertGreater(len(copies), 1)
        answers = self.each(lambda copy: self.run_program("query", copy[1]), copies)
        numbers = [json.loads(output)["white"] for _, output, _ in answers]
        for (before, _, after), answer, number in zip(copies, answers, numbers):
            # A game that was stored may not have been acknowledged yet.
            self.assertLessEqual(before, number)
            self.assertLessEqual(number, after + 1)
            self.assertEqual(answer, (0, answer_over(number), ""))
        self.assertEqual(numbers, sorted(numbers))
        self.assertGreater(len(set(numbers)), 1)
        copies[-1][1].rename(self.folder / "games.copy")
        self.assertEqual(json.loads(self.bash(checking))["white"], numbers[-1])
        games = b"".join(map(won, range(numbers[-1])))
        self.assertEqual(support.count("", games), (0, answer_over(numbers[-1]).rstrip("\n").encode(), []))


class Joined(Stored):
    """Two stores of three games each, the last of one and the first of the other being the same."""

    def setUp(self):
        super().setUp()
        games = list(map(won, range(5)))
        self.whole, first, second = b"".join(games), b"".join(games[:3]), b"".join(games[2:])
        self.run_program("create", self.folder / "games.copy")
        for store, archive in ((self.store, first), (self.folder / "games.copy", second)):
            (self.folder / "archive").write_bytes(archive)
            self.assertEqual(self.run_program("import", store, self.folder / "archive")[0], 0)

    def command(self, beginning):
        [found] = [line for line in COMMANDS if beginning in line]
        return found

    def test_the_games_of_one_are_imported_into_the_other(self):
        self.bash(self.command("explorer-export "))
        self.assertEqual(self.bash(self.command("explorer import ")).decode(), "stored 2\nbatches 1\njournal 2\n")
        self.assertEqual(self.run_program("batches", self.store)[1], "1 3 \n2 2 second\n")
        for query in ("", "play=e2e4&history=true"):
            self.assertEqual(self.run_program("query", self.store, query)[1].rstrip("\n").encode(), support.count(query, self.whole)[1])

    def test_one_that_is_served_takes_the_games_of_the_other(self):
        self.bash(self.command("explorer-export "))
        address = f"127.0.0.1:{support.free_port()}"
        with support.serving([support.program(), "serve", str(self.store), address]):
            words = ["--explorer", address, "--plies", "0", str(self.folder / "second.pgn")]
            status, output, errors = self.run_tool("repertoire", *words)
            self.assertEqual((status, output), (0, ""))
            self.assertRegex(errors, r" 0 Repeated 2\nrepertoire: .*: 2 games stored\n$")
        self.assertEqual(self.run_program("query", self.store)[1].rstrip("\n").encode(), support.count("", self.whole)[1])

    def test_where_answers_are_joined_a_game_in_both_counts_twice(self):
        addresses = [f"127.0.0.1:{support.free_port()}" for _ in range(2)]
        with contextlib.ExitStack() as running:
            for store, address in zip((self.store, self.folder / "games.copy"), addresses):
                running.enter_context(support.serving([support.program(), "serve", str(store), address]))
            status, output, _ = self.run_tool("gather", *addresses)
        self.assertEqual((status, json.loads(output)["white"]), (0, 6))


if __name__ == "__main__":
    unittest.main()
