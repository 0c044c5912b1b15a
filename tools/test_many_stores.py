#!/usr/bin/env python3
"""Tries docs/MANY-STORES.md: cuts an archive by its text, serves the parts as it says behind nginx, and joins the answers."""
import contextlib
import json
import pathlib
import re
import shlex
import subprocess
import tempfile
import unittest
import urllib.request

import support
from test_gather import PARTS, QUERIES, without_averages

DOCUMENT = (support.TOP / "docs/MANY-STORES.md").read_text(encoding="utf-8")
ARCHIVE = b"".join(PARTS)
GATHER = str(support.TOP / "tools/gather")


def text_behind(line):
    """The text that is set in behind a line of the document."""
    behind = DOCUMENT.partition(line)[2].lstrip("\n")
    return "".join(each[4:] + "\n" for each in re.match(r"(?: {4}.*\n|\n(?= {4}))+", behind)[0].splitlines())


def games_of(archive):
    return re.split(rb"^(?=\[Event )", archive, flags=re.MULTILINE)[1:]


class Trial(unittest.TestCase):
    def setUp(self):
        folder = tempfile.TemporaryDirectory()
        self.addCleanup(folder.cleanup)
        self.folder = pathlib.Path(folder.name)

    def cut(self, by):
        """The parts of the archive by their names, made as the document says."""
        (self.folder / "parts.awk").write_text(text_behind("in the file `parts.awk`"), encoding="utf-8")
        (self.folder / "games.pgn").write_bytes(ARCHIVE)
        command = text_behind("\nthe line\n").strip()
        self.assertIn(" by=ratings ", command)
        subprocess.run(["bash", "-c", command.replace("by=ratings", f"by={by}")], cwd=self.folder, check=True, timeout=60)
        (self.folder / "games.pgn").unlink()
        return {place.stem: place.read_bytes() for place in self.folder.glob("*.pgn")}

    def test_each_game_is_in_the_archive_of_its_month_or_its_group(self):
        by_month, by_group = {}, {}
        for text in games_of(ARCHIVE):
            month = re.search(rb'\[UTCDate "(....)\.(..)', text)
            ratings = [int(found) for found in re.findall(rb'Elo "(\d+)"', text)]
            group = max(least for least in (1400, 1600, 1800, 2000) if least <= sum(ratings) // 2)
            by_month.setdefault(b"-".join(month.groups()).decode(), []).append(text)
            by_group.setdefault(str(group), []).append(text)
        for by, wanted in (("month", by_month), ("ratings", by_group)):
            made = self.cut(by)
            self.assertEqual({name: games_of(part) for name, part in made.items()}, wanted)
            self.assertEqual(sum(map(len, made.values())), len(ARCHIVE))
            for name in made:
                (self.folder / f"{name}.pgn").unlink()

    def test_each_has_a_service_of_its_own(self):
        command = text_behind("with a store and a port of its own:")
        unit = support.TOP / "package/explorer.service"
        words = shlex.split(command.partition(" > ")[0].replace("/usr/lib/systemd/system/explorer.service", str(unit)))
        made = subprocess.run(words, capture_output=True, text=True, check=True).stdout
        for old, new in (("/var/lib/explorer/games.store", "/var/lib/explorer/1600.store"), (":9000", ":9002")):
            self.assertNotIn(old, made)
            self.assertEqual(made.count(new), unit.read_text(encoding="utf-8").count(old))

    def test_four_explorers_behind_nginx_answer_as_one(self):
        support.needs("nginx")
        serving = text_behind("## One explorer a part, behind nginx").splitlines()
        site = text_behind("nginx gives each a path:")
        asking = shlex.split(text_behind("## One answer of all"))
        ports = {place: f"127.0.0.1:{support.free_port()}" for place in sorted(set(re.findall(r"127\.0\.0\.1:\d+", site)))}
        self.assertEqual(len(ports), 5)

        def here(text):
            return re.sub(r"127\.0\.0\.1:\d+", lambda found: ports[found[0]], text)

        parts = self.cut("ratings")
        with contextlib.ExitStack() as running:
            for words in map(shlex.split, serving):
                name = words[2].removesuffix(".store")
                store = str(self.folder / words[2])
                for command in (["create", store], ["import", store, str(self.folder / f"{name}.pgn")]):
                    subprocess.run([support.program(), *command], check=True, stdout=subprocess.DEVNULL, timeout=60)
                server = running.enter_context(support.serving([support.program(), "serve", store, here(words[3]), *words[4:]]))
            self.assertEqual(len(serving), len(parts))
            proxy = ports["127.0.0.1:8000"]
            running.enter_context(support.nginx(here(site), int(proxy.rpartition(":")[2])))
            addresses = [here(word) for word in asking[1:asking.index("--query")]]
            for query in (*QUERIES, asking[-1]):
                with self.subTest(query):
                    self.compare(addresses, query)
            url = f"http://{proxy}/1600/lichess?ratings=1600"
            with urllib.request.urlopen(url, timeout=60) as reply:
                self.assertEqual(reply.read(), support.count("ratings=1600", ARCHIVE)[1])
            server.terminate()
            server.wait()
            told = f"gather: {addresses[-1]} answers 502; does the explorer run that the proxy asks?\n"
            self.assertEqual(support.run_tool(GATHER, *addresses), (1, "", told))

    def compare(self, addresses, query):
        """The joined answer beside that of the whole archive; games within a month stand in another order."""
        status, output, errors = support.run_tool(GATHER, *addresses, "--query", query)
        self.assertEqual((status, errors), (0, ""))
        answer, whole = json.loads(output), json.loads(support.count(query, ARCHIVE)[1])
        for one, other in zip(answer["moves"], whole["moves"]):
            self.assertIn(other["averageRating"] - one["averageRating"], (0, 1) if "about" in one else (0,))
        months = [[listed["month"] for listed in each.pop("recentGames")] for each in (answer, whole)]
        self.assertEqual(*months)
        self.assertEqual(without_averages(answer), without_averages(whole))


if __name__ == "__main__":
    unittest.main()
