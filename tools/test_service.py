#!/usr/bin/env python3
"""Tests of the service and of the example of nginx as they stand in package/, over stand-ins for the program: what systemd-analyze says
of the service, that it is of one piece with docs/SERVICE.md and with the site, and what nginx passes on. tools/test_package.py tries both
over the program."""
import http.client
import json
import pathlib
import re
import shlex
import subprocess
import tempfile
import unittest

import support

PACKAGE = support.TOP / "package"
UNIT = (PACKAGE / "explorer.service").read_text(encoding="utf-8")
SITE = (PACKAGE / "nginx.conf").read_text(encoding="utf-8")
PAGE = (support.TOP / "docs/SERVICE.md").read_text(encoding="utf-8")
PAGES = "\n".join(place.read_text(encoding="utf-8") for place in sorted((support.TOP / "docs").glob("*.md")))
EMPTY = support.compact({"black": 0, "draws": 0, "moves": [], "opening": None, "recentGames": [], "topGames": [], "white": 0})
# Makes a store as `create` does, and tells what it was asked.
STAND_IN = """#!/bin/sh
echo "$@"
if [ "$1" = create ]; then printf 'OPENEXP1\\002\\000\\000\\000\\000' > "$2"; fi
"""


def value(key):
    return re.search(rf"(?m)^{key}=(.*)$", UNIT)[1]


class Unit(unittest.TestCase):
    def setUp(self):
        folder = tempfile.TemporaryDirectory()
        self.addCleanup(folder.cleanup)
        self.folder = pathlib.Path(folder.name)
        self.program = self.folder / "explorer"
        self.program.write_text(STAND_IN, encoding="utf-8")
        self.program.chmod(0o755)
        self.store = self.folder / "games.store"

    def here(self, text):
        return text.replace("/usr/bin/explorer", str(self.program)).replace("/var/lib/explorer", str(self.folder))

    def analyze(self, *words):
        support.needs("systemd-analyze")
        place = self.folder / "explorer.service"
        place.write_text(self.here(UNIT), encoding="utf-8")
        run = subprocess.run(["systemd-analyze", *words, place], capture_output=True, text=True, check=False, timeout=300)
        return run.returncode, run.stdout + run.stderr

    def test_systemd_takes_each_of_its_lines(self):
        status, told = self.analyze("verify", "--man=no")
        self.assertEqual((status, told), (0, ""))

    def test_it_has_few_rights(self):
        status, told = self.analyze("security", "--offline=true", "--no-pager", "--threshold=15")
        self.assertEqual(status, 0, told.splitlines()[-1:])

    def test_a_store_is_made_where_there_is_none_and_else_left(self):
        for before, told in ((None, f"create {self.store}\n"), (b"", f"create {self.store}\n"), (b"OPENEXP1\1\0\0\0\0", "")):
            self.store.unlink(missing_ok=True)
            if before is not None:
                self.store.write_bytes(before)
            words = shlex.split(self.here(value("ExecStartPre")))
            self.assertEqual(subprocess.run(words, capture_output=True, text=True, check=True, timeout=60).stdout, told)
            self.assertEqual(self.store.read_bytes(), before or b"OPENEXP1\2\0\0\0\0")

    def test_its_parts_agree(self):
        words = shlex.split(value("ExecStart"))
        folder = f"/var/lib/{value('StateDirectory')}"
        port = words[3].rpartition(":")[2]
        self.assertEqual(words[:4], ["/usr/bin/explorer", "serve", f"{folder}/games.store", f"127.0.0.1:{port}"])
        self.assertEqual((value("ReadWritePaths"), value("SocketBindAllow")), (folder, f"ipv4:tcp:{port}"))
        self.assertIn(f"    server {words[3]};\n", SITE)
        self.assertEqual((PACKAGE / "explorer.sysusers").read_text(encoding="utf-8").splitlines()[1].split()[1], value("User"))

    def test_the_page_says_what_it_has(self):
        words = shlex.split(value("ExecStart"))
        readers, connections = (int(words[words.index(name) + 1]) for name in ("--readers", "--connections"))
        self.assertIn(f"at {words[3]}, by {readers} readers of {connections:,} connections each", PAGE)
        self.assertIn(f"by 1 to {readers} readers (4), each of which serves 1 to {connections:,} connections", PAGES)
        self.assertEqual(value("RestartSec"), "5")
        self.assertIn("after five seconds", PAGE)
        first, second, third = value("RestartPreventExitStatus").split()
        self.assertIn(f"With status {first}, {second} or {third} it stays down", PAGE)

    def test_each_line_of_the_log_is_one_of_the_program(self):
        statuses = dict(re.findall(r"(?m)^\| (\d+) \| .* \| ([^|]*`[^|]*) \|$", PAGES.partition("| Status | Comes |")[2].partition("\n\n")[0]))
        rows = re.findall(r"(?m)^\| (.*) \| (\d+) \| .* \|$", PAGE.partition("| Last line in the log |")[2].partition("\n\n")[0])
        self.assertGreater(len(rows), 4)
        for lines, status in rows:
            for line in re.findall("`([^`]+)`", lines):
                self.assertIn(line.replace("format N", "format NUMBER"), statuses[status])


class Site(unittest.TestCase):
    """The example over a stand-in for the explorer, without TLS."""

    def setUp(self):
        support.needs("nginx")
        self.port = support.free_port()

    def ask(self, method="GET", target="/lichess?play=e2e4", body=None, headers=None):
        connection = http.client.HTTPConnection(f"127.0.0.1:{self.port}", timeout=60)
        try:
            connection.request(method, target, body, headers or {})
            reply = connection.getresponse()
            return reply.status, reply.headers, reply.read()
        finally:
            connection.close()

    def site(self, address):
        return support.nginx(support.plain_site(self.port, address), self.port)

    def test_questions_and_games_are_passed_on_without_what_nobody_asks_for(self):
        stand_in = support.CannedExplorer(200, EMPTY, (200, b'{"batches":1,"refused":[],"stored":5}'))
        with stand_in.running() as address, self.site(address):
            status, headers, body = self.ask(headers={"Cookie": 7000 * "c", "Connection": "keep-alive"})
            self.assertEqual((status, body, headers["X-Explorer-Batches"]), (200, EMPTY, "0"))
            games = 20_000 * b"[Event \"x\"]\n\n1. e4 1-0\n\n"
            self.assertEqual(json.loads(self.ask("POST", "/import", games)[2])["stored"], 5)
            self.assertEqual(self.ask(target="/player?player=Zo%C3%A9+B.&color=white")[::2], (200, EMPTY))
        self.assertEqual([(method, path, body) for method, path, _, body in stand_in.asked],
                         [("GET", "/lichess?play=e2e4", b""), ("POST", "/import", games), ("GET", "/player?player=Zo%C3%A9+B.&color=white", b"")])
        for _, _, headers, _ in stand_in.asked:
            self.assertEqual(headers["Connection"], "close")
            self.assertLessEqual(set(headers), {"Host", "Connection", "Content-Length"})

    def test_what_the_explorer_does_not_take_is_refused_before_it(self):
        stand_in = support.CannedExplorer(200, EMPTY)
        with stand_in.running() as address, self.site(address):
            self.assertEqual(self.ask("POST", "/import", 4_194_305 * b"x")[0], 413)
            for target in ("/lichess", "/player"):
                self.assertEqual(self.ask("POST", target, b"xx")[0], 413)
            for target in ("/masters", "/players", "/player/ann"):
                self.assertEqual(self.ask(target=target)[0], 404)
        self.assertEqual(stand_in.asked, [])

    def test_refusals_of_the_explorer_are_passed_on(self):
        for status, body in [(400, b'{"error":"malformed parameter","parameter":"fen"}'), (503, b'{"error":"out of memory"}'),
                             (507, b'{"bytes":12416,"error":"full","games":64,"stored":0}')]:
            with support.CannedExplorer(status, body).running() as address, self.site(address):
                self.assertEqual(self.ask()[::2], (status, body))
                self.assertEqual(self.ask("POST", "/import", b"x")[::2], (status, body))

    def test_the_page_is_there_also_where_no_explorer_runs(self):
        with self.site(f"127.0.0.1:{support.free_port()}"):
            self.assertEqual(self.ask()[0], 502)
            files = {place.name: place.read_bytes() for place in (support.TOP / "tools/board/page").iterdir()}
            for name, data in (("", files["index.html"]), *files.items()):
                status, headers, body = self.ask(target=f"/{name}")
                self.assertEqual((status, body), (200, data), name)
                self.assertIn("default-src 'self'", headers["Content-Security-Policy"])
            # A browser takes a module of a page alone where it is told that it is one.
            kinds = {name: self.ask(target=f"/{name}")[1]["Content-Type"] for name in ("", "main.mjs", "style.css", "pieces.svg")}
            self.assertEqual(kinds, {"": "text/html; charset=utf-8", "main.mjs": "text/javascript; charset=utf-8",
                                     "style.css": "text/css; charset=utf-8", "pieces.svg": "image/svg+xml"})


if __name__ == "__main__":
    unittest.main()
