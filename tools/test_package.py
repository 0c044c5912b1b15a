#!/usr/bin/env python3
"""Tests of tools/package: what it refuses; and a package that is made, unpacked, served, asked, stopped and served again, looked at by
lintian, with its service as systemd reads it and its example of nginx in front."""
import contextlib
import hashlib
import http.client
import json
import os
import pathlib
import re
import shlex
import shutil
import signal
import ssl
import subprocess
import tempfile
import unittest
import urllib.request

import support

TOOL = str(support.TOP / "tools/package")
KIT = (support.TOP / "KIT").read_text(encoding="utf-8").strip()


def output_of(*words, **options):
    return subprocess.run(words, capture_output=True, text=True, check=True, timeout=300, **options).stdout


def ask(address, method="GET", target="/lichess?history=true", body=None, **options):
    """A reply as (status, body)."""
    kind = http.client.HTTPSConnection if options else http.client.HTTPConnection
    connection = kind(address, timeout=60, **options)
    with contextlib.closing(connection):
        connection.request(method, target, body)
        reply = connection.getresponse()
        return reply.status, reply.read()


class Refusals(unittest.TestCase):
    def test_a_program_that_is_missing_or_older_than_its_sources(self):
        with tempfile.TemporaryDirectory() as folder:
            program = pathlib.Path(folder, "explorer")
            builds = "'./explorer count < games.pgn' builds it"
            told = f"package: there is no program {program}; {builds}\n"
            self.assertEqual(support.run_tool(TOOL, str(program), "--output", folder), (1, "", told))
            program.write_text("#!/bin/sh\n", encoding="utf-8")
            program.chmod(0o755)
            os.utime(program, (0, 0))
            status, output, errors = support.run_tool(TOOL, str(program), "--output", folder)
            self.assertEqual((status, output), (1, ""))
            self.assertRegex(errors, rf"^package: {re.escape(str(program))} is older than crates[./]\S+; {builds} anew\n$")
            os.utime(program)
            status, output, errors = support.run_tool(TOOL, str(program), "--output", folder)
            told = f"manual.py: {program} is no explorer: 'explorer --help' has no usage, and status 0\n"
            self.assertEqual((status, output, errors), (1, "", told))
            self.assertEqual(os.listdir(folder), ["explorer"])

    def test_a_folder_that_is_missing(self):
        told = "package: there is no folder /nowhere; make it, or name another one by --output\n"
        self.assertEqual(support.run_tool(TOOL, "--output", "/nowhere"), (1, "", told))

    def test_faulty_words(self):
        for words in (["--output"], ["a", "b"], ["-x"]):
            self.assertEqual(support.run_tool(TOOL, *words)[0], 2)


class Package(unittest.TestCase):
    @classmethod
    def setUpClass(cls):
        support.needs("dpkg-deb")
        cls.folder = pathlib.Path(tempfile.mkdtemp())
        cls.addClassCleanup(shutil.rmtree, cls.folder)
        # A copy is newer than the sources, whatever checkout the program is of.
        cls.program = shutil.copyfile(support.program(), cls.folder / "program")
        cls.program.chmod(0o755)
        cls.archive, cls.package = cls.made("first")
        cls.root = cls.folder / "root"
        output_of("dpkg", "-x", str(cls.package), str(cls.root))
        cls.command = str(cls.root / "usr/bin/explorer")

    @classmethod
    def made(cls, name):
        """The archive and the package, in a new folder."""
        output = cls.folder / name
        output.mkdir()
        return [pathlib.Path(line) for line in output_of(TOOL, "--output", str(output), str(cls.program)).splitlines()]

    def setUp(self):
        self.address = f"127.0.0.1:{support.free_port()}"
        self.store = str(pathlib.Path(tempfile.mkdtemp(dir=self.folder)) / "games.store")

    def serving(self, *words):
        return support.serving([self.command, "serve", self.store, self.address, *words])

    def test_both_are_the_same_files_whenever_they_are_made(self):
        for one, other in zip((self.archive, self.package), self.made("second")):
            self.assertEqual((one.name, one.read_bytes()), (other.name, other.read_bytes()))
        unpacked = self.folder / "unpacked"
        unpacked.mkdir()
        output_of("tar", "-C", str(unpacked), "-xzf", str(self.archive))
        [top] = unpacked.iterdir()
        self.assertEqual(f"{top.name}.tar.gz", self.archive.name)
        run = subprocess.run(["diff", "-r", top, self.root / "usr"], capture_output=True, text=True, check=False)
        alone = {line.rpartition(": ")[2] for line in run.stdout.splitlines()}
        self.assertEqual(alone, {"changelog.gz", "lintian"}, run.stdout)

    def test_they_say_by_what_the_program_was_proved(self):
        commit = output_of("git", "-C", str(support.TOP), "rev-parse", "HEAD").strip()
        places = [(self.root / "usr/share/doc/explorer/PROVED").read_text(encoding="utf-8"),
                  output_of("dpkg-deb", "--field", str(self.package), "Description")]
        for text in places:
            self.assertIn(f"from commit {commit}", " ".join(text.split()))
            self.assertIn(f"by {KIT}.", " ".join(text.split()))
        installed = self.root / "usr/lib/explorer/explorer"
        for program in (self.program, installed):
            self.assertIn(hashlib.sha256(program.read_bytes()).hexdigest(), places[0])
        stripped = self.folder / "stripped"
        output_of("strip", "--strip-all", "-o", str(stripped), str(self.program))
        self.assertEqual(installed.read_bytes(), stripped.read_bytes())

    def test_it_is_served_asked_stopped_and_served_again(self):
        run = subprocess.run([self.command], capture_output=True, text=True, check=False)
        self.assertEqual((run.returncode, run.stdout), (2, ""))
        self.assertIn("\n  explorer create STORE ", run.stderr)
        self.assertEqual(output_of(self.command, "create", self.store), "created\n")
        with self.serving():
            status, reply = ask(self.address, "POST", "/import", support.GAMES.read_bytes())
            self.assertEqual((status, json.loads(reply)["stored"]), (200, 5))
        answer = support.count("history=true", support.GAMES.read_bytes())[1]
        for ending in (signal.SIGTERM, signal.SIGKILL, signal.SIGTERM):
            with self.serving() as server:
                self.assertEqual(ask(self.address), (200, answer))
                server.send_signal(ending)
                self.assertEqual(server.wait(timeout=30), -ending)

    def test_the_tools_are_there(self):
        output_of(self.command, "create", self.store)
        with self.serving():
            tool = str(self.root / "usr/bin/explorer-repertoire")
            run = subprocess.run([tool, str(support.GAMES), "--explorer", self.address, "--plies", "1"],
                                 capture_output=True, text=True, check=True, timeout=60)
            self.assertEqual(run.stdout, "1. e4  (3 games, 100%)\n")
            gathered = output_of(str(self.root / "usr/bin/explorer-gather"), self.address, "--query", "history=true")
            self.assertEqual(gathered.rstrip("\n").encode(), ask(self.address)[1])
            given_back = output_of(str(self.root / "usr/bin/explorer-export"), self.store)
            self.assertEqual(given_back.encode(), support.GAMES.read_bytes())
        tagged = output_of(str(self.root / "usr/bin/explorer-nine-tags"), str(support.GAMES))
        self.assertEqual(tagged.count("[Event "), 5)
        with support.tool_running(str(self.root / "usr/bin/explorer-board"), "--port", "0") as (_, line):
            place = line.partition("http://")[2].partition("/ ")[0]
            self.assertIn(b"<title>Opening explorer</title>", ask(place, target="/")[1])

    def test_the_manual_has_each_command_and_each_status(self):
        support.needs("man")
        pages = self.root / "usr/share/man/man1"
        text = output_of("man", "--warnings", "-l", str(pages / "explorer.1.gz"), env={**os.environ, "MANWIDTH": "100"})
        for command in support.commands():
            self.assertRegex(text, rf"(?m)^       explorer {command} ")
            self.assertRegex(text, rf"(?m)^   {command}$")
        behaviour = (support.TOP / "docs/BEHAVIOUR.md").read_text(encoding="utf-8").partition("\n## Words and statuses\n")[2]
        statuses = re.findall(r"(?m)^\| (\d+) \| ", behaviour.partition("\n## ")[0])
        self.assertGreater(len(statuses), 10)
        self.assertEqual(re.findall(r"(?m)^       (\d+) ", text.partition("EXIT STATUS")[2]), statuses)
        for page in pages.iterdir():
            run = subprocess.run(["man", "--warnings", "-l", page], capture_output=True, text=True, check=True)
            self.assertEqual(run.stderr, "", page)

    def test_lintian_finds_no_error(self):
        support.needs("lintian")
        run = subprocess.run(["lintian", "--show-overrides", self.package], capture_output=True, text=True, check=False, timeout=300)
        self.assertEqual([line for line in run.stdout.splitlines() if line.startswith("E: ")], [])
        overridden = [line.partition(": explorer: ")[2].split()[0] for line in run.stdout.splitlines() if line.startswith("O: ")]
        self.assertLessEqual(set(overridden), {"copyright-without-copyright-notice"})

    # ---- the service

    def unit(self):
        """The service, with the places of the unpacked package and of a store here."""
        text = (self.root / "usr/lib/systemd/system/explorer.service").read_text(encoding="utf-8")
        text = text.replace("/usr/bin/explorer", self.command).replace("127.0.0.1:9000", self.address)
        return text.replace("/var/lib/explorer", os.path.dirname(self.store))

    def words_of(self, key):
        return shlex.split(re.search(rf"(?m)^{key}=(.*)$", self.unit())[1])

    def test_systemd_takes_the_service(self):
        support.needs("systemd-analyze")
        place = pathlib.Path(os.path.dirname(self.store), "explorer.service")
        place.write_text(self.unit(), encoding="utf-8")
        run = subprocess.run(["systemd-analyze", "verify", place], capture_output=True, text=True, check=False, timeout=60,
                             env={**os.environ, "MANPATH": str(self.root / "usr/share/man")})
        self.assertEqual((run.returncode, run.stderr), (0, ""))

    def test_the_words_of_the_service_make_a_store_once_and_serve_it(self):
        for _ in range(2):
            output_of(*self.words_of("ExecStartPre"))
            with support.serving(self.words_of("ExecStart")):
                ask(self.address, "POST", "/import", support.GAMES.read_bytes())
                self.assertEqual(ask(self.address)[1], support.count("history=true", support.GAMES.read_bytes())[1])

    def test_what_will_be_so_at_the_next_start_does_not_start_it_again(self):
        prevented = re.search(r"(?m)^RestartPreventExitStatus=(.*)$", self.unit())[1].split()
        for content, line in ((b"OPENEXP1\1\0\0\0\0", "format 1"), (b"OPENEX", "not a store"), (b"OPENEXP1\2\0\0\0\1", "damaged at 12")):
            pathlib.Path(self.store).write_bytes(content)
            self.assertEqual(output_of(*self.words_of("ExecStartPre")), "")
            run = subprocess.run(self.words_of("ExecStart"), capture_output=True, text=True, check=False, timeout=60)
            self.assertEqual((run.returncode, run.stderr), (7, f"{line}\n"))
            self.assertIn("7", prevented)
            self.assertEqual(pathlib.Path(self.store).read_bytes(), content)

    def allowed_calls(self):
        """The calls of the system that the service allows, by what systemd has under its names of groups."""
        groups, name = {}, None
        for line in output_of("systemd-analyze", "syscall-filter").splitlines():
            if line.startswith("@"):
                groups[name := line] = []
            elif name and line.startswith("    ") and not line.startswith("    #"):
                groups[name].append(line.strip())

        def calls(word):
            return {call for part in groups[word] for call in calls(part)} if word in groups else {word}

        taken, refused = re.findall(r"(?m)^SystemCallFilter=(~?)(.*)$", self.unit())
        self.assertEqual((taken[0], refused[0]), ("", "~"))
        allowed, denied = ({call for word in words.split() for call in calls(word)} for _, words in (taken, refused))
        return allowed - denied

    def test_the_service_allows_each_call_of_the_system_that_is_made(self):
        support.needs("strace", "systemd-analyze")
        games = support.GAMES.read_bytes()
        made = set()
        # Its first start makes the store; each ends by itself, once the connections of both readers are served.
        for stored in (5, 0):
            before, serve = self.words_of("ExecStartPre"), self.words_of("ExecStart")
            serve[serve.index("--readers") + 1], serve[serve.index("--connections") + 1] = "2", "2"
            trace = f"{self.store}.calls"
            tracing = ["strace", "-f", "-qq", "-o", trace]
            output_of(*tracing, *before)
            made.update(re.findall(r"(?m)^\d+ +(\w+)\(", pathlib.Path(trace).read_text(encoding="utf-8")))
            with support.serving([*tracing, *serve]) as server:
                self.assertEqual(json.loads(ask(self.address, "POST", "/import", games)[1])["stored"], stored)
                for _ in range(3):
                    self.assertEqual(ask(self.address)[0], 200)
                self.assertEqual(server.wait(timeout=60), 0)
            made.update(re.findall(r"(?m)^\d+ +(\w+)\(", pathlib.Path(trace).read_text(encoding="utf-8")))
        self.assertIn("bind", made)
        self.assertEqual(made - self.allowed_calls(), set())

    # ---- nginx in front

    def site(self, port):
        """The example, over a server here and with a certificate of its own; and what a client trusts."""
        place = os.path.dirname(self.store)
        output_of("openssl", "req", "-x509", "-newkey", "rsa:2048", "-nodes", "-days", "1", "-subj", "/CN=localhost", "-addext",
                  "subjectAltName=IP:127.0.0.1", "-keyout", f"{place}/key", "-out", f"{place}/pem")
        text = (self.root / "usr/share/doc/explorer/examples/nginx.conf").read_text(encoding="utf-8")
        for old, new in {"listen 443": f"listen 127.0.0.1:{port}", "127.0.0.1:9000": self.address,
                         "/etc/ssl/explorer.example.org.": f"{place}/", "/usr/share": f"{self.root}/usr/share"}.items():
            self.assertIn(old, text)
            text = text.replace(old, new)
        return text, ssl.create_default_context(cafile=f"{place}/pem")

    def test_nginx_stands_in_front(self):
        support.needs("nginx", "openssl")
        port = support.free_port()
        text, trusted = self.site(port)
        output_of(self.command, "create", self.store)
        here, games = f"127.0.0.1:{port}", support.GAMES.read_bytes()
        with support.nginx(text, port):
            self.assertEqual(ask(here, context=trusted)[0], 502)
            with self.serving("--readers", "1"):
                self.assertEqual(json.loads(ask(here, "POST", "/import", games, context=trusted)[1])["stored"], 5)
                answer = ask(self.address)
                # Each of these clients keeps its connection, and there is one reader.
                with contextlib.ExitStack() as kept:
                    clients = [kept.enter_context(contextlib.closing(http.client.HTTPSConnection(here, timeout=60, context=trusted)))
                               for _ in range(3)]
                    for client in clients * 2:
                        client.request("GET", "/lichess?history=true", headers={"Cookie": "a=" + 7000 * "b"})
                        reply = client.getresponse()
                        self.assertEqual((reply.status, reply.read()), answer)
                        self.assertEqual(reply.getheader("X-Explorer-Batches"), "1")
                self.assertEqual(ask(here, "POST", "/import", 4_194_305 * b"x", context=trusted)[0], 413)
                self.assertEqual(ask(here, "POST", "/lichess", b"xx", context=trusted)[0], 413)
                self.assertEqual(ask(here, target="/lichess?fen=8/8", context=trusted)[0], 400)
                player = "/player?player=edward+lasker&color=white"
                self.assertEqual(ask(here, target=player, context=trusted), ask(self.address, target=player))
                self.assertEqual(json.loads(ask(here, target=player, context=trusted)[1])["white"], 1)
                status, page = ask(here, target="/", context=trusted)
                self.assertEqual((status, b"<title>Opening explorer</title>" in page), (200, True))
                for name in re.findall(rb'(?:src|href)="([^"]+)"', page):
                    self.assertEqual(ask(here, target=f"/{name.decode()}", context=trusted)[0], 200, name)
                # A browser takes a script of a page alone where it is told that it is one.
                with urllib.request.urlopen(f"https://{here}/main.mjs", context=trusted, timeout=60) as reply:
                    self.assertEqual(reply.headers["Content-Type"], "text/javascript; charset=utf-8")
                    self.assertIn("default-src 'self'", reply.headers["Content-Security-Policy"])


if __name__ == "__main__":
    unittest.main()
