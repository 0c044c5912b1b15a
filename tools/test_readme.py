#!/usr/bin/env python3
"""Runs the commands of README.md in their order, and compares their answers with the one that stands there and with one another."""
import itertools
import json
import pathlib
import shutil
import subprocess
import tempfile
import unittest

import support

INDENT = " " * 4
CHAPTER = (support.TOP / "README.md").read_text(encoding="utf-8").partition("\n## Run it\n")[2].partition("\n## ")[0]
LINES = [line.removeprefix(INDENT) for line in CHAPTER.splitlines() if line.startswith(INDENT)]


class Commands(unittest.TestCase):
    def setUp(self):
        self.folder = pathlib.Path(tempfile.mkdtemp())
        self.addCleanup(shutil.rmtree, self.folder)
        shutil.copy(support.GAMES, self.folder)
        self.address = f"127.0.0.1:{support.free_port()}"

    def here(self, command):
        return command.replace("./explorer", support.program()).replace("127.0.0.1:9000", self.address)

    def output_of(self, command):
        run = subprocess.run(["bash", "-c", self.here(command)], cwd=self.folder, capture_output=True, check=True)
        return run.stdout.decode()

    def test_the_answer_stands_there(self):
        [command] = [line for line in LINES if line.startswith("./explorer count ")]
        answer = "".join(itertools.takewhile(lambda line: not line.startswith("./"), LINES[LINES.index(command) + 1:]))
        self.assertEqual(self.output_of(command), f"{answer}\n")

    def test_a_store_is_made_filled_asked_and_served(self):
        create, import_file, query, batches, serve, get, post = [line for line in LINES if "games.store" in line or "curl " in line]
        self.assertEqual(self.output_of(create), "created\n")
        self.assertEqual(self.output_of(import_file), "stored 5\nbatches 1\njournal 1\n")
        answer = self.output_of(query)
        self.assertEqual(answer.encode().rstrip(), support.count("play=e2e4", support.GAMES.read_bytes())[1])
        self.assertEqual(self.output_of(batches), "1 5 five\n")
        words = ["bash", "-c", f"exec {self.here(serve.removesuffix(' &'))}"]
        server = subprocess.Popen(words, cwd=self.folder, stdout=subprocess.PIPE)
        try:
            self.assertEqual(server.stdout.readline().decode(), f"listening {self.address}\n")
            self.assertEqual(self.output_of(get), answer.rstrip())
            reply = json.loads(self.output_of(post))
            self.assertEqual((reply["stored"], [told["why"] for told in reply["refused"]]), (0, [f"Repeated {n}" for n in range(5)]))
        finally:
            server.terminate()
            server.wait()
            server.stdout.close()


if __name__ == "__main__":
    unittest.main()
