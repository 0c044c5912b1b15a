#!/usr/bin/env python3
"""Sends the requests of docs/QUERIES.md to a server, and compares the answers with those that stand there."""
import re
import subprocess
import unittest

import support

DOCUMENT = support.TOP / "docs/QUERIES.md"
INDENT = " " * 8


def requests():
    """The commands of the document with the lines of their answers."""
    chapter = DOCUMENT.read_text(encoding="utf-8").partition("\n## Eleven requests\n")[2].partition("\n## ")[0]
    found = []
    for line in chapter.splitlines():
        if line.startswith(INDENT + "$ "):
            found.append((line.removeprefix(INDENT + "$ "), []))
        elif line.startswith(INDENT) and found:
            found[-1][1].append(line.removeprefix(INDENT))
    return found


def without_breaks(text):
    return re.sub(r"\s*\n\s*", "", text)


class Requests(unittest.TestCase):
    def test_each_answer_stands_in_the_document(self):
        asked = requests()
        self.assertEqual(len(asked), 11)
        with support.explorer() as address:
            for command, answer in asked:
                with self.subTest(command):
                    here = command.replace("127.0.0.1:9000", address)
                    run = subprocess.run(["bash", "-c", here], cwd=support.TOP, capture_output=True, check=True)
                    self.assertEqual(without_breaks(run.stdout.decode()), without_breaks("\n".join(answer)))


if __name__ == "__main__":
    unittest.main()
