#!/usr/bin/env python3
"""Tests that the help of each tool, and what it says of faulty words, has one style."""
import re
import unittest

import support

TOOLS = {"gather": [], "nine-tags": ["--rating", "x"], "openings": [], "repertoire": ["--side", "x"],
         "board/board": ["--port", "x"], "package": ["--colour"], "export": [], "run-tests": ["no-such-test"]}


class Style(unittest.TestCase):
    def test_help_has_its_parts_in_order(self):
        for path in TOOLS:
            name = path.rpartition("/")[2]
            status, text, errors = support.run_tool(str(support.TOP / "tools" / path), "--help")
            self.assertEqual((status, errors), (0, ""))
            parts = [f"usage: {name} ", "\noptions:\n  -h, --help ", f"\nexample:\n  {name} ", "\nexit status:\n  0  "]
            places = [text.index(part) for part in parts]
            self.assertEqual(places, sorted(places), name)
            self.assertRegex(text, r"\n  0  .*\n  1  .*\n  2  for a faulty command line\n$")
            self.assertLessEqual(max(map(len, text.splitlines())), 120, name)
            self.assertRegex(text, r"\n\n[A-Z][^\n]*[a-z.]\n", name)

    def test_faulty_words_lead_to_the_help(self):
        for path, words in TOOLS.items():
            name = path.rpartition("/")[2]
            status, output, errors = support.run_tool(str(support.TOP / "tools" / path), *words)
            self.assertEqual((status, output), (2, ""))
            self.assertEqual(re.sub(r"^usage: (?:.*\n)+?(?=\S+: error)", "", errors).count("\n"), 2)
            self.assertTrue(errors.endswith(f"{name}: '{name} --help' says what it takes\n"), errors)


if __name__ == "__main__":
    unittest.main()
