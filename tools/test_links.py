#!/usr/bin/env python3
"""Looks whether what the tools, the launcher, the service and the page send their user to is there; and whether it is installed, where
they are. What the pages name is looked at by tools/test_pages.py."""
import re
import subprocess
import unittest

import support

TOP = support.TOP
PACKAGE = (TOP / "tools/package").read_text(encoding="utf-8")
PATH = re.compile(r"(?<![\w./-])(?:docs|tools|bench|package)/[\w./-]*\w")
PAGE = re.compile(r"\bdocs/[A-Z-]+\.md\b")
# Pages that are of use beside the proofs, of which those that are installed may tell.
OF_PROOFS = {"docs/CRATES.md", "docs/PROOFS.md"}


def installed(line):
    """The words of a loop of tools/package."""
    return re.search(line, PACKAGE)[1].split()


TOOLS = installed(r"for tool in (.*board/board); do")
PAGES = {f"docs/{name}.md" for name in installed(r"for page in ([A-Z -]+); do")}


def sources():
    """The files whose lines a user may be told: the tools, the launcher, the page, and what is made into a package."""
    found = [path for path in (TOP / "tools").iterdir() if path.is_file() and not path.name.startswith(("test_", "support"))]
    found += [TOP / "explorer", TOP / "tools/board/board", *(TOP / "tools/board/page").iterdir(), *(TOP / "package").iterdir()]
    return sorted(path for path in found if path.is_file())


class Links(unittest.TestCase):
    def test_what_is_told_of_is_there(self):
        found = 0
        for source in sources():
            for path in PATH.findall(source.read_text(encoding="utf-8")):
                found += 1
                with self.subTest(source.name, path=path):
                    self.assertTrue((TOP / path).exists())
        self.assertGreater(found, 10)

    def test_files_of_the_page_name_files_of_the_page(self):
        page = TOP / "tools/board/page"
        for source in page.iterdir():
            text = source.read_text(encoding="utf-8")
            names = re.findall(r'from "\./([^"]+)"', text)
            names += re.findall(r'(?:src|href)="([\w.-]+)"', text) if source.suffix == ".html" else []
            names += re.findall(r'"?`?(\w+\.svg)#', text)
            for name in names:
                with self.subTest(source.name, name=name):
                    self.assertTrue((page / name).exists())


class Installed(unittest.TestCase):
    def test_pages_and_tools_are_there(self):
        for path in (*PAGES, *(f"tools/{name}" for name in TOOLS)):
            with self.subTest(path):
                self.assertTrue((TOP / path).is_file())

    def test_each_tool_is_installed_or_of_the_sources(self):
        listed = subprocess.run(["git", "-C", str(TOP), "ls-files", "-s", "tools"], capture_output=True, text=True, check=True).stdout
        commands = re.findall(r"(?m)^100755 .*\ttools/((?:board/)?[a-z-]+)$", listed)
        self.assertEqual({name for name in commands if name not in TOOLS}, {"package", "run-tests"})

    def test_pages_that_are_installed_tell_of_such_pages(self):
        installed_sources = [TOP / path for path in PAGES] + [TOP / "tools" / name for name in (*TOOLS, "starting.sh", "command.py")]
        installed_sources += [TOP / "package/explorer.service", TOP / "package/nginx.conf", TOP / "package/manual.py"]
        for source in installed_sources:
            for path in PAGE.findall(source.read_text(encoding="utf-8")):
                with self.subTest(source.name, path=path):
                    self.assertIn(path, PAGES | OF_PROOFS)

    def test_commands_that_are_told_of_are_installed(self):
        commands = {f"explorer-{name.rpartition('/')[2]}" for name in TOOLS}
        for path in PAGES:
            for command in re.findall(r"(?<![\w/.-])explorer-[a-z][a-z-]*(?=[ `\n])", (TOP / path).read_text(encoding="utf-8")):
                with self.subTest(path, command=command):
                    self.assertIn(command, commands)


if __name__ == "__main__":
    unittest.main()
