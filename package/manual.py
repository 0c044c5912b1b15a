#!/usr/bin/env python3
"""Writes the manual page of the program, from what its --help says and from chapters of docs/BEHAVIOUR.md; or that of a tool, from
what its --help says."""
import os
import re
import subprocess
import sys

COMMANDS = re.compile(r"^  (\w+) {2,}\S", re.MULTILINE)
CHAPTERS = {
    "The program today": "COUNTING",
    "Stores": "STORES",
    "The parameters of a query": "QUERIES",
    "A file of openings": "OPENINGS",
    "Words and statuses": "EXIT STATUS",
}


def help_of(program, *command):
    """What the program says of itself, or of a command, by the name that it is installed by. It comes on the error stream, with
    status 2."""
    words = ["explorer", *command, "--help"]
    run = subprocess.run(words, executable=program, capture_output=True, text=True, timeout=60, check=False)
    if run.returncode != 2 or "Usage: explorer" not in run.stderr:
        raise SystemExit(f"manual.py: {program} is no explorer: '{' '.join(words)}' has no usage, and status {run.returncode}")
    return run.stderr


def plain(text):
    """A text as troff takes it: nothing of it is a request or an escape."""
    text = text.replace("\\", "\\e").replace("-", "\\-").replace("^", "\\(ha").replace("~", "\\(ti").replace("`", "\\(ga")
    return re.sub(r"^(?=['.])", "\\\\&", text, flags=re.MULTILINE)


def marked(text):
    """A text of Markdown: what is between backquotes is bold, what is between stars is italic."""
    parts = []
    for code, words in re.findall(r"`([^`]+)`|([^`]+)", text):
        if code:
            parts.append(f"\\fB{plain(code)}\\fR")
        else:
            parts.append(re.sub(r"\*+([^*]+)\*+", r"\\fI\1\\fR", plain(words)))
    return re.sub(r"^(?=['.])", "\\\\&", "".join(parts))


def literal(lines):
    return [".RS 4", ".nf", *map(plain, lines), ".fi", ".RE"]


def cells_of(line):
    return [cell.strip() for cell in line.removeprefix("|").removesuffix("|").split(" | ")]


def table(head, rows):
    """The entries of a table: the first cell of each, then the second, and the others behind their names."""
    names, lines = cells_of(head), []
    for first, second, *others in map(cells_of, rows):
        told = [second, *(f"{name}: {cell}" for name, cell in zip(names[2:], others) if name and cell)]
        lines += [".TP", f"\\fB{plain(first.replace('`', ''))}\\fR", marked(". ".join(told))]
    return lines


def block(text):
    """The lines of one block of a chapter: a literal text, a table, a list, or a paragraph."""
    lines = text.splitlines()
    if text.startswith("    "):
        return literal(line.removeprefix("    ") for line in lines)
    if text.startswith("|"):
        return table(lines[0], lines[2:])
    if text.startswith("- "):
        return [part for line in lines for part in (".IP \\(bu 3", marked(line.removeprefix("- ")))]
    return [".PP", marked(" ".join(lines))]


def chapter(behaviour, name):
    found = re.search(rf"^## {re.escape(name)}\n+(.*?)(?=^## |\Z)", behaviour, re.MULTILINE | re.DOTALL)
    if not found:
        raise SystemExit(f"manual.py: docs/BEHAVIOUR.md has no chapter '{name}'")
    blocks = found[1].strip("\n").split("\n\n")
    lines = [line for text in blocks for line in block(text)]
    return [f".SH {CHAPTERS[name]}", *(lines[1:] if lines[0] == ".PP" else lines)]


def command_lines(program, command):
    text = help_of(program, command)
    return [f".SS {command}", *literal(text.strip("\n").splitlines())]


def head(name, version, date, about):
    return [f'.TH {name.upper()} 1 "{date}" "explorer {version}" "User Commands"', ".SH NAME", f"{name} \\- {about}"]


def page_of_tool(tool, version, date):
    text = subprocess.run([tool, "--help"], capture_output=True, text=True, timeout=60, check=True).stdout
    usage, does, rest = text.split("\n\n", 2)
    name = os.path.basename(tool)
    about = plain(" ".join(does.split()).removesuffix("."))
    lines = [*head(name, version, date, about[0].lower() + about[1:]), ".SH SYNOPSIS", ".nf", *map(plain, usage.splitlines()), ".fi"]
    return [*lines, ".SH DESCRIPTION", *literal(rest.splitlines())]


def page(program, behaviour, version, date, proved):
    about = help_of(program)
    commands = COMMANDS.findall(about.partition("Commands:")[2].partition("Options:")[0])
    first = about.splitlines()[0]
    usages = [re.search(r"Usage: (.*)", help_of(program, command))[1] for command in commands]
    lines = [
        *head("explorer", version, date, plain(re.sub("^An? ", "", first))),
        ".SH SYNOPSIS", ".nf", *(f"\\fB{plain(usage)}\\fR" for usage in usages), ".fi",
        ".SH COMMANDS",
    ]
    for command in commands:
        lines += command_lines(program, command)
    for name in CHAPTERS:
        lines += chapter(behaviour, name)
    return lines + [
        ".SH FILES",
        ".TP", "/usr/share/doc/explorer/docs/BEHAVIOUR.md", "every grammar, format and text",
        ".TP", "/usr/share/doc/explorer/docs/QUERIES.md", "eleven requests with their answers",
        ".TP", "/usr/share/doc/explorer/docs/SERVICE.md", "the service explorer.service, and nginx in front of it",
        ".TP", "/usr/share/doc/explorer/PROVED", plain(proved),
    ]


def main():
    if len(sys.argv) not in (4, 6):
        print("usage: manual.py VERSION DATE PROGRAM BEHAVIOUR PROVED, or manual.py VERSION DATE TOOL", file=sys.stderr)
        return 2
    version, date, program, *more = sys.argv[1:]
    if more:
        with open(more[0], encoding="utf-8") as text:
            lines = page(program, text.read(), version, date, more[1])
    else:
        lines = page_of_tool(program, version, date)
    print("\n".join(lines))
    return 0


if __name__ == "__main__":
    sys.exit(main())
