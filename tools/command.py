"""What the command lines of the tools have in common: the form of their help, and of what they tell on the error stream."""
import argparse
import os
import sys
import textwrap

NAME = os.path.basename(sys.argv[0])
WIDTH = 79


def tell(line):
    print(f"{NAME}: {line}", file=sys.stderr)


def paragraph(text):
    return textwrap.fill(" ".join(text.split()), WIDTH)


class Words(argparse.ArgumentParser):
    """A command line whose help says what the tool does, its words, what else has to be known, an example, and the exit statuses."""

    def __init__(self, about, example, statuses):
        """`about` is the text of the tool's head; each text of `statuses` says when that status comes, from 0 on."""
        does, _, more = about.partition("\n\n")
        ends = [f"  {status}  {when}" for status, when in enumerate((*statuses, "for a faulty command line"))]
        parts = [*map(paragraph, more.strip().split("\n\n") if more.strip() else []),
                 f"example:\n  {NAME} {example}", "\n".join(["exit status:", *ends])]
        super().__init__(prog=NAME, description=paragraph(does), epilog="\n\n".join(parts), add_help=False,
                         formatter_class=argparse.RawDescriptionHelpFormatter)
        self.add_argument("-h", "--help", action="help", help="prints this text")

    def error(self, message):
        self.print_usage(sys.stderr)
        self.exit(2, f"{NAME}: error: {message}\n{NAME}: '{NAME} --help' says what it takes\n")
