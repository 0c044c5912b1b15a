#!/usr/bin/env python3
"""Looks whether what the pages name is there: links, chapters, files, crates, functions, laws and tests; whether the crates' tables and
the quoted statement are right; and whether their prose is in short pieces."""
import collections
import functools
import glob
import html
import itertools
import re
import unittest

import support

TOP = support.TOP
CRATES = TOP / "crates"
# The most words of a paragraph or an item, and of a cell of a table.
MOST, MOST_OF_CELL = 100, 75
# Pages that speak of earlier forms, whose names may be gone.
OF_EARLIER_FORMS = {"HISTORY.md", "RESULTS.md", "CHANGELOG.md"}
# Pages whose words between backquotes are those of the sources.
OF_THE_SOURCES = {"ARCHITECTURE.md", "CASES.md", "CONTRIBUTING.md", "CRATES.md", "DECISIONS.md", "PROMISES.md", "PROOFS.md", "TOUR.md", "WORDS.md"}
# Words of others, and of the rules of chess and of the style, that no source has.
ELSEWHERE = {"Lemmas", "available_parallelism", "current_num_threads", "dd4", "map_indices", "map_vec", "par_sort_unstable", "rayon"}
# Items and variants of Rust; definitions, their fields and constructors.
DEFINED = {".rt": re.compile(r"\b(?:fn|struct|enum|trait|mod|const|type) (\w+)|^ +([A-Z]\w+)(?:,| \{|\(|$)", re.MULTILINE),
           ".antt": re.compile(r"^(?:(?:pub|abbrev|unfoldable|record|data) )+(\w+)|^  (?:pub )?(\w+) :", re.MULTILINE)}
KINDS = ("antt", "awk", "conf", "edit", "md", "mjs", "pgn", "png", "py", "rt", "service", "sh", "store", "txt")


def pages():
    found = [TOP / name for name in ("README.md", "CHANGELOG.md", "CONTRIBUTING.md")]
    return found + sorted((TOP / "docs").glob("*.md")) + sorted((TOP / "bench").glob("*.md"))


@functools.cache
def text_of(path):
    return path.read_text(encoding="utf-8")


def prose(path):
    """The lines of a page, each with its number and the chapter that it stands in, without what is literal."""
    literal, chapter = False, ""
    for number, line in enumerate(text_of(path).splitlines(), 1):
        if line.startswith("```"):
            literal = not literal
        elif line.startswith("#"):
            chapter = line.lstrip("# ")
            yield number, chapter, line
        elif not literal and not line.startswith("    "):
            yield number, chapter, line


def headings(path):
    return [line.lstrip("# ") for _, _, line in prose(path) if line.startswith("#")]


def anchor(heading):
    return re.sub(r"[^\w -]", "", heading.lower()).replace(" ", "-")


def spans(path):
    """What stands between backquotes, with the number of its line and its chapter."""
    for number, chapter, line in prose(path):
        for span in re.findall(r"`([^`]+)`", line):
            yield number, chapter, span


@functools.cache
def crates():
    """The crates, each with those that it stands on, in the order of crates.txt."""
    lines = [line for line in text_of(TOP / "crates.txt").splitlines() if ":" in line and not line.startswith("#")]
    below = {line.partition(":")[0]: line.partition(":")[2].split() for line in lines}
    return {name: [one for one in others if one in below] for name, others in below.items()}


@functools.cache
def level(crate):
    return 1 + max((level(one) for one in crates()[crate]), default=0)


@functools.cache
def sources(crate):
    """What each file of a crate defines, by its path within the crate: items of Rust, variants, and definitions."""
    found = itertools.chain((CRATES / crate).glob("src/**/*.rt"), (CRATES / crate).glob("specs/**/*.antt"))
    return {path.relative_to(CRATES / crate): {name for names in DEFINED[path.suffix].findall(text_of(path)) for name in names}
            for path in found}


@functools.cache
def words_of_sources():
    """Each word of the crates' code and definitions, the names of their proofs, and each word of the tools and the measures."""
    paths = [path for crate in crates() for part in ("src", "specs") for path in (CRATES / crate / part).glob("**/*")]
    paths += [path for folder in ("tools", "bench", "package") for path in (TOP / folder).glob("**/*")]
    found = {*crates(), *(path.stem for path in CRATES.glob("*/proofs/**/*"))}
    for path in [*paths, TOP / "explorer", TOP / "crates.txt"]:
        if path.is_file() and path.suffix not in (".md", ".png", ".pyc"):
            found.update(re.findall(r"\w+", text_of(path)))
    return found


def is_in_crate(crate, parts):
    """Whether a crate has a path of names: modules, then a type or nothing, then an item."""
    files = sources(crate)
    *places, name = parts
    for place in places:
        module = {path: names for path, names in files.items() if path.stem == place} if place.islower() else {}
        if not module and not any(place in names for names in files.values()):
            return False
        files = module or files
    return any(name in names or name == path.stem for path, names in files.items())


def is_named(parts, near):
    """Whether a path of names is there: in the crate that it begins with, in the one that is spoken of, or in any."""
    if parts[0] in crates():
        return is_in_crate(parts[0], parts[1:])
    return any(is_in_crate(crate, parts) for crate in ([near] if near and parts[0] == "laws" else crates()))


@functools.cache
def is_path(span):
    """Whether a path of the repository is there: as it stands, below crates/, in some crate, or beside a page."""
    tried = re.sub(r"\b[A-Z]{3,}\b(?!\.md|-)", "*", span.rstrip("/"))
    places = [tried, f"crates/{tried}", f"crates/*/{tried}", f"docs/{tried}", f"package/{tried}", f"crates/*/src/{tried}"]
    return any(glob.glob(f"{glob.escape(str(TOP))}/{place}{end}") for place in places for end in ("", ".antt", ".rt"))


class Links(unittest.TestCase):
    def test_each_leads_somewhere(self):
        for page in pages():
            for target in re.findall(r'\]\(([^)\s]+)\)|src="([^"]+)"', "\n".join(line for _, _, line in prose(page))):
                path, _, place = html.unescape("".join(target)).partition("#")
                with self.subTest(page.name, target=target):
                    if not path.startswith("http"):
                        there = (page.parent / path).resolve() if path else page
                        self.assertTrue(there.exists())
                        if place:
                            self.assertIn(place, map(anchor, headings(there)))

    def test_each_chapter_that_is_named_is_there(self):
        all_headings = {heading for page in pages() for heading in headings(page)}
        for page in pages():
            for number, _, line in prose(page):
                with self.subTest(f"{page.name}:{number}"):
                    for heading, other in re.findall(r'"([^"]+)" in `([^`]+\.md)`', line):
                        self.assertIn(heading, headings(TOP / other))
                    for other, heading in re.findall(r'`([^`]+\.md)` \("([^"]+)"\)', line):
                        self.assertIn(heading, headings(TOP / other))
                    for heading in re.findall(r'(?<!`) \("([A-Z][^"]+)"\)', line):
                        self.assertIn(heading, all_headings | {name.partition(" (")[0] for name in all_headings})

    def test_the_readme_leads_to_each_page(self):
        linked = set(re.findall(r"\]\(([^)#]+\.md)", text_of(TOP / "README.md")))
        self.assertEqual({str(page.relative_to(TOP)) for page in pages()} - linked, {"README.md"})


class Names(unittest.TestCase):
    def test_each_file_is_there(self):
        for page in pages():
            for number, _, span in spans(page):
                path = span.split()[0]
                if re.fullmatch(r"[\w.*-]+(?:/[\w.*-]*)+", path) and not re.match(r"\d|application/|\.\./", path):
                    with self.subTest(f"{page.name}:{number}", path=path):
                        self.assertTrue(is_path(path) or path in ("out/", "HTTP/1.1", "examples/nginx.conf"))

    def test_each_file_that_is_named_without_its_folder_is_there(self):
        for page in pages():
            for number, _, span in spans(page):
                if re.fullmatch(rf"[\w-]+\.({'|'.join(KINDS)})", span) and page.name in OF_THE_SOURCES:
                    with self.subTest(f"{page.name}:{number}", name=span):
                        self.assertTrue(is_path(span) or list(CRATES.glob(f"*/*/**/{span}")))

    def test_each_function_law_and_type_is_there(self):
        for page in pages():
            for number, chapter, span in spans(page):
                if page.name not in OF_EARLIER_FORMS and re.fullmatch(r"\w+(?:::\w+)+", span):
                    parts = span.split("::")
                    near = chapter if chapter in crates() else None
                    with self.subTest(f"{page.name}:{number}", name=span):
                        self.assertTrue(is_named(parts, near) or is_of_the_library(parts) or page.name == "CASES.md")

    def test_each_word_of_the_sources_is_there(self):
        for page in pages():
            for number, _, span in spans(page):
                if page.name in OF_THE_SOURCES and re.fullmatch(r"[A-Za-z]\w+", span):
                    with self.subTest(f"{page.name}:{number}", word=span):
                        self.assertTrue(span in words_of_sources() or span in ELSEWHERE)


    def test_the_rooms_of_the_tour_are_there(self):
        rows = [line.split(" | ")[0] for _, _, line in prose(TOP / "docs/TOUR.md") if line.startswith("| `")]
        self.assertGreater(len(rows), 20)
        for row in rows:
            passed = []
            for span in re.findall(r"`([^`]+)`", row):
                with self.subTest(row, name=span):
                    if "/" in span:
                        passed.append(span.partition("/")[0])
                    elif span.endswith(".rt"):
                        self.assertTrue((CRATES / passed[-1] / "src" / span).exists())
                    else:
                        self.assertTrue(any(is_in_crate(crate, span.split("::")) for crate in passed))


def is_of_the_library(parts):
    """Names that the sources use and the library defines."""
    return parts[0] in ("Mutex", "Snapshot") and set(parts) <= words_of_sources()


class Cases(unittest.TestCase):
    def test_each_test_that_is_named_is_there(self):
        lines = [line for line in text_of(TOP / "docs/CASES.md").splitlines() if line.startswith("| ")][1:]
        self.assertEqual([line for line in lines if "`" not in line.rpartition(" | ")[2]], [])
        for line in lines:
            crate = None
            for word in re.findall(r"`([a-z_:0-9]+)`", line.rpartition(" | ")[2]):
                module, _, test = word.rpartition("::")
                module = module.replace("::", "/")
                tests = CRATES / f"{crate}/src/tests"
                if crate is None or not module and not (tests / f"{test}.rt").exists():
                    crate = word
                    self.assertIn(crate, crates(), line)
                elif module:
                    self.assertIn(f"#[test]\nfn {test}(", text_of(tests / f"{module}.rt"), line)


class Crates(unittest.TestCase):
    def test_each_has_its_level(self):
        rows = re.findall(r"^\| (\d) \| (\w+) \|", text_of(TOP / "docs/ARCHITECTURE.md"), re.MULTILINE)
        self.assertEqual(sorted((name, int(number)) for number, name in rows), sorted((name, level(name)) for name in crates()))
        self.assertEqual([number for number, _ in rows], sorted(number for number, _ in rows))

    def test_the_longest_chain_is_one(self):
        [chain] = re.findall(r"longest chain of crates has nine: (.*?)\.", text_of(TOP / "docs/ARCHITECTURE.md"))
        names = re.findall(r"`(\w+)`", chain)
        self.assertEqual([level(name) for name in names], list(range(1, max(map(level, crates())) + 1)))
        self.assertTrue(all(one in crates()[other] for one, other in itertools.pairwise(names)))

    def test_each_has_a_row_and_a_chapter(self):
        text = text_of(TOP / "docs/CRATES.md")
        self.assertEqual(sorted(re.findall(r"^### (\w+)$", text, re.MULTILINE)), sorted(crates()))
        rows = re.findall(r"^\| ([a-z_, ]+) \|", text.partition("\n## Crate by crate\n")[0], re.MULTILINE)
        self.assertEqual(sorted(", ".join(rows).split(", ")), sorted(crates()))

    def test_the_tests_of_each_stand_where_they_are_said_to(self):
        told = re.findall(r"^`(\w+_tests)` has the tests of ((?:`\w+`(?:, (?:and )?| and )?)+)", text_of(TOP / "docs/CRATES.md"), re.MULTILINE)
        for crate, names in told:
            self.assertLessEqual(set(re.findall(r"`(\w+)`", names)), set(crates()[crate]), crate)
        self.assertEqual({crate for crate, _ in told}, {name for name in crates() if name.endswith("_tests")})

    def test_as_many_stand_below_the_program_as_is_told(self):
        found, waiting = set(), ["explorer"]
        while waiting:
            waiting += [one for one in crates()[waiting.pop()] if one not in found and not found.add(one)]
        self.assertIn(f"with the {len(found)} crates that it stands on", text_of(TOP / "docs/RUNNING.md"))

    def test_each_has_six_wrong_bodies_or_more(self):
        inside = collections.Counter(path.parts[-3] for path in CRATES.glob("*/must-fail/*.edit"))
        outside = collections.Counter(path.parent.name for path in (TOP / "bench/wrong").glob("*/*.edit"))
        self.assertEqual((sum(inside.values()), len(inside)), (18, 13))
        self.assertEqual({name for name, count in (inside + outside).items() if count >= 6}, {name for name in crates() if not name.endswith("_tests")} - {"plain_laws"})


class Statement(unittest.TestCase):
    def test_what_is_quoted_stands_in_the_specs(self):
        head, quoted = text_of(TOP / "docs/PROOFS.md").partition("\n## The statement\n")[2].split("```")[:2]
        [modules] = re.findall(r"word for word in `explorer/specs` \((.*?)\)", head)
        found = flat("\n".join(text_of(CRATES / f"explorer/specs/{name}.antt") for name in re.findall(r"\w+", modules)))
        # What the contract says comes first; then definitions, of which one is cut short.
        for piece in re.split(r"\n(?=[^\s-])|\n\n(?=-- )", quoted.strip())[1:]:
            if ".." not in piece:
                self.assertIn(f" {flat(piece)} ", f" {found} ")


def flat(text):
    """A text of definitions on one line, without what a quotation leaves out."""
    text = re.sub(r"\bpub ", "", re.sub(r" : Type 0\b", "", text))
    return re.sub(r"\s+", " ", re.sub(r"\n *-- *", " -- ", text)).replace(" -- ", " ").strip().removeprefix("-- ")


class Prose(unittest.TestCase):
    def test_no_paragraph_is_a_wall(self):
        for page in pages():
            for number, _, line in prose(page):
                pieces, most = ([line], MOST) if not line.startswith("|") else (line.split(" | "), MOST_OF_CELL)
                with self.subTest(f"{page.name}:{number}"):
                    self.assertLessEqual(max(len(piece.split()) for piece in pieces), most)

    def test_the_first_hour_is_short(self):
        first = ("README.md", "docs/TOUR.md", "docs/WORDS.md", "docs/ARCHITECTURE.md")
        self.assertLessEqual(sum(len(text_of(TOP / name).split()) for name in first), 5000)

    def test_decisions_have_numbers_and_dates(self):
        items = [line for _, _, line in prose(TOP / "docs/DECISIONS.md") if line.startswith("- ")]
        heads = [re.match(r"- \*\*(\d+)\*\* \(2\d{3}-\d\d-\d\d\) \S", line) for line in items]
        self.assertEqual([line[:60] for line, head in zip(items, heads) if not head], [])
        numbers = [int(head[1]) for head in heads]
        self.assertEqual(len(set(numbers)), len(numbers))


if __name__ == "__main__":
    unittest.main()
