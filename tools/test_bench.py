#!/usr/bin/env python3
"""Tests of bench/run on a few games: what it writes, and what it says where a measure cannot be taken; of the right bodies that
stand beside wrong ones: that each is such; of which wrong bodies are due; of the programs that are measured; and of what is told of the
prover's time."""
import importlib.machinery
import importlib.util
import os
import pathlib
import re
import shutil
import subprocess
import sys
import tempfile
import unittest

import support

sys.path.insert(0, str(support.TOP / "bench"))
import bodies
import measuring

TOOL = str(support.TOP / "bench/run")


class Run(unittest.TestCase):
    def setUp(self):
        folder = tempfile.TemporaryDirectory()
        self.addCleanup(folder.cleanup)
        self.folder = pathlib.Path(folder.name)
        self.output = self.folder / "RESULTS.md"

    def run_tool(self, *words, program=None):
        kept = {"EXPLORER_BENCH": str(self.folder / "kept"), "EXPLORER": program or support.program()}
        return support.run_tool(TOOL, "--output", str(self.output), *words, env={**os.environ, **kept})

    def test_a_measure_is_written(self):
        few = ["--few", "5", "--many", "5", "--rounds", "1", "--workers", "1,2"]
        status, _, errors = self.run_tool("--archive", str(support.GAMES), "--only", "count,query", *few)
        self.assertEqual(status, 0, errors)
        text = self.output.read_text(encoding="utf-8")
        for words in ("## count", "| explorer count, 2 workers | ", "## query", "| 1 workers | "):
            self.assertIn(words, text)

    def test_what_measures_need_is_made_before(self):
        few = ["--few", "4", "--many", "5", "--workers", "1"]
        status, output, errors = self.run_tool("--archive", str(support.GAMES), "--prepare", "--only", "count,query", *few)
        self.assertEqual((status, output, errors), (0, "", "bench: giving the games the nine tags\n"))
        made = [path.name for path in (self.folder / "kept").glob("**/games-*")]
        size = support.GAMES.stat().st_size
        wanted = [f"games-{size}-4.pgn", f"games-{size}-5.pgn", f"games-{size}-5.store", f"games-{size}.tagged"]
        self.assertEqual(sorted(made), wanted)
        self.assertFalse(self.output.exists())

    def test_too_few_games_are_told(self):
        status, _, errors = self.run_tool("--archive", str(support.GAMES), "--only", "count")
        self.assertEqual(status, 1)
        told = "count was not taken: the archive has 5 games that can be counted, and 20000 are asked for"
        self.assertIn(told, errors)

    def test_a_missing_program_is_told(self):
        words = ["--archive", str(support.GAMES), "--only", "count", "--few", "5"]
        status, _, errors = self.run_tool(*words, program="/nowhere")
        self.assertEqual(status, 1)
        self.assertIn("there is no program /nowhere: build it by ./explorer, or name it in EXPLORER", errors)

    def test_help_and_faulty_words(self):
        self.assertIn("usage: bench/run", self.run_tool("--help", program="x")[1])
        faulty = (["--archive", "/nowhere"], ["--archive", TOOL, "--only", "x"], ["--workers", "x"], ["--few", "0"])
        for words in faulty:
            status, _, errors = self.run_tool(*words, program="x")
            self.assertEqual(status, 2)
            self.assertIn("bench/run: error:", errors)

    def test_each_script_tells_its_usage(self):
        names = "cuts kill legal long-texts lookup memory perft segments steps store tally too-long wire"
        for name in names.split():
            status, output, _ = support.run_tool(str(support.TOP / "bench" / name), "--help")
            self.assertEqual(status, 0)
            self.assertIn(f"usage: bench/{name}", output)
        for name in ("lookup", "segments", "steps", "tally"):
            status, output, errors = support.run_tool(str(support.TOP / "bench" / name), "/nowhere")
            self.assertEqual((status, output), (2, ""))
            self.assertIn(f"usage: bench/{name}", errors)


class Programs(unittest.TestCase):
    def test_a_program_stands_on_the_crates_below(self):
        found = measuring.crates_below(["fen_uci", "clap"])
        self.assertEqual(found, {"fen_uci", "explorer_model", "legal_moves", "plain_laws", "step_tables"})
        sums = [measuring.sum_of_sources(name) for name in ("lookup", "perft", "segments", "steps", "store", "tally", "wire")]
        self.assertEqual(len(set(sums)), len(sums))

    def test_each_is_laid_out_as_the_formatter_does_it(self):
        support.needs("rt")
        programs = support.TOP / "bench/programs"
        with tempfile.TemporaryDirectory() as folder:
            pathlib.Path(folder, "crates.txt").touch()
            for program in filter(pathlib.Path.is_dir, sorted(programs.iterdir())):
                crate = pathlib.Path(folder, "crates", program.name)
                placed = {place: crate / place.relative_to(program).with_suffix("") for place in program.glob("**/*.in")}
                for place, copy in placed.items():
                    copy.parent.mkdir(parents=True, exist_ok=True)
                    shutil.copy(place, copy)
                run = subprocess.run(["rt", "fmt"], cwd=crate, capture_output=True, text=True, check=False, timeout=60)
                self.assertEqual(run.returncode, 0, run.stdout + run.stderr)
                for place, copy in placed.items():
                    self.assertEqual(place.read_text(encoding="utf-8"), copy.read_text(encoding="utf-8"), place)

    def test_each_script_has_its_own(self):
        told = {name for path in (support.TOP / "bench").iterdir() if path.is_file()
                for name in re.findall(r"^new_program (\w+)", path.read_text(encoding="utf-8"), re.MULTILINE)}
        there = {place.name for place in (support.TOP / "bench/programs").iterdir() if (place / "src").is_dir()}
        self.assertEqual(there - told, {"disk_memory", "index_memory", "wire_memory"})
        self.assertEqual(told - there, set())


def loaded(name):
    """A script of bench/ as a module."""
    loader = importlib.machinery.SourceFileLoader(name.replace("-", "_"), str(support.TOP / "bench" / name))
    tool = importlib.util.module_from_spec(importlib.util.spec_from_loader(loader.name, loader))
    loader.exec_module(tool)
    return tool


class ProofTimes(unittest.TestCase):
    def test_a_file_is_about_a_function(self):
        tool = loaded("proof-times")
        for name, told in (
            ("Rattle-lookup-proofs.answer.found_in.Lts.oantt", ("lookup", "answer.found_in", "evaluation")),
            ("Rattle-lookup-proofs.answer.found_in.Proof.decls.oantt.tmp.7.8", ("lookup", "answer.found_in", "search")),
            ("Rattle-lookup-specs.contracts.answer.found_in.Key.oantt", ("lookup", "answer.found_in", "rest")),
            ("Rattle-lookup-proofs.Sorting.oantt", ("lookup", "Sorting", "rest")),
            ("Rattle-lookup.oantt", ("lookup", "the crate", "rest")),
        ):
            self.assertEqual(tool.function_of(name), told)

    def test_time_is_told_by_what_took_most(self):
        times = loaded("proof-times").Times()
        for process, seconds, name in (
            (1, 2.0, "Rattle-a-proofs.f.Key.oantt"),
            (2, 9.0, "Rattle-b-proofs.g.Key.oantt"),
            (1, 3.5, "Rattle-a-proofs.f.Lts.oantt"),
            (2, 13.0, "Rattle-b-proofs.g.Proof.oantt"),
            (1, 3.75, "Rattle-a-proofs.f.Proof.oantt"),
        ):
            times.add(process, seconds, name)
        self.assertEqual([line.split() for line in times.lines(2)][1:],
                         [["4.0", "0.0", "4.0", "0.0", "b", "g"], ["1.8", "1.5", "0.2", "0.0", "a", "f"]])

    def test_help_and_faulty_words(self):
        tool = str(support.TOP / "bench/proof-times")
        self.assertIn("usage: bench/proof-times", support.run_tool(tool, "--help")[1])
        status, _, errors = support.run_tool(tool)
        self.assertEqual(status, 2)
        self.assertIn("there is no command", errors)


SOURCE = """//! Halves.
use std::alloc::Global;

/// The half of a number.
fn half(n: u8) -> u8
    ensures low { result + result ≤ n } // rounded down
{
    n / 2
}

pub trait Halved {
    fn halved(&self) -> u8
        ensures { self ≡ record { half = 1; } };
}

pub const MOST: u8 = 127;
"""
SAID = ["fn half(n: u8) -> u8", "ensures low { result + result ≤ n }", "{", "pub trait Halved {", "fn halved(&self) -> u8",
        "ensures { self ≡ record { half = 1; } };", "}", "pub const MOST: u8 = 127;"]
STUB = """#!/usr/bin/env bash
echo "$* $(ls crates/"$2"/must-fail | xargs)" >>"$RT_CALLS"
[ "$2" != "${RT_LETS_THROUGH:-}" ]
"""


class WrongBodies(unittest.TestCase):
    """Over two crates, `high` and below it `low`, and a command `rt` that only notes what it is asked."""

    def setUp(self):
        folder = tempfile.TemporaryDirectory()
        self.addCleanup(folder.cleanup)
        self.top = pathlib.Path(folder.name)
        self.calls = self.top / "calls"
        self.write("bin/rt", STUB).chmod(0o755)
        for name in ("bodies.py", "measuring.py", "wrong-bodies"):
            shutil.copy(support.TOP / "bench" / name, self.write(f"bench/{name}", ""))
        self.write("crates.txt", "low:\nhigh: low std\n")
        self.write("HANDLES", "")
        for crate in ("low", "high"):
            self.write(f"crates/{crate}/src/lib.rt", SOURCE)
            self.write(f"crates/{crate}/specs/Lib.antt", "-- Halves.\npub mod Half\n")
            self.write(f"bench/wrong/{crate}/is_whole.edit", "file: src/lib.rt\nold:     n / 2\nnew:     n\n")

    def write(self, name, text):
        place = self.top / name
        place.parent.mkdir(parents=True, exist_ok=True)
        place.write_text(text, encoding="utf-8")
        return place

    def run_tool(self, *words, **environment):
        """A run as (status, lines of output, calls of rt)."""
        self.calls.unlink(missing_ok=True)
        env = {**os.environ, "PATH": f"{self.top}/bin:{os.environ['PATH']}", "RT_CALLS": str(self.calls), **environment}
        status, output, errors = support.run_tool(str(self.top / "bench/wrong-bodies"), *words, env=env)
        self.assertEqual(errors, "")
        return status, output.splitlines(), self.calls.read_text().splitlines() if self.calls.exists() else []

    def due_after(self, name, text):
        """What is due where a file has another text for a while."""
        place = self.top / name
        before = place.read_text(encoding="utf-8") if place.exists() else None
        self.write(name, text)
        found = self.run_tool("--list")[1]
        if before is None:
            place.unlink()
        else:
            self.write(name, before)
        return found

    def test_what_a_contract_says(self):
        self.assertEqual(list(loaded("wrong-bodies").said_in_source(SOURCE.splitlines())), SAID)

    def test_a_change_of_a_contract_makes_due_what_stands_on_it(self):
        self.assertEqual(self.run_tool("--list")[1], ["high/is_whole", "low/is_whole"])
        self.assertEqual(self.run_tool()[2], ["must-fail high is_whole.edit", "must-fail low is_whole.edit"])
        self.assertEqual(self.run_tool(), (0, ["none is due"], []))
        for name, text, found in (
            ("crates/low/src/lib.rt", SOURCE.replace("n / 2", "n.div(2)"), []),
            ("crates/low/src/lib.rt", SOURCE.replace("down", "to the lesser").replace("    ensures low", "  ensures  low"), []),
            ("crates/low/src/tests.rt", "fn a_half() {}", []),
            ("crates/low/specs/Lib.antt", "pub mod Half", []),
            ("crates/low/specs/Half.antt", "half n = n", ["high/is_whole", "low/is_whole"]),
            ("crates/low/src/lib.rt", SOURCE.replace("≤ n", "≤ n + 1"), ["high/is_whole", "low/is_whole"]),
            ("crates/low/src/lib.rt", SOURCE.replace("127", "126"), ["high/is_whole", "low/is_whole"]),
            ("crates/high/src/lib.rt", SOURCE.replace("-> u8", "-> u16"), ["high/is_whole"]),
            ("bench/wrong/low/is_nothing.edit", "file: src/lib.rt\nold:     n / 2\nnew:     0\n", ["low/is_nothing"]),
        ):
            self.assertEqual(self.due_after(name, text), found, (name, text))

    def test_one_that_is_not_refused_stays_due(self):
        status, output, calls = self.run_tool(RT_LETS_THROUGH="low")
        self.assertEqual((status, output[-1], len(calls)), (1, "not all refused: low", 2))
        self.assertEqual(self.run_tool("--list")[1], ["low/is_whole"])
        self.assertEqual(self.run_tool("--all", "high")[2], ["must-fail high is_whole.edit"])

    def test_one_whose_text_is_gone_is_told(self):
        self.write("crates/low/src/lib.rt", SOURCE.replace("n / 2", "n >> 1"))
        status, output, calls = self.run_tool("low")
        self.assertEqual((status, output[-1], calls), (1, "not all refused: low", []))
        self.assertIn("'    n / 2' stands 0 times in src/lib.rt", output[-2])

    def test_help_and_faulty_words(self):
        tool = str(support.TOP / "bench/wrong-bodies")
        self.assertIn("usage: bench/wrong-bodies", support.run_tool(tool, "--help")[1])
        status, _, errors = support.run_tool(tool, "nowhere")
        self.assertEqual(status, 2)
        self.assertIn("there is no wrong body of nowhere", errors)

    def test_each_edit_fits_its_crate(self):
        crates = sorted(place.name for place in (support.TOP / "crates").iterdir())
        found = {crate: bodies.wrong_bodies(crate) for crate in crates}
        self.assertEqual(sum(map(len, found.values())), len(list(support.TOP.glob("bench/wrong/*/*.edit")))
                         + len(list(support.TOP.glob("crates/*/must-fail/*.edit"))))
        for crate, edits in found.items():
            self.assertEqual(len({edit.name for edit in edits}), len(edits), crate)
            for edit in edits:
                for place, text in bodies.texts_with(support.TOP / "crates" / crate, edit).items():
                    self.assertNotEqual(place.read_text(encoding="utf-8"), text, edit)


class RightBodies(unittest.TestCase):
    def test_each_stands_beside_a_wrong_one(self):
        tool = loaded("right-bodies")
        edits = sorted(tool.CONTROLS.glob("*/*.edit"))
        self.assertTrue(edits)
        for edit in edits:
            crate = support.TOP / "crates" / edit.parent.name
            wrong = {(file, old) for file, old, _ in bodies.replacements(bodies.wrong_body(edit.parent.name, edit.stem))}
            for file, old, new in bodies.replacements(edit):
                self.assertNotEqual(old, new, edit)
                if old is None:
                    self.assertTrue(file.startswith("proofs/") and not (crate / file).parent.exists(), edit)
                    continue
                self.assertEqual((crate / file).read_text(encoding="utf-8").count(old), 1, edit)
                # what its clauses cite, and the lines of its proof, are the right body's own
                at_wrong = any(file == place and (old in text or text in old) for place, text in wrong)
                self.assertTrue(at_wrong or file.startswith("proofs/") or old.startswith("ghost use "), edit)

    def test_help_and_faulty_words(self):
        tool = str(support.TOP / "bench/right-bodies")
        self.assertIn("usage: bench/right-bodies", support.run_tool(tool, "--help")[1])
        status, _, errors = support.run_tool(tool, "nowhere")
        self.assertEqual(status, 2)
        self.assertIn("there is no right body of nowhere", errors)


if __name__ == "__main__":
    unittest.main()
