#!/usr/bin/env python3
"""Tests of ./explorer over four small crates and a command `rt` that notes what it is asked and proves nothing: by which way the program
is built, what is told of it, and how an interrupted build goes on."""
import os
import pathlib
import re
import shutil
import signal
import subprocess
import tempfile
import time
import unittest

import support

# A name of crates.txt is proved by a line, or kept where $KEPT names it. The program that is "built" prints its words. $NAMES is what
# the help says that `rt ci` takes.
RT = """#!/usr/bin/env bash
verb="$*"
case $1 in
  version) cat "$KIT_OF_RT" && exit ;;
  help) printf '  rt ci %s    the merge gate\\n  rt must-fail [NAME..]\\n' "$NAMES" >&2 && exit 2 ;;
  ci)
    here=$PWD
    for part in crates/*; do
      crate=${part#crates/}
      parts=$(cd "$part" && find . -type f ! -path './out/*' | sort | xargs)
      echo "ci $crate $parts" >>"$RT_CALLS"
      mkdir -p "$part/out"
      if [[ " $KEPT " == *" $crate "* ]]; then
        echo "rt: $crate is kept: an earlier run on this machine proved the same files over the same libraries"
      elif [ "$crate" = "${STOPS_AT:-}" ]; then
        echo stopped >>"$RT_CALLS"
        trap 'echo ended >>"$RT_CALLS"; kill $!; exit 1' TERM
        sleep 60 &
        wait $!
      elif [ "$crate" = "${FAILS_AT:-}" ]; then
        echo "rt: $crate NOT PROVED"
        exit 1
      else
        printf '== %s\\nlogic=proved\\nrt: %s proved\\n' "$crate" "$crate"
      fi
    done
    echo "room $PWD" >>"$RT_CALLS"
    echo "5 passed, 0 failed"
    out=crates/explorer/out ;;
  all)
    echo "$* in ${PWD##*/}" >>"$RT_CALLS"
    for crate in low high explorer; do
      if [ "$crate" = "${STOPS_AT:-}" ]; then
        echo stopped >>"$RT_CALLS"
        exec sleep 60
      fi
      echo "== $crate"
      if [[ " $KEPT " == *" $crate "* ]]; then continue; fi
      if [ "$crate" = "${FAILS_AT:-}" ]; then
        echo "fn $crate::f: no proof"
        exit 1
      fi
      printf 'checked %s\\nlogic=proved\\n' "$crate"
    done
    echo "== summary"
    out=out ;;
  run) echo "$* in ${PWD##*/}" >>"$RT_CALLS" && exit ;;
esac
if [ -d "${out%/out}" ]; then
  mkdir -p "$out"
  printf '#!/usr/bin/env bash\\necho "ran $*"\\n' >"$out/explorer"
  chmod +x "$out/explorer"
fi
"""
DF = "#!/usr/bin/env bash\necho head\necho / 99999 1 ${FREE:-99998} 1% /\n"
TESTED = "mod program;\n#[cfg(test)]\nmod tests;\nmod trial;\n"
UNTESTED = "mod program;\nmod trial;\n"
LINES = "low: std\nhigh: low # above\nexplorer: high clap\nbeside: low\n"
TOLD = "explorer: proving and building the program, which takes long the first time; an interrupted build goes on where it stopped"
HERE = r"^all check --jobs \d+ in explorer / run -- count in explorer$"
UNBUILT = "the program was not built; .* Run it again .* a crate that is not proved has to be put right first$"


class Launcher(unittest.TestCase):
    def setUp(self):
        folder = tempfile.TemporaryDirectory()
        self.addCleanup(folder.cleanup)
        self.folder = pathlib.Path(folder.name)
        self.top, self.calls, self.beside = self.folder / "top", self.folder / "calls", self.folder / "kits"
        for name, text in (("kits/kit/bin/rt", RT), ("bin/df", DF)):
            self.write(name, text).chmod(0o755)
        (self.folder / "bin/rt").symlink_to(self.beside / "kit/bin/rt")
        (self.folder / "tmp").mkdir()
        self.write("kit", "rattle-kit-13b logic dac8\n")
        self.write("top/crates.txt", LINES)
        for name in ("HANDLES", "KIT"):
            self.write(f"top/{name}", "rattle-kit-13b logic dac8\n")
        for crate in ("low", "high", "beside", "explorer"):
            self.write(f"top/crates/{crate}/src/main.rt", TESTED)
            self.write(f"top/crates/{crate}/must-fail/wrong.edit", "")
        self.write("top/crates/explorer/src/tests/words.rt", "")
        shutil.copy(support.TOP / "explorer", self.top)
        (self.top / "tools").mkdir()
        for name in ("sources.sh", "starting.sh"):
            shutil.copy(support.TOP / "tools" / name, self.top / "tools")

    def write(self, name, text):
        place = self.folder / name
        place.parent.mkdir(parents=True, exist_ok=True)
        place.write_text(text, encoding="utf-8")
        return place

    def command(self, environment, words=("count", "a b")):
        env = {**os.environ, "PATH": f"{self.folder}/bin:/usr/bin:/bin", "RT_CALLS": str(self.calls), "KEPT": "",
               "NAMES": "[NAME..]", "KIT_OF_RT": str(self.folder / "kit"), "TMPDIR": str(self.folder / "tmp"), **environment}
        return [str(self.top / "explorer"), *words], env

    def run_it(self, *words, **environment):
        """A run as (status, output, lines of errors, calls of rt)."""
        self.calls.unlink(missing_ok=True)
        words, env = self.command(environment, words or ("count", "a b"))
        run = subprocess.run(words, env=env, capture_output=True, text=True, check=False)
        self.assertEqual(list((self.folder / "tmp").glob("explorer-build.*")), [], "the copy is left")
        errors = re.sub(r"\d+ min \d\d s", "0 min 00 s", run.stderr)
        return run.returncode, run.stdout, errors.splitlines(), self.noted()

    def noted(self):
        found = self.calls.read_text(encoding="utf-8").splitlines() if self.calls.exists() else []
        return [line for line in found if not line.startswith("room ")]

    def wait_for(self, call):
        for _ in range(500):
            if call in self.noted():
                return
            time.sleep(0.02)
        self.fail(f"no {call}: {self.noted()}")

    def told(self, *names):
        return [TOLD, *(f"explorer: {name} ({at} of 3 crates, 0 min 00 s)" for at, name in enumerate(names, 1))]

    def test_it_is_built_as_the_gate_does_it_and_once(self):
        status, output, errors, calls = self.run_it()
        self.assertEqual((status, output), (0, "ran count a b\n"))
        self.assertEqual(errors, self.told("explorer", "high", "low"))
        self.assertEqual(calls, ["ci explorer ./src/main.rt", "ci high ./src/main.rt", "ci low ./src/main.rt"])
        self.assertEqual(self.run_it(), (0, "ran count a b\n", [], []))
        time.sleep(0.01)
        self.write("top/crates/beside/src/main.rt", UNTESTED)
        self.assertEqual(self.run_it()[3], [])
        self.write("top/crates/low/src/main.rt", UNTESTED)
        self.assertEqual(len(self.run_it()[3]), 3)

    def test_where_the_gate_has_passed_the_program_is_taken_with_its_tests(self):
        (self.beside / "rattle-kept/tests-explorer-dac8").mkdir(parents=True)
        with_tests = "ci explorer ./src/main.rt ./src/tests/words.rt"
        for kept, call in (("high low explorer", with_tests), ("high", "ci explorer ./src/main.rt")):
            _, output, errors, calls = self.run_it(KEPT=kept)
            self.assertEqual((output, errors), ("ran count a b\n", self.told("high", "low", "explorer")))
            self.assertEqual([line for line in calls if "explorer" in line], [call])
            shutil.rmtree(self.top / "crates/explorer/out")

    def test_an_interrupted_build_goes_on(self):
        words, env = self.command({"STOPS_AT": "low"})
        running = subprocess.Popen(words, env=env, stdout=subprocess.DEVNULL, stderr=subprocess.DEVNULL, start_new_session=True)
        self.wait_for("stopped")
        os.killpg(running.pid, signal.SIGINT)
        self.assertNotEqual(running.wait(timeout=10), 0)
        self.wait_for("ended")
        for _ in range(100):
            if not list((self.folder / "tmp").glob("explorer-build.*")):
                break
            time.sleep(0.02)
        _, output, errors, calls = self.run_it(KEPT="explorer high")
        self.assertEqual((output, errors), ("ran count a b\n", self.told("explorer", "high", "low")))
        self.assertEqual(calls[0], "ci explorer ./src/main.rt")

    def test_a_crate_that_is_not_proved_is_told(self):
        status, output, errors, _ = self.run_it(FAILS_AT="high")
        self.assertEqual((status, output), (1, ""))
        self.assertEqual(errors[-2], "rt: high NOT PROVED")
        self.assertRegex(errors[-1], UNBUILT)

    def test_where_nothing_can_be_kept_or_work_is_kept_here(self):
        for name, environment in (("kits/rattle-kept", {}), ("top/crates/low/out/incremental/a", {}), ("top/none", {"FREE": "8999"})):
            place = self.write(name, "")
            status, output, errors, calls = self.run_it(**environment)
            self.assertEqual((status, output), (0, "ran count a b\n"), name)
            self.assertRegex(" / ".join(calls), HERE, name)
            self.assertEqual(errors, self.told("low", "high", "explorer"), name)
            shutil.rmtree(self.top / "crates/low/out", ignore_errors=True)
            shutil.rmtree(self.top / "crates/explorer/out")
            place.unlink(missing_ok=True)

    def test_where_the_gate_takes_no_names_it_is_built_here(self):
        status, output, errors, calls = self.run_it(NAMES="")
        self.assertEqual((status, output, errors), (0, "ran count a b\n", self.told("low", "high", "explorer")))
        self.assertRegex(" / ".join(calls), HERE)
        self.assertEqual(self.run_it(NAMES=""), (0, "ran count a b\n", [], []))

    def test_what_is_built_here_goes_on_where_it_was_interrupted(self):
        words, env = self.command({"NAMES": "", "STOPS_AT": "explorer"})
        running = subprocess.Popen(words, env=env, stdout=subprocess.DEVNULL, stderr=subprocess.DEVNULL, start_new_session=True)
        self.wait_for("stopped")
        os.killpg(running.pid, signal.SIGINT)
        self.assertNotEqual(running.wait(timeout=10), 0)
        _, output, errors, calls = self.run_it(NAMES="", KEPT="low high")
        self.assertEqual((output, errors), ("ran count a b\n", self.told("low", "high", "explorer")))
        self.assertRegex(" / ".join(calls), HERE)

    def test_a_crate_that_is_not_proved_here_is_told(self):
        status, output, errors, calls = self.run_it(NAMES="", KEPT="low", FAILS_AT="high")
        self.assertEqual((status, output, errors[:2]), (1, "", self.told("low")))
        self.assertEqual(errors[-2], "fn high::f: no proof")
        self.assertRegex(errors[-1], UNBUILT)
        self.assertEqual(len(calls), 1)

    def test_the_copy_has_neither_wrong_bodies_nor_the_lines_of_tests(self):
        seen = self.folder / "seen"
        self.write("kits/kit/bin/rt", RT.replace('    echo "5 passed', f'    cp crates/explorer/src/main.rt {seen} 2>/dev/null\n    echo "5 passed'))
        self.run_it()
        self.assertEqual(seen.read_text(encoding="utf-8"), UNTESTED)

    def test_a_toolchain_that_is_missing_or_too_old_is_told(self):
        self.write("kit", "rattle-kit-12z logic beef\n")
        told = "explorer: 'rt' is of rattle-kit-12z, which is too old: install rattle-kit-13b, by which this was proved"
        self.assertEqual(self.run_it(), (1, "", [told], []))
        for kit in ("rattle-kit-12z logic dac8\n", "rattle-kit-13f logic beef\n"):
            self.write("kit", kit)
            self.assertEqual(self.run_it()[0], 0)
            shutil.rmtree(self.top / "crates/explorer/out")
        (self.folder / "bin/rt").unlink()
        status, _, errors, _ = self.run_it()
        self.assertEqual((status, errors[1]), (1, "explorer: install rattle-kit-13b, and put the folder of its 'rt' on PATH"))

    def test_without_words_it_says_what_can_be_done_and_builds_nothing(self):
        words, env = self.command({}, ())
        run = subprocess.run(words, env=env, capture_output=True, text=True, check=False)
        self.assertEqual((run.returncode, run.stdout, self.noted()), (2, "", []))
        for name in support.commands():
            self.assertRegex(run.stderr, rf"(?m)^  \./explorer {name} ")
        examples = run.stderr.partition("Three examples:\n\n")[2].partition("\n\n'")[0].split("\n\n")
        self.assertEqual(len(examples), 3)
        for flag in ("-h", "--help"):
            status, output, errors, calls = self.run_it(flag)
            self.assertEqual((status, output, errors[:-1], calls), (2, "", run.stderr.splitlines(), []))
            self.assertIn("not built yet", errors[-1])
        self.run_it()
        self.assertEqual(self.run_it("--help"), (0, "ran --help\n", [], []))

    def test_the_readme_names_the_kit(self):
        kit = (support.TOP / "KIT").read_text(encoding="utf-8")
        self.assertRegex(kit, r"^rattle-kit-\w+ logic \w+\n$")
        self.assertIn(f"(`rt version`: {kit.strip()}, as the file `KIT` has it)", (support.TOP / "README.md").read_text(encoding="utf-8"))


if __name__ == "__main__":
    unittest.main()
