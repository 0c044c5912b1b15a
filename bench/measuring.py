"""What the measures share: programs, games, servers and times."""
import contextlib
import hashlib
import json
import os
import pathlib
import re
import shutil
import socket
import subprocess
import sys
import time

TOP = pathlib.Path(__file__).resolve().parent.parent
RESULTS = (b"1-0", b"0-1", b"1/2-1/2")
# Debian puts programs about games here, which is not on the path of every user.
os.environ["PATH"] += os.pathsep + "/usr/games"


class Trouble(Exception):
    """Why a measure cannot be taken, for the reader."""


def work_folder():
    """Where programs, games and figures are kept between runs."""
    home = os.environ.get("XDG_CACHE_HOME") or os.path.expanduser("~/.cache")
    folder = pathlib.Path(os.environ.get("EXPLORER_BENCH") or os.path.join(home, "explorer-bench"))
    folder.mkdir(parents=True, exist_ok=True)
    return folder


def program():
    """Where the program is that is measured: that of the variable EXPLORER, or the one that ./explorer has built."""
    return pathlib.Path(os.environ.get("EXPLORER", TOP / "crates/explorer/out/explorer"))


def explorer():
    """The program that is measured, where it is there."""
    found = program()
    if not os.access(found, os.X_OK):
        raise Trouble(f"there is no program {found}: build it by ./explorer, or name it in EXPLORER")
    return str(found)


def environment(words):
    """What a program runs in. For the explorer malloc is set as its launcher sets it, where nobody has set it otherwise."""
    starting = (TOP / "tools/starting.sh").read_text(encoding="utf-8")
    settings = re.search(r"GLIBC_TUNABLES-([^}]*)}", starting)[1]
    settings = {"GLIBC_TUNABLES": settings.replace("$(nproc)", str(len(os.sched_getaffinity(0))))}
    return {**settings, **os.environ} if str(words[0]) == str(program()) else None


def has(*names):
    """Whether all programs are installed."""
    return all(shutil.which(name) for name in names)


def need(name, package):
    if not has(name):
        raise Trouble(f"{name} is not installed (Debian: apt-get install {package})")
    return name


class Ran:
    """A program that ended: its seconds, those of the processors, its peak of memory in MB, and what it wrote."""

    def __init__(self, words, stdin=None, cwd=None, statuses=(0,)):
        figures = work_folder() / "time"
        timed = [need("/usr/bin/time", "time"), "--quiet", "-f", "%e %U %S %M", "-o", figures]
        with open(stdin or os.devnull, "rb") as given, open(work_folder() / "output", "wb+") as taken:
            process = subprocess.run([str(word) for word in (*timed, *words)], stdin=given, stdout=taken,
                                     stderr=subprocess.STDOUT, cwd=cwd, env=environment(words), check=False)
            taken.seek(0)
            self.output = taken.read().decode(errors="replace")
        if process.returncode not in statuses:
            raise Trouble(f"{words[0]} ended with status {process.returncode}: {self.output[-400:].strip()}")
        seconds, user, system, peak = figures.read_text(encoding="utf-8").split()
        # time tells hundredths of a second.
        self.seconds = max(float(seconds), 0.005)
        self.processor_seconds, self.peak = float(user) + float(system), int(peak) / 1024


def best(rounds, take):
    """The quickest of some runs."""
    return min((take() for _ in range(rounds)), key=lambda ran: ran.seconds)


def games(archive, count):
    """A file of the first games of an archive that have an id of their own and a result, with the nine tags."""
    archive = pathlib.Path(archive)
    folder = work_folder() / "games"
    folder.mkdir(exist_ok=True)
    place = folder / f"{archive.stem}-{archive.stat().st_size}-{count}.pgn"
    if not place.exists():
        tagged = folder / f"{archive.stem}-{archive.stat().st_size}.tagged"
        if not tagged.exists():
            told("giving the games the nine tags")
            words = [TOP / "tools/nine-tags", "--vary", "--unknown-date", "2000.01"]
            words += ["--output", f"{tagged}.part", archive]
            subprocess.run(words, check=True, stderr=subprocess.DEVNULL)
            os.rename(f"{tagged}.part", tagged)
        texts = first_texts(tagged.read_bytes(), count)
        place.with_suffix(".part").write_bytes(b"".join(texts))
        os.rename(place.with_suffix(".part"), place)
    return place


def first_texts(data, count):
    seen, kept = set(), []
    for text in re.split(rb"(?m)(?=^\[Event )", data):
        words = text.split()
        game_id = text.split(b"\n", 2)[1][-10:-2] if words else b""
        if words and words[-1] in RESULTS and game_id not in seen and len(kept) < count:
            seen.add(game_id)
            kept.append(text)
    if len(kept) < count:
        raise Trouble(f"the archive has {len(kept)} games that can be counted, and {count} are asked for")
    return kept


def store_of(pgn, workers=4):
    """A new store of the games of a file."""
    store = work_folder() / f"{pgn.stem}.store"
    if not store.exists() or store.stat().st_mtime < pgn.stat().st_mtime:
        filling = work_folder() / "filling.store"
        filling.unlink(missing_ok=True)
        Ran([explorer(), "create", filling])
        Ran([explorer(), "import", filling, pgn, "--workers", workers])
        os.rename(filling, store)
    return store


def positions(pgn, count):
    """Positions between plies 4 and 40 of games of a file, in FEN of four fields."""
    place = work_folder() / f"{pgn.stem}-{count}.fen"
    if not place.exists():
        need("pgn-extract", "pgn-extract")
        texts = re.split(rb"(?m)(?=^\[Event )", pgn.read_bytes())[1:]
        some = work_folder() / "some.pgn"
        some.write_bytes(b"".join(texts[::max(1, len(texts) // (2 * count))]))
        blocks = Ran(["pgn-extract", "-s", "-Wepd", some], statuses=(0, 1)).output.split("\n\n")
        boards = [[line for line in block.splitlines() if line.count("/") >= 7] for block in blocks]
        picked = [board[4 + at * 7 % (min(len(board), 41) - 4)] for at, board in enumerate(boards) if len(board) > 5]
        found = list(dict.fromkeys(" ".join(line.split()[:4]) for line in picked))[:count]
        place.write_text("\n".join(found) + "\n", encoding="utf-8")
    return place.read_text(encoding="utf-8").splitlines()


def free_port():
    with socket.socket() as taken:
        taken.bind(("127.0.0.1", 0))
        return taken.getsockname()[1]


@contextlib.contextmanager
def running(words, ready=None, **how):
    """A server that runs meanwhile; it is ready with its first line, or once a port is open."""
    process = subprocess.Popen(list(map(str, words)), stdout=subprocess.PIPE, stderr=subprocess.DEVNULL, env=environment(words), **how)
    try:
        if ready is None:
            process.stdout.readline()
        else:
            wait_for_port(ready)
        if process.poll() is not None:
            raise Trouble(f"{words[0]} ended with status {process.returncode}")
        yield process
    finally:
        process.terminate()
        process.wait()
        process.stdout.close()


def wait_for_port(port):
    for _ in range(100):
        with contextlib.suppress(OSError), socket.create_connection(("127.0.0.1", port)):
            return
        time.sleep(0.05)
    raise Trouble(f"no server came up at port {port}")


def built(script):
    """The program of a script of this folder, which is proved and built once for a text of the crates."""
    program = work_folder() / f"{script}-{sum_of_sources(script)}"
    if not program.exists():
        told(f"{script}: its program is proved and built, which takes long")
        output_of(script, PROGRAM=str(program), BUILD_ONLY="1")
    return program


def measured(script, *words):
    """What a script of this folder prints."""
    return output_of(script, *words, PROGRAM=str(built(script)))


def output_of(script, *words, **variables):
    ran = subprocess.run([TOP / "bench" / script, *map(str, words)], capture_output=True, text=True, check=False,
                         cwd=work_folder(), env={**os.environ, **variables})
    if ran.returncode:
        raise Trouble(f"bench/{script} ended with status {ran.returncode}: {ran.stderr[-400:].strip()}")
    return ran.stdout


def sum_of_sources(script):
    """A checksum of a script, of its program, and of the code of the crates that this stands on, but for their tests."""
    text = (TOP / "bench" / script).read_text(encoding="utf-8")
    name, crates = re.search(r"^new_program (\S+)((?:.*\\\n)*.*)", text, re.MULTILINE).groups()
    found = hashlib.sha256(text.encode())
    for place in sorted((TOP / "bench/programs" / name).glob("**/*.in")):
        found.update(place.read_bytes())
    for crate in sorted(crates_below(crates.split())):
        for place in sorted((TOP / "crates" / crate / "src").glob("**/*.rt")):
            if "tests" not in (place.stem, place.parent.name):
                found.update(place.read_bytes())
    return found.hexdigest()[:12]


def crates_below(names):
    """Those of the names that are crates of this repository, and the crates that they stand on."""
    lines = (TOP / "crates.txt").read_text(encoding="utf-8").splitlines()
    stands_on = {line.partition(":")[0].split()[0]: line.partition(":")[2].split() for line in lines if re.match(r"\w", line)}
    found, rest = set(), list(names)
    while rest:
        name = rest.pop()
        if name in stands_on and name not in found:
            found.add(name)
            rest += stands_on[name]
    return found


def told(line):
    print(f"bench: {line}", file=sys.stderr, flush=True)


def kept_figures():
    place = work_folder() / "figures.json"
    return json.loads(place.read_text(encoding="utf-8")) if place.exists() else {}


def keep_figures(figures):
    (work_folder() / "figures.json").write_text(json.dumps(figures, indent=1), encoding="utf-8")
