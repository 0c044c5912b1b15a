"""The measures: each takes the options and answers tables of figures of one run."""
import collections
import contextlib
import http.client
import json
import os
import pathlib
import re
import threading
import time
import urllib.parse

import measuring
from measuring import Ran, Trouble

SCID_IMPORT = """
set id [sc_base create SCID4 [lindex $argv 0]]
sc_base import $id [lindex $argv 1]
sc_base close $id
exit
"""
SCID_TREE = """
set id [sc_base open [lindex $argv 0]]
set file [open [lindex $argv 1]]
while {[gets $file fen] >= 0} {
  sc_game startBoard $fen
  set begin [clock microseconds]
  sc_filter search $id tree board
  sc_tree stats $id tree 0
  puts [expr {[clock microseconds] - $begin}]
}
exit
"""
# How many games callgrind reads, and how many positions are asked for.
INSTRUCTED, POSITIONS = 500, 1000
# What is asked by a book and without one: positions in which twelve moves and more were played.
NAMED_TARGETS = {"start": {}, "after 1. e4": {"play": "e2e4"}, "after 1. e4 c5": {"play": "e2e4,c7c5"}}
# How often an answer that is kept is asked for under callgrind, and how many answers a reader keeps.
KEPT_ROUNDS, KEPT_ANSWERS = 100, 128
# The games of a batch.
BATCH = 512
# The most readers of a server.
READERS = 64
START = "rnbqkbnr/pppppppp/8/8/8/8/PPPPPPPP/RNBQKBNR w KQkq -"


def table(title, head, rows, *notes):
    return {"title": title, "head": head, "rows": [list(map(str, row)) for row in rows], "notes": list(notes)}


def ratio(one, other):
    return f"{one / other:.2f}" if other else "-"


def script(name, text):
    place = measuring.work_folder() / name
    place.write_text(text, encoding="utf-8")
    return place


def imported(pgn, workers):
    """A run of `explorer import` into a new store."""
    store = measuring.work_folder() / "import.store"
    store.unlink(missing_ok=True)
    Ran([measuring.explorer(), "create", store])
    ran = Ran([measuring.explorer(), "import", store, pgn, "--workers", workers])
    store.unlink()
    return ran


def scid_imported(pgn):
    """A run of Scid's import into a new base, which is left as scid-base."""
    base = measuring.work_folder() / "scid-base"
    for ending in (".si4", ".sg4", ".sn4"):
        base.with_suffix(ending).unlink(missing_ok=True)
    return Ran(["tkscid", script("import.tcl", SCID_IMPORT), base, pgn])


def others(pgn, rounds):
    """Runs of the other programs that read a file of games, by name."""
    found = {}
    if measuring.has("tkscid"):
        found["Scid, import"] = measuring.best(rounds, lambda: scid_imported(pgn))
    if measuring.has("pgn-extract"):
        found["pgn-extract -r"] = measuring.best(rounds, lambda: Ran(["pgn-extract", "-r"], stdin=pgn, statuses=(0, 1)))
    if measuring.has("polyglot"):
        book = measuring.work_folder() / "polyglot.bin"
        words = ["polyglot", "make-book", "-pgn", pgn, "-bin", book, "-max-ply", "50", "-min-game", "1"]
        found["polyglot make-book, 50 plies"] = measuring.best(rounds, lambda: Ran(words))
    return found


def speeds(title, runs, games):
    """Games a second and peaks, with the ratios to each program that is not the explorer's."""
    beside = [name for name in runs if not name.startswith("explorer")]
    head = ["program", "games a second", "processor seconds", "peak MB",
            *(f"ratio to {name.partition(',')[0].split()[0]}" for name in beside)]
    rows = [[name, f"{games / ran.seconds:,.0f}", f"{ran.processor_seconds:.1f}", f"{ran.peak:.0f}",
             *(ratio(runs[other].seconds, ran.seconds) for other in beside)] for name, ran in runs.items()]
    return table(title, head, rows)


def counted(pgn, workers):
    """A run of `explorer count`."""
    return Ran([measuring.explorer(), "count", "", "--workers", workers], stdin=pgn)


def count(options):
    """`explorer count` beside Scid's import, pgn-extract and polyglot."""
    tables = []
    for games in (options.few, options.many):
        pgn = measuring.games(options.archive, games)
        rounds = options.rounds if games == options.few else 1
        runs = {f"explorer count, {workers} workers": measuring.best(rounds, lambda w=workers: counted(pgn, w))
                for workers in options.workers}
        tables.append(speeds(f"Count of {games:,} games", {**runs, **others(pgn, rounds)}, games))
    return tables


def imports(options):
    """`explorer import` beside Scid, pgn-extract and polyglot."""
    tables = []
    for games in (options.few, options.many):
        pgn = measuring.games(options.archive, games)
        rounds = options.rounds if games == options.few else 1
        runs = {f"explorer import, {workers} workers": measuring.best(rounds, lambda w=workers: imported(pgn, w))
                for workers in options.workers}
        tables.append(speeds(f"Import of {games:,} games", {**runs, **others(pgn, rounds)}, games))
    return tables


def instructed(*words, stdin=None, noted="/dev/null"):
    """Instructions of a run of the explorer."""
    ran = Ran(["valgrind", "--tool=callgrind", f"--callgrind-out-file={noted}", measuring.explorer(), *words], stdin=stdin)
    return int(re.search(r"Collected : (\d+)", ran.output)[1])


def instructions(options):
    """Instructions of `explorer count` for a game, by valgrind."""
    measuring.need("valgrind", "valgrind")
    pgn = measuring.games(options.archive, INSTRUCTED)
    counted = [instructed("count", "", "--workers", "1", stdin=stdin) for stdin in (pgn, None)]
    return [table(f"Instructions of `explorer count` for a game of {INSTRUCTED}, without those of an empty input",
                  ["instructions a game"], [[f"{(counted[0] - counted[1]) / INSTRUCTED:,.0f}"]])]


SHARES = {
    "cutting the stream into texts": "pgn_cut::cutter::Cutter::feed",
    "tallying groups of texts": "batch_tally::tallying::tally",
    "of that, replaying": "game_replay::replaying::replay",
    "packing the rows of batches": "segment_blocks::segment::Segment::of",
    "merging": "segment_merge::ranges::merge",
    "answering": "lookup::answer::look_segments",
}
# What the calling thread of an import does by itself.
IMPORT_SHARES = {
    "reading and cutting": "import_run::ahead::Ahead::read_on",
}


def shares_table(what, noted, games, functions):
    """The shares of a run that callgrind noted which go to some functions and all that they call."""
    listed = Ran(["callgrind_annotate", "--inclusive=yes", "--threshold=100", noted]).output
    found = re.findall(r"^ *([\d,]+) \(.*?\)  [^:\s]*:(\S+)", listed, re.MULTILINE)
    # A function that is generic has a name for each of its forms; one that calls itself, a second one with a mark.
    counts = {name: sum(int(count.replace(",", "")) for count, at in found if re.fullmatch(rf"{name}(::<[^>]*>)?", at))
              for name in functions.values()}
    whole = int(re.search(r"([\d,]+) .*PROGRAM TOTALS", listed)[1].replace(",", ""))
    rows = [[told, f"{counts[name] / whole:.1%}", f"{counts[name] / games:,.0f}", f"`{name}`"]
            for told, name in functions.items() if counts[name]]
    title = f"Shares of the {whole / games:,.0f} instructions a game of `explorer {what}`, {games:,} games, 1 worker"
    return table(title, ["", "share", "a game", "the function, with all that it calls"], rows)


def shares(options):
    """The shares of `explorer count` and of `explorer import` that go to some functions, by valgrind."""
    measuring.need("valgrind", "valgrind")
    pgn = measuring.games(options.archive, options.few)
    noted = measuring.work_folder() / "callgrind.out"
    instructed("count", "", "--workers", "1", stdin=pgn, noted=noted)
    tables = [shares_table("count", noted, options.few, SHARES)]
    store = measuring.work_folder() / "shares.store"
    store.unlink(missing_ok=True)
    Ran([measuring.explorer(), "create", store])
    instructed("import", store, pgn, "--workers", "1", noted=noted)
    store.unlink()
    return [*tables, shares_table("import", noted, options.few, {**SHARES, **IMPORT_SHARES})]


def query(options):
    """`explorer query`: opening a store and answering."""
    store = measuring.store_of(measuring.games(options.archive, options.many))
    rows = []
    for workers in options.workers:
        words = [measuring.explorer(), "query", store, "", "--workers", workers]
        ran = measuring.best(options.rounds, lambda words=words: Ran(words))
        rows.append([f"{workers} workers", f"{ran.seconds:.2f}", f"{ran.processor_seconds:.2f}", f"{ran.peak:.0f}"])
    return [table(f"`explorer query` on a store of {options.many:,} games, from the start of the process to its end",
                  ["", "seconds", "processor seconds", "peak MB"], rows)]


# Positions that are looked up in rows of a scratch file: one with rows in each part, one with few rows, one with none.
SPILLED_TARGETS = {
    "the start": "",
    "after 1. a4 h5": "play=a2a4,h7h5",
    "two kings": "fen=8/8/4k3/8/8/4K3/8/8%20w%20-%20-",
}


def reads_of(scratch, *words):
    """How often a run reads of a file at a place, by strace."""
    traced = measuring.work_folder() / "reads"
    Ran([measuring.need("strace", "strace"), "-f", "-y", "-e", "trace=pread64", "-o", traced, *words])
    return traced.read_text(errors="replace").count(f"<{scratch}>")


def spill(options):
    """`explorer query --spill`: rows in a scratch file, beside rows in memory, and how often the file is read."""
    scratch = (measuring.work_folder() / "scratch").resolve()
    rows, reads = [], []
    for games in dict.fromkeys((options.few, options.most)):
        store = measuring.store_of(measuring.games(options.archive, games))
        for workers in sorted({min(options.workers), max(options.workers)}):
            words = [measuring.explorer(), "query", store, "", "--workers", workers]
            for kind, more in (("in memory", ()), ("in a file", ("--spill", scratch))):
                ran = measuring.best(options.rounds, lambda words=(*words, *more): Ran(words))
                rows.append([f"{games:,}", workers, kind, f"{ran.seconds:.2f}", f"{ran.peak:.0f}"])
        size = f"{scratch.stat().st_size:,}"
        asked = [reads_of(scratch, measuring.explorer(), "query", store, query, "--spill", scratch)
                 for query in SPILLED_TARGETS.values()]
        reads.append([f"{games:,}", size, *(f"{count:,}" for count in asked)])
    scratch.unlink()
    return [table("`explorer query` by rows in memory and in a scratch file",
                  ["games", "workers", "rows", "seconds", "peak MB"], rows),
            table("Bytes of the scratch file, and reads of a look-up", ["games", "bytes", *SPILLED_TARGETS], reads)]


@contextlib.contextmanager
def serving(options, readers, *files):
    """A server over a copy of the store of many games, by its port and process."""
    store = measuring.work_folder() / "serve.store"
    kept = measuring.store_of(measuring.games(options.archive, options.many))
    store.write_bytes(kept.read_bytes())
    port = measuring.free_port()
    words = [measuring.explorer(), "serve", store, f"127.0.0.1:{port}", *files, "--readers", readers,
             "--connections", "1000000", "--workers", options.importers]
    with measuring.running(words) as process:
        yield port, process
    store.unlink()


def target(fen="", **others):
    pairs = {"fen": fen, **others} if fen else others
    return "/lichess?" + urllib.parse.urlencode(pairs)


def times_of(port, targets, rounds):
    """Seconds from each request to the end of its reply, by target, over one open connection; and the bodies.

    Each round asks by query strings of its own, whose answers are not kept: a name that is no parameter is passed over.
    """
    times, bodies = {}, {}
    connection = http.client.HTTPConnection("127.0.0.1", port)
    for number in range(rounds):
        for at in targets:
            begin = time.perf_counter()
            connection.request("GET", f"{at}&round={number}")
            reply = connection.getresponse()
            bodies[at] = reply.read()
            times.setdefault(at, []).append(time.perf_counter() - begin)
            if reply.getheader("Connection") == "close":
                connection.close()
    connection.close()
    return times, bodies


def mean(seconds):
    return sum(seconds) / len(seconds)


def spread(seconds):
    """Mean and 99th percentile, in milliseconds."""
    ordered = sorted(seconds)
    return [f"{1000 * mean(ordered):.3f}", f"{1000 * ordered[len(ordered) * 99 // 100]:.3f}"]


def resident_of(process):
    """How much memory a process holds, and held at its peak."""
    status = pathlib.Path(f"/proc/{process}/status").read_text(encoding="utf-8")
    held, peak = (int(re.search(rf"{name}:\s+(\d+)", status)[1]) / 1024 for name in ("VmRSS", "VmHWM"))
    return f"{held:.0f} MB, and {peak:.0f} MB at its peak"


def scid_times(fens):
    """Seconds of Scid's tree for each position, in a base that an import has left."""
    place = script("tree.fen", "".join(f"{fen} 0 1\n" for fen in fens))
    base = measuring.work_folder() / "scid-base"
    return [int(word) / 1e6 for word in Ran(["tkscid", script("tree.tcl", SCID_TREE), base, place]).output.split()]


def lookups(options):
    """Replies at single positions, one after another, beside Scid's tree."""
    pgn = measuring.games(options.archive, options.many)
    fens = measuring.positions(pgn, POSITIONS)
    asked = {"start": target(), "start, with history": target(history="true"), "after 1. e4 c5": target(play="e2e4,c7c5")}
    asked |= {f"position {at + 1}": target(fen) for at, fen in enumerate(fens[::100][:10])}
    with serving(options, 2) as (port, process):
        taken = {name: times_of(port, [at], options.replies)[0][at] for name, at in asked.items()}
        times, _ = times_of(port, [target(fen) for fen in fens], 3)
        taken[f"{len(fens)} positions"] = [min(found) for found in times.values()]
        resident = resident_of(process.pid)
    notes = ["A reply is taken from the request that is sent to the last byte that is read, by a client in Python.",
             f"The server holds {resident}."]
    beside = {}
    if measuring.has("tkscid"):
        scid_imported(pgn)
        start, *others_of = scid_times([START, *fens])
        beside = {"start": [start], f"{len(fens)} positions": others_of}
        notes.append("Scid was asked for each position once.")
    rows = [[name, *spread(found), ratio(mean(beside[name]), mean(found)) if name in beside else ""]
            for name, found in taken.items()]
    for name, found in beside.items():
        middle, last = spread(found)
        rows.append([f"Scid's tree: {name}", middle, last if len(found) > 1 else "", "1.00"])
    head = ["asked", "mean ms", "99th percentile ms", "ratio to Scid"]
    return [table(f"GET /lichess over {options.many:,} games", head, rows, *notes)]


WRK = """
local paths = {}
for line in io.lines("%s") do paths[#paths + 1] = line end
local thread_count = 0
function setup(thread) thread:set("offset", thread_count * 97); thread_count = thread_count + 1 end
local at = 0
function request()
  at = at + 1
  return wrk.format("GET", paths[(at + offset) %% #paths + 1])
end
"""


def load(port, paths, connections, seconds):
    """Requests a second and latencies in ms of wrk over paths, which are asked in turn."""
    listed = script("paths", "\n".join(paths) + "\n")
    ran = Ran(["wrk", "--latency", "-t", min(connections, 4), "-c", connections, "-d", f"{seconds}s",
               "-s", script("paths.lua", WRK % listed), f"http://127.0.0.1:{port}"])
    rate = re.search(r"Requests/sec:\s+([\d.]+)", ran.output)
    middle, last = (re.search(rf"{part}%\s+([\d.]+)(us|ms|s)\b", ran.output) for part in (50, 99))
    count = re.search(r"(\d+) requests in", ran.output)
    bad = re.search(r"Non-2xx or 3xx responses: (\d+)|Socket errors: (.*)", ran.output)
    if not (rate and middle and last and count):
        raise Trouble(f"wrk says {ran.output[-300:]}")
    scale = {"us": 0.001, "ms": 1, "s": 1000}
    return {"rate": float(rate[1]), "count": int(count[1]), "bad": bad[0] if bad else "",
            "p50": float(middle[1]) * scale[middle[2]], "p99": float(last[1]) * scale[last[2]]}


NGINX = """
{user}
worker_processes 4;
daemon off;
pid {folder}/nginx.pid;
error_log {folder}/error.log;
events {{ worker_connections 256; }}
http {{
  access_log off;
  default_type application/json;
  sendfile on;
  tcp_nopush on;
  open_file_cache max=4096;
  keepalive_requests 1000;
  server {{ listen 127.0.0.1:{port}; root {folder}/site; }}
}}
"""


@contextlib.contextmanager
def nginx(bodies):
    """nginx over the same bodies as files, by its port and the paths."""
    folder = measuring.work_folder() / "nginx"
    (folder / "site").mkdir(parents=True, exist_ok=True)
    for at, body in enumerate(bodies):
        (folder / "site" / str(at)).write_bytes(body)
    port = measuring.free_port()
    user = "user root;" if os.geteuid() == 0 else ""
    (folder / "nginx.conf").write_text(NGINX.format(user=user, folder=folder, port=port), encoding="utf-8")
    with measuring.running(["nginx", "-c", folder / "nginx.conf"], ready=port):
        yield port, [f"/{at}" for at in range(len(bodies))]


def bodies_of(pgn):
    """The games of a file in bodies of 512."""
    texts = re.split(rb"(?m)(?=^\[Event )", pathlib.Path(pgn).read_bytes())[1:]
    return [b"".join(texts[start:start + 512]) for start in range(0, len(texts), 512)]


class Poster(threading.Thread):
    """Posts bodies one at a time, spread over some seconds, until it is told to stop, and counts the games that were stored."""

    def __init__(self, port, bodies, seconds):
        super().__init__()
        self.port, self.bodies, self.pause = port, bodies, seconds / max(1, len(bodies))
        self.is_stopped, self.batches, self.stored = False, 0, 0

    def run(self):
        begin = time.monotonic()
        for at, body in enumerate(self.bodies):
            time.sleep(max(0, begin + at * self.pause - time.monotonic()))
            if self.is_stopped:
                return
            with contextlib.suppress(OSError, http.client.HTTPException):
                connection = http.client.HTTPConnection("127.0.0.1", self.port, timeout=60)
                connection.request("POST", "/import", body, {"Connection": "close"})
                stored = json.loads(connection.getresponse().read()).get("stored", 0)
                self.stored += stored
                self.batches += stored > 0
                connection.close()


def looked_up(got, paths, readers, batches):
    """How many of the replies were looked up at most: a reader keeps its last answers, and each of them until a batch comes."""
    most = readers * len(paths) * (batches + 1) if len(paths) <= KEPT_ANSWERS else got["count"]
    return f"at most {min(most, got['count']):,} of {got['count']:,}"


def loaded(options, connections, paths):
    """What wrk gets of one server, idle and while games are posted, at the start and at many positions."""
    found, bodies = [], bodies_of(more_games(options))
    kinds = (("start", paths[:1]), (f"{len(paths) - 1} positions", paths[1:]))
    with serving(options, connections + 1) as (port, _):
        for what, listed in kinds:
            got = load(port, listed, connections, options.seconds)
            got["looked up"] = looked_up(got, listed, connections + 1, 0)
            found.append((f"explorer, idle, {what}", what, got))
        for at, (what, listed) in enumerate(kinds):
            poster = Poster(port, bodies[at::len(kinds)], options.seconds)
            poster.start()
            got = load(port, listed, connections, options.seconds)
            poster.is_stopped = True
            poster.join()
            got["looked up"] = looked_up(got, listed, connections + 1, poster.batches)
            found.append((f"explorer, while {poster.stored:,} games are posted, {what}", what, got))
    return found


def more_games(options):
    """Games that stand in the archive behind those of the store."""
    pgn = measuring.games(options.archive, options.many + options.more)
    place = measuring.work_folder() / "more.pgn"
    texts = re.split(rb"(?m)(?=^\[Event )", pgn.read_bytes())
    place.write_bytes(b"".join(texts[-options.more:]))
    return place


def replies(options):
    """Replies a second by wrk, beside nginx serving the same bodies."""
    measuring.need("wrk", "wrk")
    pgn = measuring.games(options.archive, options.many)
    paths = [target(), *(target(fen) for fen in measuring.positions(pgn, POSITIONS))]
    with serving(options, 2) as (port, _):
        bodies = times_of(port, paths, 1)[1]
    rows = []
    for connections in options.connections:
        found = loaded(options, connections, paths)
        static = {}
        if measuring.has("nginx"):
            with nginx([bodies[path] for path in paths]) as (port, files):
                for what, listed in (("start", files[:1]), (f"{len(files) - 1} positions", files[1:])):
                    static[what] = load(port, listed, connections, options.seconds)
                    found.append((f"nginx, {what}", what, static[what]))
        for name, what, got in found:
            beside = ratio(got["rate"], static[what]["rate"]) if static else "-"
            latencies = [f"{got[part]:.2f}" for part in ("p50", "p99")]
            rows.append([name, connections, f"{got['rate']:,.0f}", *latencies, beside, got["bad"], got.get("looked up", "")])
    head = ["server", "connections", "a second", "median ms", "99th percentile ms", "ratio to nginx", "faults", "looked up"]
    title = f"Replies a second over {options.many:,} games, by wrk over open connections, a reader each"
    notes = [f"Games are posted 512 at a time, over the {options.seconds} seconds of the measure.",
             f"Whether an answer was a kept one is not seen from outside. A reader keeps the {KEPT_ANSWERS} asked for last,"
             " each until a batch comes: so many are looked up at most, and the rest are kept ones."]
    return [table(title, head, rows, *notes)]


# The last two are one position, 5... a6 of the Najdorf: told by its moves, and by itself.
KEPT_TARGETS = {
    "start": {}, "start, with history": {"history": "true"},
    "after 1. e4": {"play": "e2e4"}, "after 1. e4 c5": {"play": "e2e4,c7c5"},
    "after 5... a6, by `play`": {"play": "e2e4,c7c5,g1f3,d7d6,d2d4,c5d4,f3d4,g8f6,b1c3,a7a6"},
    "after 5... a6, by `fen`": {"fen": "rnbqkb1r/1p2pppp/p2p1n2/8/3NP3/2N5/PPP2PPP/R1BQKB1R w KQkq -"},
}


def settle(process):
    """Waits until a server computes nothing for two seconds: behind an opening it goes on merging."""
    def spent():
        return pathlib.Path(f"/proc/{process.pid}/stat").read_text(encoding="utf-8").rpartition(")")[2].split()[11:13]

    before = None
    while before != spent():
        before = spent()
        time.sleep(2)


def instructions_of(process, port, targets):
    """Instructions of a server under callgrind while it answers these on one connection."""
    def so_far():
        told = Ran(["callgrind_control", "-e", process.pid]).output
        return sum(int(count.replace(",", "")) for count in re.findall(r"Th \d+ +([\d,]+)", told))

    before = so_far()
    times_of(port, targets, 1)
    return so_far() - before


def held_after(port, process, targets):
    """How many KB a process holds once these are answered, over connections of at most 1,000 requests."""
    connection = http.client.HTTPConnection("127.0.0.1", port)
    for at in targets:
        connection.request("GET", at)
        reply = connection.getresponse()
        reply.read()
        if reply.getheader("Connection") == "close":
            connection.close()
    connection.close()
    return held_by(process)


def held_by(process):
    """How many KB a process holds."""
    status = pathlib.Path(f"/proc/{process.pid}/status").read_text(encoding="utf-8")
    return int(re.search(r"VmRSS:\s+(\d+)", status)[1])


@contextlib.contextmanager
def counting(store, *more):
    """A server that counts its instructions once its store is open, by its process and port."""
    port = measuring.free_port()
    words = ["valgrind", "--tool=callgrind", "--instr-atstart=no", "--callgrind-out-file=/dev/null", measuring.explorer()]
    words += ["serve", store, f"127.0.0.1:{port}", "--readers", "1", "--connections", "1000000", "--workers", "1", *more]
    with measuring.running(words) as process:
        settle(process)
        Ran(["callgrind_control", "--instr=on", process.pid])
        # The first request also pays for what is done once.
        instructions_of(process, port, [target(moves="x")])
        yield process, port


def kept_instructions(store):
    """Instructions of replies that are looked up and that are kept."""
    with counting(store) as (process, port):
        # What is malformed is told without a look-up.
        base = instructions_of(process, port, [target(moves="x")])
        for name, asked in KEPT_TARGETS.items():
            looked_up = instructions_of(process, port, [target(**asked)]) - base
            once, often = (instructions_of(process, port, [target(**asked)] * times) for times in (1, KEPT_ROUNDS + 1))
            kept_one = (often - once) / KEPT_ROUNDS
            yield [name, f"{looked_up:,}", f"{kept_one:,.0f}", f"{kept_one / looked_up:.4f}"]


def kept(options):
    """Replies whose answers are kept, beside ones that are looked up: instructions, by valgrind, and what a reader holds."""
    measuring.need("valgrind", "valgrind")
    store = measuring.store_of(measuring.games(options.archive, options.many))
    title = f"Instructions of a reply over {options.many:,} games, without those of a malformed request for the one looked up"
    tables = [table(title, ["", "looked up", "kept", "ratio"], kept_instructions(store))]
    with serving(options, 1) as (port, process):
        settle(process)
        before = held_after(port, process, [target(history="true")])
        held = []
        for first, last in ((0, 1_000), (1_000, options.queries)):
            targets = (target(history="true", round=number) for number in range(first, last))
            held.append([f"{last:,}", f"{held_after(port, process, targets) - before:,}"])
    title = "KB that a server with one reader holds more than after one query, once it was asked different query strings"
    return [*tables, table(title, ["query strings", "KB"], held)]


def book_of(table_of_openings):
    """A file of openings, made of a table of them."""
    if not os.path.isfile(table_of_openings):
        raise Trouble(f"there is no table of openings {table_of_openings} (Debian: apt-get install scid-data)")
    place = measuring.work_folder() / "openings"
    place.write_text(Ran([measuring.TOP / "tools/openings", table_of_openings]).output, encoding="utf-8")
    return place


def named_replies(store, *more):
    """Instructions of replies, each the second time that it is looked up."""
    with counting(store, *more) as (process, port):
        return {name: [instructions_of(process, port, [target(**asked, round=number)]) for number in range(2)][1]
                for name, asked in NAMED_TARGETS.items()}


def openings(options):
    """A book of openings: its reading, and what it adds to a reply, by valgrind."""
    measuring.need("valgrind", "valgrind")
    book = book_of(options.openings)
    kinds = [["count", "", "--workers", "1", *more] for more in ((), ("--openings", book))]
    counts = [instructed(*words) for words in kinds]
    peaks = [measuring.best(options.rounds, lambda words=words: Ran([measuring.explorer(), *words])).peak for words in kinds]
    read = [f"{counts[1] - counts[0]:,}", f"{(peaks[1] - peaks[0]) * 1024:,.0f}"]
    store = measuring.store_of(measuring.games(options.archive, options.many))
    without, named = named_replies(store), named_replies(store, "--openings", book)
    rows = [[name, f"{without[name]:,}", f"{named[name]:,}", f"{named[name] - without[name]:,}"] for name in NAMED_TARGETS]
    lines = book.read_bytes().count(b"\n")
    return [table(f"Reading a file of openings of {lines:,} lines", ["instructions", "KB more at the peak"], [read]),
            table(f"Instructions of a reply over {options.many:,} games", ["", "without a book", "by the book", "more"], rows)]


def player_target(player, **others):
    return "/player?" + urllib.parse.urlencode({"player": player, "color": "white", **others})


def most_frequent(texts):
    """The player who has White most often, without regard to case, and in how many of the games."""
    names = [name.lower() for text in texts for name in re.findall(rb'(?m)^\[White "(.*)"\]', text)]
    [(name, count)] = collections.Counter(names).most_common(1)
    return name.decode(), count


def post(port, texts):
    connection = http.client.HTTPConnection("127.0.0.1", port)
    connection.request("POST", "/import", b"".join(texts))
    told = connection.getresponse().read()
    connection.close()
    if b'"stored":%d}' % len(texts) not in told:
        raise Trouble(f"games that are posted are not stored: {told[:200]}")


def player_instructions(store, texts, more):
    """Instructions of requests for a player's games, without those of a malformed one."""
    with counting(store) as (process, port):
        def asked(player, number):
            return instructions_of(process, port, [player_target(player, round=number)])

        base = [instructions_of(process, port, ["/player?color=white"]) for _ in range(2)][1]
        whole, nothing = (asked("nobody", number) - base for number in range(2))
        yield ["the reader's first, of a player without games", "", f"{whole:,}", ""]
        yield ["of a player without games, nothing new", "", f"{nothing:,}", ""]
        post(port, more)
        settle(process)
        yield [f"the same, behind a batch of {len(more)} games", "", f"{asked('nobody', 2) - base:,}", ""]
        name, count = most_frequent([*texts, *more])
        got = asked(name, 3) - base
        yield ["of the most frequent player", count, f"{got:,}", f"{got / count:,.0f}"]


def players(options):
    """A player's games: a reader's index, and requests, by valgrind."""
    measuring.need("valgrind", "valgrind")
    texts = measuring.first_texts(measuring.games(options.archive, options.most).read_bytes(), options.most)
    texts, more = texts[:-BATCH], texts[-BATCH:]
    pgn = measuring.work_folder() / "players.pgn"
    pgn.write_bytes(b"".join(texts))
    store = measuring.work_folder() / "players.store"
    store.unlink(missing_ok=True)
    for words in (["create", store], ["import", store, pgn]):
        Ran([measuring.explorer(), *words])
    rows = list(player_instructions(store, texts, more))
    held = held_by_readers(store)
    store.unlink()
    pgn.unlink()
    title = f"Instructions of a request for a player's games over {len(texts):,} games, without those of a malformed one"
    return [table(title, ["", "games", "instructions", "for each game"], rows),
            table(f"KB that a server with {READERS} readers holds, once each was asked for a player", ["before", "then"], [held])]


def held_by_readers(store):
    """How many KB a server holds, before and once each of its readers was asked for a player's games."""
    port = measuring.free_port()
    words = [measuring.explorer(), "serve", store, f"127.0.0.1:{port}", "--readers", READERS]
    with measuring.running(words) as process:
        settle(process)
        before = held_after(port, process, [target()])
        connections = [http.client.HTTPConnection("127.0.0.1", port) for _ in range(READERS)]
        # All are asked at once, so that each connection has a reader of its own.
        for connection in connections:
            connection.request("GET", player_target("nobody"))
        for connection in connections:
            connection.getresponse().read()
        then = held_by(process)
        for connection in connections:
            connection.close()
    return [f"{before:,}", f"{then:,}"]


def perft(options):
    """Leaves of the tree of legal moves a second, beside stockfish."""
    lines = measuring.measured("perft", f"{START} 0 1", str(options.depth))
    found = re.search(r": (\d+) in ([\d.]+) s", lines)
    if not found:
        raise Trouble(f"bench/perft says {lines[-200:]}")
    rate = int(found[1]) / max(float(found[2]), 0.001)
    rows = [["legal_moves", options.depth, f"{rate / 1e6:.1f}", ""]]
    if measuring.has("stockfish"):
        place = script("perft", f"position startpos\ngo perft {options.depth + 1}\nquit\n")
        ran = measuring.best(options.rounds, lambda: Ran(["stockfish"], stdin=place))
        leaves = int(re.search(r"Nodes searched: (\d+)", ran.output)[1])
        start = measuring.best(options.rounds, lambda: Ran(["stockfish", "quit"])).seconds
        other = leaves / max(ran.seconds - start, 0.01)
        rows[0][3] = ratio(rate, other)
        rows.append(["stockfish, without its start", options.depth + 1, f"{other / 1e6:.1f}", "1.00"])
    return [table("Leaves of the tree of legal moves from the start, one thread",
                  ["program", "depth", "million a second", "ratio to stockfish"], rows)]


def gate(options):
    """The time of `rt ci`, which proves every crate from nothing."""
    ran = Ran(["rt", "ci"], cwd=measuring.TOP)
    last = ran.output.strip().splitlines()[-1]
    return [table("The gate, `rt ci`", ["minutes", "processor minutes", "its last line"],
                  [[f"{ran.seconds / 60:.1f}", f"{ran.processor_seconds / 60:.1f}", last]],
                  "Every crate is proved from nothing, and every test and program is run.")]


def printed(name, *words):
    """What a script of this folder prints, a figure a line."""
    lines = measuring.measured(name, *words).strip().splitlines()
    return [table(f"`bench/{name}`", ["figure"], [[line.strip()] for line in lines if line.strip()])]


def wire(_):
    """Replies of the wire alone, beside nginx."""
    return printed("wire")


def store(_):
    """A journal of some 100 MB, written and opened, without games."""
    return printed("store")


def tally(options):
    """Tallying groups that are held in memory, and handing one out."""
    return printed("tally", measuring.games(options.archive, options.many))


def segments(options):
    """Rows of segments: their bytes, walks, look-ups, merges."""
    tables = []
    for games in (options.few, options.most):
        found = printed("segments", measuring.games(options.archive, games))
        found[0]["title"] += f", {games:,} games"
        tables += found
    return tables


def steps(options):
    """The steps of a store: commits, merges, opening, entering, ids."""
    return printed("steps", measuring.games(options.archive, options.many), more_games(options))


def lookup(options):
    """Answers alone, without a server."""
    pgn = measuring.games(options.archive, options.many)
    fens = measuring.positions(pgn, POSITIONS)
    strings = ["", "history=true", "play=e2e4,c7c5", *(urllib.parse.urlencode({"fen": fen}) for fen in fens)]
    # The default of `moves` stands for the empty string, which would be no line.
    queries = script("queries", "\n".join(string or "moves=12" for string in strings) + "\n")
    found = printed("lookup", measuring.store_of(pgn), queries)
    names = {"0": "start", "1": "start, with history", "2": "after 1. e4 c5", str(len(strings)): f"{len(fens)} positions"}
    for row in found[0]["rows"]:
        number, colon, figure = row[0].partition(": ")
        row[0] = names.get(number, number) + colon + figure
    return found


MEASURES = {
    "count": count, "instructions": instructions, "shares": shares, "import": imports, "query": query, "spill": spill,
    "tally": tally, "segments": segments, "steps": steps, "store": store, "lookup": lookup, "lookups": lookups,
    "replies": replies, "kept": kept, "openings": openings, "players": players,
    "perft": perft, "wire": wire, "gate": gate,
}
# Those that are taken by a script with a program of its own, that ask for positions, and that read a store.
SCRIPTS = ("tally", "segments", "steps", "store", "lookup", "perft", "wire")
ASKING = ("lookup", "lookups", "replies")
READING = ("query", "kept", "openings", *ASKING)


def file_sizes(name, options):
    """How many games the files have that a measure reads."""
    few, many, more = options.few, options.many, options.many + options.more
    sizes = {"count": (few, many), "import": (few, many), "instructions": (INSTRUCTED,), "shares": (few,), "tally": (many,),
             "segments": (few, options.most), "spill": (few, options.most), "steps": (many, more), "replies": (many, more)}
    return sizes.get(name, (many,) if name in READING else ())


def prepare(name, options):
    """Makes what a measure needs beside the explorer: games, positions, a store, and the program of its script."""
    for size in file_sizes(name, options):
        measuring.games(options.archive, size)
    if name in SCRIPTS:
        measuring.built(name)
    if name in ASKING:
        measuring.positions(measuring.games(options.archive, options.many), POSITIONS)
    if name in READING:
        measuring.store_of(measuring.games(options.archive, options.many))
