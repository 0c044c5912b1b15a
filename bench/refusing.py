"""Refuses each allocation in turn of an import and of a server, one a run, by a library that is loaded before the C library, and looks
at what the store has then.

usage: refusing.py PROGRAM LIBRARY FOLDER. bench/memory builds the library and calls this; files are written into the folder.
"""
import collections
import os
import pathlib
import re
import socket
import struct
import subprocess
import sys

import measuring

SHORT = "moves=0&topGames=0&recentGames=0"
EMPTY = b"OPENEXP1" + struct.pack("<I", 2) + b"\0"
GROUP = 512
SECONDS = 60  # the longest wait for a run or for a peer's bytes


def game(number):
    return (f'[Event "Rated blitz game"]\n[Site "https://lichess.org/{number:08d}"]\n[White "Ann"]\n[Black "Bob"]\n'
            '[Result "1-0"]\n[UTCDate "2020.01.15"]\n[WhiteElo "1500"]\n[BlackElo "1400"]\n[TimeControl "300+0"]\n\n'
            "1. e4 e5 1-0\n").encode()


def record(texts):
    """A batch without a label, behind its gate."""
    payload = struct.pack("<BH", 0, len(texts)) + b"".join(struct.pack("<I", len(text)) + text for text in texts)
    return b"\x01" + struct.pack("<I", len(payload)) + payload


def journals(groups):
    """The bytes of the store's records by how many games they have: none, and so many groups from the first on."""
    told, games, records = {0: b""}, 0, b""
    for texts in groups:
        games, records = games + len(texts), records + record(texts)
        told[games] = records
    return told


class Refusing:
    """A store s, the numbers of the allocations that are refused, and how often what was seen."""

    def __init__(self, program, library, folder):
        self.program, self.library, self.folder = program, library, pathlib.Path(folder)
        self.seen, self.failed = collections.Counter(), 0

    def begin(self, number):
        """An empty store, and what makes the allocation of this number fail, or none for 0."""
        (self.folder / "s").write_bytes(EMPTY)
        (self.folder / "counted").unlink(missing_ok=True)
        return dict(os.environ, LD_PRELOAD=self.library, FAILING=str(number), COUNTED=str(self.folder / "counted"))

    def allocations(self):
        return int((self.folder / "counted").read_text(encoding="ascii"))

    def stored(self, told):
        """How many games the store has, where it can be opened and its records are those of so many games; else what it is."""
        done = subprocess.run([self.program, "query", "s", SHORT], capture_output=True, cwd=self.folder, check=False, timeout=SECONDS)
        found = re.search(rb'"white":(\d+)}\n$', done.stdout)
        if not found:
            return done.stderr.decode()
        games = int(found[1])
        data = (self.folder / "s").read_bytes()
        gate = len(EMPTY) - 1 + len(told.get(games, data))
        is_whole = data[len(EMPTY) - 1:gate] == told.get(games) and data[gate:gate + 1] != b"\x01"
        return games if is_whole else f"{games} games, in other records"

    def check(self, what, holds, seen):
        if not holds:
            self.failed += 1
            print(f"FAILS {what}: {seen}", flush=True)


def numbers_up_to(count):
    """Those at both ends, and some 1,500 between."""
    ends = {*range(1, min(count, 300) + 1), *range(max(1, count - 300), count + 1)}
    return sorted(ends | set(range(1, count + 1, max(1, count // 1500))))


def import_refused(t, number):
    """How an import ends, how many games it tells of, or None, and how many the store has."""
    done = subprocess.run([t.program, "import", "s", "f", "--workers", "1"], capture_output=True, cwd=t.folder, env=t.begin(number),
                          check=False, timeout=SECONDS)
    told = re.match(rb"stored (\d+)\n", done.stdout)
    return done.returncode, int(told[1]) if told else None


def imports(t):
    """A file of two groups. The store has none, one or both; no fewer games than are told, and all where the import is whole."""
    texts = [game(number) for number in range(GROUP + 1)]
    (t.folder / "f").write_bytes(b"".join(texts))
    told = journals([texts[:GROUP], texts[GROUP:]])
    t.check("import, where nothing is refused", import_refused(t, 0) == (0, len(texts)), t.stored(told))
    count = t.allocations()
    numbers = numbers_up_to(count)
    for number in numbers:
        status, games = import_refused(t, number)
        found = t.stored(told)
        t.seen[status, games, found] += 1
        is_right = found in told and (games or 0) <= found and (status == 9 or status == 0 and games == found == len(texts))
        t.check(f"import, allocation {number} of {count}", is_right, (status, games, found))
    print(f"import: {len(numbers)} of {count} allocations were refused; (status, games told, games stored): {dict(t.seen)}", flush=True)


def asked(port, request):
    """The status of the reply on a connection of one request, or an empty text where none comes."""
    try:
        with socket.create_connection(("127.0.0.1", port), timeout=SECONDS) as peer:
            peer.sendall(request)
            peer.shutdown(socket.SHUT_WR)
            return b"".join(iter(lambda: peer.recv(1 << 16), b""))[9:12].decode()
    except OSError:
        return ""


BODY = game(1) + game(2)
REQUESTS = (b"POST /import HTTP/1.1\r\nContent-Length: %d\r\n\r\n" % len(BODY) + BODY,
            *(b"GET /lichess?%s HTTP/1.1\r\n\r\n" % SHORT.encode(),) * 2)


def serve_refused(t, number):
    """How a server of one reader ends, and the statuses of what it replied to each request, if it came to listen."""
    port = measuring.free_port()
    words = [t.program, "serve", "s", f"127.0.0.1:{port}", "--readers", "1", "--connections", str(len(REQUESTS)), "--workers", "1"]
    server = subprocess.Popen(words, stdout=subprocess.PIPE, stderr=subprocess.PIPE, cwd=t.folder, env=t.begin(number))
    try:
        is_ready = server.stdout.readline().startswith(b"listening ")
        replies = tuple(asked(port, request) for request in REQUESTS) if is_ready else ()
        server.communicate(timeout=SECONDS)
    finally:
        server.kill()
        server.wait()
    return server.returncode, replies


def serves(t):
    """A POST and two GETs: each is answered, at most one by 503, and a body that is acknowledged is stored."""
    told = journals([[game(1), game(2)]])
    t.check("serve, where nothing is refused", serve_refused(t, 0) == (0, ("200",) * 3), t.stored(told))
    count = t.allocations()
    t.seen.clear()
    for number in range(1, count + 1):
        status, replies = serve_refused(t, number)
        found = t.stored(told)
        t.seen[status, replies, found] += 1
        is_replied = not replies or set(replies) <= {"200", "503"} and replies.count("503") <= 1
        is_stored = found in told and (found == 2 or not replies or replies[0] != "200")
        t.check(f"serve, allocation {number} of {count}", status in (0, 9) and is_replied and is_stored, (status, replies, found))
    print(f"serve: {count} allocations were refused; (status, statuses of the replies, games stored): {dict(t.seen)}", flush=True)


def main():
    t = Refusing(*sys.argv[1:])
    imports(t)
    serves(t)
    return 1 if t.failed else 0


if __name__ == "__main__":
    sys.exit(main())
