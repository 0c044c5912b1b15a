"""Explorers for the tests of the tools: the program's own server over a store, and one with canned replies.

The program is that of the variable EXPLORER, or the one that ./explorer has built.
"""
import contextlib
import getpass
import http.server
import json
import os
import pathlib
import re
import shutil
import socket
import subprocess
import sys
import tempfile
import threading
import time
import unittest

TOP = pathlib.Path(__file__).resolve().parent.parent
GAMES = TOP / "games.pgn"
REASONS = {503: "Service Unavailable", 507: "Insufficient Storage"}


def program():
    """The program's path; without one the test is passed over."""
    found = pathlib.Path(os.environ.get("EXPLORER", TOP / "crates/explorer/out/explorer"))
    if not os.access(found, os.X_OK):
        raise unittest.SkipTest(f"there is no program {found}: build it by ./explorer, or name it in EXPLORER")
    return str(found)


def commands():
    """The names of the program's commands."""
    text = (TOP / "crates/command_line/src/app.rt").read_text(encoding="utf-8")
    return sorted(set(re.findall(r'Command::new\(alloc, "(\w+)"\)', text)) - {"explorer"})


def needs(*names):
    """Passes the test over, with a line that says so, where one of these programs is not installed."""
    missing = [name for name in names if not shutil.which(name, path=f"{os.environ['PATH']}:/usr/sbin:/sbin")]
    if missing:
        line = f"skipped, since {' and '.join(missing)} {'is' if len(missing) == 1 else 'are'} not installed"
        print(line, file=sys.stderr)
        raise unittest.SkipTest(line)


def count(query, games):
    """What `explorer count QUERY` makes of games, as (status, output, error lines)."""
    run = subprocess.run([program(), "count", query], input=games, capture_output=True, check=False, timeout=600)
    return run.returncode, run.stdout.rstrip(b"\n"), run.stderr.decode().splitlines()


def compact(body):
    return json.dumps(body, separators=(",", ":")).encode()


def free_port():
    with socket.socket() as taken:
        taken.bind(("127.0.0.1", 0))
        return taken.getsockname()[1]


class _Handler(http.server.BaseHTTPRequestHandler):
    protocol_version = "HTTP/1.1"

    def answer(self):
        body = self.rfile.read(int(self.headers.get("Content-Length", 0)))
        self.server.asked.append((self.command, self.path, dict(self.headers), body))
        status, answer = self.server.reply_to(self.command, self.path, body)
        self.send_response(status, REASONS.get(status))
        self.send_header("Content-Type", "application/json")
        self.send_header("Content-Length", str(len(answer)))
        if status == 200:
            self.send_header("X-Explorer-Batches", str(self.server.batches))
        self.send_header("Connection", "close")
        self.end_headers()
        self.wfile.write(answer)
        self.close_connection = True

    do_GET = do_POST = answer

    def log_message(self, *_):
        pass


class StandIn(http.server.HTTPServer):
    """Serves one connection at a time, and keeps what it was asked in `asked`."""

    def __init__(self):
        self.asked = []
        self.batches = 0
        super().__init__(("127.0.0.1", 0), _Handler)

    @property
    def address(self):
        return f"127.0.0.1:{self.server_port}"

    @contextlib.contextmanager
    def running(self):
        thread = threading.Thread(target=self.serve_forever)
        thread.start()
        try:
            yield self.address
        finally:
            self.shutdown()
            thread.join()
            self.server_close()


class CannedExplorer(StandIn):
    """Gives one reply to each query, and one to each import where that is another."""

    def __init__(self, status, body, imported=None):
        self.answer = status, body
        self.imported = imported or self.answer
        super().__init__()

    def reply_to(self, method, *_):
        return self.imported if method == "POST" else self.answer


@contextlib.contextmanager
def explorer(games=b"", *words, served=()):
    """The address of a server over a new store of some games, which are imported with some words and served with others."""
    folder = tempfile.mkdtemp()
    store, archive = os.path.join(folder, "store"), os.path.join(folder, "games.pgn")
    address = f"127.0.0.1:{free_port()}"
    try:
        subprocess.run([program(), "create", store], check=True, stdout=subprocess.DEVNULL)
        if games:
            pathlib.Path(archive).write_bytes(games)
            subprocess.run([program(), "import", store, archive, *words], check=True, stdout=subprocess.DEVNULL)
        with serving([program(), "serve", store, address, *served]):
            yield address
    finally:
        shutil.rmtree(folder)


@contextlib.contextmanager
def serving(words, limit=120):
    """A server that is started by these words, as its process; it is ended by SIGTERM where it still runs. Where it neither listens nor
    ends within some seconds, or is not ended by then, it is killed."""
    server = subprocess.Popen(words, stdout=subprocess.PIPE)
    killing = threading.Timer(limit, server.kill)
    killing.start()
    try:
        line = server.stdout.readline()
        killing.cancel()
        if not line.startswith(b"listening "):
            raise RuntimeError(f"the explorer does not listen: {line!r}, status {server.wait(limit)}")
        yield server
    finally:
        killing.cancel()
        server.terminate()
        try:
            server.wait(limit)
        except subprocess.TimeoutExpired:
            server.kill()
            server.wait()
            raise
        finally:
            server.stdout.close()


def plain_site(port, address):
    """The example of nginx in front of an explorer, over the page of this checkout, at a port of this machine and without TLS."""
    text = (TOP / "package/nginx.conf").read_text(encoding="utf-8")
    for old, new in {r"listen 443 ssl[^;]*": f"listen 127.0.0.1:{port}", r"    ssl_certificate.*\n": "", r"127\.0\.0\.1:9000": address,
                     r"/usr/share/explorer/tools": f"{TOP}/tools"}.items():
        text, found = re.subn(old, new, text)
        if not found:
            raise RuntimeError(f"package/nginx.conf has no {old}")
    return text


@contextlib.contextmanager
def nginx(site, port):
    """Runs nginx with the configuration of a site, until it answers at a port of this machine."""
    folder = tempfile.mkdtemp()
    kinds = ("client_body", "proxy", "fastcgi", "uwsgi", "scgi")
    places = "".join(f"{kind}_temp_path {folder}/{kind};" for kind in kinds)
    whole = (f"daemon off; master_process off; pid {folder}/pid; user {getpass.getuser()}; events {{}}"
             f" http {{ access_log off; {places}\n{site}\n}}")
    pathlib.Path(folder, "conf").write_text(whole, encoding="utf-8")
    found = shutil.which("nginx", path=f"{os.environ['PATH']}:/usr/sbin:/sbin")
    server = subprocess.Popen([found, "-p", folder, "-c", f"{folder}/conf", "-e", f"{folder}/errors"], stderr=subprocess.DEVNULL)
    try:
        for _ in range(500):
            with socket.socket() as connection:
                if server.poll() is not None or connection.connect_ex(("127.0.0.1", port)) == 0:
                    break
            time.sleep(0.02)
        if server.poll() is not None:
            raise RuntimeError(pathlib.Path(folder, "errors").read_text(encoding="utf-8"))
        yield
    finally:
        server.terminate()
        server.wait()
        shutil.rmtree(folder)


def run_tool(path, *words, data=b"", **options):
    """A run of a tool as (status, output, errors)."""
    run = subprocess.run([path, *words], input=data, capture_output=True, check=False, **options)
    return run.returncode, run.stdout.decode(), run.stderr.decode()


def run_into_closed_pipe(path, *words):
    """A run whose output nobody reads, as (status, errors)."""
    reading, writing = os.pipe()
    os.close(reading)
    try:
        streams = {"stdin": subprocess.DEVNULL, "stdout": writing, "stderr": subprocess.PIPE}
        run = subprocess.run([path, *words], check=False, **streams)
    finally:
        os.close(writing)
    return run.returncode, run.stderr.decode()


@contextlib.contextmanager
def tool_running(path, *words):
    """A tool that serves, as its process and its first line."""
    process = subprocess.Popen([path, *words], stdout=subprocess.PIPE, stderr=subprocess.DEVNULL)
    try:
        yield process, process.stdout.readline().decode()
    finally:
        process.terminate()
        process.wait()
        process.stdout.close()
