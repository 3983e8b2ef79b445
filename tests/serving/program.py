"""The program: servers that run, links to them, and commands that end."""

import os
import re
import select
import signal
import socket
import subprocess
import time
from contextlib import contextmanager
from pathlib import Path

from serving.checks import CHECKS, LIMIT, SILENCE, Stopped
from serving.messages import PUBLIC

def first_line(workers):
    return f"serving with {workers} workers\n".encode()


class Running:
    """A server that runs, at an address of loopback."""

    def __init__(self, program, journal, port=None, ttl=300000, workers=1, patience=60000, env=None, public=PUBLIC, under=(), more=()):
        self.port, self.under = port or free_port(), under
        self.command = [*under, *serve_words(program, journal, self.port, ttl, workers, patience, public), *more]
        given = {"stdin": subprocess.DEVNULL, "stdout": subprocess.PIPE, "stderr": subprocess.PIPE}
        self.process = subprocess.Popen(self.command, restore_signals=False, env=env and {**os.environ, **env}, **given)
        line = read_line(self.process.stdout)
        if line != first_line(workers):
            self.kill()
            CHECKS.same(f"the first line of {' '.join(map(str, self.command))}", line, first_line(workers))
            raise Stopped

    def link(self):
        return Link(self.port)

    def inner(self):
        """The server's own process, where another one has begun it."""
        children = Path(f"/proc/{self.process.pid}/task/{self.process.pid}/children")
        return [int(it) for it in children.read_text().split()] if self.under else []

    def kill(self):
        """Ends the server at once (SIGKILL), and what it runs under."""
        if self.process.poll() is None:
            for pid in self.inner():
                os.kill(pid, signal.SIGKILL)
            self.process.kill()
            self.process.wait(LIMIT)
        self.process.stdout.close()
        self.process.stderr.close()


@contextmanager
def running(*args, **more):
    server = Running(*args, **more)
    try:
        yield server
    finally:
        server.kill()


def serve_words(program, journal, port, ttl=300000, workers=1, patience=60000, public=PUBLIC):
    words = [program, "serve", "--listen", f"127.0.0.1:{port}", "--journal", journal, "--public", public]
    return [*words, "--workers", str(workers), "--ttl", str(ttl), "--patience", str(patience)]


def free_port():
    """A port of loopback that nobody listens on."""
    with socket.socket() as taken:
        taken.bind(("127.0.0.1", 0))
        return taken.getsockname()[1]


def read_line(pipe):
    """A line, or what came of it within the limit."""
    line = b""
    until = time.monotonic() + LIMIT
    while not line.endswith(b"\n") and select.select([pipe], [], [], max(0, until - time.monotonic()))[0]:
        piece = os.read(pipe.fileno(), 1)
        if not piece:
            break
        line += piece
    return line


class Link:
    """A link to a server: bytes are sent, and answers are read one by one."""

    def __init__(self, port):
        self.socket = socket.create_connection(("127.0.0.1", port), LIMIT)
        self.socket.setsockopt(socket.IPPROTO_TCP, socket.TCP_NODELAY, 1)
        self.came = b""
        self.ended = False

    def __enter__(self):
        return self

    def __exit__(self, *_):
        self.socket.close()

    def send(self, data, piece=None):
        """Sends the bytes, in pieces of so many. A peer that has left is seen when its answer is read."""
        try:
            for at in range(0, len(data), piece or len(data) or 1):
                self.socket.sendall(data[at : at + (piece or len(data))])
        except (BrokenPipeError, ConnectionResetError):
            pass

    def end(self):
        """Says that nothing more is sent."""
        self.socket.shutdown(socket.SHUT_WR)

    def more(self, limit=LIMIT):
        """Reads more; false where the link has ended or nothing comes within the limit."""
        self.socket.settimeout(limit)
        try:
            piece = self.socket.recv(65536)
        except TimeoutError:
            return False
        except (ConnectionResetError, BrokenPipeError):
            piece = b""
        self.ended = self.ended or not piece
        self.came += piece
        return bool(piece)

    def answer(self, limit=LIMIT):
        """The bytes of the next answer, or those that came of it."""
        while True:
            length = answer_length(self.came)
            if length is not None and length <= len(self.came):
                given, self.came = self.came[:length], self.came[length:]
                return given
            if self.ended or not self.more(limit):
                given, self.came = self.came, b""
                return given

    def rest(self):
        """All that comes until the server ends the link, or none where it does not."""
        while self.more():
            pass
        return self.came if self.ended else None

    def is_silent(self):
        """Whether nothing comes for a while, and the link stays."""
        return not self.more(SILENCE) and not self.ended and not self.came


def answer_length(data):
    """How many bytes the answer has at whose front these stand, or none where that is not told yet."""
    head, end, _ = data.partition(b"\r\n\r\n")
    if not end:
        return None
    length = re.search(rb"(?m)^Content-Length: (\d+)\r?$", head)
    return len(head) + 4 + (int(length[1]) if length else 0)


def closes(given):
    return b"\r\nConnection: close\r\n" in given.partition(b"\r\n\r\n")[0] + b"\r\n"


def converse(server, steps, piece=None):
    """Sends each message in pieces of so many bytes and compares its answer, over one link as long as that lasts."""
    link = server.link()
    for step, data, wanted in steps:
        link.send(data, piece)
        came = link.answer()
        CHECKS.same(step, came, wanted)
        if closes(wanted):
            CHECKS.same(f"{step}: the link ends", link.rest(), b"")
        if link.ended or closes(wanted) or not came:
            link.socket.close()
            link = server.link()
    link.socket.close()


def counts(campaigns=0, live=0, sales=0, held=0, billed=0, lost=0, expired=0):
    """How `recover` ends and what it prints."""
    line = f"campaigns={campaigns} live={live} sales={sales} held={held} billed={billed} lost={lost} expired={expired}\n"
    return 0, line.encode(), b""


def ended(command, **more):
    """The status of a command that ends, what it printed, and what it wrote on standard error."""
    given = {"stdin": subprocess.DEVNULL, "stdout": subprocess.PIPE, "stderr": subprocess.PIPE, "timeout": LIMIT, **more}
    try:
        done = subprocess.run(command, **given)
    except subprocess.TimeoutExpired:
        return None, b"", b"the program did not end"
    return done.returncode, done.stdout, done.stderr


def recovered(program, journal):
    return ended([program, "recover", "--journal", journal])
