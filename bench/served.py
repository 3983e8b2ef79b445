"""Messages to an exchange that crates/rtb_bench serves over links in memory, and its journal in a file."""

import subprocess
import sys
from pathlib import Path

TOP = Path(__file__).resolve().parent.parent
CRATE = TOP / "crates" / "rtb_bench"
# No link answers more messages.
MOST = 10_000
# Behind eight bytes of the start each block is its gate, its length in eight bytes, and its payload.
START, HEAD = 8, 9
CAMPAIGN = '{"seat":"s1","adomain":"a.example","bid":1,"budget":1000,"adm":"a","crid":"c"}'


def build():
    """The program, which `rt run` proves, builds and runs once."""
    subprocess.run(["rt", "run", "--", "turns", "0", "1", "1"], cwd=CRATE, check=True, stdout=subprocess.DEVNULL)
    return CRATE / "out" / "rtb_bench"


def post(target, body="", host="exchange.example"):
    return f"POST {target} HTTP/1.1\r\nHost: {host}\r\nContent-Length: {len(body.encode())}\r\n\r\n{body}".encode()


def change(campaign, k):
    """Change k of the campaign, which is paused and resumed in turn. Every change has as many bytes."""
    target = f"/{'pause' if k % 2 == 0 else 'resume'}/{campaign}"
    return post(target, host="h" * (20 - len(target)))


def blocks_in(path):
    """How many blocks the journal has."""
    data = path.read_bytes()
    place, blocks = START, 0
    while place < len(data) and data[place] == 1:
        place += HEAD + int.from_bytes(data[place + 1 : place + HEAD], "big")
        blocks += 1
    return blocks


def parts(messages):
    """The messages in pieces for a link each."""
    return [messages[k : k + MOST] for k in range(0, len(messages), MOST)] or [[]]


class Journal:
    """A journal with so many campaigns, in a file that is made anew."""

    def __init__(self, program, path, campaigns=(CAMPAIGN,)):
        self.program, self.path = program, path
        path.unlink(missing_ok=True)
        for some in parts([post("/campaign", body) for body in campaigns]):
            self.serve([some])

    def words(self, links, times=1, key=False):
        """The words that serve it with a worker for each of the links, of which each has as many bytes, and what comes; with
        a key its addresses are signed."""
        pieces = [b"".join(link) for link in links]
        if len({len(piece) for piece in pieces}) != 1:
            sys.exit("links of several lengths")
        words = [self.program, "serve", self.path, str(len(pieces[0])), str(times), str(len(links))]
        return words + ["key"] * key, b"".join(pieces)

    def serve(self, links, times=1, key=False, **options):
        """How many of the messages were answered by 200."""
        command, given = self.words(links, times, key)
        done = subprocess.run(command, input=given, capture_output=True, check=True, **options)
        answers, right = (int(word.split(b"=")[1]) for word in done.stdout.split())
        if answers != times * sum(map(len, links)):
            sys.exit(f"{answers} answers, and not {times} times {sum(map(len, links))}")
        return right
