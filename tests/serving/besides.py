"""Journals that are compacted beside a server that writes them: what is told and written, under load and among kills."""

import fcntl
import os
import random
import resource
import signal
import subprocess
import threading
import time
from contextlib import contextmanager

from serving.checks import CHECKS, LIMIT, Stopped
from serving.compactions import compact_words, recover_line
from serving.journal_bytes import journal, payloads, state_of
from serving.journals import HEAD, PAUSE_1, block, journal_of_one
from serving.messages import A, B, SELL, get, new, post, settled, won_by_a
from serving.program import Link, converse, counts, ended, read_line, recovered, running
from serving.workers import Writer

FOLLOWING = b"following\n"
LINKS = 6
# How many sales of a link come to a campaign.
SALES = 50
KILLS = 50
KEPT = [0, 10, 1000, 100_000]
NOT_EMPTY = (12, b"rtbx: not empty\n")


class Compacting:
    """A compaction beside who writes the journal."""

    def __init__(self, program, source, target, keep=0):
        words = [*compact_words(program, source, target, keep), "--beside"]
        given = {"stdin": subprocess.DEVNULL, "stdout": subprocess.PIPE, "stderr": subprocess.PIPE}
        # A file that may not grow is a failed write, and no signal.
        self.process = subprocess.Popen(words, restore_signals=False, **given)

    def follows(self, step):
        """Waits until it says that what is kept is written."""
        if not CHECKS.same(f"{step}: the first line", read_line(self.process.stdout), FOLLOWING):
            raise Stopped

    def end(self):
        """Its status, and what it printed that was not read yet."""
        try:
            out, _ = self.process.communicate(timeout=LIMIT)
        except subprocess.TimeoutExpired:
            return None, b"the program did not end"
        return self.process.returncode, out

    def kill(self):
        if self.process.poll() is None:
            self.process.kill()
            self.process.wait(LIMIT)
        self.process.stdout.close()
        self.process.stderr.close()


@contextmanager
def compacting(*args):
    it = Compacting(*args)
    try:
        yield it
    finally:
        it.kill()


class Seller(Writer):
    """The same with few campaigns."""

    def run(self):
        try:
            with Link(self.port) as link:
                while self.told(link, post("/campaign", B)) and all(self.sells(link) for _ in range(SALES)):
                    pass
        except OSError:
            return

    def sells(self, link):
        return self.told(link, SELL) and self.told(link, post(f"/bill/{self.sales}"))


@contextmanager
def writing(server):
    """Campaigns, sales and bills come over several links until the server is gone."""
    writers = [Seller(server.port) for _ in range(LINKS)]
    threads = [threading.Thread(target=it.run) for it in writers]
    for thread in threads:
        thread.start()
    yield writers
    for thread in threads:
        thread.join(LIMIT)


def told_of(state):
    return 0, f"compacted sales={len(state.sales)} forgotten={state.forgotten}\n".encode()


def look_at_both(step, program, source, target):
    """The new journal gives what the old one does, without its oldest sales, none of which is held. Answers both states."""
    whole, left = state_of(source.read_bytes()), state_of(target.read_bytes())
    CHECKS.same(f"{step}: recover tells the same of both", recovered(program, target), recovered(program, source))
    CHECKS.same(f"{step}: and what the old one has", recovered(program, target)[:2], (0, recover_line(whole)))
    count = left.forgotten - whole.forgotten
    CHECKS.holds(f"{step}: {count} sales are gone, and none that is held", count >= 0 and all(it.state != "held" for it in whole.sales[:count]))
    whole.forget_first(count)
    CHECKS.holds(f"{step}: all else is the same", b"".join(whole.kept()) == b"".join(left.kept()))
    return left


def try_compacts_beside(program, folder):
    """A journal is compacted while it is served."""
    folder = folder / "besides"
    folder.mkdir()
    over_one_sale(program, folder)
    under_load(program, folder)
    damaged_behind(program, folder)
    refused(program, folder)
    no_room(program, folder)


def over_one_sale(program, folder):
    """A sale that is held when the journal is read, and billed behind that."""
    source, target = folder / "one", folder / "one.new"
    with running(program, source) as server:
        converse(server, [("a campaign", post("/campaign", A), new(1)), ("another", post("/campaign", B), new(2)), ("a sale", SELL, won_by_a(1))])
        with compacting(program, source, target) as beside:
            beside.follows("one sale")
            CHECKS.same("what is kept is no journal yet", recovered(program, target)[:2], (6, b"rtbx: damaged at 0\n"))
            converse(server, [("it is billed", post("/bill/1"), settled(1, "billed"))])
            server.kill()
            CHECKS.same("one sale", beside.end(), (0, b"compacted sales=1 forgotten=0\n"))
    CHECKS.same("recover", recovered(program, target), counts(campaigns=2, live=2, sales=1, billed=1))
    look_at_both("one sale", program, source, target)
    version, blocks = payloads(target.read_bytes())
    CHECKS.same("what came behind stands as it was written", (version, blocks[1:]), (2, payloads(source.read_bytes())[1][-1:]))


def under_load(program, folder):
    """Sales and bills come over several links while it is read, and behind that."""
    source, target = folder / "load", folder / "load.new"
    for keep in [0, 1000]:
        target.unlink(missing_ok=True)
        step = f"under load, keep {keep}"
        with running(program, source, workers=LINKS) as server, writing(server) as writers:
            time.sleep(0.5)
            with compacting(program, source, target, keep) as beside:
                beside.follows(step)
                before = max(it.sales for it in writers)
                time.sleep(0.5)
                server.kill()
                came = beside.end()
        left = look_at_both(step, program, source, target)
        CHECKS.same(step, came, told_of(left))
        CHECKS.holds(f"{step}: sales came behind {before}", left.forgotten + len(left.sales) > before > 0)
        CHECKS.holds(f"{step}: {left.forgotten} are forgotten", left.forgotten > 0)
        same_reports(step, program, source, target, len(left.campaigns))


def same_reports(step, program, source, target, campaigns):
    """Each campaign is reported alike from both."""
    told = []
    for path in [source, target]:
        copy = path.with_suffix(".copy")
        copy.write_bytes(path.read_bytes())
        with running(program, copy) as server, server.link() as link:
            told.append([asked(link, get(f"/campaign/{n}")) for n in range(1, min(campaigns, 200) + 1)])
    CHECKS.holds(f"{step}: the reports", told[0] == told[1])


def asked(link, data):
    link.send(data)
    return link.answer()


@contextmanager
def written(path, data):
    """A journal that this process writes: it has the lock of the file."""
    path.write_bytes(data)
    with open(path, "r+b") as file:
        fcntl.flock(file, fcntl.LOCK_EX)
        yield file


def append(file, at, data):
    """Opens a gate behind what stands there, as a server does."""
    file.seek(at + 1)
    file.write(data[1:])
    file.flush()
    file.seek(at)
    file.write(data[:1])
    file.flush()


def damaged_behind(program, folder):
    """A block behind those that were read is no block, no effect, or does not fit."""
    source, target = folder / "behind", folder / "behind.new"
    whole = journal_of_one()
    last = len(whole) - 1
    pause = block(PAUSE_1)
    for name, more, place in [
        ("no effect", block(b"hello") + b"\0", last),
        ("one that does not fit", block(PAUSE_1[:-1] + b"\x09") + b"\0", last),
        ("one that fits and one that does not", pause + pause + b"\0", last + len(pause)),
    ]:
        with written(source, whole) as file, compacting(program, source, target) as beside:
            beside.follows(name)
            append(file, last, more)
            CHECKS.same(name, beside.end(), (6, f"rtbx: damaged at {place}\n".encode()))
            CHECKS.same(f"{name}: the old journal", source.read_bytes(), whole[:-1] + more)
        with written(source, whole) as file, compacting(program, source, target) as beside:
            beside.follows(f"{name}: an unfinished file is taken again")
            append(file, last, pause + b"\0")
            fcntl.flock(file, fcntl.LOCK_UN)
            CHECKS.same(f"{name}: a block that fits", beside.end(), (0, b"compacted sales=0 forgotten=0\n"))
        CHECKS.same(f"{name}: recover", recovered(program, target), counts(campaigns=1, live=0))
        target.unlink()


def refused(program, folder):
    """What is refused before it follows: no journal, a damaged one, a file with something in it, and one that is served."""
    source, target = folder / "refused", folder / "refused.new"
    run = lambda *words, **more: ended([*compact_words(program, *words, 0), "--beside"], **more)[:2]
    no_disk = (4, b"rtbx: cannot open journal\n")
    CHECKS.same("no journal", run(source, target), no_disk)
    CHECKS.holds("and none is made", not source.exists() and not target.exists())
    with running(program, source) as server:
        converse(server, [("a campaign", post("/campaign", A), new(1))])
        CHECKS.same("no folder for the new one", run(source, folder / "none" / "new"), no_disk)
        CHECKS.same("one path for both", run(source, source), (2, b"rtbx: usage\n"))
        os.link(source, target)
        CHECKS.same("two names of the served journal", run(source, target), no_disk)
        target.unlink()
        target.write_bytes(journal_of_one())
        CHECKS.same("a file that is a journal", run(source, target), NOT_EMPTY)
        CHECKS.same("it is as it was", target.read_bytes(), journal_of_one())
        with open("/dev/full", "wb") as full:
            target.unlink()
            CHECKS.same("output that fails", run(source, target, stdout=full)[0], 7)
        converse(server, [("it is served on", post("/campaign", B), new(2))])
        with compacting(program, source, target) as beside:
            beside.follows("and again")
            server.kill()
            CHECKS.same("and again", beside.end(), (0, b"compacted sales=0 forgotten=0\n"))
    source.write_bytes(HEAD + block(b"hello") + b"\0")
    CHECKS.same("a damaged journal", run(source, target), (6, b"rtbx: damaged at 8\n"))
    target.unlink()
    os.link(source, target)
    source.write_bytes(journal_of_one())
    CHECKS.same("two names of one that nobody has", run(source, target), NOT_EMPTY)
    target.unlink()
    nobody(program, source, target)


def nobody(program, source, target):
    """A journal that nobody has is compacted at once; an empty one too."""
    for name, data, wanted in [("one campaign", journal_of_one(), counts(campaigns=1, live=1)), ("no block", HEAD + b"\0", counts())]:
        source.write_bytes(data)
        target.unlink(missing_ok=True)
        with compacting(program, source, target) as beside:
            beside.follows(name)
            CHECKS.same(name, beside.end(), (0, b"compacted sales=0 forgotten=0\n"))
        CHECKS.same(f"{name}: recover", recovered(program, target), wanted)
        CHECKS.same(f"{name}: the old journal", source.read_bytes(), data)


def no_room(program, folder):
    """The disk of the new file is full behind what is kept: it is told, the server serves on, and with room it comes to its end."""
    source, target = folder / "room", folder / "room.new"
    with running(program, source) as server:
        converse(server, [("a campaign", post("/campaign", A), new(1))])
        with compacting(program, source, target) as beside:
            beside.follows("no room")
            size = target.stat().st_size
            resource.prlimit(beside.process.pid, resource.RLIMIT_FSIZE, (size, resource.RLIM_INFINITY))
            converse(server, [("another", post("/campaign", B), new(2)), ("and a sale", SELL, won_by_a(1))])
            CHECKS.same("no room", beside.end(), (13, b"rtbx: write failed\n"))
        with compacting(program, source, target) as beside:
            beside.follows("with room")
            server.kill()
            CHECKS.same("with room", beside.end(), (0, b"compacted sales=1 forgotten=0\n"))
    look_at_both("with room", program, source, target)


# ---- kills


def try_beside_kills(program, folder):
    """The server or the compaction is killed at drawn moments while campaigns, sales and bills come: what was answered is
    there, the path names a whole journal, and the new file is unfinished and taken again, or whole. Then it takes the
    old one's place, and the next server goes on with it.
    """
    source, target = folder / "beside_kills", folder / "beside_kills.new"
    draw = random.Random("beside")
    campaigns = sales = billed = whole = 0
    for turn in range(KILLS):
        step, keep = f"turn {turn + 1}", draw.choice(KEPT)
        target.unlink(missing_ok=True)
        with running(program, source, workers=LINKS) as server, writing(server) as writers:
            time.sleep(draw.uniform(0, 0.1))
            with compacting(program, source, target, keep) as beside:
                killed = turn % 2 == 1
                time.sleep(draw.uniform(0, 0.3))
                if killed:
                    beside.process.send_signal(signal.SIGKILL)
                    beside.process.wait(LIMIT)
                    time.sleep(draw.uniform(0, 0.1))
                server.kill()
                if not killed:
                    came = beside.end()
        left_over = target.read_bytes() if target.exists() else b""
        if killed:
            came = ended([*compact_words(program, source, target, keep), "--beside"])[:2]
            # It had come to its end only where the server was gone, and it was killed before that.
            CHECKS.holds(f"{step}: what is left is no journal", left_over[:1] in (b"", b"\0"))
        came = came[0], came[1].removeprefix(FOLLOWING)
        left = look_at_both(step, program, source, target)
        CHECKS.same(step, came, told_of(left))
        campaigns = max([campaigns, *(it.campaigns for it in writers)])
        sales = max([sales, *(it.sales for it in writers)])
        billed += sum(it.billed for it in writers)
        found = [len(left.campaigns), left.forgotten + len(left.sales), left.count("billed")]
        wanted = [campaigns, sales, billed]
        CHECKS.holds(f"{step}: {found} holds {wanted}", all(a >= b for a, b in zip(found, wanted)))
        billed = found[2]
        whole += left.forgotten > 0
        os.replace(target, source)
    CHECKS.holds(f"sales were forgotten in {whole} turns", whole > 0)
    CHECKS.holds("something was written", campaigns and sales and billed)
