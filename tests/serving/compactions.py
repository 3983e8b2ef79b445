"""Journals that are compacted: what is written, and what a server makes of it; kills and a full disk on the way."""

import copy
import random
import resource
import signal
import struct
import subprocess
import time

from serving.checks import CHECKS, LIMIT
from serving.journal_bytes import ADDED, BILLED, CAPPED_ADDED, LOST, PAUSED, SOLD, SOLD_TO, journal, payloads, state_of, text
from serving.messages import A, error, get, number, post, report, response, bid, sell, settled
from serving.program import converse, ended, running

SALES = 300_000
USERS = 10_000
KILLS = 10
SEED = 1
# A block of a compacted journal has this many bytes or a little more.
BLOCK = 65_536
PRICE = 1_010_000
BUDGET = 10**15
DAY = 86_400_000


def effect(moment, tag, body=b""):
    return struct.pack(">QB", moment, tag) + body


def facts(seat, price):
    """Facts of a campaign that any impression may have."""
    parts = [text(seat), text(seat + b".example"), b"\0" * 4, b"\0", b"\0" * 4, b"\1", struct.pack(">QIQ", price, 0, BUDGET)]
    return b"".join([*parts, text(b"M"), text(b"c"), b"\0"])


ANYTHING = struct.pack(">II", 1, 0)


def sale(moment, campaign, due, user):
    item = struct.pack(">BIQQ", 1, campaign, PRICE, due)
    return effect(moment, SOLD_TO, text(user) + item) if user else effect(moment, SOLD, item)


def blocks_of(now):
    """Three campaigns, of which the first has a cap of one sale a year and the last is paused, and many sales: the most
    are billed, some are lost or expire, and the last hundred are held.
    """
    once = struct.pack(">II", 1, 31_536_000)
    start = now - DAY
    yield effect(start, CAPPED_ADDED, facts(b"s1", 3_000_000) + once + ANYTHING)
    yield effect(start, ADDED, facts(b"s2", 2_000_000) + ANYTHING) + effect(start, ADDED, facts(b"s3", 1_000_000) + ANYTHING)
    for n in range(1, SALES + 1):
        moment = start + n
        held = n > SALES - 100
        fate = n % 10
        user = None if fate == 3 else b"user-%d" % (n % USERS)
        yield sale(moment, 1 + n % 3, now + DAY if held else moment + 1 if fate == 9 else now - 1, user)
        if not held and fate < 9:
            yield effect(moment, LOST if fate == 8 else BILLED, struct.pack(">Q", n))
    yield effect(start + SALES + 2, PAUSED, struct.pack(">I", 3))


def compact_words(program, source, target, keep=None):
    words = [program, "compact", "--journal", source, "--into", target]
    return words if keep is None else [*words, "--keep", str(keep)]


def look_at(step, data, state):
    """The file is a compacted journal of just this state, in blocks of a sensible size."""
    version, blocks = payloads(data)
    CHECKS.same(f"{step}: the version", version, 2)
    CHECKS.holds(f"{step}: the effects", b"".join(blocks) == b"".join(state.kept()))
    CHECKS.holds(f"{step}: the sizes of the blocks", all(BLOCK <= len(b) < BLOCK + 4096 for b in blocks[:-1]) and len(blocks[-1]) < BLOCK + 4096)


def told(state):
    return 0, f"compacted sales={len(state.sales)} forgotten={state.forgotten}\n".encode(), b""


def recover_line(state):
    live = sum(c.live for c in state.campaigns)
    states = " ".join(f"{name}={state.count(name)}" for name in ["held", "billed", "lost", "expired"])
    sales = state.forgotten + len(state.sales)
    return f"campaigns={len(state.campaigns)} live={live} sales={sales} {states}\n".encode()


def try_compactions(program, folder):
    """A large journal is compacted with several numbers of sales to keep, and each result is served."""
    folder = folder / "compactions"
    folder.mkdir()
    source, target = folder / "old", folder / "new"
    before = journal(blocks_of(int(time.time() * 1000)))
    source.write_bytes(before)
    read = state_of(before)
    for keep in [0, 1000, None]:
        state = copy.deepcopy(read)
        state.forget(1_000_000 if keep is None else keep)
        step = f"keep {keep}"
        CHECKS.same(step, ended(compact_words(program, source, target, keep)), told(state))
        look_at(step, target.read_bytes(), state)
        CHECKS.holds(f"{step}: the old journal", source.read_bytes() == before)
        CHECKS.same(f"{step}: recover", ended([program, "recover", "--journal", target])[:2], (0, recover_line(state)))
        again = ended(compact_words(program, source, target, keep))
        CHECKS.same(f"{step}: once more", again, (12, b"rtbx: not empty\n", b""))
        serve(step, program, target, state)
        target.unlink()
    try_kills(program, folder, source, read)
    try_full(program, folder, source, read)


def won(n, campaign, price):
    seat = f"s{campaign}"
    return response([seat, bid(n, 1, price, campaign, "M", f"{seat}.example", "c")])


def serve(step, program, target, state):
    """What a server makes of a compacted journal: forgotten sales, reports, a cap, and the next number."""
    gone, last = state.forgotten, state.forgotten + len(state.sales)
    first = state.campaigns[0].gone
    of_first = [sale for sale in state.sales if sale.campaign == 1]
    count = {name: first.get(name, 0) + sum(sale.state == name for sale in of_first) for name in ["held", "billed", "lost", "expired"]}
    dollars = lambda nanos: f"{nanos / 10**9:.5f}".rstrip("0").rstrip(".")
    # Sale 9 of each ten was not billed in time; sale 6 was billed, to user 6 and for campaign 1.
    forgotten = error(410, "forgotten") if gone >= 6 else settled(6, "billed")
    user = ',"user":{"id":"user-6"}'
    sold_once = gone < 6 or any(sale.user == b"user-6" and sale.campaign == 1 and sale.state in ("held", "billed") for sale in state.sales)
    next_sale = won(last + 1, 2, "0.01") if sold_once else won(last + 1, 1, "2.01")
    with running(program, target) as server:
        converse(
            server,
            [
                (f"{step}: a sale that may be forgotten", post("/bill/6"), forgotten),
                (
                    f"{step}: a report",
                    get("/campaign/1"),
                    report(1, bid="3", budget="1000000", reserved=dollars(count["held"] * PRICE), spent=dollars(count["billed"] * PRICE), **count),
                ),
                (f"{step}: a sale that is held", post(f"/bill/{last}"), settled(last, "billed")),
                (f"{step}: no such sale yet", post(f"/bill/{last + 1}"), error(404, "no-such-sale")),
                (f"{step}: the next sale", sell(more=user), next_sale),
                (f"{step}: is billed", post(f"/bill/{last + 1}"), settled(last + 1, "billed")),
                (f"{step}: a paused campaign", post("/resume/3"), number(3)),
            ],
        )


def try_kills(program, folder, source, read):
    """A compaction is killed at any moment: the old journal stays, and another one comes to the end."""
    before = source.read_bytes()
    state = copy.deepcopy(read)
    state.forget(1000)
    draw = random.Random(SEED)
    target = folder / "killed"
    start = time.monotonic()
    CHECKS.same("a whole run", ended(compact_words(program, source, target, 1000)), told(state))
    took = time.monotonic() - start
    whole = target.read_bytes()
    for turn in range(KILLS):
        target.unlink(missing_ok=True)
        child = subprocess.Popen(compact_words(program, source, target, 1000), stdout=subprocess.DEVNULL)
        time.sleep(draw.uniform(0, took))
        child.send_signal(signal.SIGKILL)
        child.wait(LIMIT)
        left = target.read_bytes() if target.exists() else b""
        step = f"kill {turn + 1}"
        CHECKS.holds(f"{step}: the old journal", source.read_bytes() == before)
        wanted = (12, b"rtbx: not empty\n", b"") if left == whole else told(state)
        CHECKS.same(f"{step}: another run", ended(compact_words(program, source, target, 1000)), wanted)
        CHECKS.holds(f"{step}: the new journal", target.read_bytes() == whole)
    target.unlink()


def try_full(program, folder, source, state):
    """The disk is full under the new file: it is told, the old journal stays, and with room the run comes to its end."""
    before = source.read_bytes()
    target = folder / "narrow"
    for size in [5, 200_000]:
        limited = lambda: resource.setrlimit(resource.RLIMIT_FSIZE, (size, resource.RLIM_INFINITY))
        # A file that may not grow is a failed write, and no signal.
        came = ended(compact_words(program, source, target), preexec_fn=limited, restore_signals=False)
        told_why = f"rtbx: {target}: File too large (os error 27)\n".encode()
        CHECKS.same(f"room for {size} bytes", came, (13, b"rtbx: write failed\n", told_why))
        CHECKS.holds("the old journal", source.read_bytes() == before)
    CHECKS.same("with room", ended(compact_words(program, source, target)), told(state))
    look_at("with room", target.read_bytes(), state)
