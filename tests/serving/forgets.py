"""Old sales that are forgotten while the server serves: answers, limits and kills."""

import random
import re
import resource
import struct
import threading
import time

from serving.checks import CHECKS, LIMIT
from serving.compactions import ANYTHING, DAY, compact_words, effect, facts, recover_line, sale
from serving.compactions import won as won_of_bytes
from serving.crashes import limit_files
from serving.follows import asked, following
from serving.follows import report as followed
from serving.journal_bytes import ADDED, BILLED, FORGOT, journal, payloads, state_of
from serving.messages import A, B, NO_BID, SELL, answer, campaign, error, get, message, new, post, report, sell, settled, trimmed, won, won_by_a
from serving.program import Link, converse, counts, ended, recovered, running
from serving.workers import WORKERS, Writer

FULL = error(503, "full", limit="sales")
GONE = error(410, "forgotten")
UNKNOWN = error(404, "not-found")
# So many sales, of which one forgetting takes no more than the other number.
MANY, MOST_AT_ONCE = 20_000, 16_384
KILLS = 25
MOST_SALES = 67_108_864
TWO = ",".join(f'{{"id":"{i}","banner":{{}}}}' for i in "xy")


def try_forgets(program, folder):
    folder = folder / "forgets"
    folder.mkdir()
    forgets_one(program, folder / "one")
    waits_for_held(program, folder / "held")
    forgets_many(program, folder / "many")
    expires_first(program, folder / "expires")
    ends_caps(program, folder / "caps")
    is_full(program, folder / "full")
    is_fuller(program, folder / "fuller")
    is_kept(program, folder / "kept")
    has_paths(program, folder / "paths")
    is_followed(program, folder / "followed")


def forgets_one(program, journal):
    """A billed sale goes, and counts on in the report and the counts, after a start and a compaction too."""
    gone = [
        ("a notice of it", post("/bill/1"), GONE),
        ("and the other one", get("/lose/1"), GONE),
        ("the report", get("/campaign/1"), report(1, spent="0.00101", billed=1)),
    ]
    with running(program, journal) as server:
        converse(
            server,
            [
                ("a campaign", post("/campaign", A), new(1)),
                ("another", post("/campaign", B), new(2)),
                ("a sale", SELL, won_by_a(1)),
                ("is billed", post("/bill/1"), settled(1, "billed")),
                ("and forgotten", post("/forget/0"), trimmed(0, 1)),
                ("nothing is left to forget", post("/forget/0"), trimmed(0, 1)),
                *gone,
            ],
        )
    told = counts(campaigns=2, live=2, sales=1, billed=1)
    CHECKS.same("recover", recovered(program, journal), told)
    last = payloads(journal.read_bytes())[1][-1]
    CHECKS.same("the effect's bytes", (len(last), last[8:]), (17, struct.pack(">BQ", FORGOT, 1)))
    with running(program, journal) as server:
        converse(server, [(f"after a start: {step}", data, wanted) for step, data, wanted in gone])
    shorter = journal.with_name("shorter")
    CHECKS.same("a compaction", ended(compact_words(program, journal, shorter, 0)), (0, b"compacted sales=0 forgotten=1\n", b""))
    CHECKS.same("recover behind it", recovered(program, shorter), told)
    for name in [shorter, journal]:
        with running(program, name) as server:
            converse(server, [*gone, ("the next sale", SELL, won_by_a(2)), ("keeps all that is asked for", post("/forget/1"), trimmed(1, 1))])


def waits_for_held(program, journal):
    """A sale that is held holds back all behind it, and then nothing is written."""
    with running(program, journal) as server:
        converse(
            server,
            [
                ("a campaign", post("/campaign", campaign()), new(1)),
                ("a sale", sell(), won(1, "0.01")),
                ("another", sell(), won(2, "0.01")),
                ("the second is billed", post("/bill/2"), settled(2, "billed")),
            ],
        )
        before = journal.read_bytes()
        converse(server, [("the first is held", post("/forget/0"), trimmed(2, 0))])
        CHECKS.holds("nothing is written", journal.read_bytes() == before)
        converse(
            server,
            [
                ("the first is lost", post("/lose/1"), settled(1, "lost")),
                ("two are to stay", post("/forget/2"), trimmed(2, 0)),
                ("one is", post("/forget/1"), trimmed(1, 1)),
                ("none is", post("/forget/0"), trimmed(0, 2)),
                ("both count on", get("/campaign/1"), report(1, bid="1", spent="0.00001", billed=1, lost=1)),
            ],
        )
    CHECKS.same("recover", recovered(program, journal), counts(campaigns=1, live=1, sales=2, billed=1, lost=1))


def many_sales(now):
    """The effects of a campaign and of many sales that were billed."""
    yield effect(now - DAY, ADDED, facts(b"s1", 3_000_000) + ANYTHING)
    for n in range(1, MANY + 1):
        yield sale(now - DAY, 1, now + DAY, None) + effect(now - DAY, BILLED, struct.pack(">Q", n))


def forgets_many(program, path):
    path.write_bytes(journal(many_sales(int(time.time() * 1000))))
    with running(program, path) as server:
        converse(
            server,
            [
                ("so many at once", post("/forget/0"), trimmed(MANY - MOST_AT_ONCE, MOST_AT_ONCE)),
                ("the last that went", post(f"/bill/{MOST_AT_ONCE}"), GONE),
                ("the first that is there", post(f"/bill/{MOST_AT_ONCE + 1}"), settled(MOST_AT_ONCE + 1, "billed")),
                ("the rest", post("/forget/0"), trimmed(0, MANY)),
                ("one number too great", post(f"/forget/{MOST_SALES + 1}"), UNKNOWN),
                ("the next number", sell(), won_of_bytes(MANY + 1, 1, "0.01")),
            ],
        )
    state = state_of(path.read_bytes())
    CHECKS.same("by the journal's bytes", (len(state.sales), state.forgotten), (1, MANY))
    CHECKS.same("recover", ended([program, "recover", "--journal", path])[:2], (0, recover_line(state)))


def expires_first(program, journal):
    """A sale that is due has expired when it is forgotten."""
    with running(program, journal, ttl=500) as server:
        converse(server, [("a campaign", post("/campaign", campaign()), new(1)), ("a sale", sell(), won(1, "0.01"))])
        time.sleep(0.7)
        converse(
            server,
            [
                ("it has expired", post("/forget/0"), trimmed(0, 1)),
                ("and is forgotten", post("/bill/1"), GONE),
                ("its price is free", get("/campaign/1"), report(1, bid="1", expired=1)),
            ],
        )
    CHECKS.same("recover", recovered(program, journal), counts(campaigns=1, live=1, sales=1, expired=1))


def ends_caps(program, journal):
    """A forgotten sale counts for no cap, and one that stays does."""
    user = sell(more=',"user":{"id":"u1"}')
    with running(program, journal) as server:
        converse(
            server,
            [
                ("a cap of once in a year", post("/campaign", campaign(cap='{"count":1,"seconds":31536000}')), new(1)),
                ("a user", user, won(1, "0.01")),
                ("is billed", post("/bill/1"), settled(1, "billed")),
                ("it stays", post("/forget/1"), trimmed(1, 0)),
                ("the same user", user, NO_BID),
                ("it goes", post("/forget/0"), trimmed(0, 1)),
                ("the same user again", user, won(2, "0.01")),
                ("and no more", user, NO_BID),
            ],
        )
        server.kill()
    with running(program, journal) as server:
        converse(server, [("after a start", user, NO_BID), ("it is held", post("/forget/0"), trimmed(1, 1))])


def is_full(program, journal):
    """A list that has as many sales as it may: nothing is sold before one is forgotten."""
    with running(program, journal, more=["--sales", "1"]) as server:
        converse(
            server,
            [
                ("a campaign", post("/campaign", campaign()), new(1)),
                ("more impressions than the list has room", sell(TWO), FULL),
                ("a sale", sell(), won(1, "0.01")),
                ("a second one", sell(), FULL),
                ("one that nobody wants", sell('{"id":"1","bidfloor":9,"banner":{}}'), NO_BID),
                ("a trial", sell(more=',"test":1'), NO_BID),
                ("it is held", post("/forget/0"), trimmed(1, 0)),
                ("still", sell(), FULL),
                ("it is billed", post("/bill/1"), settled(1, "billed")),
                ("which makes no room", sell(), FULL),
                ("and forgotten", post("/forget/0"), trimmed(0, 1)),
                ("the second sale", sell(), won(2, "0.01")),
                ("a third one", sell(), FULL),
                ("more impressions, where one is wanted", sell(TWO.replace('"y"', '"y","bidfloor":9')), FULL),
            ],
        )
        said = server.process.stderr
        server.process.kill()
        CHECKS.same("standard error says it once", said.read(), b"rtbx: full: sales\n")
    CHECKS.same("recover", recovered(program, journal), counts(campaigns=1, live=1, sales=2, held=1, billed=1))


def is_fuller(program, journal):
    """A list that is longer than it may be since a start is served, and sells again once it is shorter."""
    with running(program, journal, more=["--sales", "3"]) as server:
        steps = [(f"sale {n}", sell(), won(n, "0.01")) for n in [1, 2, 3]]
        converse(server, [("a campaign", post("/campaign", campaign()), new(1)), *steps, ("one more", sell(), FULL)])
    with running(program, journal, more=["--sales=2"]) as server:
        converse(
            server,
            [
                ("a sale", sell(), FULL),
                ("one that nobody wants", sell('{"id":"1","bidfloor":9,"banner":{}}'), NO_BID),
                ("the first is billed", post("/bill/1"), settled(1, "billed")),
                ("and forgotten", post("/forget/0"), trimmed(2, 1)),
                ("as many as may be", sell(), FULL),
                ("the next is lost", post("/lose/2"), settled(2, "lost")),
                ("and forgotten", post("/forget/0"), trimmed(1, 2)),
                ("there is room", sell(), won(4, "0.01")),
            ],
        )


def is_kept(program, journal):
    """What the disk does not take is told, and is kept once it does; what is not kept is forgotten by a kill."""
    failed = error(500, "store-failed")
    steps = [
        ("a campaign", post("/campaign", campaign()), new(1), None),
        ("a sale", sell(), won(1, "0.01"), None),
        ("is billed", post("/bill/1"), settled(1, "billed"), None),
        ("there is no room", post("/forget/0"), failed, 3),
        ("nor for what comes behind", get("/campaign/1"), failed, None),
        ("there is", post("/bill/1"), GONE, resource.RLIM_INFINITY),
        ("a second sale", sell(), won(2, "0.01"), None),
        ("is lost", post("/lose/2"), settled(2, "lost"), None),
        ("there is no room again", post("/forget/0"), failed, 3),
    ]
    with running(program, journal) as server, server.link() as link:
        for step, data, wanted, room in steps:
            if room is not None:
                limit_files(server.process.pid, room if room == resource.RLIM_INFINITY else journal.stat().st_size + room)
            link.send(data)
            CHECKS.same(step, link.answer(), wanted)
    CHECKS.same("recover", recovered(program, journal), counts(campaigns=1, live=1, sales=2, billed=1, lost=1))
    with running(program, journal) as server:
        converse(server, [("a start knows of one", post(f"/forget/{MOST_SALES}"), trimmed(1, 1)), ("and forgets the other", post("/forget/0"), trimmed(0, 2))])


def has_paths(program, journal):
    """What is a path of it, and which methods that has."""
    none = ["", "/", "/00", "/007", "/-1", "/+1", "/0/T", "/0/", "/x", "/%30", f"/{MOST_SALES + 1}", f"/{2**64}"]
    with running(program, journal) as server:
        for path in none:
            converse(server, [(f"{method} /forget{path}", message(method, f"/forget{path}"), UNKNOWN) for method in ["POST", "GET"]])
        converse(
            server,
            [
                ("the greatest number", post(f"/forget/{MOST_SALES}"), trimmed(0, 0)),
                ("a query", post("/forget/0?x"), trimmed(0, 0)),
                ("a body that is not looked at", post("/forget/0", "{"), trimmed(0, 0)),
                ("another method", get("/forget/0"), answer(405, allow="POST")),
                ("and one that nothing has", message("DELETE", "/forget/0"), answer(405, allow="GET, POST")),
            ],
        )
    CHECKS.same("nothing is written", recovered(program, journal), counts())


def is_followed(program, journal):
    """A follower forgets nothing, and tells what the server has forgotten."""
    with running(program, journal) as server, following(program, journal) as follower, follower.link() as link:
        steps = [("a campaign", post("/campaign", A), new(1)), ("a sale", SELL, won_by_a(1, "0.3")), ("is billed", post("/bill/1"), settled(1, "billed"))]
        converse(server, [*steps, ("and forgotten", post("/forget/0"), trimmed(0, 1))])
        CHECKS.same("a follower's report", asked(link, get("/campaign/1")), followed(1, 4, spent="0.0003", billed=1))
        CHECKS.same("a follower forgets nothing", asked(link, post("/forget/0")), error(409, "read-only"))
        CHECKS.same("and has no such path", asked(link, get("/forget/0")), UNKNOWN)


# ---- among kills


class Forgetter:
    """Forgets all that may go until the server is gone, and keeps how many it was told are forgotten."""

    def __init__(self, port):
        self.port = port
        self.forgotten = 0
        self.answers = 0

    def run(self):
        try:
            while True:
                with Link(self.port) as link:
                    while self.told(link):
                        pass
        except OSError:
            return

    def told(self, link):
        link.send(post("/forget/0"))
        found = re.search(rb'\{"sales":\d+,"forgotten":(\d+)\}$', link.answer())
        if found:
            CHECKS.holds("it never falls", int(found[1]) >= self.forgotten)
            self.forgotten = int(found[1])
            self.answers += 1
        return found is not None


def try_forget_kills(program, folder):
    """The server is killed at drawn moments while it sells, bills and forgets: what was told is in the journal, and what
    the journal's bytes say is what the program reads."""
    journal = folder / "forget-kills"
    draw = random.Random("forgets")
    sales = billed = forgotten = answers = 0
    for _ in range(KILLS):
        with running(program, journal, workers=WORKERS) as server:
            writers, forgetter = [Writer(server.port) for _ in range(WORKERS - 1)], Forgetter(server.port)
            threads = [threading.Thread(target=it.run) for it in [*writers, forgetter]]
            for thread in threads:
                thread.start()
            time.sleep(draw.uniform(0, 0.4))
            server.kill()
            for thread in threads:
                thread.join(LIMIT)
        sales = max([sales, *(it.sales for it in writers)])
        billed += sum(it.billed for it in writers)
        forgotten = max(forgotten, forgetter.forgotten)
        answers += forgetter.answers
        state = state_of(journal.read_bytes())
        found = [state.forgotten + len(state.sales), state.count("billed"), state.forgotten]
        wanted = [sales, billed, forgotten]
        CHECKS.holds(f"{found} holds {wanted}", all(a >= b for a, b in zip(found, wanted)))
        CHECKS.same("recover", ended([program, "recover", "--journal", journal])[:2], (0, recover_line(state)))
        billed, forgotten = found[1], found[2]
    CHECKS.holds(f"{forgotten} were forgotten by {answers} messages", forgotten > 0)
    look_at_reports(program, journal, state)


def look_at_reports(program, journal, state):
    """Each campaign's report counts what is in the list and what is gone."""
    with running(program, journal) as server, server.link() as link:
        for n, of in enumerate(state.campaigns[:50], 1):
            link.send(get(f"/campaign/{n}"))
            came = link.answer()
            own = [it.state for it in state.sales if it.campaign == n]
            told = [int(re.search(rb'"%s":(\d+)' % name.encode(), came)[1]) for name in ["billed", "lost", "expired"]]
            CHECKS.same(f"campaign {n}", told, [of.gone[name] + own.count(name) for name in ["billed", "lost", "expired"]])
