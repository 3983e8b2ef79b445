"""Kills, copies and a full disk: what was answered is in the journal."""

import re
import resource
import shutil
import threading
import time

from serving.checks import CHECKS, LIMIT
from serving.messages import (
    A,
    B,
    SELL,
    SIZE,
    bid,
    error,
    get,
    new,
    number,
    post,
    report,
    response,
    sell,
    settled,
    won_by_a,
    won_by_b,
)
from serving.program import converse, counts, ended, free_port, recovered, running


def crash_steps():
    """Changes, each with the reports of campaigns 1 and 2 that come after it."""
    none = error(404, "no-such-campaign")
    no_sale = report(2, bid="1")
    sale = report(2, bid="1", reserved="0.0003", held=1)
    two = ",".join(f'{{"id":"{i}","banner":{{}}}}' for i in ["x", "y"])
    both = [bid(n, imp, "1.01", 1, "<p>1.01</p>", "shoes.example", "c1", SIZE) for n, imp in [(4, "x"), (5, "y")]]
    return [
        ("a campaign", post("/campaign", A), new(1), report(1), none),
        ("another", post("/campaign", B), new(2), report(1), no_sale),
        ("a sale", SELL, won_by_a(1), report(1, reserved="0.00101", held=1), no_sale),
        ("the next", SELL, won_by_a(2), report(1, reserved="0.00202", held=2), no_sale),
        ("a billing", post("/bill/1"), settled(1, "billed"), report(1, reserved="0.00101", spent="0.00101", held=1, billed=1), no_sale),
        ("a loss", post("/lose/2"), settled(2, "lost"), report(1, spent="0.00101", billed=1, lost=1), no_sale),
        ("a pause", post("/pause/1"), number(1), report(1, "paused", spent="0.00101", billed=1, lost=1), no_sale),
        ("a sale to the other", SELL, won_by_b(3), report(1, "paused", spent="0.00101", billed=1, lost=1), sale),
        ("a resumption", post("/resume/1"), number(1), report(1, spent="0.00101", billed=1, lost=1), sale),
        (
            "a change",
            post("/campaign/1", A.replace("2.50", "3").replace('"budget":10', '"budget":20')),
            number(1),
            report(1, bid="3", budget="20", spent="0.00101", billed=1, lost=1),
            sale,
        ),
        (
            "two impressions",
            sell(two),
            response(["s1", *both]),
            report(1, bid="3", budget="20", reserved="0.00202", spent="0.00101", held=2, billed=1, lost=1),
            sale,
        ),
        (
            "a billing of one",
            get("/bill/5"),
            settled(5, "billed"),
            report(1, bid="3", budget="20", reserved="0.00101", spent="0.00202", held=1, billed=2, lost=1),
            sale,
        ),
    ]


def try_kills(program, folder):
    """The server is killed after each answer, and each answered change is there when it starts again."""
    journal, port = folder / "kills", free_port()
    for step, data, wanted, first, second in crash_steps():
        with running(program, journal, port) as server, server.link() as link:
            link.send(data)
            CHECKS.same(step, link.answer(), wanted)
            server.kill()
        with running(program, journal, port) as server:
            converse(server, [(f"campaign 1 after {step}", get("/campaign/1"), first), ("campaign 2", get("/campaign/2"), second)])
    told = counts(campaigns=2, live=2, sales=5, held=2, billed=2, lost=1)
    CHECKS.same("recover", recovered(program, journal), told)


def try_bursts(program, folder):
    """The server is killed among messages sent ahead: what was answered is there, and nothing half."""
    journal = folder / "bursts"
    held = 0
    for answered in [0, 1, 7, 20, 33]:
        with running(program, journal) as server, server.link() as link:
            link.send(post("/campaign", A) * 40)
            came = [link.answer() for _ in range(answered)]
            server.kill()
        CHECKS.same("answers before the kill", came, [new(held + 1 + i) for i in range(answered)])
        status, line, _ = ended([program, "recover", "--journal", journal])
        found = re.fullmatch(rb"campaigns=(\d+) live=(\d+) sales=0 held=0 billed=0 lost=0 expired=0\n", line)
        CHECKS.same("recover", (status, bool(found)), (0, True))
        if not found:
            return
        now = int(found[1])
        CHECKS.holds(f"{held} + {answered} <= {now} <= {held} + 40", held + answered <= now <= held + 40)
        held = now
    with running(program, journal) as server:
        converse(server, [("each is whole", get(f"/campaign/{held}"), report(held)), ("and the next", post("/campaign", A), new(held + 1))])


def try_copies(program, folder):
    """A copy that is read from front to end while the server writes is a journal of what was answered before."""
    journal, copy = folder / "running", folder / "copy"
    with running(program, journal) as server, server.link() as link:
        stop = threading.Event()
        told = []

        def write():
            while not stop.is_set():
                link.send(post("/campaign", A))
                told.append(link.answer())

        writer = threading.Thread(target=write)
        writer.start()
        for _ in range(10):
            time.sleep(0.05)
            before = len(told)
            shutil.copyfile(journal, copy)
            status, line, _ = ended([program, "recover", "--journal", copy])
            held = re.match(rb"campaigns=(\d+) ", line)
            CHECKS.holds(f"{before} answered: status {status}, {line}", status == 0 and held and int(held[1]) >= before)
        stop.set()
        writer.join(LIMIT)
        CHECKS.same("all were answered", told, [new(i + 1) for i in range(len(told))])


def limit_files(pid, size):
    """A file of this process does not grow past so many bytes."""
    resource.prlimit(pid, resource.RLIMIT_FSIZE, (size, resource.RLIM_INFINITY))


def try_full(program, folder):
    """A disk that is full: what cannot be kept is told, and is kept once there is room again."""
    journal = folder / "full"
    failed = error(500, "store-failed")
    with running(program, journal) as server, server.link() as link:
        pid = server.process.pid
        steps = [
            ("a campaign", post("/campaign", A), new(1), None),
            ("one that does not fit", post("/campaign", B), failed, 20),
            ("a report waits for the repair", get("/campaign/2"), failed, None),
            ("a pause too", post("/pause/1"), failed, None),
            ("there is room: the campaign stands", get("/campaign/2"), report(2, bid="1"), resource.RLIM_INFINITY),
            ("and so does the pause", get("/campaign/1"), report(1, "paused"), None),
            ("a sale", SELL, won_by_b(1), None),
            ("full again", post("/bill/1"), failed, 3),
        ]
        for step, data, wanted, room in steps:
            if room is not None:
                limit_files(pid, room if room == resource.RLIM_INFINITY else journal.stat().st_size + room)
            link.send(data)
            CHECKS.same(step, link.answer(), wanted)
    told = counts(campaigns=2, live=1, sales=1, held=1)
    CHECKS.same("killed then: the last is not kept", recovered(program, journal), told)
