"""The calls of the system that a message takes, as strace tells them: nothing is answered before it is synced."""

import re
import select
import shutil
import signal
import subprocess
import time

from serving.checks import CHECKS, LIMIT
from serving.messages import A, SELL, get, new, post, report, settled, won_by_a
from serving.program import running

NAMES = {
    "recvfrom": "read",
    "sendto": "write",
    "read": "read",
    "write": "write",
    "statx": "look",
    "writev": "keep",
    "pwrite64": "keep",
    "fdatasync": "sync",
}
ANSWERED = ["read", "write"]
# A look at the file; the length, the payload and a closed gate in one; then the gate that opens them.
KEPT = ["read", "look", "keep", "sync", "keep", "sync", "write"]


def steps():
    """Messages with their answers, and the calls that each takes."""
    return [
        ("a campaign", post("/campaign", A), new(1), KEPT),
        ("a report", get("/campaign/1"), report(1), ANSWERED),
        ("a sale", SELL, won_by_a(1, "0.3"), KEPT),
        ("a billing", post("/bill/1"), settled(1, "billed"), KEPT),
        ("the same again", post("/bill/1"), settled(1, "billed"), ANSWERED),
    ]


def try_calls(program, folder):
    """Each message by itself: a change is synced twice before its answer is sent, and others keep nothing."""
    if shutil.which("strace") is None:
        print("calls: left out, since there is no strace")
        return
    told = folder / "strace"
    # strace begins before the link: it breaks off a wait that has a limit.
    with running(program, folder / "calls") as server:
        with subprocess.Popen(["strace", "-f", "-o", told, "-p", str(server.process.pid)], stderr=subprocess.PIPE) as tracer:
            said = tracer.stderr.readline() if select.select([tracer.stderr], [], [], LIMIT)[0] else b""
            if b"attached" not in said:
                print(f"calls: left out, since strace may not look: {said.decode(errors='replace').strip()}")
                tracer.kill()
                return
            answers = []
            with server.link() as link:
                for _, data, _, _ in steps():
                    link.send(data)
                    answers.append(link.answer())
                wanted = [name for it in steps() for name in it[3]]
                came = last_calls(told, wanted)
            tracer.send_signal(signal.SIGINT)
            tracer.wait(LIMIT)
    CHECKS.same("the answers", answers, [wanted for _, _, wanted, _ in steps()])
    CHECKS.same("the calls", came, wanted)


def last_calls(told, wanted):
    """As many of the last calls as are wanted: strace tells of a call a little after the peer has what it sent."""
    until = time.monotonic() + LIMIT
    while True:
        came = calls_in(told.read_text())[-len(wanted) :]
        if came == wanted or time.monotonic() > until:
            return came
        time.sleep(0.02)


def calls_in(told):
    """The calls that succeeded and that a message takes, in their order."""
    names = re.findall(r"^(?:\d+ +)?(?:<\.\.\. )?(\w+)(?:\(| resumed>).* = \d+$", told, re.MULTILINE)
    return [NAMES.get(name, name) for name in names if name in NAMES]
