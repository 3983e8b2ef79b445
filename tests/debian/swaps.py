"""rtbx-compact, rtbx-restore and rtbx-cut on a machine, as they are, with each step failing in turn, and cut off at each."""

import os
import threading
import time

from serving.checks import CHECKS, LIMIT, Stopped
from serving.journal_bytes import payloads
from serving.messages import A, B, P1, get, post
from serving.program import running

HOME = "/var/lib/rtbx"
JOURNAL = f"{HOME}/journal"
# The journal's owner, group and mode, which no script may change.
WHOSE = "rtbx adm 640"
SHIMS = "/run/shims"
SHIMMED = "cat chgrp chmod flock head ln mkfifo mv readlink rm rtbx sed setpriv sh stat sync systemctl timeout".split()
# Stands before each program that a script calls: the call of a number, of all or of its program's, does not come, comes and is
# said to have failed, or waits until the script was sent a signal. What runs beside each other has its own number alone.
SHIM = """#!/bin/sh
at=/run/shims
name=${0##*/}
read -r all < $at/count
all=$((all + 1))
echo $all > $at/count
own=0
if [ -e $at/count.$name ]; then read -r own < $at/count.$name; fi
own=$((own + 1))
echo $own > $at/count.$name
n=$name.$own
echo "$n $*" >> $at/calls
read -r fails < $at/fails
if [ "${fails##* }" = "$all" ]; then n=$all; fi
real=/usr/bin/$name
if [ "$fails" = "refuses $n" ]; then exit 77; fi
if [ "$fails" = "late $n" ]; then $real "$@"; exit 77; fi
if [ "$fails" = "waits $n" ]; then : > $at/now; while [ -e $at/now ]; do /usr/bin/sleep 0.01; done; fi
exec $real "$@"
"""


def made_journals(program, folder):
    """An earlier copy of a journal, and a later one, of three campaigns and some sales."""
    file = folder / "made"
    file.unlink(missing_ok=True)
    with running(program, file) as server:
        link = server.link()
        for body in [A, B, B]:
            link.send(post("/campaign", body))
            link.answer()
        copies = []
        for n in range(1, 41):
            link.send(post("/openrtb2/auction", P1))
            link.answer()
            link.send(get(f"/{'bill' if n % 2 else 'lose'}/{n}"))
            link.answer()
            if n in [20, 40]:
                copies.append(file.read_bytes())
        link.socket.close()
    return copies


def damaged(data):
    """The journal with the length of a block in its middle changed, and where that block's gate is."""
    blocks = payloads(data)[1]
    at = 8 + sum(9 + len(it) for it in blocks[: len(blocks) // 2])
    return data[: at + 1] + b"\xff" + data[at + 2 :], at


class Watch:
    """Looks all the time which lengths the file at the journal's path has; none where there is no file."""

    def __init__(self, machine):
        self.file, self.lengths, self.on = machine.path(JOURNAL), set(), True
        self.thread = threading.Thread(target=self.look)

    def look(self):
        while self.on:
            try:
                self.lengths.add(os.stat(self.file).st_size)
            except FileNotFoundError:
                self.lengths.add(None)
            time.sleep(0.0002)

    def __enter__(self):
        self.thread.start()
        return self

    def __exit__(self, *_):
        self.on = False
        self.thread.join()


class Script:
    """A script with its words, the journal that it finds, and the one that it is to leave."""

    def __init__(self, words, kept, before, after, state="active", more=None):
        self.words, self.name, self.kept = words, words.partition(" ")[0], kept
        self.before, self.after, self.state, self.more = before, after, state, more or {}

    def is_after(self, data):
        return self.after(data) if callable(self.after) else data == self.after


def prepare(machine, script):
    """The service over the journal that the script finds, and nothing else in the folder but what it wants there."""
    machine.run(f"systemctl stop rtbx; rm -rf {HOME}/* {SHIMS}; mkdir -m 777 {SHIMS}")
    for name, data in {"journal": script.before, **script.more}.items():
        if data is not None:
            machine.path(f"{HOME}/{name}").write_bytes(data)
            machine.run(f"chown rtbx:adm {HOME}/{name}; chmod 640 {HOME}/{name}")
    machine.run("systemctl start rtbx")


def set_shims(machine, fails, shimmed):
    for it in machine.path(SHIMS).glob("count.*"):
        it.unlink()
    for name, text in {"count": "0\n", "fails": f"{fails}\n", "calls": ""}.items():
        machine.path(f"{SHIMS}/{name}").write_text(text)
        machine.path(f"{SHIMS}/{name}").chmod(0o666)
    for name in shimmed:
        machine.path(f"{SHIMS}/{name}").write_text(SHIM)
        machine.path(f"{SHIMS}/{name}").chmod(0o755)


def run_script(machine, script, fails, signal=None, shimmed=SHIMMED):
    """Runs it, and sends it a signal where it waits."""
    set_shims(machine, fails, shimmed)
    if signal:
        threading.Thread(target=send, args=(machine, signal), daemon=True).start()
    line = f"echo $$ > {SHIMS}/pid; PATH={SHIMS}:$PATH exec {script.words}"
    return machine.run(line)


def send(machine, signal):
    now, until = machine.path(f"{SHIMS}/now"), time.monotonic() + LIMIT
    while time.monotonic() < until and not now.exists():
        time.sleep(0.01)
    machine.run(f"kill -{signal} $(cat {SHIMS}/pid)")
    now.unlink(missing_ok=True)


def calls(machine):
    return machine.path(f"{SHIMS}/calls").read_text().splitlines()


def comes_to(machine, wanted):
    """How the service is, within some seconds that which is wanted."""
    for _ in range(50):
        told = machine.run("systemctl is-active rtbx")[1].strip()
        if told == wanted:
            break
        time.sleep(0.1)
    return told


def folder(machine):
    return {it.name: it.read_bytes() for it in machine.path(HOME).iterdir()}


def look_at(machine, script, step, code, tidied=True):
    """What a run has left: the journal of before and nothing else, or all that was to be done."""
    found = folder(machine)
    data = found.pop("journal", None)
    done = data is not None and script.is_after(data)
    if not (done or CHECKS.same(f"{step}: the journal is as it was", data, script.before)):
        return
    if script.before is not None:
        CHECKS.same(f"{step}: whose it is", machine.run(f"stat -c '%U %G %a' {JOURNAL}")[1].strip(), WHOSE)
    found.pop("journal.compacted", None)
    wanted = dict(script.more)
    if done and script.before is not None:
        wanted[f"journal.{script.kept}"] = script.before
    if tidied:
        CHECKS.same(f"{step}: what lies beside", found, wanted)
        wanted = "active" if done else script.state
        CHECKS.same(f"{step}: the service", comes_to(machine, wanted), wanted)
    elif done and script.before is not None:
        CHECKS.holds(f"{step}: the journal of before is there", script.before in found.values())
    CHECKS.holds(f"{step}: it says whether it was done", done or code != 0)


def try_whole(machine, script):
    """A run of which nothing fails. Gives the calls that it makes."""
    prepare(machine, script)
    with Watch(machine) as watch:
        code, said = run_script(machine, script, "none")
    if not CHECKS.same(f"{script.words}: {said}", code, 0):
        raise Stopped
    look_at(machine, script, script.words, code)
    lengths = {len(script.before) if script.before else None, machine.path(JOURNAL).stat().st_size}
    CHECKS.holds(f"{script.words}: lengths of the journal {watch.lengths}", watch.lengths <= lengths)
    return calls(machine)


def try_steps(machine, script, ways):
    """Each call of the script fails in turn, in each of these ways."""
    made = try_whole(machine, script)
    for way in ways:
        for call in made:
            step = f"{script.name}, {way} at {call[:70]}"
            prepare(machine, script)
            fails = f"{way if way in ['refuses', 'late'] else 'waits'} {call.split()[0]}"
            code, _ = run_script(machine, script, fails, None if way in ["refuses", "late"] else way)
            look_at(machine, script, step, 137 if way == "KILL" else code, tidied=way != "KILL")


def try_after_kill(machine, script):
    """A run that was cut off is followed by one that does it, and nothing of the first stays."""
    made = try_whole(machine, script)
    for call in made:
        prepare(machine, script)
        run_script(machine, script, f"waits {call.split()[0]}", "KILL")
        code, said = run_script(machine, script, "none")
        step = f"{script.name} again, cut off at {call[:70]}"
        CHECKS.same(f"{step}: {said}", code, 0)
        names = sorted(it for it in folder(machine) if it != "journal.compacted")
        CHECKS.same(f"{step}: what lies there", names, sorted(["journal", f"journal.{script.kept}", *script.more]))


def scripts(machine, program, temporary):
    """The three, and a restoration where no journal is."""
    early, late = made_journals(program, temporary)
    broken, at = damaged(late)

    def is_compacted(data):
        return data[1:8] == b"RTBXJ02" and len(data) < len(late)

    backup = {"backup": early}
    return {
        "compact": Script("rtbx-compact --keep 10", "old", late, is_compacted),
        "restore": Script(f"rtbx-restore {HOME}/backup", "replaced", late, early, more=backup),
        "restore-lost": Script(f"rtbx-restore {HOME}/backup", "replaced", None, early, more=backup, state="activating"),
        "cut": Script(f"rtbx-cut {at}", "damaged", broken, late[:at] + b"\0", state="failed"),
    }
