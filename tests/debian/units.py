"""The package on a machine: installed, started over journals that are there and that are not, ended, and removed."""

import re
import time

from debian.swaps import HOME, JOURNAL, Script, calls, comes_to, made_journals, damaged, prepare, run_script
from serving.checks import CHECKS, LIMIT
from serving.messages import P1

SELL = f"curl -s -o /dev/null -w '%{{http_code}}' -d '{P1}' http://127.0.0.1:8080/openrtb2/auction"
ASK = "curl -s -o /dev/null -w '%{http_code}' --retry 20 --retry-delay 0 --retry-connrefused http://127.0.0.1:8080/campaign/1"
# What the steps by hand call, and what may fail in them.
HANDS = "cp grep ln mktemp mv rtbx sync systemctl".split()
UNITS = ["rtbx.service", "rtbx-standby.service", "rtbx-follow.service", "rtbx-compact.timer", "rtbx-forget.timer", "rtbx-metrics.timer"]
# How long the list is, and how many sales are forgotten: a forgetting that takes none.
LIST = "curl -s -X POST --retry 20 --retry-delay 0 --retry-connrefused http://127.0.0.1:8080/forget/67108864"


def install(machine, package):
    machine.path("/srv/rtbx.deb").write_bytes(package.read_bytes())
    code, said = machine.run("dpkg -i /srv/rtbx.deb")
    CHECKS.same(f"the package installs: {said}", code, 0)
    for unit in UNITS:
        CHECKS.same(f"{unit} is off at first", machine.run(f"systemctl is-enabled {unit}")[1].strip(), "disabled")
    CHECKS.same("the units are as systemd wants them", machine.run("systemd-analyze verify --man=no " + " ".join(UNITS)), (0, ""))


def status(machine):
    """The status with which the server last ended. While a start is under way systemd tells none, which it says as 0."""
    for _ in range(50):
        told = machine.run("systemctl show -p ExecMainStatus --value rtbx")[1].strip()
        if told != "0":
            break
        time.sleep(0.1)
    return told


def try_first_start(machine):
    CHECKS.same("a start without a journal", machine.run("systemctl start rtbx")[0], 0)
    CHECKS.same("it answers", machine.run(ASK)[1], "404")
    CHECKS.same("the journal is the service's own", machine.run(f"stat -c '%U %G %a' {JOURNAL}")[1], "rtbx rtbx 600\n")
    CHECKS.holds("it is noted", machine.path("/var/lib/rtbx-start/journal-was-there").exists())


def try_no_journal(machine):
    """No empty exchange begins where a journal was, and the service goes on by itself once it is there again."""
    for name, away in {"taken away": f"mv {JOURNAL} {HOME}/away", "of no length": f"mv {JOURNAL} {HOME}/away; : > {JOURNAL}"}.items():
        machine.run(f"systemctl stop rtbx; {away}; systemctl start rtbx")
        time.sleep(3)
        CHECKS.same(f"a journal {name}: the service waits", machine.run("systemctl is-active rtbx")[1], "activating\n")
        CHECKS.same(f"a journal {name}: its status", status(machine), "4")
        there = machine.path(JOURNAL)
        CHECKS.holds(f"a journal {name}: none is made", not there.exists() or there.stat().st_size == 0)
        machine.run(f"mv {HOME}/away {JOURNAL}")
        CHECKS.same(f"a journal {name}: back again", (comes_to(machine, "active"), machine.run(ASK)[1]), ("active", "404"))


def try_no_mount(machine):
    """A disk that is not mounted: the service does not start, and makes nothing in the empty folder."""
    mount = machine.path("/etc/systemd/system/var-lib-rtbx.mount")
    mount.write_text(f"[Mount]\nWhat=tmpfs\nType=tmpfs\nOptions=size=none\nWhere={HOME}\n")
    machine.run(f"systemctl stop rtbx; mv {JOURNAL} /srv/journal; systemctl daemon-reload")
    CHECKS.holds("a disk that is not there: the start fails", machine.run("systemctl start rtbx")[0] != 0)
    CHECKS.same("a disk that is not there: nothing is made", list(machine.path(HOME).iterdir()), [])
    mount.unlink()
    machine.run(f"systemctl daemon-reload; mv /srv/journal {JOURNAL}; systemctl start rtbx")
    CHECKS.same("without that disk", machine.run(ASK)[1], "404")


def try_ends(machine):
    """Ends that follow fast on one another, and one that no start mends."""
    for _ in range(8):
        machine.run("systemctl kill -s KILL --kill-whom=main rtbx")
        time.sleep(1.2)
    CHECKS.same("eight kills in ten seconds", (comes_to(machine, "active"), machine.run(ASK)[1]), ("active", "404"))
    machine.run(f"systemctl stop rtbx; cp {JOURNAL} /srv/journal; echo this is no journal > {JOURNAL}; systemctl start rtbx")
    CHECKS.same("damage", (comes_to(machine, "failed"), status(machine)), ("failed", "6"))
    machine.run(f"cp /srv/journal {JOURNAL}; echo RTBX_WORKERS=none > /etc/default/rtbx.d; cp /etc/default/rtbx /srv/default")
    machine.run("cp /etc/default/rtbx.d /etc/default/rtbx; rm /etc/default/rtbx.d; systemctl start rtbx")
    CHECKS.same("wrong words", (comes_to(machine, "failed"), status(machine)), ("failed", "2"))
    machine.run("cp /srv/default /etc/default/rtbx; systemctl start rtbx")
    CHECKS.same("right words", machine.run(ASK)[1], "404")


def effects(machine):
    return machine.run("curl -s --retry 20 --retry-delay 0 --retry-connrefused http://127.0.0.1:8081/campaign/1 | sed 's/.*\"effects\"://; s/[^0-9].*//'")[1].strip()


def try_follower(machine, program, temporary):
    """The follower begins anew over the journal that stands there behind a compaction."""
    late = made_journals(program, temporary)[1]
    prepare(machine, Script("", "", late, late))
    machine.run("systemctl enable --now rtbx-follow")
    before = effects(machine)
    code, said = machine.run("rtbx-compact --keep 1")
    CHECKS.same(f"a compaction beside a follower: {said}", code, 0)
    CHECKS.same("both have the same counts", *(machine.run(f"runuser -u rtbx rtbx recover -- --journal {it}")[1] for it in [JOURNAL, f"{JOURNAL}.old"]))
    after = effects(machine)
    CHECKS.holds(f"{before} effects, and then {after}", before.isdigit() and after.isdigit() and int(after) < int(before))
    machine.run("systemctl disable --now rtbx-follow")


def try_timer(machine, program, temporary):
    """The timer's service compacts; ended on its way it leaves the journal as it was, and starts the exchange again."""
    late = made_journals(program, temporary)[1]
    prepare(machine, Script("", "", late, late))
    machine.run("cp /etc/default/rtbx /srv/default; echo RTBX_KEEP=10 >> /etc/default/rtbx")
    code, said = machine.run("systemctl start rtbx-compact")
    CHECKS.same(f"a compaction by its unit: {said}", (code, machine.run(LIST)[1]), (0, told(10, 30)))
    CHECKS.same("both journals are there", names(machine), ["journal", "journal.compacted", "journal.old"])
    machine.run("systemctl start rtbx-compact.timer")
    CHECKS.holds("it is due at four", " 04:00:00 " in machine.run("systemctl show -p NextElapseUSecRealtime --value rtbx-compact.timer")[1])
    machine.run("systemctl stop rtbx-compact.timer")
    prepare(machine, Script("", "", late, late))
    machine.run(f"systemctl stop rtbx; setsid flock {JOURNAL} sleep 600 > /dev/null 2>&1 & sleep 0.5; systemctl start rtbx")
    CHECKS.same("a server that waits for its journal", comes_to(machine, "activating"), "activating")
    machine.run("systemctl start --no-block rtbx-compact; sleep 2; systemctl stop rtbx-compact")
    CHECKS.same("ended on its way", (machine.path(JOURNAL).read_bytes(), names(machine)), (late, ["journal"]))
    machine.run("kill $(pidof sleep)")
    CHECKS.same("the server goes on", (comes_to(machine, "active"), machine.run(LIST)[1]), ("active", told(40, 0)))
    machine.run("cp /srv/default /etc/default/rtbx; systemctl reset-failed rtbx-compact")


def try_figures(machine, program, temporary):
    """The timer's service writes what a node exporter reads, also where the server is stopped, and the journal gone."""
    file = "/var/lib/prometheus/node-exporter/rtbx.prom"
    late = made_journals(program, temporary)[1]
    prepare(machine, Script("", "", late, late))
    machine.run("mkdir -p /var/lib/prometheus/node-exporter; systemctl start rtbx-follow")
    effects(machine)
    for line, wanted in [
        ("true", ["rtbx_up 1", "rtbx_follower_up 1", f"rtbx_journal_bytes {len(late)}", "rtbx_journal_sales 40", "rtbx_sales 40", "rtbx_sales_forgotten 0", "rtbx_sales_limit 4194304", 'rtbx_campaign_live{campaign="3"} 1']),
        (f"rtbx-compact --keep 10; rm {file}; {ASK}; systemctl restart rtbx-follow", ["rtbx_up 1", "rtbx_journal_whole 1", "rtbx_journal_sales 10", "rtbx_sales 10", "rtbx_sales_forgotten 30"]),
        ("systemctl stop rtbx", ["rtbx_up 0", "rtbx_follower_up 0", "rtbx_journal_sales 10"]),
        (f"rm {file} {JOURNAL}", ["rtbx_up 0", "rtbx_journal_bytes 0", "rtbx_journal_whole 0"]),
    ]:
        machine.run(line)
        effects(machine) if "restart" in line else None
        code, said = machine.run("systemctl start rtbx-metrics")
        CHECKS.same(f"figures after {line}: {said}", code, 0)
        found = machine.path(file).read_text().splitlines()
        CHECKS.same(f"figures after {line}: missing", [it for it in wanted if it not in found], [])


def try_forgets(machine, program, temporary):
    """The timer's service forgets what is settled, but as many as are to stay, at each run, and fails where nobody answers."""
    late = made_journals(program, temporary)[1]
    prepare(machine, Script("", "", late, late))
    machine.run("cp /etc/default/rtbx /srv/default")
    for line, wanted in [
        ("systemctl start rtbx-forget", told(40, 0)),
        ("echo RTBX_KEEP=10 >> /etc/default/rtbx; systemctl start rtbx-forget", told(10, 30)),
        ("echo RTBX_SALES=10 >> /etc/default/rtbx; systemctl restart rtbx", told(10, 30)),
    ]:
        code, said = machine.run(line)
        CHECKS.same(f"{line}: {said}", (code, machine.run(LIST)[1]), (0, wanted))
    CHECKS.same("a list of as many as it may have", machine.run(SELL)[1], "503")
    machine.run("echo RTBX_KEEP=0 >> /etc/default/rtbx; systemctl start rtbx-forget.timer")
    until = time.monotonic() + 2 * LIMIT
    while machine.run(LIST)[1] != told(0, 40) and time.monotonic() < until:
        time.sleep(0.5)
    CHECKS.same("the timer forgets the rest", machine.run(LIST)[1], told(0, 40))
    CHECKS.same("and it sells again", machine.run(SELL)[1], "200")
    machine.run("systemctl stop rtbx-forget.timer; systemctl stop rtbx")
    CHECKS.holds("nobody answers", machine.run("systemctl start rtbx-forget")[0] != 0)
    CHECKS.same("and that is its end", machine.run("systemctl show -p ExecMainStatus --value rtbx-forget")[1], "1\n")
    machine.run("cp /srv/default /etc/default/rtbx; systemctl reset-failed rtbx-forget; systemctl start rtbx")
    CHECKS.same("once it is back", (machine.run("systemctl start rtbx-forget")[0], machine.run(LIST)[1]), (0, told(1, 40)))


def told(sales, forgotten):
    return f'{{"sales":{sales},"forgotten":{forgotten}}}'


def try_refusals(machine, program, temporary):
    """What the scripts refuse, and a service that was stopped stays so."""
    early, late = made_journals(program, temporary)
    broken, at = damaged(late)
    for words, before, wanted in [
        ("rtbx-compact --keep none", late, 2), ("rtbx-compact --kept 1", late, 2), ("rtbx-compact --keep", late, 2),
        ("rtbx-cut", late, 2), ("rtbx-cut 0", late, 2), ("rtbx-cut x", late, 2), (f"rtbx-cut {at}", late, 1), (f"rtbx-cut {at + 1}", broken, 1),
        ("rtbx-restore", late, 2), (f"rtbx-restore {HOME}/nothing", late, 4), (f"rtbx-restore {JOURNAL}", late, 4),
        ("rtbx-restore /etc/passwd", late, 6), ("rtbx-compact --journal /nothing/journal", late, 4), ("rtbx-compact", broken, 6),
    ]:
        prepare(machine, Script(words, "", before, before))
        code, said = run_script(machine, Script(words, "", before, before), "none")
        CHECKS.same(f"{words}: {said}", code, wanted)
        CHECKS.same(f"{words}: the journal", {it.name: it.read_bytes() for it in machine.path(HOME).iterdir()}, {"journal": before})
    prepare(machine, Script("", "", late, late))
    machine.run("systemctl stop rtbx")
    CHECKS.same("a stopped service", (machine.run("rtbx-compact")[0], machine.run("systemctl is-active rtbx")[1]), (0, "inactive\n"))


def set_hands(machine, **hands):
    """Lines that stand before programs of the machine, which they call by their whole paths."""
    machine.run("rm -rf /run/hands; mkdir /run/hands")
    for program, lines in hands.items():
        machine.path(f"/run/hands/{program}").write_text(f"#!/bin/sh\n{lines}\n")
    machine.run("chmod 755 /run/hands/*")


def try_written_meanwhile(machine, program, temporary):
    """Somebody who starts the server by hand between the compaction and the change of names loses no sale."""
    late = made_journals(program, temporary)[1]
    prepare(machine, Script("", "", late, late))
    set_hands(machine, rtbx=f'/usr/bin/rtbx "$@" || exit\nif [ "$1" = compact ]; then sleep 0.1; printf x >> {JOURNAL}; fi')
    code, said = machine.run("PATH=/run/hands:$PATH rtbx-compact")
    CHECKS.same(f"a journal that was written meanwhile: {said}", code, 4)
    CHECKS.same("a journal that was written meanwhile stays", machine.path(JOURNAL).read_bytes(), late + b"x")
    prepare(machine, Script("", "", late, late))
    machine.run(f"systemctl stop rtbx; setsid flock {JOURNAL} sleep 600 > /dev/null 2>&1 & sleep 0.5")
    CHECKS.same("a journal that another process has open", machine.run("rtbx-compact")[0], 4)
    CHECKS.same("nothing of it stays", names(machine), ["journal"])
    machine.run("kill $(pidof sleep)")


# Three starts of the service are refused.
REFUSES = '[ "$1" = start ] && echo >> /run/hands/starts && [ "$(wc -l < /run/hands/starts)" -le 3 ] && exit 1\nexec /usr/bin/systemctl "$@"'
# A byte of the new journal is changed behind the compaction.
DAMAGES = '/usr/bin/rtbx "$@" || exit\nif [ "$1" = compact ]; then printf X | dd of="$5" bs=1 seek=3 conv=notrunc status=none; fi'


def try_goes_back(machine, program, temporary):
    """A new journal that is damaged loses its name again, whether the service was started over it or not, and the old one is
    served; a service that does not start is told.
    """
    late = made_journals(program, temporary)[1]
    for name, hands in [("a damaged new journal", {"rtbx": DAMAGES}), ("one whose start is refused", {"rtbx": DAMAGES, "systemctl": REFUSES})]:
        prepare(machine, Script("", "", late, late))
        set_hands(machine, **hands)
        code, said = machine.run("PATH=/run/hands:$PATH rtbx-compact --keep 10")
        CHECKS.holds(f"{name}: {said}", code == 6 and f"{JOURNAL} is as it was" in said)
        CHECKS.same(f"{name}: that of before is in its place", (machine.path(JOURNAL).read_bytes(), names(machine)), (late, ["journal"]))
        CHECKS.same(f"{name}: and is served", (comes_to(machine, "active"), machine.run(ASK)[1]), ("active", "200"))
    prepare(machine, Script("", "", late, late))
    set_hands(machine, systemctl=REFUSES)
    code, said = machine.run("PATH=/run/hands:$PATH rtbx-compact --keep 10")
    CHECKS.holds(f"a service that does not start: {said}", code == 1 and "rtbx.service could not be started" in said)
    CHECKS.same("both journals are there", names(machine), ["journal", "journal.compacted", "journal.old"])
    CHECKS.same("and a start serves the new one", (machine.run("systemctl start rtbx")[0], machine.run(ASK)[1]), (0, "200"))


def names(machine):
    return sorted(it.name for it in machine.path(HOME).iterdir())


def try_by_hand(machine, program, temporary, document):
    """The steps that the document tells for a journal without the scripts, as they stand and with each failing in turn: those
    beside the server are done by root, which is served at their end in each case.
    """
    blocks = [it for it in re.findall(r"```sh\n(.*?)```", document.read_text(), re.DOTALL) if "rtbx compact --journal" in it]
    late = made_journals(program, temporary)[1]
    for block, words, state in zip(blocks, ["/bin/sh /srv/steps", "runuser -u rtbx -- /bin/sh /srv/steps"], ["active", "inactive"], strict=True):
        machine.path("/srv/steps").write_text(block)
        script, made = Script(words, "old", late, lambda data: data[1:8] == b"RTBXJ02" and len(data) < len(late)), [None]
        for fails in made:
            step = f"by hand, {state}, {fails or 'none'} fails"
            prepare(machine, script)
            if state == "inactive":
                machine.run("systemctl stop rtbx")
            code, said = run_script(machine, script, f"refuses {fails}", shimmed=HANDS)
            found = machine.path(JOURNAL).read_bytes()
            if fails is None:
                CHECKS.holds(f"{step}: {said}", code == 0 and script.is_after(found))
                made += [it.split()[0] for it in calls(machine) if " start rtbx" not in it]
            CHECKS.holds(f"{step}: the journal is whole", found == late or script.is_after(found))
            CHECKS.holds(f"{step}: the journal of before is there", late in [it.read_bytes() for it in machine.path(HOME).iterdir()])
            CHECKS.same(f"{step}: whose it is", machine.run(f"stat -c '%U %G %a' {JOURNAL}")[1], "rtbx adm 640\n" if state == "active" or found == late else "rtbx rtbx 644\n")
            CHECKS.same(f"{step}: the service", comes_to(machine, state), state)


def try_removal(machine):
    machine.run("systemctl start rtbx")
    before = machine.path(JOURNAL).read_bytes()
    keys = [it.read_bytes() for it in machine.path("/etc").glob("rtbx/*")]
    for step, line in [("removed", "dpkg -r rtbx"), ("purged", "dpkg -P rtbx")]:
        code, said = machine.run(line)
        CHECKS.same(f"{step}: {said}", code, 0)
        CHECKS.same(f"{step}: the journal stays", machine.path(JOURNAL).read_bytes(), before)
        CHECKS.same(f"{step}: the keys", [it.read_bytes() for it in machine.path("/etc").glob("rtbx/*")], keys if step == "removed" else [])
        CHECKS.holds(f"{step}: the service has ended", machine.run("systemctl is-active rtbx")[1].strip() in ["inactive", "unknown", "failed"])
    CHECKS.same("purged: nothing else stays", machine.run("ls -d /etc/default/rtbx /etc/rtbx /usr/lib/rtbx /var/lib/rtbx-start 2>/dev/null")[1], "")
