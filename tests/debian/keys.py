"""The service's key on a machine: made with the package, changed by rtbx-rekey with each of its steps failing in turn and cut off
at each, and told by rtbx-token.
"""

import json
import time

from debian.swaps import HOME, SHIMS, Script, calls, comes_to, run_script
from debian.units import ASK, status
from serving.checks import CHECKS
from serving.messages import A, P1, signed, token

FOLDER = "/etc/rtbx"
KEY, FORMER = f"{FOLDER}/key", f"{FOLDER}/key.former"
# A key of before.
OLD = bytes(range(32))
URL = "http://127.0.0.1:8080"
REKEY = Script("rtbx-rekey", "", None, None)
SHIMMED = "chown dirname flock head id ln mktemp mv rm setpriv stat sync systemctl touch".split()


def asked(machine, path, words=""):
    """The status and the body of an answer."""
    line = f"curl -s --retry 20 --retry-delay 0 --retry-connrefused -w ' %{{http_code}}' {words} '{URL}{path}'"
    body, _, code = machine.run(line)[1].rpartition(" ")
    return int(code), body


def key(machine):
    return machine.path(KEY).read_bytes()


def looks_right(machine, step):
    """The key is there whole, and the service's own."""
    CHECKS.same(f"{step}: the key", machine.run(f"stat -c '%U %G %a %s' {KEY}")[1], "rtbx rtbx 600 32\n")


def names(machine):
    return sorted(it.name for it in machine.path(FOLDER).iterdir())


def begin(machine):
    """The service with an old key and a journal of its own, of a campaign and a sale that waits for its notice."""
    machine.run(f"systemctl stop rtbx; rm -rf {HOME}/* {FOLDER}/* {SHIMS} /var/lib/rtbx-start/*; mkdir -m 777 {SHIMS}")
    machine.path(KEY).write_bytes(OLD)
    machine.run(f"chown rtbx:rtbx {KEY}; chmod 600 {KEY}; systemctl start rtbx")
    told = asked(machine, "/campaign", f"-d '{A}'")
    CHECKS.same("a campaign", told, (201, f'{{"campaign":1,"token":"{token(OLD, "/campaign/1")}"}}'))
    sold(machine, OLD, 1)


def sold(machine, now, n):
    """Sells, and sees that the notice is signed by the key."""
    code, body = asked(machine, "/openrtb2/auction", f"-d '{P1}'")
    told = json.loads(body)["seatbid"][0]["bid"][0]["burl"] if code == 200 else code
    CHECKS.same(f"the notice of sale {n}", told, URL + signed(now, f"/bill/{n}"))


def billed(machine, step, by, wanted=200):
    """Whether a notice of sale 1 is taken."""
    CHECKS.same(f"{step}: a notice", asked(machine, signed(by, "/bill/1"))[0], wanted)


def try_made(machine):
    """A key is made with the package, once, and the service signs by it."""
    looks_right(machine, "as it is installed")
    CHECKS.same("nothing lies beside it", names(machine), ["key"])
    before = key(machine)
    CHECKS.same("it is installed again", machine.run("dpkg -i /srv/rtbx.deb")[0], 0)
    CHECKS.same("the key stays", (key(machine), names(machine)), (before, ["key"]))
    machine.run(f"rm {KEY}")
    CHECKS.same("without a key", (machine.run("dpkg -i /srv/rtbx.deb")[0], names(machine)), (0, ["key"]))
    looks_right(machine, "a second one")
    CHECKS.holds("it is another one", key(machine) != before)
    try_upgrade(machine)
    begin(machine)
    for path, wanted in [("/bill/1", 403), (f"/bill/1/{token(OLD, '/bill/2')}", 403), (signed(OLD, "/bill/1"), 200)]:
        CHECKS.same(path, asked(machine, path)[0], wanted)
    told = "".join(f"{signed(OLD, f'/campaign/{n}')}\n" for n in [1, 3, 4])
    CHECKS.same("rtbx-token", machine.run("rtbx-token 1 3-4"), (0, told))
    CHECKS.same("an advertiser's report", asked(machine, signed(OLD, "/campaign/1"))[0], 200)
    machine.run("cp /etc/default/rtbx /srv/default; echo RTBX_KEY= >> /etc/default/rtbx; systemctl restart rtbx")
    CHECKS.same("an empty name is no key", asked(machine, "/bill/1")[0], 200)
    machine.run("cp /srv/default /etc/default/rtbx; systemctl restart rtbx")


def try_upgrade(machine):
    """An exchange that has signed nothing goes on so behind an upgrade, until its operator has it sign."""
    begin(machine)
    machine.run(f"rm {KEY} /usr/lib/rtbx/make-key; cp /etc/default/rtbx /srv/default; echo RTBX_KEY= >> /etc/default/rtbx; systemctl restart rtbx")
    asked(machine, "/openrtb2/auction", f"-d '{P1}'")
    code, said = machine.run("cp /srv/default /etc/default/rtbx; dpkg -i /srv/rtbx.deb")
    CHECKS.holds(f"an upgrade of what signed nothing: {said}", code == 0 and "signed no addresses" in said)
    CHECKS.same("it has a key, and does not use it yet", names(machine), ["key", "key.not-yet"])
    machine.run("systemctl restart rtbx")
    CHECKS.same("a notice from before", asked(machine, "/bill/2"), (200, '{"sale":2,"state":"billed"}'))
    machine.run(f"rm {KEY}.not-yet; systemctl restart rtbx")
    CHECKS.same("once it signs", asked(machine, "/bill/1")[0], 403)
    billed(machine, "once it signs", key(machine))
    CHECKS.same("a further upgrade", (machine.run("dpkg -i /srv/rtbx.deb")[0], names(machine)), (0, ["key"]))


def try_change(machine):
    """The key of before is the former one until it is ended, or gone at once where it leaked."""
    begin(machine)
    code, said = machine.run("rtbx-rekey")
    CHECKS.same(f"rtbx-rekey: {said}", code, 0)
    looks_right(machine, "changed")
    now = key(machine)
    CHECKS.same("the former one", (machine.path(FORMER).read_bytes(), now != OLD, names(machine)), (OLD, True, ["key", "key.former"]))
    billed(machine, "by the former key", OLD)
    sold(machine, now, 2)
    CHECKS.same("an advertiser from before", asked(machine, signed(OLD, "/campaign/1"))[0], 200)
    CHECKS.same("a second change", (machine.run("rtbx-rekey")[0], key(machine), machine.path(FORMER).read_bytes()), (4, now, OLD))
    CHECKS.same("its end", (machine.run("rtbx-rekey --end")[0], names(machine)), (0, ["key"]))
    billed(machine, "behind its end", OLD, 403)
    billed(machine, "by the key of now", now)
    machine.run("rtbx-rekey")
    CHECKS.same("it leaked", (machine.run("rtbx-rekey --leaked")[0], names(machine), key(machine) != now), (0, ["key"], True))
    looks_right(machine, "behind the leak")
    for leaked in [OLD, now]:
        billed(machine, "by a key that leaked", leaked, 403)
    billed(machine, "by the last key", key(machine))
    machine.run("systemctl stop rtbx")
    CHECKS.same("a stopped service", (machine.run("rtbx-rekey")[0], machine.run("systemctl is-active rtbx")[1]), (0, "inactive\n"))


def try_refusals(machine):
    """Words and files that are refused, and a service whose key is none."""
    begin(machine)
    for words, wanted in [("--x", 2), ("--end --leaked", 2), ("--key", 2), ("more", 2), ("--key /etc/rtbx/none", 4), ("--key /nothing/key", 4)]:
        CHECKS.same(f"rtbx-rekey {words}", (machine.run(f"rtbx-rekey {words}")[0], key(machine), names(machine)), (wanted, OLD, ["key"]))
    for words, wanted in [("", 2), ("0", 2), ("x", 2), ("1-", 2), ("--key /etc/rtbx/none 1", 1), ("--key /etc/hostname 1", 1)]:
        CHECKS.same(f"rtbx-token {words}", machine.run(f"rtbx-token {words}")[0], wanted)
    for step, line in {"a byte less": f"truncate -s 31 {KEY}", "no key": f"rm {KEY}", "another user's": f"chown root {KEY}"}.items():
        begin(machine)
        machine.run(f"{line}; systemctl restart rtbx")
        CHECKS.same(f"{step}: the service ends", (comes_to(machine, "failed"), status(machine)), ("failed", "16"))
        time.sleep(1.5)
        CHECKS.same(f"{step}: and is not started again", machine.run("systemctl is-active rtbx")[1], "failed\n")
    begin(machine)
    CHECKS.same("with a key", machine.run(ASK)[1], "200")


def try_steps(machine):
    """Each call of rtbx-rekey fails, or the script is killed at it: what is under way is taken then, behind another start, and
    behind a second run, which ends the change."""
    begin(machine)
    code, said = run_script(machine, REKEY, "none", shimmed=SHIMMED)
    CHECKS.same(f"rtbx-rekey: {said}", code, 0)
    made = calls(machine)
    for way in ["refuses", "late", "KILL"]:
        for n, call in enumerate(made, 1):
            step = f"rtbx-rekey, {way} at {n}, {call[:70]}"
            begin(machine)
            run_script(machine, REKEY, f"{'waits' if way == 'KILL' else way} {n}", "KILL" if way == "KILL" else None, SHIMMED)
            looks_right(machine, step)
            billed(machine, step, OLD)
            machine.run("systemctl restart rtbx")
            billed(machine, f"{step}, started again", OLD)
            code, said = machine.run("rtbx-rekey")
            again = code == 4 and FORMER.rpartition("/")[2] in names(machine)
            CHECKS.holds(f"{step}, a second run: {code} {said}", code == 0 or again)
            looks_right(machine, f"{step}, a second run")
            CHECKS.same(f"{step}, a second run: what lies there", (names(machine), machine.path(FORMER).read_bytes(), key(machine) != OLD), (["key", "key.former"], OLD, True))
            billed(machine, f"{step}, a second run", OLD)
            sold(machine, key(machine), 2)
