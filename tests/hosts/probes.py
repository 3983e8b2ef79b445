"""Whether examples/health finds a server that cannot write, and an address that goes where a server writes."""

import resource
import shutil
import signal
import subprocess
import time
from pathlib import Path

from hosts.machines import SHARED, holds, say, until
from hosts.sales import PROBE, Client
from hosts.servers import NAME, begin, over, standby_words
from serving.checks import CHECKS
from serving.messages import campaign, new, post
from serving.program import running

TOP = Path(__file__).resolve().parent.parent.parent
HEALTH = TOP / "examples" / "health"
# What a pause or a resumption takes of the journal.
WRITE = 22


def health(host, *words):
    """Whether examples/health finds the host's server well."""
    return host.run(HEALTH, "http://127.0.0.1:8080", *words, fail=False).returncode == 0


def finds(server, *words):
    """The same of a server of this machine."""
    return subprocess.run([HEALTH, f"http://127.0.0.1:{server.port}", *words]).returncode == 0


def try_health(program, folder):
    """A server of this machine whose disk is full, whose journal is taken away, and that is ended."""
    journal = folder / "probed"
    probe = campaign(seat="probe", bid="0.01", budget="1", target='[[{"attr":"domain","in":["nobody.invalid"]}]]')
    with running(program, journal, workers=4) as server:
        CHECKS.same("no campaign", (finds(server), finds(server, "1")), (True, False))
        with server.link() as link:
            link.send(post("/campaign", probe))
            CHECKS.same("one that nobody meets", link.answer(), new(1))
        before = journal.stat().st_size
        CHECKS.same("well, and well again", (finds(server, "1"), finds(server, "1"), finds(server)), (True, True, True))
        CHECKS.same("what that takes", journal.stat().st_size - before, 2 * WRITE)
        pid, none = server.process.pid, resource.RLIM_INFINITY
        resource.prlimit(pid, resource.RLIMIT_FSIZE, (journal.stat().st_size, none))
        CHECKS.same("a full disk, before it has to write", finds(server), True)
        CHECKS.same("a full disk", (finds(server, "1"), finds(server)), (False, False))
        resource.prlimit(pid, resource.RLIMIT_FSIZE, (none, none))
        CHECKS.same("room again", (finds(server, "1"), finds(server)), (True, True))
        journal.rename(folder / "taken away")
        CHECKS.same("a journal that was taken away, before it has to write", finds(server), True)
        CHECKS.same("a journal that was taken away", finds(server, "1"), False)
        server.process.send_signal(signal.SIGSTOP)
        CHECKS.same("a server that stands still", finds(server, "1"), False)
        server.kill()
        CHECKS.same("a server that has ended", (finds(server), finds(server, "1")), (False, False))


# What systemd does with packaging/rtbx-standby.service, as far as a host here needs it.
SERVICE = """while :; do {words} & echo $! > {note}; wait $!; sleep 0.2; done"""


class Candidate:
    """A host with a server that stands by and is started again behind each end, and keepalived by examples/keepalived.conf."""

    def __init__(self, program, volume, host):
        self.host = host
        volume.mount_at(host)
        files = host.home / "files"
        note, self.command, self.restarts = files / "service", files / "restart", files / "restarts"
        words = standby_words(program, f"{host.mount}/{NAME}")
        self.command.write_text(f"#!/bin/sh\necho again >> {self.restarts}\nkill -9 $(cat {note})\n")
        self.command.chmod(0o755)
        self.restarts.write_text("")
        with open(files / f"service-{time.time_ns()}", "w") as log:
            loop = SERVICE.format(words=" ".join(map(str, words)), note=note)
            self.service = host.start("sh", "-c", loop, stdout=log, stderr=log)
            command = ["keepalived", "--dont-fork", "--log-console", "--use-file", self.configured(files, self.command)]
            self.address = host.start(*command, stdout=log, stderr=log)

    @staticmethod
    def configured(files, restart):
        """The example's file, changed in what it says to change, and in what a host here has no systemd for."""
        text = (TOP / "examples" / "keepalived.conf").read_text()
        for old, now in [
            ("/usr/local/bin/rtbx-health http://127.0.0.1:8080 1", f"{HEALTH} http://127.0.0.1:8080 {PROBE}"),
            ("/usr/bin/systemctl restart rtbx-standby", str(restart)),
            ("10.77.7.100", SHARED),
            ("script_user nobody", "script_user root"),
        ]:
            text = text.replace(old, now)
        (files / "keepalived.conf").write_text(text)
        return files / "keepalived.conf"

    def restart(self):
        self.host.run(self.command)

    def has_address(self):
        return f" {SHARED}/" in self.host.run("ip", "-o", "address", "show", "dev", "eth0").stdout

    def gets_address(self, since, limit=40):
        got = until(self.has_address, limit, 0.1)
        holds(got, f"{self.host.name} has the address {time.time() - since:.1f} s later")


def try_address(program, volume):
    """keepalived moves the address behind a loss of power, and behind a cut."""
    if shutil.which("keepalived") is None:
        say("left out, for want of keepalived: address")
        return
    one, two, _ = volume.hosts
    server, made = begin(program, volume, one)
    made.stop()
    server.kill()
    one.gives_address()
    began = time.time()
    first = Candidate(program, volume, one)
    first.gets_address(began)
    second = Candidate(program, volume, two)
    client = Client(volume.folder, SHARED, "address")
    holds(client.first(began), f"{one.name} sells: {client.told()}")
    killed = time.time()
    first.restart()
    holds(client.first(killed), f"started again, its first answer comes after {client.first(killed) or 0:.2f} s")
    time.sleep(3)
    holds(first.has_address() and client.first(time.time()), "and the other host leaves it the lock and the address")
    lost = one.lose()
    second.gets_address(lost)
    holds(client.first(lost), f"the client's first answer comes {client.first(lost) or 0:.1f} s after the loss of power")
    volume.boot(one)
    volume.is_whole()
    first = Candidate(program, volume, one)
    time.sleep(5)
    holds(second.has_address() and not first.has_address(), "the host that is back leaves it where it is")
    cut = time.time()
    two.cut()
    first.gets_address(cut)
    holds(client.first(cut), f"the client's first answer comes {client.first(cut) or 0:.1f} s after the cut")
    gone = until(lambda: not second.has_address(), 20, 0.1)
    holds(gone, f"the host that was cut off has given the address up {time.time() - cut:.1f} s after the cut")
    two.join()
    time.sleep(5)
    holds(first.has_address() and not second.has_address(), "and takes it no more when its link is back")
    ends = second.restarts.read_text().count("again")
    holds(ends, f"its server was ended and stands by again: {ends} times, the one that stood by first: {first.restarts.read_text().count('again')}")
    client.stop()
    for host in [one, two]:
        host.lose()
        volume.boot(host)
    holds(volume.is_whole(), "all hosts are there again")
    volume.mount_at(one)
    over(program, volume, one, [], [made, client])
