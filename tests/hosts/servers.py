"""The exchange on a host, and one that stands by."""

import os
import re
import select
import subprocess
import sys
import time
from pathlib import Path

from hosts.machines import SHARED, child_of, holds, until
from hosts.sales import PORT, Client, asked, compare, post_campaigns
from serving.checks import Stopped

PACKAGING = Path(__file__).resolve().parent.parent.parent / "packaging"
# What an operator writes into /etc/default/rtbx.
OPTIONS = {"RTBX_LISTEN": f"0.0.0.0:{PORT}", "RTBX_PUBLIC": f"http://{SHARED}:{PORT}", "RTBX_WORKERS": "16"}
NAME = "exchange"


def standby_words(program, path):
    """The command of packaging/rtbx-standby.service, with the options and with this program and journal in its places."""
    unit = (PACKAGING / "rtbx-standby.service").read_text()
    command = re.search(r"(?m)^ExecStart=(.*)$", unit)[1]
    for name, value in (dict(re.findall(r"(?m)^Environment=(\w+)=(.*)$", unit)) | OPTIONS).items():
        command = command.replace(f"${{{name}}}", value)
    for place, here in [
        ("/usr/lib/rtbx/rtbx-standby", PACKAGING / "rtbx-standby"),
        ("/var/lib/rtbx/journal", path),
        ("/usr/bin/rtbx", program),
    ]:
        command = command.replace(place, str(here))
    return command.split()


def serve_words(program, path):
    """The same without the wait, over a journal that may be missing."""
    words = standby_words(program, path)
    return [it for it in words[2:] if it != "--existing"]


class Server:
    """A server that was started on a host. Its journal lies on the volume, if no other path is given."""

    def __init__(self, host, program, path=None, stands_by=False):
        self.host, self.path = host, path or f"{host.mount}/{NAME}"
        words = standby_words(program, self.path) if stands_by else serve_words(program, self.path)
        self.errors = host.home / "files" / f"errors-{time.time_ns()}"
        with open(self.errors, "w") as errors:
            self.process = host.start(*words, stdout=subprocess.PIPE, stderr=errors)

    def serves(self, limit=100):
        """Whether it serves within the limit."""
        out = self.process.stdout
        return bool(select.select([out], [], [], limit)[0]) and out.readline().startswith("serving")

    def kill(self):
        """Ends it at once, where its host is there."""
        if self.process.poll() is None and self.host.first:
            try:
                os.kill(child_of(self.process.pid), 9)
            except (OSError, IndexError):
                pass
        try:
            self.process.wait(10)
        except subprocess.TimeoutExpired:
            self.process.kill()

    def is_alive(self):
        return self.process.poll() is None


def standby(host, program, since, limit=60):
    """A server that serves once it may, started as often as a service would: what stands by, and how long that took since a
    moment.
    """
    while time.time() - since < limit:
        server = Server(host, program, stands_by=True)
        if server.serves(limit):
            waited = server.errors.read_text().strip().replace("\n", "; ")
            holds(True, f"{host.name} serves {time.time() - since:.1f} s later ({waited or 'nothing was waited for'})")
            return server
        server.kill()
    holds(False, f"{host.name} serves")
    raise Stopped


def begin(program, volume, host, enough=50):
    """A new journal on the volume, a server over it that has the address, campaigns, and a client outside that has sold
    something.
    """
    for it in volume.hosts:
        volume.unmount_at(it)
    volume.mount_at(host)
    host.run("rm", "-f", f"{host.mount}/{NAME}")
    server = Server(host, program)
    if not holds(server.serves(), f"{host.name} serves"):
        raise Stopped
    host.takes_address()
    post_campaigns(SHARED)
    client = Client(volume.folder, SHARED, f"out-{time.time_ns()}")
    until(lambda: len(client.sold()) >= enough, 30, 0.2)
    holds(client.sold(), f"{host.name} sells: {client.told()}")
    return server, client


def asked_on(host, method, target):
    """What the host's own server answers, in words."""
    code = f"import sys; sys.path.insert(0, {str(Path(__file__).resolve().parent.parent)!r})\nfrom hosts.sales import asked\n"
    done = host.run(sys.executable, "-B", "-c", f"{code}print(*asked('127.0.0.1', '{method}', '{target}'))", fail=False)
    return done.stdout.strip() or (done.stderr.strip().splitlines() or ["nothing"])[-1]


def bills(client, count=25):
    """Notices of some answered sales find them."""
    sold = client.sold()
    wrong = []
    for line in sold[:: max(1, len(sold) // count)] + sold[-3:]:
        told = asked(SHARED, "GET", f"/bill/{line['sale']}")
        if told != (200, f'{{"sale":{line["sale"]},"state":"billed"}}'):
            wrong.append((line["sale"], told))
    holds(not wrong, f"notices of answered sales find them: {wrong[:3]}")


def over(program, volume, host, servers, clients):
    """Ends all, waits for the heal, and compares the journal that the host sees with the answers, and the bricks with each
    other.
    """
    for it in [*clients, *servers]:
        it.stop() if isinstance(it, Client) else it.kill()
    holds(volume.is_whole(), "all bricks are online")
    took = volume.heal()
    holds(took is not None, f"all bricks are healed {took or 0:.1f} s later")
    path = f"{host.mount}/{NAME}"
    data = subprocess.run(host.words("cat", path), capture_output=True).stdout
    state = compare(data, clients)
    done = host.run(program, "recover", "--journal", path, fail=False)
    counted = state is not None and done.returncode == 0 and f" sales={len(state.sales)} " in done.stdout
    holds(counted, f"recover: {done.returncode} {done.stdout.strip()}{done.stderr.strip()}")
    holds(until(lambda: volume.is_one(NAME), 5, 0.3), "the three bricks have the same bytes")
    for it in volume.hosts:
        volume.unmount_at(it)
        it.gives_address()
