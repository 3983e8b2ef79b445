"""Hosts on one machine: each has a network, mounts, processes and a name of its own, and a link to a switch, which is a
bridge. All lie in spaces of the test's own, so that the system ends and removes them with the test, however that ends.
"""

import os
import shutil
import signal
import subprocess
import sys
import time
from pathlib import Path

from serving.checks import CHECKS

NET = "10.77.7."
# Where the test itself stands, and the address that is taken over.
OUTSIDE, SHARED = NET + "254", NET + "100"
NUMBERS = (1, 2, 3)
TOOLS = ["ip", "unshare", "nsenter", "setpriv", "mount", "curl", "flock", "glusterd", "gluster", "glusterfs"]
BEGAN = time.monotonic()


def say(text):
    print(f"{time.monotonic() - BEGAN:7.1f} {text}", flush=True)


def holds(fact, text):
    """Counts a check and tells it, with its figures, whether it held or not."""
    if CHECKS.holds(text, fact):
        say(f"{CHECKS.part}: {text}")
    return bool(fact)


def until(what, limit, every=0.05):
    """What comes, once it is something, or nothing within the limit."""
    end = time.monotonic() + limit
    while time.monotonic() < end:
        got = what()
        if got:
            return got
        time.sleep(every)
    return None


def called(*words, fail=True, limit=60):
    words = [str(it) for it in words]
    done = subprocess.run(words, stdin=subprocess.DEVNULL, capture_output=True, text=True, errors="replace", timeout=limit)
    if fail and done.returncode:
        raise OSError(f"{' '.join(words)}: {done.returncode}: {done.stdout}{done.stderr}")
    return done


def missing():
    """What this machine lacks for hosts and a volume, in words."""
    if os.geteuid() != 0:
        return ["the rights of the superuser"]
    path = f"{os.environ['PATH']}:/usr/sbin:/sbin"
    lacks = [it for it in TOOLS if shutil.which(it, path=path) is None]
    if not Path("/dev/fuse").exists():
        lacks.append("/dev/fuse")
    if not lacks and called("unshare", "--net", "--mount", "--pid", "--fork", "true", fail=False).returncode:
        lacks.append("spaces (unshare is refused)")
    return lacks


def in_spaces(words):
    """Runs the words where they have networks, mounts and processes of their own, which end with them, and with this
    process.
    """
    spaces = ["unshare", "--net", "--mount", "--pid", "--fork", "--kill-child", "--mount-proc"]
    process = subprocess.Popen(["setpriv", "--pdeathsig", "KILL", *spaces, *map(str, words)])
    try:
        return process.wait()
    finally:
        process.kill()
        process.wait()


def child_of(pid):
    return int(Path(f"/proc/{pid}/task/{pid}/children").read_text().split()[0])


class Host:
    """One machine. What its disk keeps lies in its folder, and outlives a loss of power."""

    def __init__(self, number, folder):
        self.name, self.address = f"h{number}", f"{NET}{number}"
        self.home = folder / self.name
        self.mount = "/run/journal"
        self.process = self.first = None
        for part in ["lib", "log", "brick", "files"]:
            (self.home / part).mkdir(parents=True)
        names = "".join(f"{NET}{n} h{n}\n" for n in NUMBERS)
        (self.home / "hosts").write_text(f"127.0.0.1 localhost\n{names}")

    def boot(self, files):
        """Power on: spaces of its own, with these files in the place of the machine's, and a link to the switch."""
        places = {"hosts": "/etc/hosts", "lib": "/var/lib/glusterd", "log": "/var/log/glusterfs"}
        binds = [f"mount --bind {self.home}/{it} {place}" for it, place in places.items()]
        binds += [f"mount --bind {it} {place}" for place, it in files.items()]
        script = "\n".join(["set -e", f"hostname {self.name}", *binds, "mount -t tmpfs tmpfs /run",
                            f"mkdir -p /run/gluster /run/lock {self.mount}", "echo ready", "set +e", "while :; do sleep 0.5; done"])
        spaces = ["unshare", "--net", "--mount", "--pid", "--uts", "--fork", "--kill-child", "--mount-proc"]
        self.process = subprocess.Popen([*spaces, "sh", "-c", script], stdout=subprocess.PIPE, stderr=subprocess.STDOUT, text=True)
        line = self.process.stdout.readline()
        if line != "ready\n":
            raise OSError(f"{self.name}: {line}{self.process.stdout.read()}")
        self.first = child_of(self.process.pid)
        called("ip", "link", "add", self.name, "type", "veth", "peer", "name", "eth0", "netns", self.first)
        called("ip", "link", "set", self.name, "master", "switch", "up")
        self.run("ip", "address", "add", f"{self.address}/24", "dev", "eth0")
        for link in ["lo", "eth0"]:
            self.run("ip", "link", "set", link, "up")

    def words(self, *words):
        return ["nsenter", "-t", str(self.first), "-m", "-n", "-p", "-u", "--", *map(str, words)]

    def run(self, *words, **more):
        return called(*self.words(*words), **more)

    def start(self, *words, **more):
        return subprocess.Popen(self.words(*words), text=True, **more)

    def cut(self):
        """Off the switch, with everything on it alive."""
        called("ip", "link", "set", self.name, "nomaster")

    def join(self):
        called("ip", "link", "set", self.name, "master", "switch")

    def lose(self):
        """Power off: the link first, so that nobody sees anything of the end, then all processes at once. Gives the moment."""
        called("ip", "link", "set", self.name, "down")
        when = time.time()
        os.kill(self.first, signal.SIGKILL)
        self.process.wait()
        self.process.stdout.close()
        self.first = None
        called("ip", "link", "delete", self.name, fail=False)
        return when

    def takes_address(self):
        self.run("ip", "address", "add", f"{SHARED}/24", "dev", "eth0", fail=False)
        self.run(sys.executable, Path(__file__).with_name("announce.py"), SHARED)

    def gives_address(self):
        self.run("ip", "address", "del", f"{SHARED}/24", "dev", "eth0", fail=False)


def switch():
    """The bridge between all hosts, and the test's own place on it."""
    called("ip", "link", "add", "switch", "type", "bridge")
    called("ip", "address", "add", f"{OUTSIDE}/24", "dev", "switch")
    for link in ["lo", "switch"]:
        called("ip", "link", "set", link, "up")
