"""A GlusterFS volume of three replicas, a brick on each host, with the options of examples/."""

import hashlib
import re
import shutil
import time
from concurrent.futures import ThreadPoolExecutor
from pathlib import Path

from hosts.machines import NUMBERS, Host, say, switch, until

EXAMPLES = Path(__file__).resolve().parent.parent.parent / "examples"
NAME = "journal"
# A standby sees length and bytes as they are, since its system keeps none of them.
MOUNT = "attribute-timeout=0,entry-timeout=0,direct-io-mode=enable"
# GlusterFS' copies to another continent are no part of this, and the daemon's start is a twentieth as long without them.
NO_COPIES = "#!/bin/sh\necho gsyncd 0\n"


class Volume:
    def __init__(self, folder):
        self.folder = folder
        began = time.monotonic()
        self.files = {"/etc/glusterfs/glusterd.vol": EXAMPLES / "glusterd.vol"}
        for it in [*Path("/usr/lib").glob("*/glusterfs/gsyncd"), *Path("/usr/libexec").glob("glusterfs/gsyncd")]:
            self.files[it] = folder / "gsyncd"
        (folder / "gsyncd").write_text(NO_COPIES)
        (folder / "gsyncd").chmod(0o755)
        switch()
        self.hosts = [Host(n, folder) for n in NUMBERS]
        for host in self.hosts:
            (host.home / "lib" / "groups").mkdir()
            shutil.copyfile(EXAMPLES / "glusterfs.group", host.home / "lib" / "groups" / "rtbx")
        with ThreadPoolExecutor() as pool:
            list(pool.map(self.boot, self.hosts))
        self.create()
        say(f"three hosts, and a volume of three bricks, in {time.monotonic() - began:.1f} s")

    def boot(self, host):
        """Power on, and the daemon, which starts the brick."""
        host.boot(self.files)
        host.run("glusterd", limit=150)

    def restart(self):
        """Ends all that runs on the hosts, and starts them again."""
        for host in self.hosts:
            if host.first:
                host.lose()
            self.boot(host)
        self.is_whole()

    def up(self):
        return next(host for host in self.hosts if host.first)

    def gluster(self, *words, host=None, fail=True):
        return (host or self.up()).run("gluster", "--mode=script", *words, fail=fail)

    def create(self):
        for host in self.hosts[1:]:
            if not until(lambda: self.gluster("peer", "probe", host.address, fail=False).returncode == 0, 30, 0.5):
                raise OSError(f"{host.name} is no peer")
        until(lambda: self.gluster("pool", "list").stdout.count("Connected") == 3, 30, 0.2)
        bricks = [f"{it.address}:{it.home / 'brick'}" for it in self.hosts]
        made = lambda: self.gluster("volume", "create", NAME, "replica", "3", *bricks, "force", fail=False).returncode == 0
        if not until(made, 20, 1):
            raise OSError("the volume is not made")
        self.gluster("volume", "set", NAME, "group", "rtbx")
        self.gluster("volume", "start", NAME)
        if not self.is_whole():
            raise OSError("no three bricks: " + self.gluster("volume", "status", NAME).stdout)

    def is_whole(self, limit=40):
        """Whether all bricks are online within the limit."""
        told = lambda: self.gluster("volume", "status", NAME, "detail", fail=False).stdout
        return until(lambda: len(re.findall(r"(?m)^Online +: Y", told())) == 3, limit, 0.3)

    def mount_at(self, host):
        if host.run("mountpoint", "-q", host.mount, fail=False).returncode:
            host.run("mount", "-t", "glusterfs", "-o", MOUNT, f"{host.address}:/{NAME}", host.mount)

    def unmount_at(self, host):
        if host.first:
            host.run("umount", "-l", host.mount, fail=False)

    def reached_from(self, host):
        """How many bricks the host's mount says that it is connected to."""
        told = host.run("sh", "-c", f"cat {host.mount}/.meta/graphs/active/{NAME}-client-*/private", fail=False)
        return told.stdout.count("connected = 1")

    def heal(self, limit=60):
        """Waits until no brick lacks anything: how many seconds that took, or none."""
        began = time.monotonic()

        def done():
            told = self.gluster("volume", "heal", NAME, "info", fail=False).stdout
            return told.count("Number of entries: 0") == 3 and told.count("Status: Connected") == 3

        return time.monotonic() - began if until(done, limit, 0.5) else None

    def is_one(self, name):
        """Whether the file has the same bytes on all bricks."""
        return len({hashlib.sha256((it.home / "brick" / name).read_bytes()).digest() for it in self.hosts}) == 1
