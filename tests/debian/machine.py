"""A machine with Debian and its systemd, in namespaces of its own over an overlay: nothing of it stays."""

import os
import shutil
import signal
import subprocess
import tempfile
import time
from pathlib import Path

from serving.checks import LIMIT, Stopped

WANTED = ["systemd", "systemd-sysv", "dbus", "adduser", "curl", "python3"]
CGROUPS = Path("/sys/fs/cgroup")
# Run as the first process of the namespaces: mounts what systemd wants, makes the overlay the root, and becomes systemd.
BOOT = """
set -eu
root=$1/root
mount --make-rprivate /
mount -t overlay overlay -o "lowerdir=$2,upperdir=$1/upper,workdir=$1/work" "$root"
mount -t proc proc "$root/proc"
mount -t sysfs sysfs "$root/sys"
mount -t tmpfs tmpfs "$root/dev"
for it in null zero full random urandom tty; do touch "$root/dev/$it"; mount --bind "/dev/$it" "$root/dev/$it"; done
mkdir "$root/dev/pts" "$root/dev/shm"
mount -t devpts -o newinstance,ptmxmode=0666 devpts "$root/dev/pts"
ln -s pts/ptmx "$root/dev/ptmx"
mount -t tmpfs tmpfs "$root/run"
mkdir -p "$root/run/old"
mount -t tmpfs tmpfs "$root/sys/fs/cgroup"
mount -t cgroup2 cgroup2 "$root/sys/fs/cgroup"
ip link set lo up 2>/dev/null || true
cd "$root"
pivot_root . run/old
umount -l /run/old
export container=rtbx
exec /lib/systemd/systemd --system --log-target=null
"""


def missing():
    """What such a machine needs and is not here."""
    found = [] if os.getuid() == 0 else ["root"]
    found += [it for it in ["unshare", "nsenter", "pivot_root", "dpkg-deb"] if shutil.which(it, path=os.environ["PATH"] + ":/sbin:/usr/sbin") is None]
    kinds = Path("/proc/filesystems").read_text().split()
    return found + [it for it in ["overlay", "cgroup2"] if it not in kinds]


def debian(folder):
    """A Debian in the folder: that which is there, or one that `debootstrap` makes."""
    if (folder / "lib" / "systemd" / "systemd").exists():
        return folder
    if shutil.which("debootstrap", path=os.environ["PATH"] + ":/usr/sbin") is None:
        return None
    print(f"makes a Debian in {folder}, once", flush=True)
    made = folder.with_name(folder.name + ".making")
    shutil.rmtree(made, ignore_errors=True)
    words = ["debootstrap", "--variant=minbase", f"--include={','.join(WANTED)}", "bookworm", made, "http://deb.debian.org/debian"]
    if subprocess.run(words, stdout=subprocess.DEVNULL).returncode != 0:
        return None
    made.rename(folder)
    return folder


def group_of_its_own():
    """A control group for a machine, in whatever place the unified ones are mounted."""
    top = next((it for it in [CGROUPS / "unified", CGROUPS] if (it / "cgroup.procs").exists()), None)
    if top is None:
        raise Stopped("there are no unified control groups")
    return Path(tempfile.mkdtemp(prefix="rtbx_machine.", dir=top))


class Machine:
    def __init__(self, base):
        self.folder = Path(tempfile.mkdtemp(prefix="rtbx_machine."))
        for name in ["root", "upper", "work"]:
            (self.folder / name).mkdir()
        self.group = group_of_its_own()
        enter = f"echo $$ > {self.group}/cgroup.procs; exec \"$@\""
        spaces = ["unshare", "--mount", "--pid", "--uts", "--ipc", "--net", "--cgroup", "--fork", "--kill-child"]
        words = ["sh", "-c", enter, "sh", *spaces, "sh", "-c", BOOT, "boot", self.folder, base]
        self.process = subprocess.Popen(words, stdin=subprocess.DEVNULL, start_new_session=True)
        self.init = None
        self.await_boot()

    def await_boot(self):
        until = time.monotonic() + 3 * LIMIT
        while time.monotonic() < until and self.process.poll() is None:
            told = Path(f"/proc/{self.process.pid}/task/{self.process.pid}/children").read_text().split()
            if told:
                self.init = told[0]
                if self.run("systemctl is-system-running")[1].strip() in ["running", "degraded"]:
                    return
            time.sleep(0.3)
        self.end()
        raise Stopped("systemd does not boot")

    def run(self, line, limit=4 * LIMIT, **env):
        """What a line of the shell ends with in the machine, and what it prints on both."""
        path = "/usr/local/sbin:/usr/local/bin:/usr/sbin:/usr/bin:/sbin:/bin"
        given = {"PATH": path, "LANG": "C", "container": "rtbx", **env}
        words = ["nsenter", "-t", self.init, "-m", "-u", "-i", "-n", "-p", "-C", "--", "/bin/sh", "-c", line]
        done = subprocess.run(words, env=given, stdin=subprocess.DEVNULL, stdout=subprocess.PIPE, stderr=subprocess.STDOUT, text=True, timeout=limit)
        return done.returncode, done.stdout

    def path(self, name):
        """A file of the machine, as this process sees it."""
        return Path(f"/proc/{self.init}/root{name}")

    def end(self):
        """Ends the first process, and so all."""
        if self.init:
            try:
                os.kill(int(self.init), signal.SIGKILL)
            except ProcessLookupError:
                pass
        self.process.kill()
        self.process.wait(LIMIT)
        until = time.monotonic() + LIMIT
        while time.monotonic() < until:
            try:
                for inner in sorted(self.group.rglob("*/"), reverse=True):
                    if inner.is_dir():
                        inner.rmdir()
                self.group.rmdir()
                break
            except OSError:
                time.sleep(0.2)
        shutil.rmtree(self.folder, ignore_errors=True)

    def __enter__(self):
        return self

    def __exit__(self, *_):
        self.end()
