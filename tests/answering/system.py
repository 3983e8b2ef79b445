"""What a program meets of the system in place of what is there: a clock that stands where it is set, and calls on
standard input and output that fail or take one byte."""

import mmap
import shutil
import struct
import subprocess

# The clock of the day stands at so many milliseconds since 1970, as a file that is shared says. Reads of standard input
# and writes to standard output fail whose numbers the environment lists, from 1 on, and a slow write takes one byte.
STANDING = r"""
#define _GNU_SOURCE
#include <dlfcn.h>
#include <errno.h>
#include <fcntl.h>
#include <stdlib.h>
#include <string.h>
#include <sys/mman.h>
#include <sys/syscall.h>
#include <time.h>
#include <unistd.h>

static volatile unsigned long long *moment;
static const char *reads = "", *writes = "";
static int slow, read_calls, write_calls;

__attribute__((constructor)) static void begin(void) {
    const char *path = getenv("RTBX_MOMENT");
    int file = path == NULL ? -1 : open(path, O_RDONLY);
    if (getenv("RTBX_READS")) reads = getenv("RTBX_READS");
    if (getenv("RTBX_WRITES")) writes = getenv("RTBX_WRITES");
    slow = getenv("RTBX_SLOW") != NULL;
    if (file < 0) return;
    void *at = mmap(NULL, sizeof *moment, PROT_READ, MAP_SHARED, file, 0);
    close(file);
    if (at != MAP_FAILED) moment = at;
}

static int is_listed(const char *list, int number) {
    while (*list) {
        char *end;
        if (strtol(list, &end, 10) == number) return 1;
        if (end == list) return 0;
        list = end;
    }
    return 0;
}

int clock_gettime(clockid_t clock, struct timespec *out) {
    if (moment == NULL || clock != CLOCK_REALTIME) return syscall(SYS_clock_gettime, clock, out);
    out->tv_sec = *moment / 1000;
    out->tv_nsec = *moment % 1000 * 1000000;
    return 0;
}

ssize_t read(int file, void *out, size_t size) {
    if (file == 0 && is_listed(reads, ++read_calls)) {
        errno = EIO;
        return -1;
    }
    return syscall(SYS_read, file, out, size);
}

ssize_t write(int file, const void *from, size_t size) {
    if (file == 1 && is_listed(writes, ++write_calls)) {
        errno = EIO;
        return -1;
    }
    return syscall(SYS_write, file, from, file == 1 && slow && size > 1 ? 1 : size);
}
"""


class System:
    """A library that stands in front of the system, and the moment that it shares with this program."""

    def __init__(self, folder):
        compiler = shutil.which("cc") or shutil.which("gcc")
        source, self.library, self.path = folder / "standing.c", folder / "standing.so", folder / "moment"
        source.write_text(STANDING)
        command = [compiler, "-shared", "-fPIC", "-O1", "-o", self.library, source]
        self.is_there = compiler is not None and subprocess.run(command, capture_output=True).returncode == 0
        self.path.write_bytes(bytes(mmap.PAGESIZE))
        self.file = open(self.path, "r+b")
        self.shared = mmap.mmap(self.file.fileno(), mmap.PAGESIZE)

    def env(self, **more):
        """The environment of a program; `more` are the names of the library, as `writes` for RTBX_WRITES."""
        return {"LD_PRELOAD": str(self.library), **{f"RTBX_{name.upper()}": value for name, value in more.items()}}

    def clock(self):
        """The environment of a program whose clock stands at the moment that is set."""
        return self.env(moment=str(self.path))

    def stand_at(self, moment):
        self.shared[:8] = struct.pack("=Q", moment)
