"""Want of memory at each number: the Nth piece of memory that the program asks for is refused, for each N."""

import mmap
import shutil
import struct
import subprocess

from serving.checks import CHECKS, LIMIT
from serving.messages import A, B, SELL, error, get, message, new, number, post, report, request, settled, trimmed, won_by_a
from serving.program import Link, counts, ended, free_port, recovered, running, serve_words

# A start or a message asks for fewer pieces of memory than this.
MOST = 4_000

# The number in a file that is shared counts down with each piece of memory, and the one that makes it 0 is refused.
REFUSING = r"""
#define _GNU_SOURCE
#include <errno.h>
#include <fcntl.h>
#include <stddef.h>
#include <stdlib.h>
#include <sys/mman.h>
#include <unistd.h>

extern void *__libc_malloc(size_t), *__libc_calloc(size_t, size_t), *__libc_realloc(void *, size_t), *__libc_memalign(size_t, size_t);
static int *left;

__attribute__((constructor)) static void begin(void) {
    const char *path = getenv("RTBX_MEMORY");
    int file = path == NULL ? -1 : open(path, O_RDWR);
    if (file < 0) return;
    void *at = mmap(NULL, sizeof(int), PROT_READ | PROT_WRITE, MAP_SHARED, file, 0);
    close(file);
    if (at != MAP_FAILED) left = at;
}

static int refused(void) {
    if (left == NULL) return 0;
    int now = __atomic_load_n(left, __ATOMIC_SEQ_CST);
    while (now > 0) {
        if (__atomic_compare_exchange_n(left, &now, now - 1, 0, __ATOMIC_SEQ_CST, __ATOMIC_SEQ_CST)) {
            if (now == 1) errno = ENOMEM;
            return now == 1;
        }
    }
    return 0;
}

void *malloc(size_t size) { return refused() ? NULL : __libc_malloc(size); }
void *calloc(size_t count, size_t size) { return refused() ? NULL : __libc_calloc(count, size); }
void *realloc(void *old, size_t size) { return refused() ? NULL : __libc_realloc(old, size); }
void *aligned_alloc(size_t align, size_t size) { return refused() ? NULL : __libc_memalign(align, size); }
int posix_memalign(void **out, size_t align, size_t size) {
    if (refused()) return ENOMEM;
    *out = __libc_memalign(align, size);
    return *out == NULL ? ENOMEM : 0;
}
"""

# How a program ends for want of memory: in its own hands, or in those of the system that opens a file or a socket.
ENDS = [(9, b"rtbx: memory\n"), (4, b"rtbx: cannot open journal\n"), (3, b"rtbx: cannot listen\n")]
MEMORY = [error(503, "memory"), error(503, "memory", closes=True)]
LATE = [error(503, "memory-late"), error(503, "memory-late", closes=True)]


class Refusals:
    """A library that refuses memory, and the count that it shares with this program."""

    def __init__(self, folder):
        compiler = shutil.which("cc") or shutil.which("gcc")
        source, self.library, self.path = folder / "refusing.c", folder / "refusing.so", folder / "left"
        source.write_text(REFUSING)
        command = [compiler, "-shared", "-fPIC", "-O1", "-o", self.library, source]
        self.is_there = compiler is not None and subprocess.run(command, capture_output=True).returncode == 0
        self.path.write_bytes(bytes(mmap.PAGESIZE))
        self.file = open(self.path, "r+b")
        self.shared = mmap.mmap(self.file.fileno(), mmap.PAGESIZE)

    def env(self):
        return {"LD_PRELOAD": str(self.library), "RTBX_MEMORY": str(self.path)}

    def refuse(self, place):
        """The piece of this number from now on is refused; 0 refuses none."""
        self.shared[:4] = struct.pack("=i", place)

    def left(self):
        """How many pieces are given until one is refused."""
        return struct.unpack("=i", self.shared[:4])[0]

    def came(self):
        """Whether the refusal came."""
        return self.left() == 0


def try_places(refusals, ask):
    """Asks once for each number until one is not reached. Answers how many refusals came."""
    for place in range(1, MOST):
        refusals.refuse(place)
        ask(place)
        came = refusals.came()
        refusals.refuse(0)
        if not came:
            return place - 1
    CHECKS.holds(f"fewer than {MOST} pieces of memory", False)
    return MOST


def try_commands(refusals, program, folder, journal):
    """Commands that end: for want of memory, or with what they answer with all memory, and the journal stays."""
    from_file = journal.read_bytes()
    into = folder / "refused_into"
    for name, words, given in [
        ("recover", ["recover", "--journal", journal], b""),
        ("compact", ["compact", "--journal", journal, "--into", into], b""),
        ("try", ["try", "2.50@news.example", "1.00"], request().encode()),
        ("which", ["which"], b'{"n":1,"assignment":{"os":"iOS"},"expressions":[{"clauses":[[{"attr":"os","in":["iOS"]}]]}]}'),
    ]:
        wanted = ended([program, *words], input=given, stdin=None)
        into.unlink(missing_ok=True)

        def ask(place):
            came = ended([program, *words], input=given, stdin=None, env=refusals.env())
            into.unlink(missing_ok=True)
            if came != wanted:
                CHECKS.holds(f"{name}: the piece {place} refused: {came}", came[:2] in ENDS)

        CHECKS.holds(f"{name}: memory was refused", try_places(refusals, ask) > 0)
    CHECKS.same("the journal is as it was", journal.read_bytes(), from_file)


def try_starts(refusals, program, journal):
    """A start ends for want of memory, or serves."""
    from_file = journal.read_bytes()

    def ask(place):
        command = serve_words(program, journal, free_port(), workers=2)
        given = {"stdin": subprocess.DEVNULL, "stdout": subprocess.PIPE, "stderr": subprocess.PIPE}
        started = subprocess.Popen(command, env=refusals.env(), **given)
        line = started.stdout.readline()
        if line == b"serving with 2 workers\n":
            started.kill()
            started.communicate()
        else:
            started.communicate(timeout=LIMIT)
            CHECKS.holds(f"serve: the piece {place} refused: {line!r}", (started.returncode, line) in ENDS)

    CHECKS.holds("serve: memory was refused", try_places(refusals, ask) > 0)
    CHECKS.same("the journal is as it was", journal.read_bytes(), from_file)


class Told:
    """What the server has done so far, as its answers tell it."""

    def __init__(self):
        self.campaigns, self.sales = 2, 0

    def add(self):
        return post("/campaign", B), new(self.campaigns + 1)

    def sell(self):
        return SELL, won_by_a(self.sales + 1)

    def done(self, kind):
        self.campaigns += kind == "add"
        self.sales += kind == "sell"


def try_messages(refusals, program, journal):
    """Messages, each over a link of its own: answered as with all memory, or told that memory was short, and done just
    where that is told; the answer behind it tells which."""
    told = Told()
    with running(program, journal, workers=2, env=refusals.env()) as server:

        def answered(data):
            with Link(server.port) as link:
                link.send(data)
                return link.answer()

        for data, wanted in [(post("/campaign", A), new(1)), (post("/campaign", B), new(2))]:
            CHECKS.same("a campaign", answered(data), wanted)
        for kind, ask in [("add", told.add), ("sell", told.sell)]:

            def try_one(place):
                data, wanted = ask()
                came = answered(data)
                known = [wanted, *MEMORY, *LATE, b""]
                CHECKS.holds(f"{kind}: the piece {place} refused: {came!r}", came in known)
                if came == wanted or came in LATE:
                    told.done(kind)
                if came == b"":
                    # Nothing was said: the next answer tells whether it was done.
                    again = answered(ask()[0])
                    if again != ask()[1]:
                        told.done(kind)
                    CHECKS.same(f"{kind}: the one behind", again, ask()[1])
                    told.done(kind)

            CHECKS.holds(f"{kind}: memory was refused", try_places(refusals, try_one) > 0)
            CHECKS.same(f"{kind}: the next", answered(ask()[0]), ask()[1])
            told.done(kind)
        for kind, data, wanted in [
            ("pause", post("/pause/2"), number(2)),
            ("resume", post("/resume/2"), number(2)),
            ("change", post("/campaign/2", B), number(2)),
            ("bill", message("POST", "/bill/1"), settled(1, "billed")),
            ("lose", message("GET", "/lose/2"), settled(2, "lost")),
            ("report", get("/campaign/2"), report(2, bid="1")),
            ("forget", post("/forget/0"), trimmed(told.sales - 2, 2)),
            ("no such path", get("/nothing"), error(404, "not-found")),
            ("no JSON", post("/campaign", "{"), error(400, "json-ended", at=1)),
        ]:

            def try_same(place):
                came = answered(data)
                CHECKS.holds(f"{kind}: the piece {place} refused: {came!r}", came in [wanted, *MEMORY, *LATE, b""])

            CHECKS.holds(f"{kind}: memory was refused", try_places(refusals, try_same) > 0)
            CHECKS.same(f"{kind}: the next", answered(data), wanted)
        server.kill()
    wanted = counts(campaigns=told.campaigns, live=told.campaigns, sales=told.sales, held=told.sales - 2, billed=1, lost=1)
    CHECKS.same("recover has what was told", recovered(program, journal), wanted)


def try_memory(program, folder):
    """Want of memory in each command, in a start and in each kind of message."""
    refusals = Refusals(folder)
    if not refusals.is_there:
        print("memory: left out, since there is no compiler")
        return
    journal = folder / "refused"
    try_messages(refusals, program, journal)
    try_starts(refusals, program, journal)
    try_commands(refusals, program, folder, journal)
