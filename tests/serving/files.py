"""The file of a journal: it is opened once, what others do to it is seen before a sale is answered, and causes are told."""

import os
import re
import select
import shutil
import threading
import time

from serving.checks import CHECKS, LIMIT
from serving.compactions import compact_words
from serving.messages import A, SELL, error, get, new, post, report
from serving.program import counts, ended, free_port, recovered, running, serve_words

NO_JOURNAL = (4, b"rtbx: cannot open journal\n")
FAILED = error(500, "store-failed")


def try_descriptor(program, folder):
    """The journal is opened once to be written, and that descriptor is locked and written, as strace tells."""
    if shutil.which("strace") is None:
        print("descriptor: left out, since there is no strace")
        return
    told, journal = folder / "descriptor.strace", folder / "descriptor"
    under = ["strace", "-f", "-y", "-o", told, "-e", "trace=open,openat,flock,pwrite64,writev"]
    with running(program, journal, under=under) as server, server.link() as link:
        link.send(post("/campaign", A))
        CHECKS.same("a campaign", link.answer(), new(1))
        link.send(SELL)
        CHECKS.holds("a sale", link.answer().startswith(b"HTTP/1.1 200"))
    text = told.read_text()
    name = re.escape(os.path.realpath(journal))
    opened = re.findall(rf'open(?:at)?\(.*"{re.escape(str(journal))}", (\S+?)(?:, 0\d+)?\) = (\d+)', text)
    CHECKS.same("it is opened once", [how for how, _ in opened], ["O_RDWR|O_CREAT|O_NOCTTY|O_CLOEXEC"])
    locked = re.findall(rf"flock\((\d+)<{name}>, LOCK_EX\|LOCK_NB\) = 0", text)
    written = set(re.findall(rf"(?:pwrite64|writev)\((\d+)<{name}>", text))
    descriptors = [number for _, number in opened]
    CHECKS.same("that descriptor is locked", locked, descriptors)
    CHECKS.same("and no other is written", sorted(written), descriptors)


def delete(journal, folder):
    journal.unlink()


def rename(journal, folder):
    journal.rename(folder / "taken.old")


def replace(journal, folder):
    """As a log is turned: the old one is renamed, and a new one stands in its place."""
    shutil.copyfile(journal, folder / "taken.copy")
    journal.rename(folder / "taken.old")
    (folder / "taken.copy").rename(journal)


def truncate(journal, folder):
    os.truncate(journal, 9)


def overwrite(journal, folder):
    journal.write_bytes(b"another file\n")


def lengthen(journal, folder):
    with journal.open("ab") as file:
        file.write(b"\0" * 4096)


MISSING = b"No such file or directory"
OTHER = b"another file has the journal's name"
LENGTH = b"others made the journal longer or shorter"
HARMS = [(delete, MISSING), (rename, MISSING), (replace, OTHER), (truncate, LENGTH), (overwrite, LENGTH), (lengthen, LENGTH)]


class Load:
    """Sales over two links, one after the other on each, with the moment when each was sent."""

    def __init__(self, server):
        self.stop = threading.Event()
        self.told = []
        self.threads = [threading.Thread(target=self.sell, args=(server.link(),)) for _ in range(2)]
        for thread in self.threads:
            thread.start()

    def sell(self, link):
        with link:
            while not self.stop.is_set() and not link.ended:
                at = time.monotonic()
                link.send(SELL)
                self.told.append((at, link.answer()))

    def wait(self, test):
        """Until an answer is as wanted, or the limit is over."""
        until = time.monotonic() + LIMIT
        seen = len(self.told)
        while time.monotonic() < until and not any(test(it) for _, it in self.told[seen:]):
            time.sleep(0.01)

    def end(self):
        self.stop.set()
        for thread in self.threads:
            thread.join(LIMIT)


def sold(answer):
    return answer.startswith(b"HTTP/1.1 200 ")


def lines_of(server, limit=2.0):
    """What the server said on standard error so far, once it says something or the limit is over."""
    said = b""
    while select.select([server.process.stderr], [], [], limit)[0]:
        piece = os.read(server.process.stderr.fileno(), 65536)
        if not piece:
            break
        said, limit = said + piece, 0.2
    return said.splitlines()


def try_taken(program, folder):
    """Behind a journal that others took away, no sale that is sent then is answered; and it is told once, and why."""
    for harm, why in HARMS:
        place = folder / f"taken.{harm.__name__}"
        place.mkdir()
        harmed(program, place, harm, why)


def harmed(program, folder, harm, why):
    name, journal = harm.__name__, folder / "journal"
    with running(program, journal, workers=3) as server, server.link() as link:
        link.send(post("/campaign", A.replace('"budget":10', '"budget":100000')))
        CHECKS.same(f"{name}: a campaign", link.answer(), new(1))
        load = Load(server)
        load.wait(sold)
        harm(journal, folder)
        at = time.monotonic()
        load.wait(lambda it: it == FAILED)
        time.sleep(0.2)
        load.end()
        CHECKS.holds(f"{name}: sales before", any(sold(it) for sent, it in load.told if sent < at))
        CHECKS.same(f"{name}: answers behind it", {it for sent, it in load.told if sent > at}, {FAILED})
        lines = lines_of(server)
        CHECKS.holds(f"{name}: standard error says why, once: {lines}", len(lines) == 1 and why in lines[0])
        if harm is rename:
            mended(program, server, link, journal, folder, len(load.told))


def mended(program, server, link, journal, folder, count):
    """The journal has its name again: what failed is written, and sales are answered."""
    (folder / "taken.old").rename(journal)
    for step in range(2):
        link.send(SELL)
        CHECKS.holds(f"mended: sale {step}", sold(link.answer()))
    lines = lines_of(server)
    CHECKS.holds(f"mended: it is told: {lines}", len(lines) == 1 and b"it is written again" in lines[0])
    status, line, _ = ended([program, "recover", "--journal", journal])
    found = re.match(rb"campaigns=1 live=1 sales=(\d+) ", line)
    CHECKS.holds(f"mended: {line} of {count} asked before", status == 0 and found and int(found[1]) <= count + 2)


def try_existing(program, folder):
    """A journal that has to be there: none is made, and one of no length is left as it is."""
    place = folder / "existing"
    place.mkdir()
    journal = place / "journal"
    words = [*serve_words(program, journal, free_port()), "--existing"]
    refused("no journal", words, MISSING)
    refused("compact of no journal", compact_words(program, journal, place / "new"), MISSING)
    CHECKS.same("nothing was made", list(place.iterdir()), [])
    journal.touch()
    refused("an empty journal", words, b"the journal is empty")
    refused("compact of an empty journal", compact_words(program, journal, place / "new"), b"the journal is empty")
    CHECKS.same("it is left empty", (list(place.iterdir()), journal.stat().st_size), ([journal], 0))
    with running(program, journal) as server, server.link() as link:
        link.send(post("/campaign", A))
        CHECKS.same("a campaign", link.answer(), new(1))
    with running(program, journal, more=["--existing"]) as server, server.link() as link:
        link.send(get("/campaign/1"))
        CHECKS.same("a journal that is there is served", link.answer(), report(1))
    CHECKS.same("and is as it was", recovered(program, journal), counts(campaigns=1, live=1))


def refused(step, command, why):
    """The command ends with status 4, and says why on standard error."""
    status, out, errors = ended(command)
    CHECKS.same(step, (status, out), NO_JOURNAL)
    CHECKS.holds(f"{step}: standard error says why: {errors!r}", why in errors and errors.count(b"\n") == 1)


def try_causes(program, folder):
    """Why a journal is not opened, and why an address is not listened at, is said on standard error."""
    refused("no folder", serve_words(program, folder / "none" / "journal", free_port()), MISSING)
    refused("recover of no file", [program, "recover", "--journal", folder / "none"], MISSING)
    journal = folder / "causes"
    with running(program, journal) as server:
        status, out, errors = ended(serve_words(program, folder / "causes.other", server.port))
    CHECKS.same("an address that is taken", (status, out), (3, b"rtbx: cannot listen\n"))
    CHECKS.holds(f"an address that is taken: why: {errors!r}", f"rtbx: 127.0.0.1:{server.port}: Address".encode() in errors)
    words = serve_words(program, folder / "causes.other", free_port())
    words[3] = "192.0.2.1:80"
    status, out, errors = ended(words)
    CHECKS.same("an address of another host", (status, out), (3, b"rtbx: cannot listen\n"))
    CHECKS.holds(f"an address of another host: why: {errors!r}", errors.startswith(b"rtbx: 192.0.2.1:80: "))
