"""One writer a journal: the lock of its file, readers beside a server, and names of something else than a file."""

import os
import pwd
import stat

from serving.checks import CHECKS
from serving.compactions import compact_words
from serving.messages import A, get, new, post
from serving.program import counts, ended, free_port, recovered, running, serve_words

NO_JOURNAL = (4, b"rtbx: cannot open journal\n")
TAKEN = b"is open to be written already"


def refused(step, command, why, **more):
    """The command ends with status 4, and says why on standard error."""
    status, out, errors = ended(command, **more)
    CHECKS.same(step, (status, out), NO_JOURNAL)
    CHECKS.holds(f"{step}: standard error says why: {errors!r}", why in errors)


def try_writers(program, folder):
    """A second writer is kept away, and readers are let in."""
    journal, other, target = folder / "writers", folder / "writers.other", folder / "writers.new"
    with running(program, journal) as server, server.link() as link:
        link.send(post("/campaign", A))
        CHECKS.same("a campaign", link.answer(), new(1))
        before = journal.read_bytes()
        refused("a second server", serve_words(program, journal, free_port()), TAKEN)
        os.link(journal, other)
        refused("a second server by another name", serve_words(program, other, free_port()), TAKEN)
        refused("compact of a served journal", compact_words(program, journal, target), TAKEN)
        CHECKS.holds("no new journal is made", not target.exists())
        other.unlink()
        other.write_bytes(before)
        refused("compact into a served journal", compact_words(program, other, journal), TAKEN)
        os.link(other, target)
        refused("compact of a journal into itself", compact_words(program, other, target), TAKEN)
        CHECKS.same("both are as they were", (journal.read_bytes(), other.read_bytes()), (before, before))
        CHECKS.same("recover beside the server", recovered(program, journal), counts(campaigns=1, live=1))
        CHECKS.same("the journal is as it was", journal.read_bytes(), before)
        link.send(get("/campaign/1"))
        CHECKS.holds("the server serves on", link.answer().startswith(b"HTTP/1.1 200"))
    with running(program, journal) as server, server.link() as link:
        link.send(get("/campaign/1"))
        CHECKS.holds("a killed server leaves no lock", link.answer().startswith(b"HTTP/1.1 200"))
    missing(program, folder / "writers.missing")
    no_files(program, folder)
    read_only(program, journal)


def missing(program, journal):
    """Who reads alone makes no file."""
    CHECKS.same("recover of no file", ended([program, "recover", "--journal", journal])[:2], NO_JOURNAL)
    CHECKS.holds("no file was made", not journal.exists())


def no_files(program, folder):
    """A folder, a pipe and a device are no journals, and nobody waits at them."""
    pipe = folder / "writers.pipe"
    os.mkfifo(pipe)
    for name in [folder, pipe, "/dev/null"]:
        for command in [
            serve_words(program, name, free_port()),
            [program, "recover", "--journal", name],
            [program, "follow", "--listen", f"127.0.0.1:{free_port()}", "--journal", name],
            compact_words(program, name, folder / "writers.new"),
        ]:
            refused(f"{command[1]}: {name}", command, b"is no file")
    pipe.unlink()


def read_only(program, journal):
    """A file that may be read alone, in a folder in which none may be made: it is told and not served. The superuser may
    write any file, so the commands run as nobody where the tests run as the superuser.
    """
    nobody = {"user": pwd.getpwnam("nobody").pw_uid} if os.geteuid() == 0 else {}
    folder = journal.parent / "writers.folder"
    folder.mkdir()
    copy = folder / "journal"
    copy.write_bytes(journal.read_bytes())
    copy.chmod(stat.S_IRUSR | stat.S_IRGRP | stat.S_IROTH)
    folder.chmod(0o555)
    reached = journal.parent.stat().st_mode
    journal.parent.chmod(reached | stat.S_IXGRP | stat.S_IXOTH)
    if ended([program, "--version"], **nobody)[0] == 0:
        CHECKS.same("recover of a file to be read alone", ended([program, "recover", "--journal", copy], **nobody), counts(campaigns=1, live=1))
        CHECKS.same("serve of a file to be read alone", ended(serve_words(program, copy, free_port()), **nobody)[:2], NO_JOURNAL)
        CHECKS.same("serve in a folder to be read alone", ended(serve_words(program, folder / "new", free_port()), **nobody)[:2], NO_JOURNAL)
        CHECKS.holds("no file was made there", not (folder / "new").exists())
    journal.parent.chmod(reached)
    folder.chmod(0o755)
