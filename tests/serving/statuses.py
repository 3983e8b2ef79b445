"""Words of no command, and each cause with its status and its line."""

import os
import resource
import socket
import subprocess
from contextlib import suppress

from serving.checks import CHECKS, LIMIT
from serving.messages import A, error, get, new, post, report, request
from serving.program import Link, converse, counts, ended, first_line, free_port, read_line, recovered, running, serve_words
from serving.journals import HEAD


def try_usage(program, folder):
    """Words of no command, and those that ask for help."""
    full = ["--listen", "127.0.0.1:1", "--journal", folder / "j", "--public", "http://x.example"]
    wrong = [
        [],
        ["x"],
        ["serve"],
        ["serve", *full[:-2]],
        ["serve", *full, "more"],
        ["serve", *full, "--existing", "--existing"],
        ["serve", *full, "--existing=1"],
        ["serve", *full[:-1], "x.example"],
        ["serve", *full[:-1], "http:///rtb"],
        ["serve", *full[:-1], "ftp://x.example"],
        ["serve", *full, "--ttl", "x"],
        ["serve", *full, "--ttl", "-1"],
        ["serve", *full, "--ttl", "0"],
        ["serve", *full, "--ttl", "31536000001"],
        ["serve", *full, "--sales", "0"],
        ["serve", *full, "--sales", "67108865"],
        ["serve", *full, "--sales=2", "--sales", "2"],
        ["serve", *full, "--patience", "0"],
        ["serve", *full, "--patience", "3600001"],
        ["serve", *full, "--listen", "127.0.0.1:2"],
        ["serve", *full, "--workers", "0"],
        ["serve", *full, "--workers", "65"],
        ["serve", *full, "--workers", "x"],
        ["serve", *full, "--workers", "2", "--workers", "2"],
        ["serve", *full, "--key"],
        ["serve", *full, "--key", "k", "--key", "k"],
        ["serve", *full, "--former-key", "k"],
        ["audit", "--journal", "j", "--former-key", "k"],
        ["follow", "--listen", "127.0.0.1:1", "--journal", "j", "--key", "k"],
        ["recover", "--journal", "j", "--key", "k"],
        ["compact", "--journal", "j", "--into", "k", "--beside", "--beside"],
        ["compact", "--journal", "j", "--into", "k", "--beside=1"],
        ["compact", "--journal", "j", "--beside"],
        ["recover"],
        ["recover", "--journal"],
        ["recover", "--listen", "127.0.0.1:1"],
        ["recover", "--journal", b"\xff"],
        ["Serve", *full],
        ["serve", *full[:1], "127.0.0.1:0", *full[2:]],
        ["try", "x"],
        ["--help", "x"],
    ]
    for words in wrong:
        status, out, errors = ended([program, *words])
        step = " ".join(str(it) for it in ["rtbx", *words])
        CHECKS.same(step, (status, out), (2, b"rtbx: usage\n"))
        CHECKS.holds(f"{step}: says a right command on standard error: {errors!r}", b"rtbx " in errors)
    CHECKS.holds("no file was made", not (folder / "j").exists())
    with running(program, folder / "year", ttl=31536000000):
        CHECKS.same("a year is no wrong time", recovered(program, folder / "year"), counts())
    with running(program, folder / "most", workers=64) as server:
        converse(server, [("64 workers", get("/campaign/1"), error(404, "no-such-campaign"))])
    line = ended(serve_words(program, folder, free_port())[:-4])[1]
    CHECKS.same("without workers", line, b"rtbx: cannot open journal\n")
    for words in [["--help"], ["--version"], ["serve", "--help"], ["recover", "--help"], ["try", "--help"], ["serve", "--version"]]:
        status, out, errors = ended([program, *words])
        CHECKS.same(f"rtbx {' '.join(words)}", (status, out.startswith(b"rtbx") or b"Usage" in out, errors), (0, True, b""))
    named = {"serve": [b"--listen", b"--journal", b"--existing", b"--public", b"--key", b"--former-key", b"--workers", b"--ttl", b"--sales", b"--patience"], "audit": [b"--journal", b"--key", b"--former-key"], "recover": [b"--journal"], "compact": [b"--journal", b"--into", b"--keep", b"--beside"], "try": [b"BID@DOMAIN"]}
    for command, options in named.items():
        out = ended([program, command, "--help"])[1]
        CHECKS.same(f"rtbx {command} --help names its options", [it for it in options if it not in out], [])


def try_statuses(program, folder):
    """Each cause with its status and its line."""
    journal = folder / "statuses"
    with socket.socket() as taken:
        taken.bind(("127.0.0.1", 0))
        taken.listen()
        came = ended(serve_words(program, journal, taken.getsockname()[1]))
    CHECKS.same("an address that is taken", came[:2], (3, b"rtbx: cannot listen\n"))
    came = ended([program, "serve", "--listen", "nowhere", "--journal", journal, "--public", "http://x.example"])
    CHECKS.same("no address", came[:2], (3, b"rtbx: cannot listen\n"))
    CHECKS.same("the journal was made before", journal.read_bytes(), HEAD + b"\x00")
    for place in [folder, folder / "none" / "journal"]:
        for command in [serve_words(program, place, free_port()), [program, "recover", "--journal", place]]:
            CHECKS.same(f"{command[1]}: {place.name}", ended(command)[:2], (4, b"rtbx: cannot open journal\n"))
    with open("/dev/full", "wb") as full:
        CHECKS.same("output that fails", ended(serve_words(program, journal, free_port()), stdout=full)[0], 7)
        CHECKS.same("recover with it", ended([program, "recover", "--journal", journal], stdout=full)[0], 7)
        CHECKS.same("usage with it", ended([program, "x"], stdout=full)[0], 7)
    unreadable = os.open(folder, os.O_RDONLY)
    CHECKS.same("input that fails", ended([program, "try", "1"], stdin=unreadable)[:2], (10, b"rtbx: input failed\n"))
    os.close(unreadable)
    no_descriptors(program, journal)


def no_descriptors(program, journal):
    """A door that cannot accept ends the server, whether or not it still took the link that it waited for."""
    with running(program, journal) as server:
        most = resource.getrlimit(resource.RLIMIT_NOFILE)[1]
        resource.prlimit(server.process.pid, resource.RLIMIT_NOFILE, (0, most))
        with suppress(OSError), server.link() as link:
            link.send(get("/campaign/1"))
            link.answer()
        try:
            status = server.process.wait(LIMIT)
        except subprocess.TimeoutExpired:
            status = None
        CHECKS.same("no descriptor is left", (status, server.process.stdout.read() if status else b""), (8, b"rtbx: accept failed\n"))


CLOSED = ["<&-", ">&-", "2>&-", "<&- >&-", ">&- 2>&-", "<&- >&- 2>&-"]


def closed(way, words):
    """The words of a command that a shell starts with these descriptors closed."""
    return ["sh", "-c", f'exec "$@" {way}', "sh", *words]


def try_closed(program, folder):
    """Standard input, output and error closed, alone and together: a journal never gets the number of one of them."""
    journal = folder / "closed"
    with running(program, journal) as server, server.link() as link:
        link.send(post("/campaign", A))
        CHECKS.same("a campaign", link.answer(), new(1))
    before = journal.read_bytes()
    for way in CLOSED:
        told = ">&-" not in way.split()
        status, out = ended(closed(way, [program, "recover", "--journal", journal]))[:2]
        CHECKS.same(f"recover {way}", (status, out), counts(campaigns=1, live=1)[:2] if told else (7, b""))
        CHECKS.same(f"recover {way}: the file", journal.read_bytes(), before)
        given = {"stdin": subprocess.DEVNULL} if "<&-" in way else {"stdin": None, "input": request().encode()}
        status, out = ended(closed(way, [program, "try", "1.00"]), **given)[:2]
        empty = (1, b'{"error":"json-ended","at":0}\n') if "<&-" in way else (0, out)
        CHECKS.same(f"try {way}", (status, out), empty if told else (7, b""))
        if told:
            serve_closed(way, program, journal)
        else:
            CHECKS.same(f"serve {way}", ended(closed(way, serve_words(program, journal, free_port())))[0], 7)
        CHECKS.same(f"serve {way}: the file", journal.read_bytes(), before)


def serve_closed(way, program, journal):
    """A server that can say that it serves, with others of its descriptors closed, answers."""
    port = free_port()
    words = closed(way, serve_words(program, journal, port))
    with subprocess.Popen(words, stdin=subprocess.DEVNULL, stdout=subprocess.PIPE, stderr=subprocess.DEVNULL) as process:
        try:
            CHECKS.same(f"serve {way}", read_line(process.stdout), first_line(1))
            with Link(port) as link:
                link.send(get("/campaign/1"))
                CHECKS.same(f"serve {way}: a report", link.answer(), report(1))
        finally:
            process.kill()


PARTS = {name.removeprefix("part_"): part for name, part in globals().items() if name.startswith("part_")}
