"""What scripts of examples/ tell beside the program: the statements of campaigns, and traces of a server."""

import json
import shutil
import subprocess
from contextlib import contextmanager
from pathlib import Path

from serving.checks import CHECKS, LIMIT
from serving.compactions import compact_words
from serving.messages import A, B, P1, PUBLIC, Q1, campaign, get, message, post
from serving.program import Link, ended, free_port, read_line, running

EXAMPLES = Path(__file__).resolve().parent.parent.parent / "examples"
RICH = campaign(
    seat="é\\u0001", bid="0.000001", budget="1000000", adm="\\\"<b>${AUCTION_PRICE}</b>\\n", crid="c9", cat='["IAB1","IAB1-2"]', attr="[3,1]", deals='["d1","d2"]',
    adid='"a"', w="1", h="32767", cap='{"count":3,"seconds":86400}',
    target='[[{"attr":"pos","not":["7","1"]},{"attr":"domain","in":["b.example","a.example"]}],[]]',
)  # fmt: skip


def statements(journal, *words):
    """The lines that examples/statements prints, as values."""
    code, out, errors = ended([EXAMPLES / "statements", journal, *words])
    CHECKS.same(f"examples/statements: {errors!r}", (code, errors), (0, b""))
    return [json.loads(line) for line in out.splitlines()]


def as_posted(body):
    """A body as its statement is told: without what is as if it were absent, conditions and values in order."""
    told = json.loads(body)
    order = "domain site bundle app publisher country region metro city zip devicetype make model os".split() + ["tagid", "pos"]
    told["target"] = [sorted(it, key=lambda p: order.index(p["attr"])) for it in told.get("target", [[]])]
    for predicate in sum(told["target"], []):
        for name in {"in", "not"} & set(predicate):
            predicate[name] = sorted(set(predicate[name]))
    return told


def try_statements(program, folder):
    """Each campaign's statement posts the same campaign again; what was changed, paused and compacted is told too."""
    journal, other = folder / "statements", folder / "statements.again"
    steps = [post("/campaign", A), post("/campaign", B), post("/campaign", RICH), post("/openrtb2/auction", Q1), post("/bill/1")]
    with running(program, journal) as server, server.link() as link:
        for step in [*steps, post("/openrtb2/auction", P1), post("/lose/2"), post("/campaign/2", RICH), post("/pause/1")]:
            link.send(step)
            CHECKS.holds(f"{step[:40]}", link.answer()[9:12] in (b"200", b"201", b"204"))
        told = statements(journal)
        wanted = [("paused", as_posted(A)), ("live", as_posted(RICH)), ("live", as_posted(RICH))]
        CHECKS.same("what is told", told, [{"campaign": n, "state": state, "statement": body} for n, (state, body) in enumerate(wanted, 1)])
        CHECKS.same("of one seat", [it["campaign"] for it in statements(journal, "s1")], [1])
    with running(program, other) as server, server.link() as link:
        for it in told:
            link.send(post("/campaign", json.dumps(it["statement"])))
            CHECKS.same(f"campaign {it['campaign']} again", link.answer()[9:12], b"201")
    CHECKS.same("it is the same", [it["statement"] for it in statements(other)], [it["statement"] for it in told])
    CHECKS.same("compacted", ended(compact_words(program, journal, folder / "statements.new"))[0], 0)
    CHECKS.same("it is told behind a compaction", statements(folder / "statements.new"), told)
    data = journal.read_bytes()
    journal.write_bytes(data[:-3])
    code, _, errors = ended([EXAMPLES / "statements", journal])
    line = ended([program, "recover", "--journal", journal])[1].decode().removeprefix("rtbx: ")
    CHECKS.same("a damaged journal", (code, errors.decode()), (1, line))


@contextmanager
def recording(server, ttl, trace):
    """A link to examples/record before a server."""
    port = free_port()
    words = [EXAMPLES / "record", f"127.0.0.1:{port}", f"127.0.0.1:{server.port}", str(ttl), PUBLIC, trace]
    process = subprocess.Popen(words, stdin=subprocess.DEVNULL, stdout=subprocess.PIPE, stderr=subprocess.PIPE)
    try:
        CHECKS.same("it records", read_line(process.stdout), b"recording\n")
        with Link(port) as link:
            yield link
    finally:
        process.kill()
        process.communicate(timeout=LIMIT)


def try_record(program, folder):
    """A trace that was written beside a server of one worker is legal over the journal from before, and not with a byte changed."""
    journal, before, trace = folder / "record", folder / "record.before", folder / "record.trace"
    ttl, statuses = 300000, []
    with running(program, journal, ttl=ttl) as server, server.link() as link:
        link.send(post("/campaign", A))
        link.answer()
        shutil.copy(journal, before)
        messages = [post("/campaign", B), post("/openrtb2/auction", "{"), get("/campaign/2"), get("/nothing"), post("/pause/1"), message("GET", "/pause/1")]
        for n in range(1, 21):
            messages += [post("/openrtb2/auction", Q1), get(f"/{'bill' if n % 3 else 'lose'}/{n}?by=page"), post("/openrtb2/auction", P1.replace("{}", "{},\"bidfloor\":9"))]
        link.socket.close()
        with recording(server, ttl, trace) as link:
            for it in messages:
                link.send(it)
                statuses.append(int(link.answer()[9:12]))
    CHECKS.same("statuses", sorted(set(statuses)), [200, 201, 204, 400, 404, 405])
    audit = [program, "audit", "--journal", before]
    with open(trace, "rb") as file:
        CHECKS.same("the audit", ended(audit, stdin=file)[:2], (0, f"legal entries={len(messages)} passed=0\n".encode()))
    trace.write_bytes(trace.read_bytes().replace(b'"price":0.3', b'"price":0.4', 1))
    with open(trace, "rb") as file:
        CHECKS.same("a price is changed", ended(audit, stdin=file)[:2], (1, b"illegal at 6\n"))
