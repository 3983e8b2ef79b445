"""Both sides of each limit of a message and a body, and what is told where one of all campaigns is met."""

import json
import os
import select

from serving.checks import CHECKS
from serving.messages import campaign, error, get, new, post, request
from serving.program import converse, running


def nested(depth):
    """A request with a member that nests so deep below the request itself."""
    return request(more=f',"ext":{"[" * depth}{"]" * depth}')


def targeted(*predicates):
    return "[[" + ",".join(predicates) + "]]"


def predicate(attr, values):
    return f'{{"attr":"{attr}","in":{json.dumps(values)}}}'


ATTRIBUTES = (
    "domain site bundle app publisher country region metro city zip devicetype make model os osv language carrier".split()
)


def body_limits():
    """For each limit of a body: its name, what is accepted and what is refused, and how."""
    many = lambda n: ",".join(f'{{"id":"{i}","banner":{{}}}}' for i in range(n))
    spaces = lambda n: request() + " " * (n - len(request()))
    too_many = error(400, "too-many", conjunction=0, predicate=0)
    auction, add = "/openrtb2/auction", "/campaign"
    conjunctions = lambda n: campaign(target="[" + ",".join(["[]"] * n) + "]")
    predicates = lambda n: campaign(target=targeted(*(predicate(attr, ["a"]) for attr in ATTRIBUTES[:n])))
    values = lambda n: campaign(target=targeted(predicate("os", [str(i) for i in range(n)])))
    value_bytes = lambda n: campaign(target=targeted(predicate("os", ["x" * n])))
    return [
        ("nesting", auction, nested(63), nested(64), lambda b: error(400, "json-deep", at=b.index("[" * 64) + 63)),
        ("impressions", auction, request(many(64)), request(many(65)), error(400, "too-many-imps", count=65)),
        ("id", auction, request().replace("b1", "b" * 255), request().replace("b1", "b" * 256), error(400, "range", field="id")),
        ("body", auction, spaces(262144), None, None),
        ("conjunctions", add, conjunctions(64), conjunctions(65), too_many),
        ("predicates", add, predicates(16), predicates(17), too_many),
        ("values", add, values(256), values(257), too_many),
        ("bytes of a value", add, value_bytes(255), value_bytes(256), too_many),
        ("markup", add, campaign(adm="x" * 65536), campaign(adm="x" * 65537), error(400, "text-length", field="adm")),
        (
            "bid",
            add,
            campaign(bid="1000000"),
            campaign(bid="1000000.000001"),
            error(400, "price", field="bid", fault="too-large"),
        ),
    ]


def wide(count):
    """A campaign whose target lists so many values in each of its 1,024 predicates."""
    values = [str(i) for i in range(count)]
    return campaign(target="[" + ",".join([targeted(*(predicate(attr, values) for attr in ATTRIBUTES[:16]))[1:-1]] * 64) + "]")


def try_full(program, folder):
    """Where a limit of all campaigns is met, a message says which, each time, and standard error does, once."""
    values, full = 4_194_304, error(503, "full", limit="values")
    body, each = wide(30), 30 * 16 * 64
    with running(program, folder / "full-limit") as server, server.link() as link:
        for n in range(values // each):
            link.send(post("/campaign", body))
            CHECKS.same(f"campaign {n + 1}", link.answer(), new(n + 1))
        for _ in range(3):
            link.send(post("/campaign", body))
            CHECKS.same("one campaign more", link.answer(), full)
        link.send(post("/campaign/1", campaign()))
        CHECKS.holds("one is changed to hold fewer", link.answer().startswith(b"HTTP/1.1 200 "))
        link.send(post("/campaign", body))
        CHECKS.same("then there is room", link.answer(), new(values // each + 1))
        said = b""
        while select.select([server.process.stderr], [], [], 0.3)[0]:
            said += os.read(server.process.stderr.fileno(), 65536)
        CHECKS.same("standard error says it once", said, b"rtbx: full: values\n")


def padded(size):
    """A report's message whose head has so many bytes."""
    fields = "".join(f"A: {'x' * 1000}\r\n" for _ in range(size // 1020))
    head = f"GET /campaign/1 HTTP/1.1\r\n{fields}B: \r\n\r\n"
    return head.replace("B: ", "B: " + "x" * (size - len(head))).encode()


def try_limits(program, folder):
    """Both sides of each limit of a message and a body."""
    missing = error(404, "no-such-campaign")
    large = error(431, "head-too-large", closes=True)
    with running(program, folder / "limits") as server:
        for name, target, taken, refused, wanted in body_limits():
            with server.link() as link:
                link.send(post(target, taken))
                CHECKS.holds(f"{name}: what is just taken", link.answer()[9:12] in [b"201", b"204"])
                if refused is not None:
                    link.send(post(target, refused))
                    CHECKS.same(f"{name}: what is not", link.answer(), wanted(refused) if callable(wanted) else wanted)
        too_large = b"POST /openrtb2/auction HTTP/1.1\r\nContent-Length: 262145\r\n\r\n"
        converse(server, [("a body of 262145 bytes", too_large, error(413, "body-too-large", closes=True))])
        converse(server, [("262144 brackets", post("/openrtb2/auction", "[" * 262144), error(400, "json-deep", at=64))])
    with running(program, folder / "heads") as server:
        for piece in [None, 1]:
            fields = lambda n: get("/campaign/1", fields=[f"A{i}: x" for i in range(n - 1)])
            converse(
                server,
                [
                    ("a head of 8192 bytes", padded(8192), missing),
                    ("one of 8193", padded(8193), large),
                    ("64 fields", fields(64), missing),
                    ("65 fields", fields(65), large),
                ],
                piece,
            )
