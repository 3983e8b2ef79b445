"""Calls of what is read of a message, over one server: a refusal says the fault, and an answer that nothing is wrong.

- `read_request | TEXT`: `ok`, or the fault with the path of its field.
- `read_request | PLACE | MEMBERS`: the same of a small request with these members more. PLACE says whose they are:
  `request`, `imp` (the only one), `banner` (of that one), `pmp`, or `deal` (the second).
- `read_campaign | CAMPAIGN`: of the JSON text the first fault, or `ok`.
- `make_facts | NAME=VALUE | ..`: `made`, or the fault, of a campaign whose other members are right. A list's items end
  with `;`, and `none` is no value. `attr` lists whole numbers, and a bid is in micro-dollars.
- `cap | COUNT | SECONDS`: the cap of a campaign that has it, or `none` where there is no such cap.
- `encode_facts | CAMPAIGN`: the bytes of the facts in the journal, of a campaign without a target.
- `request_holds | CAMPAIGN | REQUEST | IMP`: whether the campaign, which nothing else keeps out, buys that impression.
"""

import json
from decimal import Decimal

from serving.messages import post
from serving.program import Running

FRAMES = {
    b"request": (b'{"id":"1","imp":[{"id":"1"}],', b"}"),
    b"imp": (b'{"id":"1","imp":[{"id":"1",', b"}]}"),
    b"banner": (b'{"id":"1","imp":[{"id":"1","banner":{', b"}}]}"),
    b"pmp": (b'{"id":"1","imp":[{"id":"1","pmp":{', b"}}]}"),
    b"deal": (b'{"id":"1","imp":[{"id":"1","pmp":{"deals":[{"id":"d"},{"id":"e",', b"}]}}]}"),
}
FACTS = {"seat": "s1", "adomain": "a.b", "w": 300, "h": 250, "secure": 1, "bid": 2.5, "budget": 5, "adm": "", "crid": "c"}
# Words of refusals that cases say otherwise.
WORDS = {"too-many-imps": "too-many", "duplicate-imp": "duplicate"}
# A journal's begin, a gate, a length, a moment and what kind of effect stand before the first campaign's facts; behind them
# its cap, where it has one, an expression of one conjunction without a predicate, and a closed gate.
BEFORE, CAP, BEHIND = 8 + 1 + 8 + 8 + 1, 8, 8 + 1


class Reader:
    """A server that is asked what is wrong with bodies."""

    def __init__(self, program, journal):
        self.journal = journal
        self.server = Running(program, self.journal)

    def end(self):
        self.server.kill()
        self.journal.unlink()

    def told(self, message):
        """The status, and the body that was answered, over a link of its own, since one on which nothing comes is closed."""
        with self.server.link() as link:
            link.send(message)
            head, _, answered = link.answer().partition(b"\r\n\r\n")
        return int(head[9:12]), answered

    def ask(self, target, body):
        return self.told(post(target, body))

    def fault(self, target, body):
        """The members of the refusal, or none where nothing is wrong."""
        status, answered = self.ask(target, body)
        return None if status < 300 else json.loads(answered)


def request_told(reader, args):
    before, behind = FRAMES[args[0]] if len(args) == 2 else (b"", b"")
    fault = reader.fault("/openrtb2/auction", before + args[-1] + behind)
    if fault is None:
        return b"ok"
    if fault["error"] == "price":
        return f"{fault['fault']} {fault['field']}".encode()
    return words_of(fault).replace("wrong-type", "type", 1).encode()


def words_of(fault):
    """The fault's word, and its other members."""
    word, *others = fault.values()
    return "unreadable" if word.startswith("json-") else " ".join([WORDS.get(word, word), *map(str, others)])


def campaign_told(reader, body, right=b"ok"):
    fault = reader.fault("/campaign", body)
    return right if fault is None else words_of(fault).encode()


def facts_told(reader, args):
    members = dict(FACTS)
    for name, _, value in (it.partition(b"=") for it in args):
        members[name.decode()] = value_of(name, value.decode())
    body = json.dumps({name: value for name, value in members.items() if value is not None})
    return campaign_told(reader, body.encode(), b"made")


def value_of(name, value):
    if name in (b"cat", b"deals"):
        return value.split(";")[:-1]
    if name == b"attr":
        return [int(it) for it in value.split(";")[:-1]]
    if name == b"bid":
        return float(Decimal(value) / 10**6)
    if name in (b"w", b"h"):
        return None if value == "none" else int(value)
    return value


def cap_told(reader, count, seconds):
    body = json.dumps({**FACTS, "cap": {"count": int(count), "seconds": int(seconds)}})
    return b"none" if reader.fault("/campaign", body.encode()) else count + b" in " + seconds


def encoded(program, folder, campaign):
    reader = Reader(program, folder / "alone.journal")
    behind = BEHIND + (CAP if "cap" in json.loads(campaign) else 0)
    try:
        reader.fault("/campaign", campaign)
        return reader.journal.read_bytes()[BEFORE:-behind]
    finally:
        reader.end()


def holds(program, folder, campaign, request, imp):
    reader = Reader(program, folder / "alone.journal")
    try:
        reader.fault("/campaign", campaign)
        _, answered = reader.ask("/openrtb2/auction", request)
        wanted = json.loads(request)["imp"][int(imp)]["id"]
        bids = json.loads(answered)["seatbid"][0]["bid"] if answered else []
        return b"yes" if wanted in [bid["impid"] for bid in bids] else b"no"
    finally:
        reader.end()


CALLS = {"read_request", "read_campaign", "make_facts", "cap", "encode_facts", "request_holds"}


def told(program, folder, reader, call, args):
    """What the call is answered."""
    if call == "read_request":
        return request_told(reader, args)
    if call == "read_campaign":
        return campaign_told(reader, *args)
    if call == "make_facts":
        return facts_told(reader, args)
    if call == "cap":
        return cap_told(reader, *args)
    if call == "encode_facts":
        return encoded(program, folder, *args)
    return holds(program, folder, *args)
