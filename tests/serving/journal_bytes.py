"""Journals by docs/FORMATS.md: bytes to effects, effects to a state, what is left of it without its oldest sales, and
that state as the effects that make it again. Time and limits play no part: every effect is taken to fit.
"""

import struct
from dataclasses import dataclass, field
from heapq import heappop, heappush

SOLD, ADDED, CHANGED, PAUSED, RESUMED, BILLED, LOST, SOLD_TO, CAPPED_ADDED, CAPPED_CHANGED, KEPT, KEPT_SALE, FORGOT = range(1, 14)
NAMES = {1: b"RTBXJ01", 2: b"RTBXJ02"}
STATES = ["held", "billed", "lost", "expired"]


def text(value):
    return struct.pack(">I", len(value)) + value


@dataclass
class Campaign:
    """Facts and target as they are written, the cap as its eight bytes or none, and what is gone of its sales."""

    facts: bytes
    cap: bytes
    target: bytes
    live: bool = True
    gone: dict = field(default_factory=lambda: {"spent": 0, "billed": 0, "lost": 0, "expired": 0})


@dataclass
class Sale:
    campaign: int
    price: int
    moment: int
    due: int
    state: str
    user: bytes | None


class Reader:
    """Parts of bytes, one after the other."""

    def __init__(self, data):
        self.data = data
        self.at = 0

    def take(self, count):
        part = self.data[self.at : self.at + count]
        assert len(part) == count
        self.at += count
        return part

    def number(self, count):
        return int.from_bytes(self.take(count), "big")

    def text(self):
        return self.take(self.number(4))

    def texts(self):
        return [self.text() for _ in range(self.number(4))]

    def since(self, start):
        return self.data[start : self.at]

    def facts(self):
        start = self.at
        self.text(), self.text(), self.texts()
        if self.number(1):
            self.take(8)
        self.take(4 * self.number(4))
        self.take(9)
        self.texts()
        self.take(8)
        self.text(), self.text()
        if self.number(1):
            self.text()
        return self.since(start)

    def target(self):
        start = self.at
        for _ in range(self.number(4)):
            for _ in range(self.number(4)):
                self.take(2)
                self.texts()
        return self.since(start)


def payloads(data):
    """The payloads of a journal, and its name's version; none of a creation that was not finished."""
    if len(data) < 9 or (len(data) == 9 and data[0] != 1):
        return 1, []
    assert data[:1] == b"\1"
    version = {name: version for version, name in NAMES.items()}[data[1:8]]
    found, at = [], 8
    while data[at : at + 1] == b"\1":
        size = int.from_bytes(data[at + 1 : at + 9], "big")
        found.append(data[at + 9 : at + 9 + size])
        at += 9 + size
    assert at < len(data)
    return version, found


class State:
    def __init__(self):
        self.campaigns = []
        self.sales = []
        # When each sale that was held is due, and its number, the first on top.
        self.held = []
        self.forgotten = 0

    def sale(self, number):
        return self.sales[number - self.forgotten - 1]

    def add(self, sale):
        self.sales.append(sale)
        if sale.state == "held":
            heappush(self.held, (sale.due, self.forgotten + len(self.sales)))

    def apply_all(self, payload):
        reader = Reader(payload)
        while reader.at < len(payload):
            self.apply(reader.number(8), reader.number(1), reader)

    def apply(self, moment, tag, reader):
        while tag not in (KEPT, KEPT_SALE) and self.held and self.held[0][0] <= moment:
            number = heappop(self.held)[1]
            if number > self.forgotten and self.sale(number).state == "held":
                self.sale(number).state = "expired"
        if tag in (SOLD, SOLD_TO):
            user = reader.text() if tag == SOLD_TO else None
            for _ in range(reader.number(1)):
                campaign, price, due = reader.number(4), reader.number(8), reader.number(8)
                self.add(Sale(campaign, price, moment, due, "held", user))
        elif tag in (ADDED, CAPPED_ADDED):
            self.campaigns.append(self.campaign(tag == CAPPED_ADDED, reader))
        elif tag in (CHANGED, CAPPED_CHANGED):
            old = self.campaigns[reader.number(4) - 1]
            new = self.campaign(tag == CAPPED_CHANGED, reader)
            old.facts, old.cap, old.target = new.facts, new.cap, new.target
        elif tag in (PAUSED, RESUMED):
            self.campaigns[reader.number(4) - 1].live = tag == RESUMED
        elif tag in (BILLED, LOST):
            self.sale(reader.number(8)).state = "billed" if tag == BILLED else "lost"
        elif tag == KEPT:
            live = bool(reader.number(1))
            facts = reader.facts()
            cap = reader.take(8) if reader.number(1) else b""
            target = reader.target()
            gone = {name: reader.number(8) for name in ["spent", "billed", "lost", "expired"]}
            self.campaigns.append(Campaign(facts, cap, target, live, gone))
            self.forgotten += gone["billed"] + gone["lost"] + gone["expired"]
        elif tag == KEPT_SALE:
            campaign, price, made, due = reader.number(4), reader.number(8), reader.number(8), reader.number(8)
            state = STATES[reader.number(1)]
            self.add(Sale(campaign, price, made, due, state, reader.text() if reader.number(1) else None))

        elif tag == FORGOT:
            self.forget_first(reader.number(8) - self.forgotten)

    @staticmethod
    def campaign(capped, reader):
        facts = reader.facts()
        cap = reader.take(8) if capped else b""
        return Campaign(facts, cap, reader.target())

    def forget(self, keep):
        """The longest front of sales of which none is held goes, but so many stay."""
        front = 0
        while front < len(self.sales) - keep and self.sales[front].state != "held":
            front += 1
        self.forget_first(front)

    def forget_first(self, count):
        """So many sales go, of which none is held; each campaign keeps what its own added up to."""
        for sale in self.sales[: max(0, count)]:
            gone = self.campaigns[sale.campaign - 1].gone
            gone[sale.state] += 1
            gone["spent"] += sale.price if sale.state == "billed" else 0
        del self.sales[: max(0, count)]
        self.forgotten += max(0, count)

    def kept(self):
        """The bytes of its effects, one after the other."""
        head = b"\0" * 8
        for c in self.campaigns:
            cap = b"\1" + c.cap if c.cap else b"\0"
            gone = struct.pack(">QQQQ", c.gone["spent"], c.gone["billed"], c.gone["lost"], c.gone["expired"])
            yield head + bytes([KEPT, c.live]) + c.facts + cap + c.target + gone
        for s in self.sales:
            user = b"\0" if s.user is None else b"\1" + text(s.user)
            yield head + bytes([KEPT_SALE]) + struct.pack(">IQQQB", s.campaign, s.price, s.moment, s.due, STATES.index(s.state)) + user

    def count(self, state):
        return sum(sale.state == state for sale in self.sales) + sum(c.gone.get(state, 0) for c in self.campaigns)


def state_of(data):
    state = State()
    for payload in payloads(data)[1]:
        state.apply_all(payload)
    return state


def journal(blocks, version=1):
    """A journal of blocks of these bytes."""
    closed = b"".join(b"\1" + struct.pack(">Q", len(block)) + block for block in blocks)
    return b"\1" + NAMES[version] + closed + b"\0"
