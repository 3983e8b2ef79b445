"""The call `exchange`: messages to a server over a new journal, one after the other. Its fields:

- `MOMENT METHOD TARGET BODY`: a message at a moment, in milliseconds; BODY is a text, or `NAME` or `NAME MEMBERS` for
  a body of BODIES, where members that come later stand for earlier ones of the same name. It is answered
  `STATUS BODY`, at 405 with the methods in between, with `; ` between two answers.
- `times N MESSAGE`: the message so many times, of which the last answer is told.
- `ttl N`: how long a sale is held, in milliseconds; it stands in front. Without it, 300000.
- `sales N`: how many sales the list is to have at most; it stands in front.
- `key HEX`: the server signs its addresses by this key, of hexadecimal digits; it stands in front.
- `rekey HEX`: the server ends and begins again with this key, and with the one before it as the former key.
- `forget N`: the journal is written anew by `compact --keep N`, and served from there.
- `replay`: the server ends and begins again over its journal.

Behind all of them the server begins once more, and each campaign's report has to be what it was before."""

import itertools
import re

from serving.checks import CHECKS
from serving.messages import A, B, P1, Q1, get, message
from serving.program import Running, ended

# So many messages are sent over a link, which has 10,000 at most.
ON_A_LINK = 9_000
BODIES = {
    "A": A,
    "B": B,
    "C": '{"seat":"s1","adomain":"one.example","secure":1,"bid":2.50,"budget":10,"adm":"C","crid":"c1"}',
    "D": '{"seat":"s2","adomain":"two.example","secure":1,"bid":1.00,"budget":10,"adm":"D","crid":"c2"}',
    "P1": P1,
    "Q1": Q1,
}


def body_of(text):
    """The body that the text stands for."""
    name, _, members = text.partition(b" ")
    front = BODIES.get(name.decode(errors="replace"))
    if front is None:
        return text
    return front.encode() if not members else front[:-1].encode() + b"," + members + b"}"


class Exchange:
    """A server over a journal of its own, which ends and begins again."""

    def __init__(self, program, folder, system, ttl, more):
        self.program, self.folder, self.system, self.ttl, self.more = program, folder, system, ttl, more
        self.numbers = itertools.count()
        self.journal = self.new_path()
        self.server = self.link = None
        self.taken = 0
        self.sign(None)

    def sign(self, key, former=None):
        """Begins with these keys, of hexadecimal digits, from the next time on."""
        self.key, self.signs = key, ()
        for name, digits in {"key": key, "former-key": former}.items():
            if digits:
                (self.folder / name).write_bytes(bytes.fromhex(digits))
                self.signs += (f"--{name}", self.folder / name)

    def new_path(self):
        return self.folder / f"exchange{next(self.numbers)}.journal"

    def begin(self):
        self.server = Running(self.program, self.journal, ttl=self.ttl, env=self.system.clock(), more=[*self.more, *self.signs])
        self.link, self.taken = self.server.link(), 0

    def end(self):
        if self.server:
            self.link.socket.close()
            self.server.kill()
        self.server = None

    def replay(self):
        self.end()
        self.begin()

    def forget(self, keep):
        self.end()
        into = self.new_path()
        came = ended([self.program, "compact", "--journal", self.journal, "--into", into, "--keep", keep])
        CHECKS.same(f"compact --keep {keep}", (came[0], came[2]), (0, b""))
        self.journal.unlink()
        self.journal = into
        self.begin()

    def answer(self, moment, data):
        self.system.stand_at(moment)
        if self.taken == ON_A_LINK:
            self.link.socket.close()
            self.link, self.taken = self.server.link(), 0
        self.taken += 1
        self.link.send(data)
        return told(self.link.answer())

    def reports(self, moment):
        """The reports of all campaigns."""
        reports = []
        for number in itertools.count(1):
            reports.append(self.answer(moment, get(f"/campaign/{number}")))
            if reports[-1].startswith(b"404"):
                return reports


def told(answer):
    """The status, the methods if there are any, and the body."""
    head, _, body = answer.partition(b"\r\n\r\n")
    status = head[9:12]
    methods = re.search(rb"(?m)^Allow: (.*?)\r?$", head)
    return b" ".join([status, *(methods.groups() if methods else ()), *([body] if body else [])])


def message_of(text):
    """The moment and the bytes of `MOMENT METHOD TARGET BODY`."""
    moment, method, target, *body = text.split(b" ", 3)
    return int(moment), message(method.decode(), target.decode(), body_of(b"".join(body)))


def take(exchange, field):
    """What the field is answered, or none where it asks for no answer. Answers the moment besides."""
    name, _, rest = field.partition(b" ")
    if name == b"replay":
        exchange.replay()
        return None, 0
    if name == b"rekey":
        exchange.sign(rest.decode(), exchange.key)
        exchange.replay()
        return None, 0
    if name == b"forget":
        exchange.forget(rest.decode())
        return None, 0
    turns, text = (int(rest.split(b" ", 1)[0]), rest.split(b" ", 1)[1]) if name == b"times" else (1, field)
    moment, data = message_of(text)
    return [exchange.answer(moment, data) for _ in range(turns)][-1], moment


def try_exchange(program, folder, system, fields):
    """What the fields are answered."""
    ttl = 300_000
    if fields[0].startswith(b"ttl "):
        ttl = int(fields.pop(0)[4:])
    more = ()
    if fields[0].startswith(b"sales "):
        more = ("--sales", fields.pop(0)[6:].decode())
    exchange = Exchange(program, folder, system, ttl, more)
    if fields[0].startswith(b"key "):
        exchange.sign(fields.pop(0)[4:].decode())
    system.stand_at(0)
    try:
        exchange.begin()
        taken = [take(exchange, field) for field in fields]
        moment = taken[-1][1]
        before = exchange.reports(moment)
        exchange.replay()
        CHECKS.same(f"the reports behind {fields}", exchange.reports(moment), before)
    finally:
        exchange.end()
    exchange.journal.unlink(missing_ok=True)
    return b"; ".join(answer for answer, _ in taken if answer is not None)
