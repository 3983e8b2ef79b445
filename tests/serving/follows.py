"""Reports beside a server, by `rtbx follow`, from the journal as the server writes it."""

import json
import random
import socket
import subprocess
import threading
from contextlib import contextmanager

from serving.checks import CHECKS, LIMIT, Stopped
from serving.journal_bytes import Reader, State, payloads
from serving.journals import HEAD, damaged, journal_of_one
from serving.messages import A, answer, error, get, new, post
from serving.model import Draw, Exchange, amount
from serving.program import Link, ended, free_port, read_line, running

FIRST_LINE = b"following\n"
# Commands of the server under load, and reports that are asked for meanwhile.
COMMANDS = 3000
REPORTS = 2000
# A link has 10,000 messages.
ON_A_LINK = 1000


class Following:
    """A follower that runs, at an address of loopback."""

    def __init__(self, program, journal):
        self.port = free_port()
        self.process = subprocess.Popen(
            follow_words(program, journal, self.port), stdin=subprocess.DEVNULL, stdout=subprocess.PIPE, stderr=subprocess.PIPE
        )
        line = read_line(self.process.stdout)
        if line != FIRST_LINE:
            self.kill()
            CHECKS.same("the first line of follow", line, FIRST_LINE)
            raise Stopped

    def link(self):
        return Link(self.port)

    def kill(self):
        if self.process.poll() is None:
            self.process.kill()
            self.process.wait(LIMIT)
        self.process.stdout.close()
        self.process.stderr.close()


@contextmanager
def following(*args):
    follower = Following(*args)
    try:
        yield follower
    finally:
        follower.kill()


def follow_words(program, journal, port):
    return [program, "follow", "--listen", f"127.0.0.1:{port}", "--journal", journal]


def asked(link, data):
    link.send(data)
    return link.answer()


def report(campaign, effects, state="live", bid="2.5", budget="10", reserved="0", spent="0", held=0, billed=0, lost=0, expired=0):
    """The answer to GET /campaign/N behind so many effects; amounts as they are written."""
    return answer(
        200,
        f'{{"campaign":{campaign},"state":"{state}","bid":{bid},"budget":{budget},"reserved":{reserved},'
        f'"spent":{spent},"held":{held},"billed":{billed},"lost":{lost},"expired":{expired},"effects":{effects}}}',
    )


def try_follows(program, folder):
    """What a follower answers, and what it makes of files."""
    grows(program, folder / "grows")
    breaks(program, folder / "breaks")
    statuses(program, folder)


def grows(program, journal):
    """A journal to which a server writes, and which the follower leaves as it is."""
    journal.write_bytes(HEAD + b"\x00")
    with following(program, journal) as follower, follower.link() as link:
        CHECKS.same("an empty journal", asked(link, get("/campaign/1")), error(404, "no-such-campaign"))
        with running(program, journal) as server, server.link() as writer:
            CHECKS.same("the server adds", asked(writer, post("/campaign", A)), new(1))
            CHECKS.same("a campaign that came", asked(link, get("/campaign/1")), report(1, 1))
            CHECKS.same("the server pauses", asked(writer, post("/pause/1")), answer(200, '{"campaign":1}'))
            CHECKS.same("a campaign that was paused", asked(link, get("/campaign/1")), report(1, 2, "paused"))
        CHECKS.same("no such campaign", asked(link, get("/campaign/2")), error(404, "no-such-campaign"))
        data = journal.read_bytes()
        CHECKS.same("a change", asked(link, post("/pause/1")), error(409, "read-only"))
        CHECKS.same("another change", asked(link, post("/campaign", A)), error(409, "read-only"))
        CHECKS.same("another path", asked(link, get("/nothing")), error(404, "not-found"))
        CHECKS.same("a path of the server", asked(link, get("/openrtb2/auction")), error(404, "not-found"))
        CHECKS.same("the journal is left as it is", journal.read_bytes(), data)


def breaks(program, journal):
    """Files that are damaged, and what becomes of one that is whole later."""
    whole = journal_of_one()
    for size in [0, 8]:
        journal.write_bytes(whole[:size])
        with following(program, journal) as follower, follower.link() as link:
            CHECKS.same(f"{size} bytes", asked(link, get("/campaign/1")), error(404, "no-such-campaign"))
            journal.write_bytes(whole)
            CHECKS.same(f"{size} bytes, and then all", asked(link, get("/campaign/1")), report(1, 1, budget="5"))
    journal.write_bytes(HEAD + b"\x01")
    with following(program, journal) as follower, follower.link() as link:
        CHECKS.same("an open gate at the end", asked(link, get("/campaign/1")), error(500, "damaged", at=8))
        journal.write_bytes(whole)
        CHECKS.same("the block is there", asked(link, get("/campaign/1")), report(1, 1, budget="5"))
    for name, (data, place) in damaged().items():
        journal.write_bytes(data)
        with following(program, journal) as follower, follower.link() as link:
            CHECKS.same(name, asked(link, get("/campaign/1")), error(500, "damaged", at=place))
        CHECKS.same(f"{name}: it is left as it is", journal.read_bytes(), data)


def statuses(program, folder):
    """Each cause with its status and its line."""
    journal = folder / "followed"
    came = ended(follow_words(program, journal, free_port()))
    CHECKS.same("no file", came[:2], (4, b"rtbx: cannot open journal\n"))
    CHECKS.holds("none is made", not journal.exists())
    CHECKS.same("a folder", ended(follow_words(program, folder, free_port()))[:2], (4, b"rtbx: cannot open journal\n"))
    journal.write_bytes(HEAD + b"\x00")
    with socket.socket() as taken:
        taken.bind(("127.0.0.1", 0))
        taken.listen()
        came = ended(follow_words(program, journal, taken.getsockname()[1]))
    CHECKS.same("an address that is taken", came[:2], (3, b"rtbx: cannot listen\n"))
    with open("/dev/full", "wb") as full:
        CHECKS.same("output that fails", ended(follow_words(program, journal, free_port()), stdout=full)[0], 7)
    for words in [[], ["--listen", "127.0.0.1:0", "--journal", journal], ["--listen", "127.0.0.1:1"]]:
        CHECKS.same(f"follow {words}", ended([program, "follow", *words])[:2], (2, b"rtbx: usage\n"))
    CHECKS.same("help", ended([program, "follow", "--help"])[0], 0)


# ---- beside a server under load


def try_followed_load(program, folder):
    """Reports beside a server: each is that of the effects so far, and they never fall."""
    journal = folder / "load"
    journal.write_bytes(HEAD + b"\x00")
    exchange = Exchange()
    draw = Draw(7)
    commands = [draw.command(exchange)[0] for _ in range(COMMANDS)]
    drawn = random.Random(7)
    with running(program, journal) as server, following(program, journal) as follower:
        load = threading.Thread(target=send_all, args=(server, commands))
        load.start()
        came = []
        while load.is_alive() or len(came) < REPORTS:
            with follower.link() as link:
                for _ in range(ON_A_LINK):
                    campaign = drawn.randint(1, 20)
                    came.append((campaign, asked(link, get(f"/campaign/{campaign}"))))
        load.join()
        with server.link() as writer, follower.link() as link:
            for campaign in range(1, len(exchange.campaigns) + 1):
                told = json.loads(asked(link, get(f"/campaign/{campaign}")).partition(b"\r\n\r\n")[2])
                told.pop("effects", None)
                CHECKS.same(f"campaign {campaign} by both", told, json.loads(asked(writer, get(f"/campaign/{campaign}")).partition(b"\r\n\r\n")[2]))
    compare(came, journal.read_bytes())


def send_all(server, commands):
    with server.link() as link:
        for data in commands:
            asked(link, data)


def compare(came, data):
    """Each report is that of the state behind its effects; a campaign that was not there yet tells no number."""
    state, at = State(), 0
    steps = effects_in(data)
    CHECKS.holds("reports came", len(came) >= REPORTS)
    for campaign, given in came:
        if given == error(404, "no-such-campaign"):
            continue
        told = json.loads(given.partition(b"\r\n\r\n")[2]).get("effects", -1)
        if not CHECKS.holds(f"effects {told} behind {at}", told >= at):
            return
        while at < told:
            next(steps)(state)
            at += 1
        if not CHECKS.same(f"campaign {campaign} behind {at} effects", given, report_of(state, campaign, at)):
            return


def effects_in(data):
    """The effects of a journal, each as what it does to a state."""
    for payload in payloads(data)[1]:
        reader = Reader(payload)
        while reader.at < len(payload):
            yield lambda state, reader=reader: state.apply(reader.number(8), reader.number(1), reader)


def report_of(state, number, effects):
    campaign = state.campaigns[number - 1]
    bid, budget = amounts(campaign.facts)
    own = [sale for sale in state.sales if sale.campaign == number]

    def total(name):
        return sum(sale.price for sale in own if sale.state == name) + (campaign.gone["spent"] if name == "billed" else 0)

    def count(name):
        return sum(sale.state == name for sale in own) + campaign.gone.get(name, 0)

    return report(
        number,
        effects,
        "live" if campaign.live else "paused",
        amount(bid, 6),
        amount(budget, 9),
        amount(total("held"), 9),
        amount(total("billed"), 9),
        *map(count, ["held", "billed", "lost", "expired"]),
    )


def amounts(facts):
    """The bid and the budget of facts as they are written (docs/FORMATS.md)."""
    reader = Reader(facts)
    reader.text(), reader.text(), reader.texts()
    if reader.number(1):
        reader.take(8)
    reader.take(4 * reader.number(4))
    reader.take(1)
    bid = reader.number(8)
    reader.texts()
    return bid, reader.number(8)
