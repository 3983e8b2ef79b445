"""Several workers: answers in one order, kills among them, and a disk that fails now and then."""

import os
import random
import re
import shutil
import subprocess
import threading
import time
from collections import Counter

from serving.checks import CHECKS, LIMIT
from serving.journal_bytes import ADDED, BILLED, CAPPED_ADDED, CAPPED_CHANGED, CHANGED, FORGOT, LOST, PAUSED, RESUMED, SOLD, SOLD_TO
from serving.journal_bytes import Reader, State, payloads
from serving.messages import A, B, NO_BID, SELL, error, get, message, new, post, settled, text_of, trimmed
from serving.model import Draw, Exchange, micros
from serving.program import Link, counts, ended, recovered, running

WORKERS = 4
CLIENTS = 8
MESSAGES = 20_000
# Campaigns that each client adds, and how many messages it sends over one link at most: it ends where another client waits.
CAMPAIGNS = 5
ON_A_LINK = 50
KILLS = 50


# ---- one order


class Counted(Exchange):
    """The same, which has the sales of each campaign and their sums at hand."""

    def __init__(self):
        super().__init__()
        self.by_campaign = {}
        self.sums = Counter()
        self.listed = 0

    def list_new(self):
        for sale in self.sales[self.listed :]:
            self.by_campaign.setdefault(sale.campaign, []).append(sale)
            self.sums[sale.campaign, sale.state] += sale.price
        self.listed = len(self.sales)

    def of(self, campaign, *states):
        self.list_new()
        return [it for it in self.by_campaign.get(campaign, []) if it.state in states]

    def total(self, campaign, *states):
        self.list_new()
        return sum(self.sums[campaign, it] for it in states)

    def settle(self, sale, state):
        self.list_new()
        sold = self.sales[sale - 1]
        self.sums[sold.campaign, sold.state] -= sold.price
        came = super().settle(sale, state)
        self.sums[sold.campaign, sold.state] += sold.price
        return came


class Client:
    """Sends messages one after the other, and keeps them with their answers. It edits its own campaigns alone, and bills
    and loses its own sales, so that it is known whose message an effect is of; half of these are the oldest that it has not
    settled, so that none holds back for long what the clients forget."""

    def __init__(self, port, seed):
        self.port = port
        self.draw = Draw(seed)
        self.own = []
        self.sales = []
        self.settled = 0
        self.sent = []
        self.place = 0
        # A campaign that offers for the next message, which got no bid.
        self.waits_for = None

    def run(self, count):
        command = self.command()
        while len(self.sent) < count:
            with Link(self.port) as link:
                for _ in range(min(ON_A_LINK, count - len(self.sent))):
                    kind, data, what = command
                    link.send(data)
                    came = link.answer(60)
                    # A link that has ended without a byte gave way: the message was not taken, and is sent again.
                    if not came and link.ended:
                        break
                    self.sent.append((kind, what, came))
                    self.learn(kind, came)
                    if not came:
                        return
                    command = self.command()

    def command(self):
        """A kind, its message, and what the model is asked."""
        if len(self.own) < CAMPAIGNS:
            facts = self.draw.campaign()
            return "add", post("/campaign", text_of(facts)), facts
        kinds = {"auction": 50, "settle": 30, "report": 10, "change": 5, "state": 10, "forget": 5}
        kind = self.draw.choices(list(kinds), list(kinds.values()))[0]
        if kind == "settle" and self.sales:
            path, state = self.draw.choice([("bill", "billed"), ("lose", "lost")])
            sale = self.sale()
            return kind, message(self.draw.choice(["GET", "POST"]), f"/{path}/{sale}"), (sale, state)
        if kind == "forget":
            keep = self.draw.choice([0, 10, 100, 1000])
            return kind, post(f"/forget/{keep}"), keep
        if kind == "report":
            campaign = self.draw.randint(1, CLIENTS * CAMPAIGNS + 1)
            return kind, get(f"/campaign/{campaign}"), campaign
        if kind == "state":
            campaign, live = self.draw.choice(self.own), self.draw.random() < 0.6
            return kind, post(f"/{'resume' if live else 'pause'}/{campaign}"), (campaign, live)
        if kind == "change":
            campaign, facts = self.draw.choice(self.own), self.draw.campaign()
            return kind, post(f"/campaign/{campaign}", text_of(facts)), (campaign, facts)
        request = self.draw.request()
        return "auction", post("/openrtb2/auction", text_of(request)), request

    def sale(self):
        """The oldest of its own that it has not settled, or one of its last."""
        if self.settled < len(self.sales) and self.draw.random() < 0.7:
            self.settled += 1
            return self.sales[self.settled - 1]
        return self.draw.choice(self.sales[-12:])

    def learn(self, kind, came):
        if kind == "add":
            self.own += [int(it) for it in re.findall(rb'\{"campaign":(\d+)\}$', came)]
        if kind == "auction":
            self.sales += sold_in(came)

    def next(self):
        return self.sent[self.place] if self.place < len(self.sent) else None


def sold_in(came):
    return [int(it) for it in re.findall(rb'\{"id":"(\d+)","impid"', came)]


def effects_in(data):
    """What each effect of a journal is: a kind and its number, that of an auction being its first sale."""
    found = []
    for payload in payloads(data)[1]:
        reader = Reader(payload)
        while reader.at < len(payload):
            found.append(effect_in(reader))
    first = 1
    for i, (kind, number) in enumerate(found):
        if kind == "sale":
            found[i] = ("sale", first)
            first += number
    return found


def effect_in(reader):
    _, tag = reader.number(8), reader.number(1)
    if tag in (SOLD, SOLD_TO):
        if tag == SOLD_TO:
            reader.text()
        count = reader.number(1)
        reader.take(20 * count)
        return "sale", count
    if tag in (ADDED, CAPPED_ADDED):
        State.campaign(tag == CAPPED_ADDED, reader)
        return "add", 0
    if tag in (CHANGED, CAPPED_CHANGED):
        campaign = reader.number(4)
        State.campaign(tag == CAPPED_CHANGED, reader)
        return "change", campaign
    if tag in (PAUSED, RESUMED):
        return "state", reader.number(4)
    if tag == FORGOT:
        return "forget", reader.number(8)
    assert tag in (BILLED, LOST)
    return "settle", reader.number(8)


def offering(exchange, request):
    """The first campaign that offers for an impression, or none."""
    campaigns = range(1, len(exchange.campaigns) + 1)
    return next((n for n in campaigns if any(exchange.offers(request, imp, n) for imp in request["imp"])), None)


def touched_by(exchange, effect, sold):
    """The campaigns of which the effect says something, where so many sales stood before it. One whose sales are forgotten
    offers again where its cap kept it from that, and stops nowhere."""
    if effect[0] == "sale":
        return {it.campaign for it in exchange.sales[sold:]}
    if effect[0] == "forget":
        return set()
    return {exchange.sales[effect[1] - 1].campaign if effect[0] == "settle" else effect[1]}


def is_still(exchange, kind, what, came):
    """Whether the message changes nothing now, and is answered so."""
    if kind == "report":
        return came == exchange.report(what)
    if kind == "auction":
        return came == NO_BID and offering(exchange, what) is None
    if kind == "settle":
        sale, state = what
        return exchange.sales[sale - 1].state != "held" and came == exchange.settle(sale, state)
    if kind == "forget":
        return exchange.to_forget(what) == 0 and came == exchange.forget(what)
    if kind == "state":
        campaign, live = what
        return exchange.live[campaign - 1] == live and came == exchange.set_live(campaign, live)
    if kind == "change":
        campaign, facts = what
        committed = exchange.total(campaign, "held", "billed")
        return micros(facts["budget"]) * 1000 < committed and came == exchange.change(campaign, facts)
    return False


def is_effect(exchange, effect, kind, what, came):
    """Whether the effect is the message's. Where several forget the same, it is any one's, and the others find nothing."""
    if effect[0] == "forget":
        is_so = kind == "forget" and exchange.forgotten + exchange.to_forget(what) == effect[1]
        return is_so and came == trimmed(len(exchange.sales) - effect[1], effect[1])
    if effect[0] == "sale":
        return kind == "auction" and sold_in(came)[:1] == [effect[1]]
    if effect[0] == "add":
        return kind == "add"
    return kind == effect[0] and what[0] == effect[1]


def carry_out(exchange, kind, what):
    if kind == "auction":
        return exchange.auction(what)
    if kind == "add":
        return exchange.add(what)
    if kind == "forget":
        return exchange.forget(what)
    return {"settle": exchange.settle, "state": exchange.set_live, "change": exchange.change}[kind](*what)


def place_still(exchange, clients, touched):
    """Every message that changes nothing and is answered as here stands here. What waits for a campaign that was not
    touched waits on."""
    for client in clients:
        while (it := client.next()) and (client.waits_for is None or client.waits_for in touched) and is_still(exchange, *it):
            client.place += 1
            client.waits_for = None
        if it and it[0] == "auction" and it[2] == NO_BID and (client.waits_for is None or client.waits_for in touched):
            client.waits_for = offering(exchange, it[1])


def owner_of(exchange, effect, clients):
    """The client whose next message the effect is of."""
    for client in clients:
        it = client.next()
        if it and is_effect(exchange, effect, *it) and (it[0] != "add" or it[2] == new(len(exchange.campaigns) + 1)):
            return client
    return None


def place_all(clients, effects):
    """Whether the answers stand in one order of the effects: the exchange that comes of it, or none."""
    exchange = Counted()
    touched = set()
    for i, effect in enumerate(effects):
        place_still(exchange, clients, touched)
        client = owner_of(exchange, effect, clients)
        if client is None:
            told = [it.next() for it in clients]
            CHECKS.same(f"effect {i}, {effect}, is of one of {told}", None, effect)
            return None
        kind, what, came = client.next()
        sold = len(exchange.sales)
        if not CHECKS.same(f"effect {i}, {effect}, of {what}", came, carry_out(exchange, kind, what)):
            return None
        client.place += 1
        touched = touched_by(exchange, effect, sold)
    place_still(exchange, clients, touched)
    left = [it.next() for it in clients if it.next()]
    CHECKS.same("each answer has its place", left, [])
    return exchange


def run_all(threads):
    for thread in threads:
        thread.start()
    for thread in threads:
        thread.join(LIMIT * 30)


def try_workers(program, folder):
    """Clients of several workers: their answers stand in one order of the effects that the journal has."""
    journal = folder / "workers"
    with running(program, journal, workers=WORKERS, ttl=31536000000) as server:
        clients = [Client(server.port, f"client {i}") for i in range(CLIENTS)]
        run_all([threading.Thread(target=it.run, args=(MESSAGES // CLIENTS,)) for it in clients])
        server.kill()
    CHECKS.same("each message was answered", sum(len(it.sent) for it in clients), MESSAGES)
    effects = effects_in(journal.read_bytes())
    exchange = place_all(clients, effects)
    if exchange:
        CHECKS.same("recover", recovered(program, journal), exchange.counts())
        CHECKS.holds(f"{exchange.forgotten} of {len(exchange.sales)} sales are forgotten", exchange.forgotten > 0)


# ---- beside each other


def begin_all(links):
    """Sends all of a message but its last byte on each link. Between messages a link gives way to one that waits, so
    each is to be inside its own before anything else comes."""
    for link in links:
        link.send(post("/campaign", A)[:-1])
    CHECKS.holds("each waits inside a message", all(link.is_silent() for link in links))


def try_beside(program, folder):
    """Each of four links is served while three others wait inside a message, and a fifth waits while all do."""
    with running(program, folder / "beside", workers=WORKERS) as server:
        links = [server.link() for _ in range(WORKERS)]
        begin_all(links)
        for i, link in enumerate(links):
            link.send(post("/campaign", A)[-1:])
            CHECKS.same(f"link {i} of {WORKERS}", link.answer(), new(i + 1))
        begin_all(links)
        with server.link() as more:
            more.send(post("/campaign", B))
            CHECKS.holds("one link more waits", more.is_silent())
            links[0].send(post("/campaign", A)[-1:])
            CHECKS.same("until one is answered", links[0].answer(), new(WORKERS + 1))
            CHECKS.same("and is taken in its place", more.answer(), new(WORKERS + 2))
            CHECKS.same("which has ended", links[0].rest(), b"")
        for link in links:
            link.socket.close()


# ---- kills


class Writer:
    """Adds, sells and bills until the server is gone, and keeps what it was told."""

    def __init__(self, port):
        self.port = port
        self.campaigns = 0
        self.sales = 0
        self.billed = 0

    def run(self):
        try:
            with Link(self.port) as link:
                while self.told(link, post("/campaign", B)) and self.told(link, SELL):
                    if not self.told(link, post(f"/bill/{self.sales}")):
                        return
        except OSError:
            return

    def told(self, link, data):
        link.send(data)
        came = link.answer()
        if not came.startswith(b"HTTP/1.1 20"):
            return False
        added = re.search(rb'\{"campaign":(\d+)\}$', came)
        self.campaigns = int(added[1]) if added else self.campaigns
        self.sales = max([self.sales, *sold_in(came)])
        self.billed += b'"state":"billed"' in came
        return True


def try_worker_kills(program, folder):
    """The server is killed at drawn moments while several workers write, and started again: what was told is there."""
    journal = folder / "worker_kills"
    draw = random.Random("kills")
    campaigns, sales, billed = 0, 0, 0
    for _ in range(KILLS):
        with running(program, journal, workers=WORKERS) as server:
            writers = [Writer(server.port) for _ in range(WORKERS)]
            threads = [threading.Thread(target=it.run) for it in writers]
            for thread in threads:
                thread.start()
            time.sleep(draw.uniform(0, 0.4))
            server.kill()
            for thread in threads:
                thread.join(LIMIT)
        campaigns = max([campaigns, *(it.campaigns for it in writers)])
        sales = max([sales, *(it.sales for it in writers)])
        billed += sum(it.billed for it in writers)
        status, line, _ = ended([program, "recover", "--journal", journal])
        found = re.match(rb"campaigns=(\d+) live=\d+ sales=(\d+) held=\d+ billed=(\d+) ", line)
        held = [int(it) for it in found.groups()] if found else []
        wanted = [campaigns, sales, billed]
        CHECKS.holds(f"{held} holds {wanted}, {status}", found and all(a >= b for a, b in zip(held, wanted)))
        if found:
            billed = held[2]
    CHECKS.holds("something was written", campaigns and sales and billed)


# ---- a disk that fails

# Each call of the disk fails with this chance while the file is there.
FAILING = r"""
#define _GNU_SOURCE
#include <dlfcn.h>
#include <errno.h>
#include <stdlib.h>
#include <sys/types.h>
#include <unistd.h>

static int fails(void) {
    static unsigned calls;
    const char *path = getenv("RTBX_FAILS");
    unsigned call = __atomic_add_fetch(&calls, 1, __ATOMIC_SEQ_CST);
    if (path == NULL || access(path, F_OK) != 0 || call * 2654435761u % 97 >= 13) return 0;
    errno = EIO;
    return 1;
}

#define REAL(name) __typeof__(&name) real = (__typeof__(&name))dlsym(RTLD_NEXT, #name)

ssize_t pwrite(int fd, const void *data, size_t size, off_t at) { REAL(pwrite); return fails() ? -1 : real(fd, data, size, at); }
ssize_t pwrite64(int fd, const void *data, size_t size, off64_t at) { REAL(pwrite64); return fails() ? -1 : real(fd, data, size, at); }
int fdatasync(int fd) { REAL(fdatasync); return fails() ? -1 : real(fd); }
int fsync(int fd) { REAL(fsync); return fails() ? -1 : real(fd); }
int ftruncate(int fd, off_t size) { REAL(ftruncate); return fails() ? -1 : real(fd, size); }
int ftruncate64(int fd, off64_t size) { REAL(ftruncate64); return fails() ? -1 : real(fd, size); }
"""


def failing_library(folder):
    """A library that stands before the C library's calls, or none where there is no compiler."""
    compiler = shutil.which("cc") or shutil.which("gcc")
    if compiler is None:
        return None
    source, library = folder / "failing.c", folder / "failing.so"
    source.write_text(FAILING)
    built = subprocess.run([compiler, "-shared", "-fPIC", "-O1", "-o", library, source, "-ldl"], capture_output=True)
    return library if built.returncode == 0 else None


def add_some(port, count, answers):
    with Link(port) as link:
        for _ in range(count):
            link.send(post("/campaign", A))
            answers.append(link.answer())


def try_failing(program, folder):
    """The disk fails now and then while four clients add campaigns: each is told 201 or that the store failed, and once
    the disk works again the next message has all of them written."""
    library = failing_library(folder)
    if library is None:
        print("failing: left out, since there is no compiler")
        return
    journal, switch = folder / "failing", folder / "fails"
    env = {"LD_PRELOAD": str(library), "RTBX_FAILS": str(switch)}
    with running(program, journal, workers=WORKERS, env=env) as server:
        switch.touch()
        answers = [[] for _ in range(WORKERS)]
        run_all([threading.Thread(target=add_some, args=(server.port, 250, it)) for it in answers])
        switch.unlink()
        came = [it for some in answers for it in some]
        failed = came.count(error(500, "store-failed"))
        numbers = [(it, re.search(rb'"campaign":(\d+)', it)) for it in came if it != error(500, "store-failed")]
        CHECKS.same("nothing else is told", [it for it, number in numbers if not number], [])
        told = sorted(int(number[1]) for _, number in numbers if number)
        if not failed:
            print("failing: left out, since no call failed behind the library")
            return
        CHECKS.same("each was answered", len(came), 1000)
        CHECKS.same("each number was told once", len(set(told)), 1000 - failed)
        with server.link() as link:
            link.send(post("/campaign", A))
            CHECKS.same("the next, once the disk works", link.answer(), new(1001))
        server.kill()
    CHECKS.same("recover has all", recovered(program, journal), counts(campaigns=1001, live=1001))
