"""The exchange once more, plainly and by docs/RULES.md, and drawn commands to which the server and it must give the
same answers, through kills and starts. Time plays no part: sales wait long, and caps count over a year.
"""

import random
from decimal import ROUND_CEILING, Decimal

from serving.checks import CHECKS
from serving.messages import NO_BID, PUBLIC, answer, error, new, number, post, message, settled, text_of, trimmed
from serving.program import counts, recovered, running

SEEDS = [1, 2, 3]
COMMANDS = 300
# A forgetting takes no more at once.
MOST_AT_ONCE = 16_384
# A kill comes before one of so many commands.
KILLS = 40


def micros(value):
    """A price as it is written, in whole micro-dollars, rounded up."""
    return int((Decimal(repr(value)) * 1_000_000).to_integral_value(ROUND_CEILING))


def amount(value, digits):
    """So many parts of a dollar as they are written: 6 digits for micro-dollars, 9 for nano-dollars."""
    whole, rest = divmod(value, 10**digits)
    return f"{whole}.{rest:0{digits}}".rstrip("0").rstrip(".")


class Sale:
    """An impression that was sold, for a price in nano-dollars, which are micro-dollars for a thousand."""

    def __init__(self, number, campaign, price, user):
        self.number = number
        self.campaign = campaign
        self.price = price
        self.user = user
        self.state = "held"


class Exchange:
    """Campaigns and sales, both numbered from 1."""

    def __init__(self):
        self.campaigns = []
        self.live = []
        # The first so many of the sales are forgotten: they count for the money of their campaigns alone.
        self.sales = []
        self.forgotten = 0

    def of(self, campaign, *states):
        return [it for it in self.sales if it.campaign == campaign and it.state in states]

    def total(self, campaign, *states):
        return sum(it.price for it in self.of(campaign, *states))

    def free(self, campaign):
        budget = micros(self.campaigns[campaign - 1]["budget"]) * 1000
        return budget - self.total(campaign, "held", "billed")

    # Commands

    def add(self, facts):
        self.campaigns.append(facts)
        self.live.append(True)
        return new(len(self.campaigns))

    def change(self, campaign, facts):
        if campaign > len(self.campaigns):
            return error(404, "no-such-campaign")
        committed = self.total(campaign, "held", "billed")
        if micros(facts["budget"]) * 1000 < committed:
            return answer(409, f'{{"error":"below-committed","committed":{amount(committed, 9)}}}')
        self.campaigns[campaign - 1] = facts
        return number(campaign)

    def set_live(self, campaign, live):
        if campaign > len(self.campaigns):
            return error(404, "no-such-campaign")
        self.live[campaign - 1] = live
        return number(campaign)

    def report(self, campaign):
        if campaign > len(self.campaigns):
            return error(404, "no-such-campaign")
        facts = self.campaigns[campaign - 1]
        told = {
            "campaign": campaign,
            "state": '"live"' if self.live[campaign - 1] else '"paused"',
            "bid": amount(micros(facts["bid"]), 6),
            "budget": amount(micros(facts["budget"]), 6),
            "reserved": amount(self.total(campaign, "held"), 9),
            "spent": amount(self.total(campaign, "billed"), 9),
            **{state: len(self.of(campaign, state)) for state in ["held", "billed", "lost", "expired"]},
        }
        return answer(200, "{" + ",".join(f'"{name}":{value}' for name, value in told.items()) + "}")

    def settle(self, sale, state):
        """A billing or a loss, which is the other's refusal."""
        if sale > len(self.sales):
            return error(404, "no-such-sale")
        if sale <= self.forgotten:
            return error(410, "forgotten")
        if self.sales[sale - 1].state not in ["held", state]:
            return error(409, f"was-{self.sales[sale - 1].state}")
        self.sales[sale - 1].state = state
        return settled(sale, state)

    def to_forget(self, keep):
        """How many of the oldest a forgetting takes: none behind the first that is held, and so that so many are left."""
        most = min(len(self.sales) - self.forgotten - keep, MOST_AT_ONCE)
        oldest = range(self.forgotten, self.forgotten + most)
        return next((n - self.forgotten for n in oldest if self.sales[n].state == "held"), len(oldest))

    def forget(self, keep):
        self.forgotten += self.to_forget(keep)
        return trimmed(len(self.sales) - self.forgotten, self.forgotten)

    def auction(self, request):
        """Sells the impressions one after the other."""
        sold = []
        for imp in request["imp"]:
            offers = [it for i in range(len(self.campaigns)) for it in self.offers(request, imp, i + 1)]
            if offers:
                winner, pool = min(offers, key=lambda it: order(self.campaigns, *it))
                price = self.price(request, imp, offers, winner, pool)
                self.sales.append(Sale(len(self.sales) + 1, winner, price, user_of(request)))
                sold.append((imp, winner, pool, price, len(self.sales)))
        return self.response(request, sold) if sold else NO_BID

    # An auction

    def offers(self, request, imp, campaign):
        """The pools in which a campaign offers: the places of deals, and None for the public one."""
        facts = self.campaigns[campaign - 1]
        if not self.live[campaign - 1] or not wants(facts, request, imp) or self.is_excluded(request, imp, campaign):
            return []
        pmp = imp.get("pmp", {})
        bid = micros(facts["bid"])
        pools = [
            place
            for place, deal in enumerate(pmp.get("deals", []))
            if deal["id"] in facts.get("deals", [])
            and deal.get("bidfloorcur", "USD") == "USD"
            and is_allowed(facts["seat"], deal.get("wseat"))
            and is_allowed(facts["adomain"], deal.get("wadomain"))
            and bid >= micros(deal.get("bidfloor", 0))
        ]
        if not pmp.get("private_auction") and imp.get("bidfloorcur", "USD") == "USD" and bid >= micros(imp.get("bidfloor", 0)):
            pools.append(None)
        return [(campaign, pool) for pool in pools]

    def is_excluded(self, request, imp, campaign):
        """Whether a rule keeps the campaign out of every pool."""
        facts = self.campaigns[campaign - 1]
        banner = imp.get("banner")
        user = user_of(request)
        return (
            request.get("test") == 1
            or not is_allowed("USD", request.get("cur"))
            or banner is None
            or not ("w" not in facts or is_allowed((facts["w"], facts["h"]), sizes_of(banner)))
            or meet(facts.get("attr"), banner.get("battr"))
            or (imp.get("secure") == 1 and not facts.get("secure"))
            or not is_allowed(facts["seat"], request.get("wseat"))
            or facts["seat"] in request.get("bseat", [])
            or meet(facts.get("cat"), request.get("bcat"))
            or facts["adomain"] in request.get("badv", [])
            or self.free(campaign) < micros(facts["bid"])
            or ("cap" in facts and (user is None or self.shown(campaign, user) >= facts["cap"]["count"]))
        )

    def shown(self, campaign, user):
        """How often a cap counts that the user was shown the campaign: a forgotten sale counts no more."""
        return sum(it.user == user and it.number > self.forgotten for it in self.of(campaign, "held", "billed"))

    def price(self, request, imp, offers, winner, pool):
        """What the winner pays in its pool."""
        terms = imp if pool is None else imp["pmp"]["deals"][pool]
        kind = request.get("at", 2) if pool is None else terms.get("at", request.get("at", 2))
        bid, floor = micros(self.campaigns[winner - 1]["bid"]), micros(terms.get("bidfloor", 0))
        if kind == 1:
            return bid
        if kind == 3:
            return floor
        second = max([micros(self.campaigns[it - 1]["bid"]) for it, its in offers if its == pool and it != winner], default=0)
        return min(bid, max(floor, second + 10_000))

    def response(self, request, sold):
        """The bid response: seats in the order of what each bought first, bids in that of the impressions."""
        seats = {}
        for imp, winner, pool, price, sale in sold:
            facts = self.campaigns[winner - 1]
            deal = None if pool is None else imp["pmp"]["deals"][pool]["id"]
            seats.setdefault(facts["seat"], []).append(bid_text(facts, request, imp, winner, deal, price, sale))
        bought = ",".join(f'{{"bid":[{",".join(bids)}],"seat":"{seat}"}}' for seat, bids in seats.items())
        return answer(200, f'{{"id":{text_of(request["id"])},"seatbid":[{bought}],"cur":"USD"}}')

    def counts(self):
        """What `recover` tells."""
        states = {state: sum(it.state == state for it in self.sales) for state in ["held", "billed", "lost"]}
        return counts(campaigns=len(self.campaigns), live=sum(self.live), sales=len(self.sales), **states)


def order(campaigns, campaign, pool):
    """The first in this order wins."""
    return pool is None, -micros(campaigns[campaign - 1]["bid"]), campaign, pool or 0


def is_allowed(value, listed):
    """A list that is empty or absent allows everything."""
    return not listed or value in listed


def meet(some, others):
    return bool(set(some or []) & set(others or []))


def sizes_of(banner):
    both = [it for it in [banner, *banner.get("format", [])] if "w" in it and "h" in it]
    return [(it["w"], it["h"]) for it in both]


def user_of(request):
    return request.get("user", {}).get("id") or None


def bid_text(facts, request, imp, campaign, deal, price, sale):
    """A bid of the response, its markup with the price and the impression filled in."""
    adm = facts["adm"].replace("${AUCTION_PRICE}", amount(price, 6)).replace("${AUCTION_IMP_ID}", imp["id"])
    told = {
        "id": text_of(str(sale)),
        "impid": text_of(imp["id"]),
        "price": amount(price, 6),
        "adid": text_of(facts["adid"]) if "adid" in facts else None,
        "burl": text_of(f"{PUBLIC}/bill/{sale}"),
        "lurl": text_of(f"{PUBLIC}/lose/{sale}"),
        "adm": text_of(adm),
        "adomain": text_of([facts["adomain"]]),
        "cid": text_of(str(campaign)),
        "crid": text_of(facts["crid"]),
        "cat": text_of(facts["cat"]) if facts.get("cat") else None,
        "attr": text_of(facts["attr"]) if facts.get("attr") else None,
        "dealid": text_of(deal) if deal is not None else None,
        "w": facts.get("w"),
        "h": facts.get("h"),
    }
    return "{" + ",".join(f'"{name}":{value}' for name, value in told.items() if value is not None) + "}"


# Targets


def wants(facts, request, imp):
    """Whether some conjunction of the target holds, all its predicates."""
    values = attributes(request, imp)
    return any(all(holds(it, values.get(it["attr"])) for it in conjunction) for conjunction in facts.get("target", [[]]))


def holds(predicate, value):
    if "in" in predicate:
        return value is not None and value in predicate["in"]
    return value is None or value not in predicate["not"]


def attributes(request, imp):
    """The values that an impression gives to attributes, as texts."""
    site, app, device, user = (request.get(it, {}) for it in ["site", "app", "device", "user"])
    publisher = site.get("publisher", {}).get("id", app.get("publisher", {}).get("id"))
    found = {
        "domain": site.get("domain"),
        "bundle": app.get("bundle"),
        "publisher": publisher,
        "country": device.get("geo", {}).get("country"),
        "os": device.get("os"),
        "devicetype": device.get("devicetype"),
        "yob": user.get("yob"),
        "tagid": imp.get("tagid"),
        "pos": imp.get("banner", {}).get("pos"),
    }
    return {name: str(value) for name, value in found.items() if value is not None}


# What is drawn

VALUES = {
    "domain": ["news.example", "blog.example", "shop.example"],
    "bundle": ["com.example.weather", "com.example.maps"],
    "publisher": ["p1", "p2", "p3"],
    "country": ["USA", "DEU", "FRA"],
    "os": ["iOS", "Android", ""],
    "devicetype": ["1", "4", "5"],
    "yob": ["1980", "1990"],
    "tagid": ["top", "side"],
    "pos": ["1", "3"],
}
SEATS = ["s1", "s2", "s3"]
DOMAINS = ["ads.example", "cars.example", "shoes.example"]
CATEGORIES = ["IAB1", "IAB7", "IAB25"]
DEALS = ["d1", "d2", "d3"]
SIZES = [(300, 250), (320, 50), (728, 90)]
BIDS = [0.000001, 0.01, 0.5, 0.99, 1, 1.5, 1.500001, 2, 2.5, 7]
FLOORS = [0, 0.01, 0.3, 0.3000001, 0.99, 1, 1.5, 2.4999999, 5]


class Draw(random.Random):
    """Draws parts of messages."""

    def some(self, values, chance=0.5):
        return [it for it in values if self.random() < chance]

    def maybe(self, chance, name, draw):
        """A member, or none."""
        return {name: draw()} if self.random() < chance else {}

    def predicate(self, attr):
        values = self.sample(VALUES[attr], self.randint(1, len(VALUES[attr])))
        return {"attr": attr, self.choice(["in", "in", "not"]): values}

    def conjunction(self):
        return [self.predicate(attr) for attr in self.sample(sorted(VALUES), self.choice([0, 1, 1, 2, 3]))]

    def size(self):
        width, height = self.choice(SIZES)
        return {"w": width, "h": height}

    def campaign(self):
        return {
            "seat": self.choice(SEATS),
            "adomain": self.choice(DOMAINS),
            **self.maybe(0.3, "cat", lambda: self.some(CATEGORIES)),
            **(self.size() if self.random() < 0.4 else {}),
            **self.maybe(0.2, "attr", lambda: self.some([1, 6, 13])),
            **self.maybe(0.8, "secure", lambda: self.choice([1, 1, 0])),
            "bid": self.choice(BIDS),
            **self.maybe(0.5, "deals", lambda: self.some(DEALS)),
            "budget": self.choice([0, 0.003, 0.01, 0.025, 5]),
            "adm": self.choice(["<p>${AUCTION_PRICE}</p>", "\"a\" & b", "${AUCTION_IMP_ID}:${AUCTION_IMP_ID}", "x"]),
            "crid": self.choice(["c1", "c2"]),
            **self.maybe(0.2, "adid", lambda: "a1"),
            **self.maybe(0.3, "cap", lambda: {"count": self.randint(1, 2), "seconds": 31_536_000}),
            **self.maybe(0.7, "target", lambda: [self.conjunction() for _ in range(self.randint(1, 3))]),
        }

    def deal(self):
        return {
            "id": self.choice(DEALS),
            **self.maybe(0.7, "bidfloor", lambda: self.choice(FLOORS)),
            **self.maybe(0.1, "bidfloorcur", lambda: self.choice(["USD", "EUR"])),
            **self.maybe(0.6, "at", lambda: self.randint(1, 3)),
            **self.maybe(0.3, "wseat", lambda: self.some(SEATS)),
            **self.maybe(0.2, "wadomain", lambda: self.some(DOMAINS)),
        }

    def pmp(self):
        deals = [self.deal() for _ in range(self.randint(0, 3))]
        return {**self.maybe(0.5, "private_auction", lambda: self.randint(0, 1)), "deals": deals}

    def banner(self):
        return {
            **(self.size() if self.random() < 0.5 else {}),
            **self.maybe(0.3, "format", lambda: [self.size() for _ in range(2)]),
            **self.maybe(0.2, "battr", lambda: self.some([1, 6, 13])),
            **self.maybe(0.5, "pos", lambda: int(self.choice(VALUES["pos"]))),
        }

    def imp(self, name):
        return {
            "id": name,
            **self.maybe(0.9, "banner", self.banner),
            **self.maybe(0.5, "tagid", lambda: self.choice(VALUES["tagid"])),
            **self.maybe(0.3, "secure", lambda: self.randint(0, 1)),
            **self.maybe(0.6, "bidfloor", lambda: self.choice(FLOORS)),
            **self.maybe(0.1, "bidfloorcur", lambda: self.choice(["USD", "EUR"])),
            **self.maybe(0.4, "pmp", self.pmp),
        }

    def place(self, name):
        """A site or an app, by the name of its attribute."""
        return {
            **self.maybe(0.8, name, lambda: self.choice(VALUES[name])),
            **self.maybe(0.5, "publisher", lambda: self.maybe(0.8, "id", lambda: self.choice(VALUES["publisher"]))),
        }

    def device(self):
        return {
            **self.maybe(0.7, "os", lambda: self.choice(VALUES["os"])),
            **self.maybe(0.7, "devicetype", lambda: int(self.choice(VALUES["devicetype"]))),
            **self.maybe(0.7, "geo", lambda: self.maybe(0.9, "country", lambda: self.choice(VALUES["country"]))),
        }

    def user(self):
        return {
            **self.maybe(0.9, "id", lambda: self.choice(["u1", "u2", "u3", ""])),
            **self.maybe(0.5, "yob", lambda: int(self.choice(VALUES["yob"]))),
        }

    def request(self):
        return {
            "id": self.choice(["b1", "b\"2"]),
            "imp": [self.imp(f"i{i}") for i in range(self.choice([1, 1, 2, 3]))],
            **self.maybe(0.7, "site", lambda: self.place("domain")),
            **self.maybe(0.3, "app", lambda: self.place("bundle")),
            **self.maybe(0.7, "device", self.device),
            **self.maybe(0.7, "user", self.user),
            **self.maybe(0.5, "at", lambda: self.randint(1, 2)),
            **self.maybe(0.05, "test", lambda: self.randint(0, 1)),
            **self.maybe(0.3, "cur", lambda: self.choice([[], ["USD"], ["EUR", "USD"], ["EUR"]])),
            **self.maybe(0.2, "wseat", lambda: self.some(SEATS)),
            **self.maybe(0.2, "bseat", lambda: self.some(SEATS, 0.3)),
            **self.maybe(0.2, "bcat", lambda: self.some(CATEGORIES)),
            **self.maybe(0.2, "badv", lambda: self.some(DOMAINS, 0.3)),
        }

    def sale(self, exchange):
        """The oldest sale that is held, which holds back all behind it, or one of the last, or any, or one that is not there."""
        last = len(exchange.sales)
        oldest = next((it.number for it in exchange.sales if it.state == "held"), max(1, last))
        return self.choice([oldest, oldest, self.randint(max(1, last - 12), last + 1), self.randint(1, last + 1)])

    def command(self, exchange):
        """A message, and what the exchange answers to it."""
        kinds = {"auction": 50, "settle": 20, "report": 10, "add": 10, "change": 5, "state": 5, "forget": 5}
        kind = self.choices(list(kinds), list(kinds.values()))[0]
        campaign = self.randint(1, len(exchange.campaigns) + 1)
        if kind == "auction":
            request = self.request()
            return post("/openrtb2/auction", text_of(request)), exchange.auction(request)
        if kind == "settle":
            sale = self.sale(exchange)
            path, state = self.choice([("bill", "billed"), ("lose", "lost")])
            return message(self.choice(["GET", "POST"]), f"/{path}/{sale}"), exchange.settle(sale, state)
        if kind == "forget":
            keep = self.randint(0, 30)
            return post(f"/forget/{keep}"), exchange.forget(keep)
        if kind == "report":
            return message("GET", f"/campaign/{campaign}"), exchange.report(campaign)
        if kind == "state":
            live = self.random() < 0.6
            return post(f"/{'resume' if live else 'pause'}/{campaign}"), exchange.set_live(campaign, live)
        facts = self.campaign()
        if kind == "change":
            return post(f"/campaign/{campaign}", text_of(facts)), exchange.change(campaign, facts)
        return post("/campaign", text_of(facts)), exchange.add(facts)


def try_model(program, folder):
    """Drawn commands, with kills among them: each answer is that of the exchange."""
    for seed in SEEDS:
        CHECKS.part = f"model, drawn from {seed}"
        journal = folder / f"model.{seed}"
        exchange = Exchange()
        draw = Draw(seed)
        commands = [draw.command(exchange) for _ in range(COMMANDS)]
        if not all(serve_some(program, journal, some) for some in cut(draw, commands)):
            return
        CHECKS.same("recover", recovered(program, journal), exchange.counts())


def cut(draw, commands):
    """The commands in runs, each of a server that is killed then."""
    places = sorted(draw.sample(range(1, len(commands)), len(commands) // KILLS))
    return [commands[start:end] for start, end in zip([0, *places], [*places, len(commands)])]


def serve_some(program, journal, commands):
    """Whether a server on the journal answers these as it should."""
    with running(program, journal) as server, server.link() as link:
        for data, wanted in commands:
            link.send(data)
            if not CHECKS.same(data.decode(), link.answer(), wanted):
                return False
    return True
