"""Calls of what is read of JSON and of its numbers and texts, and of what is written, over one server.

- `is_number | TEXT`: whether the text is a JSON number, and `json | TEXT`: `ok`, or how it is no JSON text, and where.
- `json_text | TEXT`: the bytes that a JSON string stands for, as a request's id that comes back.
- `text_json | BYTES`: how a text of these bytes is written.
- `exact | NUMBER`: how many micro-dollars a bid of that number is, or what is wrong with it.
- `floor | NUMBER | MICROS`: whether a floor of that number lets a bid of so many micro-dollars buy and none of one less; or
  of a number alone what is wrong with it.
- `whole | NUMBER | VALUE`: whether that number is this whole one, as the position of an ad on the page.
- `amount | MICROS`: how a report writes a bid of so many micro-dollars.
"""

import json
import re
from decimal import Decimal

from answering.readings import Reader
from serving.messages import get

MICRO = Decimal(10) ** -6
CALLS = {"is_number", "json", "json_text", "text_json", "exact", "floor", "whole", "amount"}


class Market:
    """A server, and for each call a site of its own, which no campaign of another call wants."""

    def __init__(self, program, journal):
        self.reader, self.sites, self.campaigns = Reader(program, journal), 0, 0

    def end(self):
        self.reader.end()

    def site(self):
        self.sites += 1
        return f"s{self.sites}.example"

    def add(self, bid, target):
        """The refusal of a campaign, or none."""
        facts = b'{"seat":"s","adomain":"a","adm":"","crid":"c","budget":1000000,"bid":' + bid
        fault = self.reader.fault("/campaign", facts + b',"target":' + json.dumps([target]).encode() + b"}")
        self.campaigns += fault is None
        return fault

    def ask(self, site, imp=b"", name=b'"1"'):
        """The status and the answer to a request with one impression on the site."""
        head = b'{"id":' + name + b',"site":{"domain":"' + site.encode() + b'"},"imp":[{"id":"1","banner":{}'
        return self.reader.ask("/openrtb2/auction", head + imp + b"}]}")

    def report(self):
        """What is told of the last campaign."""
        return self.reader.told(get(f"/campaign/{self.campaigns}"))[1]


def wants(site, **others):
    """A target of the site, and of these values of other attributes."""
    return [{"attr": "domain", "in": [site]}, *({"attr": attr, "in": [value]} for attr, value in others.items())]


def dollars(micros):
    return format(int(micros) * MICRO, "f").encode()


def json_told(market, text):
    fault = market.reader.fault("/openrtb2/auction", text)
    if fault is None or not fault["error"].startswith("json-"):
        return b"ok"
    return f"{fault['error'].removeprefix('json-')} {fault['at']}".encode()


def id_of(market, text):
    """The id of a response to a request with that id, as it is written."""
    site = market.site()
    market.add(b"1", wants(site))
    status, answered = market.ask(site, name=text)
    return re.match(rb'\{"id":("(?:[^"\\]|\\.)*"),"seatbid"', answered, re.S)[1] if status == 200 else answered


def exact_told(market, number):
    fault = market.add(number, wants(market.site()))
    if fault is not None:
        return b"0" if fault["error"] == "bid-zero" else fault["fault"].encode()
    return str(int(Decimal(json.loads(market.report(), parse_float=Decimal)["bid"]) / MICRO)).encode()


def floor_told(market, number, micros=None):
    site = market.site()
    floor = b',"bidfloor":' + number
    if micros is None:
        return json.loads(market.ask(site, floor)[1])["fault"].encode()
    for bid, wanted in ((int(micros) - 1, 204), (max(int(micros), 1), 200)):
        if bid > 0:
            market.add(dollars(bid), wants(site))
            if market.ask(site, floor)[0] != wanted:
                return b"no"
    return b"yes"


def whole_told(market, number, value):
    site = market.site()
    market.add(b"1", wants(site, pos=value.decode()))
    return b"yes" if market.ask(site, b',"banner":{"pos":' + number + b"}")[0] == 200 else b"no"


def told(market, call, args):
    """What the call is answered."""
    if call == "is_number":
        return b"yes" if json_told(market, args[0]) == b"ok" else b"no"
    if call == "json":
        return json_told(market, args[0])
    if call == "json_text":
        return json.loads(id_of(market, args[0])).encode()
    if call == "text_json":
        return id_of(market, json.dumps(args[0].decode()).encode())
    if call == "exact":
        return exact_told(market, args[0])
    if call == "floor":
        return floor_told(market, *args)
    if call == "whole":
        return whole_told(market, *args)
    market.add(dollars(args[0]), wants(market.site()))
    return re.search(rb'"bid":([^,]*)', market.report())[1]
