"""Messages with their answers, by the rules: each script has an exchange of its own, and is sent in one piece
and byte by byte.
"""

from serving.checks import CHECKS
from serving.messages import (
    A,
    B,
    NO_BID,
    PUBLIC,
    Q1,
    SELL,
    answer,
    bid,
    campaign,
    error,
    get,
    message,
    new,
    number,
    post,
    report,
    request,
    response,
    sell,
    settled,
    won,
    won_by_a,
    won_by_b,
)
from serving.program import converse, running


def sale_steps():
    """A campaign, a sale by second price, billing, losing, reports, pause, resume and change."""
    return [
        ("a request before any campaign", SELL, NO_BID),
        ("a campaign", post("/campaign", A), new(1)),
        ("another", post("/campaign", B), new(2)),
        ("the greater bid wins and pays the second and a cent", SELL, won_by_a(1)),
        ("the sale is held", get("/campaign/1"), report(1, reserved="0.00101", held=1)),
        ("the other has none", get("/campaign/2"), report(2, bid="1")),
        ("a billing", post("/bill/1"), settled(1, "billed")),
        ("the same by GET, answered again", get("/bill/1"), settled(1, "billed")),
        ("it is spent once", get("/campaign/1"), report(1, spent="0.00101", billed=1)),
        ("what was billed is not lost", post("/lose/1"), error(409, "was-billed")),
        ("the next sale", SELL, won_by_a(2)),
        ("a loss", get("/lose/2"), settled(2, "lost")),
        ("the same again", post("/lose/2"), settled(2, "lost")),
        ("what was lost is not billed", post("/bill/2"), error(409, "was-lost")),
        ("its price is free", get("/campaign/1"), report(1, spent="0.00101", billed=1, lost=1)),
        ("a pause", post("/pause/1"), number(1)),
        ("the same again", post("/pause/1"), number(1)),
        ("it is paused", get("/campaign/1"), report(1, state="paused", spent="0.00101", billed=1, lost=1)),
        ("the other wins, at the floor", SELL, won_by_b(3)),
        ("goes on", post("/resume/1"), number(1)),
        ("the same again", post("/resume/1"), number(1)),
        ("wins again", SELL, won_by_a(4)),
        (
            "a budget below what is committed",
            post("/campaign/1", A.replace('"budget":10', '"budget":0.001')),
            error(409, "below-committed", committed=0.00202),
        ),
        ("a budget of just that", post("/campaign/1", A.replace('"budget":10', '"budget":0.00202')), number(1)),
        (
            "nothing of it is free",
            get("/campaign/1"),
            report(1, budget="0.00202", reserved="0.00101", spent="0.00101", held=1, billed=1, lost=1),
        ),
        ("so the other wins", SELL, won_by_b(5)),
        ("a change of the bid", post("/campaign/1", A.replace("2.50", "3.25")), number(1)),
        ("wins by it", SELL, won_by_a(6)),
        (
            "the change kept what was sold",
            get("/campaign/1"),
            report(1, bid="3.25", reserved="0.00202", spent="0.00101", held=2, billed=1, lost=1),
        ),
        ("and what the other was sold", get("/campaign/2"), report(2, bid="1", reserved="0.0006", held=2)),
    ]


def path_steps():
    """Paths and methods that are not taken."""
    both, one = "GET, POST", "POST"
    return [
        ("a campaign", post("/campaign", A), new(1)),
        ("a method of neither kind", message("DELETE", "/campaign/1"), answer(405, allow=both)),
        ("HEAD", message("HEAD", "/campaign/1"), answer(405, allow=both)),
        ("a method in small letters", message("get", "/campaign/1"), answer(405, allow=both)),
        ("the method comes before the path", message("PUT", "/nothing"), answer(405, allow=both)),
        ("a path that is not listed", get("/nothing"), error(404, "not-found")),
        ("the root", get("/"), error(404, "not-found")),
        ("a campaign with a zero in front", get("/campaign/01"), error(404, "not-found")),
        ("campaign 0", get("/campaign/0"), error(404, "not-found")),
        ("no number", get("/campaign/"), error(404, "not-found")),
        ("a number of 2^64", get("/campaign/18446744073709551616"), error(404, "not-found")),
        ("one below", get("/campaign/18446744073709551615"), error(404, "no-such-campaign")),
        ("a path with capitals", get("/Campaign/1"), error(404, "not-found")),
        ("a slash behind", get("/campaign/1/"), error(404, "not-found")),
        ("an escape is not decoded", get("/campaign/%31"), error(404, "not-found")),
        ("what stands behind ? plays no part", get("/campaign/1?x=/nothing"), report(1)),
        ("GET of an auction", get("/openrtb2/auction"), answer(405, allow=one)),
        ("GET of /campaign", get("/campaign"), answer(405, allow=one)),
        ("GET of a pause", get("/pause/1"), answer(405, allow=one)),
        ("GET of a resumption", get("/resume/1"), answer(405, allow=one)),
        ("a campaign that is not there", get("/campaign/2"), error(404, "no-such-campaign")),
        ("to pause it", post("/pause/9"), error(404, "no-such-campaign")),
        ("to resume it", post("/resume/9"), error(404, "no-such-campaign")),
        ("to change it", post("/campaign/9", A), error(404, "no-such-campaign")),
        ("a sale that was never made", post("/bill/1"), error(404, "no-such-sale")),
        ("to lose it", post("/lose/1"), error(404, "no-such-sale")),
        ("sale 0", post("/bill/0"), error(404, "not-found")),
        ("a body that no command has is not looked at", post("/pause/1", "{"), number(1)),
    ]


def body_steps():
    """Bodies that are refused, with the first fault and its place."""

    def refused(step, target, body, word, **members):
        return step, post(target, body), error(400, word, **members)

    auction, add = "/openrtb2/auction", "/campaign"
    imps = ",".join('{"id":"1","banner":{}}' for _ in range(2))
    return [
        refused("a text that ends early", auction, '{"id":"b1"', "json-ended", at=10),
        refused("no body", auction, "", "json-ended", at=0),
        refused("a text with more behind it", auction, "{} x", "json-syntax", at=3),
        refused("bytes that are no UTF-8", auction, b'{"id":"\xff"}', "json-utf8", at=7),
        refused("no object", auction, "[]", "not-object"),
        refused("no id", auction, "{}", "missing", field="id"),
        refused("no impression", auction, '{"id":"b1","imp":[]}', "no-imps"),
        refused("an impression without an id", auction, '{"id":"b1","imp":[{}]}', "missing", field="imp[0].id"),
        refused("an id of another type", auction, '{"id":1,"imp":[]}', "wrong-type", field="id"),
        refused("two impressions of one id", auction, request(imps), "duplicate-imp", first=0, second=1),
        refused(
            "a floor below 0", auction, '{"id":"b1","imp":[{"id":"1","bidfloor":-1}]}', "price", field="imp[0].bidfloor", fault="negative"
        ),
        refused("an auction type", auction, request(more=',"at":3'), "auction-type", field="at"),
        refused("a campaign without a seat", add, "{}", "missing", field="seat"),
        refused("a bid that is too fine", add, campaign(bid="0.0000001"), "price", field="bid", fault="too-fine"),
        refused("a bid of 0", add, campaign(bid="0"), "bid-zero"),
        refused("a width without a height", add, campaign(w=300), "size"),
        refused("no conjunction", add, campaign(target="[]"), "no-conjunction"),
        refused(
            "an attribute that is not known",
            add,
            campaign(target='[[{"attr":"color","in":["red"]}]]'),
            "unknown-attr",
            conjunction=0,
            predicate=0,
        ),
        refused(
            "one that stands twice",
            add,
            campaign(target='[[{"attr":"os","in":["iOS"]},{"attr":"os","not":["Linux"]}]]'),
            "attr-twice",
            conjunction=0,
            predicate=1,
        ),
        refused("no values", add, campaign(target='[[{"attr":"os","in":[]}]]'), "empty-list", conjunction=0, predicate=0),
        refused(
            "in and not", add, campaign(target='[[{"attr":"os","in":["a"],"not":["b"]}]]'), "wrong-type", field="target[0][0].not"
        ),
        refused("a cap of no times", add, campaign(cap='{"count":0,"seconds":60}'), "range", field="cap.count"),
        refused("an empty text", add, campaign(crid=""), "text-length", field="crid"),
        ("nothing of these was taken", get("/campaign/1"), error(404, "no-such-campaign")),
    ]


def wire_steps():
    """Messages that are refused as messages; each ends its link."""

    def refused(step, data, status, word):
        return step, data, error(status, word, closes=True)

    head = b"POST /campaign HTTP/1.1\r\n"
    return [
        refused("a body that is packed", post("/campaign", A, fields=["Content-Encoding: gzip"]), 415, "content-encoding"),
        ("identity is none", post("/campaign", A, fields=["Content-Encoding: IDENTITY"]), new(1)),
        refused("chunks", head + b"Transfer-Encoding: chunked\r\n\r\n", 501, "transfer-encoding"),
        refused("chunks with a length", head + b"Transfer-Encoding: chunked\r\nContent-Length: 2\r\n\r\n{}", 501, "transfer-encoding"),
        refused("a length that is no number", head + b"Content-Length: two\r\n\r\n", 400, "content-length"),
        refused("two lengths", head + b"Content-Length: 2\r\nContent-Length: 3\r\n\r\n", 400, "content-length"),
        ("one length twice", head + b"Content-Length: 2\r\nContent-Length: 2\r\n\r\n{}", error(400, "missing", field="seat")),
        refused("no request line", b"hello\r\n\r\n", 400, "head"),
        refused("HTTP/2", b"GET /campaign/1 HTTP/2.0\r\n\r\n", 400, "head"),
        refused("a space before a colon", b"GET /campaign/1 HTTP/1.1\r\nHost : x\r\n\r\n", 400, "head"),
        refused("a line that is folded", b"GET /campaign/1 HTTP/1.1\r\nA: x\r\n y\r\n\r\n", 400, "head"),
        refused("a head of TLS", b"\x16\x03\x01\x02\x00\x01\x00\x01\xfc\x03\x03\n\n", 400, "head"),
        ("no Host", b"GET /campaign/1 HTTP/1.1\r\n\r\n", report(1)),
        ("lines ended by LF alone", b"GET /campaign/1 HTTP/1.1\n\n", report(1)),
        ("empty lines before the head", b"\r\n\r\nGET /campaign/1 HTTP/1.1\r\n\r\n", report(1)),
        ("nothing is told before the body has come", post("/campaign", A, fields=["Expect: 100-continue"]), new(2)),
    ]


def close_steps():
    """Messages that end the link with their answer."""

    def closing(n):
        return report(n).replace(b"\r\n\r\n", b"\r\nConnection: close\r\n\r\n", 1)

    return [
        ("a campaign", post("/campaign", A), new(1)),
        ("Connection: close", get("/campaign/1", fields=["Connection: close"]), closing(1)),
        ("close among others", get("/campaign/1", fields=["Connection: te , CLOSE"]), closing(1)),
        ("HTTP/1.0", get("/campaign/1", version="1.0"), closing(1)),
        ("HTTP/1.0 that would stay", get("/campaign/1", version="1.0", fields=["Connection: keep-alive"]), closing(1)),
        ("keep-alive stays", get("/campaign/1", fields=["Connection: keep-alive"]), report(1)),
    ]


def budget_steps():
    """Two impressions, of which the second goes to who can still pay."""
    imps = ",".join(f'{{"id":"{i}","bidfloor":0.30,"banner":{{}}}}' for i in [1, 2])
    bids = [bid(1, 1, "1.01", 1, "M", "s1.example", "c1"), bid(2, 2, "0.3", 2, "M", "s2.example", "c1")]
    return [
        ("a small budget", post("/campaign", campaign("s1", bid="2.50", budget="0.003")), new(1)),
        ("a lower bid", post("/campaign", campaign("s2", bid="1.00")), new(2)),
        ("two impressions, two seats", sell(imps), response(["s1", bids[0]], ["s2", bids[1]])),
        ("1990000 nano-dollars are free", get("/campaign/1"), report(1, budget="0.003", reserved="0.00101", held=1)),
        ("the second bidder's sale", get("/campaign/2"), report(2, bid="1", reserved="0.0003", held=1)),
    ]


def target_steps():
    """Targets that want an impression or not."""
    not_ios = '[[{"attr":"os","not":["iOS"]}]]'
    usa = '[[{"attr":"country","in":["USA"]},{"attr":"os","in":["iOS"]},{"attr":"domain","not":["news.example"]}]]'
    any_or_news = '[[],[{"attr":"domain","in":["news.example"]}]]'
    in_usa = ',"device":{"os":"iOS","geo":{"country":"USA"}}'
    return [
        ("not on iOS", post("/campaign", campaign("s1", bid="2.50", target=not_ios)), new(1)),
        ("no device is not iOS", sell(), won(1, "0.01")),
        ("iOS is excluded", sell(more=',"device":{"os":"iOS"}'), NO_BID),
        ("paused", post("/pause/1"), number(1)),
        ("three predicates", post("/campaign", campaign("s2", bid="2.50", target=usa)), new(2)),
        ("one of which fails", sell(more=in_usa), NO_BID),
        ("all of which hold", post("/openrtb2/auction", request(more=in_usa).replace("news", "blog")), won(2, "0.01", 2, "s2")),
        ("two conjunctions", post("/campaign", campaign("s3", bid="2.50", target=any_or_news)), new(3)),
        ("both hold, and it offers once", sell(), won(3, "0.01", 3, "s3")),
    ]


def deal_steps():
    """Deals and private auctions."""

    def offered(pmp):
        return sell(f'{{"id":"1","banner":{{}},"pmp":{pmp}}}')

    at_floor = '{"deals":[{"id":"d1","at":3,"bidfloor":4}]}'
    first_price = '{"deals":[{"id":"d2","at":1,"bidfloor":1}]}'
    return [
        ("no deal", post("/campaign", campaign("s1", bid="9")), new(1)),
        ("a private auction", offered('{"private_auction":1,"deals":[{"id":"d1"}]}'), NO_BID),
        ("two that list deals", post("/campaign", campaign("s2", bid="5", deals='["d1"]')), new(2)),
        ("", post("/campaign", campaign("s3", bid="2", deals='["d2"]')), new(3)),
        ("the floor is the price", offered(at_floor), won(1, "4", 2, "s2", more=',"dealid":"d1"')),
        ("a deal goes before a greater bid", offered(first_price), won(2, "2", 3, "s3", more=',"dealid":"d2"')),
        ("a deal's floor is above the bid", offered('{"deals":[{"id":"d2","bidfloor":2.000001}]}'), won(3, "5.01")),
        ("a deal for another seat", offered('{"deals":[{"id":"d2","wseat":["s9"]}]}'), won(4, "5.01")),
    ]


def block_steps():
    """Blocks, seats, currencies, and first price."""
    blocked = Q1.replace('"badv":["other.example"]', '"badv":["shoes.example"]')
    wanted = Q1.replace('"badv":', '"wseat":["s1"],"badv":')
    return [
        ("a campaign", post("/campaign", A), new(1)),
        ("another", post("/campaign", B), new(2)),
        ("a blocked domain", post("/openrtb2/auction", blocked), won_by_b(1)),
        ("one seat is wanted", post("/openrtb2/auction", wanted), won_by_a(2, "0.3")),
        ("both seats are blocked", post("/openrtb2/auction", Q1.replace('"badv":', '"bseat":["s1","s2"],"badv":')), NO_BID),
        ("another currency", post("/openrtb2/auction", Q1.replace('["USD"]', '["EUR"]')), NO_BID),
        ("a floor in another currency", post("/openrtb2/auction", Q1.replace('cur":"USD"', 'cur":"EUR"')), NO_BID),
        ("a test", post("/openrtb2/auction", Q1.replace('"at":2', '"at":2,"test":1')), NO_BID),
        ("first price", post("/openrtb2/auction", Q1.replace('"at":2', '"at":1')), won_by_a(3, "2.5")),
        ("a size that neither has", post("/openrtb2/auction", Q1.replace("250", "251")), NO_BID),
        ("a video alone", sell('{"id":"1","video":{"mimes":["video/mp4"]}}'), NO_BID),
    ]


def macro_steps():
    """Markup with each macro, and a campaign with each member that a bid tells."""
    macros = ["ID", "BID_ID", "IMP_ID", "SEAT_ID", "AD_ID", "PRICE", "CURRENCY", "LOSS"]
    adm = " ".join(f"${{AUCTION_{name}}}" for name in macros)
    full = campaign("s1", "2", adm=adm, cat='["IAB22","IAB1-1"]', w=300, h=250, attr="[1,13]", adid='"a7"')
    told = (
        f'{{"id":"1","impid":"1","price":0.01,"adid":"a7","burl":"{PUBLIC}/bill/1","lurl":"{PUBLIC}/lose/1",'
        '"adm":"b1 1 1 s1 a7 0.01 USD ${AUCTION_LOSS}","adomain":["s1.example"],"cid":"1","crid":"c1",'
        '"cat":["IAB22","IAB1-1"],"attr":[1,13],"w":300,"h":250}'
    )
    return [("a campaign of all members", post("/campaign", full), new(1)), ("each is told", sell(), response(["s1", told]))]


SCRIPTS = {
    "sale": sale_steps,
    "paths": path_steps,
    "bodies": body_steps,
    "wire": wire_steps,
    "closing": close_steps,
    "budget": budget_steps,
    "targets": target_steps,
    "deals": deal_steps,
    "blocks": block_steps,
    "macros": macro_steps,
}


def try_scripts(program, folder):
    """Each script, its messages in one piece, and then byte by byte."""
    for name, steps in SCRIPTS.items():
        for piece, how in [(None, "in one piece"), (1, "byte by byte")]:
            CHECKS.part = f"{name}, {how}"
            with running(program, folder / f"{name}.{piece}") as server:
                converse(server, steps(), piece)
