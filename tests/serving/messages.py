"""Messages and their answers, byte for byte, and the campaigns and requests that several parts send."""

import hmac
import json
import re

PUBLIC = "http://x.example"


def message(method, target, body=b"", fields=(), version="1.1"):
    """A request of HTTP, with the length of its body where it has one."""
    body = body.encode() if isinstance(body, str) else body
    lines = [f"{method} {target} HTTP/{version}", "Host: x.example", *fields]
    if body:
        lines += ["Content-Type: application/json", f"Content-Length: {len(body)}"]
    return "\r\n".join([*lines, "", ""]).encode() + body


def get(target, **more):
    return message("GET", target, **more)


def post(target, body=b"", **more):
    return message("POST", target, body, **more)


REASONS = {
    200: "OK",
    201: "Created",
    204: "No Content",
    400: "Bad Request",
    403: "Forbidden",
    404: "Not Found",
    405: "Method Not Allowed",
    409: "Conflict",
    410: "Gone",
    413: "Content Too Large",
    415: "Unsupported Media Type",
    431: "Request Header Fields Too Large",
    500: "Internal Server Error",
    501: "Not Implemented",
    503: "Service Unavailable",
}


def answer(status, body="", allow=None, closes=False):
    """The bytes of an answer."""
    lines = [f"HTTP/1.1 {status} {REASONS[status]}"]
    if allow:
        lines.append(f"Allow: {allow}")
    if body:
        lines.append("Content-Type: application/json")
    if status != 204:
        lines.append(f"Content-Length: {len(body.encode())}")
    if closes:
        lines.append("Connection: close")
    return "\r\n".join([*lines, "", ""]).encode() + body.encode()


NO_BID = answer(204)


def error(status, word, closes=False, **members):
    """A refusal."""
    return answer(status, text_of({"error": word, **members}), closes=closes)


def text_of(value):
    return json.dumps(value, separators=(",", ":"))


def number(n):
    """The answer to a campaign that was changed, paused or resumed."""
    return answer(200, f'{{"campaign":{n}}}')


def new(n):
    return answer(201, f'{{"campaign":{n}}}')


def token(key, path):
    """What stands behind the path of a notice, and is told of that of a campaign, where addresses are signed by the key."""
    return hmac.new(key, path.encode(), "sha256").hexdigest()[:32]


def signed(key, path):
    """The path with its token."""
    return f"{path}/{token(key, path)}"


def keyed_body(body, key, is_new):
    """The body of an answer of a server that signs addresses, by that of one that does not; `is_new` is of a campaign's 201."""
    body = re.sub(r'(/(?:bill|lose)/\d+)"', lambda it: signed(key, it[1]) + '"', body)
    if is_new:
        body = re.sub(r'\{"campaign":(\d+)\}', lambda it: f'{{"campaign":{it[1]},"token":"{token(key, "/campaign/" + it[1])}"}}', body)
    return body


def keyed(given, key):
    """The answer likewise."""
    head, end, body = given.decode().partition("\r\n\r\n")
    body = keyed_body(body, key, head.startswith("HTTP/1.1 201 "))
    head = re.sub(r"Content-Length: \d+", f"Content-Length: {len(body.encode())}", head)
    return (head + end + body).encode()


def settled(n, state):
    """The answer to a notice of a sale."""
    return answer(200, f'{{"sale":{n},"state":"{state}"}}')


def trimmed(sales, forgotten):
    """The answer to POST /forget/K."""
    return answer(200, f'{{"sales":{sales},"forgotten":{forgotten}}}')


def report(campaign, state="live", bid="2.5", budget="10", reserved="0", spent="0", held=0, billed=0, lost=0, expired=0):
    """The answer to GET /campaign/N; amounts as they are written."""
    return answer(
        200,
        f'{{"campaign":{campaign},"state":"{state}","bid":{bid},"budget":{budget},"reserved":{reserved},'
        f'"spent":{spent},"held":{held},"billed":{billed},"lost":{lost},"expired":{expired}}}',
    )


def bid(sale, imp, price, campaign, adm, domain, crid, more=""):
    """A bid of a response; `more` are the members behind `crid`."""
    return (
        f'{{"id":"{sale}","impid":"{imp}","price":{price},"burl":"{PUBLIC}/bill/{sale}",'
        f'"lurl":"{PUBLIC}/lose/{sale}","adm":"{adm}","adomain":["{domain}"],"cid":"{campaign}","crid":"{crid}"{more}}}'
    )


def response(*seats):
    """The answer to a request that was sold: for each seat its name and its bids."""
    bought = ",".join(f'{{"bid":[{",".join(bids)}],"seat":"{seat}"}}' for seat, *bids in seats)
    return answer(200, f'{{"id":"b1","seatbid":[{bought}],"cur":"USD"}}')


A = (
    '{"seat":"s1","adomain":"shoes.example","w":300,"h":250,"secure":1,"bid":2.50,"budget":10,'
    '"adm":"<p>${AUCTION_PRICE}</p>","crid":"c1","target":[[{"attr":"domain","in":["news.example"]}]]}'
)
B = '{"seat":"s2","adomain":"cars.example","w":300,"h":250,"secure":1,"bid":1.00,"budget":10,"adm":"B","crid":"c2"}'
P1 = '{"id":"b1","imp":[{"id":"1","banner":{}}],"site":{"domain":"news.example"}}'
Q1 = (
    '{"id":"b1","at":2,"tmax":120,"cur":["USD"],"imp":[{"id":"1","tagid":"top","bidfloor":0.30,'
    '"bidfloorcur":"USD","secure":1,"instl":0,"banner":{"w":300,"h":250,"pos":1,"battr":[13],'
    '"format":[{"w":300,"h":250},{"w":320,"h":50}]}}],"site":{"id":"102855","domain":"news.example",'
    '"publisher":{"id":"8953","name":"News"},"page":"http://news.example/a?b=1"},"device":{"ua":"Mozilla/5.0",'
    '"ip":"192.0.2.7","devicetype":2,"os":"OS X","osv":"10.15","language":"en","geo":{"lat":37.789,'
    '"lon":-122.394,"country":"USA","city":"San Francisco"}},"user":{"id":"55816b39","yob":1984},'
    '"badv":["other.example"],"bcat":["IAB25"],"ext":{"x":[1.5e3,null]}}'
)
SELL = post("/openrtb2/auction", Q1)
SIZE = ',"w":300,"h":250'


def campaign(seat="s1", bid="1", budget="10", adm="M", crid="c1", **more):
    """A campaign without a size, of HTTPS; `more` are further members."""
    members = "".join(f',"{name}":{value}' for name, value in more.items())
    return (
        f'{{"seat":"{seat}","adomain":"{seat}.example","secure":1,"bid":{bid},"budget":{budget},'
        f'"adm":"{adm}","crid":"{crid}"{members}}}'
    )


def request(imps='{"id":"1","banner":{}}', more=""):
    """A bid request for these impressions; `more` are further members."""
    return f'{{"id":"b1","imp":[{imps}],"site":{{"domain":"news.example"}}{more}}}'


def sell(imps='{"id":"1","banner":{}}', more=""):
    return post("/openrtb2/auction", request(imps, more))


def won_by_a(sale, price="1.01"):
    """The answer to Q1 where campaign A, number 1, wins it."""
    return response(["s1", bid(sale, 1, price, 1, f"<p>{price}</p>", "shoes.example", "c1", SIZE)])


def won_by_b(sale, price="0.3"):
    """The answer to Q1 where campaign B, number 2, wins it."""
    return response(["s2", bid(sale, 1, price, 2, "B", "cars.example", "c2", SIZE)])


def won(sale, price, campaign=1, seat="s1", imp=1, more=""):
    """The answer where one of `campaign` wins the one impression that is sold."""
    return response([seat, bid(sale, imp, price, campaign, "M", f"{seat}.example", "c1", more)])
