"""Calls of what is found: the campaigns that an impression reaches, by a server, and the expressions that are true and weigh
most, by `rtbx which`.

- `find | ASSIGNMENT | CAMPAIGN | .. | CAMPAIGN`: the numbers of the campaigns that buy, each once, or `none`. A campaign is
  written as its expression: `&` stands between predicates and `|` between conjunctions, `!` for `=` where a predicate is
  negated, and `,` between values; `5000*` before it stands for so many campaigns. An assignment is written `os=iOS&domain=a`.
- `best | N | REQUEST`: the best N of the request's expressions, each with its score, or `none`.
- `marks | N | REQUEST`: its mark of each expression: `chosen`, `later:SCORE`, or `false:CLAUSE`.
- `true_of | REQUEST`: the numbers of the expressions that are true, or `none`. A request that is refused is `unreadable`.
"""

import json
import subprocess

from answering.readings import Reader
from serving.checks import LIMIT

CALLS = {"find", "best", "marks", "true_of"}
# Where an attribute stands in a request.
PLACES = {"country": ("device", "geo", "country"), "os": ("device", "os"), "domain": ("site", "domain")}


def target_of(expression):
    return [[predicate(it) for it in part.split("&") if it] for part in expression.split("|")]


def predicate(text):
    word = "not" if "!" in text else "in"
    attr, _, values = text.replace("!", "=").partition("=")
    return {"attr": attr, word: values.split(",")}


def request_of(assignment):
    """A request whose one impression has the assignment, and costs every buyer a dollar."""
    request = {"id": "1", "imp": [{"id": "1", "banner": {}, "bidfloor": 1}]}
    for pair in assignment.split("&") if assignment else []:
        attr, _, value = pair.partition("=")
        *outer, last = PLACES[attr]
        at = request
        for name in outer:
            at = at.setdefault(name, {})
        at[last] = value
    return json.dumps(request).encode()


def all_of(campaigns):
    for campaign in campaigns:
        count, _, expression = campaign.rpartition("*")
        yield from [expression] * int(count or 1)


def found(program, folder, assignment, campaigns):
    """Each campaign can pay once, so the same request is sold to each that it reaches, one after the other."""
    reader = Reader(program, folder / "found.journal")
    try:
        for expression in all_of(campaigns):
            facts = {"seat": "s", "adomain": "a", "bid": 1, "budget": 0.0015, "adm": "", "crid": "c"}
            reader.ask("/campaign", json.dumps({**facts, "target": target_of(expression)}).encode())
        numbers = []
        status, answered = reader.ask("/openrtb2/auction", request_of(assignment))
        while status == 200:
            numbers.append(json.loads(answered)["seatbid"][0]["bid"][0]["cid"])
            status, answered = reader.ask("/openrtb2/auction", request_of(assignment))
        return " ".join(numbers).encode() if numbers else b"none"
    finally:
        reader.end()


def which(program, n, request):
    """The answer, or none where the request is refused."""
    asked = {"n": int(n), **json.loads(request)}
    ended = subprocess.run([program, "which"], input=json.dumps(asked).encode(), capture_output=True, timeout=LIMIT)
    return json.loads(ended.stdout) if ended.returncode == 0 else None


def mark_of(mark):
    if mark == "chosen":
        return mark
    return f"later:{mark['score']}" if "score" in mark else f"false:{mark['false']}"


def told(program, folder, call, args):
    """What the call is answered."""
    if call == "find":
        return found(program, folder, args[0].decode(), [it.decode() for it in args[1:]])
    answered = which(program, args[0] if call != "true_of" else 1, args[-1])
    if answered is None:
        return b"unreadable"
    if call == "best":
        words = [f"{it['expression']}:{it['score']}" for it in answered["top"]]
    elif call == "marks":
        words = [mark_of(it) for it in answered["proof"]]
    else:
        words = [str(number) for number, mark in enumerate(answered["proof"], 1) if mark == "chosen" or "score" in mark]
    return " ".join(words or ["none"]).encode()
