"""Addresses that nobody guesses: notices and campaigns with their tokens, keys that are changed, and files of keys. Each token
is told by Python's `hmac`.
"""

import os
import re
import shutil
import time

from serving.checks import CHECKS
from serving.follows import following
from serving.messages import (
    A,
    B,
    PUBLIC,
    Q1,
    SELL,
    answer,
    campaign,
    error,
    get,
    keyed,
    message,
    new,
    number,
    post,
    report,
    settled,
    signed,
    token,
    won_by_a,
)
from serving.model import Draw, Exchange
from serving.program import converse, ended, free_port, recovered, running, serve_words
from serving.scripts import SCRIPTS
from serving.told import recording

KEY, NEXT, LAST = bytes(32), bytes(range(32)), bytes(range(64))
# What stands in no program of ours: SHA-256 by RFC 2104, its first 16 bytes.
KNOWN = {
    (NEXT, "/bill/1"): "db9b11488e6fed6df8f088875fe102ae",
    (NEXT, "/lose/1"): "e30e8ad854d487519e2dc7286e635923",
    (NEXT, "/campaign/1"): "30a55da17d340ec6281badae74f249bb",
    (LAST, "/bill/1"): "2faca2d8aff75918574a4218483326a4",
}
FORBIDDEN = error(403, "forbidden")
UNLISTED = error(404, "not-found")
NO_KEY = (16, b"rtbx: no key\n")
WRONG_LENGTH = b"a key has 32 to 64 bytes"


def place_in(folder, name):
    """A folder of its own."""
    (folder / name).mkdir()
    return folder / name


def key_words(folder, key=None, former=None):
    """The words that name files with these keys."""
    words = []
    for name, data in {"key": key, "former-key": former}.items():
        if data is not None:
            (folder / name).write_bytes(data)
            words += [f"--{name}", folder / name]
    return words


def try_keys(program, folder):
    """Addresses of a server with a key, whatever else it is asked, and those of one without."""
    folder = place_in(folder, "keys")
    CHECKS.same("tokens that are known", {it: token(*it) for it in KNOWN}, KNOWN)
    try_first(program, folder)
    more = key_words(folder, KEY)
    with running(program, folder / "refused", more=more) as server:
        converse(server, [*notice_steps(), *campaign_steps()])
    with running(program, folder / "unsigned") as server:
        converse(server, unsigned_steps())
    with following(program, folder / "refused") as follower, follower.link() as link:
        link.send(get("/campaign/1") + get(signed(KEY, "/campaign/1")))
        CHECKS.holds("a follower has no key", b'"effects":' in link.answer())
        CHECKS.same("and lists no token", link.answer(), UNLISTED)
    for name, steps in SCRIPTS.items():
        CHECKS.part = f"keys: {name}"
        with running(program, folder / f"signed.{name}", more=more) as server:
            converse(server, [(step, with_token(data, KEY), keyed(wanted, KEY)) for step, data, wanted in steps()])


def try_first(program, folder):
    """A sale whose addresses stand here letter by letter, by the longest key."""
    bill, lose = f"{PUBLIC}/bill/1/2faca2d8aff75918574a4218483326a4", signed(LAST, f"/lose/1")
    with running(program, folder / "first", more=key_words(folder, LAST)) as server, server.link() as link:
        link.send(post("/campaign", A) + post("/campaign", B) + SELL)
        wanted = [answer(201, f'{{"campaign":{n},"token":"{token(LAST, f"/campaign/{n}")}"}}') for n in [1, 2]]
        CHECKS.same("campaigns with their tokens", [link.answer() for _ in wanted], wanted)
        told = link.answer().decode()
        CHECKS.same("the notices", re.findall(r'"[bl]url":"(.*?)"', told), [bill, PUBLIC + lose])
        CHECKS.same("and all else as without a key", told.encode(), keyed(won_by_a(1), LAST))
        link.send(get(bill.removeprefix(PUBLIC)))
        CHECKS.same("the notice is taken", link.answer(), settled(1, "billed"))


def notice_steps():
    """Notices, and what a stranger tries."""
    bill, lose, own = (token(KEY, f"/{it}/1") for it in ["bill", "lose", "campaign"])
    both = answer(405, allow="GET, POST")
    steps = [("a campaign", post("/campaign", A), keyed(new(1), KEY)), ("a sale", SELL, keyed(won_by_a(1, "0.3"), KEY))]
    for name, target in {"no token": "/bill/1", "no token of a loss": "/lose/1", "no token of no sale": "/bill/9"}.items():
        steps += [(name, get(target), FORBIDDEN), (f"{name}, by POST", post(target), FORBIDDEN), (f"{name}, DELETE", message("DELETE", target), both)]
    others = {"of the next sale": token(KEY, "/bill/2"), "of its loss": lose, "of the campaign": own, "of another key": token(NEXT, "/bill/1")}
    changed = {f"digit {n} changed": bill[:n] + ("1" if bill[n] == "0" else "0") + bill[n + 1 :] for n in [0, 15, 31]}
    for name, it in {**others, **changed, "of zeros": "0" * 32}.items():
        steps += [(f"a token {name}", get(f"/bill/1/{it}"), FORBIDDEN), (f"a token {name}, by POST", post(f"/bill/1/{it}"), FORBIDDEN)]
    forms = {"in capitals": bill.upper(), "a digit short": bill[1:], "a digit more": bill + "0", "a letter g": "g" + bill[1:], "none": "", "twice": f"{bill}/{bill}", "a slash more": bill + "/"}
    steps += [(f"a token {name}", get(f"/bill/1/{it}"), UNLISTED) for name, it in forms.items()]
    steps += [(f"sale {n}", get(signed(KEY, f"/bill/{n}")), UNLISTED) for n in ["0", "01", "", "18446744073709551616"]]
    return [
        *steps,
        ("the token of a bill loses nothing", get(f"/lose/1/{bill}"), FORBIDDEN),
        ("DELETE with a token", message("DELETE", f"/bill/1/{bill}"), both),
        ("a sale that was never made", get(signed(KEY, "/bill/9")), error(404, "no-such-sale")),
        ("the bill", get(f"/bill/1/{bill}"), settled(1, "billed")),
        ("the same again, whatever stands behind ?", post(f"/bill/1/{bill}?by=page"), settled(1, "billed")),
        ("the loss comes late", get(f"/lose/1/{lose}"), error(409, "was-billed")),
        ("without a token as before", get("/bill/1"), FORBIDDEN),
    ]


def campaign_steps():
    """Campaign 1 of who has its token, of who has another one, and of the operator."""
    own, bill, post_only = token(KEY, "/campaign/1"), token(KEY, "/bill/1"), answer(405, allow="POST")
    told = report(1, spent="0.0003", billed=1)
    steps = [("the report", get(f"/campaign/1/{own}"), told), ("the operator's", get("/campaign/1"), told)]
    others = {"of another campaign": token(KEY, "/campaign/2"), "of its sale": bill, "of another key": token(NEXT, "/campaign/1")}
    for name, it in {**others, "of the path itself": token(KEY, "/pause/1")}.items():
        steps += [(f"a pause by the token {name}", post(f"/pause/1/{it}"), FORBIDDEN), (f"a report by the token {name}", get(f"/campaign/1/{it}"), FORBIDDEN)]
        steps += [(f"a change by the token {name}, and no campaign", post(f"/campaign/1/{it}", "{"), FORBIDDEN)]
    unlisted = {"/campaign": post, "/openrtb2/auction": post, "/forget/0": post, "/nothing": get}
    steps += [(f"{path} with a token", ask(signed(KEY, path)), UNLISTED) for path, ask in unlisted.items()]
    return [
        *steps,
        ("GET of a pause", get(f"/pause/1/{own}"), post_only),
        ("GET of a pause by another token", get(f"/pause/1/{bill}"), post_only),
        ("no campaign in the body", post(f"/campaign/1/{own}", "{"), error(400, "json-ended", at=1)),
        ("a pause", post(f"/pause/1/{own}"), number(1)),
        ("a resumption", post(f"/resume/1/{own}"), number(1)),
        ("a change", post(f"/campaign/1/{own}", A), number(1)),
        ("the operator's pause", post("/pause/1"), number(1)),
        ("a token in capitals", post(f"/resume/1/{own.upper()}"), UNLISTED),
        ("a campaign that is not there", get(signed(KEY, "/campaign/9")), error(404, "no-such-campaign")),
        ("a forgetting", post("/forget/0"), answer(200, '{"sales":0,"forgotten":1}')),
        ("a bill of what is forgotten", get(f"/bill/1/{bill}"), error(410, "forgotten")),
    ]


def unsigned_steps():
    """Without a key nothing has a token, and a path with one is not listed."""
    paths = [("campaign", get), ("pause", post), ("resume", post), ("bill", get), ("lose", get)]
    return [
        ("a campaign", post("/campaign", A), new(1)),
        ("a sale", SELL, won_by_a(1, "0.3")),
        *[(f"/{name} with a token", ask(f"/{name}/1/{token(b'', f'/{name}/1')}"), UNLISTED) for name, ask in paths],
        ("a bill", get("/bill/1"), settled(1, "billed")),
    ]


def with_token(data, key):
    """A notice, with its token, or another message."""
    line, end, rest = data.decode(errors="surrogateescape").partition("\r\n")
    line = re.sub(r"(?<= )/(bill|lose)/\d+(?=[ ?])", lambda it: signed(key, it[0]), line)
    return (line + end + rest).encode(errors="surrogateescape")


def try_changed_keys(program, folder):
    """What was given under one key is taken while it is the former one, and no longer; the former key signs nothing."""
    folder = place_in(folder, "changed-keys")
    journal = folder / "changed"
    steps = {
        (KEY, None): [("a campaign", post("/campaign", A), keyed(new(1), KEY)), *[(f"sale {n}", SELL, keyed(won_by_a(n, "0.3"), KEY)) for n in [1, 2, 3, 4]]],
        (NEXT, KEY): [
            ("a bill from before", get(signed(KEY, "/bill/1")), settled(1, "billed")),
            ("the same by the key of now", get(signed(NEXT, "/bill/1")), settled(1, "billed")),
            ("by one that was never there", get(signed(LAST, "/bill/1")), FORBIDDEN),
            ("another token of the former key", get(f"/bill/2/{token(KEY, '/bill/1')}"), FORBIDDEN),
            ("a sale has the key of now", SELL, keyed(won_by_a(5, "0.3"), NEXT)),
            ("a campaign too", post("/campaign", campaign(bid="0.01")), keyed(new(2), NEXT)),
            ("an advertiser from before", post(f"/pause/2/{token(KEY, '/campaign/2')}"), number(2)),
            ("one of now", post(f"/resume/2/{token(NEXT, '/campaign/2')}"), number(2)),
        ],
        (LAST, NEXT): [
            ("from before the last", get(signed(KEY, "/bill/2")), FORBIDDEN),
            ("from before", get(signed(NEXT, "/bill/5")), settled(5, "billed")),
            ("by both keys", get(signed(LAST, "/lose/5")), error(409, "was-billed")),
        ],
        (LAST, None): [
            *[("a key that is gone", get(signed(key, "/lose/3")), FORBIDDEN) for key in [KEY, NEXT]],
            ("the key of now", get(signed(LAST, "/lose/3")), settled(3, "lost")),
        ],
        (LAST, LAST): [("one key twice", get(signed(LAST, "/lose/3")), settled(3, "lost"))],
        (None, None): [("no key", get("/bill/4"), settled(4, "billed")), ("a token", get(signed(LAST, "/bill/4")), UNLISTED)],
    }
    for (key, former), some in steps.items():
        with running(program, journal, more=key_words(folder, key, former)) as server:
            converse(server, some)


def try_refused_leaves_nothing(program, folder):
    """A token that is wrong makes no entry: not even what is due expires by it."""
    folder = place_in(folder, "wrong-tokens")
    journal = folder / "left"
    with running(program, journal, ttl=100, more=key_words(folder, KEY)) as server, server.link() as link:
        link.send(post("/campaign", A) + SELL)
        CHECKS.same("a sale", [link.answer(), link.answer()], [keyed(it, KEY) for it in [new(1), won_by_a(1, "0.3")]])
        time.sleep(0.3)
        before = journal.read_bytes()
        tried = [get("/bill/1"), get(signed(NEXT, "/bill/1")), post(f"/pause/1/{token(NEXT, '/campaign/1')}"), get("/bill/1/x")]
        link.send(b"".join(tried))
        CHECKS.same("each is refused", [link.answer() for _ in tried], [FORBIDDEN] * 3 + [UNLISTED])
        CHECKS.same("and nothing is written", journal.read_bytes(), before)
        link.send(get(signed(KEY, "/bill/1")))
        CHECKS.same("the right one comes late", link.answer(), error(410, "was-expired"))
        CHECKS.holds("and that is written", len(journal.read_bytes()) > len(before))


def try_key_files(program, folder):
    """A key has 32 to 64 bytes, all those of its file; where it is none, nothing else is asked for."""
    folder = place_in(folder, "key-files")
    journal, none = folder / "unmade", folder / "none"
    (folder / "good").write_bytes(KEY)
    serve, audit = serve_words(program, journal, free_port()), [program, "audit", "--journal", journal]
    os.mkfifo(folder / "pipe")
    others = {"no file": none, "a folder": folder, "a pipe": folder / "pipe"}
    hexadecimal = NEXT.hex().encode() + b"\n"  # as `openssl rand -hex 32` prints it
    for name, data in {"no byte": b"", "31 bytes": NEXT[1:], "65 bytes": hexadecimal, "a megabyte": bytes(1 << 20), **dict.fromkeys(others)}.items():
        bad = others.get(name, folder / "bad")
        if data is not None:
            bad.write_bytes(data)
        for words in [serve, audit]:
            for more in [["--key", bad], ["--key", folder / "good", "--former-key", bad]]:
                status, out, said = ended([*words, *more])
                step = f"{words[1]} {more[-2]}, {name}"
                CHECKS.same(step, (status, out), NO_KEY)
                CHECKS.holds(f"{step}: why: {said!r}", str(more[-1]).encode() in said and said.count(b"\n") == 1 and (data is None or WRONG_LENGTH in said))
    CHECKS.holds("no journal was made", not journal.exists())
    damaged = folder / "damaged.journal"
    damaged.write_bytes(b"This is no journal.\n")
    for words in [serve_words(program, damaged, free_port()), [program, "audit", "--journal", damaged]]:
        CHECKS.same(f"{words[1]}: the key comes before the journal", ended([*words, "--key", none])[:2], NO_KEY)
    try_right_files(program, folder)


def try_right_files(program, folder):
    """All bytes are the key, a line end too; the files are read once; and the words come before them."""
    for n, key in enumerate([KEY, NEXT + b"\n", LAST, NEXT.hex().encode()]):
        with running(program, folder / f"right.{n}", more=key_words(folder, key, key)) as server:
            (folder / "key").unlink()
            (folder / "former-key").unlink()
            converse(server, [(f"a key of {len(key)} bytes", post("/campaign", A), keyed(new(1), key))])
    words = serve_words(program, folder / "unmade", free_port())
    CHECKS.same("wrong words come before a key", ended([*words, "--key", folder / "none", "more"])[:2], (2, b"rtbx: usage\n"))
    if os.geteuid() == 0 and shutil.which("setpriv"):
        (folder / "closed").write_bytes(KEY)
        (folder / "closed").chmod(0o600)
        for it in [folder, folder.parent]:
            it.chmod(0o755)
        as_nobody = ["setpriv", "--reuid", "65534", "--regid", "65534", "--clear-groups"]
        status, out, said = ended([*as_nobody, *words, "--key", folder / "closed"])
        CHECKS.same("a key of another user", (status, out), NO_KEY)
        CHECKS.holds(f"a key of another user: why: {said!r}", b"Permission denied" in said)


def try_signed_audit(program, folder):
    """A trace of a server with two keys is legal by both of them, and by no other."""
    folder = place_in(folder, "signed-audit")
    journal, before, trace = folder / "signed", folder / "signed.before", folder / "signed.trace"
    files = {name: folder / f"{name}.key" for name in ["now", "former", "other"]}
    for file, key in zip(files.values(), [NEXT, KEY, LAST]):
        file.write_bytes(key)
    journal.touch()
    shutil.copy(journal, before)
    both = ["--key", files["now"], "--former-key", files["former"]]
    messages = [post("/campaign", A), post("/openrtb2/auction", Q1), post("/openrtb2/auction", Q1), get("/bill/1")]
    messages += [get(signed(NEXT, "/bill/1")), get(signed(LAST, "/bill/2")), get(signed(KEY, "/bill/2")), get(f"/campaign/1/{token(KEY, '/campaign/1')}")]
    with running(program, journal, more=both) as server, recording(server, 300000, trace) as link:
        for it in messages:
            link.send(it)
            link.answer()
    legal = (0, f"legal entries={len(messages)} passed=0\n".encode())
    for words, wanted in {
        tuple(both): legal,
        tuple(both[:2]): (1, b"illegal at 6\n"),
        ("--key", files["former"]): (1, b"illegal at 0\n"),
        ("--key", files["now"], "--former-key", files["other"]): (1, b"illegal at 5\n"),
        (): (1, b"illegal at 0\n"),
    }.items():
        with open(trace, "rb") as file:
            CHECKS.same(f"audit {words}", ended([program, "audit", "--journal", before, *words], stdin=file)[:2], wanted)


class Signing(Draw):
    """Draws messages with tokens: of the key or the former one, and now and then such that open nothing."""

    def signed_command(self, exchange, key, former, strange):
        if self.random() < 0.1:
            return self.stranger(exchange, key, former, strange)
        data, wanted = self.command(exchange)
        keys = [it for it in [key, key, former] if it is not None]
        data = with_token(data, self.choice(keys)).decode()
        if self.random() < 0.5:
            data = re.sub(r" /(?:campaign|pause|resume)/(\d+) ", lambda it: f"{it[0][:-1]}/{token(self.choice(keys), '/campaign/' + it[1])} ", data, count=1)
        return data.encode(), keyed(wanted, key)

    def stranger(self, exchange, key, former, strange):
        """A message that asks for nothing, and how it is refused."""
        name, n = self.choice(["bill", "lose", "campaign", "pause", "resume"]), self.randint(1, len(exchange.sales) + 2)
        path = f"/{name}/{n}"
        own = path if name in ["bill", "lose"] else f"/campaign/{n}"
        right = token(key, own)
        wrong = [token(strange, own), token(key, f"{own}0"), token(former or strange, f"{own}0"), "".join(self.sample(right, 32))]
        unlisted = [right + "0", right[:-1], "A" + right[1:], right + "/"]
        wrong = [it for it in wrong if it not in [right, token(former or key, own)]]
        ask = post if name in ["pause", "resume"] else get
        if name in ["bill", "lose"] and self.random() < 0.3:
            return ask(path), FORBIDDEN
        if self.random() < 0.7:
            return ask(f"{path}/{self.choice(wrong)}"), FORBIDDEN
        return ask(f"{path}/{self.choice(unlisted)}"), UNLISTED


def try_signed_model(program, folder):
    """Drawn commands through servers of which each has a new key, and the one before it as the former one."""
    folder = place_in(folder, "signed-model")
    exchange, draw, journal = Exchange(), Signing(4), folder / "drawn"
    keys = [None, *(draw.randbytes(draw.randint(32, 64)) for _ in range(5)), LAST]
    for former, key in zip(keys, keys[1:-1]):
        with running(program, journal, more=key_words(folder, key, former)) as server, server.link() as link:
            for _ in range(100):
                data, wanted = draw.signed_command(exchange, key, former, keys[-1])
                link.send(data)
                if not CHECKS.same(data.decode(), link.answer(), wanted):
                    return
    CHECKS.same("recover", recovered(program, journal), exchange.counts())
