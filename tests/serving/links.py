"""Time, and links: sales and caps that wait by the clock, links that wait, break off and end."""

import socket
import time

from serving.checks import CHECKS
from serving.messages import A, B, NO_BID, SELL, campaign, error, get, new, post, report, sell, settled, won, won_by_a
from serving.program import converse, counts, recovered, running


def try_expiry(program, folder):
    """A sale waits for its notice so long, by the system's clock, whether or not the server was started again."""
    journal = folder / "expiry"
    with running(program, journal, ttl=3000) as server, server.link() as link:
        told = [post("/campaign", A), SELL, post("/bill/1"), SELL, get("/campaign/1"), SELL]
        link.send(b"".join(told))
        wanted = [
            new(1),
            won_by_a(1, "0.3"),
            settled(1, "billed"),
            won_by_a(2, "0.3"),
            report(1, reserved="0.0003", spent="0.0003", held=1, billed=1),
            won_by_a(3, "0.3"),
        ]
        CHECKS.same("a sale that is billed in time, and two that wait", [link.answer() for _ in told], wanted)
        time.sleep(3.2)
        link.send(post("/bill/2") + post("/lose/2") + get("/campaign/1") + SELL)
        wanted = [error(410, "was-expired")] * 2 + [report(1, spent="0.0003", billed=1, expired=2), won_by_a(4, "0.3")]
        CHECKS.same("they have expired", [link.answer() for _ in wanted], wanted)
        server.kill()
    with running(program, journal, ttl=300000) as server:
        time.sleep(3.2)
        steps = [
            ("one from before a start has expired", post("/bill/4"), error(410, "was-expired")),
            ("its price is free", get("/campaign/1"), report(1, spent="0.0003", billed=1, expired=3)),
            ("what is sold now waits longer", SELL, won_by_a(5, "0.3")),
        ]
        converse(server, steps)
        server.kill()
    with running(program, journal, ttl=1) as server:
        time.sleep(0.1)
        converse(server, [("and is billed after a start", post("/bill/5"), settled(5, "billed"))])
    CHECKS.same("recover", recovered(program, journal), counts(campaigns=1, live=1, sales=5, billed=2, expired=3))


def try_cap(program, folder):
    """One user is shown a campaign with a cap so often in so many seconds."""
    user = lambda name: sell(more=f',"user":{{"id":"{name}"}}')
    journal = folder / "cap"
    with running(program, journal) as server:
        converse(
            server,
            [
                ("a cap of once in 3 seconds", post("/campaign", campaign(bid="2", cap='{"count":1,"seconds":3}')), new(1)),
                ("no user", sell(), NO_BID),
                ("a user", user("u1"), won(1, "0.01")),
                ("the same again", user("u1"), NO_BID),
                ("another", user("u2"), won(2, "0.01")),
                ("a loss", post("/lose/2"), settled(2, "lost")),
                ("does not count", user("u2"), won(3, "0.01")),
            ],
        )
        server.kill()
    with running(program, journal) as server:
        converse(server, [("and counts after a start again", user("u2"), NO_BID)])
        time.sleep(3.2)
        converse(server, [("the time has passed", user("u1"), won(4, "0.01"))])


def try_links(program, folder):
    """Messages sent ahead, links that wait, links that break off."""
    with running(program, folder / "links") as server:
        with server.link() as link:
            ahead = [post("/campaign", A), post("/campaign", B), SELL, get("/campaign/1"), post("/bill/1")]
            link.send(b"".join(ahead))
            wanted = [new(1), new(2), won_by_a(1), report(1, reserved="0.00101", held=1), settled(1, "billed")]
            CHECKS.same("messages sent ahead", [link.answer() for _ in ahead], wanted)
            waits(server, link)
        with server.link() as link:
            link.send(post("/campaign", A)[:-1])
            link.end()
            CHECKS.same("a link that ends inside a body", link.rest(), b"")
        with server.link() as link:
            link.send(get("/campaign/2") + b"\r\n")
            link.end()
            CHECKS.same("a link that ends behind a message", link.rest(), report(2, bid="1"))
        with server.link() as link:
            link.end()
            CHECKS.same("a link without a message", link.rest(), b"")
        server.link().socket.close()
        resets(server)
        converse(server, [("the server goes on", get("/campaign/3"), error(404, "no-such-campaign"))])


def waits(server, link):
    """A second link waits while the first is inside a message, and is taken in its place once it is answered."""
    with server.link() as second:
        link.send(get("/campaign/2")[:-1])
        second.send(get("/campaign/2"))
        CHECKS.holds("a second link waits", second.is_silent())
        link.send(get("/campaign/2")[-1:])
        CHECKS.same("the first is served on", link.answer(), report(2, bid="1"))
        CHECKS.same("the second is served then", second.answer(), report(2, bid="1"))
        CHECKS.same("and the first has ended", link.rest(), b"")


def resets(server):
    """A peer that resets its link with answers under way."""
    link = server.link()
    link.socket.setsockopt(socket.SOL_SOCKET, socket.SO_LINGER, b"\1\0\0\0\0\0\0\0")
    link.send(get("/campaign/1") * 100)
    link.socket.close()


def try_spent(program, folder):
    """A link has 10,000 messages."""
    one = get("/campaign/1")
    last = error(404, "no-such-campaign", closes=True)
    with running(program, folder / "spent") as server, server.link() as link:
        came = []
        for _ in range(100):
            link.send(one * 100)
            came += [link.answer() for _ in range(100)]
        CHECKS.same("9,999 that do not close", came[:-1], [error(404, "no-such-campaign")] * 9999)
        CHECKS.same("the last closes", came[-1], last)
        CHECKS.same("and the link ends", link.rest(), b"")
        with server.link() as link:
            link.send(one * 9999)
            link.end()
            CHECKS.same("9,999 and then the end", link.rest(), error(404, "no-such-campaign") * 9999)
