"""Peers that say nothing, go on slowly or take nothing, and more links than workers."""

import resource
import selectors
import socket
import time

from serving.checks import CHECKS, LIMIT
from serving.messages import error, get
from serving.program import answer_length, running

WORKERS = 4
ONE = get("/campaign/1")
MISSING = error(404, "no-such-campaign")
PATIENCE = 1000
# Seconds in which a new link is answered however many others are idle, and in which each of a crowd is.
AT_ONCE = 1
SOON = 2


def try_patience(program, folder):
    """A link ends where its peer takes too long: for a first byte, for a message, or for an answer."""
    with running(program, folder / "patience", workers=WORKERS, patience=PATIENCE) as server:
        ends("a peer that says nothing", server.link(), PATIENCE / 1000)
        with server.link() as link:
            link.send(ONE)
            CHECKS.same("an answer", link.answer(), MISSING)
            ends("a peer that says nothing more", link, PATIENCE / 1000)
        with server.link() as link:
            began = time.monotonic()
            for i in range(len(ONE)):
                link.send(ONE[i : i + 1])
                if link.more(0.25) or link.ended:
                    break
            CHECKS.holds("a byte now and then", link.ended and not link.came and time.monotonic() - began < PATIENCE / 1000 + 1)
        with socket.socket() as peer:
            # A peer with little room, so that the system soon takes no more of the answers for it.
            peer.setsockopt(socket.SOL_SOCKET, socket.SO_RCVBUF, 4096)
            peer.settimeout(LIMIT)
            peer.connect(("127.0.0.1", server.port))
            CHECKS.holds("an answer that nobody takes", is_cut_off(peer))
        with server.link() as link:
            link.send(ONE)
            CHECKS.same("the server goes on", link.answer(), MISSING)


def ends(what, link, seconds):
    """The server ends the link after so many seconds, and sends nothing."""
    began = time.monotonic()
    came = link.rest()
    gone = time.monotonic() - began
    CHECKS.holds(f"{what}: {came}, {gone} seconds", came == b"" and seconds - 0.1 < gone < seconds + 1)
    link.socket.close()


def is_cut_off(peer):
    """Whether a peer that sends messages and reads no answer is ended."""
    try:
        for _ in range(100_000):
            peer.sendall(ONE * 100)
    except TimeoutError:
        return False
    except OSError:
        return True
    return False


def try_idle(program, folder):
    """More idle links than workers, and a new one that is answered at once: idle behind an answer, or from the first."""
    with running(program, folder / "idle", workers=WORKERS) as server:
        links = [server.link() for _ in range(4 * WORKERS)]
        for link in links:
            is_answered("each is answered in its turn", link)
        with server.link() as link:
            is_answered("one more than those that are idle", link)
        ended = sum(not link.more(0.01) and link.ended and not link.came for link in links)
        # While its workers begin, the first may give way although others are to come.
        CHECKS.holds(f"{ended} have ended without a byte", ended > 3 * WORKERS)
        for link in links:
            link.socket.close()
        links = [server.link() for _ in range(2 * WORKERS)]
        with server.link() as link:
            is_answered("one more than those that said nothing", link)
        for link in links:
            link.socket.close()
        with server.link() as link:
            link.send(ONE)
            CHECKS.same("one that is alone", link.answer(), MISSING)
            time.sleep(0.5)
            link.send(ONE)
            CHECKS.same("stays", link.answer(), MISSING)


def is_answered(what, link):
    began = time.monotonic()
    link.send(ONE)
    came = link.answer()
    gone = time.monotonic() - began
    CHECKS.holds(f"{what}: {came}, {gone} seconds", came == MISSING and gone < AT_ONCE)


def try_crowds(program, folder):
    """Very many links at once, all of which stay: each is answered, and soon."""
    room = resource.getrlimit(resource.RLIMIT_NOFILE)
    most = max(crowds()) + 100
    if room[1] != resource.RLIM_INFINITY and room[1] < most:
        print(f"crowds: left out, since a process may have {room[1]} descriptors")
        return
    waiting = int(open("/proc/sys/net/core/somaxconn").read())
    resource.setrlimit(resource.RLIMIT_NOFILE, (max(room[0], most), room[1]))
    with running(program, folder / "crowds", workers=WORKERS) as server:
        for count in crowds():
            if waiting < count:
                print(f"crowds: {count} left out, since the system lets {waiting} links wait")
                continue
            answered, last = crowd(server.port, count)
            CHECKS.same(f"{count} links at once", answered, count)
            CHECKS.holds(f"the last of {count} after {last:.2f} seconds", last < SOON)


def crowds():
    return [1000, 3000]


def crowd(port, count):
    """Opens so many links, each with a message: how many are answered right, and after how many seconds the last."""
    began = time.monotonic()
    links = []
    for _ in range(count):
        links.append(socket.create_connection(("127.0.0.1", port), LIMIT))
        links[-1].sendall(ONE)
    ready = selectors.DefaultSelector()
    for link in links:
        ready.register(link, selectors.EVENT_READ, bytearray())
    answered, last = 0, 0
    while ready.get_map() and time.monotonic() - began < LIMIT:
        for key, _ in ready.select(0.1):
            piece = key.fileobj.recv(65536)
            key.data.extend(piece)
            if not piece or answer_length(key.data) == len(key.data):
                answered += key.data == MISSING
                last = time.monotonic() - began
                ready.unregister(key.fileobj)
    for link in links:
        link.close()
    return answered, last
