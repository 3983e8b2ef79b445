"""Losses of power, cuts and lost bricks, each in the middle of sales."""

import time

from hosts.machines import SHARED, holds, say, until
from hosts.probes import health
from hosts.sales import PROBE, Client
from hosts.servers import asked_on, begin, bills, over, standby


def takeover(volume, host, client, since):
    """The host takes the address, and the client's next sale comes from there."""
    host.takes_address()
    first = client.first(since)
    holds(first is not None, f"the client's first answer from {host.name} comes {first or 0:.1f} s after the loss")
    time.sleep(2)


def try_power(program, volume, mounted=True):
    """The first host loses its power while it sells, and another one takes over."""
    one, two, _ = volume.hosts
    server, client = begin(program, volume, one)
    if mounted:
        volume.mount_at(two)
    lost = one.lose()
    volume.mount_at(two)
    if not mounted:
        say(f"{two.name} mounted {time.time() - lost:.1f} s after the loss")
    second = standby(two, program, lost)
    takeover(volume, two, client, lost)
    bills(client)
    volume.boot(one)
    over(program, volume, two, [server, second], [client])


def try_cold(program, volume):
    """The same, where the other host mounts the volume only then."""
    try_power(program, volume, mounted=False)


def try_cut(program, volume):
    """The first host is cut off and goes on, with a client of its own; another one takes over; then the link is back."""
    one, two, _ = volume.hosts
    server, client = begin(program, volume, one)
    inner = Client(volume.folder, "127.0.0.1", "inner", 3, 60.0, one)
    time.sleep(1)
    volume.mount_at(two)
    cut = time.time()
    one.cut()
    second = standby(two, program, cut)
    taken = time.time()
    takeover(volume, two, client, cut)
    late = [it for it in inner.sold() if it["to"] > taken]
    holds(not late, f"the server that was cut off sells nothing behind that: {len(late)}")
    back = time.time()
    one.join()
    time.sleep(10)
    late = [it for it in inner.lines() if it["to"] > back]
    sold = [it for it in late if it.get("status") == 200]
    holds(not sold and late, f"nor when its link is back: {len(sold)} sales, {len(late)} other answers")
    holds(server.is_alive(), f"it still runs, and says: {asked_on(one, 'GET', '/campaign/1')}")
    over(program, volume, two, [server, second], [client, inner])


def try_idle(program, volume):
    """The same, where the host that is cut off has nothing to do, and is asked only when its link is back."""
    one, two, _ = volume.hosts
    server, client = begin(program, volume, one)
    client.stop()
    holds(health(one, PROBE), "the first server is well")
    cut = time.time()
    one.cut()
    volume.mount_at(two)
    second = standby(two, program, cut)
    one.gives_address()
    two.takes_address()
    behind = Client(volume.folder, SHARED, "behind")
    behind.first(cut)
    one.join()
    time.sleep(8)
    new = behind.sold()[-1]["sale"]
    for target in ["/campaign/1", f"/bill/{new}"]:
        say(f"the old server, not asked to write yet, says to GET {target}: {asked_on(one, 'GET', target)}")
    say(f"its system lists {one.run('cat', '/proc/locks').stdout.count('FLOCK')} locks; its mount reaches {volume.reached_from(one)} bricks")
    say(f"health without a write says that it is {'well' if health(one) else 'not well'}")
    holds(not health(one, PROBE), "health with a write finds it")
    holds(health(two, PROBE), "and finds the second server well")
    inner = Client(volume.folder, "127.0.0.1", "inner", 3, 30.0, one)
    time.sleep(3)
    inner.stop()
    holds(not inner.sold(), f"the old server sells nothing: {inner.told()}")
    over(program, volume, two, [server, second], [client, behind, inner])


def try_bricks(program, volume):
    """Bricks are lost one after the other while the first host sells, and come back."""
    one, two, three = volume.hosts
    server, client = begin(program, volume, one)
    for host in [three, two, three]:
        lost = host.lose()
        time.sleep(6)
        until(lambda: len(client.sold(lost)) > 10, 20)
        sold, faults = client.sold(lost), client.faults(lost)
        wait = client.longest_wait(lost, time.time())
        holds(len(sold) > 10 and not faults, f"without {host.name}: {len(sold)} sales, {len(faults)} faults, longest wait {wait:.1f} s")
        back = time.time()
        volume.boot(host)
        reached = volume.is_whole() and reaches_all(volume, one)
        holds(reached, f"{host.name} is back, and the server's mount reaches it {time.time() - back:.1f} s later")
        beside, faults = client.sold(back), client.faults(back)
        holds(beside and not faults, f"meanwhile: {len(beside)} sales, {len(faults)} faults")
        # It writes to that brick only when it is started again.
        began = time.time()
        server.kill()
        server = standby(one, program, began)
        holds(client.first(began), f"started again, its first answer comes after {client.first(began) or 0:.2f} s")
        took = volume.heal()
        holds(took is not None, f"what {host.name} lacked is there after {took or 0:.1f} s, beside sales")
        time.sleep(2)
    over(program, volume, one, [server], [client])


def reaches_all(volume, host):
    return until(lambda: volume.reached_from(host) == 3, 20, 0.1)


def try_double(program, volume):
    """A brick is away while the first host sells, and comes back when that one loses its power."""
    one, two, three = volume.hosts
    server, client = begin(program, volume, one)
    volume.mount_at(two)
    away = time.time()
    three.cut()
    time.sleep(6)
    until(lambda: len(client.sold(away)) > 10, 20)
    holds(client.sold(away), f"sells without {three.name}: {client.told(away)}")
    lost = one.lose()
    three.join()
    second = standby(two, program, lost)
    takeover(volume, two, client, lost)
    volume.boot(one)
    over(program, volume, two, [server, second], [client])


def try_short(program, volume):
    """Cuts of 1.5 and of 8 seconds, behind which nobody takes over."""
    one = volume.hosts[0]
    server, client = begin(program, volume, one)
    one.cut()
    time.sleep(1.5)
    one.join()
    back = time.time()
    first = client.first(back)
    holds(first is not None and not client.faults(), f"behind 1.5 s it goes on {first or 0:.1f} s later, with {len(client.faults())} faults")
    one.cut()
    time.sleep(8)
    one.join()
    time.sleep(4)
    back = time.time()
    time.sleep(2)
    holds(client.faults(back) and not client.sold(back), f"behind 8 s, and 4 s more: {client.told(back)}")
    began = time.time()
    server.kill()
    server = standby(one, program, began)
    holds(client.first(began), f"started again, its first answer comes after {client.first(began) or 0:.2f} s")
    over(program, volume, one, [server], [client])
