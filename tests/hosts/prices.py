"""What a sale costs on the volume, beside the same host's own disk."""

import os
import re
import shutil
import statistics
from pathlib import Path

from hosts.machines import called, say
from hosts.sales import post_campaigns
from hosts.servers import Server
from serving.checks import Stopped

ROUNDS, SECONDS, LINKS = 3, 4, (1, 16)
SELL = """wrk.method = "POST"
wrk.path = "/openrtb2/auction"
wrk.body = [[{"id":"b1","imp":[{"id":"1","banner":{"w":300,"h":250}}],"site":{"domain":"news.example"},"user":{"id":"u"}}]]
"""


def rates(server, script):
    """Sales a second at each number of links."""
    for links in LINKS:
        url = f"http://{server.host.address}:8080"
        done = called("wrk", "-t1", f"-c{links}", f"-d{SECONDS}s", "-s", script, url)
        if "Non-2xx" in done.stdout:
            raise OSError(done.stdout)
        yield links, float(re.search(r"Requests/sec: +([\d.]+)", done.stdout)[1])


def one_turn(host, programs, turn, script, found):
    """Each program on each disk once."""
    for program in programs:
        for place in [host.home / "files", Path(host.mount)]:
            server = Server(host, program, place / f"price-{turn}-{programs.index(program)}")
            if not server.serves():
                raise Stopped
            post_campaigns(host.address)
            for links, rate in rates(server, script):
                found.setdefault((links, program), {}).setdefault(str(place) == host.mount, []).append(rate)
            server.kill()


def try_price(program, volume):
    """Sales a second on both, in turns, of this program and of the one that BESIDE names."""
    if shutil.which("wrk") is None:
        say("left out, for want of wrk: price")
        return
    one, found = volume.hosts[0], {}
    programs = [program, *filter(None, [os.environ.get("BESIDE")])]
    volume.mount_at(one)
    script = volume.folder / "sell.lua"
    script.write_text(SELL)
    for turn in range(ROUNDS):
        one_turn(one, programs, turn, script, found)
    for (links, name), rates_of in found.items():
        disk, shared = (statistics.median(rates_of[on_volume]) for on_volume in (False, True))
        say(f"{name}, {links} links: {disk:.0f} sales a second on the host's disk, {shared:.0f} on the volume, {shared / disk:.2f} of it")
    volume.unmount_at(one)
