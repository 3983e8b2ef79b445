"""Clients that sell, and what they were answered beside the bytes of the journal."""

import http.client
import json
import subprocess
import sys
from collections import Counter
from pathlib import Path

from hosts.machines import holds, until
from serving.journal_bytes import payloads, state_of

PORT = 8080
# The seats, bids and budgets of the campaigns, from 1 on. The first one's budget is spent within some hundred sales.
CAMPAIGNS = [("s1", "2.50", 0.5), ("s2", "1.00", 100000), ("s3", "0.90", 100000)]
# One that no request meets, for examples/health.
PROBE = len(CAMPAIGNS) + 1


def asked(address, method, target, body=None, limit=5):
    """The status and the text that an exchange answers."""
    link = http.client.HTTPConnection(address, PORT, timeout=limit)
    try:
        link.request(method, target, body)
        answer = link.getresponse()
        return answer.status, answer.read().decode()
    finally:
        link.close()


def post_campaigns(address):
    nobody = '"target":[[{"attr":"domain","in":["nobody.invalid"]}]]'
    for seat, bid, budget, more in [(*it, '"w":300,"h":250') for it in CAMPAIGNS] + [("probe", "0.01", 1, nobody)]:
        body = f'{{"seat":"{seat}","adomain":"{seat}.example","secure":1,"bid":{bid},"budget":{budget},"adm":"ad","crid":"c",{more}}}'
        status, text = asked(address, "POST", "/campaign", body, 10)
        if status != 201:
            raise OSError(f"a campaign: {status} {text}")


class Client:
    """A client that sells, outside all hosts or on one of them."""

    started = []

    def __init__(self, folder, address, tag, threads=4, limit=2.0, host=None):
        self.log = folder / f"client-{tag}"
        self.log.write_text("")
        words = [sys.executable, Path(__file__).with_name("sell.py"), address, tag, threads, limit, self.log]
        words = [str(it) for it in words]
        self.process = subprocess.Popen(host.words(*words) if host else words, stdin=subprocess.PIPE)
        Client.started.append(self)

    @staticmethod
    def stop_all():
        for it in Client.started:
            it.stop()

    def lines(self, since=0.0):
        """What was answered, and asked for after a moment. A line that is being written is left out."""
        found = [json.loads(it) for it in self.log.read_text().split("\n")[:-1]]
        return [it for it in found if it["from"] > since]

    def sold(self, since=0.0):
        return [it for it in self.lines(since) if it.get("status") == 200]

    def faults(self, since=0.0):
        return [it for it in self.lines(since) if it.get("status", 0) >= 500]

    def first(self, since, limit=30):
        """How many seconds after a moment the first answer came that was asked for behind it, or none."""
        sold = until(lambda: self.sold(since), limit, 0.1)
        return sold and min(it["to"] for it in sold) - since

    def longest_wait(self, begin, end):
        """The longest time without an answer between two moments."""
        times = [begin, *sorted(it["to"] for it in self.sold() if begin <= it["to"] <= end), end]
        return max(after - before for before, after in zip(times, times[1:]))

    def told(self, since=0.0):
        """How often which answer came, in words."""
        words = Counter(it.get("fault") or f"{it['status']} {it.get('text', '')}".strip() for it in self.lines(since))
        return ", ".join(f"{count} x {word}" for word, count in words.items()) or "nothing"

    def stop(self):
        if self.process.stdin and not self.process.stdin.closed:
            self.process.stdin.close()
            try:
                self.process.wait(60)
            except subprocess.TimeoutExpired:
                self.process.kill()
                self.process.wait()


def state_in(data):
    """The state that the bytes of a journal stand for, or what is wrong with them, in words."""
    try:
        if not payloads(data)[1]:
            return "nothing is in it"
        return state_of(data)
    except (AssertionError, IndexError, KeyError) as fault:
        return f"it is damaged: {fault!r}"


def differs(line, sales):
    """Whether the journal has the sale of an answer otherwise than it was answered, or not at all."""
    if line["sale"] > len(sales):
        return True
    sale = sales[line["sale"] - 1]
    same = sale.campaign == line["campaign"] and abs(sale.price / 1e6 - line["price"]) < 1e-9
    return not same or (sale.user or b"").decode() != line["user"]


def compare(data, clients):
    """Sees that the journal has each sale that was answered, as it was answered, and no more than a crash may leave. Gives
    its state, or none.
    """
    state = state_in(data)
    if not holds(not isinstance(state, str), f"the journal is whole: {state if isinstance(state, str) else len(data)}"):
        return None
    sales, answered = state.sales, [line for client in clients for line in client.sold()]
    wrong = [line for line in answered if differs(line, sales)]
    holds(not wrong, f"each of {len(answered)} answered sales is among the journal's {len(sales)} as it was answered; wrong: {wrong[:1]}")
    twice = len(answered) - len({line["sale"] for line in answered})
    holds(twice == 0, f"no number of a sale was answered twice: {twice}")
    users = Counter(sale.user for sale in sales)
    holds(max(users.values(), default=0) < 2, f"no request was sold twice, of {len(users)}")
    spent = Counter()
    for sale in sales:
        spent[sale.campaign] += sale.price
    kept = all(spent[n] <= budget * 1e9 for n, (_, _, budget) in enumerate(CAMPAIGNS, 1))
    holds(kept, f"no budget is passed: {dict(spent)}")
    lost = sum("fault" in line or line["status"] >= 500 for client in clients for line in client.lines())
    more = len(sales) - len(answered)
    holds(more <= lost, f"{more} sales are in the journal of which nobody was told, and {lost} messages had no answer or a fault")
    return state
