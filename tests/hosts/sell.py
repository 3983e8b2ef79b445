"""A publisher that asks for bids until its input ends: sell.py ADDRESS TAG THREADS LIMIT LOG. Each message has a user of its
own, TAG, the thread and a number, and waits LIMIT seconds for its answer; LOG gets a line for each, of JSON.
"""

import http.client
import json
import os
import sys
import threading
import time

PORT = 8080


def answer_of(link, user):
    """What the exchange says to a request for this user, as a line has it, and whether the link ends."""
    imp = {"id": "1", "banner": {"w": 300, "h": 250}}
    body = {"id": user, "imp": [imp], "site": {"domain": "news.example"}, "user": {"id": user}}
    link.request("POST", "/openrtb2/auction", json.dumps(body))
    answer = link.getresponse()
    text, line = answer.read(), {"status": answer.status}
    if answer.status == 200:
        bid = json.loads(text)["seatbid"][0]["bid"][0]
        line |= {"sale": int(bid["burl"].rsplit("/", 1)[1]), "price": bid["price"], "campaign": int(bid["cid"])}
    elif answer.status != 204:
        line["text"] = text.decode("latin1")[:100]
    return line, answer.will_close


def sell(address, users, limit, tell, ended):
    """Asks for these users, one after the other, over one link as long as that lasts."""
    link = None
    for user in users:
        if ended.is_set():
            return
        began = time.time()
        try:
            link = link or http.client.HTTPConnection(address, PORT, timeout=limit)
            line, closes = answer_of(link, user)
        except (OSError, http.client.HTTPException, ValueError) as fault:
            line, closes = {"fault": type(fault).__name__}, True
        tell({"user": user, "from": began, "to": time.time()} | line)
        if closes:
            link.close()
            link = None
        if line.get("status", 500) >= 500:
            time.sleep(0.02)


def main(address, tag, threads, limit, log):
    ended, one, out = threading.Event(), threading.Lock(), open(log, "w", buffering=1)

    def tell(line):
        with one:
            out.write(json.dumps(line) + "\n")

    def users(thread):
        number = 0
        while True:
            number += 1
            yield f"{tag}-{thread}-{number}"

    workers = [threading.Thread(target=sell, args=(address, users(n), float(limit), tell, ended)) for n in range(int(threads))]
    for it in workers:
        it.daemon = True
        it.start()
    sys.stdin.read()
    ended.set()
    for it in workers:
        it.join(float(limit) + 1)
    out.flush()
    # A thread that still waits for its answer is left.
    os._exit(0)


main(*sys.argv[1:])
