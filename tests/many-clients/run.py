#!/usr/bin/env python3
"""Many clients: serves cubes on the machine's own loopback to clients that are many, idle, slow, rude or gone.

Each row says what the clients did and saw; the first that sees something else ends the script with status 1. The sums
that are expected are added up here, from the fact files. Needs Python 3 alone; the program is the environment's CUBE.
"""

import csv
import os
import random
import re
import resource
import socket
import struct
import sys
import tempfile
import time
from concurrent.futures import ThreadPoolExecutor

TESTS = os.path.dirname(os.path.dirname(os.path.abspath(__file__)))
EXAMPLES = os.path.join(TESTS, "..", "examples")
sys.path.insert(0, TESTS)

from servers import Wrong, address_of, build, check, start  # noqa: E402

PAY = os.path.join(EXAMPLES, "pay")
OPEN = os.path.join(EXAMPLES, "two-worlds", "open.toml")
CLIENTS = 64
REQUESTS = 1_000
PATIENCE = 60
SIZE = 64
LARGE = 32


# ---- what is asked, and what is expected

def request(query, fields=""):
    target = "/v1/query?q=" + query.replace(" ", "+").replace("=", "%3D")
    return f"GET {target} HTTP/1.1\r\nHost: cube\r\n{fields}\r\n".encode()


def response(body, kind="text/csv; charset=utf-8", status="200 OK", fields=""):
    return f"HTTP/1.1 {status}\r\nContent-Type: {kind}\r\nContent-Length: {len(body)}\r\n{fields}\r\n{body}".encode()


def refusal(status, text):
    return response(text + "\n", "text/plain; charset=utf-8", status, "Connection: close\r\n")


def pay_asks():
    """The hours of each area, a month at a time: requests with their responses."""
    with open(f"{PAY}/dims.toml") as file:
        dimensions = file.read().split("[[dimension]]")[1:]
    regions, months = (re.findall(r'^  \["(\w+)", "(\w+)"\]', dimension, re.MULTILINE) for dimension in dimensions[:2])
    area_of = dict(regions)
    sums = {}
    with open(f"{PAY}/facts.csv", newline="") as file:
        for fact in csv.DictReader(file):
            key = fact["month"], area_of[fact["branch"]]
            sums[key] = sums.get(key, 0) + int(fact["hours"])
    asks = []
    for month, _quarter in months:
        rows = [f"{area},{sums[month, area]}\n" for area in dict.fromkeys(area_of.values()) if (month, area) in sums]
        query = f"slice hours by region.area where time.month={month}"
        asks.append((request(query), response("region.area,hours\n" + "".join(rows))))
    return asks


def write_large(folder):
    """Writes a cube of long names, whose whole slice has near a megabyte: the request for it with the response."""
    names = {name: [f"{name}{number:0>100}" for number in range(SIZE)] for name in "ab"}
    with open(f"{folder}/dims.toml", "w") as file:
        for name, leaves in names.items():
            paths = "".join(f'["{leaf}"],' for leaf in leaves)
            file.write(f'[[dimension]]\nname = "{name}"\ncolumn = "{name}"\nlevels = ["l"]\npaths = [{paths}]\n')
        file.write('[[measure]]\nname = "v"\ndecimals = 0\n')
    with open(f"{folder}/policy.toml", "w") as file:
        file.write('[[measure]]\nname = "v"\nmethod = "open"\n')
    rows = [f"{a},{b},{number}\n" for number, (a, b) in enumerate((a, b) for a in names["a"] for b in names["b"])]
    with open(f"{folder}/facts.csv", "w") as file:
        file.write("a,b,v\n" + "".join(rows))
    return request("slice v by a.l, b.l"), response("a.l,b.l,v\n" + "".join(rows))


# ---- the program, and its clients

class Server:
    """A running `serve` on a free port."""

    def __init__(self, folder, dims, facts, policy, files=None):
        limit = (lambda: resource.setrlimit(resource.RLIMIT_NOFILE, (files, files))) if files else None
        words = ["--dims", dims, "--facts", facts, "--policy", policy, "--journal", tempfile.mktemp(dir=folder)]
        self.process = start(words, preexec_fn=limit)

    def __enter__(self):
        self.address = address_of(self.process)
        return self

    def __exit__(self, kind, *_):
        has_ended = self.process.poll() is not None
        self.process.kill()
        self.process.communicate()
        check(kind or not has_ended, "the server ended")

    def connect(self, receive_room=None):
        client = socket.socket()
        client.settimeout(PATIENCE)
        if receive_room:
            client.setsockopt(socket.SOL_SOCKET, socket.SO_RCVBUF, receive_room)
        client.connect(self.address)
        return client


def receive(client, expected):
    """Reads as many bytes as are expected, and compares them."""
    got = bytearray()
    while len(got) < len(expected):
        piece = client.recv(len(expected) - len(got))
        check(piece, f"a connection ended behind {bytes(got[-200:])}")
        got += piece
    check(got == expected, f"other bytes than expected: {bytes(got[:200])}")


def receive_end(client):
    check(client.recv(1) == b"", "a connection goes on")
    client.close()


def ask(client, asked):
    client.sendall(asked[0])
    receive(client, asked[1])


def is_served(server, asked):
    """Whether a new connection gets its reply; one that is told that there are too many does not."""
    request, reply = asked
    busy = refusal("503 Service Unavailable", "too many connections")
    client = server.connect()
    client.sendall(request)
    first = client.recv(len("HTTP/1.1 503"), socket.MSG_WAITALL)
    is_busy = first == busy[:len(first)]
    receive(client, (busy if is_busy else reply)[len(first):])
    check(is_busy or first == reply[:len(first)], f"another beginning than expected: {first}")
    client.close()
    return not is_busy


def reset(client):
    client.setsockopt(socket.SOL_SOCKET, socket.SO_LINGER, struct.pack("ii", 1, 0))
    client.close()


def talk(server, asks, number):
    """Asks over one connection, the requests cut into pieces at random places, and compares each response."""
    chance = random.Random(number)
    wanted = [chance.choice(asks) for _ in range(REQUESTS)]
    stream = b"".join(asked for asked, _ in wanted)
    client = server.connect()
    client.setsockopt(socket.IPPROTO_TCP, socket.TCP_NODELAY, 1)
    sent = whole = answered = 0
    while sent < len(stream):
        piece = stream[sent:sent + chance.randint(1, 300)]
        client.sendall(piece)
        sent += len(piece)
        while answered < REQUESTS and whole + len(wanted[answered][0]) <= sent:
            whole += len(wanted[answered][0])
            receive(client, wanted[answered][1])
            answered += 1
    check(answered == REQUESTS, "requests without a response")
    client.close()


# ---- the rows

def many_clients(server, asks):
    begin = time.monotonic()
    with ThreadPoolExecutor(CLIENTS) as pool:
        for talked in [pool.submit(talk, server, asks, number) for number in range(CLIENTS)]:
            talked.result()
    rate = CLIENTS * REQUESTS / (time.monotonic() - begin)
    return f"{CLIENTS} clients ask {REQUESTS:,} requests each, cut at random, and each reply is the expected one ({rate:,.0f} a second)"


def idle_clients(server, asks):
    idle = [server.connect() for _ in range(CLIENTS - 1)]
    busy = server.connect()
    for number in range(REQUESTS):
        ask(busy, asks[number % len(asks)])
    for client in idle:
        ask(client, asks[0])
        client.close()
    busy.close()
    return f"{CLIENTS - 1} idle connections stop nobody, and are served when they ask"


def one_too_many(server, asks):
    clients = [server.connect() for _ in range(CLIENTS)]
    for client in clients:
        ask(client, asks[0])
    for _ in range(10):
        late = server.connect()
        receive(late, refusal("503 Service Unavailable", "too many connections"))
        receive_end(late)
    for client in clients:
        ask(client, asks[1])
        client.close()
    return "one connection more is told that there are too many, and the others go on"


def unread_request(server, asks):
    for _ in range(20):
        client = server.connect()
        client.sendall(b"POST /v1/query HTTP/1.1\r\nHost: cube\r\nContent-Length: 900000\r\n\r\n" + bytes(900_000))
        receive(client, refusal("413 Payload Too Large", "too large"))
        receive_end(client)
    return "a refused request with unread bytes behind it gets its reply"


def resets(server, asks):
    for number in range(100):
        client = server.connect()
        client.sendall(asks[0][0][:number])
        reset(client)
        client = server.connect()
        client.sendall(asks[0][0] * 50)
        reset(client)
    end = time.monotonic() + PATIENCE
    while not is_served(server, asks[0]):
        check(time.monotonic() < end, "connections that were reset keep their places")
    return "clients that reset their connections, with and without a reply under way, give their places back"


def slow_client(server, large):
    asked, expected = large
    count = request("cell count"), response(f"count\n{SIZE * SIZE}\n")
    last = request("cell count", "Connection: close\r\n"), response(f"count\n{SIZE * SIZE}\n", fields="Connection: close\r\n")
    slow = server.connect(receive_room=65_536)
    slow.sendall(asked * LARGE + last[0])
    other = server.connect()
    for _ in range(REQUESTS):
        ask(other, count)
    for _ in range(LARGE):
        receive(slow, expected)
        ask(other, count)
    receive(slow, last[1])
    receive_end(slow)
    return f"a client that does not take {LARGE * len(expected):,} bytes lets others be served, and gets all before its connection is closed"


def few_files(folder, pay, asks):
    with Server(folder, *pay, files=16) as server:
        clients = [server.connect() for _ in range(CLIENTS)]
        for client in clients:
            client.sendall(asks[0][0])
        for client in clients:
            receive(client, asks[0][1])
            client.close()
    return f"with 16 files that may be open {CLIENTS} clients are served one behind another"


def all_rows(folder):
    asks = pay_asks()
    pay = f"{PAY}/dims.toml", f"{PAY}/facts.csv", OPEN
    with Server(folder, *pay) as server:
        for row in (many_clients, idle_clients, one_too_many, unread_request, resets):
            yield row(server, asks)
    yield few_files(folder, pay, asks)
    large = write_large(folder)
    with Server(folder, *(f"{folder}/{name}" for name in ("dims.toml", "facts.csv", "policy.toml"))) as server:
        yield slow_client(server, large)


def main():
    build()
    with tempfile.TemporaryDirectory() as folder:
        try:
            for row in all_rows(folder):
                print(row, flush=True)
        except (Wrong, OSError) as fault:
            sys.exit(f"many clients: {fault}")


if __name__ == "__main__":
    main()
