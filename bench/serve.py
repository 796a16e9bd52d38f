#!/usr/bin/env python3
"""Measures `cube serve` beside `nginx` with one worker and a static file.

    serve.py [SECONDS [RUNS]]

The two are asked by turns, for SECONDS each (3), in RUNS runs (5): on one kept connection; on 64 at once; and on one
while 63 others are idle. Medians are printed, and the ratio of the two; of the 64 also how long the slowest waited for
a reply beside the median one. The replies of the two are not of one length: the head of `nginx` alone is longer than a
reply of the program, so its file has one byte. How long each reply is stands before the medians. Needs Python 3 and
`nginx` alone; the program is the environment's CUBE. Clients take up to three processors, so there should be four, with
nothing else to do.
"""

import multiprocessing
import os
import selectors
import socket
import statistics
import subprocess
import sys
import tempfile
import time

HERE = os.path.dirname(os.path.abspath(__file__))
EXAMPLES = os.path.join(HERE, "..", "examples")
sys.path.insert(0, os.path.join(HERE, "..", "tests"))

from servers import serving  # noqa: E402

PAY = os.path.join(EXAMPLES, "pay")
FILES = ["--dims", f"{PAY}/dims.toml", "--facts", f"{PAY}/facts.csv", "--policy", f"{EXAMPLES}/two-worlds/open.toml"]
TARGET = "/v1/query?q=slice+hours+by+region.area"
CONNECTIONS = 64
CLIENTS = 3

CONFIGURATION = """
worker_processes 1; daemon off; pid {folder}/pid; error_log {folder}/errors;
events {{ worker_connections 1024; }}
http {{
    access_log off; client_body_temp_path {folder}/body; default_type text/csv;
    keepalive_requests 1000000000;
    server {{ listen 127.0.0.1:{port}; location / {{ root {folder}; try_files /reply =404; }} }}
}}
"""


# ---- the clients

def request(host):
    return f"GET {TARGET} HTTP/1.1\r\nHost: {host}\r\n\r\n".encode()


def length_of(address):
    """How many bytes the reply has."""
    with socket.create_connection(address) as client:
        client.sendall(request("cube"))
        got = b""
        while b"\r\n\r\n" not in got:
            got += client.recv(65_536)
        head, rest = got.split(b"\r\n\r\n", 1)
        body = int(head.lower().split(b"content-length: ")[1].split(b"\r\n")[0])
        return len(head) + 4 + body


def connect(address):
    client = socket.create_connection(address)
    client.setsockopt(socket.IPPROTO_TCP, socket.TCP_NODELAY, 1)
    return client


def drive(job):
    """Asks over some connections, one request behind another on each: the replies, and the longest wait on each."""
    address, connections, length, seconds = job
    asked = request("cube")
    wait = selectors.DefaultSelector()
    longest, replies = [0.0] * connections, 0
    for number in range(connections):
        wait.register(connect(address), selectors.EVENT_READ, [number, 0, 0.0])
    for key in list(wait.get_map().values()):
        key.data[2] = time.monotonic()
        key.fileobj.sendall(asked)
    end = time.monotonic() + seconds
    while (now := time.monotonic()) < end:
        for key, _ in wait.select():
            state = key.data
            state[1] += len(key.fileobj.recv(65_536))
            if state[1] < length:
                continue
            now = time.monotonic()
            longest[state[0]] = max(longest[state[0]], now - state[2])
            replies += 1
            state[1], state[2] = 0, now
            key.fileobj.sendall(asked)
    for key in list(wait.get_map().values()):
        key.fileobj.close()
    return replies / seconds, longest


def rate(address, connections, seconds):
    """Replies a second, and the longest wait of each connection."""
    length = length_of(address)
    clients = min(CLIENTS, connections)
    shares = [connections // clients + (number < connections % clients) for number in range(clients)]
    with multiprocessing.Pool(clients) as pool:
        got = pool.map(drive, [(address, share, length, seconds) for share in shares])
    return sum(one for one, _ in got), [wait for _, waits in got for wait in waits]


def rate_beside_idle(address, seconds):
    idle = [connect(address) for _ in range(CONNECTIONS - 1)]
    try:
        return rate(address, 1, seconds)[0]
    finally:
        for client in idle:
            client.close()


# ---- the servers

def free_port():
    with socket.create_server(("127.0.0.1", 0)) as taken:
        return taken.getsockname()[1]


class Nginx:
    def __init__(self, folder, body):
        self.address = "127.0.0.1", free_port()
        with open(f"{folder}/reply", "wb") as file:
            file.write(body)
        with open(f"{folder}/nginx.conf", "w") as file:
            file.write(CONFIGURATION.format(folder=folder, port=self.address[1]))
        os.chmod(folder, 0o755)
        self.process = subprocess.Popen(["nginx", "-c", f"{folder}/nginx.conf"], stderr=subprocess.DEVNULL)
        time.sleep(0.5)

    def end(self):
        self.process.terminate()
        self.process.wait()


def measure(address, seconds):
    one = rate(address, 1, seconds)[0]
    many, waits = rate(address, CONNECTIONS, seconds)
    return one, many, max(waits) / statistics.median(waits), rate_beside_idle(address, seconds)


def main():
    seconds, runs = (float(word) if number == 0 else int(word) for number, word in enumerate((sys.argv[1:] + ["3", "5"][len(sys.argv) - 1:])[:2]))
    with tempfile.TemporaryDirectory() as folder, serving([*FILES, "--journal", f"{folder}/journal"]) as cube:
        nginx = Nginx(folder, b"x")
        try:
            print(f"{'bytes of a reply':<24} cube {length_of(cube):>10,}  nginx {length_of(nginx.address):>10,}", flush=True)
            tables = [[measure(address, seconds) for address in (cube, nginx.address)] for _ in range(runs)]
        finally:
            nginx.end()
    rows = [[statistics.median(run[side][row] for run in tables) for side in (0, 1)] for row in range(4)]
    for name, (ours, theirs) in zip(("one kept connection", f"{CONNECTIONS} kept connections", "slowest wait to median", f"one beside {CONNECTIONS - 1} idle"), rows):
        print(f"{name:<24} cube {ours:>10,.1f}  nginx {theirs:>10,.1f}  ratio {ours / theirs:.2f}")
    print(f"one beside idle ones, to one alone: {rows[3][0] / rows[0][0]:.2f}")


if __name__ == "__main__":
    main()
