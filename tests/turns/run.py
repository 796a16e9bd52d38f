#!/usr/bin/env python3
"""Turns: whoever sends many requests in one write has one answered at a time, and the others have their turns between them.
A line of `ask` that is kept is answered before the next one is kept.

Each row says what the clients did and saw; the first that sees something else ends the script with status 1. What is
compared is how many replies or entries of a journal there are, and no time. Needs Python 3 alone; the program is the
environment's CUBE.
"""

import os
import socket
import subprocess
import sys
import tempfile
import time

sys.path.insert(0, os.path.dirname(os.path.dirname(os.path.abspath(__file__))))

from servers import CUBE, Wrong, build, check, serving  # noqa: E402

PATIENCE = 120
LEAVES = 90
PARTS = 8
BURST = 1_000
# Before so many replies of a burst are there, another client has its own.
FEW = BURST // 10
# The longest member that a file may have makes replies of four megabytes: more than the system keeps of one that is not read.
WIDTH = 120


# ---- the cube

def dimension(name, levels, paths):
    quoted = ",".join("[" + ", ".join(f'"{member}"' for member in path) + "]" for path in paths)
    listed = ", ".join(f'"{level}"' for level in levels)
    return f'[[dimension]]\nname = "{name}"\ncolumn = "{name}"\nlevels = [{listed}]\npaths = [{quoted}]\n'


def write_cube(folder):
    """Writes a cube of 64,800 facts, with a controlled measure and an open one: the words that name its files."""
    wide = [f"{number:0>{WIDTH}}" for number in range(LEAVES)]
    with open(f"{folder}/dims.toml", "w") as file:
        for name, leaves in (("a", wide), ("b", wide), ("d", wide[:1]), ("e", wide[:1])):
            file.write(dimension(name, ["l"], [[name + leaf] for leaf in leaves]))
        file.write(dimension("c", ["part", "pair"], [[f"x{part}", f"y{part // 2}"] for part in range(PARTS)]))
        file.write("".join(f'[[measure]]\nname = "{name}"\ndecimals = 0\n' for name in "vw"))
    with open(f"{folder}/policy.toml", "w") as file:
        file.write('[[measure]]\nname = "v"\nmethod = "parity"\n[[measure]]\nname = "w"\nmethod = "open"\n')
    with open(f"{folder}/facts.csv", "w") as file:
        file.write("a,b,d,e,c,v,w\n")
        for a in wide:
            for b in wide:
                file.writelines(f"a{a},b{b},d{wide[0]},e{wide[0]},x{part},1,1\n" for part in range(PARTS))
    return [word for name in ("dims.toml", "facts.csv", "policy.toml") for word in (f"--{name.split('.')[0]}", f"{folder}/{name}")]


# ---- what is asked, and what comes

def request(query):
    target = query.replace(" ", "+").replace("=", "%3D")
    return f"GET /v1/query?q={target} HTTP/1.1\r\nHost: cube\r\n\r\n".encode()


def connect(address, room=None):
    client = socket.socket()
    client.settimeout(PATIENCE)
    if room:
        client.setsockopt(socket.SOL_SOCKET, socket.SO_RCVBUF, room)
    client.connect(address)
    return client


def receive_reply(client):
    """Reads one whole reply: its body."""
    got = b""
    while b"\r\n\r\n" not in got:
        got += take(client, 1)
    check(got.startswith(b"HTTP/1.1 200 "), f"another reply than expected: {got[:80]}")
    length = int(got.lower().split(b"content-length: ")[1].split(b"\r\n")[0])
    body = bytearray()
    while len(body) < length:
        body += take(client, length - len(body))
    return bytes(body)


def take(client, most):
    piece = client.recv(most)
    check(piece, "a connection ended")
    return piece


def count_replies(client):
    """How many replies begin in what is there now."""
    client.setblocking(False)
    got = bytearray()
    try:
        while piece := client.recv(1 << 20):
            got += piece
    except BlockingIOError:
        pass
    client.settimeout(PATIENCE)
    return got.count(b"HTTP/1.1 200 ")


# ---- the rows

def burst(words, folder):
    """A client sends many requests at once; one that asks behind its first reply is answered before a tenth of the rest."""
    with serving([*words, "--journal", f"{folder}/burst"]) as address:
        with connect(address) as many, connect(address) as other:
            other.sendall(request("cell w"))
            expected = receive_reply(other)
            many.sendall(request("slice w by c.part") * BURST)
            check(many.recv(1, socket.MSG_PEEK), "a connection ended")
            other.sendall(request("cell w"))
            check(receive_reply(other) == expected, "another reply than before")
            replies = count_replies(many)
            check(replies < FEW, f"{replies} of {BURST} replies to one client are there when the other has its own")


def entries_of(journal):
    with open(journal) as file:
        return sum(line.startswith("q ") for line in file)


def unread(words, folder):
    """A client sends four requests at once and reads no reply: what the journal has grows with what it reads."""
    journal, pairs = f"{folder}/unread", PARTS // 2
    with serving([*words, "--journal", journal]) as address:
        with connect(address, 4_096) as client:
            client.sendall(b"".join(request(f"slice v by a.l, b.l, d.l, e.l where c.pair=y{pair}") for pair in range(pairs)))
            for read in range(pairs):
                check(client.recv(1, socket.MSG_PEEK), "a connection ended")
                time.sleep(0.5)
                entries = entries_of(journal)
                check(entries == read + 1, f"{entries} entries in the journal where {read} replies were read and one is under way")
                rows = receive_reply(client).count(b"\n") - 1
                check(rows == LEAVES * LEAVES, f"{rows} rows")


def full_pipe():
    """A pipe that takes no more, and how many bytes stand in it."""
    out, into = os.pipe()
    os.set_blocking(into, False)
    filled = 0
    try:
        while True:
            filled += os.write(into, b"." * 4_096)
    except BlockingIOError:
        os.set_blocking(into, True)
        return out, into, filled


def unput(words, folder):
    """`ask` gets two lines at once and its output takes nothing: the second is not kept before the first is answered."""
    journal = f"{folder}/unput"
    out, into, filled = full_pipe()
    with open(out, "rb") as replies:
        asked = subprocess.Popen([CUBE, "ask", *words, "--journal", journal], stdin=subprocess.PIPE, stdout=into, stderr=subprocess.DEVNULL)
        os.close(into)
        with asked.stdin as lines:
            lines.write(b"slice v by c.part where c.pair=y0\nslice v by c.part where c.pair=y1\n")
        wait_for_entry(journal)
        time.sleep(0.5)
        entries = entries_of(journal)
        said = replies.read()[filled:].decode()
    check(asked.wait(PATIENCE) == 0 and said.count("200 ") == 2, f"other replies than expected: {said[:80]}")
    check(entries == 1 and entries_of(journal) == 2, f"{entries} entries in the journal where no reply was put")


def wait_for_entry(journal):
    """Waits until the journal has an entry."""
    for _ in range(PATIENCE * 20):
        if os.path.exists(journal) and entries_of(journal):
            return
        time.sleep(0.05)
    raise Wrong("no entry in the journal")


ROWS = (burst, unread, unput)


def main():
    build()
    with tempfile.TemporaryDirectory() as folder:
        words = write_cube(folder)
        for row in ROWS:
            try:
                row(words, folder)
            except (Wrong, OSError) as fault:
                sys.exit(f"turns: {row.__name__}: {fault}")
            print(row.__doc__, flush=True)


if __name__ == "__main__":
    main()
