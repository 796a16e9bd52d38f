#!/usr/bin/env python3
"""Kills: ends a server of examples/pay at random moments while clients ask it, and looks at what is left.

Behind each kill `ask` is asked on the same journal for all that any client was ever told. The sums must be the same,
what was refused must be refused again, and no line may be added: what was told stands in the journal. Its lines so far
must be as they were, and of the new ones at most one for each client may be of a request without a reply. Pay by area
and pay by grade, which together tell one person's pay, must never both be told. A kill is not a power cut: what the
system was given to write it still writes. Needs Python 3 alone; the program is the environment's CUBE.
"""

import csv
import os
import random
import re
import socket
import subprocess
import sys
import tempfile
import threading
import time

TESTS = os.path.dirname(os.path.dirname(os.path.abspath(__file__)))
EXAMPLES = os.path.join(TESTS, "..", "examples")
sys.path.insert(0, TESTS)

from servers import CUBE, Wrong, address_of, build, check, start  # noqa: E402

PAY = os.path.join(EXAMPLES, "pay")
FILES = ["--dims", f"{PAY}/dims.toml", "--facts", f"{PAY}/facts.csv", "--policy", f"{PAY}/policy.toml"]
CLIENTS = 16
JOURNALS = 20
KILLS = 10
PATIENCE = 60


# ---- what is asked

LEVELS = "region.branch", "time.month", "grade.grade"


class Cube:
    """The members of examples/pay in their order, and its hours."""

    def __init__(self):
        with open(f"{PAY}/dims.toml") as file:
            dimensions = file.read().split("[[dimension]]")[1:]
        self.leaves = [re.findall(r'\["(\w+)"', dimension.split("paths")[1]) for dimension in dimensions]
        with open(f"{PAY}/facts.csv", newline="") as file:
            records = csv.DictReader(file)
            self.facts = [(one["branch"], one["month"], one["grade"], int(one["hours"])) for one in records]

    def hours(self, chance):
        """A range of hours, in its canonical text, with the sum that it has."""
        ranges = [sorted(chance.choices(range(len(leaves)), k=2)) for leaves in self.leaves]
        names = [(leaves[low], leaves[high]) for leaves, (low, high) in zip(self.leaves, ranges)]
        places = ", ".join(f"{level}={low}..{high}" for level, (low, high) in zip(LEVELS, names))
        members = [set(leaves[low:high + 1]) for leaves, (low, high) in zip(self.leaves, ranges)]
        found = [fact[3] for fact in self.facts if all(name in those for name, those in zip(fact, members))]
        return f"range hours {places}", f"hours\n{sum(found)}\n" if found else None

    def pay(self, chance):
        """Pay by area or by grade in a month: each is told alone, and never both."""
        level = chance.choice(("region.area", "grade.grade"))
        return f"slice pay by {level} where time.month={chance.choice(self.leaves[1])}"


# ---- the server and its clients

class Told:
    """What the clients of one journal were told: of each query the last reply, and which are without one."""

    def __init__(self):
        self.replies = {}
        self.without = []
        self.lock = threading.Lock()

    def tell(self, query, reply):
        with self.lock:
            status, body = reply
            before = self.replies.setdefault(query, reply)
            check(before[0] == status, f"{query}: {before[0]}, and then {status}")
            check(status != 200 or before[1] == body, f"{query}: another sum than before")

    def answered(self):
        return [query for query, (status, _) in self.replies.items() if status == 200]


def read_reply(client, rest):
    while (end := rest.find(b"\r\n\r\n")) < 0 or len(rest) < end + 4 + int(re.search(rb"Content-Length: (\d+)", rest)[1]):
        piece = client.recv(65_536)
        if not piece:
            raise ConnectionError("the connection ended")
        rest += piece
    length = int(re.search(rb"Content-Length: (\d+)", rest)[1])
    return (int(rest[9:12]), rest[end + 4:end + 4 + length].decode()), rest[end + 4 + length:]


def talk(address, cube, told, faults, number):
    """Asks one request behind another until the server is gone."""
    chance = random.Random(number)
    query, rest = None, b""
    try:
        with socket.create_connection(address, PATIENCE) as client:
            client.setsockopt(socket.IPPROTO_TCP, socket.TCP_NODELAY, 1)
            while True:
                query, expected = (cube.pay(chance), None) if chance.random() < 0.1 else cube.hours(chance)
                target = "/v1/query?q=" + query.replace(" ", "+").replace("=", "%3D")
                client.sendall(f"GET {target} HTTP/1.1\r\nHost: cube\r\n\r\n".encode())
                reply, rest = read_reply(client, rest)
                check(reply[0] in (200, 403, 422), f"{query}: {reply}")
                check(not (reply[0] == 200 and expected) or reply[1] == expected, f"{query}: {reply[1]}, and not {expected}")
                told.tell(query, reply)
                query = None
    except (ConnectionError, TimeoutError):
        with told.lock:
            told.without += [query] if query else []
    except Exception as fault:
        faults.append(fault)


def serve_and_kill(journal, cube, told, chance):
    """Serves, and is killed at a random moment of the first 50 milliseconds in which it is asked."""
    faults = []
    with start([*FILES, "--journal", journal]) as server:
        try:
            given = address_of(server), cube, told, faults
            clients = [threading.Thread(target=talk, args=(*given, chance.random())) for _ in range(CLIENTS)]
            for client in clients:
                client.start()
            time.sleep(chance.random() * 0.05)
            check(server.poll() is None, "the server ended by itself")
        finally:
            server.kill()
    for client in clients:
        client.join()
    if faults:
        raise faults[0]


# ---- what is left

def lines_of(journal):
    """The ended lines: what stands behind the last line feed was never kept."""
    with open(journal) as file:
        return file.read().split("\n")[:-1]


def ask_again(journal, told):
    """Asks for all that was told, and compares."""
    queries = list(told.replies)
    asked = "".join(f"{query}\n" for query in queries)
    ran = subprocess.run([CUBE, "ask", *FILES, "--journal", journal], input=asked, capture_output=True, text=True)
    check(ran.returncode == 0, f"ask ends with {ran.returncode}, {ran.stderr}")
    rest = ran.stdout
    for query in queries:
        head, rest = rest.split("\n", 1)
        status, length = map(int, head.split())
        body, rest = rest[:length], rest[length:]
        told.tell(query, (status, body))
    check(rest == "", f"more than was asked: {rest}")


def look(journal, before, told):
    """Compares the journal with what was told."""
    lines = lines_of(journal)
    check(lines[:len(before)] == before, "a line that was kept has changed")
    new = {line.removeprefix("q ") for line in lines[max(len(before), 1):]}
    unseen = new - set(told.answered())
    check(unseen <= set(told.without), f"lines of no request: {unseen - set(told.without)}")
    check(len(unseen) <= CLIENTS, "more lines without a reply than clients")
    ask_again(journal, told)
    check(lines_of(journal) == lines, "a request that was answered had no place in the journal")
    levels = {query.split()[3] for query in told.answered() if query.startswith("slice pay")}
    check(len(levels) < 2, "pay by area and pay by grade were both told")
    return lines


def kill_all(folder):
    cube, chance = Cube(), random.Random(1)
    answered = lines = unseen = 0
    for number in range(JOURNALS):
        journal, told, kept = f"{folder}/{number}.journal", Told(), []
        for _ in range(KILLS):
            told.without = []
            serve_and_kill(journal, cube, told, chance)
            kept = look(journal, kept, told)
        answered, lines = answered + len(told.answered()), lines + len(kept) - 1
        unseen += len({line.removeprefix("q ") for line in kept[1:]} - set(told.answered()))
    check(lines > KILLS * JOURNALS, "hardly anything was asked")
    return (f"{JOURNALS * KILLS} kills under {CLIENTS} clients: {answered:,} answers and the {lines:,} lines that keep them "
            f"are all there, {unseen} of them of requests whose reply no client saw")


def main():
    build()
    with tempfile.TemporaryDirectory() as folder:
        try:
            print(kill_all(folder))
        except (Wrong, OSError) as fault:
            sys.exit(f"kills: {fault}")


if __name__ == "__main__":
    main()
