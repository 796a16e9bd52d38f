#!/usr/bin/env python3
"""Measures `cube` beside its peers on files that are made from a number.

Runs the program and its peers by turns, and prints a table: the median of the seconds, the most memory, and the ratio
of the program's median to each peer's. Needs Python 3 alone; the command `sqlite3`, or else Python's module of that
name, is the peer for sums, and pandas where it is installed.
"""

import argparse
import csv
import os
import random
import shutil
import signal
import sqlite3
import statistics
import subprocess
import sys
import tempfile
import time

TOP = os.path.dirname(os.path.dirname(os.path.abspath(__file__)))
POINTS = 65_536
MEASURES = (("v", 0), ("w", 2), ("x", 2))

SQLITE_MODULE = """
import csv, sqlite3, sys
with open("facts.csv", newline="") as file:
    rows = csv.reader(file)
    names = next(rows)
    base = sqlite3.connect(":memory:")
    base.execute("create table facts (%s)" % ", ".join(names))
    base.executemany("insert into facts values (%s)" % ", ".join("?" * len(names)), rows)
keys = ", ".join(names[:-3])
sums = ", ".join("sum(%s)" % name for name in names[-3:])
print(len(base.execute("select %s, %s, count(*) from facts group by %s" % (keys, sums, keys)).fetchall()))
"""

PANDAS = """
import pandas
facts = pandas.read_csv("facts.csv")
keys = list(facts.columns[:-3])
print(len(facts.groupby(keys).agg(["sum", "count"])))
"""


# ---- inputs

def leaf(dimension, number):
    return f"{chr(97 + dimension)}{number}"


def write_dims(folder, sizes, halves=False):
    """Dimensions of one level, or of two, the upper with two members."""
    with open(f"{folder}/dims.toml", "w") as file:
        for dimension, size in enumerate(sizes):
            name = chr(97 + dimension)
            levels = '"l", "h"' if halves else '"l"'
            file.write(f'[[dimension]]\nname = "{name}"\ncolumn = "{name}"\nlevels = [{levels}]\npaths = [\n')
            for number in range(size):
                upper = f', "{"front" if 2 * number < size else "behind"}"' if halves else ""
                file.write(f'  ["{leaf(dimension, number)}"{upper}],\n')
            file.write("]\n\n")
        for name, decimals in MEASURES:
            file.write(f'[[measure]]\nname = "{name}"\ndecimals = {decimals}\n\n')


def write_policy(folder, dimensions, objects):
    """One measure with a source, one with links, one that is open."""
    with open(f"{folder}/policy.toml", "w") as file:
        for (name, _), method in zip(MEASURES, ("lattice", "parity", "open")):
            file.write(f'[[measure]]\nname = "{name}"\nmethod = "{method}"\n\n')
        below = ", ".join(f'{chr(97 + dimension)} = "l"' for dimension in range(dimensions))
        for _ in range(objects):
            file.write(f'[[object]]\nmeasure = "v"\nbelow = {{ {below} }}\n\n')


def write_facts(folder, sizes, points, records, chance):
    """Each point at least once, in no order."""
    total = 1
    for size in sizes:
        total *= size
    places = list(range(total)) if total == points else chance.sample(range(total), points)
    rows = places + [chance.choice(places) for _ in range(records - points)]
    chance.shuffle(rows)
    with open(f"{folder}/facts.csv", "w") as file:
        file.write(",".join([chr(97 + d) for d in range(len(sizes))] + [name for name, _ in MEASURES]) + "\n")
        for place in rows:
            leaves = []
            for dimension in reversed(range(len(sizes))):
                place, number = divmod(place, sizes[dimension])
                leaves.append(leaf(dimension, number))
            file.write(
                f"{','.join(reversed(leaves))},{chance.randrange(-50, 1000)},"
                f"{chance.randrange(100_000) / 100:.2f},{chance.randrange(100_000) / 100:.2f}\n"
            )


def make(room, name, sizes, points, records, objects, number):
    folder = f"{room}/{name}"
    os.makedirs(folder)
    write_dims(folder, sizes)
    write_policy(folder, len(sizes), objects)
    write_facts(folder, sizes, points, records, random.Random(f"{number} {name}"))
    return folder


# ---- runs

def run(words, folder, stdin=b""):
    """The seconds and the most memory of one run, in MB."""
    start = time.perf_counter()
    child = subprocess.Popen(words, cwd=folder, stdin=subprocess.PIPE, stdout=subprocess.DEVNULL, stderr=subprocess.PIPE)
    child.stdin.write(stdin)
    child.stdin.close()
    said = child.stderr.read()
    _, status, used = os.wait4(child.pid, 0)
    seconds = time.perf_counter() - start
    if status:
        sys.exit(f"{' '.join(words)}: status {status}: {said[-300:].decode(errors='replace')}")
    return seconds, used.ru_maxrss / 1024


def run_server(words, folder):
    """Until it listens."""
    start = time.perf_counter()
    child = subprocess.Popen(words, cwd=folder, stdin=subprocess.DEVNULL, stdout=subprocess.DEVNULL, stderr=subprocess.PIPE)
    said = []
    for line in child.stderr:
        said.append(line)
        if line.startswith(b"listening"):
            break
    seconds = time.perf_counter() - start
    child.send_signal(signal.SIGTERM)
    child.stderr.read()
    _, _, used = os.wait4(child.pid, 0)
    if not (said and said[-1].startswith(b"listening")):
        sys.exit(f"{' '.join(words)}: {b''.join(said).decode(errors='replace')}")
    return seconds, used.ru_maxrss / 1024


def files(program, command, *more):
    return [program, command, "--dims", "dims.toml", "--facts", "facts.csv", "--policy", "policy.toml", *more]


def with_journal(program, folder, command, *more):
    """A run from an empty journal."""
    def start(stdin=b""):
        for name in ("journal", "journal.seal"):
            if os.path.exists(f"{folder}/{name}"):
                os.remove(f"{folder}/{name}")
        words = files(program, command, "--journal", "journal", *more)
        return run_server(words, folder) if command == "serve" else run(words, folder, stdin)
    return start


def sqlite_peer(folder, dimensions):
    if not shutil.which("sqlite3"):
        return lambda: run([sys.executable, "-c", SQLITE_MODULE], folder)
    keys = ",".join(chr(97 + d) for d in range(dimensions))
    columns = ",".join([f"{chr(97 + d)} text" for d in range(dimensions)] + [f"{name} real" for name, _ in MEASURES])
    group = f"select count(*) from (select {keys},sum(v),sum(w),sum(x),count(*) from facts group by {keys})"
    words = ["sqlite3", ":memory:", f"create table facts ({columns})", ".import --csv --skip 1 facts.csv facts", group]
    return lambda: run(words, folder)


def pandas_peer(folder):
    found = subprocess.run([sys.executable, "-c", "import pandas"], stderr=subprocess.DEVNULL)
    return None if found.returncode else lambda: run([sys.executable, "-c", PANDAS], folder)


# ---- the table

def median(runs):
    return statistics.median(seconds for seconds, _ in runs)


def by_turns(named, rounds):
    """Runs all, one after another, so many times."""
    made = {name: [] for name in named}
    for _ in range(rounds):
        for name, start in named.items():
            made[name].append(start())
    return made


def print_rows(title, made, against):
    """A row for each, with the ratios to the first of those that are compared with."""
    print(f"\n{title}\n")
    print(" | ".join(["| Run", "Median, s", "Least, s", "Memory, MB", *(f"to {name}" for name in against)]) + " |")
    print("|" + "---|" * (4 + len(against)))
    for name, runs in made.items():
        ratios = [f"{median(runs) / median(made[other]):.3f}" for other in against]
        least = min(seconds for seconds, _ in runs)
        print(" | ".join([f"| {name}", f"{median(runs):.3f}", f"{least:.3f}", f"{max(most for _, most in runs):.0f}", *ratios]) + " |")


def measure_load(program, room, number, rounds):
    full = make(room, "full", (256, 256), POINTS, 1_000_000, 1, number)
    peers = {"sqlite3": sqlite_peer(full, 2), "pandas": pandas_peer(full)}
    peers = {name: start for name, start in peers.items() if start}
    named = {"check": lambda: run(files(program, "check"), full), **peers}
    print_rows("1,000,000 records on 65,536 points, three measures", by_turns(named, rounds), list(peers))
    named = {
        "check": lambda: run(files(program, "check"), full),
        "ask, until ready": with_journal(program, full, "ask"),
        "serve, until ready": with_journal(program, full, "serve", "--address", "127.0.0.1:0"),
        "witness": with_journal(program, full, "witness", "--cell", "cell v a.l=a0, b.l=b0"),
    }
    print_rows("The commands on the same files", by_turns(named, rounds), ["check"])
    named = {
        "check": lambda: run(files(program, "check"), full),
        "draft": lambda: run([program, "draft", "--facts", "facts.csv"], full),
    }
    print_rows("What drafts the dimensions of the same facts", by_turns(named, rounds), ["check"])


def measure_growth(program, room, number, rounds):
    folders = {f"full, {count:,} records": make(room, f"full{count}", (256, 256), POINTS, count, 1, number) for count in (250_000, 500_000, 1_000_000)}
    folders["sparse, of 2^30 points, 1,000,000 records"] = make(room, "sparse", (1024, 1024, 1024), POINTS, 1_000_000, 1, number)
    named = {name: (lambda folder=folder: run(files(program, "check"), folder)) for name, folder in folders.items()}
    print_rows("How `check` grows", by_turns(named, rounds), ["full, 1,000,000 records"])


def measure_objects(program, room, number, rounds):
    folders = {f"{count} equal objects": make(room, f"objects{count}", (4,) * 8, POINTS, POINTS, count, number) for count in (1, 64)}
    named = {name: (lambda folder=folder: run(files(program, "check"), folder)) for name, folder in folders.items()}
    print_rows("`check` over 8 dimensions and 65,536 points", by_turns(named, rounds), ["1 equal objects"])


# ---- answers, by the processor time of one query

class Asker:
    """A run of `ask` from an empty journal, asked through a pipe."""

    def __init__(self, program, folder):
        for name in ("journal", "journal.seal"):
            if os.path.exists(f"{folder}/{name}"):
                os.remove(f"{folder}/{name}")
        words = files(program, "ask", "--journal", "journal")
        self.child = subprocess.Popen(words, cwd=folder, stdin=subprocess.PIPE, stdout=subprocess.PIPE, stderr=subprocess.DEVNULL)
        self.ask("cell count")

    def used(self):
        with open(f"/proc/{self.child.pid}/schedstat") as file:
            return int(file.read().split()[0]) / 1e9

    def ask(self, query):
        """The seconds that the answer takes, and its rows."""
        before = self.used()
        self.child.stdin.write(f"{query}\n".encode())
        self.child.stdin.flush()
        status, length = self.child.stdout.readline().split()
        body = self.child.stdout.read(int(length))
        if status != b"200":
            sys.exit(f"{query}: {status.decode()} {body.decode()}")
        return self.used() - before, body.count(b"\n") - 1

    def ask_again(self, query, many):
        """The seconds that as many equal answers take, read as they come."""
        before = self.used()
        asks = f"{query}\n".encode() * 100
        for _ in range(many // 100):
            self.child.stdin.write(asks)
            self.child.stdin.flush()
            for _ in range(100):
                status, length = self.child.stdout.readline().split()
                self.child.stdout.read(int(length))
        return self.used() - before

    def close(self):
        self.child.stdin.close()
        self.child.wait()


def sqlite_table(folder):
    """The points of the fact file in memory, with their members as texts."""
    base = sqlite3.connect(":memory:")
    with open(f"{folder}/facts.csv", newline="") as file:
        rows = csv.reader(file)
        names = next(rows)
        base.execute(f"create table facts ({', '.join(names)})")
        base.executemany(f"insert into facts values ({', '.join('?' * len(names))})", rows)
    return base


def sqlite_seconds(base, query):
    before = time.process_time()
    rows = len(base.execute(query).fetchall())
    return time.process_time() - before, rows


# What is asked of the program behind which earlier answers, and what sqlite3 is asked; v has a source, w links, x is open.
ANSWERS = (
    ("65,536 rows", [], "slice x by a.l, b.l", "select a, b, sum(x) from facts group by a, b"),
    ("the sum of all", [], "cell x", "select sum(x) from facts"),
    ("256 rows by the first dimension", [], "slice x by a.l", "select a, sum(x) from facts group by a"),
    ("512 kept cells into 256 rows", ["slice v by a.h, b.l"], "slice v by b.l", "select b, sum(v) from facts group by b"),
    ("a fresh range over all points, by links", [], "range w a.l=a0..a255, b.l=b0..b255", "select sum(w) from facts"),
)


# How often an answer that is kept is asked for once more.
AGAIN = 20_000


def measure_again(program, folder, base, rounds):
    """A roll-up of kept cells, the processor time of one of many."""
    before, query, peer = "slice v by a.h, b.l", "slice v by b.l", "select b, sum(v) from facts group by b"
    ours, theirs = [], []
    for _ in range(rounds):
        asker = Asker(program, folder)
        asker.ask(before)
        asker.ask(query)
        ours.append(asker.ask_again(query, AGAIN) / AGAIN)
        asker.close()
        theirs.append(sqlite_seconds(base, peer)[0])
    mine, peers = statistics.median(ours), statistics.median(theirs)
    print(f"| the same roll-up, one of {AGAIN:,} | {mine * 1000:.3f} | {peers * 1000:.1f} | 1/{peers / mine:,.0f} |")


def measure_answers(program, room, number, rounds):
    folder = make(room, "answers", (256, 256), POINTS, POINTS, 1, number)
    write_dims(folder, (256, 256), halves=True)
    base = sqlite_table(folder)
    print("\nAnswers over 65,536 points, processor time of one query\n")
    print("| Answer | `cube`, ms | `sqlite3`, ms | ratio |\n|---|---|---|---|")
    for name, before, query, peer in ANSWERS:
        ours, theirs = [], []
        for _ in range(rounds):
            asker = Asker(program, folder)
            for earlier in before:
                asker.ask(earlier)
            seconds, rows = asker.ask(query)
            asker.close()
            ours.append(seconds)
            seconds, others = sqlite_seconds(base, peer)
            theirs.append(seconds)
            if rows != others:
                sys.exit(f"{query}: {rows} rows and {others}")
        mine, peers = statistics.median(ours), statistics.median(theirs)
        ratio = f"{mine / peers:.3f}" if mine * 100 > peers else f"1/{peers / mine:,.0f}"
        print(f"| {name} | {mine * 1000:.3f} | {peers * 1000:.1f} | {ratio} |")
    measure_again(program, folder, base, rounds)


# ---- journals, until they are open

# Ranges over one dimension: how many leaves it has, and the first and last leaf of each. The first kind has a link of its own in
# each range and no other; the others have one link that does not follow among thousands that do.
JOURNALS = (
    ("2 of 20,000 places", 20_000, lambda k: (k, k + 1)),
    ("24,002 of 65,536 places", POINTS, lambda k: (2 * k, 2 * k + 24_001)),
    ("32,770 places, growing to all 65,536", POINTS, lambda k: (0, 32_769 + 2 * k)),
)
ENTRIES = 16_384


def measure_journals(program, room, number, rounds):
    named = {}
    for many, (name, leaves, ends) in enumerate(JOURNALS):
        folder = make(room, f"journal{many}", (leaves,), leaves, leaves, 0, number)
        asks = (ends(k) for k in range(ENTRIES))
        queries = "".join(f"range w a.l={leaf(0, first)}..{leaf(0, last)}\n" for first, last in asks)
        with_journal(program, folder, "ask")(queries.encode())
        named[name] = lambda folder=folder: run(files(program, "ask", "--journal", "journal"), folder)
    print_rows("A journal of 16,384 ranges, until it is open", by_turns(named, rounds), [])


PARTS = {"load": measure_load, "growth": measure_growth, "objects": measure_objects, "answers": measure_answers, "journals": measure_journals}


def main():
    words = argparse.ArgumentParser(description=__doc__, formatter_class=argparse.RawDescriptionHelpFormatter)
    words.add_argument("--program", default=f"{TOP}/crates/cube_app/out/cube_app", help="the program, built by ./cube --version")
    words.add_argument("--number", default="1", help="what the files are made from")
    words.add_argument("--rounds", type=int, default=5, help="how often each is run")
    words.add_argument("parts", nargs="*", help=f"of {', '.join(PARTS)}; all where none is named")
    said = words.parse_args()
    unknown = [part for part in said.parts if part not in PARTS]
    if unknown:
        words.error(f"no part {unknown[0]}")
    program = os.path.abspath(said.program)
    print(f"{time.strftime('%Y-%m-%d')}, {os.cpu_count()} processors, files of the number {said.number}, {said.rounds} rounds by turns")
    with tempfile.TemporaryDirectory(prefix="cube-bench-") as room:
        for part in said.parts or PARTS:
            PARTS[part](program, room, said.number, said.rounds)


if __name__ == "__main__":
    main()
