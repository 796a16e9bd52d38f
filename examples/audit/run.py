#!/usr/bin/env python3
"""Audit: transcripts of queries and replies, checked against a cube.

Each row says what was audited and what came of it; the first in which something else came ends the script with
status 1. Transcripts of `ask` over cubes made at random get a yes, and one with a sum that is another names its item.
Where the replies of several journals are joined, each yes is held to rational elimination over the facts. Needs Python 3
alone. The program is the environment's CUBE.

    run.py [SEED]
"""

import itertools
import json
import pathlib
import random
import subprocess
import sys
import tempfile
import time
from fractions import Fraction

TESTS = pathlib.Path(__file__).resolve().parents[2] / "tests"
sys.path[:0] = [str(TESTS), str(TESTS / "fuzz")]

import asks  # noqa: E402
from checks import Play  # noqa: E402
from program import Failure, read_replies  # noqa: E402
from servers import CUBE, Wrong, build, check  # noqa: E402
from small import GRID, PAY  # noqa: E402

PATIENCE = 300
CUBES = 20
MOST = 65_536
LONGEST = 67_108_864


# ---- runs

def ends(files, transcript):
    """Audits a transcript to the end of the run: its status, what it wrote, and its text."""
    words = [word for kind, name in files.items() for word in (f"--{kind}", name)]
    done = subprocess.run([CUBE, "audit", *words, "--transcript", transcript], capture_output=True, timeout=PATIENCE)
    return done.returncode, done.stdout, done.stderr


class Desk:
    """The files of a cube, and a file beside them that each transcript is written to."""

    def __init__(self, folder, files):
        self.files = files
        self.transcript = folder / "transcript"

    def tells(self, data):
        self.transcript.write_bytes(data)
        return ends(self.files, self.transcript)

    def line(self, items):
        """What is told of some items."""
        status, written, said = self.tells(json.dumps(items).encode())
        check(status == (0 if written.startswith(b"yes ") else 1) and not said, f"status {status}, {written}, {said}")
        return written.decode()

    def refuses(self, data, why):
        told = self.tells(data)
        wanted = 3, b"", f"transcript: {why}\n".encode()
        check(told == wanted, f"{data[:60]}: {told} and not {wanted}")


def item(query, status, body):
    return {"q": query, "status": status, "body": body}


def desk_of(folder, texts):
    files = {}
    for kind, text in texts.items():
        files[kind] = folder / kind
        files[kind].write_text(text)
    return Desk(folder, files)


# ---- small cubes

MONTHS = item("slice pay by time.month", 200, "time.month,pay\nJan,80\nFeb,70\n")
AREAS = item("slice pay by region.area", 200, "region.area,pay\nSouth,60\nNorth,90\n")


def the_small_cube(folder):
    desk = desk_of(folder, PAY)
    wrong = item(MONTHS["q"], 200, MONTHS["body"].replace("80", "81"))
    refusal = item(AREAS["q"], 403, "anything")
    cases = [
        ([MONTHS], "yes 1\n"),
        ([MONTHS, AREAS], "no: measure pay, cell (region.city=Lyon, time.month=Feb)\n"),
        ([wrong, AREAS], "no: item 1\n"),
        ([refusal, wrong], "no: item 2\n"),
        ([MONTHS, refusal, MONTHS], "yes 2\n"),
        ([item("shape", 200, "")], "no: item 1\n"),
        ([{**MONTHS, "when": [1, {}], "q2": None}], "yes 1\n"),
        ([item("cell count", 200, "count\n5\n")] * MOST, f"yes {MOST}\n"),
        ([], "yes 0\n"),
    ]
    for items, wanted in cases:
        told = desk.line(items)
        check(told == wanted, f"{items[:2]}: {told} and not {wanted}")
    return f"{len(cases)} transcripts over the small cube get their lines"


def a_triangle(folder):
    """Three places, and the three pairs of them: each two tell nothing, all three tell each place."""
    desk = desk_of(folder, GRID)
    sums = [item("range v col.c=c0..c1", 200, "v\n15\n"), item("cell v row.r=r1", 200, "v\n17\n"), item("range v col.c=c1..c2", 200, "v\n16\n")]
    for two in itertools.permutations(sums, 2):
        told = desk.line(list(two))
        check(told == "yes 2\n", f"{two}: {told}")
    for three in itertools.permutations(sums):
        told = desk.line(list(three))
        check(told == "no: measure v, cell (row.r=r0, col.c=c1)\n", f"{three}: {told}")
    return "two sums of a triangle are a yes, in any order, and three are none"


def bad_input(folder):
    desk = desk_of(folder, PAY)
    keys = {"q": "cell count", "status": 200, "body": ""}
    wrong = [
        *([{key: value for key, value in keys.items() if key != lacking}] for lacking in keys),
        *([{**keys, "status": status}] for status in (99, 600, -200, "200", 200.0, True, None, 2**64 + 200)),
        *([{**keys, key: value}] for key in ("q", "body") for value in (1, None, ["cell count"], {})),
        *([value] for value in (1, "cell count", None, [], [keys])),
    ]
    for items in wrong:
        desk.refuses(json.dumps(items).encode(), "item 1")
        desk.refuses(json.dumps([keys, *items]).encode(), "item 2")
    desk.refuses(b'[{"q":"cell count","status":2e2,"body":""}]', "item 1")
    for value in ({}, {"items": []}, 1, "[]", None, True):
        desk.refuses(json.dumps(value).encode(), "not an array")
    for data in (b"", b" ", b"[", b"[]]", b"[,]", b"\xef\xbb\xbf[]", b'["\xff"]', b"[1,]", b"nothing", b"[" * 100_000, b"[" * 100_000 + b"]" * 100_000):
        desk.refuses(data, "not json")
    desk.refuses(json.dumps([1] * (MOST + 1)).encode(), f"limit items {MOST}")
    status, written, said = ends(desk.files, folder / "none")
    check((status, written) == (5, b"") and said.endswith(f"cannot read {folder / 'none'}\n".encode()), f"no file: {status} {said}")
    return "what is no transcript is refused with its first fault"


def long_files(folder):
    desk = desk_of(folder, PAY)
    took = []
    for data, wanted in (
        (b" " * LONGEST, (3, b"", b"transcript: not json\n")),
        (b" " * (LONGEST - 2) + b"[]", (0, b"yes 0\n", b"")),
        (b" " * (LONGEST + 1), (3, b"", b"transcript: limit file 67108864\n")),
    ):
        began = time.monotonic()
        told = desk.tells(data)
        took.append(time.monotonic() - began)
        check(told == wanted, f"{len(data)} bytes: {told} and not {wanted}")
    check(max(took) < 60, f"{max(took):.1f} s")
    return f"64 MiB of blanks are read in {max(took):.1f} s"


# ---- cubes at random

class Audited:
    """A cube at random, with what `ask` replied to lines at random."""

    def __init__(self, rng, folder):
        folder.mkdir()
        self.rng = rng
        self.play = Play(rng, str(folder))
        self.cube = self.play.cube
        self.desk = Desk(folder, {"dims": folder / "dims.toml", "facts": folder / "facts.csv", "policy": folder / "policy.toml"})

    def items(self, lines, replies):
        """The queries among the lines with their replies, as items, and beside each what it asks, if that is known."""
        kept = []
        for line, (status, body) in zip(lines, replies, strict=True):
            if line.text == b"shape" or line.text.startswith(b"witness "):
                continue
            try:
                kept.append((item(line.text.decode(), status, body.decode()), line))
            except UnicodeDecodeError:
                pass
        return kept

    def guarded_lines(self):
        """Queries of measures that are not open."""
        guarded = [one for one in self.cube.measures if one.method != "open"]
        requests = [asks.make_request(self.rng, self.cube) for _ in range(40 * bool(guarded))]
        for request in requests:
            request.what = self.rng.choice(guarded)
        return [asks.Line(asks.query_text(self.cube, request).encode(), request) for request in requests]

    def asked(self, journal, lines):
        """What is replied to lines with a journal of their own, which is gone then."""
        given = b"".join(line.text + b"\n" for line in lines)
        items = self.items(lines, read_replies(self.play.ask(journal, given)))
        for kept in (journal, f"{journal}.seal"):
            pathlib.Path(self.play.path(kept)).unlink()
        return items


def numbered(items):
    return sum(one["status"] == 200 for one in items)


def a_server_that_answers_right(audited):
    items = [one for one, _ in audited.items(audited.play.lines, audited.play.replies)]
    told = audited.desk.line(items)
    check(told == f"yes {numbered(items)}\n", f"of the replies of `ask`: {told}")
    sums = [at for at, one in enumerate(items) if one["status"] == 200 and one["body"][-2].isdigit()]
    if not sums:
        return 0
    at = audited.rng.choice(sums)
    body = items[at]["body"]
    last = str((int(body[-2]) + audited.rng.randint(1, 9)) % 10)
    told = audited.desk.line([*items[:at], {**items[at], "body": f"{body[:-2]}{last}\n"}, *items[at + 1:]])
    check(told == f"no: item {at + 1}\n", f"of a reply {body} with {last} at its end: {told}")
    return 1


# ---- elimination

def reduced(basis, vector):
    """What is left of a vector behind a basis, by the place of its first number that is not 0."""
    vector = dict(vector)
    while vector:
        first = min(vector)
        if first not in basis:
            return vector
        factor = vector[first]
        for at, value in basis[first].items():
            left = vector.get(at, 0) - factor * value
            if left:
                vector[at] = left
            else:
                vector.pop(at, None)
    return vector


def put(basis, vector):
    left = reduced(basis, vector)
    if left:
        first = min(left)
        basis[first] = {at: Fraction(value) / left[first] for at, value in left.items()}


def vectors(cube, request):
    """The points of each row of a request, as a vector with a 1 at each."""
    by_row = {}
    for number, point in enumerate(cube.points()):
        row = asks.row_of(cube, request, point)
        if row is not None:
            by_row.setdefault(row, {})[number] = Fraction(1)
    return by_row.values()


def protected_vectors(cube, measure):
    """The points of each protected cell of a measure."""
    depths = [len(one.levels) for one in cube.dimensions]
    objects = [(one.below, lambda point, one=one: one.has(cube, point)) for one in cube.protected if one.measure is measure]
    if not objects and measure.method == "parity":
        objects = [([0] * len(depths), lambda point: True)]
    points = list(cube.points())
    seen = set()
    for below, has in objects:
        finer = [range(depth + 1 if level is None else level + 1) for depth, level in zip(depths, below)]
        for levels in itertools.product(*finer):
            cuboid = [None if level == depth else level for level, depth in zip(levels, depths)]
            for point in filter(has, points):
                key = tuple(one.number_at(level, leaf) for one, level, leaf in zip(cube.dimensions, cuboid, point))
                seen.add((tuple(levels), key))
    for levels, key in sorted(seen):
        cuboid = [None if level == depth else level for level, depth in zip(levels, depths)]
        yield {
            number: Fraction(1)
            for number, point in enumerate(points)
            if key == tuple(one.number_at(level, leaf) for one, level, leaf in zip(cube.dimensions, cuboid, point))
        }


def discloses(cube, requests):
    """Whether the answers to some requests tell the sum of a protected cell."""
    for measure in cube.measures:
        if measure.method == "open":
            continue
        basis = {}
        for request in requests:
            if request.what is measure:
                for vector in vectors(cube, request):
                    put(basis, vector)
        if any(not reduced(basis, vector) for vector in protected_vectors(cube, measure)):
            return True
    return False


def several_journals(audited, told_of):
    """The same lines asked in several orders, each with a journal of its own, and the replies joined: a yes is never
    wrong. What the one journal refuses the other one may answer, so a cell may well be told."""
    lines = audited.guarded_lines()
    joined = [one for name in ("one", "two", "three") for one in audited.asked(name, audited.rng.sample(lines, len(lines)))]
    items = [one for one, _ in joined]
    told = audited.desk.line(items)
    says_yes = told == f"yes {numbered(items)}\n"
    check(says_yes or told.startswith("no: measure "), f"of several histories: {told}")
    open_still = not discloses(audited.cube, [line.request for one, line in joined if one["status"] == 200])
    check(open_still or not says_yes, "a yes, and a protected cell is told")
    told_of["yes" if says_yes else "no, and a cell is told" if not open_still else "no, and no cell is told"] += 1


def cubes_at_random(folder, seed):
    changed = 0
    told_of = {"yes": 0, "no, and a cell is told": 0, "no, and no cell is told": 0}
    for number in range(CUBES):
        rng = random.Random(f"{seed} {number}")
        try:
            audited = Audited(rng, folder / f"cube{number}")
            changed += a_server_that_answers_right(audited)
            for _ in range(3):
                several_journals(audited, told_of)
        except (Failure, Wrong) as found:
            raise Wrong(f"seed {seed}, cube {number}: {found}") from None
    counts = ", ".join(f"{name} {count}" for name, count in told_of.items())
    return f"{CUBES} cubes: each transcript of `ask` gets a yes, {changed} with another sum name its item; of several histories: {counts}"


def main(words):
    seed = words[0] if words else "1"
    build()
    with tempfile.TemporaryDirectory() as name:
        folder = pathlib.Path(name)
        try:
            for number, act in enumerate((the_small_cube, a_triangle, bad_input, long_files)):
                own = folder / str(number)
                own.mkdir()
                print(act(own), flush=True)
            print(cubes_at_random(folder, seed), flush=True)
        except (Wrong, OSError, subprocess.TimeoutExpired) as wrong:
            print(f"run.py: {wrong}", file=sys.stderr)
            sys.exit(1)


if __name__ == "__main__":
    main(sys.argv[1:])
