#!/usr/bin/env python3
"""Measures `cube` on the worst inputs that are known, which are made from a number.

    worst.py [--number N] [--all] [CASE ..]

Each case makes its files, runs the program over them, sees that the run did what it is meant to do, and prints a row:
what was asked, the processor seconds and the peak memory of the run, and the aim. Sizes are options; `--all` takes the
full ones, which are within the program's limits. A run that takes more than `--limit` processor seconds is stopped, and
its row says so. Needs Python 3 alone; the program is the environment's CUBE, or else the one that `./cube --version`
builds. The seconds are processor time, user and system, so other work beside it costs little.

What makes a case dear stands in its docstring. docs/SPEED.md has the table of the full sizes.
"""

import argparse
import itertools
import json
import math
import multiprocessing
import os
import random
import resource
import signal
import subprocess
import sys
import tempfile
import time
from concurrent.futures import ProcessPoolExecutor

TOP = os.path.dirname(os.path.dirname(os.path.abspath(__file__)))
PROGRAM = os.environ.get("CUBE", f"{TOP}/crates/cube_app/out/cube_app")

# What an option takes where it is not stated, what --all takes, and what it says.
SIZES = {
    "objects": (8, 64, "objects of the policy"),
    "measures": (4, 16, "measures that are checked"),
    "entries": (4_096, 16_384, "entries of the journal that is opened"),
    "repeats": (500, 3_400_000, "lines that bring nothing, behind those that make the trees"),
    "ranges": (200, 2_000, "ranges of the journal behind which a reason is asked for"),
    "items": (4_096, 65_536, "items of the transcript"),
    "lines": (10_000, 1_000_000, "lines of the workload"),
    "rows": (100_000, 1_000_000, "rows of the flat file"),
    "asks": (200, 1_000, "lines asked over the flat file"),
    "names": (50_000, 50_000, "names of one level"),
    "records": (250_000, 1_000_000, "records of the fact file with names"),
}
FILES = ("--dims", "dims.toml", "--facts", "facts.csv", "--policy", "policy.toml")


class Wrong(Exception):
    """A made input does not do what it is meant to do."""


def check(holds, text):
    if not holds:
        raise Wrong(text)


# ---- runs

def launch(words, folder, files, limit):
    """One run: its status, its processor seconds, and its peak memory in MB."""
    def bounded():
        if limit:
            resource.setrlimit(resource.RLIMIT_CPU, (limit, resource.getrlimit(resource.RLIMIT_CPU)[1]))

    asked, written, said = files
    with open(asked, "rb") as stdin, open(written, "wb") as stdout, open(said, "wb") as stderr:
        child = subprocess.Popen(words, cwd=folder, stdin=stdin, stdout=stdout, stderr=stderr, preexec_fn=bounded)
        _, status, used = os.wait4(child.pid, 0)
        child.returncode = status
    return os.waitstatus_to_exitcode(status), used.ru_utime + used.ru_stime, used.ru_maxrss / 1024


class Ran:
    """What a run used, said and wrote."""

    def __init__(self, status, seconds, memory, said, written):
        self.status, self.seconds, self.memory = status, seconds, memory
        self.said, self.written = said, written
        # Its limit alone ends a run so.
        self.stopped = status == -signal.SIGXCPU


class Bench:
    """The program, the sizes, a room for files, and a process that starts the runs.

    The peak memory of a run counts that of the process that starts it, so this one is another, which stays small.
    """

    def __init__(self, said, room, starter):
        self.program = os.path.abspath(said.program)
        self.number = said.number
        self.limit = said.limit
        self.sizes = {name: getattr(said, name) for name in SIZES}
        self.room = room
        self.starter = starter
        self.made = {}

    def chance(self, name):
        return random.Random(f"{self.number} {name}")

    def folder(self, name, make):
        """A folder whose files are made where they are first wanted."""
        if name not in self.made:
            folder = f"{self.room}/{name}"
            os.makedirs(folder)
            self.made[name] = folder, make(folder)
        return self.made[name]

    def run(self, folder, words, stdin=b""):
        """Runs the program, stopped where it takes too long."""
        files = [f"{self.room}/{name}" for name in ("asked", "written", "said")]
        with open(files[0], "wb") as asked:
            asked.write(stdin)
        status, seconds, memory = self.starter.submit(launch, [self.program, *words], folder, files, self.limit).result()
        with open(files[1], "rb") as written, open(files[2], errors="replace") as said:
            return Ran(status, seconds, memory, said.read(), written.read())

    def run_whole(self, folder, words, stdin=b""):
        """A run that has to end well, or is stopped."""
        ran = self.run(folder, words, stdin)
        check(ran.stopped or ran.status == 0, f"{' '.join(words)}: status {ran.status}: {ran.said[-300:]}")
        return ran

    def checked(self, folder):
        """What `check` prints of a made cube."""
        ran = self.run_whole(folder, ["check", *FILES])
        check(not ran.stopped, "`check` was stopped")
        return dict(line.split(" ", 1) for line in ran.written.decode().splitlines())


def row(case, asked, ran, aim, found, less=None):
    """A row of the table; of what a run takes beyond another one where that is named."""
    seconds = ran.seconds - (less.seconds if less else 0)
    shown = f"> {ran.seconds:.0f}, stopped" if ran.stopped else f"{seconds:.2f}"
    return case, asked, shown, f"{ran.memory:.0f}", aim, found


# ---- files

def letter(dimension):
    return chr(97 + dimension)


def write_dimension(file, name, levels, paths):
    file.write(f'[[dimension]]\nname = "{name}"\ncolumn = "{name}"\nlevels = {json.dumps(levels)}\npaths = [\n')
    file.writelines(f"  {json.dumps(path)},\n" for path in paths)
    file.write("]\n\n")


def write_measures(file, names):
    file.writelines(f'[[measure]]\nname = "{name}"\n\n' for name in names)


def write_policy(folder, methods, objects):
    """The method of each measure, and for each object its measure, its levels and the members of its slice."""
    with open(f"{folder}/policy.toml", "w") as file:
        for name, method in methods:
            file.write(f'[[measure]]\nname = "{name}"\nmethod = "{method}"\n\n')
        for measure, below, slices in objects:
            levels = ", ".join(f'{dimension} = "{level}"' for dimension, level in below.items())
            file.write(f'[[object]]\nmeasure = "{measure}"\nbelow = {{ {levels} }}\n')
            for dimension, (level, members) in slices.items():
                file.write(f'[object.slice.{dimension}]\nlevel = "{level}"\nmembers = {json.dumps(members)}\n')
            file.write("\n")


# ---- cubes whose refusals are dear

# How many leaves each dimension has, 65,536 points in all, and the levels of the last one, which is protected by itself.
FOUND = "8 dimensions of 4 leaves", (4,) * 8, ("l",)
WORSE = "7 dimensions, the last of 2 leaves", (1, 1, 1, 32, 32, 32, 2), ("l", "u", "w")


def slices_apart(chance, dimensions, many):
    """Slices none of which contains another: each has two of four members in each of three dimensions."""
    pairs = list(itertools.combinations(range(4), 2))
    picked = chance.sample(list(itertools.product(pairs, repeat=3)), many)
    return [{name: ("l", [f"{name}{number}" for number in pair]) for name, pair in zip(dimensions, pairs)} for pairs in picked]


def write_wide_dims(folder, sides, measures, levels=("l",)):
    """Dimensions of one level, but for the last, whose leaves are alone below each member."""
    with open(f"{folder}/dims.toml", "w") as file:
        for dimension, side in enumerate(sides):
            name = letter(dimension)
            own = levels if dimension == len(sides) - 1 else ("l",)
            write_dimension(file, name, own, [[f"{name}{number}"] * len(own) for number in range(side)])
        write_measures(file, measures)


def leaves_of(sides, place):
    """The leaves of a point by its place among all points."""
    leaves = []
    for dimension in reversed(range(len(sides))):
        place, number = divmod(place, sides[dimension])
        leaves.append(f"{letter(dimension)}{number}")
    return leaves[::-1]


def write_wide_facts(folder, sides, measures, chance, records=65_536):
    """Records of 65,536 points, in no order: of all of them, or else of a sample."""
    places = chance.sample(range(math.prod(sides)), 65_536)
    with open(f"{folder}/facts.csv", "w") as file:
        file.write(",".join([letter(dimension) for dimension in range(len(sides))] + list(measures)) + "\n")
        for place in places + chance.choices(places, k=records - 65_536):
            file.write(",".join(leaves_of(sides, place)) + "".join(f",{chance.randrange(1000)}" for _ in measures) + "\n")


def make_refusing(bench, shape):
    """All objects but the last are below the last dimension, in slices apart; the last one is below the dimension before it."""
    name, sides, levels = shape
    before, last = letter(len(sides) - 2), letter(len(sides) - 1)

    def make(folder):
        chance = bench.chance(name)
        write_wide_dims(folder, sides, ["v"], levels)
        write_wide_facts(folder, sides, ["v"], chance)
        sliced = [letter(dimension) for dimension, side in enumerate(sides) if side >= 4][:3]
        objects = [("v", {last: levels[-1]}, slices) for slices in slices_apart(chance, sliced, bench.sizes["objects"] - 1)]
        write_policy(folder, [("v", "lattice")], [*objects, ("v", {before: "l"}, {})])
        checked = bench.checked(folder)
        check(checked["points"] == "65536" and checked["full"] == "yes", f"the cube has {checked['points']} points")
    return bench.folder(name, make)[0]


def slice_without(sides, left):
    """A slice by the leaves of all dimensions but the last, and but those that are left out."""
    return "slice v by " + ", ".join(f"{letter(dimension)}.l" for dimension in range(len(sides) - 1) if dimension not in left)


def ask_refused(bench, folder, queries):
    """A run of `ask` from an empty journal, whose replies are refusals by the source rule."""
    for name in ("journal", "journal.seal"):
        if os.path.exists(f"{folder}/{name}"):
            os.remove(f"{folder}/{name}")
    ran = bench.run_whole(folder, ["ask", *FILES, "--journal", "journal"], "".join(f"{query}\n" for query in queries).encode())
    refused = ran.written.count(b"source: the cuboid")
    check(ran.stopped or refused == len(queries), f"{refused} of {len(queries)} queries are refused")
    return ran


def measure_refusal(bench):
    """One refused query of some 50 bytes.

    The objects but one are below the last dimension, each in a slice that no other contains, so none is passed over. The query
    leaves this dimension out: each of its blocks has all its leaves, so each cell of these objects is cut, and that is found by
    one look at all places for each object. The last object alone has a cell that is not cut, and it is searched cuboid by
    cuboid. The time grows by objects and points, and for this one object by cuboids.

    It is worse where the last dimension has two leaves and three levels: blocks of two places cost most, since each place is
    compared in all dimensions.
    """
    rows = []
    for shape in (FOUND, WORSE):
        folder = make_refusing(bench, shape)
        opened, ran = ask_refused(bench, folder, []), ask_refused(bench, folder, [slice_without(shape[1], ())])
        asked = f"{shape[0]}, {bench.sizes['objects']} objects, beyond the opening"
        rows.append(row("a refused query", asked, ran, "0.1", "5.2 to 6.0", opened))
    return rows


def measure_refusals(bench):
    """Eight refused queries of different cuboids, and `advise`.

    What was judged is kept by its cuboid, so each query is of another one. Three dimensions have one leaf alone: whichever of
    them a query names, its blocks are the same, and each of the eight costs what the first one does. `advise` judges one
    cuboid after another until it has the finest that are open.
    """
    folder = make_refusing(bench, WORSE)
    opened = ask_refused(bench, folder, [])
    left = [[dimension for dimension in range(3) if number >> dimension & 1] for number in range(8)]
    ran = ask_refused(bench, folder, [slice_without(WORSE[1], dimensions) for dimensions in left])
    advised = bench.run_whole(folder, ["advise", *FILES])
    check(advised.stopped or advised.written.startswith(b"measure v\n"), "`advise` tells nothing of v")
    many = f"{bench.sizes['objects']} objects"
    return [
        row("eight refused queries", f"8 cuboids in one `ask`, {many}, beyond the opening", ran, "0.8", "20", opened),
        row("`advise`", f"the same cube, {many}", advised, "3", "75"),
    ]


def write_measured(bench, folder, sides, measures):
    """Objects that differ, on all measures by turns."""
    chance = bench.chance("measures")
    write_wide_dims(folder, sides, measures)
    write_wide_facts(folder, sides, measures, chance)
    objects = enumerate(slices_apart(chance, "abc", bench.sizes["objects"]))
    write_policy(folder, [(name, "lattice") for name in measures], [(measures[number % len(measures)], {}, slices) for number, slices in objects])


def measure_check(bench):
    """`check` of many measures under the source rule and objects that differ.

    The protected cells of each measure are counted by themselves, cuboid by cuboid: the places are grouped 256 times for
    each measure. Each object stands at `all` in each dimension, so it is at or above each cuboid, and its slice is laid over
    the others at each of them. It is worse where the points are few among all, 65,536 of 2^24: places are then sorted by their
    keys, where each key has a list of its own in a full cube.
    """
    measures = [f"v{number}" for number in range(bench.sizes["measures"])]
    rows = []
    for sides in ((4,) * 8, (8,) * 8):
        folder, _ = bench.folder(f"measures {sides[0]}", lambda folder: write_measured(bench, folder, sides, measures))
        ran = bench.run_whole(folder, ["check", *FILES])
        check(ran.stopped or b"points 65536\n" in ran.written and b"protected 0\n" not in ran.written, "`check` reads another cube")
        asked = f"8 dimensions of {sides[0]} leaves, {len(measures)} measures, {bench.sizes['objects']} objects"
        rows.append(row("`check`", asked, ran, "1", "4.4"))
    return rows


# ---- a cube whose links make high trees

# The dimension `a` has CLASSES times FOLDS leaves under `0` and `1` of `b`, and behind them RESERVE leaves under `2` alone.
FOLDS, CLASSES, RESERVE = 16, 1_632, 13_113
TREE = FOLDS * CLASSES
# How many classes each tower has.
TOWERS = tuple(2 ** power for power in range(1, 9))
# The levels of `a`, each with half as many members of the trees as the one before.
LEVELS = "lmnop"
# Further dimensions, each with one leaf for all points but one.
ASIDE = "cdef"


class Links:
    """Requests over a measure under the rule of links whose trees are high.

    Links are kept as trees that are merged by rank, with no path shortened. Four slices for each of two members of `b` fold
    the leaves of `a` into trees of 16 places, four high, one for each class. Pairs of neighbours hang one such tree after
    another below one root, and then this root below that of a tower of just the same rank, and so on: each tower lifts
    all places by one, and costs twice the places of the one before. So a place stands ten high in the mean, where in a
    binomial tree of all places it would stand below eight. A range then pairs the two places of each leaf of `a`: they
    meet in the highest root alone, and both ways up are walked.

    One point stands aside in each dimension. A range leaves it out by a pick in each, so its places are looked through once
    for each of six dimensions, in `a` by the path of the leaf, since the pick there is of an upper level.
    """

    def __init__(self, folder, chance):
        self.folder = folder
        self.values = [[chance.randrange(1000) for _ in range(TREE)] for _ in "01"] + [[chance.randrange(1000) for _ in range(RESERVE)]]
        # The sums of all values at the first members of the level `m`, each of two leaves of the trees or of one behind them.
        self.sums = [0]
        for total in self.totals(TREE // 2, (0, 1)):
            self.sums.append(self.sums[-1] + total)
        for value in self.values[2]:
            self.sums.append(self.sums[-1] + value)

    def totals(self, groups, halves):
        """The sums of the leaves of the trees, which are taken by turns into so many groups, under some members of `b`."""
        sums = [0] * groups
        for half in halves:
            for leaf, value in enumerate(self.values[half]):
                sums[leaf % groups] += value
        return sums

    def write(self):
        with open(f"{self.folder}/dims.toml", "w") as file:
            write_dimension(file, "a", list(LEVELS), (self.path(leaf) for leaf in range(TREE + RESERVE + 1)))
            write_dimension(file, "b", ["l"], [[str(number)] for number in range(4)])
            for name in ASIDE:
                write_dimension(file, name, ["l"], [["0"], ["1"]])
            write_measures(file, ["w"])
        with open(f"{self.folder}/facts.csv", "w") as file:
            file.write(f"a,b,{','.join(ASIDE)},w\n")
            beside = ",0" * len(ASIDE)
            for half in (0, 1):
                file.writelines(f"{leaf},{half}{beside},{value}\n" for leaf, value in enumerate(self.values[half]))
            file.writelines(f"{TREE + number},2{beside},{value}\n" for number, value in enumerate(self.values[2]))
            file.write(f"{TREE + RESERVE},3{',1' * len(ASIDE)},0\n")
        # The leaves behind the trees are not protected: a range with an odd number of places fixes its last one.
        below = {name: "l" for name in ("a", "b", *ASIDE)}
        write_policy(self.folder, [("w", "parity")], [("w", below, {"b": ("l", ["0", "1"])})])

    @staticmethod
    def path(leaf):
        """The names from a leaf upwards; each level takes two members of the one before together, which stand half of all apart."""
        if leaf >= TREE:
            return [str(leaf), f"r{leaf - TREE}", "r", "r", "r"]
        return [str(leaf), *(str(leaf % (TREE >> level)) for level in range(1, 5))]

    def fold(self, level, half):
        """A slice, and the text of its answer."""
        lines = "".join(f"{group},{total}\n" for group, total in enumerate(self.totals(TREE >> level, (half,))))
        return f"slice w by a.{LEVELS[level]} where b.l={half}", f"a.{LEVELS[level]},w\n{lines}"

    def pair(self, group, half):
        """A range over a place of a class and one of the next class."""
        total = self.values[half][group] + self.values[half][group + 1]
        return f"range w a.l={group}..{group + 1}, b.l={half}..{half}", f"w\n{total}\n"

    @staticmethod
    def joints():
        """The classes that are joined with the next one, in order: the first ones by a chain, then each tower, and it with them."""
        begin = CLASSES - sum(TOWERS)
        yield from range(begin - 1)
        for tower in TOWERS:
            half = 1
            while half < tower:
                yield from range(begin + half - 1, begin + tower - 1, 2 * half)
                half *= 2
            yield begin - 1
            begin += tower

    def base(self):
        """The requests that make the trees, with their answers."""
        for half in (0, 1):
            yield from (self.fold(level, half) for level in range(1, 5))
        for half in (0, 1):
            yield from (self.pair(group, half) for group in self.joints())
        yield "cell w a.l=0", f"w\n{self.values[0][0] + self.values[1][0]}\n"

    def ranges(self):
        """Ranges over nearly all places, each with one place more; behind the last one they begin a member later."""
        aside = "".join(f", {name}.l=0..0" for name in ASIDE)
        for first in itertools.count():
            for end in range(RESERVE):
                total = self.sums[TREE // 2 + end + 1] - self.sums[first]
                yield f"range w a.m={first}..r{end}, b.l=0..2{aside}", f"w\n{total}\n"

    def requests(self, many):
        """The requests that make the trees, and ranges behind them, so many in all."""
        return itertools.islice(itertools.chain(self.base(), self.ranges()), many)


def make_links(bench):
    def make(folder):
        links = Links(folder, bench.chance("links"))
        links.write()
        checked = bench.checked(folder)
        check(checked["points"] == str(2 * TREE + RESERVE + 1), f"{checked['points']} points")
        return links, checked["digest"]
    return bench.folder("links", make)


def write_journal(folder, name, digest, requests):
    """A journal of these requests, with its seal to be made anew; how many there are."""
    many = 0
    if os.path.exists(f"{folder}/{name}.seal"):
        os.remove(f"{folder}/{name}.seal")
    with open(f"{folder}/{name}", "w") as file:
        file.write(f"cube-journal 1 {digest}\n")
        for many, (request, _) in enumerate(requests, 1):
            file.write(f"q {request}\n")
    return many


BASE = 8 + 2 * (CLASSES - 1) + 1


def measure_journal(bench):
    """The opening of a journal whose links make high trees.

    Each entry is judged anew: its places are found, paired, and each pair is looked up by the ways up from both. See `Links`
    for the trees. 3,271 entries make them, the others are ranges over 52,225 places and more, each with one new link.

    An entry that brings nothing is passed over once it is judged, and is not counted, so a journal of 2^28 bytes may have some
    3,400,000 of them. The program writes no such line; whoever can write to the journal may.
    """
    folder, (links, digest) = make_links(bench)
    many = write_journal(folder, "journal", digest, links.requests(bench.sizes["entries"]))
    opened = bench.run_whole(folder, ["ask", *FILES, "--journal", "journal"])
    check(opened.stopped or f"entries {many}\n" in opened.said, f"the journal has not {many} entries: {opened.said}")
    advised = bench.run_whole(folder, ["advise", *FILES, "--journal", "journal"])
    room = f"room {16_384 - many}\n".encode()
    check(advised.stopped or advised.written.endswith(room), f"not each of {many} entries brings a link")
    repeats = bench.sizes["repeats"]
    one = next(links.ranges())
    total = write_journal(folder, "journal", digest, itertools.chain(links.base(), itertools.repeat(one, repeats + 1)))
    check(os.path.getsize(f"{folder}/journal") <= 2 ** 28, "the journal is too long")
    repeated = bench.run_whole(folder, ["ask", *FILES, "--journal", "journal"])
    check(repeated.stopped or f"entries {total}\n" in repeated.said, f"the journal has not {total} entries: {repeated.said}")
    asked = f"{many:,} entries, {max(many - BASE, 0):,} of them ranges"
    return [
        row("`ask` with no input", asked, opened, "1.5", "7.5"),
        row("`advise --journal`", asked, advised, "1.5", "15"),
        row("`ask` with no input", f"{BASE + 1:,} entries, and {repeats:,} that bring nothing", repeated, "none", "not looked for"),
    ]


def measure_reason(bench):
    """`why` behind a journal of ranges under the rule of links.

    The reason is a walk over the links of all entries, those that follow too: some 26,000 of each range are listed. So time and
    memory grow with entries times places.
    """
    folder, (links, digest) = make_links(bench)
    rows = []
    # Both leaves have one sign, by the folds and the joints between them: the pair closes an odd walk.
    query = f"range w a.l={CLASSES - 1}..{CLASSES}, b.l=0..0"
    full = bench.sizes["ranges"]
    for ranges in (full // 4, full // 2, full):
        many = write_journal(folder, "journal", digest, links.requests(BASE + ranges))
        ran = bench.run_whole(folder, ["why", *FILES, "--journal", "journal", "--query", query])
        check(ran.stopped or ran.written.startswith(b"pair: link 1") and b"\nstep " in ran.written, f"no reason: {ran.written[:200]}")
        check(ran.stopped or f"entries {many}\n" in ran.said, f"the journal has not {many} entries: {ran.said}")
        rows.append(row("`why`", f"{ranges:,} ranges", ran, "2, 200 MB", "13, 4 GB"))
    return rows


def measure_audit(bench):
    """`audit` of a transcript of many ranges.

    Each item is added up and its links are added to those before it. No item is passed over, and a transcript has no bound on
    links that bring nothing, so each of 65,536 items may be a range over nearly all places of high trees.
    """
    folder, (links, _) = make_links(bench)
    with open(f"{folder}/transcript", "w") as file:
        for number, (request, body) in enumerate(links.requests(bench.sizes["items"])):
            file.write(("," if number else "[") + json.dumps({"q": request, "status": 200, "body": body}) + "\n")
        file.write("]")
    ran = bench.run_whole(folder, ["audit", *FILES, "--transcript", "transcript"])
    many = bench.sizes["items"]
    check(ran.stopped or ran.written == f"yes {many}\n".encode(), f"the audit says {ran.written[:200]}")
    return [row("`audit`", f"{many:,} items, {max(many - BASE, 0):,} of them ranges", ran, "10", "38")]


def measure_workload(bench):
    """`advise` of a workload of many ranges.

    Each line is judged behind those before it. One whose links follow is answered and takes no room, so there may be 1,000,000
    ranges over nearly all places of high trees.
    """
    folder, (links, _) = make_links(bench)
    with open(f"{folder}/workload", "w") as file:
        file.writelines(f"{request.replace(', ', ',')}\n" for request, _ in links.requests(bench.sizes["lines"]))
    check(os.path.getsize(f"{folder}/workload") <= 67_108_864, "the workload is too long")
    ran = bench.run_whole(folder, ["advise", *FILES, "--workload", "workload"])
    many = bench.sizes["lines"]
    answered = ran.written.count(b" answer\n")
    check(ran.stopped or answered == many, f"{answered} of {many} lines are answered")
    return [row("`advise --workload`", f"{many:,} lines, {max(many - BASE, 0):,} of them ranges", ran, "100", "400")]


# ---- flat files and names

# As few columns of names as a table has, and as many of one letter each as leave a million rows in a file of 64 MiB.
COLUMNS = 3, 32


def write_flat(folder, chance, columns, rows):
    with open(f"{folder}/facts.csv", "w") as file:
        file.write(",".join([f"c{number}" for number in range(columns)] + ["v"]) + "\n")
        file.writelines(f"{','.join(chance.choices('xy', k=columns))},{chance.randrange(10)}\n" for _ in range(rows))
    check(os.path.getsize(f"{folder}/facts.csv") <= 67_108_864, "the flat file is too long")


def measure_sum(bench):
    """`sum` over a flat file of many rows.

    Each line looks at each row, and where it has a name in a column, at the number of each row there: nothing is kept between
    lines. It is worse with many columns: a row of 32 of one letter has 66 bytes, so a million of them fit a file.
    """
    rows, asks = bench.sizes["rows"], bench.sizes["asks"]
    made = []
    for columns in COLUMNS:
        folder, _ = bench.folder(f"flat {columns}", lambda folder: write_flat(folder, bench.chance("flat"), columns, rows))
        chance = bench.chance("lines")
        lines = "".join(",".join(chance.choices("xy", k=columns)) + "\n" for _ in range(asks))
        loaded = bench.run_whole(folder, ["sum", "--facts", "facts.csv"])
        ran = bench.run_whole(folder, ["sum", "--facts", "facts.csv"], lines.encode())
        check(ran.stopped or ran.written.count(b"\n") == asks and b"bad line" not in ran.written, "not each line has a sum")
        asked = f"{asks:,} lines, {rows:,} rows of {columns} columns, beyond the reading"
        made.append(row("`sum`", asked, ran, "0.5", "6.3", loaded))
    return made


def write_names(folder, chance, dimensions, names, records):
    """Records of 65,536 points of dimensions with so many names, in no order."""
    with open(f"{folder}/dims.toml", "w") as file:
        for dimension in range(dimensions):
            write_dimension(file, letter(dimension), ["l"], [[f"{number:05}"] for number in range(names)])
        write_measures(file, ["v"])
    points = [",".join(f"{chance.randrange(names):05}" for _ in range(dimensions)) for _ in range(65_536)]
    with open(f"{folder}/facts.csv", "w") as file:
        file.write(",".join(map(letter, range(dimensions))) + ",v\n")
        file.writelines(f"{chance.choice(points)},{chance.randrange(1000)}\n" for _ in range(records))
    write_policy(folder, [("v", "open")], [])
    check(os.path.getsize(f"{folder}/facts.csv") <= 67_108_864, "the fact file is too long")


def measure_names(bench):
    """`check` over many names, and over sparse points.

    Each record has the name of one of 50,000 members, in no order, so that a name is seldom the one found last in its slot, and
    its bytes and its place are seldom near. It is worse with eight dimensions, where each record has eight such names. Sparse
    points are those of three dimensions of 1,024 leaves, 65,536 of 2^30; they are grouped by sorting.
    """
    names, records = bench.sizes["names"], bench.sizes["records"]
    rows = []
    for dimensions in (1, 8):
        folder, _ = bench.folder(f"names {dimensions}", lambda folder: write_names(folder, bench.chance("names"), dimensions, names, records))
        ran = bench.run_whole(folder, ["check", *FILES])
        check(ran.stopped or f"facts {records}\n".encode() in ran.written, "`check` reads other names")
        many = "1 dimension" if dimensions == 1 else f"{dimensions} dimensions"
        rows.append(row("`check`, names", f"{many} of {names:,} names, {records:,} records", ran, "0.25", "0.40"))

    def make_sparse(folder):
        sides = (1024,) * 3
        write_wide_dims(folder, sides, ["v"])
        write_wide_facts(folder, sides, ["v"], bench.chance("sparse"), records)
        write_policy(folder, [("v", "lattice")], [("v", {}, {})])
    folder, _ = bench.folder("sparse", make_sparse)
    ran = bench.run_whole(folder, ["check", *FILES])
    check(ran.stopped or b"points 65536\n" in ran.written, "`check` reads other points")
    return [*rows, row("`check`, sparse points", f"65,536 of 2^30 points, {records:,} records", ran, "0.25", "0.40")]


CASES = {
    "refusal": measure_refusal,
    "refusals": measure_refusals,
    "check": measure_check,
    "journal": measure_journal,
    "reason": measure_reason,
    "audit": measure_audit,
    "workload": measure_workload,
    "sum": measure_sum,
    "names": measure_names,
}


def main():
    words = argparse.ArgumentParser(description=__doc__, formatter_class=argparse.RawDescriptionHelpFormatter)
    words.add_argument("--program", default=PROGRAM, help="the program")
    words.add_argument("--number", default="1", help="what the files are made from")
    words.add_argument("--limit", type=int, default=30, help="processor seconds behind which a run is stopped; 0 for none")
    words.add_argument("--all", action="store_true", help="the full sizes")
    for name, (usual, full, text) in SIZES.items():
        words.add_argument(f"--{name}", type=int, help=f"{text}: {usual}, with --all {full}")
    words.add_argument("cases", nargs="*", metavar="CASE", help=f"of {', '.join(CASES)}; all where none is named")
    said = words.parse_args()
    unknown = [case for case in said.cases if case not in CASES]
    if unknown:
        words.error(f"no case {unknown[0]}")
    for name, (usual, full, _) in SIZES.items():
        if getattr(said, name) is None:
            setattr(said, name, full if said.all else usual)
    print(f"{time.strftime('%Y-%m-%d')}, {os.cpu_count()} processors, load {os.getloadavg()[0]:.1f}, files of the number {said.number}\n")
    print("| Case | Asked | Processor, s | Memory, MB | Aim, s | Found at full size, s |\n|---|---|---|---|---|---|", flush=True)
    alone = multiprocessing.get_context("spawn")
    with tempfile.TemporaryDirectory(prefix="cube-worst-") as room, ProcessPoolExecutor(1, mp_context=alone) as starter:
        bench = Bench(said, room, starter)
        for case in said.cases or CASES:
            try:
                for cells in CASES[case](bench):
                    print(f"| {' | '.join(cells)} |", flush=True)
            except Wrong as wrong:
                sys.exit(f"{case}: {wrong}")


if __name__ == "__main__":
    main()
