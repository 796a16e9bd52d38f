#!/usr/bin/env python3
"""Checks what `why` printed against the cube's files and its journal, with no use of the program: for blocks it adds up the protected
cell from them, for a walk it follows the steps. check.py DIMS FACTS POLICY JOURNAL QUERY, and the printed text on the input. Ends with
status 1 and a word where something is not so. Needs Python 3 alone."""

import csv
import re
import sys
import tomllib

NAME = r'("(?:[^"\\]|\\.)*"|[A-Za-z0-9_-]+)'
FIX = re.compile(rf"{NAME}\.{NAME}(?:\s*=\s*{NAME}(?:\s*\.\.\s*{NAME})?)?")
WORDS = re.compile(rf"\s*(cell|slice|range)\s+{NAME}(.*)")
CELL = r'\(((?:"(?:[^"\\]|\\.)*"|[^")])*)\)'


def plain(name):
    return re.sub(r"\\(.)", r"\1", name[1:-1]) if name[:1] == '"' else name


class Cube:
    def __init__(self, dims, facts, policy):
        self.dims, self.policy = dims["dimension"], policy
        self.names = [d["name"] for d in self.dims]
        self.order = [[list(dict.fromkeys(path[k] for path in d["paths"])) for k in range(len(d["levels"]))] for d in self.dims]
        columns = [d.get("column", d["levels"][0]) for d in self.dims]
        leaves = [[path[0] for path in d["paths"]] for d in self.dims]
        self.places = [tuple(leaf.index(row[column]) for leaf, column in zip(leaves, columns)) for row in facts]
        self.points = sorted(set(self.places))
        self.measures = [m["name"] for m in dims["measure"]]

    def at(self, point, d, level):
        """The number of a point's member at a level."""
        return self.order[d][level].index(self.dims[d]["paths"][point[d]][level])

    def fixes(self, text):
        """Dimensions with a level, and the first and last member there where they are named."""
        for dim, level, first, last in FIX.findall(text):
            d = self.names.index(plain(dim))
            k = self.dims[d]["levels"].index(plain(level))
            members = [self.order[d][k].index(plain(name)) for name in (first, last or first) if name]
            yield d, k, members

    def covered(self, text):
        """The points that fixes pick, and the levels that they name."""
        fixes = [] if text == "all" else list(self.fixes(text))
        inside = [p for p in self.points if all(ends[0] <= self.at(p, d, k) <= ends[1] for d, k, ends in fixes if ends)]
        return inside, {d: k for d, k, ends in fixes}

    def request(self, text):
        """The measure of a query, its rows as lists of points, and its grain."""
        _, what, rest = WORDS.fullmatch(text).groups()
        inside, _ = self.covered(rest)
        by = {d: k for d, k, ends in self.fixes(rest) if not ends}
        grain = [min((k for e, k, _ in self.fixes(rest) if e == d), default=len(self.dims[d]["levels"])) for d in range(len(self.dims))]
        rows = {}
        for point in inside:
            rows.setdefault(tuple(self.at(point, d, by[d]) for d in sorted(by)), []).append(point)
        return plain(what), [rows[key] for key in sorted(rows)], grain

    def links(self, rows):
        """The first point of a row with the second, the third with the fourth, and so on; a last one alone."""
        return [tuple(row[i : i + 2]) for row in rows for i in range(0, len(row), 2)]

    def protected(self, measure, inside, levels):
        """Whether the cell at these levels that has these points is protected."""
        objects = [o for o in self.policy.get("object", []) if o["measure"] == measure]
        method = next(m["method"] for m in self.policy["measure"] if m["name"] == measure)
        if method == "parity" and not objects:
            return True
        return any(self.under(o, levels) and self.few(o, inside) and any(self.sliced(o, p) for p in inside) for o in objects)

    def few(self, o, inside):
        points = set(inside)
        return "fewer" not in o or sum(place in points for place in self.places) < o["fewer"]

    def under(self, o, levels):
        tops = [d["levels"] + ["all"] for d in self.dims]
        return all(levels.get(d, len(top) - 1) <= top.index(o["below"].get(self.names[d], "all")) for d, top in enumerate(tops))

    def sliced(self, o, point):
        slices = [(self.names.index(name), s) for name, s in o.get("slice", {}).items()]
        return all(self.dims[d]["paths"][point[d]][self.dims[d]["levels"].index(s["level"])] in s["members"] for d, s in slices)


def entries(cube, journal, measure):
    """For each entry on the measure its number, its links and its levels."""
    for number, line in enumerate(journal.splitlines()[1:], 1):
        word, text = line.split(" ", 1)
        if word == "q":
            what, rows, grain = cube.request(text)
            if what == measure:
                yield number, cube.links(rows), grain
        elif cube.measures[int(text.split()[0])] == measure:
            numbers = [int(n) for n in text.split()[1:]]
            yield (number, [tuple(cube.points[n] for n in numbers)], None) if word == "k" else (number, [], numbers)


def holds(fact, words):
    if not fact:
        sys.exit(words)


def check_blocks(cube, measure, grain, held, cell, lines):
    inside, levels = cube.covered(cell)
    holds(cube.protected(measure, inside, levels), "the cell is not protected")
    source = [min(column) for column in zip(grain, *(levels for _, _, levels in held if levels))]
    found = []
    for line in lines:
        points, at = cube.covered(re.fullmatch(f"block {CELL}", line).group(1))
        holds(points and [at.get(d, len(dim["levels"])) for d, dim in enumerate(cube.dims)] == source, "a block of another cuboid")
        found += points
    holds(sorted(found) == inside, "the blocks are not the cell")


def check_walk(cube, measure, own, held, cell, lines):
    one = lambda text: cube.covered(text)[0][0]
    start = at = one(cell)
    holds(cube.protected(measure, [start], dict.fromkeys(range(len(cube.dims)), 0)), "the cell is not protected")
    by = {("entry", number): links for number, links, _ in held} | {("own", k): [link] for k, link in enumerate(own, 1)}
    for number, line in enumerate(lines, 1):
        step = re.fullmatch(rf"(step|end) {CELL}(?: {CELL})? (entry|own) (\d+)", line)
        word, first, second, origin, named = step.groups()
        links = by.get((origin, int(named)), [])
        holds(one(first) == at, "a step begins elsewhere")
        if word == "end":
            return holds((at,) in links and number == len(lines), "the end is no such place")
        holds((at, one(second)) in links or (one(second), at) in links, "a step is no such pair")
        at = one(second)
    holds(len(lines) % 2 == 1 and at == start, "the walk does not come back at odd length")


def main():
    dims, facts, policy, journal, query = sys.argv[1:]
    with open(facts, newline="", encoding="utf-8-sig") as file:
        rows = list(csv.DictReader(file))
    cube = Cube(tomllib.load(open(dims, "rb")), rows, tomllib.load(open(policy, "rb")))
    refusal, *lines = sys.stdin.read().splitlines()
    measure, rows, grain = cube.request(query)
    held = list(entries(cube, open(journal, encoding="utf-8").read(), measure))
    cell = re.search(rf"the cell {CELL}$", refusal).group(1)
    if refusal.startswith("source: "):
        check_blocks(cube, measure, grain, held, cell, lines)
    else:
        check_walk(cube, measure, cube.links(rows), held, cell, lines)
    print("checked")


main()
