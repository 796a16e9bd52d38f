#!/usr/bin/env python3
"""Why: of random queries on three cubes each refusal says why, and what it says is accepted by the program and by check.py, which
uses nothing of the program; and with one line changed it is not. Ends with status 1 where something else comes. Needs Python 3 alone.
The program is the environment's CUBE."""

import pathlib
import random
import subprocess
import sys
import tempfile

HERE = pathlib.Path(__file__).resolve().parent
sys.path.insert(0, str(HERE.parents[1] / "tests"))

from servers import CUBE, Wrong, build, check  # noqa: E402
from small import GRID, PAY  # noqa: E402

PATIENCE = 60
QUERIES = 167

WALK = """pair: link 1, (row.r=r0, col.c=c1) and (row.r=r1, col.c=c2), fixes the cell (row.r=r0, col.c=c1)
step (row.r=r0, col.c=c1) (row.r=r1, col.c=c0) entry 1
step (row.r=r1, col.c=c0) (row.r=r1, col.c=c2) entry 2
step (row.r=r1, col.c=c2) (row.r=r0, col.c=c1) own 1
"""


def made(number):
    """A cube of three dimensions with half of its points, a source and links, and names that need quotes."""
    chance = random.Random(number)
    names = [["a 1", "a=2", "a,3", "a4"], ["b1", "b2", "b3"], ["c(1)", "c2"]]
    ups = [["x", "x", "y", "y"], ["p", "q", "q"], ["all of c", "all of c"]]
    dims = ""
    for d, (leaves, up) in enumerate(zip(names, ups)):
        paths = ", ".join(f'["{leaf}", "{top}"]' for leaf, top in zip(leaves, up))
        dims += f'[[dimension]]\nname = "d{d}"\nlevels = ["low", "high"]\ncolumn = "k{d}"\npaths = [{paths}]\n'
    dims += '[[measure]]\nname = "s"\n[[measure]]\nname = "t"\n'
    rows = [f'"{a}",{b},{c},{chance.randrange(99)},{chance.randrange(99)}' for a in names[0] for b in names[1] for c in names[2] if chance.random() < 0.5]
    policy = '[[measure]]\nname = "s"\nmethod = "lattice"\n[[measure]]\nname = "t"\nmethod = "parity"\n'
    policy += '[[object]]\nmeasure = "s"\nbelow = { d0 = "low", d1 = "low" }\n'
    return {"dims": dims, "facts": "k0,k1,k2,s,t\n" + "".join(f"{row}\n" for row in rows), "policy": policy}


class Cube:
    def __init__(self, folder, files):
        folder.mkdir()
        for kind, text in files.items():
            (folder / kind).write_text(text)
        self.folder, self.journal = folder, folder / "journal"

    def run(self, command, *words, given=""):
        files = [word for kind in ("dims", "facts", "policy", "journal") for word in (f"--{kind}", self.folder / kind)]
        done = subprocess.run([CUBE, command, *files, *words], input=given.encode(), capture_output=True, timeout=PATIENCE)
        return done.returncode, done.stdout.decode(), done.stderr.decode()

    def why(self, query, *words):
        status, written, said = self.run("why", "--query", query, *words)
        check(status == 0, f"why {query}: {status}, {said}")
        return written

    def accepts(self, query, text):
        (self.folder / "reason").write_text(text)
        return self.why(query, "--reason", self.folder / "reason") == "accepted\n"

    def checks(self, query, text):
        files = [self.folder / kind for kind in ("dims", "facts", "policy", "journal")]
        done = subprocess.run([sys.executable, HERE / "check.py", *files, query], input=text.encode(), capture_output=True, timeout=PATIENCE)
        return done.returncode == 0

    def ask(self, query):
        """The line before the reply, and the reply."""
        status, written, said = self.run("ask", given=f"{query}\n")
        check(status == 0, f"ask {query}: {status}, {said}")
        return written.split("\n", 1)


def quoted(name):
    return name if name.replace("_", "").replace("-", "").isalnum() else f'"{name}"'


def queries(cube, chance):
    import tomllib

    with open(cube.folder / "dims", "rb") as file:
        dims = tomllib.load(file)
    while True:
        what = chance.choice(dims["measure"])["name"]
        by, where = [], []
        for dim in dims["dimension"]:
            level = chance.randrange(len(dim["levels"]))
            name = f'{dim["name"]}.{dim["levels"][level]}'
            if chance.random() < 0.6:
                by.append(name)
            if chance.random() < 0.25:
                where.append(f'{name}={quoted(chance.choice(dim["paths"])[level])}')
        if by:
            yield f"slice {what} by {', '.join(by)}" + (f" where {', '.join(where)}" if where else "")
        elif where:
            yield f"cell {what} {', '.join(where)}"
        else:
            yield f"cell {what}"


def tries(cube, number):
    """Asks queries one behind another, with why before each; how many were refused."""
    refused = 0
    for _, query in zip(range(QUERIES), queries(cube, random.Random(number))):
        text = cube.why(query)
        head, reply = cube.ask(query)
        if text == "admitted\n":
            check(head.startswith("200 "), f"{query}: admitted, and {head}")
            check(not cube.accepts(query, text), f"{query}: admitted is accepted")
            continue
        check(head.startswith("403 ") and text.startswith(reply), f"{query}: {text} and {head} {reply}")
        refused += 1
        check(cube.accepts(query, text), f"{query}: not accepted: {text}")
        check(cube.checks(query, text), f"{query}: not checked: {text}")
        check(not cube.accepts(query, text + text.splitlines(True)[-1]), f"{query}: a line too many is accepted")
        check(not cube.accepts(query, "".join(text.splitlines(True)[:-1])), f"{query}: a line too few is accepted")
    return refused


def worked(folder):
    pay = Cube(folder / "worked-pay", PAY)
    pay.ask("slice pay by time.month")
    text = pay.why("slice pay by region.area")
    check(text == "source: the cuboid (region.area, time.month) does not cut the cell (region.city=Lyon, time.month=Feb)\nblock (region.area=South, time.month=Feb)\n", text)
    grid = Cube(folder / "worked-grid", GRID)
    for query in ("range v col.c=c0..c1", "cell v row.r=r1"):
        check(grid.ask(query)[0].startswith("200 "), f"{query} is refused")
    query = "range v col.c=c1..c2"
    text = grid.why(query)
    check(text == WALK, text)
    check(grid.accepts(query, text) and grid.checks(query, text), "the walk is not accepted")
    check(not grid.accepts(query, "".join(text.splitlines(True)[:-1])), "the walk without its last step is accepted")
    status, written, said = pay.run("why", "--query", "cel pay")
    check((status, written) == (3, "") and said.endswith("query: syntax at byte 3\n"), said)


def main():
    build()
    with tempfile.TemporaryDirectory() as name:
        folder = pathlib.Path(name)
        worked(folder)
        for number, files in enumerate((PAY, GRID, made(7)), 1):
            refused = tries(Cube(folder / str(number), files), number)
            check(refused, f"cube {number}: nothing was refused")
            print(f"cube {number}: {QUERIES} queries, {refused} refused, each reason accepted and checked", flush=True)


try:
    main()
except Wrong as wrong:
    sys.exit(f"wrong: {wrong}")
