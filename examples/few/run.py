#!/usr/bin/env python3
"""Few facts: objects with `fewer` protect the cells with fewer facts than a number, and no other ones.

Each row says what was asked of which cube and what came of it; the first in which something else came ends the script with status 1.
Needs Python 3 alone. The program is the environment's CUBE.
"""

import pathlib
import sys
import tempfile

HERE = pathlib.Path(__file__).resolve().parent
sys.path.insert(0, str(HERE.parents[1] / "tests"))

from cube_folder import Cube  # noqa: E402
from servers import Wrong, build, check  # noqa: E402
from small import PAY  # noqa: E402

METHODS = '[[measure]]\nname = "pay"\nmethod = "lattice"\n[[measure]]\nname = "hours"\nmethod = "{hours}"\n'
FEW = '[[object]]\nmeasure = "pay"\nbelow = {}\n'
LEAVES = 'below = { region = "city", time = "month" }\n'

# Each point of pay has one fact. The protected cells are the five points, Nice in the quarter and by itself, and by area the South in
# February, which is Lyon's alone, and the North in both months.
PAY_OF_FEW = METHODS.format(hours="open") + FEW + "fewer = 2\n"
AREAS = ("slice pay by region.area, time.quarter", "region.area,time.quarter,pay\nSouth,Q1,60\nNorth,Q1,90\n")
MONTHS = ("slice pay by region.area, time.month", "source: the cuboid (region.area, time.month) does not cut the cell (region.city=Lyon, time.month=Feb)\n")
CITIES = ("slice pay by region.city, time.quarter", "source: the cuboid (region.city, time.quarter) does not cut the cell (region.city=Nice, time.month=Jan)\n")

# What is wrong with an object, and what is said of it.
FAULTS = {
    'fewer = "3"\n': "wrong kind object 1 fewer",
    "fewer = 3.0\n": "wrong kind object 1 fewer",
    "fewer = 1\n": "limit object 1 fewer 1000",
    "fewer = 0\n": "limit object 1 fewer 1000",
    "fewer = -3\n": "limit object 1 fewer 1000",
    "fewer = 1001\n": "limit object 1 fewer 1000",
    "few = 3\n": "unknown object 1 few",
}


def reply(text):
    """A reply of `ask`: its status, and what stands behind the line before it."""
    head, body = text.split("\n", 1)
    return int(head.split(" ")[0]), body


def protected(cube):
    """How many cells `check` says are protected."""
    return int(next(line for line in cube.run("check").splitlines() if line.startswith("protected ")).split(" ")[1])


def look(folder):
    few = Cube(folder, "few", {**PAY, "policy": PAY_OF_FEW})
    check(protected(few) == 10, f"few: {protected(few)} protected cells, not 10")
    for number, (query, said) in enumerate((AREAS, MONTHS, CITIES)):
        status, body = reply(few.ask(f"journal{number}", query))
        check((status, body) == (200 if number == 0 else 403, said), f"{query}: {status}, {body}")
    yield "pay of few: ten protected cells; by area and quarter it is told, by area and month and by city and quarter refused"

    plain, whole = (Cube(folder, name, {**PAY, "policy": METHODS.format(hours="open") + FEW + more}) for name, more in (("plain", ""), ("whole", "fewer = 1000\n")))
    check(protected(plain) == protected(whole), "fewer than 1,000 facts are not all of them")
    check(len({few.digest, plain.digest, whole.digest}) == 3, "two of three policies have one digest")
    yield "each cell has fewer than 1,000 facts; each number has a digest of its own"

    more = PAY["facts"] + "Lyon,Jan,1,1\nParis,Jan,2,2\nParis,Jan,3,3\n"
    links = METHODS.format(hours="parity") + f'[[object]]\nmeasure = "hours"\n{LEAVES}fewer = 2\n'
    links += f'[[object]]\nmeasure = "hours"\n{LEAVES}fewer = 3\nslice = {{ region = {{ level = "area", members = ["South"] }} }}\n'
    hours = Cube(folder, "hours", {**PAY, "facts": more, "policy": links})
    check(protected(hours) == 4, f"hours: {protected(hours)} protected cells, not 4")
    told = reply(hours.ask("journal", "cell hours region.city=Paris, time.month=Jan"))
    kept = reply(hours.ask("journal", "cell hours region.city=Lyon, time.month=Jan"))
    check((told[0], kept[0]) == (200, 403), f"hours: {told}, {kept}")
    yield "hours of few: of a place with three facts they are told, of one in the South with two they are refused"

    for text, said in FAULTS.items():
        (folder / "few" / "policy").write_text(METHODS.format(hours="open") + FEW + text)
        status, _, words = few.ends("check")
        check(status == 3 and f"policy: {said}\n" in words, f"{text.strip()}: {status}, {words}")
    yield f"{len(FAULTS)} faults"


def main():
    build()
    with tempfile.TemporaryDirectory() as name:
        try:
            for row in look(pathlib.Path(name)):
                print(row)
        except Wrong as fault:
            print(f"WRONG: {fault}")
            return 1
    return 0


sys.exit(main())
