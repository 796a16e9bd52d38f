#!/usr/bin/env python3
"""Carry: the journal of an older cube, carried over to one that continues it, and what both lives tell.

Each row says what was carried over and what came of it; the first in which something else came ends the script with
status 1. Needs Python 3 alone. The program is the environment's CUBE.
"""

import itertools
import pathlib
import random
import subprocess
import sys
import tempfile

sys.path.insert(0, str(pathlib.Path(__file__).resolve().parents[2] / "tests"))

from cube_folder import Cube  # noqa: E402
from servers import Wrong, build, check  # noqa: E402

PAY = pathlib.Path(__file__).resolve().parent.parent / "pay"
QUERIES = (pathlib.Path(__file__).resolve().parent.parent / "two-worlds" / "queries").read_text().splitlines()

AREAS = {"Lyon": "South", "Nice": "South", "Paris": "North", "Lille": "North"}
QUARTERS = {"Jan": "Q1", "Feb": "Q1", "Mar": "Q1", "Apr": "Q2"}
MONTHS = list(QUARTERS)

BY_AREA = "slice pay by region.area"
BY_MONTH = "slice pay by time.month"
BY_CITY = "slice pay by region.city"
BY_AREA_AND_QUARTER = "slice pay by region.area, time.quarter"


def dims_of(cities, months, measures, areas=AREAS):
    """A dimension file of these cities in their areas, these months in their quarters, and these measures."""
    regions = ", ".join(f'["{city}", "{areas[city]}"]' for city in cities)
    times = ", ".join(f'["{month}", "{QUARTERS[month]}"]' for month in months)
    return (
        f'[[dimension]]\nname = "region"\nlevels = ["city", "area"]\npaths = [{regions}]\n'
        f'[[dimension]]\nname = "time"\nlevels = ["month", "quarter"]\npaths = [{times}]\n'
        + "".join(f'[[measure]]\nname = "{measure}"\n' for measure in measures)
    )


def policy_of(methods, *objects):
    """A policy file with a method for each measure, and objects with the levels below which they protect."""
    text = "".join(f'[[measure]]\nname = "{measure}"\nmethod = "{method}"\n' for measure, method in methods.items())
    for measure, city, month, more in objects:
        text += f'[[object]]\nmeasure = "{measure}"\nbelow = {{ region = "{city}", time = "{month}" }}\n{more}'
    return text


def facts_of(cities, months, measures, value=lambda city, month, number: 10 * (len(city) + number) + MONTHS.index(month)):
    """A fact at each combination."""
    head = ",".join(["city", "month", *measures]) + "\n"
    rows = itertools.product(cities, months)
    return head + "".join(",".join([c, m, *(str(value(c, m, number)) for number in range(len(measures)))]) + "\n" for c, m in rows)


def pay(months, levels=("city", "month"), cities=tuple(AREAS), **other):
    """Pay of all cities in these months, by a source, protected at these levels and below."""
    files = {
        "dims": dims_of(cities, months, ["pay"]),
        "facts": facts_of(cities, months, ["pay"]),
        "policy": policy_of({"pay": "lattice"}, ("pay", *levels, "")),
    }
    return {**files, **other}


def carry(new, old, journal="journal"):
    """Runs `carry`: its status, what it wrote, and the last line that it said."""
    status, written, said = new.ends("carry", *old.files("from-"), "--from-journal", old.path(journal))
    return status, written, said.splitlines()[-1] if said else ""


def carried(new, old, *lines):
    """Carries the old journal over as the journal of the new cube; these lines must stand behind its first."""
    status, written, said = carry(new, old)
    check((status, written) == (0, new.text(*lines)), f"carried as {status} {written!r} {said}")
    new.path("journal").write_text(written)


def refused(new, old, line):
    status, written, said = carry(new, old)
    check((status, written, said) == (3, "", f"carry: {line}"), f"not refused so: {status} {written!r} {said}")


class Case:
    """Cubes of one row, by names."""

    def __init__(self, folder, name):
        self.folder, self.name, self.count = folder, name, 0

    def cube(self, files):
        self.count += 1
        return Cube(self.folder, f"{self.name}-{self.count}", files)


def a_month_more(case):
    for asks in ([BY_AREA], [BY_MONTH, BY_AREA]):
        old, new = case.cube(pay(MONTHS[:2])), case.cube(pay(MONTHS[:3]))
        old.ask("journal", *asks)
        before = old.path("journal").read_bytes()
        carried(new, old, "s 0 1 0")
        check(old.path("journal").read_bytes() == before, "the old journal changed")
        check(new.ask("journal", BY_AREA).startswith("200 "), "pay by area is not answered")
        check(new.path("journal").read_text() == new.text("s 0 1 0"), "an answer that tells nothing new added a line")
        reply = new.ask("journal", BY_CITY)
        check(reply.endswith("source: the cuboid (region.city, time.month) does not cut the cell (region.city=Lyon, time.month=Jan)\n"), reply)
    old, new = case.cube(pay(MONTHS[:2])), case.cube(pay(MONTHS[:3]))
    old.ask("journal", BY_CITY)
    refused(new, old, "pay: no cuboid can stand for the source")
    return "pay by area becomes area and month where a month is added, and pay by city is refused behind it; pay by city is not carried"


def into_a_file(case):
    old, new = case.cube(pay(MONTHS[:2])), case.cube(pay(MONTHS[:3]))
    old.ask("journal", BY_AREA)
    out, journal, seal = new.path("journal"), old.path("journal"), new.path("journal.seal")
    facts, seals = new.path("facts").read_text(), []
    for begun in (None, "what stood there\n"):
        if begun:
            out.write_text(begun)
        status, written, said = new.ends("carry", *old.files("from-"), "--from-journal", journal, "--out", out)
        check((status, written, out.read_text()) == (0, "", new.text("s 0 1 0")), f"{status} {written!r} {said}")
        check(seal.stat().st_mode & 0o777 == 0o600 and not new.path("journal.seal.new").exists(), "the seal is others' too")
        seals.append(seal.read_text())
        seal.write_text("what stood there\n")
    new.path("facts").write_text(facts.rstrip("\n") + "0\n")
    seal.write_text(seals[0])
    ran = new.ends("ask", "--journal", out)
    check(ran[0] == 4 and "journal: values " in ran[2], f"a value was corrected behind it: {ran}")
    new.path("facts").write_text(facts)
    new.ask("journal", BY_AREA)
    check(seals == [seal.read_text()] * 2, f"another seal than that of the new values: {seals}")
    old.ask("told", BY_CITY)
    before = sorted(new.path("").iterdir())
    for name, status in (("told", 3), ("typo", 9)):
        ended = new.ends("carry", *old.files("from-"), "--from-journal", old.path(name), "--out", out)
        check(ended[:2] == (status, "") and out.read_text() == new.text("s 0 1 0"), f"{name}: {ended}")
    check(not old.path("typo").exists() and sorted(new.path("").iterdir()) == before, "something was made")
    status, written, said = new.ends("carry", *old.files("from-"), "--from-journal", old.path("typo"))
    check((status, written) == (9, "") and said.endswith("typo: missing or empty\nstore failed\n"), f"{status} {said}")
    return "--out has the carried journal whole, with the seal of the new values, or what stood there; a journal that was never begun is not carried"


def a_quarter_ends(case):
    old, new = case.cube(pay(MONTHS[:3])), case.cube(pay(MONTHS))
    old.ask("journal", BY_AREA_AND_QUARTER)
    carried(new, old, "s 0 1 1")
    old, new = case.cube(pay(MONTHS[:2], ("city", "quarter"))), case.cube(pay(MONTHS[:3], ("city", "quarter")))
    old.ask("journal", BY_AREA)
    carried(new, old, "s 0 1 0")
    return "behind a complete quarter area and quarter stays; where quarters are protected area becomes area and month"


def another_order(case):
    cities = ["Lille", "Lyon", "Paris", "Nice"]
    old = case.cube(
        {
            "dims": dims_of(AREAS, MONTHS[:2], ["pay", "hours"]),
            "facts": facts_of(AREAS, MONTHS[:2], ["pay", "hours"], lambda city, month, number: len(city) + number),
            "policy": policy_of({"pay": "lattice", "hours": "parity"}, ("pay", "city", "month", "")),
        }
    )
    new = case.cube(
        {
            "dims": dims_of(cities, MONTHS[:3], ["hours", "pay"]),
            "facts": facts_of(cities, MONTHS[:3], ["hours", "pay"], lambda city, month, number: len(city) + 1 - number),
            "policy": policy_of({"hours": "parity", "pay": "lattice"}, ("pay", "city", "month", "")),
        }
    )
    old.ask("journal", BY_AREA, *(f"cell hours {where}" for where in ("region.area=South, time.month=Jan", "region.area=South, time.month=Feb", "region.city=Paris, time.quarter=Q1")))
    carried(new, old, "k 0 3 9", "k 0 4 10", "k 0 6 7", "s 1 1 0")
    return "links have the places of the new cube, and measures their new numbers"


def what_does_not_continue(case):
    old = case.cube(pay(MONTHS[:2]))
    old.ask("journal", BY_AREA)
    months, moved = MONTHS[:2], {**AREAS, "Lille": "South"}
    rows = facts_of(AREAS, months, ["pay"])
    for files, line in (
        (pay(months, facts=rows + "Lyon,Jan,1\n"), "the point (region.city=Lyon, time.month=Jan) is missing, or has other facts or values"),
        (pay(months, facts=rows.replace("Lyon,Jan,40", "Lyon,Jan,41")), "the point (region.city=Lyon, time.month=Jan) is missing, or has other facts or values"),
        (pay(months, dims=dims_of(AREAS, months, ["pay"], moved)), "the path of (region.city=Lille) is missing"),
        (pay(months, dims=dims_of(AREAS, months, ["pay"]).replace('"quarter"', '"term"')), "the dimension time has other levels"),
        (pay(months, policy=policy_of({"pay": "open"})), "the measure pay is missing, or has other decimals or another method"),
        (pay(months, ("city", "month"), policy=policy_of({"pay": "lattice"}, ("pay", "city", "month", '[object.slice.region]\nlevel = "city"\nmembers = ["Nice", "Paris", "Lille"]\n'))), "pay: the cell (region.city=Lyon, time.month=Jan) is not protected"),
    ):
        refused(case.cube(files), old, line)
    wide = case.cube(pay(months, ("city", "quarter")))
    wide.ask("journal", BY_AREA)
    refused(old, wide, "pay: the cell (region.city=Lyon, time.quarter=Q1) is not protected")
    one = '[[dimension]]\nname = "region"\nlevels = ["city", "area"]\npaths = [["Lyon", "South"], ["Nice", "South"], ["Paris", "North"], ["Lille", "North"]]\n[[measure]]\nname = "pay"\n'
    flat = case.cube({"dims": one, "facts": "city,pay\nLyon,1\nNice,2\nParis,3\nLille,4\n", "policy": '[[measure]]\nname = "pay"\nmethod = "lattice"\n'})
    refused(flat, old, "the dimension time is missing")
    flat.ask("journal", "cell pay")
    refused(old, flat, "the dimension time is new")
    return "a late fact, a value that was corrected, a leaf that moved, other levels, another method, less that is protected: each is named"


def late_facts(case):
    def without(*empty):
        rows = [row for row in facts_of(AREAS, MONTHS[:2], ["pay"]).splitlines(True) if not row.startswith(empty)]
        return pay(MONTHS[:2], facts="".join(rows))

    new = case.cube(pay(MONTHS[:2]))
    old = case.cube(without("Lille,Feb"))
    old.ask("journal", BY_AREA)
    refused(new, old, "pay: no cuboid can stand for the source")
    new, old = case.cube(pay(MONTHS[:2])), case.cube(without("Lille,Feb", "Paris,Feb"))
    old.ask("journal", BY_AREA)
    carried(new, old, "s 0 1 0")
    areas = {**AREAS, "Nantes": "North"}
    more = [*AREAS, "Nantes"]
    new = case.cube(pay(MONTHS[:2], dims=dims_of(more, MONTHS[:2], ["pay"], areas), facts=facts_of(more, MONTHS[:2], ["pay"])))
    old = case.cube(pay(MONTHS[:2]))
    old.ask("journal", BY_AREA)
    carried(new, old, "s 0 0 2")
    return "a late fact where there was none is carried where the cells allow it; behind a new branch pay by area becomes pay by city"


def links_that_fix(case):
    def hours(slice_text):
        return {
            "dims": dims_of(["Lyon", "Nice"], MONTHS[:2], ["hours"]),
            "facts": facts_of(["Lyon", "Nice"], MONTHS[:2], ["hours"]),
            "policy": policy_of({"hours": "parity"}, ("hours", "city", "month", slice_text)),
        }

    old = case.cube(hours('[object.slice.time]\nlevel = "month"\nmembers = ["Jan"]\n'))
    old.ask("journal", "cell hours region.city=Lyon, time.month=Feb")
    new = case.cube(hours(""))
    refused(new, old, "hours: the carried links fix the cell (region.city=Lyon, time.month=Feb)")
    return "a policy that guards what the old answers told is refused"


def nothing_told(case):
    old, new = case.cube(pay(MONTHS[:2])), case.cube(pay(MONTHS[:3]))
    old.ask("journal")
    carried(new, old)
    old.ask("told", BY_MONTH, BY_AREA)
    status, written, _ = old.ends("carry", *old.files("from-"), "--from-journal", old.path("told"))[:3]
    check((status, written) == (0, old.compact("told")), "carried to itself it is not the compacted history")
    return "an empty history is a first line alone; carried to its own cube a history is the compacted one"


def bad_files(case):
    old, new = case.cube(pay(MONTHS[:2])), case.cube(pay(MONTHS[:3]))
    old.ask("journal", BY_AREA)
    for cube, kind in itertools.product((new, old), ("dims", "facts", "policy")):
        kept = cube.path(kind).read_text()
        cube.path(kind).write_text("?")
        status, written, said = carry(new, old)
        check((status, written) == (3, "") and said.startswith(f"{kind}: "), f"{kind}: {status} {written!r} {said}")
        cube.path(kind).unlink()
        status, written, said = carry(new, old)
        check((status, written, said) == (5, "", f"cannot read {cube.path(kind)}"), f"{kind}: {status} {written!r} {said}")
        cube.path(kind).write_text(kept)
    status, written, said = new.ends("carry", *old.files("from-"), "--from-journal", case.folder)
    check((status, written) == (9, ""), f"a folder as the journal: {status} {said}")
    new.ask("other", BY_AREA)
    for line in ("values ", f"digest {new.digest} is not {old.digest}\n"):
        status, written, said = new.ends("carry", *old.files("from-"), "--from-journal", new.path("other"))
        check((status, written) == (4, "") and f"journal: {line}" in said, f"{status} {said}")
        new.path("other.seal").unlink()
    return "each of the six files is named that is not read or is refused, and a journal of another cube"


def silent(old, new, asks, later, twin, many):
    """Looks whether both cubes with the changes reply as the cubes do: the old one has the rows of the twin at its points."""
    columns = twin.splitlines()[0].split(",")
    old_head, *old_rows = old.path("facts").read_text().splitlines()
    order = [columns.index(column) for column in old_head.split(",")]
    points = {tuple(row.split(",")[:many]) for row in old_rows}
    rows = [[row.split(",")[place] for place in order] for row in twin.splitlines()[1:]]
    old.path("twin").write_text("".join(f"{row}\n" for row in (old_head, *(",".join(row) for row in rows if tuple(row[:many]) in points))))
    new.path("twin").write_text(twin)
    for cube, lines, begun in ((old, asks, ""), (new, later, new.path("begun").read_text())):
        replies = []
        for facts in ("facts", "twin"):
            journal = cube.path(f"{facts}.journal")
            journal.write_text(begun)
            cube.path(f"{facts}.journal.seal").unlink(missing_ok=True)
            replies.append(cube.ask(journal.name, *lines, facts=facts))
        check(replies[0] == replies[1], f"over the twin the replies to {lines} are others")


def two_lives_of_pay(case):
    rows = (PAY / "facts.csv").read_text().splitlines(True)
    dims = (PAY / "dims.toml").read_text()
    policy = (PAY / "policy.toml").read_text()

    def first(months, policy=policy):
        """The files with so many months of the year."""
        gone = tuple("Jan Feb Mar Apr May Jun Jul Aug Sep Oct Nov Dec".split()[months:])
        kept = "".join(line for line in dims.splitlines(True) if not line.startswith(tuple(f'  ["{month}"' for month in gone)))
        return {"dims": kept, "facts": "".join(row for row in rows if not row.startswith(gone)), "policy": policy}

    old, new = case.cube(first(9)), case.cube(first(12))
    old.ask("journal", *QUERIES)
    status, written, said = carry(new, old)
    check(status == 0, f"nine months are not carried: {said}")
    for name in ("begun", "journal"):
        new.path(name).write_text(written)
    new.ask("journal", *QUERIES)
    for where in ("region.branch=Lyon, time.month=Jan, grade.grade=lead", "region.branch=Lyon, time.month=Dec, grade.grade=lead"):
        for measure in ("pay", "hours"):
            twin = new.run("twin", "--journal", new.path("journal"), "--cell", f"cell {measure} {where}")
            silent(old, new, QUERIES, QUERIES, twin, 3)
    finer, monthly = "slice pay by region.area, time.quarter, grade.grade", policy.replace('region = "branch",', 'region = "branch", time = "month",')
    outcomes = []
    for before, behind in ((3, 4), (9, 10), (9, 12)):
        old, new = case.cube(first(before, monthly)), case.cube(first(behind, monthly))
        old.ask("journal", finer)
        outcomes.append(carry(new, old)[0])
    check(outcomes == [3, 3, 0], f"sources by quarter are carried as {outcomes}")
    return "nine months and then the year of examples/pay: both lives reply the same over both twins; where months alone are protected, sources by quarter wait for its end"


def grown(random_, case):
    """A cube of two dimensions at random, and one that has more points; the sizes of both, and the points of the larger one."""
    many = random_.randint(2, 4), random_.randint(2, 4)
    more = many[0] + random_.randint(0, 1), many[1] + random_.randint(0, 2)
    upper = {name: [random_.randint(0, 1) for _ in range(size)] for name, size in zip("ab", more)}
    points = [(i, j) for i in range(more[0]) for j in range(more[1]) if random_.random() < 0.8]
    method = random_.choice(["lattice", "parity"])
    values = {point: random_.randint(0, 9) for point in points}

    def dimension(name, size):
        paths = ", ".join(f'["{name}{leaf}", "{name.upper()}{upper[name][leaf]}"]' for leaf in range(size))
        return f'[[dimension]]\nname = "{name}"\ncolumn = "{name}"\nlevels = ["leaf", "top"]\npaths = [{paths}]\n'

    def files(size):
        rows = (f"a{i},b{j},{values[i, j]}\n" for i, j in points if i < size[0] and j < size[1])
        return {
            "dims": dimension("a", size[0]) + dimension("b", size[1]) + '[[measure]]\nname = "v"\n',
            "facts": "a,b,v\n" + "".join(rows),
            "policy": f'[[measure]]\nname = "v"\nmethod = "{method}"\n[[object]]\nmeasure = "v"\nbelow = {{ a = "leaf", b = "leaf" }}\n',
        }

    return case.cube(files(many)), case.cube(files(more)), many, more, points


def queries_at_random(random_, size, many):
    def query():
        levels = [random_.choice([None, f"{name}.leaf", f"{name}.top"]) for name in ("a", "b")]
        grouped = ", ".join(level for level in levels if level)
        if grouped and random_.random() < 0.7:
            return f"slice v by {grouped}"
        picks = []
        for axis, name in enumerate(("a", "b")):
            if random_.random() < 0.6:
                low = random_.randrange(size[axis])
                picks.append(f"{name}.leaf={name}{low}..{name}{random_.randrange(low, size[axis])}")
        return f"range v {', '.join(picks)}" if picks else "cell v"

    return [query() for _ in range(many)]


def lives_at_random(case, rounds=40):
    random_ = random.Random(7)
    kept = stopped = cells = 0
    for _ in range(rounds):
        old, new, many, more, points = grown(random_, case)
        asks, later = queries_at_random(random_, many, 4), queries_at_random(random_, more, 4)
        old.ask("journal", *asks)
        status, written, said = carry(new, old)
        if status == 3:
            check(said.startswith("carry: v: "), said)
            stopped += 1
            continue
        check(status == 0, said)
        kept += 1
        for name in ("begun", "journal"):
            new.path(name).write_text(written)
        new.ask("journal", *later)
        for i, j in random_.sample(points, min(3, len(points))):
            twin = new.run("twin", "--journal", new.path("journal"), "--cell", f"cell v a.leaf=a{i}, b.leaf=b{j}")
            silent(old, new, asks, later, twin, 2)
            cells += 1
    check(kept > rounds // 8 and stopped, f"{kept} carried and {stopped} stopped tell little")
    return f"{kept} pairs of cubes at random are carried over, {stopped} are not; {cells} cells are hidden by both lives"


ACTS = (a_month_more, into_a_file, a_quarter_ends, another_order, what_does_not_continue, late_facts, links_that_fix, nothing_told, bad_files, two_lives_of_pay, lives_at_random)


def main():
    build()
    with tempfile.TemporaryDirectory() as name:
        try:
            for act in ACTS:
                print(act(Case(pathlib.Path(name), act.__name__)), flush=True)
        except (Wrong, OSError, subprocess.TimeoutExpired) as wrong:
            print(f"run.py: {wrong}", file=sys.stderr)
            sys.exit(1)


if __name__ == "__main__":
    main()
