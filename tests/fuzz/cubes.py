"""Small cubes at random, and the three files that describe each of them."""

import csv
import io
import json
from dataclasses import dataclass

BOUND = 10**12
ODD = " ,\"\\.='#-_éß界𝄞;[]{}/?&%+"
METHODS = ("open", "lattice", "parity")


@dataclass
class Dimension:
    name: str
    column: str
    levels: list  # the finest first
    paths: list  # for each leaf a member of each level

    def __post_init__(self):
        self.members = [list(dict.fromkeys(path[level] for path in self.paths)) for level in range(len(self.levels))]

    def number_at(self, level, leaf):
        """The number at a level of a leaf's member; None is the level `all`."""
        return 0 if level is None else self.members[level].index(self.paths[leaf][level])


@dataclass
class Measure:
    name: str
    column: str
    decimals: int
    method: str


@dataclass
class Protected:
    """An object of a policy: levels by number, None for `all`, and for some dimensions a level with members of it."""

    measure: Measure
    below: list
    slice: dict

    def has(self, cube, point):
        return all(
            cube.dimensions[at].number_at(level, point[at]) in members for at, (level, members) in self.slice.items()
        )


@dataclass
class Cube:
    dimensions: list
    measures: list
    protected: list
    facts: list  # the leaves of each, and a value of each measure in its smallest unit

    def points(self):
        """For each point, in order, the number of its facts and the sums of the measures."""
        sums = {}
        for point, values in self.facts:
            count, totals = sums.get(point, (0, [0] * len(self.measures)))
            sums[point] = count + 1, [total + value for total, value in zip(totals, values)]
        return dict(sorted(sums.items()))


# ---- at random

def make_name(rng, taken):
    """A name that is not taken yet, mostly a plain one."""
    while True:
        if rng.random() < 0.8:
            name = rng.choice("abcdefgh") + str(rng.randrange(100))
        else:
            name = "".join(rng.choice(ODD + "xyz09") for _ in range(rng.randint(1, 6)))
        if name not in taken and name not in ("all", "count"):
            taken.add(name)
            return name


def make_paths(rng, depth, leaves):
    """Each member of a level has one parent, and two levels may have members of one name."""
    taken = [set() for _ in range(depth)]
    paths = [[make_name(rng, taken[0])] for _ in range(leaves)]
    for level in range(1, depth):
        parents = [make_name(rng, taken[level]) for _ in range(rng.randint(1, leaves))]
        chosen = {path[-1]: rng.choice(parents) for path in paths}
        for path in paths:
            path.append(chosen[path[-1]])
    return paths


def make_dimension(rng, names, columns):
    levels = set()
    while True:
        finest = make_name(rng, levels)
        if finest not in columns:
            break
    column = make_name(rng, columns) if rng.random() < 0.5 else finest
    columns.add(column)
    names_of_levels = [finest] + [make_name(rng, levels) for _ in range(rng.randint(0, 2))]
    paths = make_paths(rng, len(names_of_levels), rng.randint(1, 5))
    return Dimension(make_name(rng, names), column, names_of_levels, paths)


def make_measure(rng, names, columns):
    name = make_name(rng, names)
    column = make_name(rng, columns) if name in columns or rng.random() < 0.3 else name
    columns.add(column)
    return Measure(name, column, rng.choice((0, 0, 2, 6)), rng.choice(METHODS))


def make_protected(rng, dimensions, measure):
    if measure.method == "parity":
        below = [0] * len(dimensions)
    else:
        below = [rng.choice([None, *range(len(one.levels))]) for one in dimensions]
    slice_of = {}
    for at, one in enumerate(dimensions):
        if rng.random() < 0.3:
            level = rng.randrange(len(one.levels))
            members = range(len(one.members[level]))
            slice_of[at] = level, sorted(rng.sample(members, rng.randint(1, len(members))))
    return Protected(measure, below, slice_of)


def make_value(rng):
    if rng.random() < 0.02:
        return rng.choice((BOUND, -BOUND, BOUND - 1))
    return rng.choice((0, rng.randint(-9, 9), rng.randint(-10**6, 10**6)))


def make_facts(rng, dimensions, measures):
    every = [()]
    for one in dimensions:
        every = [(*point, leaf) for point in every for leaf in range(len(one.paths))]
    density = rng.choice((0.2, 0.5, 0.9, 1))
    points = [point for point in every if rng.random() < density][:40]
    repeated = [point for point in points for _ in range(rng.choice((1, 1, 1, 2, 3)))]
    facts = [(point, [make_value(rng) for _ in measures]) for point in repeated]
    rng.shuffle(facts)
    return facts


def make_cube(rng):
    names, columns, measure_names = set(), set(), set()
    dimensions = [make_dimension(rng, names, columns) for _ in range(rng.randint(1, 3))]
    measures = [make_measure(rng, measure_names, columns) for _ in range(rng.randint(1, 3))]
    guarded = [one for one in measures if one.method != "open"]
    protected = [make_protected(rng, dimensions, one) for one in guarded for _ in range(rng.choice((0, 1, 1, 2)))]
    return Cube(dimensions, measures, protected, make_facts(rng, dimensions, measures))


# ---- the files

def toml(value):
    """A text or a list as TOML; the texts have no control bytes, so JSON's form is one."""
    return json.dumps(value, ensure_ascii=False)


def dims_file(cube):
    lines = []
    for one in cube.dimensions:
        lines += ["[[dimension]]", f"name = {toml(one.name)}", f"levels = {toml(one.levels)}"]
        lines += [f"column = {toml(one.column)}"] * (one.column != one.levels[0])
        lines += [f"paths = {toml(one.paths)}"]
    for one in cube.measures:
        lines += ["[[measure]]", f"name = {toml(one.name)}", f"decimals = {one.decimals}"]
        lines += [f"column = {toml(one.column)}"] * (one.column != one.name)
    return "\n".join(lines + [""]).encode()


def object_lines(cube, one):
    levels = [
        f"{toml(dimension.name)} = {toml(dimension.levels[level])}"
        for dimension, level in zip(cube.dimensions, one.below)
        if level is not None
    ]
    lines = ["[[object]]", f"measure = {toml(one.measure.name)}", f"below = {{ {', '.join(levels)} }}"]
    for at, (level, members) in one.slice.items():
        dimension = cube.dimensions[at]
        lines += [f"[object.slice.{toml(dimension.name)}]", f"level = {toml(dimension.levels[level])}"]
        lines += [f"members = {toml([dimension.members[level][number] for number in members])}"]
    return lines


def policy_file(cube):
    lines = []
    for one in cube.measures:
        lines += ["[[measure]]", f"name = {toml(one.name)}", f"method = {toml(one.method)}"]
    for one in cube.protected:
        lines += object_lines(cube, one)
    return "\n".join(lines + [""]).encode()


def number_text(units, decimals):
    """A number as the program writes it: with exactly so many decimals."""
    whole, rest = divmod(abs(units), 10**decimals)
    return "-" * (units < 0) + str(whole) + (f".{rest:0{decimals}}" if decimals else "")


def varied_number(rng, units, decimals):
    """One of the ways to write a number in a fact file."""
    text = number_text(units, decimals)
    if "." in text and rng.random() < 0.3:
        text = text.rstrip("0").rstrip(".")
    elif rng.random() < 0.1:
        text += "00" if "." in text else ".0"
    return "+" * (units >= 0 and rng.random() < 0.1) + text


def facts_file(rng, cube):
    """The facts as CSV: columns in any order, perhaps one more that nobody asks for."""
    columns = [*cube.dimensions, *cube.measures]
    order = rng.sample(range(len(columns)), len(columns))
    extra = ["note, of no use"] * (rng.random() < 0.3)
    out = io.StringIO()
    quoting = rng.choice((csv.QUOTE_MINIMAL, csv.QUOTE_ALL))
    writer = csv.writer(out, lineterminator=rng.choice(("\n", "\r\n")), quoting=quoting)
    writer.writerow([columns[at].column for at in order] + extra)
    for point, values in cube.facts:
        fields = [one.paths[leaf][0] for one, leaf in zip(cube.dimensions, point)]
        fields += [varied_number(rng, value, one.decimals) for one, value in zip(cube.measures, values)]
        writer.writerow([fields[at] for at in order] + extra)
    return out.getvalue().encode()


def units_of(text, decimals):
    """What a number that the program wrote says in the smallest unit."""
    whole, _, rest = text.lstrip("-").partition(".")
    units = int(whole) * 10**decimals + int((rest + "0" * decimals)[:decimals] or 0)
    return -units if text.startswith("-") else units


def read_facts(cube, text):
    """The facts of a file that the program wrote, with the columns in the order of the dimension file."""
    rows = list(csv.reader(io.StringIO(text.decode(), newline="")))
    leaves = [{path[0]: leaf for leaf, path in enumerate(one.paths)} for one in cube.dimensions]
    width = len(cube.dimensions)
    facts = []
    for row in rows[1:]:
        point = tuple(names[field] for names, field in zip(leaves, row))
        values = [units_of(field, one.decimals) for one, field in zip(cube.measures, row[width:])]
        facts.append((point, values))
    return facts
