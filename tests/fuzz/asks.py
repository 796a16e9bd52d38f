"""Requests at random, the texts that ask for them, and their answers by plain addition over the facts."""

import re
from dataclasses import dataclass

from cubes import number_text

BARE = re.compile(r"[A-Za-z0-9_-]+\Z", re.ASCII)


@dataclass
class Request:
    what: object  # a measure, None for the number of facts
    groups: list  # a level of each dimension, None for `all`
    picks: list  # a level, the first and the last member of each dimension, or None


@dataclass
class Line:
    text: bytes
    request: object = None  # None where nothing is known of the text


# ---- texts

def quoted(name):
    if BARE.match(name):
        return name
    return '"' + name.replace("\\", "\\\\").replace('"', '\\"') + '"'


def level_text(dimension, level):
    return f"{quoted(dimension.name)}.{quoted(dimension.levels[level])}"


def pick_text(dimension, pick, form):
    level, first, last = pick
    members = dimension.members[level]
    span = f"..{quoted(members[last])}" if form == "range" else ""
    return f"{level_text(dimension, level)}={quoted(members[first])}{span}"


def query_text(cube, request):
    what = quoted(request.what.name) if request.what else "count"
    groups = [level_text(one, level) for one, level in zip(cube.dimensions, request.groups) if level is not None]
    taken = [(one, pick) for one, pick in zip(cube.dimensions, request.picks) if pick]
    if groups:
        form = "slice"
    else:
        form = "cell" if all(first == last for _, (_, first, last) in taken) else "range"
    picks = ", ".join(pick_text(one, pick, form) for one, pick in taken)
    by = f" by {', '.join(groups)}" if groups else ""
    where = " where" * bool(groups and taken)
    return f"{form} {what}{by}{where}{' ' * bool(taken)}{picks}"


def varied_text(rng, text):
    """The same query with other blanks around its outer words."""
    if rng.random() < 0.2:
        text = re.sub(r"\A(\w+) ", lambda found: found[1] + rng.choice(("  ", "\t", " \t ")), text)
        text = rng.choice(("", " ", "\t")) + text + rng.choice(("", " "))
    return text


# ---- answers

def row_of(cube, request, point):
    """The group of a point, or None where the request doesn't pick it."""
    for dimension, pick, leaf in zip(cube.dimensions, request.picks, point):
        if pick and not pick[1] <= dimension.number_at(pick[0], leaf) <= pick[2]:
            return None
    return tuple(one.number_at(level, leaf) for one, level, leaf in zip(cube.dimensions, request.groups, point))


def rows(cube, request, values):
    """The sum of the values, one at each point, in each row of the request."""
    sums = {}
    for point, value in values.items():
        row = row_of(cube, request, point)
        if row is not None:
            sums[row] = sums.get(row, 0) + value
    return dict(sorted(sums.items()))


def values_of(cube, what):
    at = None if what is None else cube.measures.index(what)
    return {point: count if at is None else sums[at] for point, (count, sums) in cube.points().items()}


def field(text):
    return '"' + text.replace('"', '""') + '"' if re.search('[,"\r\n]', text) else text


def answer(cube, request):
    """The body that a request gets where it is answered."""
    grouped = [(at, level) for at, level in enumerate(request.groups) if level is not None]
    head = [f"{cube.dimensions[at].name}.{cube.dimensions[at].levels[level]}" for at, level in grouped]
    lines = [head + [request.what.name if request.what else "count"]]
    decimals = request.what.decimals if request.what else 0
    for row, total in rows(cube, request, values_of(cube, request.what)).items():
        members = [cube.dimensions[at].members[level][row[at]] for at, level in grouped]
        lines.append(members + [number_text(total, decimals)])
    return "".join(",".join(map(field, line)) + "\n" for line in lines).encode()


# ---- at random

def make_pick(rng, dimension, single):
    level = rng.randrange(len(dimension.levels))
    first, last = sorted(rng.choices(range(len(dimension.members[level])), k=2))
    return level, first, first if single else last


def make_request(rng, cube):
    groups = [rng.choice([None, *range(len(one.levels))]) if rng.random() < 0.5 else None for one in cube.dimensions]
    single = any(level is not None for level in groups) or rng.random() < 0.4
    picks = [make_pick(rng, one, single) if rng.random() < 0.5 else None for one in cube.dimensions]
    return Request(rng.choice([None, *cube.measures, *cube.measures]), groups, picks)


def cell_request(rng, cube, measure):
    """A cell of a protected one: of an object, or of the core where none names a measure with links."""
    objects = [one for one in cube.protected if one.measure is measure]
    points = sorted({point for point, _ in cube.facts})
    if objects:
        one = rng.choice(objects)
        points = [point for point in points if one.has(cube, point)]
        below = [finer(rng, dimension, level) for dimension, level in zip(cube.dimensions, one.below)]
    elif measure.method == "parity":
        below = [0] * len(cube.dimensions)
    else:
        return None
    if not points:
        return None
    point = rng.choice(points)
    picks = [
        None if level is None else (level, dimension.number_at(level, leaf), dimension.number_at(level, leaf))
        for dimension, level, leaf in zip(cube.dimensions, below, point)
    ]
    return Request(measure, [None] * len(cube.dimensions), picks)


def finer(rng, dimension, level):
    """A level that is finer than or equal to one."""
    return rng.choice([None, *range(len(dimension.levels))]) if level is None else rng.randint(0, level)


def protected_cell(rng, cube):
    """A protected cell with a fact in it, or None where no measure that is drawn has one."""
    guarded = [one for one in cube.measures if one.method != "open"]
    return cell_request(rng, cube, rng.choice(guarded)) if guarded else None


def mutated(rng, data, alphabet=None):
    """The same bytes with one to three places changed, dropped, doubled or added to, from any bytes or from its own."""
    alphabet = alphabet or rng.choice((bytes(range(256)), data or b" "))
    data = bytearray(data)
    for _ in range(rng.randint(1, 3)):
        at = rng.randint(0, len(data))
        piece = bytes(rng.choice(alphabet) for _ in range(rng.randint(1, 3)))
        kind = rng.randrange(4)
        if kind == 0:
            data[at:at] = piece
        elif kind == 1:
            del data[at:at + rng.randint(1, 8)]
        elif kind == 2:
            data[at:at + len(piece)] = piece
        else:
            data[at:at] = data[at:at + rng.randint(1, 40)]
    return bytes(data)


def make_line(rng, cube):
    kind = rng.random()
    if kind < 0.03:
        return Line(b"shape")
    if kind < 0.1:
        cell = protected_cell(rng, cube) or make_request(rng, cube)
        return Line(b"witness " + query_text(cube, cell).encode())
    request = make_request(rng, cube)
    text = varied_text(rng, query_text(cube, request)).encode()
    if kind < 0.75:
        return Line(text, request)
    if kind < 0.755:
        return Line(text + b" " * rng.choice((65_400, 65_536, 70_000)))
    # No line feed, which would end the line, and no carriage return, which is dropped before one.
    return Line(mutated(rng, text, bytes(byte for byte in range(256) if byte not in b"\r\n")))


def make_lines(rng, cube):
    return [make_line(rng, cube) for _ in range(rng.randint(1, 30))]
