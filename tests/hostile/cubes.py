"""What `cube check` prints of a cube, by docs/FORMATS.md ("Command lines, statuses and texts", "Public text")."""

import hashlib
import math
from dataclasses import dataclass, field

REGION = ("region", "city", ["city", "area"], [["Lyon", "South"], ["Nice", "South"], ["Paris", "North"]])
PAY = ("pay", "pay", 0, "open")


@dataclass
class Cube:
    """Dimensions with a name, a column, levels and paths; measures with a name, a column, decimals and a method; objects with
    a measure, a level for each dimension and a slice of numbers; how many facts stand at which leaves; and how many cells are
    protected."""

    dimensions: list = field(default_factory=lambda: [REGION])
    measures: list = field(default_factory=lambda: [PAY])
    objects: list = field(default_factory=list)
    facts: dict = field(default_factory=dict)
    protected: int = 0


def quoted(name):
    return '"' + name.replace("\\", "\\\\").replace('"', '\\"') + '"'


def public_text(cube):
    for name, _column, levels, paths in cube.dimensions:
        yield ["d", quoted(name)]
        yield from (["l", quoted(level)] for level in levels)
        yield from (["p", *map(quoted, path)] for path in paths)
    for name, _column, decimals, method in cube.measures:
        yield ["m", quoted(name), decimals, method]
    for measure, levels, *slices in cube.objects:
        yield ["o", quoted(measure), *levels]
        yield from (["s", *numbers] for numbers in slices)
    for leaves in sorted(cube.facts):
        yield ["f", *leaves, cube.facts[leaves]]


def check_text(cube):
    """The eight lines."""
    lines = "".join(" ".join(map(str, fields)) + "\n" for fields in public_text(cube))
    leaves = math.prod(len(paths) for _name, _column, _levels, paths in cube.dimensions)
    return (
        f"dimensions {len(cube.dimensions)}\n"
        f"measures {len(cube.measures)}\n"
        f"facts {sum(cube.facts.values())}\n"
        f"points {len(cube.facts)}\n"
        f"full {'yes' if len(cube.facts) == leaves else 'no'}\n"
        f"cuboids {math.prod(len(levels) + 1 for _name, _column, levels, _paths in cube.dimensions)}\n"
        f"protected {cube.protected}\n"
        f"digest {hashlib.sha256(lines.encode()).hexdigest()}\n"
    ).encode()


def header(cube):
    """The header of a fact file of the cube."""
    return ",".join(written(column) for _name, column, *_ in cube.dimensions + cube.measures).encode() + b"\n"


def written(name):
    """A field of CSV."""
    return '"' + name.replace('"', '""') + '"' if any(letter in name for letter in ',"\r\n') else name
