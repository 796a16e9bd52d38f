"""Policy files for pay and hours in three cities, and what `cube check` says of them, by docs/FORMATS.md ("Policy file").

A row has a name, a file, and what is expected: the cube that the file makes (cubes.py), or the words of its first fault. A
file is a text, its bytes, or, where it is large, a function that makes it.
"""

from cubes import PAY, Cube
from dims import dimension, measure
from limits import MARK, MOST_FILE, TOO_LONG


def method(name='"pay"', word='"open"', more=""):
    """The table of a measure, with the key that is None left out."""
    keys = {"name": name, "method": word}
    return "[[measure]]\n" + "".join(f"{key} = {value}\n" for key, value in keys.items() if value is not None) + more


def protect(name='"pay"', below='{ region = "city" }', more=""):
    """The table of an object, with the key that is None left out."""
    keys = {"measure": name, "below": below}
    return "[[object]]\n" + "".join(f"{key} = {value}\n" for key, value in keys.items() if value is not None) + more


def sliced(text):
    """A slice of region, of the level and the members in the text."""
    return LATTICE + protect(more=f"slice = {{ region = {{ {text} }} }}\n")


def policy(pay="open", hours="open", objects=(), protected=0):
    """The cube under a policy."""
    measures = [PAY[:3] + (pay,), ("hours", "hours", 0, hours)]
    return Cube(measures=measures, objects=list(objects), facts={(0,): 2, (1,): 1, (2,): 2}, protected=protected)


DIMS = dimension() + measure() + measure('"hours"')
FACTS = "city,pay,hours\nLyon,10,1\nLyon,20,1\nNice,30,1\nParis,40,1\nParis,50,1\n"
HOURS = method('"hours"')
OPEN = method() + HOURS
LATTICE = method(word='"lattice"') + HOURS
PARITY = method() + method('"hours"', '"parity"')
SOUTH = 'level = "area", members = ["South"]'
SOUTH_SLICE = [0, 1, 0]

POLICIES = [
    ("a plain file", OPEN, policy()),
    ("measures in another order", HOURS + method(), policy()),
    ("a byte order mark at the front", MARK + OPEN, policy()),
    ("a byte order mark twice", MARK * 2 + OPEN, "not toml"),
    ("a byte order mark in the middle", method() + MARK + HOURS, "not toml"),
    ("CR LF ends each line", OPEN.replace("\n", "\r\n"), policy()),
    ("CR ends each line", OPEN.replace("\n", "\r"), "not toml"),
    ("no line feed at the end", OPEN[:-1], policy()),
    ("an empty file", "", "missing measure"),
    ("a key twice", OPEN + 'name = "pay"\n', "not toml"),
    ("bytes that are no UTF-8 in a comment", b"# \xff\n" + OPEN.encode(), "not toml"),
    ("arrays 10,000 deep", f"x = {'[' * 10_000}{']' * 10_000}\n" + OPEN, "not toml"),
    ("arrays 80 deep under an unknown key", f"x = {'[' * 80}{']' * 80}\n" + OPEN, "unknown x"),
    ("a file of one byte more than the most", lambda: OPEN + "#" * (MOST_FILE + 1 - len(OPEN)), TOO_LONG),
    ("an unknown key of the file", "x = 1\n" + OPEN, "unknown x"),
    ("two unknown keys of the file, the later first", "y = 1\nx = 1\n" + OPEN, "unknown x"),
    ("an unknown key in capitals comes before small letters", "a = 1\nZ = 1\n" + OPEN, "unknown Z"),
    ("an unknown key with a line feed", '"a\\nb" = 1\n' + OPEN, "unknown a\nb"),
    ("an unknown key that is empty", '"" = 1\n' + OPEN, "unknown "),
    ("an unknown key and no measure", "x = 1\n", "unknown x"),
    ("a dimension", OPEN + dimension(), "unknown dimension"),
    ("no measure in an array", "measure = []\n", "missing measure"),
    ("one table for the measures", '[measure]\nname = "pay"\nmethod = "open"\n', "wrong kind measure"),
    ("a number for the objects", "object = 1\n" + OPEN, "wrong kind object"),
    ("one table for the objects", OPEN + "[object]\n", "wrong kind object"),
    ("no object in an array", "object = []\n" + OPEN, policy()),
    ("a number for the objects and no measure", "object = 1\n", "missing measure"),
    ("an unknown key of a measure", method(more='level = "city"\n') + HOURS, "unknown measure 1 level"),
    ("an unknown key of a measure without a name", method(None, more="x = 1\n") + HOURS, "unknown measure 1 x"),
    ("a measure without a name", method(None) + HOURS, "missing measure 1 name"),
    ("a measure without name and method", HOURS + method(None, None), "missing measure 2 name"),
    ("a number for a name", method("1") + HOURS, "wrong kind measure 1 name"),
    ("a measure without a method", method(word=None) + HOURS, "missing measure 1 method"),
    ("a number for a method", method(word="1") + HOURS, "wrong kind measure 1 method"),
    ("a measure that is unknown", method('"wage"') + HOURS, "unknown measure 1 name"),
    ("count for a measure", method('"count"') + HOURS, "unknown measure 1 name"),
    ("a method that is none", method(word='"closed"') + HOURS, "unknown measure 1 method"),
    ("an empty method", method(word='""') + HOURS, "unknown measure 1 method"),
    ("a method in capitals", method(word='"Open"') + HOURS, "unknown measure 1 method"),
    ("a measure and a method that are unknown", method('"wage"', '"closed"') + HOURS, "unknown measure 1 name"),
    ("a measure that is unknown, with a number for its method", method('"wage"', "1") + HOURS, "wrong kind measure 1 method"),
    ("a measure twice", OPEN + method(), "measure twice measure 3 name"),
    ("a measure twice, with a method that is none", OPEN + method(word='"closed"'), "unknown measure 3 method"),
    ("no table for pay", HOURS, "missing pay"),
    ("no table for hours", method(), "missing hours"),
    ("no table for hours and a bad object", method() + "[[object]]\nx = 1\n", "missing hours"),
]

OBJECTS = [
    ("parity without an object", PARITY, policy(hours="parity", protected=3)),
    ("lattice without an object", LATTICE, policy("lattice")),
    ("an object at the city", LATTICE + protect(), policy("lattice", objects=[("pay", [0])], protected=3)),
    ("an object at the area", LATTICE + protect(below='{ region = "area" }'), policy("lattice", objects=[("pay", [1])], protected=5)),
    ("an object at all", LATTICE + protect(below='{ region = "all" }'), policy("lattice", objects=[("pay", [2])], protected=6)),
    ("an object that names no dimension", LATTICE + protect(below="{}"), policy("lattice", objects=[("pay", [2])], protected=6)),
    ("an object on parity", PARITY + protect('"hours"'), policy(hours="parity", objects=[("hours", [0])], protected=3)),
    ("64 objects", LATTICE + protect() * 64, policy("lattice", objects=[("pay", [0])] * 64, protected=3)),
    ("65 objects", LATTICE + protect() * 65, "limit objects 64"),
    ("65 objects and a measure that is unknown", method('"wage"') + protect() * 65, "limit objects 64"),
    ("an unknown key of an object", LATTICE + protect(more="x = 1\n"), "unknown object 1 x"),
    ("an object without a measure", LATTICE + protect(None), "missing object 1 measure"),
    ("a number for a measure", LATTICE + protect("1"), "wrong kind object 1 measure"),
    ("a measure that is unknown", LATTICE + protect('"wage"'), "unknown object 1 measure"),
    ("count for a measure", LATTICE + protect('"count"'), "unknown object 1 measure"),
    ("an object without below", LATTICE + protect(below=None), "missing object 1 below"),
    ("a text for below", LATTICE + protect(below='"city"'), "wrong kind object 1 below"),
    ("a number in below", LATTICE + protect(below="{ region = 1 }"), "wrong kind object 1 below"),
    (
        "a number in below, behind a dimension that is unknown",
        LATTICE + protect(below='{ a = "b", region = 1 }'),
        "wrong kind object 1 below",
    ),
    ("a dimension in below that is unknown", LATTICE + protect(below='{ town = "city" }'), "unknown object 1 below town"),
    ("two dimensions in below that are unknown", LATTICE + protect(below='{ y = "city", x = "city" }'), "unknown object 1 below x"),
    ("a level in below that is unknown", LATTICE + protect(below='{ region = "town" }'), "unknown object 1 below region"),
    ("a dimension in below in another case", LATTICE + protect(below='{ Region = "city" }'), "unknown object 1 below Region"),
    ("a slice", sliced(SOUTH), policy("lattice", objects=[("pay", [0], SOUTH_SLICE)], protected=2)),
    (
        "a slice below the area",
        LATTICE + protect(below='{ region = "area" }', more=f"slice = {{ region = {{ {SOUTH} }} }}\n"),
        policy("lattice", objects=[("pay", [1], SOUTH_SLICE)], protected=3),
    ),
    (
        "a slice on parity",
        PARITY + protect('"hours"', more=f"slice = {{ region = {{ {SOUTH} }} }}\n"),
        policy(hours="parity", objects=[("hours", [0], SOUTH_SLICE)], protected=2),
    ),
    (
        "members twice and in another order",
        sliced('level = "city", members = ["Paris", "Lyon", "Paris"]'),
        policy("lattice", objects=[("pay", [0], [0, 0, 0, 2])], protected=2),
    ),
    ("a slice without a dimension", LATTICE + protect(more="slice = {}\n"), policy("lattice", objects=[("pay", [0])], protected=3)),
    ("a text for a slice", LATTICE + protect(more='slice = "South"\n'), "wrong kind object 1 slice"),
    ("a text in a slice", LATTICE + protect(more='slice = { region = "South" }\n'), "wrong kind object 1 slice"),
    (
        "a dimension in a slice that is unknown",
        LATTICE + protect(more=f"slice = {{ town = {{ {SOUTH} }} }}\n"),
        "unknown object 1 slice town",
    ),
    ("an unknown key in a slice", sliced(SOUTH + ", x = 1"), "unknown object 1 slice region x"),
    ("a slice without a level", sliced('members = ["South"]'), "missing object 1 slice region level"),
    ("a number for the level", sliced('level = 1, members = ["South"]'), "wrong kind object 1 slice region level"),
    ("a level that is unknown", sliced('level = "town", members = ["South"]'), "unknown object 1 slice region level"),
    ("a slice at all", sliced('level = "all", members = ["all"]'), "unknown object 1 slice region level"),
    ("a slice without members", sliced('level = "area"'), "missing object 1 slice region members"),
    ("no member in an array", sliced('level = "area", members = []'), "missing object 1 slice region members"),
    ("a text for the members", sliced('level = "area", members = "South"'), "wrong kind object 1 slice region members"),
    ("a number among the members", sliced('level = "area", members = ["South", 1]'), "wrong kind object 1 slice region members"),
    ("a member that is unknown", sliced('level = "area", members = ["South", "West"]'), "unknown object 1 slice region members 2"),
    ("a member of another level", sliced('level = "area", members = ["Lyon"]'), "unknown object 1 slice region members 1"),
    (
        "an unknown member of the second object",
        LATTICE + protect() + sliced('level = "area", members = [""]')[len(LATTICE):],
        "unknown object 2 slice region members 1",
    ),
    ("an object on open", OPEN + protect(), "object on method object 1"),
    ("an object on open below the area", OPEN + protect(below='{ region = "area" }'), "object on method object 1"),
    ("an object on parity below the area", PARITY + protect('"hours"', '{ region = "area" }'), "object on method object 1"),
    ("an object on parity that names no dimension", PARITY + protect('"hours"', "{}"), "object on method object 1"),
    ("an object on open with a bad slice", OPEN + protect(more="slice = 1\n"), "wrong kind object 1 slice"),
    ("two bad objects", LATTICE + protect('"hours"') + protect("1"), "object on method object 1"),
]
