"""Dimension files, and what `cube check` says of them, by docs/FORMATS.md ("Dimension file").

A row has a name, a file, and what is expected: the cube that the file makes (cubes.py), or the words of its first fault. A
file is a text, its bytes, or, where it is large, a function that makes it.
"""

from cubes import REGION, Cube
from limits import MARK, MOST_FILE, MOST_LEAVES, TOO_LONG


def dimension(name='"region"', levels='["city", "area"]', paths='[["Lyon", "South"], ["Nice", "South"], ["Paris", "North"]]', more=""):
    """The table of a dimension, with the key that is None left out."""
    keys = {"name": name, "levels": levels, "paths": paths}
    return "[[dimension]]\n" + "".join(f"{key} = {value}\n" for key, value in keys.items() if value is not None) + more


def measure(name='"pay"', more=""):
    return "[[measure]]\n" + (f"name = {name}\n" if name is not None else "") + more


def small(number, levels=1):
    """One of many dimensions, with one leaf."""
    names = [f'"l{number}.{level}"' for level in range(levels)]
    return dimension(f'"d{number}"', f"[{', '.join(names)}]", f"[[{', '.join(names)}]]")


def smalls(count):
    return "".join(map(small, range(count)))


def measures(count):
    return "".join(measure(f'"m{number}"') for number in range(count))


def numbered(count):
    """So many paths of a number."""
    return "[" + ", ".join(f'["{leaf}"]' for leaf in range(count)) + "]"


def leaves(count):
    """A file with so many leaves."""
    return dimension(levels='["city"]', paths=numbered(count)) + measure()


def deep(opening, inner, closing, count):
    return f"x = {opening * count}{inner}{closing * count}\n" + DIMS


def region(name="region", column="city", levels=REGION[2], paths=REGION[3]):
    """The cube with another dimension."""
    return Cube([(name, column, levels, paths)])


def member(name):
    """A file with one leaf, which is named so in TOML."""
    return dimension(levels='["city"]', paths=f"[[{name}]]") + measure()


def one_leaf(name):
    return region(levels=["city"], paths=[[name]])


def paid(name="pay", column="pay", decimals=0):
    """The cube with another measure."""
    return Cube(measures=[(name, column, decimals, "open")])


DIMS = dimension() + measure()
LONG = "n" * 128
TOML = [
    ("a plain file", DIMS, Cube()),
    ("a byte order mark at the front", MARK + DIMS, Cube()),
    ("a byte order mark twice", MARK * 2 + DIMS, "not toml"),
    ("a byte order mark in the middle", dimension() + MARK + measure(), "not toml"),
    ("half a byte order mark", b"\xef\xbb" + DIMS.encode(), "not toml"),
    ("CR LF ends each line", DIMS.replace("\n", "\r\n"), Cube()),
    ("CR ends each line", DIMS.replace("\n", "\r"), "not toml"),
    ("CR ends the last line", DIMS[:-1] + "\r", "not toml"),
    ("CR in a comment", "# a\rb\n" + DIMS, "not toml"),
    ("no line feed at the end", DIMS[:-1], Cube()),
    ("an empty file", "", "missing dimension"),
    ("a byte order mark alone", MARK, "missing dimension"),
    ("blanks and comments alone", " \t\n# a\n\r\n", "missing dimension"),
    ("a NUL at the end", DIMS + "\0", "not toml"),
    ("a NUL in a comment", "# \0\n" + DIMS, "not toml"),
    ("bytes that are no UTF-8 in a comment", b"# \xff\n" + DIMS.encode(), "not toml"),
    ("a surrogate in a text", b'x = "\xed\xa0\x80"\n' + DIMS.encode(), "not toml"),
    ("UTF-16", DIMS.encode("utf-16"), "not toml"),
    ("JSON", '{"dimension": []}', "not toml"),
    ("CSV", "city,pay\nLyon,10\n", "not toml"),
    ("a key without a value", "x\n" + DIMS, "not toml"),
    ("a text that does not end", 'x = "a\n' + DIMS, "not toml"),
    ("two keys on a line", "x = 1 y = 2\n" + DIMS, "not toml"),
    ("a key twice", "x = 1\nx = 1\n" + DIMS, "not toml"),
    ("a key of a dimension twice", dimension(more='name = "region"\n') + measure(), "not toml"),
    ("a key twice, once in quotes", 'x = 1\n"x" = 1\n' + DIMS, "not toml"),
    ("a table twice", "[x]\n[x]\n" + DIMS, "not toml"),
    ("the dimensions as a number and as tables", "dimension = 1\n" + DIMS, "not toml"),
    ("the dimensions as an array and as tables", "dimension = []\n" + DIMS, "not toml"),
    ("an unknown key of the file", "x = [1, { y = nan }]\n" + DIMS, Cube()),
    ("an unknown key of a dimension", dimension(more="x = 1\n") + measure(), Cube()),
    ("an unknown key of a measure", DIMS + "x = 1979-05-27\n", Cube()),
    ("a known key in another case", dimension(more="NAME = 1\n") + measure(), Cube()),
    ("tables in a line", f"dimension = [{{ name = 'region', levels = ['city'], paths = [['Lyon']] }}]\n{measure()}", one_leaf("Lyon")),
    ("keys in quotes and escapes in a text", DIMS.replace("name", '"name"').replace("region", "\\u0072\\x65gion"), Cube()),
    ("a text of many lines", DIMS.replace('"region"', '"""\nre\\\n   gion"""'), Cube()),
    ("arrays 80 deep", deep("[", "", "]", 80), Cube()),
    ("arrays 81 deep", deep("[", "", "]", 81), "not toml"),
    ("arrays 10,000 deep", deep("[", "", "]", 10_000), "not toml"),
    ("a million arrays that do not end", deep("[", "", "", 1_000_000), "not toml"),
    ("tables 80 deep", deep("{ a = ", "1", "}", 80), Cube()),
    ("tables 81 deep", deep("{ a = ", "1", "}", 81), "not toml"),
    ("tables 10,000 deep", deep("{ a = ", "1", "}", 10_000), "not toml"),
    ("a key of 80 parts", "a." * 79 + "a = 1\n" + DIMS, Cube()),
    ("a key of 81 parts", "a." * 80 + "a = 1\n" + DIMS, "not toml"),
    ("a header of 10,000 parts", DIMS + "[" + "a." * 9_999 + "a]\n", "not toml"),
    ("the largest integer", "x = 9223372036854775807\n" + DIMS, Cube()),
    ("a larger integer", "x = 9223372036854775808\n" + DIMS, "not toml"),
    ("a text of a megabyte under an unknown key", f'x = "{"a" * 1_000_000}"\n' + DIMS, Cube()),
    ("a file of one byte more than the most", lambda: DIMS + "#" * (MOST_FILE + 1 - len(DIMS)), TOO_LONG),
]

DIMENSIONS = [
    ("no dimension", measure(), "missing dimension"),
    ("no dimension in an array", "dimension = []\n" + measure(), "missing dimension"),
    ("a number for the dimensions", "dimension = 1\n" + measure(), "wrong kind dimension"),
    ("a text for the dimensions", 'dimension = "region"\n' + measure(), "wrong kind dimension"),
    ("one table for the dimensions", DIMS.replace("[[dimension]]", "[dimension]"), "wrong kind dimension"),
    ("an array of numbers for the dimensions", "dimension = [1]\n" + measure(), "wrong kind dimension"),
    ("8 dimensions of 256 cuboids", smalls(8) + measure(), Cube([(f"d{n}", f"l{n}.0", [f"l{n}.0"], [[f"l{n}.0"]]) for n in range(8)])),
    ("9 dimensions", smalls(9) + measure(), "limit dimensions 8"),
    ("9 dimensions and no measure", smalls(9), "limit dimensions 8"),
    ("no measure", dimension(), "missing measure"),
    ("no measure in an array", "measure = []\n" + dimension(), "missing measure"),
    ("one table for the measures", DIMS.replace("[[measure]]", "[measure]"), "wrong kind measure"),
    ("16 measures", dimension() + measures(16), Cube(measures=[(f"m{n}", f"m{n}", 0, "open") for n in range(16)])),
    ("17 measures", dimension() + measures(17), "limit measures 16"),
    ("17 measures and a dimension without a name", dimension(None) + measures(17), "limit measures 16"),
    ("a dimension without a name", dimension(None) + measure(), "missing dimension 1 name"),
    (
        "a dimension without a name, with a number for its column",
        dimension(None, more="column = 1\n") + measure(),
        "missing dimension 1 name",
    ),
    ("a number for a name", dimension("1") + measure(), "wrong kind dimension 1 name"),
    ("a number for a column", dimension(more="column = 1\n") + measure(), "wrong kind dimension 1 column"),
    ("no levels", dimension(levels=None) + measure(), "missing dimension 1 levels"),
    ("no level in an array", dimension(levels="[]") + measure(), "missing dimension 1 levels"),
    ("a text for the levels", dimension(levels='"city"') + measure(), "wrong kind dimension 1 levels"),
    ("a number among the levels", dimension(levels='["city", 1]') + measure(), "wrong kind dimension 1 levels"),
    ("no paths", dimension(paths=None) + measure(), "missing dimension 1 paths"),
    ("no path in an array", dimension(paths="[]") + measure(), "missing dimension 1 paths"),
    ("texts for the paths", dimension(paths='["Lyon", "South"]') + measure(), "wrong kind dimension 1 paths"),
    ("a number in a path", dimension(paths='[["Lyon", 1]]') + measure(), "wrong kind dimension 1 paths"),
    ("no paths and an empty name", dimension('""', paths=None) + measure(), "missing dimension 1 paths"),
    ("an empty name", dimension('""') + measure(), "bad name dimension 1 name"),
    ("a name of 128 bytes", dimension(f'"{LONG}"') + measure(), region(LONG)),
    ("a name of 129 bytes", dimension(f'"{LONG}n"') + measure(), "bad name dimension 1 name"),
    ("a name of 64 letters of two bytes", dimension(f'"{"é" * 64}"') + measure(), region("é" * 64)),
    ("a name of 65 letters of two bytes", dimension(f'"{"é" * 65}"') + measure(), "bad name dimension 1 name"),
    ("a name of a blank", dimension('" "') + measure(), region(" ")),
    ("a name with a line feed", dimension('"re\\ngion"') + measure(), "bad name dimension 1 name"),
    ("a name with a tab", dimension('"re\tgion"') + measure(), "bad name dimension 1 name"),
    ("a name with a NUL", dimension('"re\\u0000gion"') + measure(), "bad name dimension 1 name"),
    ("a name with a delete byte", dimension('"re\\x7Fgion"') + measure(), "bad name dimension 1 name"),
    ("a name with a control past ASCII", dimension('"re\\u0085gion"') + measure(), region("re\x85gion")),
    ("a name with a mark at its front", dimension(f'"{MARK}region"') + measure(), "bad name dimension 1 name"),
    ("a name with a mark in its middle", dimension(f'"re{MARK}gion"') + measure(), region(f"re{MARK}gion")),
    ("a name with quotes and backslashes", dimension("'a\"b\\c'") + measure(), region('a"b\\c')),
    ("an empty column", dimension(more='column = ""\n') + measure(), "bad name dimension 1 column"),
    ("a column with a comma and a quote", dimension(more="column = 'a,\"b'\n") + measure(), region(column='a,"b')),
    ("an empty level that names the column", dimension(levels='["", "area"]') + measure(), "bad name dimension 1 column"),
    (
        "an empty level beside a column",
        dimension(levels='["", "area"]', more='column = "a"\n') + measure(),
        "bad name dimension 1 levels 1",
    ),
    ("a level of 129 bytes", dimension(levels=f'["city", "{LONG}n"]') + measure(), "bad name dimension 1 levels 2"),
    ("a level that is named all", dimension(levels='["all", "area"]') + measure(), "bad name dimension 1 levels 1"),
    ("a level that is named ALL", dimension(levels='["city", "ALL"]') + measure(), region(levels=["city", "ALL"])),
    (
        "a dimension, a column and members that are named all",
        dimension('"all"', paths='[["all", "all"]]', more='column = "all"\n') + measure(),
        region("all", "all", paths=[["all", "all"]]),
    ),
    ("a level twice", dimension(levels='["city", "city"]') + measure(), "name twice dimension 1 levels 2"),
    ("a dimension twice", dimension() * 2 + measure(), "name twice dimension 2 name"),
    ("a column twice", dimension() + dimension('"place"') + measure(), "name twice dimension 2 column"),
    (
        "a level in two dimensions",
        dimension() + dimension('"place"', more='column = "at"\n') + measure(),
        Cube([REGION, ("place", "at", *REGION[2:])]),
    ),
    ("an empty level and a level twice", dimension(levels='["city", "city", ""]') + measure(), "bad name dimension 1 levels 3"),
    ("5 levels", small(0, 5) + measure(), Cube([("d0", "l0.0", [f"l0.{n}" for n in range(5)], [[f"l0.{n}" for n in range(5)]])])),
    ("6 levels", small(0, 6) + measure(), "limit levels 5"),
    ("as many leaves as are allowed", leaves(MOST_LEAVES), region(levels=["city"], paths=[[str(leaf)] for leaf in range(MOST_LEAVES)])),
    ("one leaf more", leaves(MOST_LEAVES + 1), "limit leaves 65536"),
    ("one leaf more, and the first twice", leaves(MOST_LEAVES + 1).replace('["1"]', '["0"]'), "limit leaves 65536"),
    ("a path that is too short", dimension(paths='[["Lyon", "South"], ["Nice"]]') + measure(), "uneven dimension 1 paths 2"),
    ("a path that is too long", dimension(paths='[["Lyon", "South", "France"]]') + measure(), "uneven dimension 1 paths 1"),
    ("an empty path", dimension(paths='[["Lyon", "South"], []]') + measure(), "uneven dimension 1 paths 2"),
    ("a path that is too short, of an empty name", dimension(paths='[[""]]') + measure(), "uneven dimension 1 paths 1"),
    ("an empty member", member('""'), "bad name dimension 1 paths 1"),
    ("a member of 128 bytes", member(f'"{LONG}"'), one_leaf(LONG)),
    ("a member of 129 bytes", member(f'"{LONG}n"'), "bad name dimension 1 paths 1"),
    ("a member with a quote", member("'Ly\"on'"), one_leaf('Ly"on')),
    ("a member with a comma", member('"Ly,on"'), one_leaf("Ly,on")),
    ("a member with a line feed", member('"Ly\\non"'), "bad name dimension 1 paths 1"),
    ("a member with a CR", member('"Ly\\ron"'), "bad name dimension 1 paths 1"),
    ("a member with a mark at its front", member(f'"{MARK}Lyon"'), "bad name dimension 1 paths 1"),
    ("a leaf twice", dimension(paths='[["Lyon", "South"], ["Lyon", "South"]]') + measure(), "leaf twice dimension 1 paths 2"),
    (
        "a leaf twice, with two parents",
        dimension(paths='[["Lyon", "South"], ["Lyon", "North"]]') + measure(),
        "leaf twice dimension 1 paths 2",
    ),
    (
        "a member with two parents",
        dimension(levels='["a", "b", "c"]', paths='[["1", "2", "3"], ["4", "5", "6"], ["7", "2", "6"]]') + measure(),
        "two parents dimension 1 paths 3",
    ),
    ("a leaf with the name of its parent", dimension(paths='[["Lyon", "Lyon"]]') + measure(), region(paths=[["Lyon", "Lyon"]])),
    ("384 cuboids", smalls(7) + small(7, 2) + measure(), "limit cuboids 256"),
    ("384 cuboids and a measure without a name", smalls(7) + small(7, 2) + measure(None), "limit cuboids 256"),
    ("a bad path and a bad second dimension", dimension(paths="[[]]") + dimension('""') + measure(), "uneven dimension 1 paths 1"),
]

MEASURES = [
    ("a measure without a name", dimension() + measure(None), "missing measure 1 name"),
    ("a number for a name", dimension() + measure("1"), "wrong kind measure 1 name"),
    ("a number for a column", dimension() + measure(more="column = 1\n"), "wrong kind measure 1 column"),
    ("a text for the decimals", dimension() + measure(more='decimals = "2"\n'), "wrong kind measure 1 decimals"),
    ("a float for the decimals", dimension() + measure(more="decimals = 2.0\n"), "wrong kind measure 1 decimals"),
    ("an empty name and a text for the decimals", dimension() + measure('""', 'decimals = "2"\n'), "wrong kind measure 1 decimals"),
    ("an empty name", dimension() + measure('""'), "bad name measure 1 name"),
    ("an empty name beside a column", dimension() + measure('""', 'column = "pay"\n'), "bad name measure 1 name"),
    ("an empty column", dimension() + measure(more='column = ""\n'), "bad name measure 1 column"),
    ("a measure that is named count", dimension() + measure('"count"'), "bad name measure 1 name"),
    ("a measure that is named COUNT", dimension() + measure('"COUNT"'), paid("COUNT", "COUNT")),
    ("a column that is named count", dimension() + measure(more='column = "count"\n'), paid(column="count")),
    ("a measure that is named all", dimension() + measure('"all"'), paid("all", "all")),
    ("a measure with the name of a dimension", dimension() + measure('"region"'), paid("region", "region")),
    ("a measure of 128 bytes", dimension() + measure(f'"{LONG}"'), paid(LONG, LONG)),
    ("a measure of 129 bytes", dimension() + measure(f'"{LONG}n"'), "bad name measure 1 name"),
    ("a measure twice", dimension() + measure() * 2, "name twice measure 2 name"),
    ("the column of a dimension", dimension() + measure('"city"'), "name twice measure 1 column"),
    ("the column of a measure", dimension() + measure() + measure('"hours"', 'column = "pay"\n'), "name twice measure 2 column"),
    ("6 decimals", dimension() + measure(more="decimals = 6\n"), paid(decimals=6)),
    ("7 decimals", dimension() + measure(more="decimals = 7\n"), "limit decimals 6"),
    ("-1 decimals", dimension() + measure(more="decimals = -1\n"), "limit decimals 6"),
    ("-0 decimals", dimension() + measure(more="decimals = -0\n"), Cube()),
    ("0x2 decimals", dimension() + measure(more="decimals = 0x2\n"), paid(decimals=2)),
    ("7 decimals and the column of a dimension", dimension() + measure('"city"', "decimals = 7\n"), "name twice measure 1 column"),
]
