"""Dimension files, with the words of the first fault of each, by docs/FORMATS.md ("Dimension file"); `accepted` where it has none.

The rows of a table are files, or lines of them; the function beside the table in CASES makes the file.
"""

from small import GRID, PAY


def whole(file):
    return file


TABLES = (
    ("", "missing dimension"),
    (b"\xff", "not toml"),
    ("[[dimension]]\nname =", "not toml"),
    ('[[measure]]\nname = "v"', "missing dimension"),
    ("dimension = []", "missing dimension"),
    ("dimension = 1", "wrong kind dimension"),
    ("dimension = [{}, 1]", "wrong kind dimension"),
    (f"dimension = [{', '.join(['{}'] * 9)}]", "limit dimensions 8"),
    ("dimension = [{}]", "missing measure"),
    ("dimension = [{}]\nmeasure = []", "missing measure"),
    ('dimension = [{}]\nmeasure = "v"', "wrong kind measure"),
    (f"dimension = [{{}}]\nmeasure = [{', '.join(['{}'] * 17)}]", "limit measures 16"),
    ("dimension = [{}]\nmeasure = [{}]", "missing dimension 1 name"),
    # what is no array of tables, as a table of texts and an array of texts
    ('dimension = {b = "2", a = "1"}', "wrong kind dimension"),
    ('dimension = ["a", "b"]', "wrong kind dimension"),
)


def behind(lines):
    """A file with an accepted dimension, one of these lines behind it, and a measure."""
    return f'''[[dimension]]
name = "first"
levels = ["one"]
paths = [["x"]]
[[dimension]]
{lines}
[[measure]]
name = "v"
'''


KINDS = (
    ("name = 1", "wrong kind dimension 2 name"),
    ("name = []", "wrong kind dimension 2 name"),
    ('name = "d"\ncolumn = 1', "wrong kind dimension 2 column"),
    ('name = "d"', "missing dimension 2 levels"),
    ('name = "d"\nlevels = []', "missing dimension 2 levels"),
    ('name = "d"\nlevels = "a"', "wrong kind dimension 2 levels"),
    ('name = "d"\nlevels = ["a", ["b"]]', "wrong kind dimension 2 levels"),
    ('name = "d"\nlevels = ["a"]', "missing dimension 2 paths"),
    ('name = "d"\nlevels = ["a"]\npaths = []', "missing dimension 2 paths"),
    ('name = "d"\nlevels = ["a"]\npaths = {}', "wrong kind dimension 2 paths"),
    ('name = "d"\nlevels = ["a"]\npaths = ["x"]', "wrong kind dimension 2 paths"),
    ('name = "d"\nlevels = ["a"]\npaths = [["x"], [1]]', "wrong kind dimension 2 paths"),
    ('name = ""\nlevels = ["a"]\npaths = 1', "wrong kind dimension 2 paths"),
    ('name = "d"\nmore = 1\nlevels = ["a"]\npaths = [["x"]]', "accepted"),
    # what is no array of texts, and no array of arrays of texts
    ('name = "d"\nlevels = ["a", 1]', "wrong kind dimension 2 levels"),
    ('name = "d"\nlevels = {b = "2", a = "1"}', "wrong kind dimension 2 levels"),
    ('name = "d"\nlevels = ["a"]\npaths = {b = "2", a = "1"}', "wrong kind dimension 2 paths"),
    ('name = "d"\nlevels = ["a"]\npaths = ["a", "b"]', "wrong kind dimension 2 paths"),
    ('name = "d"\nlevels = ["a"]\npaths = [["a"], []]', "uneven dimension 2 paths 2"),
)

NAMES = (
    ('name = ""\nlevels = ["a"]\npaths = [["x"]]', "bad name dimension 2 name"),
    ('name = "d\\u0001"\nlevels = ["a"]\npaths = [["x"]]', "bad name dimension 2 name"),
    ('name = "d\\u007F"\nlevels = ["a"]\npaths = [["x"]]', "bad name dimension 2 name"),
    ('name = "\\uFEFFd"\nlevels = ["a"]\npaths = [["x"]]', "bad name dimension 2 name"),
    ('name = "d\\uFEFF"\nlevels = ["a"]\npaths = [["x"]]', "accepted"),
    (f'name = "{"n" * 128}"\nlevels = ["a"]\npaths = [["x"]]', "accepted"),
    (f'name = "{"n" * 129}"\nlevels = ["a"]\npaths = [["x"]]', "bad name dimension 2 name"),
    ('name = "d"\ncolumn = ""\nlevels = ["a"]\npaths = [["x"]]', "bad name dimension 2 column"),
    ('name = "d"\nlevels = [""]\npaths = [["x"]]', "bad name dimension 2 column"),
    ('name = "d"\ncolumn = "c"\nlevels = [""]\npaths = [["x"]]', "bad name dimension 2 levels 1"),
    ('name = "first"\nlevels = ["a", "all"]\npaths = [["x"]]', "bad name dimension 2 levels 2"),
    ('name = "all"\ncolumn = "count"\nlevels = ["count"]\npaths = [["all"]]', "accepted"),
    ('name = "first"\nlevels = ["one"]\npaths = [["x"]]', "name twice dimension 2 name"),
    ('name = "d"\nlevels = ["one", "one"]\npaths = [["x"]]', "name twice dimension 2 column"),
    ('name = "d"\nlevels = ["a", "b", "a"]\npaths = [["x"]]', "name twice dimension 2 levels 3"),
    ('name = "d"\nlevels = ["a", "b", "c", "d", "e"]\npaths = [["x", "x", "x", "x", "x"]]', "accepted"),
    ('name = "d"\nlevels = ["a", "b", "c", "d", "e", "f"]\npaths = [[]]', "limit levels 5"),
)


def with_paths(paths):
    return behind(f'name = "d"\nlevels = ["a", "b", "c"]\npaths = {paths}')


PATHS = (
    ('[["x", "y"]]', "uneven dimension 2 paths 1"),
    ('[["x", "y", "z"], []]', "uneven dimension 2 paths 2"),
    ('[["x", "y", "z", ""]]', "uneven dimension 2 paths 1"),
    ('[["x", "y", ""]]', "bad name dimension 2 paths 1"),
    ('[["x", "y", "z"], ["x", "y", ""]]', "bad name dimension 2 paths 2"),
    ('[["x", "y", "z"], ["x", "y", "z"]]', "leaf twice dimension 2 paths 2"),
    ('[["x", "y", "z"], ["x", "y", "other"]]', "leaf twice dimension 2 paths 2"),
    ('[["x", "y", "z"], ["w", "y", "other"]]', "two parents dimension 2 paths 2"),
    ('[["x", "y", "z"], ["w", "v", "u"], ["t", "v", "u"], ["s", "v", "z"]]', "two parents dimension 2 paths 4"),
    ('[["x", "y", "z"], ["y", "x", "z"], ["z", "z", "z"]]', "accepted"),
    ('[["x", "y", "z"], ["w", "y", "u"], []]', "two parents dimension 2 paths 2"),
    ('[["x", "y", "z"], [], ["w", "y", "u"]]', "uneven dimension 2 paths 2"),
    ('[["x", "y", "z"], ["w", "y", "z"], ["v", "t", "z"]]', "accepted"),
    ('[["x", "y", "z"], ["w", "v", "z"], ["u", "v", "s"]]', "two parents dimension 2 paths 3"),
)


def with_measure(lines):
    """A file with a dimension, an accepted measure, and one of these lines behind it."""
    return f'''[[dimension]]
name = "d"
levels = ["a"]
paths = [["x"]]
[[measure]]
name = "v"
[[measure]]
{lines}'''


MEASURES = (
    ("", "missing measure 2 name"),
    ("name = 1", "wrong kind measure 2 name"),
    ('name = "w"\ncolumn = []', "wrong kind measure 2 column"),
    ('name = "w"\ndecimals = "2"', "wrong kind measure 2 decimals"),
    ('name = "w"\ndecimals = 2.0', "wrong kind measure 2 decimals"),
    ('name = ""\ndecimals = 7', "bad name measure 2 name"),
    ('name = "count"', "bad name measure 2 name"),
    ('name = "w"\ncolumn = ""', "bad name measure 2 column"),
    ('name = "w"\ncolumn = "count"', "accepted"),
    ('name = "v"', "name twice measure 2 name"),
    ('name = "w"\ncolumn = "v"', "name twice measure 2 column"),
    ('name = "w"\ncolumn = "a"', "name twice measure 2 column"),
    ('name = "a"', "name twice measure 2 column"),
    ('name = "d"', "accepted"),
    ('name = "w"\ndecimals = 0', "accepted"),
    ('name = "w"\ndecimals = 6', "accepted"),
    ('name = "w"\ndecimals = 7', "limit decimals 6"),
    ('name = "w"\ndecimals = -1', "limit decimals 6"),
)


def with_cuboids(depths, measures):
    """A file whose dimensions have so many levels each and one leaf, and with measures of these names."""
    dimensions = []
    for place, depth in enumerate(depths):
        levels = [f"l{place}-{level}" for level in range(depth)]
        dimensions.append(f"{{name = 'd{place}', levels = {levels}, paths = {[['x'] * depth]}}}")
    names = [f"{{name = '{name}'}}" for name in measures]
    return f"dimension = [{', '.join(dimensions)}]\nmeasure = [{', '.join(names)}]"


CUBOIDS = (
    (with_cuboids([1] * 8, range(1, 17)), "accepted"),
    (with_cuboids([5, 5, 5, 1], [""]), "limit cuboids 256"),
)


def with_leaves(count):
    """A file with so many leaves, seven below each member."""
    paths = "".join(f"['{leaf}','{leaf // 7}']," for leaf in range(count))
    return behind(f'name = "d"\nlevels = ["a", "b"]\npaths = [{paths}]')


LEAVES = (
    (65_536, "accepted"),
    (65_537, "limit leaves 65536"),
)


def with_last(lines):
    """A file with a dimension and eleven measures, and these lines of the twelfth."""
    measures = "".join(f'[[measure]]\nname = "v{number}"\n' for number in range(11))
    return f'[[dimension]]\nname = "d"\nlevels = ["a"]\npaths = [["x"]]\n{measures}[[measure]]\n{lines}\n'


LAST = (
    ("", "missing measure 12 name"),
    ("name = 1", "wrong kind measure 12 name"),
    ('name = "w"', "accepted"),
)

# What a table is about, what makes a file of a row, and the rows.
CASES = (
    ("tables have to be there", whole, TABLES),
    ("dimensions have kinds", behind, KINDS),
    ("dimensions have names", behind, NAMES),
    ("paths agree", with_paths, PATHS),
    ("measures have kinds and names", with_measure, MEASURES),
    ("cuboids are at most 256", whole, CUBOIDS),
    ("leaves are at most 65536", with_leaves, LEAVES),
    ("entries are counted from 1", with_last, LAST),
)

# ---- what is read

REGION = '{"levels":["city","area"],"name":"region","paths":[["Lyon","South"],["Nice","South"],["Paris","North"]]}'
TIME = '{"levels":["month","quarter"],"name":"time","paths":[["Jan","Q1"],["Feb","Q1"]]}'
METHODS = '[{"decimals":0,"method":"lattice","name":"pay"},{"decimals":0,"method":"parity","name":"hours"}]'
ROWS = '{"levels":["r"],"name":"row","paths":[["r0"],["r1"]]},{"levels":["c"],"name":"col","paths":[["c0"],["c1"],["c2"]]}'

# A cube, a line of `ask`, and the status and the body of its reply.
READ = (
    (PAY, "shape", 200, f'{{"dimensions":[{REGION},{TIME}],"facts":5,"measures":{METHODS},"points":5}}'),
    (
        {**PAY, "facts": PAY["facts"].replace("Paris,Feb,50,5\n", "Paris,Feb,20,2\nParis,Feb,30,3\n")},
        "shape", 200, f'{{"dimensions":[{REGION},{TIME}],"facts":6,"measures":{METHODS},"points":5}}',
    ),
    # members have the numbers in which they first appear, so North stands behind South, and Paris last
    (PAY, "slice count by region.city", 200, "region.city,count\nLyon,2\nNice,1\nParis,2\n"),
    (PAY, "slice count by region.area", 200, "region.area,count\nSouth,3\nNorth,2\n"),
    (PAY, "slice count by time.quarter", 200, "time.quarter,count\nQ1,5\n"),
    (PAY, "cell count region.area=North", 200, "count\n2\n"),
    (PAY, "cell count region.city=Paris", 200, "count\n2\n"),
    (PAY, "cell count region.city=North", 404, "unknown member at byte 23\n"),
    (PAY, "slice count by region.all", 404, "unknown level at byte 22\n"),
    (PAY, "slice count by city.city", 404, "unknown dimension at byte 15\n"),
    (PAY, "cell pay", 200, "pay\n150\n"),
    (GRID, "shape", 200, f'{{"dimensions":[{ROWS}],"facts":3,"measures":[{{"decimals":0,"method":"parity","name":"v"}}],"points":3}}'),
    (GRID, "slice count by col.c", 200, "col.c,count\nc0,1\nc1,1\nc2,1\n"),
    (GRID, "cell count col.c=c2", 200, "count\n1\n"),
)
