"""Fact files under DIMS of dims.py, and what `cube check` says of them, by docs/FORMATS.md ("Fact file").

A row has a name, a file, and what is expected: the cube that the file makes (cubes.py), or the words of its first fault. A
file is a text, its bytes, or, where it is large, a function that makes it.
"""

from cubes import Cube
from dims import dimension, measure, numbered
from limits import HEADER, LARGEST, MARK, MOST_FACTS, MOST_FILE, MOST_POINTS, TOO_LONG


def facts(text, lyon=0, nice=0, paris=0):
    """A file, and how many facts it has in each city."""
    counts = {(number,): count for number, count in enumerate((lyon, nice, paris)) if count}
    return text, Cube(facts=counts)


def field(value):
    """A fact of a third column, of which nothing is known."""
    return facts("city,pay,note\nLyon,1," + value + "\nNice,1,a\n", 1, 1)


FACTS = HEADER + "Lyon,10\nLyon,20\nNice,30\nParis,40\n"
TEXTS = [
    ("a plain file", *facts(FACTS, 2, 1, 1)),
    ("a byte order mark at the front", *facts(MARK + FACTS, 2, 1, 1)),
    ("a byte order mark twice", MARK * 2 + FACTS, "no header"),
    ("a byte order mark three times", MARK * 3 + FACTS, "no header"),
    ("a byte order mark alone", MARK, "no header"),
    ("two byte order marks alone", MARK * 2, "no header"),
    ("a byte order mark before a header in quotes", *facts(MARK + '"city","pay"\nLyon,1\n', 1)),
    ("a byte order mark in quotes", f'"{MARK}city",pay\nLyon,1\n', "missing column city"),
    ("a byte order mark before the second column", f"city,{MARK}pay\nLyon,1\n", "missing column pay"),
    ("a byte order mark before a record", HEADER + MARK + "Lyon,1\n", "row 1 column city: unknown member"),
    ("a byte order mark behind a line end", "\n" + MARK + FACTS, "missing column city"),
    ("half a byte order mark", b"\xef\xbb" + FACTS.encode(), "missing column city"),
    ("UTF-16", FACTS.encode("utf-16"), "missing column city"),
    ("CR LF ends each line", *facts(FACTS.replace("\n", "\r\n"), 2, 1, 1)),
    ("CR ends each line", *facts(FACTS.replace("\n", "\r"), 2, 1, 1)),
    ("LF CR ends each line", *facts(FACTS.replace("\n", "\n\r"), 2, 1, 1)),
    ("each end ends a line", *facts("city,pay\r\nLyon,1\nNice,1\rParis,1\r\n", 1, 1, 1)),
    ("empty lines", *facts("\n\r\n\r" + FACTS.replace("\n", "\n\n\r\r\n"), 2, 1, 1)),
    ("no line feed at the end", *facts(FACTS[:-1], 2, 1, 1)),
    ("CR at the end", *facts(FACTS[:-1] + "\r", 2, 1, 1)),
    ("an empty file", "", "no header"),
    ("line ends alone", "\r\n\n\r", "no header"),
    ("a header alone", *facts(HEADER)),
    ("a header alone, without a line feed", *facts(HEADER[:-1])),
    ("a blank alone", " ", "missing column city"),
    ("a line of blanks", HEADER + "Lyon,1\n \nNice,1\n", "row 2 fields"),
    ("a line that would be a comment", HEADER + "#\nLyon,1\n", "row 1 fields"),
    ("semicolons between fields", FACTS.replace(",", ";"), "missing column city"),
    ("tabs between fields", FACTS.replace(",", "\t"), "missing column city"),
    ("a blank behind a comma of the header", "city, pay\nLyon,1\n", "missing column pay"),
    ("a blank behind a comma", HEADER + "Lyon, 1\n", "row 1 column pay: not a number"),
    ("a quote that does not close", HEADER + 'Lyon,1\n"Nice,1\nParis,1\n', "row 2 fields"),
    ("a quote that does not close in the header", 'city,"pay\nLyon,1\n', "missing column pay"),
    ("a quote that the end closes", *facts(HEADER + 'Lyon,"1', 1)),
    ("a quote that takes the last line feed", HEADER + 'Lyon,"1\n', "row 1 column pay: not a number"),
    ("a quote alone at the end", HEADER + 'Lyon,1\n"', "row 2 fields"),
    ("a quote in the middle of a field", HEADER + 'Ly"on,1\n', "row 1 column city: unknown member"),
    ("two quotes in the middle of a field", HEADER + 'Ly""on,1\n', "row 1 column city: unknown member"),
    ("a quote behind a blank", HEADER + ' "Lyon",1\n', "row 1 column city: unknown member"),
    ("a blank behind a quote", HEADER + '"Lyon" ,1\n', "row 1 column city: unknown member"),
    ("a field in quotes", *facts(HEADER + '"Lyon","1"\n', 1)),
    ("letters behind a quote join the field", *facts(HEADER + '"Ly"on,""1\n', 1)),
    ("a quote behind a closed quote and a letter", HEADER + '"Ly"o"n",1\n', "row 1 column city: unknown member"),
    ("a doubled quote in quotes", HEADER + '"Ly""on",1\n', "row 1 column city: unknown member"),
    ("a backslash before a quote in quotes", HEADER + '"Lyon\\",1\n', "row 1 column city: unknown member"),
    ("single quotes", HEADER + "'Lyon',1\n", "row 1 column city: unknown member"),
    ("line ends in quotes", *field('"a\r\n\nb"')),
    ("commas and quotes in quotes", *field('",,"""')),
    ("a NUL", *field("\0")),
    ("control bytes", *field("\x01\x1b\x7f")),
    ("bytes that are no UTF-8", b"city,pay,n\xff\nLyon,1,\xff\xfe\n", Cube(facts={(0,): 1})),
    ("a field of a megabyte", *field("a" * 1_000_000)),
    ("a field of a megabyte in quotes", *field('"' + "a,\n" * 333_333 + '"')),
    ("a member of a megabyte", HEADER + "L" * 1_000_000 + ",1\n", "row 1 column city: unknown member"),
    ("a number of a megabyte", *facts(HEADER + "Lyon," + "0" * 1_000_000 + "1\n", 1)),
    ("a number of a megabyte that is too large", HEADER + "Lyon," + "9" * 1_000_000 + "\n", "row 1 column pay: too large"),
    ("a column name of a megabyte", *facts("n" * 1_000_000 + ",city,pay\na,Lyon,1\n", 1)),
    ("10,000 columns", *facts(HEADER[:-1] + ",a" * 10_000 + "\nLyon,1" + ",a" * 10_000 + "\n", 1)),
]

COLUMNS = [
    ("other columns in another order", *facts("a,pay,b,city,c\n1,10,2,Lyon,3\n", 1)),
    ("one column of another name", "a\n1\n", "missing column city"),
    ("no column of a dimension", "pay\n1\n", "missing column city"),
    ("no column of a measure", "city\nLyon\n", "missing column pay"),
    ("a column in another case", "City,pay\nLyon,1\n", "missing column city"),
    ("an empty column", *facts("city,pay,\nLyon,1,\n", 1)),
    ("a column of a dimension twice", "city,pay,city\nLyon,1,Lyon\n", "column city twice"),
    ("a column of a measure twice", "pay,city,pay\n1,Lyon,1\n", "column pay twice"),
    ("another column twice", *facts("city,pay,a,a\nLyon,1,1,2\n", 1)),
    ("no column of a dimension, and one of a measure twice", "pay,pay\n1,1\n", "missing column city"),
    ("a column of a dimension twice, and none of a measure", "city,city\nLyon,Lyon\n", "column city twice"),
    ("a column twice, and a bad record", "city,pay,pay\nRome\n", "column pay twice"),
    ("a field too few", HEADER + "Lyon,1\nLyon\n", "row 2 fields"),
    ("a field too many", HEADER + "Lyon,1\nLyon,1,1\n", "row 2 fields"),
    ("a comma at the end", HEADER + "Lyon,1,\n", "row 1 fields"),
    ("a field too few and a member that is unknown", HEADER + "Rome\n", "row 1 fields"),
    ("empty lines are no rows", HEADER + "\n\nLyon,1\n\n\nRome,1\n", "row 2 column city: unknown member"),
    ("a record of many lines is one row", 'city,pay,a\nLyon,1,"\n\n\n"\nRome,1,a\n', "row 2 column city: unknown member"),
    ("a member that is unknown", HEADER + "Rome,1\n", "row 1 column city: unknown member"),
    ("a member of an upper level", HEADER + "South,1\n", "row 1 column city: unknown member"),
    ("a member in another case", HEADER + "lyon,1\n", "row 1 column city: unknown member"),
    ("a member with a blank", HEADER + "Lyon ,1\n", "row 1 column city: unknown member"),
    ("a member with a NUL", HEADER + "Lyon\0,1\n", "row 1 column city: unknown member"),
    ("an empty member", HEADER + ",1\n", "row 1 column city: unknown member"),
    ("a member that is unknown, and no number", HEADER + "Rome,x\n", "row 1 column city: unknown member"),
    ("no number, and a member that is unknown", "pay,city\nx,Rome\n", "row 1 column pay: not a number"),
    ("a bad field, and a bad record before it", HEADER + "Lyon,x\nRome\n", "row 1 column pay: not a number"),
    ("an empty number", HEADER + "Lyon,\n", "row 1 column pay: not a number"),
    ("facts that add up to 0", *facts(HEADER + "Lyon,5\nLyon,-5\n", 2)),
]

# members whose names need quotes, as fields
ODD_DIMS = dimension(levels='["city"]', paths="""[['Ly"on'], ["Ni,ce"], ["#"], [" "], ["Paris "]]""") + measure()
ODD_CUBE = [("region", "city", ["city"], [['Ly"on'], ["Ni,ce"], ["#"], [" "], ["Paris "]])]
ODD_MEMBERS = [
    ("a member with a quote, in quotes", HEADER + '"Ly""on",1\n', Cube(ODD_CUBE, facts={(0,): 1})),
    ("a member with a quote, without quotes", HEADER + 'Ly"on,1\n', Cube(ODD_CUBE, facts={(0,): 1})),
    ("a member with a comma, in quotes", HEADER + '"Ni,ce",1\n', Cube(ODD_CUBE, facts={(1,): 1})),
    ("a member with a comma, without quotes", HEADER + "Ni,ce,1\n", "row 1 fields"),
    ("a member that would begin a comment", HEADER + "#,1\n", Cube(ODD_CUBE, facts={(2,): 1})),
    ("a member of a blank", HEADER + " ,1\n", Cube(ODD_CUBE, facts={(3,): 1})),
    ("a member of two blanks", HEADER + "  ,1\n", "row 1 column city: unknown member"),
    ("a member that ends with a blank", HEADER + "Paris ,1\n", Cube(ODD_CUBE, facts={(4,): 1})),
    ("a member without its blank", HEADER + "Paris,1\n", "row 1 column city: unknown member"),
]

# a grid of leaves, for many points
SIDE = 300
GRID_DIMS = "".join(dimension(f'"{name}"', f'["{name}"]', numbered(SIDE)) for name in "ab") + measure()
GRID_CUBE = [(name, name, [name], [[str(number)] for number in range(SIDE)]) for name in "ab"]
POINTS = [divmod(number, SIDE) for number in range(MOST_POINTS + 1)]


def grid(points, more=""):
    return "a,b,pay\n" + "".join(f"{a},{b},1\n" for a, b in points) + more


MANY_POINTS = [
    ("as many points as are allowed", grid(POINTS[:-1]), Cube(GRID_CUBE, facts=dict.fromkeys(POINTS[:-1], 1))),
    (
        "as many points as are allowed, each twice",
        grid(POINTS[:-1] + POINTS[-2::-1]),
        Cube(GRID_CUBE, facts=dict.fromkeys(POINTS[:-1], 2)),
    ),
    ("one point more", grid(POINTS), "limit points 65536"),
    ("one point more, backwards", grid(POINTS[::-1]), "limit points 65536"),
    ("one point more, and no number", grid(POINTS[:-1], "299,299,x\n"), "row 65537 column pay: not a number"),
    ("one point more, and no number behind it", grid(POINTS, "0,0,x\n"), "limit points 65536"),
]

MANY_FACTS = [
    ("as many facts as are allowed, of the largest value", lambda: HEADER + LARGEST * MOST_FACTS, Cube(facts={(0,): MOST_FACTS})),
    ("one fact more", lambda: HEADER + "Lyon,1\n" * MOST_FACTS + "Lyon,1\n", f"limit facts {MOST_FACTS}"),
    ("one fact more, of a field", lambda: HEADER + "Lyon,1\n" * MOST_FACTS + "Lyon\n", f"limit facts {MOST_FACTS}"),
    ("a bad fact at the end", lambda: HEADER + "Lyon,1\n" * (MOST_FACTS - 1) + "Lyon\n", f"row {MOST_FACTS} fields"),
    ("a file of the most bytes", lambda: HEADER + "Lyon,1\n" + "\n" * (MOST_FILE - 16), Cube(facts={(0,): 1})),
    ("a file of one byte more", lambda: HEADER + "Lyon,1\n" + "\n" * (MOST_FILE - 15), TOO_LONG),
]
