"""Queries, their faults, and the texts by which journals have them; and names in texts. By docs/FORMATS.md ("Query language", "Names in texts")."""

# A line, and the status and the body of its reply.
FAULTS = (
    ("", 400, "syntax at byte 0\n"),
    (" \t", 400, "syntax at byte 2\n"),
    ("cel pay", 400, "syntax at byte 3\n"),
    ("CELL pay", 400, "syntax at byte 0\n"),
    ("cell", 400, "syntax at byte 4\n"),
    ("cell pay,", 400, "syntax at byte 8\n"),
    ("cell pay region.city==Lyon", 400, "syntax at byte 21\n"),
    ('cell "pay', 400, "syntax at byte 9\n"),
    ('cell "a\\b"', 400, "syntax at byte 8\n"),
    ('cell "a\x1f"', 400, "syntax at byte 7\n"),
    ('cell "\x7f"', 400, "syntax at byte 6\n"),
    ("slice pay by time.month whereabouts", 400, "syntax at byte 29\n"),
    ('slice pay by "time"."month"where', 400, "syntax at byte 27\n"),
    (b'cell "\xff"', 404, "unknown measure at byte 5\n"),
    ('cell ""', 404, "unknown measure at byte 5\n"),
    ("cell wage region.town=Rome", 404, "unknown measure at byte 5\n"),
    ("slice pay by place.city", 404, "unknown dimension at byte 13\n"),
    ("slice pay by region.town", 404, "unknown level at byte 20\n"),
    ("slice pay by region.all", 404, "unknown level at byte 20\n"),
    ("cell pay region.town=Rome", 404, "unknown level at byte 16\n"),
    ("cell pay region.city=Rome", 404, "unknown member at byte 21\n"),
    (b'cell pay region.city="\xff"', 404, "unknown member at byte 21\n"),
    ("range hours time.month=Feb..Jan", 400, "backwards at byte 23\n"),
    ("slice pay by time.month, time.quarter", 400, "dimension twice at byte 25\n"),
    ("cell pay time.month=Jan, time.month=Feb", 400, "dimension twice at byte 25\n"),
    # long lines
    (" " * 65_536, 400, "syntax at byte 65536\n"),
    ("cell " + "x" * 65_000, 404, "unknown measure at byte 5\n"),
    ('cell "' + " " * 65_000, 400, "syntax at byte 65006\n"),
)

COUNTED = (
    ("cell count", 200, "count\n6\n"),
    ('cell "count" ', 200, "count\n6\n"),
)

# A cube in which nothing is protected: the one object is where no fact is.
UNGUARDED = {
    "dims": """[[dimension]]
name = "region"
levels = ["city", "area"]
paths = [["Lyon", "South"], ["Nice", "South"], ["Paris", "North"], ["Lille", "North"]]
[[dimension]]
name = "time"
levels = ["month", "quarter"]
paths = [["Jan", "Q1"], ["Feb", "Q1"]]
[[measure]]
name = "pay"
decimals = 2
[[measure]]
name = "hours"
""",
    "facts": "city,month,pay,hours\nLyon,Jan,10,1\nLyon,Feb,20,2\nNice,Jan,30,3\nNice,Feb,35,3\nParis,Jan,40,4\nParis,Feb,50,5\n",
    "policy": """measure = [{name = "pay", method = "lattice"}, {name = "hours", method = "parity"}]
object = [{measure = "hours", below = {region = "city", time = "month"}, slice = {region = {level = "city", members = ["Lille"]}}}]
""",
}

# A query, and the text by which the journal has it.
PRINTED = (
    ("slice pay by region.area where time.month=Jan", "slice pay by region.area where time.month=Jan"),
    ("\tslice  pay\tby time.month ,region.area ", "slice pay by region.area, time.month"),
    ("slice pay by time.month where time.month=Jan", "slice pay by time.month where time.month=Jan"),
    ('cell pay time.month = Jan,region.city="Lyon"', "cell pay region.city=Lyon, time.month=Jan"),
    ("range hours time.month=Jan..Jan", "cell hours time.month=Jan"),
    ("range hours region.city=Lyon .. Nice", "range hours region.city=Lyon..Nice"),
    ("range hours time.month=Jan..Feb, region.city=Nice..Nice", "range hours region.city=Nice..Nice, time.month=Jan..Feb"),
)

# A cube whose names are words of the language, or need quotes.
ODD = {
    "dims": """[[dimension]]
name = "by"
levels = ["where"]
paths = [["cell"], ["a b"], ["q\\"\\\\"], ["\\u00e9"]]
[[measure]]
name = "slice"
""",
    "facts": 'where,slice\ncell,1\na b,2\n"q""\\",3\né,4\n',
    "policy": '[[measure]]\nname = "slice"\nmethod = "lattice"\n',
}
QUOTED = (
    ("slice slice by by.where", "slice slice by by.where"),
    ('cell slice by.where="cell"', "cell slice by.where=cell"),
    ('cell slice by.where="q\\"\\\\"', 'cell slice by.where="q\\"\\\\"'),
    ('range slice by.where="a b".."é"', 'range slice by.where="a b".."é"'),
)

# ---- names

# A name, in quotes, as printed, and as a field of CSV.
NAMES = (
    ("Lyon", '"Lyon"', "Lyon", "Lyon"),
    ("all_2-x", '"all_2-x"', "all_2-x", "all_2-x"),
    ("a b", '"a b"', '"a b"', "a b"),
    ("a,b", '"a,b"', '"a,b"', '"a,b"'),
    ('q"', '"q\\""', '"q\\""', '"q"""'),
    ("\\", '"\\\\"', '"\\\\"', "\\"),
    ("é", '"é"', '"é"', "é"),
)

NAMED = {
    "dims": f"""[[dimension]]
name = "d"
levels = ["name"]
paths = [{", ".join(f"[{quoted}]" for _, quoted, _, _ in NAMES)}]
[[measure]]
name = "v"
""",
    "facts": "name,v\n" + "".join(f"{field},{place}\n" for place, (_, _, _, field) in enumerate(NAMES)),
    "policy": '[[measure]]\nname = "v"\nmethod = "lattice"\n',
}
# its public text, which has each name in quotes
NAMED_TEXT = "".join([
    'd "d"\nl "name"\n',
    *(f"p {quoted}\n" for _, quoted, _, _ in NAMES),
    'm "v" 0 lattice\n',
    *(f"f {place} 1\n" for place in range(len(NAMES))),
])
# an answer, which has each as a field
NAMED_ANSWER = "d.name,count\n" + "".join(f"{field},1\n" for _, _, _, field in NAMES)

# A query in which no name stands where one has to be.
NO_NAMES = (
    ("cell ", 400, "syntax at byte 5\n"),
    ("cell a b", 400, "syntax at byte 8\n"),
    ("cell a.b", 400, "syntax at byte 6\n"),
    ('cell "a', 400, "syntax at byte 7\n"),
    ('cell "a"b', 400, "syntax at byte 8\n"),
    ('cell "a\\b"', 400, "syntax at byte 8\n"),
    ('cell "\x1f"', 400, "syntax at byte 6\n"),
    ('cell "\x7f"', 400, "syntax at byte 6\n"),
)
