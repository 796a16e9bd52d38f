"""Policy files of the pay cube, with the words of the first fault of each, by docs/FORMATS.md ("Policy file"); `accepted` where it has none."""

from small import PAY

BOTH = 'measure = [{name = "pay", method = "lattice"}, {name = "hours", method = "parity"}]\n'
# the same, where one measure is open
OPEN = 'measure = [{name = "pay", method = "open"}, {name = "hours", method = "parity"}]\n'
# the same as the first, and an object that goes on
FIRST = BOTH + '[[object]]\nmeasure = "pay"\nbelow = {}\n[[object]]\n'
OBJECT = '[[object]]\nmeasure = "pay"\nbelow = {}\n'

# What a file begins with, what stands behind it, and what is said of the file.
FAULTS = (
    ("", b"\xff", "not toml"),
    ("", "measure =", "not toml"),
    ("", "measures = 1", "unknown measures"),
    (BOTH, "b = 1\na = 2", "unknown a"),
    ("", '"" = 1', "unknown "),
    ("", "", "missing measure"),
    ("", "measure = []", "missing measure"),
    ("", "measure = 1", "wrong kind measure"),
    ("", "measure = {}", "wrong kind measure"),
    ("", "measure = [1]", "wrong kind measure"),
    ("", "object = 1", "missing measure"),
    (BOTH, "object = 1", "wrong kind object"),
    (BOTH, "object = [{}, 1]", "wrong kind object"),
    (BOTH, "", "accepted"),
    (BOTH, "object = []", "accepted"),
    ("", 'measure = [{name = "pay", method = "open", more = 1}]', "unknown measure 1 more"),
    ("", "measure = [{more = 1}]", "unknown measure 1 more"),
    ("", 'measure = [{method = "open"}]', "missing measure 1 name"),
    ("", "measure = [{name = 1}]", "wrong kind measure 1 name"),
    ("", "measure = [{name = []}]", "wrong kind measure 1 name"),
    ("", 'measure = [{name = "pay"}]', "missing measure 1 method"),
    ("", 'measure = [{name = "pay", method = 1}]', "wrong kind measure 1 method"),
    ("", 'measure = [{name = "wage", method = 1}]', "wrong kind measure 1 method"),
    ("", 'measure = [{name = "wage", method = "shut"}]', "unknown measure 1 name"),
    ("", 'measure = [{name = "pay", method = "shut"}]', "unknown measure 1 method"),
    ("", 'measure = [{name = "pay", method = "Open"}]', "unknown measure 1 method"),
    ("", 'measure = [{name = "pay", method = "open"}]', "missing hours"),
    ("", 'measure = [{name = "hours", method = "open"}]\nobject = [{}]', "missing pay"),
    ("", 'measure = [{name = "pay", method = "open"}, {name = "pay", method = "open"}]', "measure twice measure 2 name"),
    ("", 'measure = [{name = "pay", method = "open"}, {name = "pay", method = "shut"}]', "unknown measure 2 method"),
    (BOTH, 'object = [{measure = "pay", below = {}, above = 1}]', "unknown object 1 above"),
    (FIRST, "z = 1\nb = 2", "unknown object 2 b"),
    (BOTH, "object = [{}]", "missing object 1 measure"),
    (BOTH, "object = [{measure = 1}]", "wrong kind object 1 measure"),
    (BOTH, 'object = [{measure = "wage"}]', "unknown object 1 measure"),
    (BOTH, 'object = [{measure = "count"}]', "unknown object 1 measure"),
    (BOTH, 'object = [{measure = "pay"}]', "missing object 1 below"),
    (FIRST, 'measure = "pay"\nslice = 1', "missing object 2 below"),
    (BOTH, 'object = [{measure = "pay", below = 1}]', "wrong kind object 1 below"),
    (BOTH, 'object = [{measure = "pay", below = []}]', "wrong kind object 1 below"),
    (BOTH, 'object = [{measure = "pay", below = {region = "city", time = 1}}]', "wrong kind object 1 below"),
    (BOTH, 'object = [{measure = "pay", below = {place = 1}}]', "wrong kind object 1 below"),
    (BOTH, 'object = [{measure = "pay", below = {place = "city"}}]', "unknown object 1 below place"),
    (BOTH, 'object = [{measure = "pay", below = {region = "town"}}]', "unknown object 1 below region"),
    (BOTH, 'object = [{measure = "pay", below = {time = "week", region = "town"}}]', "unknown object 1 below region"),
    (BOTH, 'object = [{measure = "pay", below = {region = "month"}}]', "unknown object 1 below region"),
    (BOTH, 'object = [{measure = "pay", below = {region = "all"}}]', "accepted"),
    (BOTH, 'object = [{measure = "pay", below = {}}]', "accepted"),
    (FIRST, 'measure = "pay"\nbelow = {}\nslice = {}', "accepted"),
    (FIRST, 'measure = "pay"\nbelow = {}\nslice = 1', "wrong kind object 2 slice"),
    (FIRST, 'measure = "pay"\nbelow = {}\nslice = {place = {}, region = 1}', "wrong kind object 2 slice"),
    (FIRST, 'measure = "pay"\nbelow = {}\nslice = {place = {}}', "unknown object 2 slice place"),
    (FIRST, 'measure = "pay"\nbelow = {}\nslice = {region = {}, place = {}}', "unknown object 2 slice place"),
    (FIRST, 'measure = "pay"\nbelow = {}\nslice = {region = {levels = 1}}', "unknown object 2 slice region levels"),
    (FIRST, 'measure = "pay"\nbelow = {}\nslice = {region = {members = 1}}', "missing object 2 slice region level"),
    (FIRST, 'measure = "pay"\nbelow = {}\nslice = {region = {level = 1}}', "wrong kind object 2 slice region level"),
    (FIRST, 'measure = "pay"\nbelow = {}\nslice = {region = {level = "all", members = 1}}', "unknown object 2 slice region level"),
    (FIRST, 'measure = "pay"\nbelow = {}\nslice = {region = {level = "month"}}', "unknown object 2 slice region level"),
    (FIRST, 'measure = "pay"\nbelow = {}\nslice = {region = {level = "area"}}', "missing object 2 slice region members"),
    (FIRST, 'measure = "pay"\nbelow = {}\nslice = {region = {level = "area", members = []}}', "missing object 2 slice region members"),
    (FIRST, 'measure = "pay"\nbelow = {}\nslice = {region = {level = "area", members = "South"}}', "wrong kind object 2 slice region members"),
    (FIRST, 'measure = "pay"\nbelow = {}\nslice = {region = {level = "area", members = ["South", 1]}}', "wrong kind object 2 slice region members"),
    (FIRST, 'measure = "pay"\nbelow = {}\nslice = {region = {level = "area", members = ["South", "Lyon", "x"]}}', "unknown object 2 slice region members 2"),
    (FIRST, 'measure = "pay"\nbelow = {}\nslice = {time = {}, region = {level = "area", members = ["x"]}}', "unknown object 2 slice region members 1"),
    (OPEN, 'object = [{measure = "pay", below = {}}]', "object on method object 1"),
    (OPEN, 'object = [{measure = "pay", below = {}, slice = 1}]', "wrong kind object 1 slice"),
    (FIRST, 'measure = "hours"\nbelow = {}', "object on method object 2"),
    (FIRST, 'measure = "hours"\nbelow = {region = "city"}', "object on method object 2"),
    (FIRST, 'measure = "hours"\nbelow = {region = "area", time = "month"}', "object on method object 2"),
    (FIRST, 'measure = "hours"\nbelow = {region = "city", time = "month"}', "accepted"),
    (FIRST, 'measure = "hours"\nbelow = {region = "city", time = "month"}\nslice = {region = {level = "area", members = ["South"]}}', "accepted"),
    (FIRST, 'measure = "hours"\nbelow = {region = "area", time = "month"}\nslice = {region = {level = "area", members = ["West"]}}', "unknown object 2 slice region members 1"),
    # what is no array of tables, no table of texts and no table of tables; keys are taken in the order of their bytes
    (BOTH, 'object = ["a", "b"]', "wrong kind object"),
    (FIRST, 'measure = "pay"\nbelow = {b = {}, a = {c = 1}}', "wrong kind object 2 below"),
    (FIRST, 'measure = "pay"\nbelow = {b = "2", a = "1"}', "unknown object 2 below a"),
    (FIRST, 'measure = "pay"\nbelow = {}\nslice = {b = "2", a = "1"}', "wrong kind object 2 slice"),
    (FIRST, 'measure = "pay"\nbelow = {}\nslice = {b = {}, a = {c = 1}}', "unknown object 2 slice a"),
)

MANY = (
    (BOTH, OBJECT * 64, "accepted"),
    (BOTH, OBJECT * 64 + "[[object]]\n", "limit objects 64"),
)

CASES = (
    ("the first fault is named", FAULTS),
    ("at most 64 objects are taken", MANY),
)

# ---- what is read

PAY_SHAPE = """d "region"
l "city"
l "area"
p "Lyon" "South"
p "Nice" "South"
p "Paris" "North"
d "time"
l "month"
l "quarter"
p "Jan" "Q1"
p "Feb" "Q1"
"""
PAY_POINTS = "f 0 0 1\nf 0 1 1\nf 1 0 1\nf 2 0 1\nf 2 1 1\n"
SLICED = BOTH + """object = [{measure = "pay", below = {region = "area"}, slice = {time = {level = "month", members = ["Feb", "Jan"]},
    region = {level = "city", members = ["Paris", "Lyon", "Paris"]}}}]
"""
# dimensions whose names sort other than they stand
SORTED = {
    "dims": """measure = [{name = "v"}]
dimension = [{name = "z", levels = ["l"], paths = [["p"], ["q"]]}, {name = "a", levels = ["l"], column = "c", paths = [["p"], ["q"]]}]
""",
    "facts": "l,c,v\nq,p,1\n",
    "policy": """measure = [{name = "v", method = "parity"}]
object = [{measure = "v", below = {z = "l", a = "l"}, slice = {z = {level = "l", members = ["q"]}, a = {level = "l", members = ["p"]}}}]
""",
}
SORTED_SHAPE = 'd "z"\nl "l"\np "p"\np "q"\nd "a"\nl "l"\np "p"\np "q"\nm "v" 0 parity\n'

# A cube, and its public text, which has the methods and the objects as they were read.
READ = (
    ("the policy of the pay cube", PAY, PAY_SHAPE + 'm "pay" 0 lattice\nm "hours" 0 parity\no "pay" 0 0\n' + PAY_POINTS),
    (
        "a slice stands in order and lists each member once",
        {**PAY, "policy": SLICED},
        PAY_SHAPE + 'm "pay" 0 lattice\nm "hours" 0 parity\no "pay" 1 2\ns 0 0 0 2\ns 1 0 0 1\n' + PAY_POINTS,
    ),
    ("names sort other than dimensions", SORTED, SORTED_SHAPE + 'o "v" 0 0\ns 0 0 1\ns 1 0 0\nf 1 0 1\n'),
)
