"""The cubes of `cube demo`, made once more from a number and a size, by `Made`, `Tables` and `Draws` in crates/cube_gen/specs."""

import functools


class Draws:
    """Numbers that are drawn one after another from a first number."""

    def __init__(self, number):
        self.number = number

    def below(self, end):
        self.number = (self.number * 6364136223846793005 + 1442695040888963407) % 2**64
        return (self.number >> 32) % end


# the dimension file is laid out as TOML tables are printed
HEAD = """[[dimension]]
levels = [
    "branch",
    "region",
]
name = "branch"
paths = ["""


def path(*members):
    """A path of two members among others."""
    return "\n    [\n" + "".join(f'    "{member}",\n' for member in members) + "],"


MONTHS = "".join(path(f"m{month}", f"q{(month + 2) // 3}") for month in range(1, 13))
GRADES = "".join(f'    ["g{grade}"],\n' for grade in range(6))
OTHERS = f"""
]

[[dimension]]
levels = [
    "month",
    "quarter",
]
name = "month"
paths = [{MONTHS}
]

[[dimension]]
levels = ["grade"]
name = "grade"
paths = [
{GRADES}]

[[measure]]
decimals = 2
name = "pay"

[[measure]]
name = "hours"

[[measure]]
name = "bonus"
"""
POLICY = """[[measure]]
name = "pay"
method = "lattice"

[[measure]]
name = "hours"
method = "parity"

[[measure]]
name = "bonus"
method = "open"

[[object]]
measure = "pay"
below = { branch = "branch", month = "month", grade = "grade" }
slice = { grade = { level = "grade", members = ["g5"] } }
"""


def fact(draws, size, number):
    """The line of a fact: branches in turn, then months, then grades, and three drawn values."""
    pay, hours, bonus = 100_000 + draws.below(500_000), draws.below(200), draws.below(1_000)
    place = f"b{number % (40 * size)},m{number // (40 * size) % 12 + 1},g{number // (480 * size) % 6}"
    return f"{place},{pay // 100}.{pay % 100:02},{hours},{bonus}\n"


def spread(draws, end, word, first=0):
    """Two drawn members as a range, in their order."""
    pair = sorted(draws.below(end) + first for _ in range(2))
    return f"{word}{pair[0]}..{word}{pair[1]}"


def query(draws, size):
    kind = draws.below(5)
    if kind == 0:
        return f"slice pay by month.month where branch.region=r{draws.below(5 * size)}"
    if kind == 1:
        return "slice pay by branch.region, month.quarter"
    if kind == 2:
        branches, months, grades = spread(draws, 40 * size, "b"), spread(draws, 12, "m", 1), spread(draws, 6, "g")
        return f"range hours branch.branch={branches}, month.month={months}, grade.grade={grades}"
    if kind == 3:
        region, month, grade = draws.below(5 * size), draws.below(12) + 1, draws.below(6)
        return f"cell hours branch.region=r{region}, month.month=m{month}, grade.grade=g{grade}"
    return f"cell count grade.grade=g{draws.below(6)}"


@functools.cache
def make(number, size):
    """The files of the cube, and the queries, each with a line feed."""
    draws = Draws(number)
    paths = "".join(path(f"b{branch}", f"r{branch % (5 * size)}") for branch in range(40 * size))
    facts = "branch,month,grade,pay,hours,bonus\n" + "".join(fact(draws, size, place) for place in range(20_000 * size))
    queries = "".join(f"{query(draws, size)}\n" for _ in range(200 * size))
    return {"dims": HEAD + paths + OTHERS, "facts": facts, "policy": POLICY}, queries


def first_cells(measure):
    """Questions for the changes that hide the first 100 protected cells: of pay where the grade is g5, of hours everywhere."""
    grades = ("g5",) if measure == "pay" else ("g0", "g1", "g2", "g3", "g4", "g5")
    places = [(f"b{branch}", f"m{month}", grade) for branch in range(9) for month in range(1, 13) for grade in grades]
    return [f"witness cell {measure} branch.branch={branch}, month.month={month}, grade.grade={grade}" for branch, month, grade in places[:100]]


# A number and a size; how many bytes the facts and the queries of that cube have, and with which lines they begin.
BEGIN = (
    (
        1, 1, 506_865, 9_917,
        """branch,month,grade,pay,hours,bonus
b0,m1,g0,2695.48,107,393
b1,m1,g0,4857.41,68,590
b2,m1,g0,2342.60,5,178
""",
        """slice pay by branch.region, month.quarter
slice pay by month.month where branch.region=r4
slice pay by month.month where branch.region=r3
range hours branch.branch=b31..b38, month.month=m5..m9, grade.grade=g3..g5
cell hours branch.region=r3, month.month=m2, grade.grade=g4
cell hours branch.region=r0, month.month=m12, grade.grade=g1
cell count grade.grade=g1
""",
    ),
    (
        7, 2, 1_018_636, 20_586,
        """branch,month,grade,pay,hours,bonus
b0,m1,g0,4305.56,63,506
b1,m1,g0,5373.46,90,439
b2,m1,g0,4797.28,128,478
""",
        """slice pay by month.month where branch.region=r7
cell count grade.grade=g2
range hours branch.branch=b29..b73, month.month=m4..m4, grade.grade=g3..g3
cell count grade.grade=g3
cell hours branch.region=r2, month.month=m10, grade.grade=g4
slice pay by branch.region, month.quarter
range hours branch.branch=b54..b76, month.month=m11..m11, grade.grade=g0..g3
""",
    ),
)
BEGIN_DIMS = '[[dimension]]\nlevels = [\n    "branch",\n    "region",\n]\nname = "branch"\npaths = [\n    [\n    "b0",\n    "r0",\n],\n'
BEGIN_POLICY = '[[measure]]\nname = "pay"\nmethod = "lattice"\n'
# the numbers and sizes of the cubes that `demo` sums up
DEMOS = ((1, 1), (7, 2), (0, 1), (2, 1), (2**64 - 1, 1))
