#!/usr/bin/env python3
"""Drafts the files of a cube for fact files, and looks at what is drafted: the cube is the same, its sums are the same, and whatever
cannot be drafted is told with its column. Takes the program in CUBE, or else ./cube at the top."""

import csv
import io
import json
import os
import re
import subprocess
import sys
import tempfile

HERE = os.path.dirname(os.path.abspath(__file__))
PAY = os.path.join(HERE, "..", "pay")
CUBE = os.environ.get("CUBE", os.path.join(HERE, "..", "..", "cube"))
# the notes on a limit and on the columns
NOTES = re.compile(rb'\A(?:limit [a-z]+: .+\n)?(?:.+ line \d+: the columns are parted by .+\n)?(?:".*: .+\n)*(?:\.\.\n)?')


def cube(*words, given=""):
    return subprocess.run([CUBE, *words], input=given.encode(), capture_output=True)


def draft(facts, *words):
    """The drafted text, or what is said on standard error behind the notes."""
    ran = cube("draft", "--facts", facts, *words)
    said = NOTES.sub(b"", ran.stderr)
    assert (ran.returncode == 0) == (said == b""), ran
    return ran.returncode, (ran.stdout if ran.returncode == 0 else said).decode()


def noted(facts, *words):
    """The lines on standard error."""
    return cube("draft", "--facts", facts, *words).stderr.decode().splitlines()


def written(folder, name, text):
    path = os.path.join(folder, name)
    with open(path, "wb") as file:
        file.write(text if isinstance(text, bytes) else text.encode())
    return path


def summary(dims, facts, policy):
    ran = cube("check", "--dims", dims, "--facts", facts, "--policy", policy)
    assert ran.returncode == 0, ran
    return dict(line.split(" ") for line in ran.stdout.decode().splitlines())


def opened(dims):
    """A policy that leaves each measure of a dimension file open."""
    names = [line.split('"')[1] for line in dims.split("[[measure]]")[1:] for line in [line.split("name = ")[1]]]
    return "".join(f'[[measure]]\nname = "{name}"\nmethod = "open"\n' for name in names)


def rows(folder, dims, facts, query):
    policy = written(folder, "open.toml", opened(open(dims).read()))
    journal = os.path.join(tempfile.mkdtemp(dir=folder), "journal")
    ran = cube("ask", "--dims", dims, "--facts", facts, "--policy", policy, "--journal", journal, given=query + "\n")
    assert ran.returncode == 0, ran
    head, body = ran.stdout.decode().split("\n", 1)
    assert head.startswith("200 "), (head, body)
    return sorted(body.splitlines()[1:])


def the_pay_of_an_office(folder):
    facts = os.path.join(PAY, "facts.csv")
    status, text = draft(facts)
    assert status == 0, text
    dims = written(folder, "dims.toml", text)
    status, text = draft(facts, "--policy")
    assert status == 0, text
    policy = written(folder, "policy.toml", text)
    ours = summary(dims, facts, policy)
    theirs = summary(os.path.join(PAY, "dims.toml"), facts, os.path.join(PAY, "policy.toml"))
    for word in ("facts", "points", "measures"):
        assert ours[word] == theirs[word], (word, ours, theirs)
    for measure in ("pay", "hours"):
        # The dimensions stand in another order.
        drafted = rows(folder, dims, facts, f"slice {measure} by branch.branch, month.month, grade.grade")
        stated = rows(folder, os.path.join(PAY, "dims.toml"), facts, f"slice {measure} by region.branch, time.month, grade.grade")
        assert sorted(sorted(row.split(",")) for row in drafted) == sorted(sorted(row.split(",")) for row in stated)
    # Each nonempty cell of the core is protected.
    ran = cube("ask", "--dims", dims, "--facts", facts, "--policy", policy, "--journal", os.path.join(folder, "journal"), given="slice pay by branch.branch, month.month, grade.grade\n")
    assert ran.stdout.startswith(b"403 "), ran


LEVELS = """branch,area,month,year,age,pay
Lyon,South,Jan,2026,45,10.5
Nice,South,Jan,2026,30,20
Paris,North,Feb,2026,45,5.25
Lyon,South,Feb,2026,30,7
"""


def levels_are_found(folder):
    facts = written(folder, "levels.csv", LEVELS)
    status, text = draft(facts)
    assert status == 0, text
    assert 'levels = ["branch", "area"]' in text, text
    assert 'name = "pay"\ndecimals = 2' in text, text
    assert 'name = "year"' in text and 'name = "age"' in text, text
    dims = written(folder, "levels.toml", text)
    assert rows(folder, dims, facts, "slice pay by branch.area") == ["North,5.25", "South,37.50"]
    status, text = draft(facts, "--members", "age", "--levels", "time=month,year")
    assert status == 0, text
    dims = written(folder, "stated.toml", text)
    assert text.startswith('[[dimension]]\nname = "time"\n'), text
    assert rows(folder, dims, facts, "slice pay by time.year, age.age") == ["2026,30,27.00", "2026,45,15.75"]


def paths(text, name):
    """The paths of a drafted dimension, in their order."""
    table = text.split(f'[[dimension]]\nname = "{name}"\n')[1].split("[[")[0]
    return [json.loads(line.strip().rstrip(",")) for line in table.splitlines() if line.startswith("  [")]


def standing(text):
    """The levels of which a dimension file says that their members stand as they appear."""
    return [line.removeprefix("# the members of ").removesuffix(" stand as they appear") for line in text.splitlines() if line.startswith("#")]


# Members as they appear, and as they are to stand.
ORDERED = [
    ("whole numbers", "10 9 -1 100 0 +7", "-1 0 +7 9 10 100"),
    ("large numbers", "10000000000000000001 99999999999999999999 9 -10000000000000000001", "-10000000000000000001 9 10000000000000000001 99999999999999999999"),
    ("decimals", "0.5 0.25 1.5 -0.5 -0.75 0.250000000000000001", "-0.75 -0.5 0.25 0.250000000000000001 0.5 1.5"),
    ("numbers of both kinds", "10 9.5 9 10.5", "9 9.5 10 10.5"),
    ("numbers that are the same", "2.0 1 2 1.0", "1 1.0 2.0 2"),
    ("years", "2020 1999 2019", "1999 2019 2020"),
    ("dates", "2026-02-01 2025-12-31 2026-01-15 2026-01-02", "2025-12-31 2026-01-02 2026-01-15 2026-02-01"),
    ("months of years", "2019-03 2020-01 2019-12 2019-01", "2019-01 2019-03 2019-12 2020-01"),
    ("quarters", "Q3 Q1 Q4 q2", "Q1 q2 Q3 Q4"),
    ("quarters of years", "2020-Q1 2019-Q4 2019-Q2", "2019-Q2 2019-Q4 2020-Q1"),
    ("quarters of years, written otherwise", "Q1|2020 2019Q4 2019|Q2 Q3-2019 2018-q4", "2018-q4 2019|Q2 Q3-2019 2019Q4 Q1|2020"),
    ("weekdays", "Fri MON Sunday tuesday wed Sat Thursday", "MON tuesday wed Thursday Fri Sat Sunday"),
    ("months", "March dec jan SEPTEMBER Feb Apr may Aug jul June Nov October", "jan Feb March Apr may June jul Aug SEPTEMBER October Nov dec"),
]

# Members that are not all of one kind stand as they appear.
UNORDERED = [
    ("words", "Lyon Brest Paris"),
    ("dates and months", "2026-02-01 2026-01"),
    ("months and quarters", "2019-03 2019-Q1 2019-01"),
    ("quarters with a year and without", "Q2 2019-Q1"),
    ("a month that is none", "2026-13 2026-01"),
    ("a day that is none", "2026-01-32 2026-01-01"),
    ("a quarter that is none", "Q5 Q1"),
    ("a date with something behind it", "2026-01-02T 2026-01-01T"),
    ("a year of two digits", "02-01 01-01"),
    ("weekdays and months", "Sun Mon Mar"),
    ("words that begin as months", "Marchand Janvier"),
    ("four letters", "Sept Augu"),
    ("no digit before the point", "1.5 .5"),
    ("no digit behind the point", "2. 1."),
    ("too many digits", "123456789012345678901 1"),
    ("too many decimals", "0.1234567890123456789 0.1"),
    ("a number and a word", "10 9 none"),
]


def of_members(folder, members):
    """A draft for a file with a record for each of these members."""
    names = [member.replace("|", " ") for member in members.split()]
    facts = written(folder, "members.csv", "a,v\n" + "".join(f"{name},1\n" for name in names))
    status, text = draft(facts, "--members", "a")
    assert status == 0, (members, text)
    return text


def members_stand_in_their_order(folder):
    for name, members, wanted in ORDERED:
        text = of_members(folder, members)
        assert paths(text, "a") == [[member.replace("|", " ")] for member in wanted.split()], (name, text)
        assert standing(text) == [], (name, text)
    for name, members in UNORDERED:
        text = of_members(folder, members)
        assert paths(text, "a") == [[member] for member in members.split()], (name, text)
        assert standing(text) == ["a"], (name, text)
    # One member needs no order.
    assert standing(of_members(folder, "Lyon")) == []


# A file, what is stated of it, a dimension, its paths as they are to stand, and the levels whose members stand as they appear.
HIERARCHIES = [
    ("month,quarter,v\nApr,Q2,1\nMar,Q1,1\nJan,Q1,1\nJun,Q2,1\n", (), "month", [["Jan", "Q1"], ["Mar", "Q1"], ["Apr", "Q2"], ["Jun", "Q2"]], []),
    # The leaves have no order, the level above them has: within it they stand as they appear.
    ("shop,size,v\nLyon,10,1\nNice,9,1\nBrest,10,1\nAix,9,1\n", ("--levels", "shop=shop,size"), "shop", [["Nice", "9"], ["Aix", "9"], ["Lyon", "10"], ["Brest", "10"]], ["shop"]),
    # The order of the leaves goes before that of a level above them. The first of the second days is a Tuesday.
    ("day,weekday,v\n2026-01-12,Mon,1\n2026-01-13,Tue,1\n2026-01-06,Tue,1\n2026-01-05,Mon,1\n", (), "day", [["2026-01-05", "Mon"], ["2026-01-06", "Tue"], ["2026-01-12", "Mon"], ["2026-01-13", "Tue"]], []),
    ("day,weekday,v\n2026-01-12,Mon,1\n2026-01-13,Tue,1\n2026-01-06,Tue,1\n", (), "day", [["2026-01-06", "Tue"], ["2026-01-12", "Mon"], ["2026-01-13", "Tue"]], ["weekday"]),
    ("branch,area,v\nLyon,South,1\nParis,North,1\nNice,South,1\n", (), "branch", [["Lyon", "South"], ["Paris", "North"], ["Nice", "South"]], ["branch", "area"]),
]


def hierarchies_stand_in_one_order(folder):
    for facts, words, name, wanted, unordered in HIERARCHIES:
        status, text = draft(written(folder, "hierarchy.csv", facts), *words)
        assert status == 0 and paths(text, name) == wanted and standing(text) == unordered, (wanted, text)


def a_range_sums_what_it_says(folder):
    # The months stand as 2019-03, 2019-01, 2019-04, 2019-02 in the file.
    facts = written(folder, "range.csv", "month,branch,pay\n2019-03,Lyon,4\n2019-01,Lyon,1\n2019-04,Lyon,8\n2019-02,Nice,2\n2019-03,Nice,16\n")
    status, text = draft(facts)
    assert status == 0, text
    dims = written(folder, "range.toml", text)
    for first, last, wanted in [("2019-01", "2019-03", "23"), ("2019-01", "2019-02", "3"), ("2019-02", "2019-03", "22"), ("2019-03", "2019-04", "28"), ("2019-01", "2019-04", "31")]:
        assert rows(folder, dims, facts, f'range pay month.month="{first}".."{last}"') == [wanted], (first, last)
    # What is said in comments changes nothing of what is read.
    assert standing(text) == ["branch"], text
    bare = written(folder, "bare.toml", "".join(line for line in text.splitlines(True) if not line.startswith("#")))
    policy = written(folder, "range-policy.toml", draft(facts, "--policy")[1])
    assert summary(dims, facts, policy) == summary(bare, facts, policy)


def notes(policy):
    """The comments of a policy file, which stand before all else."""
    lines = policy.splitlines()
    said = [line for line in lines if line.startswith("#")]
    assert lines[:len(said)] == said and 0 < len(said) < 8, policy
    return " ".join(said)


# A file, what is stated of it, `below` as it is to stand, words of the comments, and how many cells are protected.
POLICIES = [
    # Four points, and two persons over all time.
    ("person,month,pay\nAl,Jan,1\nBo,Jan,2\nAl,Feb,4\nBo,Feb,8\n", (), '{ "person" = "person" }', ["cell of person.person, at each time and over all time.", "are protected too: month."], 6),
    # Four points; two in each quarter; and two persons over all time.
    ("person,month,quarter,pay\nAl,Jan,Q1,1\nBo,Jan,Q1,2\nAl,Apr,Q2,4\nBo,Apr,Q2,8\n", (), '{ "person" = "person" }', ["are protected too: month."], 10),
    # Three points; without the day three, without the year three, without both two.
    ("person,year,day,pay\nAl,2025,Mon,1\nBo,2025,Tue,2\nAl,2026,Tue,4\n", ("--members", "year"), '{ "person" = "person" }', ["are protected too: year, day."], 11),
    # No dimension is time: three points.
    ("person,grade,pay\nAl,A1,1\nBo,A1,2\nAl,A2,4\n", (), '{ "person" = "person", "grade" = "grade" }', ["cell of person.person, grade.grade.", "No dimension is plainly time."], 3),
    # Each dimension is time: three points.
    ("month,weekday,pay\nJan,Mon,1\nFeb,Mon,2\nJan,Tue,4\n", (), '{ "month" = "month", "weekday" = "weekday" }', ["cell of month.month, weekday.weekday.", "Each dimension is time"], 3),
    # Numbers that are no years are no time: four points.
    ("person,age,pay\nAl,1899,1\nBo,1900,2\nAl,2100,3\nBo,1899,4\n", ("--members", "age"), '{ "person" = "person", "age" = "age" }', ["No dimension is plainly time."], 4),
    ("person,at,pay\nAl,2026-01-31,1\nBo,2026-01-30,2\nAl,2026-01-30,3\n", (), '{ "person" = "person" }', ["are protected too: at."], 5),
    ("person,at,pay\nAl,2026-Q1,1\nBo,2025Q1,2\nAl,2025Q1,3\n", (), '{ "person" = "person" }', ["are protected too: at."], 5),
    ("person,at,pay\nAl,2026-02,1\nBo,2026-01,2\nAl,2026-01,3\n", (), '{ "person" = "person" }', ["are protected too: at."], 5),
    ("person,at,pay\nAl,2026-02,1\nBo,total,2\nAl,total,3\n", (), '{ "person" = "person", "at" = "at" }', ["No dimension is plainly time."], 3),
]


def a_person_is_protected_over_time(folder):
    for facts, words, below, said, protected in POLICIES:
        facts = written(folder, "policy.csv", facts)
        status, text = draft(facts, *words)
        assert status == 0, text
        status, policy = draft(facts, "--policy", *words)
        assert status == 0 and f"below = {below}\n" in policy, (below, policy)
        assert all(word in notes(policy) for word in [*said, "Not protected: ", "people are not"]), policy
        held = summary(written(folder, "policy-dims.toml", text), facts, written(folder, "policy.toml", policy))
        assert held["protected"] == str(protected), (below, held)
    facts = written(folder, "person.csv", POLICIES[0][0])
    dims = written(folder, "person.toml", draft(facts)[1])
    policy = written(folder, "person-policy.toml", draft(facts, "--policy")[1])
    asked = ["slice pay by person.person", "slice pay by person.person, month.month", "slice pay by month.month"]
    ran = cube("ask", "--dims", dims, "--facts", facts, "--policy", policy, "--journal", os.path.join(folder, "person-journal"), given="\n".join(asked) + "\n")
    heads = [line.split(" ")[0] for line in ran.stdout.decode().splitlines() if line[:3] in ("200", "403")]
    assert heads == ["403", "403", "200"], ran


def texts_are_read_as_they_are(folder):
    """Quotes, commas, line feeds, a byte order mark, CRLF, and names that TOML has to escape."""
    fields = ['a"b', "c,d", "back\\slash", "é", "all", "count"]
    table = io.StringIO()
    writer = csv.writer(table, lineterminator="\r\n")
    writer.writerow(["all", "count"])
    writer.writerows([field, number] for number, field in enumerate(fields))
    facts = written(folder, "odd.csv", b"\xef\xbb\xbf" + table.getvalue().encode())
    status, text = draft(facts)
    assert status == 0, text
    policy_status, policy = draft(facts, "--policy")
    assert policy_status == 0, policy
    held = summary(written(folder, "odd.toml", text), facts, written(folder, "odd-policy.toml", policy))
    assert held["points"] == str(len(fields)) and held["protected"] == str(len(fields)), held


def columns_are_left_out(folder):
    facts = written(folder, "skip.csv", LEVELS)
    status, text = draft(facts, "--skip", "year", "--skip", "age", "--skip", "area")
    assert status == 0 and text.count("[[measure]]") == 1 and 'levels = ["branch"]' in text and "area" not in text, text
    dims = written(folder, "skip.toml", text)
    assert rows(folder, dims, facts, "slice pay by month.month") == ["Feb,12.25", "Jan,30.50"]
    policy = written(folder, "skip-policy.toml", draft(facts, "--policy", "--skip", "year", "--skip", "age", "--skip", "area")[1])
    assert summary(dims, facts, policy)["facts"] == "4"
    # Fields that no member may be named by, and more columns than a draft has room for.
    odd = written(folder, "skip-odd.csv", 'a,b,v\nx,"1\n2",1\ny,,2\n')
    assert draft(odd)[0] == 3
    status, text = draft(odd, "--skip", "b")
    assert status == 0 and text.count("[[dimension]]") == 1, text
    many = written(folder, "skip-many.csv", ",".join(["a", "v", *(f"c{n}" for n in range(60))]) + "\nx,1" + ",y" * 60 + "\n")
    assert draft(many) == (3, "draft: limit columns 56\n")
    status, text = draft(many, *(word for n in range(60) for word in ("--skip", f"c{n}")))
    assert status == 0 and text.count("[[dimension]]") == 1, text
    for words, said in ((["--skip", "none"], "missing column none"), (["--skip", "age", "--skip", "age"], "column age stated twice"), (["--members", "age", "--skip", "age"], "column age stated twice"), (["--skip", "pay", "--skip", "age", "--skip", "year"], "no measure column")):
        assert draft(facts, *words) == (3, f"draft: {said}\n"), words


# A file, and how many decimals its measure has.
WRITTEN = [("a,v\nx,1234.50\ny,1\n", 2), ("a,v\nx,1\ny,2.000\nz,1.5\n", 3), ("a,v\nx,1.00000000\n", 6), ("a,v\nx,10\n", 0), (f"a,v\n" + "x,1.5\n" * 2_000 + "y,2.500\n", 3)]


def decimals_are_those_that_are_written(folder):
    for facts, decimals in WRITTEN:
        status, text = draft(written(folder, "written.csv", facts))
        assert status == 0 and text.endswith(f"decimals = {decimals}\n"), (facts[:40], text)


# A file, what is stated of it, and the levels of its dimensions.
CONSTANT = [
    ("branch,month,land,v\nLyon,Jan,FR,1\nNice,Jan,FR,2\nLyon,Feb,FR,3\n", (), ["branch", "month", "land"]),
    ("branch,month,year,v\nLyon,2026-01,2026,1\nNice,2026-01,2026,2\nLyon,2026-02,2026,3\n", ("--members", "year"), ["branch", "month year"]),
    ("day,branch,month,year,v\n2026-01-01,Lyon,2026-01,2026,1\n2026-01-01,Nice,2026-01,2026,2\n2026-01-02,Nice,2026-01,2026,3\n", ("--members", "year"), ["day month year", "branch"]),
    ("a,b,v\nx,y,1\n", (), ["a", "b"]),
    ("land,part,v\nFR,FR-69,1\n", (), ["part land"]),
    ("branch,land,v\nLyon,FR,1\nNice,FR,2\n", ("--levels", "place=branch,land"), ["branch land"]),
]


def what_is_constant_stands_by_itself(folder):
    for facts, words, wanted in CONSTANT:
        status, text = draft(written(folder, "constant.csv", facts), *words)
        found = [" ".join(json.loads(line.removeprefix("levels = "))) for line in text.splitlines() if line.startswith("levels = ")]
        assert status == 0 and sorted(found) == sorted(wanted), (wanted, text)


# A file, what is stated of it, and the notes on it; FILE is its path.
NOTED = [
    ("branch,year,pay\nLyon,2025,1\nNice,2026,NA\nNice,2026,3\n", (), [
        '"branch": line 2 is "Lyon": members; left out by --skip "branch"',
        '"year": 3 years: a measure, which is added up; members by --members "year", left out by --skip "year"',
        '"pay": 2 of 3 numbers, line 3 is "NA": members; left out by --skip "pay"',
    ]),
    ("branch,age,pay\nLyon,45,1\n", ("--members", "age", "--skip", "branch"), [
        '"branch": left out, as stated', '"age": members, as stated', '"pay": 1 number: a measure; members by --members "pay", left out by --skip "pay"',
    ]),
    ("year,pay\n2026,1\n", (), ['"year": 1 year: a measure, which is added up; members by --members "year", left out by --skip "year"']),
    ('a,b,c,d,e,f\n"1,234.50",1.2e3,EUR 12," 200","12,5",0.1234567\n', (), [
        f'"{name}": line 2 is "{value}" ({hint}): members; left out by --skip "{name}"'
        for name, value, hint in [
            ("a", "1,234.50", "commas between thousands: leave them out"), ("b", "1.2e3", "an exponent: write the number out"),
            ("c", "EUR 12", "a currency beside a number: leave it out"), ("d", " 200", "blanks beside a number: leave them out"),
            ("e", "12,5", "a comma before decimals: write a point"), ("f", "0.1234567", "more than 6 decimals: round it"),
        ]
    ]),
    ("a;b;pay\nx;y;1\n", (), [
        "FILE line 1: the columns are parted by semicolons: write commas, and points in numbers",
    ]),
    ("a\tpay\nx\t1\n", (), ["FILE line 1: the columns are parted by tabs: write commas, and points in numbers"]),
]


def columns_are_told(folder):
    for facts, words, wanted in NOTED:
        facts = written(folder, "noted.csv", facts)
        lines = noted(facts, *words)
        assert lines[:len(wanted)] == [line.replace("FILE", facts) for line in wanted], (lines, wanted)
        assert noted(facts, "--policy", *words) == (lines if lines[-1].startswith("draft: ") else []), lines


REFUSED = [
    ("", "no header"),
    ("a,b\n", "no record"),
    ("a,a,b\nx,y,1\n", "a"),
    ("a,b\nx,y\n", "no measure column"),
    ("a,b\n1,2\n", "no dimension column"),
    ("a,b\nx\n", "row 1 fields"),
    ("a,\nx,1\n", "column 2"),
    ("a,b\n\"x\ny\",1\n", "column a"),
    # Nine columns of which none determines another.
    (",".join(f"c{n}" for n in range(9)) + ",v\n" + "".join(",".join(f"m{row >> n & 1}" for n in range(9)) + ",1\n" for row in range(512)), "dimensions"),
]


def what_cannot_be_drafted_is_told(folder):
    for number, (facts, word) in enumerate(REFUSED):
        status, text = draft(written(folder, f"refused-{number}.csv", facts))
        assert status == 3 and text.startswith("draft: ") and word in text, (number, status, text)
    many = "a,v\n" + "".join(f"m{n},1\n" for n in range(65_537))
    status, text = draft(written(folder, "many.csv", many))
    assert status == 3 and "a" in text.split() and "65536" in text, text
    facts = written(folder, "one.csv", LEVELS)
    for words in (["--members", "none"], ["--levels", "x=none"], ["--levels", "x=branch,branch"], ["--levels", "x=area,branch"]):
        status, text = draft(facts, *words)
        assert status == 3 and text.startswith("draft: "), (words, text)
    for words in (["--levels", "x"], ["--policy", "--policy"], ["--facts", "f"], ["--dims", "d"]):
        status, text = draft(facts, *words)
        assert status == 2 and text.startswith("usage: "), (words, text)
    status, text = draft(os.path.join(folder, "none.csv"))
    assert status == 5, text


def table(late, many=3_000):
    """A file whose record 2,001 is another one."""
    lines = [f"a{row % 7},b{row % 11},{row},1" for row in range(many)]
    lines[2_000] = late
    return "a,b,v,w\n" + "\n".join(lines) + "\n"


def pairs(many, points):
    """A file with so many records, at so many of 90,000 possible points."""
    return "a,b,v\n" + "".join(f"a{row % points % 300},b{row % points // 300},1\n" for row in range(many))


LATE = [
    # A first look at the records does not tell these.
    ("finer", table("a1,b1,0.125,1"), 'name = "v"\ndecimals = 3', 77),
    ("turned", table("a1,b1,many,1"), 'name = "v"\nlevels = ["v"', 3_000),
    # More records and more combinations than there may be points: the points are counted.
    ("counted", pairs(70_000, 60_000), 'name = "a"', 60_000),
]

LATE_REFUSED = [
    (table("a1,b1,1000000000001,1"), "row 2001 "),
    (table("a1,b1,1"), "row 2001 fields"),
    (pairs(70_000, 65_537), "limit points 65536"),
]


def what_comes_late_is_found(folder):
    for name, facts, words, points in LATE:
        facts = written(folder, f"{name}.csv", facts)
        status, text = draft(facts)
        assert status == 0 and words in text, (name, status, text[-400:])
        policy_status, policy = draft(facts, "--policy")
        assert policy_status == 0, policy
        held = summary(written(folder, f"{name}.toml", text), facts, written(folder, f"{name}-policy.toml", policy))
        assert held["points"] == str(points), (name, held)
    for number, (facts, words) in enumerate(LATE_REFUSED):
        status, text = draft(written(folder, f"late-{number}.csv", facts))
        assert status == 3 and words in text, (number, status, text)


def main():
    with tempfile.TemporaryDirectory() as folder:
        checks = (the_pay_of_an_office, levels_are_found, members_stand_in_their_order, hierarchies_stand_in_one_order, a_range_sums_what_it_says,
                  a_person_is_protected_over_time, texts_are_read_as_they_are, columns_are_left_out, decimals_are_those_that_are_written,
                  what_is_constant_stands_by_itself, columns_are_told, what_cannot_be_drafted_is_told, what_comes_late_is_found)
        for check in checks:
            check(folder)
            print("draft:", check.__name__.replace("_", " "))


if __name__ == "__main__":
    sys.exit(main())
