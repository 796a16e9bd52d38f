"""Files and queries that are refused, with the note before the text, by docs/FORMATS.md ("Command lines, statuses and texts")."""

import re

from policies import BOTH, FIRST, OBJECT
from small import PAY

MARK = b"\xef\xbb\xbf"
# a record of a member that is unknown; each of the others is in order
BAD = b"x,Lyon,Mar,1,1"


def shapes(end):
    """What stands before the first record that is refused, with its number, and that record, where each line ends so."""
    head, good = b"note,city,month,pay,hours" + end, b"x,Lyon,Jan,1,1" + end
    broken = b'"a' + end + b"b" + end + b'",Nice,Jan,1,1' + end
    return (
        (head, 1, BAD + end),
        (head, 1, BAD),
        (head + good + good, 3, BAD + end),
        (head + good + good, 3, BAD),
        (end + end + head + good + end + end, 2, BAD + end + end),
        (head + broken, 2, BAD + end),
        (head + broken + end + good + broken, 4, BAD + end + BAD),
        (head + good, 2, b'"' + end + b'x",Lyon,Mar,1,1' + end),
        (MARK + head + end + good, 2, BAD),
        (MARK + end + head, 1, BAD + end),
    )


MIXED = (
    (b"note,city,month,pay,hours\n\r", 1, BAD),
    (b"note,city,month,pay,hours\r\r\n", 1, BAD),
    (b"\n\r\r\nnote,city,month,pay,hours\r\n\n\r\n\rx,Lyon,Jan,1,1\r\r\n\n", 2, BAD + b"\n"),
    (b'note,city,month,pay,hours\n"\r\n\r\n\n\r",Lyon,Jan,1,1\r\n', 2, BAD + b"\r\n"),
)



def in_line(front, row):
    """The note and the text on a record behind a front. A line ends with a CR LF, or with one of them alone."""
    line = 1 + len(re.findall(rb"\r\n?|\n", front))
    return f'facts row {row} is line {line}: month "Mar" is no member of the dimension time\nfacts: row {row} column month: unknown member\n'


# A fact file, and what is said of it.
LINES = tuple((front + record, in_line(front, row)) for front, row, record in (*(case for end in (b"\n", b"\r\n", b"\r") for case in shapes(end)), *MIXED))

# The same of a name that is near to others, and of a header.
FACTS = (
    (b"city,month,pay,hours\nLyno,Jan,1,1\n", 'facts row 1 is line 2: city "Lyno" is no member of the dimension region, did you mean "Lyon"?\nfacts: row 1 column city: unknown member\n'),
    (b"city,month,pay,hours\nLyon,JAN,1,1\n", 'facts row 1 is line 2: month "JAN" is no member of the dimension time, did you mean "Jan"?\nfacts: row 1 column month: unknown member\n'),
    (b"\r\nCity,month,pay,hours\r\n", 'facts line 2: the columns are "City", "month", "pay", "hours", did you mean "City"?\nfacts: missing column city\n'),
)

# A policy file of the pay cube.
POLICIES = (
    ('measure = [{name = "pay", method = "latice"}]', "measure 1 method", '"latice" is none of "open", "lattice", "parity", did you mean "lattice"?'),
    ('measure = [{name = "hors", method = "open"}]', "measure 1 name", '"hors" is none of "pay", "hours", did you mean "hours"?'),
    ('measure = [{name = "pay", level = 1}]', "measure 1 level", '"level" is none of "name", "method"'),
    ("measures = 1", "measures", '"measures" is none of "measure", "object", did you mean "measure"?'),
    (FIRST + 'measure = "wage"', "object 2 measure", '"wage" is none of "pay", "hours"'),
    (FIRST + 'measure = "pay"\nbelow = {regoin = "city"}', "object 2 below regoin", '"regoin" is none of "region", "time", did you mean "region"?'),
    (FIRST + 'measure = "pay"\nbelow = {region = "ciyt"}', "object 2 below region", '"ciyt" is none of "city", "area", "all", did you mean "city"?'),
    (FIRST + 'measure = "pay"\nbelow = {}\nslice = {times = {}}', "object 2 slice times", '"times" is none of "region", "time", did you mean "time"?'),
    (FIRST + 'measure = "pay"\nbelow = {}\nslice = {time = {level = "day"}}', "object 2 slice time level", '"day" is none of "month", "quarter"'),
    (FIRST + 'measure = "pay"\nbelow = {}\nslice = {time = {levels = "month"}}', "object 2 slice time levels", '"levels" is none of "level", "members", did you mean "level"?'),
    (FIRST + 'measure = "pay"\nbelow = {}\nslice = {region = {level = "city", members = ["Nice", "Pairs"]}}', "object 2 slice region members 2", '"Pairs" is none of "Lyon", "Nice", "Paris", did you mean "Paris"?'),
)

# What helps against a limit.
LIMITS = (
    ({**PAY, "dims": f"dimension = [{', '.join(['{}'] * 9)}]"}, "limit dimensions: leave a dimension out, and facts are added up over it\ndims: limit dimensions 8\n"),
    ({**PAY, "policy": BOTH + OBJECT * 65}, "limit objects: leave out objects whose cells another one protects too\npolicy: limit objects 64\n"),
)

# A query that is refused, and its note.
QUERIES = (
    ("slice pay by city", "city is a level of region: write region.city\n"),
    ("cell pay city=Lyon", "city is a level of region: write region.city\n"),
    ("slice pay by region.area where month=Jan", "month is a level of time: write time.month\n"),
    ("slice pay by time", "time is a dimension: write a level of it, as time.month\n"),
    ("slice pya by time.month", '"pya" is none of "pay", "hours", "count", did you mean "pay"?\n'),
    ("slice pay by tmie.month", '"tmie" is none of "region", "time", did you mean "time"?\n'),
    ("slice pay by time.mnth", '"mnth" is none of "month", "quarter", did you mean "month"?\n'),
    ("cell pay region.city=paris", '"paris" is none of "Lyon", "Nice", "Paris", did you mean "Paris"?\n'),
    ("cell pay region.city=Rome", '"Rome" is none of "Lyon", "Nice", "Paris"\n'),
    ("slice pay", ""),
    ("slice city", ""),
)
