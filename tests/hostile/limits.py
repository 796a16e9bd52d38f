"""Marks and limits that the tables of files use, by docs/FORMATS.md."""

MARK = "\ufeff"
MOST_FILE = 67_108_864
MOST_FACTS = 1_000_000
MOST_LEAVES = 65_536
MOST_POINTS = 65_536
MOST_UNITS = 1_000_000_000_000
MOST_LINE = 65_536
TOO_LONG = f"limit file {MOST_FILE}"

# the header of a fact file of a city and its pay, and a fact of the largest value
HEADER = "city,pay\n"
LARGEST = f"Lyon,{MOST_UNITS}\n"
