"""Flat fact files and lines, and what `cube sum` says of them, by docs/FORMATS.md ("Flat fact file").

A row has a name, a file, the lines that are asked, and the answers, or the words of the file's first fault. A file is a text,
its bytes, or, where it is large, a function that makes it.
"""

from limits import HEADER, LARGEST, MARK, MOST_FACTS, MOST_FILE, MOST_LINE, MOST_UNITS, TOO_LONG

FLAT = "branch,month,pay\nLyon,Jan,10\nLyon,Feb,-3\nNice,Jan,4\n"
ALL = "*,*\n"
FILES = [
    ("a plain file", FLAT, ALL, "11\n"),
    ("a byte order mark at the front", MARK + FLAT, ALL, "11\n"),
    ("a byte order mark twice", MARK * 2 + FLAT, ALL, "no header"),
    ("a byte order mark in the middle", FLAT.replace("\nLyon", f"\n{MARK}Lyon", 1), "Lyon,*\n", "-3\n"),
    ("CR LF ends each line", FLAT.replace("\n", "\r\n"), ALL, "11\n"),
    ("CR ends each line", FLAT.replace("\n", "\r"), ALL, "11\n"),
    ("no line feed at the end", FLAT[:-1], ALL, "11\n"),
    ("an empty file", "", ALL, "no header"),
    ("line ends alone", "\r\n\n", ALL, "no header"),
    ("one column", "pay\n1\n", "\n", "no header"),
    ("a header alone", "branch,month,pay\n", ALL, "0\n"),
    ("a header of a comma", ",\nLyon,1\n", "Lyon\n", "1\n"),
    ("columns of one name", "a,a,a\nx,y,1\n", "x,y\n", "1\n"),
    ("a field too few", FLAT + "Lyon,1\n", ALL, "row 4 fields"),
    ("a field too many", FLAT + "Lyon,Jan,1,\n", ALL, "row 4 fields"),
    ("a field too few and no number", FLAT + "Lyon,x\n", ALL, "row 4 fields"),
    ("no number", FLAT + "Lyon,Jan,x\n", ALL, "row 4 column pay: not a number"),
    ("no number under a name with a line feed", 'a,"p\ny"\nx,x\n', "*\n", "row 1 column p\ny: not a number"),
    ("decimals that are zeros", FLAT + "Lyon,Jan,1.00\n", ALL, "12\n"),
    ("decimals", FLAT + "Lyon,Jan,1.50\n", ALL, "row 4 column pay: too fine"),
    ("the largest value", FLAT + f"Lyon,Jan,{MOST_UNITS}\n", ALL, f"{MOST_UNITS + 11}\n"),
    ("a larger value", FLAT + f"Lyon,Jan,{MOST_UNITS + 1}\n", ALL, "row 4 column pay: too large"),
    ("a value of 38 digits", FLAT + f"Lyon,Jan,-{'9' * 38}\n", ALL, "row 4 column pay: too large"),
    ("a quote that does not close", FLAT + '"Lyon,Jan,1\n', ALL, "row 4 fields"),
    ("a quote that the end closes", FLAT + 'Lyon,Jan,"1', ALL, "12\n"),
    ("bytes that are no UTF-8", b"a,b\n\xff\0,5\n", b"\xff\0\n\xff\n", "5\n0\n"),
    ("a field of a megabyte", "a,b\n" + "a" * 1_000_000 + ",5\n", "*\n", "5\n"),
    (
        "as many facts as are allowed, of the largest value",
        lambda: HEADER + LARGEST * MOST_FACTS,
        "Lyon\n*\n",
        f"{MOST_UNITS * MOST_FACTS}\n" * 2,
    ),
    ("one fact more", lambda: HEADER + "Lyon,1\n" * (MOST_FACTS + 1), "*\n", f"limit facts {MOST_FACTS}"),
    ("a file of one byte more than the most", lambda: HEADER + "\n" * (MOST_FILE + 1 - len(HEADER)), "*\n", TOO_LONG),
]

LINES = [
    ("no line", FLAT, "", ""),
    ("an empty line", FLAT, "\n", "bad line: fields\n"),
    ("an empty line where there is one column", "a,b\n,5\nx,1\n", "\n", "5\n"),
    ("a blank", FLAT, " ", "bad line: fields\n"),
    ("a line without a line feed", FLAT, "Lyon,*", "7\n"),
    ("lines of all ends", FLAT, "Lyon,*\r\nNice,*\n*,Feb\r", "7\n4\n0\n"),
    ("CR in the middle of a line", FLAT, "Lyon,*\rNice,*\n", "bad line: fields\n"),
    ("two CRs at the end of a line", FLAT, "Lyon,*\r\r\n", "0\n"),
    ("one name of each column", FLAT, "Lyon,Jan\nLyon,Feb\nNice,Feb\n", "10\n-3\n0\n"),
    ("names that nothing has", FLAT, "Rome,*\nlyon,*\n Lyon,*\nLyon ,*\n,\n", "0\n" * 5),
    ("a part too few", FLAT, "Lyon\n", "bad line: fields\n"),
    ("a part too many", FLAT, "Lyon,Jan,10\n*,*,\n", "bad line: fields\n" * 2),
    ("a quote", FLAT, '"Lyon",*\n"\n', "bad line: quote\n" * 2),
    ("stars that are part of a name", FLAT, "L*,*\n**,*\n", "0\n" * 2),
    ("a member that is a star", "a,b\n*,5\nx,1\n", "*\n", "6\n"),
    ("a byte order mark", FLAT, f"{MARK}Lyon,*\n", "0\n"),
    ("bytes that are no UTF-8", FLAT, b"\xff,*\n\0,*\n", "0\n" * 2),
    ("a line of the most bytes", FLAT, "L" * (MOST_LINE - 2) + ",*\n", "0\n"),
    ("a line of one more", FLAT, "L" * (MOST_LINE - 1) + ",*\nLyon,*\n", "bad line: too long\n7\n"),
    ("a line of one more with a quote", FLAT, '"' * (MOST_LINE + 1), "bad line: too long\n"),
    ("a line of the most bytes and a CR LF", FLAT, "L" * (MOST_LINE - 2) + ",*\r\n", "0\n"),
    ("a line of ten megabytes", FLAT, "L" * 10_000_000 + "\nLyon,*\n", "bad line: too long\n7\n"),
    ("10,000 lines", FLAT, "Lyon,*\n" * 10_000, "7\n" * 10_000),
]
