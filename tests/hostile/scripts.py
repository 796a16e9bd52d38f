"""Scripts of connections, and what `cube replay` says of them, by docs/FORMATS.md ("Scripts").

A row has a name, a script, and the log that is written, or the number of the line that is refused. A script is a text, its
bytes, or, where it is large, a function that makes it.
"""

from limits import MARK, MOST_FILE, TOO_LONG
from play import log_of
from replies import BAD, BUSY, COUNT
from streams import GET

MOST_PIECE = 65_536
MOST_CONNECTIONS = 64
ASK = f"data 0 {GET.hex()}\n"
PLAYED = log_of(0, [COUNT])
ALL_OPEN = "".join(f"open {number}\n" for number in range(MOST_CONNECTIONS))


def in_turn(*lines):
    return "".join(line + "\n" for line in lines)


def asked(connection, stream=GET):
    return f"data {connection} {stream.hex()}"


LINES = [
    ("a plain script", "open 0\n" + ASK + "close 0\n", PLAYED),
    ("an empty script", "", b""),
    ("no close", "open 0\n" + ASK, PLAYED),
    ("an empty line", "\n", 1),
    ("an empty line at the end", "open 0\n\n", 2),
    ("no line feed at the end", "open 0\nclose 0", 2),
    ("CR LF", "open 0\r\n", 1),
    ("CR alone", "open 0\rclose 0\r", 1),
    ("a byte order mark", MARK + "open 0\n", 1),
    ("a NUL", "open 0\0\n", 1),
    ("bytes that are no UTF-8", b"open \xff\n", 1),
    ("a comment", "# open\nopen 0\n", 1),
    ("a blank before a line", " open 0\n", 1),
    ("a blank behind a line", "open 0 \n", 1),
    ("two blanks", "open  0\n", 1),
    ("a tab", "open\t0\n", 1),
    ("a word in capitals", "OPEN 0\n", 1),
    ("another word", "sent 0 00\n", 1),
    ("a word alone", "open\n", 1),
    ("a word too many", "open 0 0\n", 1),
    ("a word too many behind the bytes", "open 0\ndata 0 00 00\n", 2),
    ("no number", "open x\n", 1),
    ("a zero before a number", "open 00\n", 1),
    ("a plus before a number", "open +0\n", 1),
    ("a minus before a number", "open -1\n", 1),
    ("a number in hexadecimal", "open a\n", 1),
    ("a number in Arabic-Indic digits", "open ٠\n", 1),
    ("the largest number", in_turn("open 4294967295", asked(4294967295)), log_of(4294967295, [COUNT])),
    ("a larger number", "open 4294967296\n", 1),
    ("2^64", f"open {2**64}\n", 1),
    ("no bytes", "open 0\ndata 0\n", 2),
    ("no bytes behind a blank", "open 0\ndata 0 \n", 2),
    ("half a byte", "open 0\ndata 0 0\n", 2),
    ("half a byte more", "open 0\ndata 0 000\n", 2),
    ("letters that are no digits", "open 0\ndata 0 0g\n", 2),
    ("digits behind 0x", "open 0\ndata 0 0x00\n", 2),
    ("digits in capitals", "open 0\n" + ASK.upper().replace("DATA", "data"), PLAYED),
    ("as many bytes as are allowed", f"open 0\ndata 0 {'0a' * (MOST_PIECE - len(GET))}{GET.hex()}\n", PLAYED),
    ("one byte more", f"open 0\ndata 0 {'0a' * (MOST_PIECE - len(GET) + 1)}{GET.hex()}\n", 2),
    ("a bad line behind a request", "open 0\n" + ASK + "x\n", 3),
    ("two bad lines", "open 0\nx\ny\n", 2),
    ("a file of one byte more than the most", lambda: "\n" * (MOST_FILE + 1), TOO_LONG),
]

HALF, REST = GET[:40], GET[40:]
EVENTS = [
    ("bytes before it opens", in_turn(asked(0), "open 0"), b""),
    ("bytes behind its close", in_turn("open 0", "close 0", asked(0)), b""),
    ("bytes behind a reply that closes it", in_turn("open 0", asked(0, b"GET\n\n"), asked(0)), log_of(0, [BAD])),
    ("opened again behind a reply that closes it", in_turn("open 0", asked(0, b"GET\n\n"), "open 0", asked(0)), log_of(0, [BAD, COUNT])),
    ("a close before it opens", in_turn("close 0", "open 0", asked(0)), PLAYED),
    ("two closes", in_turn("open 0", asked(0), "close 0", "close 0"), PLAYED),
    ("opened again", in_turn("open 0", asked(0), "close 0", "open 0", asked(0)), PLAYED * 2),
    ("opened again within a request", in_turn("open 0", asked(0, HALF), "open 0", asked(0)), PLAYED),
    ("closed within a request, and opened again", in_turn("open 0", asked(0, HALF), "close 0", "open 0", asked(0)), PLAYED),
    ("halves of two requests", in_turn("open 0", "open 1", asked(0, HALF), asked(1), asked(0, REST)), log_of(1, [COUNT]) + PLAYED),
    ("a half on another connection", in_turn("open 0", "open 1", asked(0, HALF), asked(1, REST)), log_of(1, [BAD])),
    ("as many connections as may be open", ALL_OPEN + in_turn(asked(63), asked(0)), log_of(63, [COUNT]) + PLAYED),
    ("one more", ALL_OPEN + in_turn("open 64", asked(64), asked(0)), log_of(64, [BUSY]) + PLAYED),
    ("one more behind a close", ALL_OPEN + in_turn("close 7", "open 64", asked(64)), log_of(64, [COUNT])),
    ("one more behind a reply that closes", ALL_OPEN + in_turn(asked(7, b"GET\n\n"), "open 64"), log_of(7, [BAD])),
    ("one of them opened again", ALL_OPEN + in_turn("open 7", asked(7)), log_of(7, [COUNT])),
]
