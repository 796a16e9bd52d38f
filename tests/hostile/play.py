"""Plays the rows of streams.py to `cube replay`, and holds each log to the expected bytes.

Each row's stream is played whole, in pieces of one byte, and in two and in three pieces, cut at each place of a short stream
and at 50 places of a long one, each time on a connection of its own. Behind a row whose last reply leaves the connection open comes
one request more, which has to be answered; behind one that closes it comes the same, and nothing may be said.
"""

import subprocess

from replies import COUNT, WAITS
from servers import CUBE, Wrong, check
from streams import GET

PATIENCE = 60
PIECE = 65_536
SHORT = 1_000
PLACES = 50
# A script is no longer than this, but for one way that is: a file of 64 MiB is read.
LONGEST = 1 << 25

DIMS = """[[dimension]]
name = "region"
levels = ["city", "area"]
paths = [["Lyon", "South"], ["Nice", "South"], ["Paris", "North"]]
[[measure]]
name = "pay"
"""
FACTS = "city,pay\nLyon,10\nLyon,20\nNice,30\nParis,40\nParis,50\n"
POLICY = '[[measure]]\nname = "pay"\nmethod = "open"\n'


def in_pieces(stream, length):
    return [stream[at:at + length] for at in range(0, len(stream), length)]


def places(length):
    """Where a stream of this length is cut."""
    if length <= SHORT:
        return range(1, length)
    return sorted({1 + (length - 2) * step // (PLACES - 1) for step in range(PLACES)})


def cuts(stream):
    """All ways in which a stream is played, each with its name."""
    yield "whole", in_pieces(stream, PIECE)
    yield "in pieces of one byte", in_pieces(stream, 1)
    for at in places(len(stream)):
        yield f"cut at byte {at}", in_pieces(stream[:at], PIECE) + in_pieces(stream[at:], PIECE)
        first = at // 2
        yield f"cut at bytes {first} and {at}", in_pieces(stream[:first], PIECE) + in_pieces(stream[first:at], PIECE) + in_pieces(stream[at:], PIECE)


def script_of(connection, pieces):
    lines = [f"data {connection} {piece.hex()}\n" for piece in pieces]
    return "".join([f"open {connection}\n", *lines, f"close {connection}\n"])


def log_of(connection, replies):
    """What the log has of a connection: a line and the bytes of each send, and a line where it is closed."""
    log = b""
    for reply in replies:
        for sent in reply.sends():
            log += b"sent %d %d\n%b\n" % (connection, len(sent), sent)
        if reply.closes:
            log += b"shut %d\n" % connection
    return log


def with_one_more(stream, replies):
    """A row's stream and what is said to it, with one request behind it."""
    if replies and replies[-1] is WAITS:
        return stream, replies[:-1]
    is_closed = bool(replies) and replies[-1].closes
    return stream + GET, [*replies, *[COUNT] * (not is_closed)]


def played(rows):
    """Each connection that the rows make: its name, its script and its log."""
    connection = 0
    for name, stream, *replies in rows:
        stream, replies = with_one_more(stream, replies)
        for cut, pieces in cuts(stream):
            yield f"{name}, {cut}", script_of(connection, pieces), log_of(connection, replies)
            connection += 1


def replay(folder, script):
    """Plays a script: the status, the log, and the text."""
    words = [CUBE, "replay"]
    for option, text in (("dims", DIMS), ("facts", FACTS), ("policy", POLICY), ("script", script)):
        (folder / option).write_bytes(text if isinstance(text, bytes) else text.encode())
        words += [f"--{option}", folder / option]
    words += ["--journal", folder / "journal"]
    done = subprocess.run(words, stdin=subprocess.DEVNULL, capture_output=True, timeout=PATIENCE, check=False)
    return done.returncode, done.stdout, done.stderr


def in_scripts(ways):
    """The ways in lists, each of which makes a script that is read."""
    some, size = [], 0
    for way in ways:
        if size + len(way[1]) > LONGEST and some:
            yield some
            some, size = [], 0
        some.append(way)
        size += len(way[1])
    yield some


def play(folder, rows):
    """Plays all rows of a group in as few scripts as hold them: in how many ways."""
    many = 0
    for ways in in_scripts(played(rows)):
        play_script(folder, many, ways)
        many += len(ways)
    return many


def play_script(folder, first, ways):
    """Plays ways, whose connections have the numbers from the first one on."""
    status, written, text = replay(folder, "".join(script for _, script, _ in ways))
    check(status == 0, f"replay ended with {status}: {text.decode()}")
    at = 0
    for number, (name, _, log) in enumerate(ways, first):
        came = written[at:at + len(log)]
        if came != log:
            came = written[at:].split(b"sent %d " % (number + 1))[0]
            raise Wrong(f"{name}:\nexpected {shown(log)}\ncame     {shown(came)}")
        at += len(log)
    check(at == len(written), f"more than the log: {shown(written[at:])}")


def shown(log):
    return repr(log if len(log) <= 2_000 else log[:2_000] + b"..")[1:]
