"""Runs the program, holds every run to what is documented of all runs, and reads what it wrote."""

import contextlib
import os
import re
import subprocess
import sys
import threading
from dataclasses import dataclass

sys.path.insert(0, os.path.join(os.path.dirname(os.path.abspath(__file__)), ".."))

from servers import CUBE, address_of, start  # noqa: E402

SECONDS = 60

# the notes on a journal that is opened and on what is refused, and the text on standard error behind each exit status
NOTES = rb"(.+: (new|entries \d+|nothing is protected|\d+ cells? of \(.*\) may be one person's)\n|.+ line \d+: [^\n]*\n|limit [a-z]+: [^\n]+\n|[^\n]* is none of [^\n]+\n|[^\n]+ is a (level|dimension)[^\n]*: write [^\n]+\n)*"
ENDINGS = {
    0: rb"",
    2: rb"usage: .*\n",
    3: rb"(dims|facts|policy|cell): .+\n|script: line \d+\n|made: unread\n",
    4: rb"journal: (line \d+ (damaged|inadmissible)|too long)\n|journal: seal damaged\n(a seal .+\n)?"
    rb"|journal: (digest [0-9a-f]{64} is not|values [0-9a-f]{64} are not) [0-9a-f]{64}\nthe journal was begun .+\n",
    5: rb"(.+: .+\n)?cannot read .+\n|input failed\n",
    9: rb"(.+: .+\n)*store failed\n",
    10: rb"spent: (room for sends, )?\d+ requests, \d+ (bytes|events)\n",
}

PLACES = rb"\(.*\)"
SYNTAX = rb"(syntax|(unknown (measure|dimension|level|member)|dimension twice|backwards)) at byte \d+\n"

# the body behind each status of a reply; an answer is held to plain addition
BODIES = {
    200: rb".*",
    400: SYNTAX + rb"|not a cell of a measure\n",
    403: rb"source: the cuboid " + PLACES + rb" does not cut the cell " + PLACES + rb"\n"
    rb"|single: link \d+, " + PLACES + rb", fixes the cell " + PLACES + rb"\n"
    rb"|pair: link \d+, " + PLACES + rb" and " + PLACES + rb", fixes the cell " + PLACES + rb"\n",
    404: SYNTAX + rb"|empty cell\n|not protected\n",
    413: rb"too large\n",
}


class Failure(Exception):
    """What a check found."""


def demand(holds, what):
    if not holds:
        raise Failure(what)


@dataclass
class Result:
    status: int
    out: bytes
    err: bytes


def run(words, given=b""):
    """Runs the program to its end; a run that a signal ends, or that ends in no documented way, is a failure."""
    try:
        done = subprocess.run([CUBE, *words], input=given, capture_output=True, timeout=SECONDS)
    except subprocess.TimeoutExpired:
        raise Failure(f"no end within {SECONDS} seconds: {words}") from None
    status, text = done.returncode, done.stderr
    demand(status >= 0, f"ended by signal {-status}: {words}: {text}")
    demand(status in ENDINGS, f"ended with status {status}: {words}: {text}")
    found = re.fullmatch(NOTES + rb"(?P<text>" + ENDINGS[status] + rb")", text, re.DOTALL)
    demand(found, f"status {status} with the text {text}: {words}")
    return Result(status, done.stdout, found["text"])


def expect(status, words, given=b""):
    result = run(words, given)
    demand(result.status == status, f"status {result.status} and not {status}: {words}: {result.err}")
    return result.out


@contextlib.contextmanager
def served(words):
    """A server, for as long as it is asked; its address."""
    with start(words) as server:
        bound = threading.Timer(SECONDS, server.kill)
        bound.start()
        try:
            yield address_of(server)
            demand(server.poll() is None, f"the server ended: {words}: {server.returncode}")
        finally:
            bound.cancel()
            server.kill()


def read_replies(out):
    """The replies of `ask`: a status and a body each."""
    replies, at = [], 0
    while at < len(out):
        end = out.index(b"\n", at)
        status, length = out[at:end].split(b" ")
        at = end + 1 + int(length)
        replies.append((int(status), out[end + 1:at]))
    demand(at == len(out), "the last reply is cut off")
    return replies


def see_reply(status, body):
    demand(status in BODIES, f"a reply with status {status}: {body}")
    demand(re.fullmatch(BODIES[status], body, re.DOTALL), f"a reply with status {status} and the body {body}")
