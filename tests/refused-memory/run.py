#!/usr/bin/env python3
"""Refused memory: what the program does where the machine refuses it memory.

Each command runs once for each allocation that it makes, which is refused alone, and once more in which all behind it are
refused too, up to the 2,000th allocation or to another number that is given. What a run may do:

- It ends with status 7 and has written nothing. The journal holds what it held, and the next run goes as this one would
  have gone.
- It ends with status 0. Each reply is the right one or `no memory`, and what got `no memory` is as if it had not been
  asked: the other replies and the bytes of the journal are those of a run over the other asks alone. The journal opens
  again, what was answered is answered again and what was refused is refused, and no line comes.

Runs that do something else are told, and end the script with status 1. Needs Linux, Python 3 and a C compiler; the program
is the environment's CUBE.
"""

import collections
import dataclasses
import mmap
import os
import pathlib
import struct
import subprocess
import sys
import tempfile

HERE = pathlib.Path(__file__).resolve().parent
sys.path.insert(0, str(HERE.parent))

from servers import CUBE, Wrong, build, check  # noqa: E402
from small import PAY  # noqa: E402

BUILT = HERE.parent.parent / "crates" / "cube_app" / "out" / "cube_app"
LIMIT = 2_000
PATIENCE = 60
TOLD = 20
NO_MEMORY = b"no memory\n"
NOTHING = {7: NO_MEMORY}

MONTHS, AREAS, COUNT = "slice pay by time.month", "slice pay by region.area", "cell count"
CELL = "cell pay region.city=Lyon, time.month=Feb"
UNCUT = b"source: the cuboid (region.area, time.month) does not cut the cell (region.city=Lyon, time.month=Feb)\n"
FIXED = b"single: link 2, (region.city=Nice, time.month=Jan), fixes the cell (region.city=Lyon, time.month=Jan)\n"

# What is asked in turn, and what the rules say to it.
TALK = {
    MONTHS: (200, b"time.month,pay\nJan,80\nFeb,70\n"),
    AREAS: (403, UNCUT),
    f"witness {CELL}": (200, b"region.city,time.month,change\nLyon,Feb,1\nParis,Feb,-1\n"),
    "range hours region.city=Lyon..Nice, time.month=Jan..Jan": (200, b"hours\n4\n"),
    "range hours region.city=Lyon..Nice, time.month=Jan..Feb": (403, FIXED),
    "slice pay by time.quarter": (200, b"time.quarter,pay\nQ1,150\n"),
    COUNT: (200, b"count\n5\n"),
}
# Half of a request comes on connection 1, a whole one on connection 2, then the rest and a whole one more on connection 1.
TALK_BY_HALVES = {
    AREAS: (200, b"region.area,pay\nSouth,60\nNorth,90\n", 2),
    MONTHS: (403, UNCUT, 1),
    COUNT: (200, b"count\n5\n", 1),
}
HALF = 40
CHECKED = b"""dimensions 2
measures 2
facts 5
points 5
full no
cuboids 9
protected 10
digest 01cc05c51708ba724760e034417a40d7a9d58c4104f5da1b41a454b7f8924fcb
"""
CHANGES = b"region.city,time.month,change\nLyon,Feb,1\nParis,Feb,-1\n"
TWIN = b"city,month,pay,hours\nLyon,Jan,10,1\nLyon,Feb,21,2\nNice,Jan,30,3\nParis,Jan,40,4\nParis,Feb,49,5\n"


# What the program notes of a look at a file that found no memory. It looks again at the next call.
RETRIED = b": out of memory\n"


def without_retries(said):
    return b"".join(line for line in said.splitlines(keepends=True) if not line.endswith(RETRIED))


# ---- one run

@dataclasses.dataclass(frozen=True)
class Journal:
    """The bytes of a journal and of the seal beside it; none where the file is not there."""

    log: bytes | None = None
    seal: bytes | None = None


@dataclasses.dataclass(frozen=True)
class Ran:
    status: int
    written: bytes
    said: bytes
    journal: Journal


class Program:
    """The program over the files of a folder."""

    def __init__(self, folder):
        with open(CUBE, "rb") as file:
            self.path = CUBE if file.read(4) == b"\x7fELF" else BUILT
        self.folder = folder
        for name, text in PAY.items():
            (folder / name).write_text(text)
        self.files = [f"--{name}={folder / name}".split("=", 1) for name in ("dims", "facts", "policy")]
        library = folder / "refuse.so"
        compiler = [os.environ.get("CC", "cc"), "-O2", "-fPIC", "-shared", "-fno-builtin"]
        subprocess.run([*compiler, "-o", library, HERE / "refuse.c"], check=True)
        (folder / "tally").write_bytes(bytes(32))
        with open(folder / "tally", "r+b") as file:
            self.tally = mmap.mmap(file.fileno(), 32)
        self.where = {"LD_PRELOAD": str(library), "REFUSED": str(folder / "tally")}

    def run(self, words, given, journal, refused=(0, 0)):
        """Runs to the end over a journal, and is refused the allocations of this range."""
        log, seal = self.folder / "journal", self.folder / "journal.seal"
        for path, held in (log, journal.log), (seal, journal.seal):
            path.unlink(missing_ok=True)
            if held is not None:
                path.write_bytes(held)
        self.tally[:] = struct.pack("4Q", *refused, 0, 0)
        words = [str(word) for pair in [[self.path], *words] for word in pair]
        done = subprocess.run(words, input=given, capture_output=True, timeout=PATIENCE, env=self.where)
        left = Journal(*(path.read_bytes() if path.exists() else None for path in (log, seal)))
        return Ran(done.returncode, done.stdout, done.stderr, left)

    def counts(self):
        """How many allocations the last run made, and how many of them were refused."""
        return struct.unpack("4Q", self.tally[:])[2:]


# ---- commands

class Ask:
    """`ask`, with a line for each ask."""

    talk = TALK

    def __init__(self, program):
        self.program = program

    def run(self, asks, journal, refused=(0, 0)):
        given = "".join(f"{ask}\n" for ask in asks).encode()
        words = [["ask"], *self.program.files, ["--journal", self.program.folder / "journal"]]
        return self.program.run(words, given, journal, refused)

    def replies(self, text):
        """Status and body of each reply."""
        replies = []
        while text:
            head, _, text = text.partition(b"\n")
            status, length = map(int, head.split())
            check(len(text) >= length, "a reply is cut off")
            replies.append((status, text[:length]))
            text = text[length:]
        return replies


class Replay(Ask):
    """`replay`, with a request of a script for each ask."""

    talk = TALK_BY_HALVES

    def run(self, asks, journal, refused=(0, 0)):
        script = self.program.folder / "script"
        script.write_text(self.script(asks))
        words = [["replay"], *self.program.files, ["--journal", self.program.folder / "journal"], ["--script", script]]
        return self.program.run(words, b"", journal, refused)

    def script(self, asks):
        first, second, third = (request(ask) if ask in asks else b"" for ask in (MONTHS, AREAS, COUNT))
        pieces = (1, first[:HALF]), (2, second), (1, first[HALF:] + third)
        return "open 1\nopen 2\n" + "".join(f"data {c} {piece.hex()}\n" for c, piece in pieces if piece)

    def replies(self, text):
        """Status, body and connection of each response, whose head and body are a send each."""
        sends = []
        while text:
            head, _, text = text.partition(b"\n")
            word, connection, length = head.split()
            check(word == b"sent" and text[int(length):][:1] == b"\n", f"no send: {head}")
            sends.append((int(connection), text[:int(length)]))
            text = text[int(length) + 1:]
        check(len(sends) % 2 == 0, "a head without a body")
        return [response(*sends[at], *sends[at + 1]) for at in range(0, len(sends), 2)]


def response(connection, head, other, body):
    status = int(head[9:12])
    kind = "csv" if status == 200 else "plain"
    fields = f"Content-Type: text/{kind}; charset=utf-8\r\nContent-Length: {len(body)}\r\n\r\n".encode()
    check(connection == other and head.split(b"\r\n", 1)[1] == fields, f"another head: {head}")
    return status, body, connection


def request(ask):
    return f"GET /v1/query?q={ask.replace(' ', '%20')} HTTP/1.1\r\nHost: cube\r\n\r\n".encode()


class Whole(Ask):
    """A command that writes all of its text or nothing."""

    def __init__(self, program, command, text):
        super().__init__(program)
        self.command, self.talk = command, {command[0]: (200, text)}

    def run(self, asks, journal, refused=(0, 0)):
        words = [self.command[:1], *self.program.files]
        if self.command[1:]:
            words += [["--journal", self.program.folder / "journal"], self.command[1:]]
        return self.program.run(words, b"", journal, refused)

    def replies(self, text):
        return [(200, text)] if text else []


# ---- what a run did

class Trial:
    """A command over a journal that a few asks began."""

    def __init__(self, name, command, begun=()):
        self.name, self.command, self.ask, self.begun = name, command, Ask(command.program), list(begun)
        self.plain, self.asks = {}, list(command.talk)
        self.before = self.over(self.ask, begun, Journal()).journal if begun else Journal()
        whole = command.run(self.asks, self.before)
        self.allocations = command.program.counts()[0]
        check(whole == self.over(command, self.asks, self.before), f"{name} twice: {whole}")
        check((whole.status, command.replies(whole.written)) == (0, list(command.talk.values())), f"{name}: {whole}")

    def over(self, command, asks, journal):
        """A run over these asks and this journal with all memory there is; each is run once."""
        key = command, tuple(asks), journal
        if key not in self.plain:
            self.plain[key] = command.run(asks, journal)
        return self.plain[key]

    def refuse(self, first, last):
        """Refuses a range of allocations, and says what came of it; nothing where none was refused."""
        ran = self.command.run(self.asks, self.before, (first, last))
        if not self.command.program.counts()[1]:
            return None
        if ran.status in NOTHING:
            return self.look_at_nothing(ran)
        check(ran.status == 0, f"status {ran.status}, {ran.said}")
        return self.look_at_replies(ran)

    def look_at_nothing(self, ran):
        """Nothing was written or kept, and the next run goes as this one would have gone."""
        check(ran.written == b"", f"status {ran.status} behind {ran.written}")
        opened = self.over(self.ask, [], self.before).journal
        check(is_begun(ran.journal.log, self.before.log, opened.log), f"{self.before.log}, and then {ran.journal.log}")
        check(is_begun(ran.journal.seal, self.before.seal, opened.seal), f"{self.before.seal}, and then {ran.journal.seal}")
        whole = self.over(self.command, self.asks, self.before)
        again = self.over(self.command, self.asks, ran.journal)
        same = (again.status, again.written, again.journal) == (0, whole.written, whole.journal)
        check(same, f"behind {ran}: {again}")
        has_text = ran.said.endswith(NOTHING[ran.status])
        check(has_text or ran.status == 7, f"status {ran.status} behind {ran.said}")
        return f"status {ran.status}" if has_text else f"status {ran.status} without a text"

    def look_at_replies(self, ran):
        """What found no memory is as if it was not asked, and the others are as ever."""
        replies = self.command.replies(ran.written)
        check(len(replies) == len(self.asks), f"{len(replies)} replies to {len(self.asks)} asks")
        told = {ask: reply for ask, reply in zip(self.asks, replies) if reply[:2] != (500, NO_MEMORY)}
        plain = self.over(self.command, told, self.before)
        check(list(told.values()) == self.command.replies(plain.written), f"{replies}, and not {plain.written}")
        check(ran.journal == plain.journal, f"{ran.journal}, and not {plain.journal}")
        check(without_retries(ran.said) == plain.said, f"{ran.said}, and not {plain.said}")
        self.look_again(ran.journal, told)
        missed = len(self.asks) - len(told)
        return f"{missed} of {len(self.asks)} without memory" if missed else "as ever"

    def look_again(self, journal, told):
        """What was answered is answered again, what was refused is refused, and no line comes."""
        if journal.log is None:
            return
        asks = self.begun + [ask for ask in told if ask in TALK]
        again = self.over(self.ask, asks, journal)
        check((again.status, again.journal) == (0, journal), f"behind {journal}: {again}")
        for ask, reply in zip(asks, self.ask.replies(again.written), strict=True):
            status, body = told.get(ask, reply)[:2]
            same = reply[1] == body or ask.startswith("witness")
            check(reply[0] == status and same, f"{ask}: {status} {body}, and then {reply}")


def is_begun(left, before, opened):
    """A file is as it was; where it was not there, it may be begun or as it is once it was opened."""
    return left == before or before is None and left in (b"", opened)


def try_all(trial, limit, alone):
    """Refuses each allocation in turn: what came of it, and what was wrong."""
    came, wrong = collections.Counter(), []
    for number in range(1, limit + 1):
        try:
            what = trial.refuse(number, number if alone else 2**64 - 1)
            if what is None:
                break
            came[what] += 1
        except (Wrong, ValueError, subprocess.TimeoutExpired) as fault:
            wrong.append(f"allocation {number}: {fault}")
    return came, wrong


def trials(program):
    kept = MONTHS, "range hours region.city=Lyon..Nice, time.month=Jan..Jan"
    yield Trial("ask", Ask(program))
    yield Trial("ask over a journal with entries", Ask(program), kept)
    yield Trial("check", Whole(program, ["check"], CHECKED))
    yield Trial("replay", Replay(program))
    yield Trial("witness", Whole(program, ["witness", "--cell", CELL], CHANGES), kept)
    yield Trial("twin", Whole(program, ["twin", "--cell", CELL], TWIN), kept)


def try_trial(trial, limit):
    print(f"{trial.name}: {trial.allocations:,} allocations", flush=True)
    wrong = 0
    for alone in True, False:
        came, faults = try_all(trial, limit, alone)
        told = ", ".join(f"{many:,} {what}" for what, many in sorted(came.items()))
        print(f"  {'each alone' if alone else 'each and all behind it'}, {sum(came.values()):,} runs: {told}", flush=True)
        for fault in faults[:TOLD]:
            print(f"    {fault}")
        if len(faults) > TOLD:
            print(f"    and {len(faults) - TOLD:,} more")
        wrong += len(faults)
    return wrong


def main():
    limit = int(sys.argv[1]) if sys.argv[1:] else LIMIT
    build()
    with tempfile.TemporaryDirectory() as name:
        try:
            wrong = sum(try_trial(trial, limit) for trial in trials(Program(pathlib.Path(name))))
        except (Wrong, OSError, subprocess.SubprocessError) as fault:
            sys.exit(f"refused memory: {fault}")
    if wrong:
        sys.exit(f"refused memory: {wrong:,} runs did something else")


if __name__ == "__main__":
    main()
