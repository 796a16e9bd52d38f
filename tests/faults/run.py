#!/usr/bin/env python3
"""Faults of files and of queries, names in texts, and made cubes: what the program says of each, word for word.

The cases stand in dimensions.py, policies.py, queries.py and notes.py, each with what is expected by docs/FORMATS.md; made.py makes the cubes of
`demo` once more, so that its summary can be held to what `check` and `ask` say of them. Each case that comes out otherwise is
named, and then the script ends with status 1. Needs Python 3 alone, and a few seconds; the program is the environment's CUBE.
"""

import hashlib
import pathlib
import re
import subprocess
import sys
import tempfile

sys.path.insert(0, str(pathlib.Path(__file__).resolve().parent.parent))

import dimensions  # noqa: E402
import made  # noqa: E402
import notes  # noqa: E402
import policies  # noqa: E402
import queries  # noqa: E402
from servers import CUBE, build  # noqa: E402
from small import PAY  # noqa: E402

PATIENCE = 60
# the first line of a reply: its status and the length of its body
REPLY = re.compile(rb"(\d{3}) (\d+)\n")
# the notes on a file that is no document, on a limit, and on what is unknown in a policy file
NOTE = re.compile(
    rb"\A(?:(?:dims|policy) line \d+: .*\n(?=(?:dims|policy): not toml\n\Z)|limit [a-z]+: [^\n]+\n(?=(?:dims|policy): limit )"
    rb"|policy .*: .* is none of .*\n(?=policy: unknown [^\n]*\n\Z))",
    re.DOTALL,
)


def as_bytes(text):
    return text if isinstance(text, bytes) else text.encode()


class Cases:
    """The cases that were tried, and how many came out otherwise."""

    def __init__(self, folder):
        self.folder = folder
        self.held = {}
        self.count = 0
        self.wrong = 0

    def hold(self, name, expected, came):
        self.count += 1
        if expected != came:
            self.wrong += 1
            print(f"wrong: {name}: expected {shown(expected)}, came {shown(came)}", file=sys.stderr)

    def run(self, command, files, given=b"", more=()):
        """A run over files, and over a new journal where it takes one: its status, what it wrote, and its text."""
        status, out, said = self.noted(command, files, given, more)
        return status, out, NOTE.sub(b"", said)

    def noted(self, command, files, given=b"", more=()):
        """The same, with the notes before its text."""
        words = [CUBE, command]
        for kind, file in files.items():
            if self.held.get(kind) != file:
                (self.folder / kind).write_bytes(as_bytes(file))
                self.held[kind] = file
            words += [f"--{kind}", kind]
        if command in ("ask", "why"):
            for left in self.folder.glob("journal*"):
                left.unlink()
            words += ["--journal", "journal"]
        ran = subprocess.run([*words, *more], cwd=self.folder, input=as_bytes(given), capture_output=True, timeout=PATIENCE, check=False)
        return ran.returncode, ran.stdout, ran.stderr

    def ask(self, files, lines):
        """The status and the body of the reply to each line."""
        status, out, _ = self.run("ask", files, b"".join(as_bytes(line) + b"\n" for line in lines))
        replies = []
        while head := REPLY.match(out):
            body = head.end() + int(head[2])
            replies.append((int(head[1]), out[head.end():body]))
            out = out[body:]
        self.hold(f"ask of {len(lines)} lines, from {shown(lines[0])}", (0, len(lines), b""), (status, len(replies), out))
        return replies

    def asked(self, name, files, rows):
        """Lines, each with the status and the body of its reply, in one run."""
        for (line, status, body), reply in zip(rows, self.ask(files, [line for line, _, _ in rows])):
            self.hold(f"{name}: {shown(line)}", (status, as_bytes(body)), reply)

    def kept(self, files, query):
        """The texts by which a new journal keeps a query that is answered."""
        codes = [code for code, _ in self.ask(files, [query])]
        journal = self.folder / "journal"
        return codes, journal.read_bytes().split(b"\n")[1:] if journal.exists() else []


def shown(value):
    text = repr(value)
    return text if len(text) <= 400 else f"{text[:400]}.."


# ---- files

def dimension_files(cases):
    """Where the dimension file has no fault that of the fact file is named, which has no header."""
    for name, file_of, rows in dimensions.CASES:
        for row, words in rows:
            text = "facts: no header\n" if words == "accepted" else f"dims: {words}\n"
            came = cases.run("check", {"dims": file_of(row), "facts": "", "policy": ""})
            cases.hold(f"{name}: {shown(row)}", (3, b"", text.encode()), came)
    for files, line, status, body in dimensions.READ:
        cases.asked("what is read of a dimension file", files, [(line, status, body)])


def policy_files(cases):
    sizes = b"dimensions 2\nmeasures 2\nfacts 5\npoints 5\nfull no\ncuboids 9\nprotected "
    for name, rows in policies.CASES:
        for front, back, words in rows:
            status, out, text = cases.run("check", {**PAY, "policy": as_bytes(front) + as_bytes(back)})
            case = f"{name}: {shown(front)}, {shown(back)}"
            if words == "accepted":
                cases.hold(case, (0, sizes), (status, out[:len(sizes)]))
            else:
                cases.hold(case, (3, b"", f"policy: {words}\n".encode()), (status, out, text))
    for name, files, text in policies.READ:
        cases.hold(name, (0, digest_line(text)), digest_in(cases.run("check", files)))


def digest_line(text):
    return f"digest {hashlib.sha256(text.encode()).hexdigest()}".encode()


def digest_in(came):
    """The status of a run of `check`, and the last line that it wrote."""
    status, out, _ = came
    return status, out.split(b"\n")[-2] if out.endswith(b"\n") else out


# ---- queries and names

def query_texts(cases):
    cases.asked("faults are named at their bytes", PAY, queries.FAULTS)
    cases.asked("the count is asked for", queries.UNGUARDED, queries.COUNTED)
    for files, rows in ((queries.UNGUARDED, queries.PRINTED), (queries.ODD, queries.QUOTED)):
        for text, printed in rows:
            cases.hold(f"requests print in one way: {shown(text)}", ([200], [f"q {printed}".encode(), b""]), cases.kept(files, text))


def names(cases):
    cases.hold("names in quotes", (0, digest_line(queries.NAMED_TEXT)), digest_in(cases.run("check", queries.NAMED)))
    cases.asked("names as fields", queries.NAMED, [("slice count by d.name", 200, queries.NAMED_ANSWER)])
    for place, (name, quoted, printed, _) in enumerate(queries.NAMES):
        for text in (quoted, printed):
            case = f"names are written and read back: {shown(name)} as {text}"
            cases.asked(case, queries.NAMED, [(f"cell v d.name={text}", 200, f"v\n{place}\n")])
            cases.hold(case, ([200], [f"q cell v d.name={printed}".encode(), b""]), cases.kept(queries.NAMED, f"cell v d.name={text}"))
    cases.asked("other texts are no names", queries.NAMED, queries.NO_NAMES)


# ---- notes

def notes_on_files(cases):
    for file, said in (*notes.LINES, *notes.FACTS):
        cases.hold(f"notes on a fact file: {shown(file)}", (3, b"", as_bytes(said)), cases.noted("check", {**PAY, "facts": file}))
    for policy, key, said in notes.POLICIES:
        text = f"policy {key}: {said}\npolicy: unknown {key}\n"
        cases.hold(f"notes on a policy file: {shown(policy)}", (3, b"", as_bytes(text)), cases.noted("check", {**PAY, "policy": policy}))
    for files, said in notes.LIMITS:
        cases.hold(f"notes on a limit: {shown(said)}", (3, b"", as_bytes(said)), cases.noted("check", files))


def notes_on_queries(cases):
    """The note before the text of a query that is refused, where the journal is new."""
    for query, note in notes.QUERIES:
        status, out, said = cases.noted("why", PAY, more=("--query", query))
        front, _, text = said.partition(b"query: ")
        cases.hold(f"notes on a query: {query}", (3, b"", as_bytes(note), True), (status, out, front[-len(note):] if note else b"", bool(text)))
        cases.hold(f"no other note on a query: {query}", as_bytes(note), b"".join(line for line in front.splitlines(keepends=True) if not line.startswith(b"journal")))


# ---- made cubes

def made_texts(cases):
    for number, size, of_facts, of_queries, facts, asked in made.BEGIN:
        files, lines = made.make(number, size)
        case = f"the cube of number {number} and size {size}"
        cases.hold(case, (of_facts, of_queries, 200 * size), (len(files["facts"]), len(lines), lines.count("\n")))
        cases.hold(case, (facts, asked), (files["facts"][:len(facts)], lines[:len(asked)]))
        cases.hold(case, made.BEGIN_DIMS + made.BEGIN_POLICY, files["dims"][:len(made.BEGIN_DIMS)] + files["policy"][:len(made.BEGIN_POLICY)])


def verdict_of(reply):
    return "answered" if reply[0] == 200 else reply[1].decode().split(":")[0]


def demos(cases):
    """The summary, as `check` and `ask` have it of the same cube."""
    for number, size in made.DEMOS:
        case = f"demo of number {number} and size {size}"
        files, lines = made.make(number, size)
        asks = lines.splitlines()
        status, out, _ = cases.run("check", files)
        cases.hold(case, (0, f"facts {20_000 * size}\npoints {2_880 * size}\n"), (status, "".join(out.decode().splitlines(keepends=True)[2:4])))
        replies = cases.ask(files, [*asks, *made.first_cells("pay"), *made.first_cells("hours")])
        verdicts = [verdict_of(reply) for reply in replies[:len(asks)]]
        witnesses = sum(code == 200 for code, _ in replies[len(asks):])
        cases.hold(f"{case}: changes for the first cells", 200, witnesses)
        counts = "".join(f"{verdict} {verdicts.count(verdict)}\n" for verdict in ("answered", "source", "single", "pair", "full"))
        summary = f"facts {20_000 * size}\npoints {2_880 * size}\nqueries {200 * size}\n{counts}witnesses {witnesses}\n"
        cases.hold(case, (0, summary.encode(), b""), cases.run("demo", {}, more=("--number", str(number), "--size", str(size))))


CHECKS = (dimension_files, policy_files, query_texts, names, notes_on_files, notes_on_queries, made_texts, demos)


def main():
    build()
    with tempfile.TemporaryDirectory(prefix="cube-faults-") as folder:
        cases = Cases(pathlib.Path(folder))
        for check in CHECKS:
            check(cases)
    if cases.wrong:
        print(f"faults: {cases.wrong} of {cases.count} cases came out otherwise", file=sys.stderr)
        return 1
    print(f"faults: {cases.count} cases of files, queries, names, notes and made cubes")
    return 0


if __name__ == "__main__":
    sys.exit(main())
