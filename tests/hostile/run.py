#!/usr/bin/env python3
"""Hostile input: what is said to streams of HTTP and to files that nobody would send who means well.

The rows stand in streams.py (HTTP), scripts.py, dims.py, facts.py, fields.py (numbers), policies.py and flat.py, each with
what is expected by docs/FORMATS.md. The first that comes out otherwise ends the script with status 1. Needs Python 3 alone;
the program is the environment's CUBE.

    run.py [GROUP ..]      all groups, or those that are named
"""

import json
import pathlib
import re
import subprocess
import sys
import tempfile

sys.path.insert(0, str(pathlib.Path(__file__).resolve().parent.parent))

import dims  # noqa: E402
import facts  # noqa: E402
import fields  # noqa: E402
import flat  # noqa: E402
import policies  # noqa: E402
import scripts  # noqa: E402
import streams  # noqa: E402
from cubes import Cube, check_text, header  # noqa: E402
from play import play, replay, shown  # noqa: E402
from servers import CUBE, Wrong, build, check  # noqa: E402

PATIENCE = 60


# ---- files

# A refused file in a text; before it stands a note for a person, which may have the line feeds of a column's name.
REFUSED = re.compile(rb"^(?:dims|facts|policy): ", re.MULTILINE)


def text_of(said):
    """The text on standard error, without the notes before it."""
    refused = REFUSED.search(said)
    return said[refused.start():] if refused else re.sub(rb"(?m)^.*: (nothing is protected|\d+ cells? of \(.*\) may be one person's)\n", b"", said)


def as_bytes(file):
    """A text, bytes, or what a function makes, as bytes."""
    made = file() if callable(file) else file
    return made.encode() if isinstance(made, str) else made


def run(folder, command, given, **made):
    """Writes the files of a command and runs it: its status, what it wrote, and its text."""
    words = [CUBE, command]
    for option, file in made.items():
        (folder / option).write_bytes(as_bytes(file))
        words += [f"--{option}", folder / option]
    if command == "ask":
        words += ["--journal", folder / "journal"]
    done = subprocess.run(words, input=given, capture_output=True, timeout=PATIENCE, check=False)
    return done.returncode, done.stdout, text_of(done.stderr)


def holds(name, expected, came):
    parts = zip(("status", "output", "text"), expected, came, strict=True)
    wrong = [f"{part}: expected {shown(one)}, came {shown(other)}" for part, one, other in parts if one != other]
    check(not wrong, "\n".join([f"{name}:", *wrong]))


def open_policy(cube):
    """A policy that leaves each measure open."""
    return "".join(policies.method(json.dumps(name, ensure_ascii=False)) for name, *_ in cube.measures)


def expected_of(kind, expected):
    """How `check` ends at a file of this kind: it names the first fault, or prints what the cube holds."""
    if isinstance(expected, Cube):
        return 0, check_text(expected), b""
    return 3, b"", f"{kind}: {expected}\n".encode()


def dimension_files(folder, rows):
    for name, file, expected in rows:
        cube = expected if isinstance(expected, Cube) else Cube()
        came = run(folder, "check", b"", dims=file, facts=header(cube), policy=open_policy(cube))
        holds(name, expected_of("dims", expected), came)


def fact_files(folder, rows, under=dims.DIMS):
    for name, file, expected in rows:
        came = run(folder, "check", b"", dims=under, facts=file, policy=policies.method())
        holds(name, expected_of("facts", expected), came)


def odd_members(folder, rows):
    fact_files(folder, rows, facts.ODD_DIMS)


def many_points(folder, rows):
    fact_files(folder, rows, facts.GRID_DIMS)


def policy_files(folder, rows):
    for name, file, expected in rows:
        came = run(folder, "check", b"", dims=policies.DIMS, facts=policies.FACTS, policy=file)
        holds(name, expected_of("policy", expected), came)


def numbers(folder, rows):
    for field, decimals, expected in rows:
        files = {"dims": dims.DIMS + f"decimals = {decimals}\n", "facts": f"city,pay\nLyon,{field}\n", "policy": policies.method()}
        status, written, text = run(folder, "ask", b"cell pay\n", **files)
        if expected in fields.FAULTS:
            wanted = 3, b"", f"facts: row 1 column pay: {expected}\n".encode()
        else:
            body = f"pay\n{expected}\n"
            wanted, text = (0, f"200 {len(body)}\n{body}".encode(), b""), b""
        holds(f"{field!r} with {decimals} decimals", wanted, (status, written, text))
        for left in folder.glob("journal*"):
            left.unlink()


def flat_files(folder, rows):
    for name, file, lines, expected in rows:
        is_answered = expected == "" or expected.endswith("\n")
        wanted = (0, expected.encode(), b"") if is_answered else (3, b"", f"facts: {expected}\n".encode())
        holds(name, wanted, run(folder, "sum", as_bytes(lines), facts=file))


# ---- scripts

def script_files(folder, rows):
    for name, script, expected in rows:
        status, written, text = replay(folder, as_bytes(script))
        if isinstance(expected, bytes):
            wanted, text = (0, expected, b""), b""
        else:
            fault = f"line {expected}" if isinstance(expected, int) else expected
            wanted = 3, b"", f"script: {fault}\n".encode()
        holds(name, wanted, (status, written, text))


# ---- all groups

GROUPS = {
    **{f"HTTP: {group}": (play, rows) for group, rows in streams.GROUPS.items()},
    "lines of scripts": (script_files, scripts.LINES),
    "events of scripts": (script_files, scripts.EVENTS),
    "TOML of dimension files": (dimension_files, dims.TOML),
    "dimensions": (dimension_files, dims.DIMENSIONS),
    "measures": (dimension_files, dims.MEASURES),
    "texts of fact files": (fact_files, facts.TEXTS),
    "columns and rows of fact files": (fact_files, facts.COLUMNS),
    "members that need quotes": (odd_members, facts.ODD_MEMBERS),
    "many points": (many_points, facts.MANY_POINTS),
    "many facts": (fact_files, facts.MANY_FACTS),
    "numbers": (numbers, fields.NUMBERS),
    "policy files": (policy_files, policies.POLICIES),
    "objects of policy files": (policy_files, policies.OBJECTS),
    "flat files": (flat_files, flat.FILES),
    "lines of sum": (flat_files, flat.LINES),
}


def main(wanted):
    build()
    for group in wanted or GROUPS:
        if group not in GROUPS:
            sys.exit(f"hostile: no group {group}")
        act, rows = GROUPS[group]
        with tempfile.TemporaryDirectory() as folder:
            try:
                cuts = act(pathlib.Path(folder), rows)
            except (Wrong, OSError, subprocess.SubprocessError) as fault:
                sys.exit(f"hostile: {group}: {fault}")
        print(f"{group}: {len(rows)} rows" + (f", {cuts:,} cuts" if cuts else ""), flush=True)


if __name__ == "__main__":
    main(sys.argv[1:])
