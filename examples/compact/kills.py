#!/usr/bin/env python3
"""Kills `compact --out` and `carry --out` before each of their system calls, one run for each, and looks at what is left.

The file of --out is the old one or the new one, whole, and its seal is the old one or the new one; both are of one cube here, so the file
opens. Behind the new file stands the new seal. The journal that was written down is as it was. The same words once more put the new file
in its place and leave nothing beside it. Needs Python 3 and strace; takes some seconds. The program is the environment's CUBE.
"""

import collections
import pathlib
import re
import shutil
import subprocess
import sys
import tempfile

sys.path.insert(0, str(pathlib.Path(__file__).resolve().parents[2] / "tests"))

from cube_folder import Cube  # noqa: E402
from servers import CUBE, Wrong, build, check  # noqa: E402
from small import PAY  # noqa: E402

MONTHS = "slice pay by time.month"
AREAS = "slice pay by region.area"
QUARTERS = "slice pay by time.quarter"
CALL = re.compile(r"^(\w+)\(")
KILLED = -9


def calls_of(folder, words):
    """The system calls of a run, in order, each with how often it was made up to there. The first starts the program."""
    told = folder / "calls"
    subprocess.run(["strace", "-qq", "-o", told, *words], stdin=subprocess.DEVNULL, capture_output=True, check=True)
    many = collections.Counter()
    for line in told.read_text().splitlines():
        if (call := CALL.match(line)) and call[1] not in ("execve", "exit_group"):
            many[call[1]] += 1
            yield call[1], many[call[1]]


def killed_at(words, call, number):
    """Runs to the call of this number, and no further."""
    inject = f"inject={call}:signal=KILL:when={number}"
    ran = subprocess.run(["strace", "-qq", "-o", "/dev/null", "-e", inject, *words], stdin=subprocess.DEVNULL, capture_output=True, check=False)
    check(ran.returncode == KILLED, f"not killed at {call} {number}: {ran.returncode}")


def bytes_at(path):
    return path.read_bytes() if path.exists() else b""


def killed_everywhere(name, cube, out, words, journal, begin):
    """Kills a run at each call. `begin` puts the folder of the cube back as it is before."""
    begin()
    old, old_seal = bytes_at(out), bytes_at(out.with_name(f"{out.name}.seal"))
    calls = list(calls_of(cube.folder.parent, words))
    new, new_seal = bytes_at(out), bytes_at(out.with_name(f"{out.name}.seal"))
    check(new != old and new_seal, f"{name}: nothing was put")
    both = 0
    for call, number in calls:
        begin()
        before = bytes_at(journal)
        killed_at(words, call, number)
        now, seal = bytes_at(out), bytes_at(out.with_name(f"{out.name}.seal"))
        check(now in (old, new) and seal in (old_seal, new_seal), f"{name}, {call} {number}: {now!r} {seal!r}")
        check(now != new or seal == new_seal, f"{name}, {call} {number}: the new file with the old seal")
        check(journal == out or bytes_at(journal) == before, f"{name}, {call} {number}: the journal changed")
        both += now == old and seal == new_seal != old_seal
        if now:
            status, _, said = cube.ends("ask", "--journal", out)
            check(status == 0, f"{name}, {call} {number}: the file is not opened: {said}")
        again = subprocess.run(words, stdin=subprocess.DEVNULL, capture_output=True, check=False)
        check(again.returncode == 0 and (journal == out or bytes_at(out) == new), f"{name}, {call} {number}: again: {again.stderr.decode()}")
        left = [it.name for it in out.parent.iterdir() if it.name.endswith(".new")]
        check(not left, f"{name}, {call} {number}: {left} is left")
    print(f"{name}: killed before each of {len(calls)} calls, of which {both} left the old file with the new seal")


def compacted(folder, name, into, other):
    """`compact --out` into the journal itself, a new file, or one that has another history of the cube."""
    cube = Cube(folder, name, PAY)
    cube.ask("kept", MONTHS, QUARTERS)
    cube.ask("other", AREAS)
    out, journal = cube.path(into), cube.path("kept")
    kept = {it.name: it.read_bytes() for it in cube.folder.iterdir() if it.is_file()}

    def begin():
        for it in cube.folder.iterdir():
            it.unlink()
        for file, text in kept.items():
            if other or not file.startswith("other"):
                cube.path(file).write_bytes(text)

    killed_everywhere(name, cube, out, [CUBE, "compact", *cube.files(), "--journal", journal, "--out", out], journal, begin)


def carried(folder):
    """`carry --out` into a new file of a cube with a month more."""
    older = Cube(folder, "older", PAY)
    cube = Cube(folder, "carry", {**PAY, "dims": PAY["dims"].replace('["Feb", "Q1"]', '["Feb", "Q1"], ["Mar", "Q1"]'), "facts": PAY["facts"] + "Paris,Mar,60,6\n"})
    older.ask("journal", "cell hours region.city=Lyon")
    kept = {it.name: it.read_bytes() for it in cube.folder.iterdir()}
    out, journal = cube.path("journal"), older.path("journal")

    def begin():
        shutil.rmtree(cube.folder)
        cube.folder.mkdir()
        for file, text in kept.items():
            cube.path(file).write_bytes(text)

    words = [CUBE, "carry", *cube.files(), *older.files("from-"), "--from-journal", journal, "--out", out]
    killed_everywhere("carry", cube, out, words, journal, begin)


def main():
    build()
    with tempfile.TemporaryDirectory() as made:
        folder = pathlib.Path(made)
        compacted(folder, "compact into the journal itself", "kept", True)
        compacted(folder, "compact into a new file", "other", False)
        compacted(folder, "compact into another history", "other", True)
        carried(folder)
    return 0


if __name__ == "__main__":
    try:
        sys.exit(main())
    except Wrong as wrong:
        print(f"{pathlib.Path(__file__).name}: {wrong}")
        sys.exit(1)
