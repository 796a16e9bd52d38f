#!/usr/bin/env python3
"""Compact: a journal written down as what it holds, and what is asked over it then.

Each row says what was compacted and what came of it; the first in which something else came ends the script with
status 1. Needs Python 3 alone. The program is the environment's CUBE.
"""

import fcntl
import os
import pathlib
import subprocess
import sys
import tempfile
import time

sys.path.insert(0, str(pathlib.Path(__file__).resolve().parents[2] / "tests"))

from cube_folder import Cube  # noqa: E402
from servers import Wrong, build, check  # noqa: E402
from small import GRID, PAY  # noqa: E402

MOST = 16_384
LEAVES = 20_000

LINE = {
    "dims": "[[dimension]]\nname = \"d\"\nlevels = [\"l\"]\npaths = [%s]\n[[measure]]\nname = \"v\"\n"
    % ", ".join(f'["l{leaf}"]' for leaf in range(LEAVES)),
    "facts": "l,v\n" + "".join(f"l{leaf},1\n" for leaf in range(LEAVES)),
    "policy": GRID["policy"],
}

MONTHS = "slice pay by time.month"
AREAS = "slice pay by region.area"
REFUSED = "403 102\nsource: the cuboid (region.area, time.month) does not cut the cell (region.city=Lyon, time.month=Feb)\n"


def a_source(folder):
    cube = Cube(folder, "source", PAY)
    cube.ask("old", MONTHS)
    cell = ["--cell", "cell pay region.city=Lyon, time.month=Feb"]
    changes = cube.run("witness", "--journal", cube.path("old"), *cell)
    before = cube.path("old").read_bytes()
    text = cube.compact("old")
    check(text == cube.text("s 0 2 0"), f"another text: {text}")
    check(cube.path("old").read_bytes() == before, "compact changed the journal")
    cube.path("new").write_text(text)
    check(cube.compact("new") == text, "compacted once more it is another text")
    check(cube.run("witness", "--journal", cube.path("new"), *cell) == changes, "other changes")
    check(cube.ask("new", AREAS) == REFUSED, "pay by area is not refused as before")
    check(cube.ask("new", MONTHS) == "200 29\ntime.month,pay\nJan,80\nFeb,70\n", "pay by month is not answered")
    check(cube.path("new").read_text() == text, "a known request added a line")
    return "pay by month is one source; pay by area is refused behind it, the changes are the same"


def links(folder):
    cube = Cube(folder, "links", GRID)
    first, second, third = "range v col.c=c0..c1", "cell v row.r=r1", "range v col.c=c1..c2"
    replies = cube.ask("old", first, second, third)
    text = cube.compact("old")
    check(text == cube.text("k 0 0 1", "k 0 1 2"), f"another text: {text}")
    cube.path("new").write_text(text)
    check(cube.ask("new", first, second, third) == replies, "other replies")
    check(cube.path("new").read_text() == text, "a known request added a line")
    for line, why in (("k 0 0 2", "inadmissible"), ("k 0 1 1", "damaged"), ("k 0 0 9", "damaged"), ("s 0 0 0", "damaged")):
        cube.path("bad").write_text(cube.text("k 0 0 1", "k 0 1 2", line))
        cube.path("bad.seal").unlink(missing_ok=True)
        for command in ("ask", "compact"):
            status, written, said = cube.ends(command, "--journal", cube.path("bad"))
            check((status, written) == (4, "") and said.endswith(f"journal: line 4 {why}\n"), f"{line}: {status} {said}")
    return "two sums are two links; a link more that does not fit is named by its line, under compact as under ask"


def nothing(folder):
    cube = Cube(folder, "nothing", PAY)
    check(cube.compact("new") == cube.text(), "an empty history is not a first line alone")
    check(cube.path("new").read_text() == f"cube-journal 1 {cube.digest}\n", "the new journal is not begun")
    other = Cube(folder, "other", GRID)
    for line in ("values ", f"digest {cube.digest} is not {other.digest}\n"):
        status, written, said = other.ends("compact", "--journal", cube.path("new"))
        check((status, written) == (4, "") and f"journal: {line}" in said, said)
        cube.path("new.seal").unlink()
    return "an empty history is a first line alone; the journal of another cube is refused"


def in_place(folder):
    cube = Cube(folder, "in_place", PAY)
    cube.ask("pay", MONTHS, "cell hours region.city=Lyon")
    cube.path("pay.new").write_text("what an earlier run left, longer than all that is written there now\n" * 9)
    text = cube.compact("pay")
    check(cube.run("compact", "--journal", cube.path("pay"), "--out", cube.path("pay")) == "", "something was printed")
    check(cube.path("pay").read_text() == text, "the journal is not the compacted one")
    check(not cube.path("pay.new").exists(), "the file beside is still there")
    check(cube.ask("pay", AREAS) == REFUSED, "pay by area is not refused as before")
    cube.run("compact", "--journal", cube.path("pay"), "--out", cube.path("else"))
    check(cube.path("else").read_text() == text, "another file got another text")
    status, _, said = cube.ends("compact", "--journal", cube.path("pay"), "--out", cube.path("none/else"))
    check(status == 6 and said.endswith("output failed\n") and "No such file" in said, f"no folder: {status} {said}")
    status, _, said = cube.ends("compact", "--journal", cube.path("pay"), "--out", cube.folder)
    check(status == 6 and "no regular file" in said, f"a folder: {status} {said}")
    check(cube.path("pay").read_text() == text, "a failed run changed the journal")
    return "--out puts the journal in its own place, whole, or into another file; where it cannot, nothing is changed"


def beside(folder):
    cube = Cube(folder, "beside", PAY)
    cube.ask("pay", MONTHS)
    text = cube.compact("pay")
    cube.path("mine").write_text("mine")
    cube.path("out.new").symlink_to(cube.path("mine"))
    cube.run("compact", "--journal", cube.path("pay"), "--out", cube.path("out"), umask=0)
    check(cube.path("mine").read_text() == "mine", "what a link beside led to was changed")
    check(cube.path("out").read_text() == text and not cube.path("out").is_symlink(), "no file of its own")
    check(not os.path.lexists(cube.path("out.new")), "the file beside is still there")
    check(cube.path("out").stat().st_mode & 0o777 == 0o600, "others may read the new journal")
    cube.path("pay").rename(cube.path("next.new"))
    cube.path("pay.seal").rename(cube.path("next.new.seal"))
    status, _, said = cube.ends("compact", "--journal", cube.path("next.new"), "--out", cube.path("next"))
    check(status == 6 and "next: in use by another program\n" in said, f"the journal as the file beside: {status} {said}")
    check(cube.ask("next.new", AREAS) == REFUSED, "the journal was lost as the file beside")
    return "the file beside is one of its owner's alone, made anew, and never what a link leads to or what is in use"


def no_place(folder):
    cube = Cube(folder, "no_place", PAY)
    cube.ask("pay", MONTHS)
    cube.path("folder").mkdir()
    os.mkfifo(cube.path("pipe"))
    for link, behind in (("to_folder", "folder"), ("to_pipe", "pipe"), ("to_null", "/dev/null"), ("to_seal", "pay.seal"), ("to_none", "none")):
        cube.path(link).symlink_to(behind)
    seal = cube.path("pay.seal").read_text()
    before = sorted(os.listdir(cube.folder))
    names = "folder", "pipe", "to_folder", "to_pipe", "to_null", "to_none", "", "pay.seal", "to_seal", "other.seal", "./pay.seal"
    for name in names:
        status, written, said = cube.ends("compact", "--journal", "pay", "--out", name, cwd=cube.folder)
        check((status, written) == (6, "") and said.endswith("\noutput failed\n"), f"{name}: {status} {said}")
        why = "the name of a seal" if "seal" in name else "no regular file"
        check(f"{name}: {why}\n" in said, f"{name}: another note: {said}")
        check(sorted(os.listdir(cube.folder)) == before, f"{name}: a file was left")
    for name in (os.fsdecode(b"\xff"), "a" * 4_093, "none/out"):
        status, written, said = cube.ends("compact", "--journal", "pay", "--out", name, cwd=cube.folder)
        check((status, written) == (6, "") and said.endswith("output failed\n"), f"{name}: {status} {said}")
        check(sorted(os.listdir(cube.folder)) == before, f"{name}: a file was left")
    check(cube.path("pay.seal").read_text() == seal, "the seal was changed")
    return "a folder, a pipe, links to them, what is no name and a seal are refused, and nothing is left beside them"


def behind_a_link(folder):
    cube = Cube(folder, "behind", PAY)
    cube.ask("pay", MONTHS)
    text = cube.compact("pay")
    cube.path("link").symlink_to("pay")
    cube.run("compact", "--journal", cube.path("link"), "--out", cube.path("link"))
    check(cube.path("link").is_symlink() and cube.path("pay").read_text() == text, "not the journal behind the link was replaced")
    facts = PAY["facts"].replace("Lyon,Jan,10,1", "Lyon,Jan,11,1")
    cube.path("corrected").write_text(facts)
    status, written, said = cube.ends("ask", "--journal", cube.path("link"), given=f"{MONTHS}\n", facts="corrected")
    check((status, written) == (4, "") and "journal: values " in said, f"corrected facts: {status} {said}")
    return "behind a link the journal itself is replaced, and keeps its seal"


def never_begun(folder):
    cube = Cube(folder, "never", PAY)
    cube.ask("pay", MONTHS)
    kept = cube.path("pay").read_text()
    cube.path("empty").write_text("")
    cube.path("half").write_text(f"cube-journal 1 {cube.digest}")
    before = sorted(os.listdir(cube.folder))
    for name in ("typo", "empty", "half"):
        status, written, said = cube.ends("compact", "--journal", name, "--out", "pay", cwd=cube.folder)
        check((status, written, said) == (9, "", f"{name}: missing or empty\nstore failed\n"), f"{name}: {status} {said}")
        check(sorted(os.listdir(cube.folder)) == before and cube.path("pay").read_text() == kept, f"{name}: something was made or changed")
    return "a journal that was never begun takes the place of none"


def in_use(folder):
    cube = Cube(folder, "in_use", PAY)
    cube.ask("pay", MONTHS)
    cube.ask("other", "cell pay")
    kept = cube.path("other").read_text()
    with open(cube.path("other")) as other:
        fcntl.flock(other, fcntl.LOCK_EX)
        status, written, said = cube.ends("compact", "--journal", "pay", "--out", "other", cwd=cube.folder)
    check((status, written, said) == (9, "", "other: in use by another program\nstore failed\n"), f"{status} {said}")
    check(cube.path("other").read_text() == kept and not cube.path("other.new").exists(), "a journal in use was replaced")
    return "a journal that another program has is not replaced"


def sealed(folder):
    cube = Cube(folder, "sealed", PAY)
    cube.ask("pay", MONTHS)
    cube.ask("other", "cell pay")
    cube.path("other.seal").write_text("what stood there")
    for name in ("new", "other"):
        cube.run("compact", "--journal", cube.path("pay"), "--out", cube.path(name))
        check(cube.path(f"{name}.seal").read_bytes() == cube.path("pay.seal").read_bytes(), f"{name} has another seal")
        check(cube.path(f"{name}.seal").stat().st_mode & 0o777 == 0o600, "others may read the new seal")
        check(not cube.path(f"{name}.seal.new").exists(), "the file beside the seal is still there")
    cube.path("corrected").write_text(PAY["facts"].replace("Lyon,Jan,10,1", "Lyon,Jan,11,1"))
    status, written, said = cube.ends("ask", "--journal", cube.path("new"), given=f"{MONTHS}\n", facts="corrected")
    check((status, written) == (4, "") and "journal: values " in said, f"corrected facts: {status} {said}")
    return "under another name the new journal has the seal of the old one"


def a_full_history(folder):
    cube = Cube(folder, "full", LINE)
    cube.path("old").write_text(f"cube-journal 1 {cube.digest}\n" + "".join(f"q range v d.l=l{i}..l{i + 1}\n" for i in range(MOST)))
    more = f"range v d.l=l{MOST}..l{MOST + 1}"
    check(cube.ask("old", more) == f"403 39\nfull: the history holds {MOST} requests\n", "the history is not full")
    began = time.monotonic()
    cube.run("compact", "--journal", cube.path("old"), "--out", cube.path("new"))
    took = time.monotonic() - began
    check(cube.path("new").read_text() == cube.text(*(f"k 0 {i} {i + 1}" for i in range(MOST))), "another basis")
    check(cube.ask("new", more, f"range v d.l=l0..l3") == "200 4\nv\n2\n200 4\nv\n4\n", "the full request is not answered")
    check(took < 10, f"{took:.1f} s")
    return f"{MOST} ranges over {LEAVES} leaves compact in {took:.1f} s, and one more is answered then"


def main():
    build()
    with tempfile.TemporaryDirectory() as name:
        try:
            for act in (a_source, links, nothing, in_place, beside, no_place, behind_a_link, never_begun, in_use, sealed, a_full_history):
                print(act(pathlib.Path(name)), flush=True)
        except (Wrong, OSError, subprocess.TimeoutExpired) as wrong:
            print(f"run.py: {wrong}", file=sys.stderr)
            sys.exit(1)


if __name__ == "__main__":
    main()
