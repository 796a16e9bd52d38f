#!/usr/bin/env python3
"""Types each command of docs/OPERATING.md in order, in an empty folder, and compares what is printed.

A block marked `sh` is typed; a plain block right behind it is what it must print, to the byte. The first that does not, or ends with
another status than 0, ends the script with status 1. Needs Python 3 and bash. The program is the environment's CUBE.
"""

import os
import pathlib
import re
import subprocess
import sys
import tempfile

TOP = pathlib.Path(__file__).resolve().parent.parent.parent
sys.path.insert(0, str(TOP / "tests"))

from servers import CUBE, Wrong, build, check  # noqa: E402

PAGE = TOP / "docs" / "OPERATING.md"
BLOCK = re.compile(r"^```(sh|)\n(.*?)^```\n", re.MULTILINE | re.DOTALL)


def blocks(page):
    """Each typed block with what it must print, or None where nothing is said."""
    found = list(BLOCK.finditer(page))
    for at, block in enumerate(found):
        if block[1] == "sh":
            after = found[at + 1] if at + 1 < len(found) else None
            yield block[2], after[2] if after and after[1] == "" else None


def typed(folder, commands):
    """Types a block: what it prints. Each command of it has to end with status 0."""
    path = f"{folder / 'bin'}{os.pathsep}{os.environ['PATH']}"
    words = ["bash", "-e", "-o", "pipefail", "-c", commands]
    ran = subprocess.run(words, cwd=folder, env={**os.environ, "PATH": path}, stdin=subprocess.DEVNULL, capture_output=True, timeout=60, check=False)
    check(ran.returncode == 0, f"{commands}ended with {ran.returncode}: {ran.stderr.decode()}")
    return ran.stdout.decode()


def main():
    build()
    with tempfile.TemporaryDirectory() as made:
        folder = pathlib.Path(made)
        (folder / "bin").mkdir()
        (folder / "bin" / "cube").symlink_to(pathlib.Path(CUBE).resolve())
        (folder / "examples").symlink_to(TOP / "examples")
        many = 0
        for commands, printed in blocks(PAGE.read_text()):
            came = typed(folder, commands)
            check(printed is None or came == printed, f"{commands}printed\n{came}and not\n{printed}")
            many += 1
        check(many > 5, f"only {many} blocks")
        print(f"{many} blocks of {PAGE.name} are typed, and print what it says")
    return 0


if __name__ == "__main__":
    try:
        sys.exit(main())
    except Wrong as wrong:
        print(f"{pathlib.Path(__file__).name}: {wrong}")
        sys.exit(1)
