#!/usr/bin/env python3
"""A fuzzer: makes small cubes, queries, connections and damaged journals at random, runs the program on them, and
checks what needs no other reading of the rules (checks.py). Needs Python 3 alone.

    run.py [SEED [SECONDS [ROUND]]]

SEED is any word, by default one of the clock; SECONDS are 60 by default; with ROUND just that round is played again,
in a folder that is kept. CUBE names the program. The end is 0 where nothing was found, else 1.
"""

import collections
import itertools
import random
import shutil
import sys
import tempfile
import time
import traceback

from checks import CHECKS, Play
from program import Failure
from servers import build


def attempt(found, name, act):
    """Does a part of a round; what it finds is kept under its name."""
    try:
        return act()
    except Failure as failure:
        found.append((name, str(failure)))
    except Exception:
        found.append((name, traceback.format_exc()))
    return None


def play_round(seed, number, folder, seen):
    """Plays one round in a folder, and answers what it found."""
    found = []
    play = attempt(found, "replies", lambda: Play(random.Random(f"{seed} {number}"), folder))
    for check in CHECKS if play else []:
        attempt(found, check.__name__, lambda: check(play))
    if play:
        seen.update(play.seen)
    return found


def report(seed, number, folder, found):
    print(f"round {number}, in {folder}; again by: run.py {seed} 0 {number}")
    for name, text in found:
        print(f"  {name}: {text}")
    sys.stdout.flush()


def rounds(seconds, only):
    """The numbers of the rounds that are played."""
    end = time.monotonic() + seconds
    for number in [only] if only is not None else itertools.count():
        yield number
        if time.monotonic() >= end:
            break


def main(words):
    seed = words[0] if words else str(int(time.time()))
    seconds = float(words[1]) if len(words) > 1 else 60
    only = int(words[2]) if len(words) > 2 else None
    build()
    print(f"seed {seed}", flush=True)
    played, failed, seen = 0, 0, collections.Counter()
    for number in rounds(seconds, only):
        folder = tempfile.mkdtemp(prefix="cube-fuzz-")
        found = play_round(seed, number, folder, seen)
        played += 1
        failed += bool(found)
        if found or only is not None:
            report(seed, number, folder, found)
        else:
            shutil.rmtree(folder)
    print(f"rounds {played}, failed {failed}")
    for name, count in sorted(seen.items()):
        print(f"  {name} {count}")
    return 1 if failed else 0


if __name__ == "__main__":
    sys.exit(main(sys.argv[1:]))
