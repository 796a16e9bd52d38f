#!/usr/bin/env python3
"""Refused: what the program does where the machine refuses it an address, a file, a journal or room on a disk.

Each row says what was refused and what the program did; the first in which it did something else ends the script with
status 1. Needs Python 3 alone; as root also a file system of a megabyte is filled and freed. The program is the
environment's CUBE.
"""

import contextlib
import os
import pathlib
import random
import re
import shutil
import socket
import subprocess
import sys
import tempfile
import time

HERE = pathlib.Path(__file__).resolve().parent
sys.path.insert(0, str(HERE.parent))

from servers import CUBE, Wrong, build, check, serving  # noqa: E402

PAY = HERE.parents[1] / "examples" / "pay"
FILES = ["--dims", f"{PAY}/dims.toml", "--facts", f"{PAY}/facts.csv", "--policy", f"{PAY}/policy.toml"]
PATIENCE = 60
NOBODY = 65_534
PAGE = 4_096
SIZE = 20


def run(*words, given=b"", user=None):
    """Runs the program to its end: its status, what it wrote, and its notes and text."""
    done = subprocess.run([CUBE, *map(str, words)], input=given, capture_output=True, timeout=PATIENCE, user=user)
    return done.returncode, done.stdout.decode(), done.stderr.decode()


def refuses(words, status, text, note, **how):
    """A run ends with this status and text, and a note before it that has these words."""
    ended, written, said = run(*words, **how)
    check((ended, written) == (status, "") and said.endswith(text) and note in said, f"{words}: {ended}, {written}{said}")


# ---- addresses

def addresses(folder):
    for number, (address, note) in enumerate((
        ("", ""),
        ("here", ""),
        ("127.0.0.1", ""),
        ("127.0.0.1:70000", ""),
        ("192.0.2.1:8080", "192.0.2.1:8080: Cannot assign requested address"),
    )):
        words = ["serve", *FILES, "--journal", folder / f"address{number}", "--address", address]
        refuses(words, 8, "wire failed\n", note)
    with socket.create_server(("127.0.0.1", 0)) as taken:
        address = f"127.0.0.1:{taken.getsockname()[1]}"
        words = ["serve", *FILES, "--journal", folder / "taken", "--address", address]
        refuses(words, 8, "wire failed\n", f"{address}: Address already in use")
    return "no address, half of one, one of another machine and one in use end with status 8"


def privileged_port(folder):
    if os.geteuid() != 0 or int(pathlib.Path("/proc/sys/net/ipv4/ip_unprivileged_port_start").read_text()) <= 80:
        return "no root, or no port that needs a privilege: none is asked for"
    public = folder / "public"
    public.mkdir()
    files = [shutil.copy(PAY / name, public) for name in ("dims.toml", "facts.csv", "policy.toml")]
    for path in (folder, public):
        path.chmod(0o777)
    words = ["serve", "--dims", files[0], "--facts", files[1], "--policy", files[2], "--journal", public / "journal"]
    try:
        run("--version", user=NOBODY)
    except PermissionError:
        return "nobody may run the program where it stands: no privileged port is asked for"
    refuses([*words, "--address", "127.0.0.1:80"], 8, "wire failed\n", "127.0.0.1:80: Permission denied", user=NOBODY)
    return "a privileged port ends with status 8 and the system's word"


# ---- files

def files(folder):
    for name, status, said_last, note in (
        ("none", 5, b"cannot read none\n", b"none: No such file or directory"), (folder, 5, f"cannot read {folder}\n".encode(), b"Is a directory"),
        (b"\xff", 5, b"cannot read \xff\n", b""), ("/dev/zero", 3, b"dims: limit file 67108864\n", b""), ("/dev/null", 3, b"dims: missing dimension\n", b""),
    ):
        words = [CUBE, "check", "--dims", name, "--facts", PAY / "facts.csv", "--policy", PAY / "policy.toml"]
        done = subprocess.run(words, cwd=folder, capture_output=True, timeout=PATIENCE, check=False)
        check((done.returncode, done.stdout) == (status, b"") and done.stderr.endswith(said_last) and note in done.stderr, f"{name}: {done}")
    return "no file, a folder, no text for a name and an endless file are refused, and an empty one is read"


# ---- journals

def journals(folder):
    (folder / "folder").mkdir()
    os.mkfifo(folder / "pipe")
    for journal in (folder / "folder", folder / "pipe", "/dev/full", folder / "none" / "journal"):
        refuses(["ask", *FILES, "--journal", journal], 9, "store failed\n", f"{journal}: ", given=b"cell count\n")
    for name in ("", "a" * 4_097, os.fsdecode(b"\xff")):
        refuses(["ask", *FILES, "--journal", name], 9, "store failed\n", "", given=b"cell count\n")
    return "a folder, a pipe, a full device, a journal in no folder and what is no name end with status 9, the first with a note that names them"


def link_to_nothing(folder):
    (folder / "link").symlink_to(folder / "behind")
    ended, written, _said = run("ask", *FILES, "--journal", folder / "link", given=b"slice pay by region.area\n")
    check(ended == 0 and written.startswith("200 "), f"{ended}, {written}")
    check((folder / "behind").read_text().endswith("\nq slice pay by region.area\n"), "nothing behind the link")
    return "a journal that is a link is the file behind it, which is made"


def seals(folder):
    journal = folder / "sealed"
    seal = folder / "sealed.seal"
    query = b"slice pay by region.area\n"
    check(run("ask", *FILES, "--journal", journal, given=query)[0] == 0, "no answer")
    line = seal.read_text()
    seal.write_text(line[:40])
    check(run("ask", *FILES, "--journal", journal, given=query)[0] == 0, "a seal that was begun")
    check(seal.read_text() == line, "a seal that was begun is not written anew")
    for damaged in (line + line, line.upper(), line.replace("values", "value"), line.replace("values", "facts"), "x" * 73):
        seal.write_text(damaged)
        refuses(["ask", *FILES, "--journal", journal], 4, "is known to be the one that was asked\n", "journal: seal damaged\n", given=query)
        check(seal.read_text() == damaged, "a damaged seal was changed")
    return "a seal that was begun is written anew, and a damaged one refused"


# ---- a full disk

def full_disk(folder):
    if os.geteuid() != 0:
        return "no root: no file system is filled"
    disk = folder / "disk"
    disk.mkdir()
    if subprocess.run(["mount", "-t", "tmpfs", "-o", "size=1m", "none", disk], capture_output=True).returncode:
        return "no right to mount: no file system is filled"
    try:
        cube = write_cube(folder)
        with serving([*cube, "--journal", str(disk / "journal")]) as server:
            queries = ranges()
            first = next(query for query in queries if ask(server, query) == 200)
            # Behind this the journal soon needs another page of the disk.
            while (disk / "journal").stat().st_size % PAGE < PAGE * 3 / 4:
                ask(server, next(queries))
            with open(disk / "filler", "wb", buffering=0) as filler, contextlib.suppress(OSError):
                while filler.write(bytes(1_024)):
                    pass
            query = next((query for query in queries if ask(server, query) == 503), None)
            check(query, "the disk was never full")
            check(ask(server, first) == 200, "what was answered before is refused on a full disk")
            os.remove(disk / "filler")
            check(ask(server, query) == 200, "no answer once there is room")
        lines = (disk / "journal").read_text().split("\n")
        check(lines[-2:] == [f"q {query}", ""], "the journal does not end with the last answer")
        check(run("ask", *cube, "--journal", disk / "journal", given=b"cell count\n")[0] == 0, "the journal does not open again")
    finally:
        subprocess.run(["umount", disk], check=False)
    return "a full disk gets what was answered before, and goes on once there is room"


def leaf(name, number):
    return f"{name}{number:0>100}"


def write_cube(folder):
    """Writes a cube of long names, so that the journal grows fast: the words that name its files."""
    names = {name: [leaf(name, number) for number in range(SIZE)] for name in "ab"}
    paths = {name: "".join(f'["{one}"],' for one in names[name]) for name in "ab"}
    dimensions = [f'[[dimension]]\nname = "{name}"\ncolumn = "{name}"\nlevels = ["l"]\npaths = [{paths[name]}]\n' for name in "ab"]
    (folder / "dims.toml").write_text("".join(dimensions) + '[[measure]]\nname = "v"\ndecimals = 0\n')
    (folder / "policy.toml").write_text('[[measure]]\nname = "v"\nmethod = "parity"\n')
    (folder / "facts.csv").write_text("a,b,v\n" + "".join(f"{a},{b},1\n" for a in names["a"] for b in names["b"]))
    return ["--dims", f"{folder}/dims.toml", "--facts", f"{folder}/facts.csv", "--policy", f"{folder}/policy.toml"]


def ranges():
    """Ranges at random, of which many are answered and kept."""
    chance = random.Random(1)
    for _ in range(3_000):
        (a, b), (c, d) = (sorted(chance.choices(range(SIZE), k=2)) for _ in "ab")
        yield f"range v a.l={leaf('a', a)}..{leaf('a', b)}, b.l={leaf('b', c)}..{leaf('b', d)}"


# ---- peers

def ask(server, query):
    with socket.create_connection(server, PATIENCE) as client:
        client.sendall(request(query))
        client.shutdown(socket.SHUT_WR)
        return status_of(client)


def request(query):
    target = "/v1/query?q=" + query.replace(" ", "+").replace("=", "%3D").replace(",", "%2C")
    return f"GET {target} HTTP/1.1\r\nHost: cube\r\n\r\n".encode()


def status_of(client):
    head = client.makefile("rb").readline()
    check(re.match(rb"HTTP/1\.1 \d{3} ", head), f"no reply: {head}")
    return int(head[9:12])


def peers(folder):
    with serving([*FILES, "--journal", str(folder / "peers")]) as server:
        check(ask(server, "cell count") == 200, "a half-closed connection gets no reply")
        with socket.create_connection(server, PATIENCE) as slow:
            for byte in request("cell count")[:4]:
                slow.sendall(bytes([byte]))
                time.sleep(1)
                check(ask(server, "cell count") == 200, "a slow client stops another")
            slow.sendall(request("cell count")[4:])
            check(status_of(slow) == 200, "a client of a byte a second gets no reply")
    return "a half-closed connection and one of a byte a second get their replies"


def still_peers(folder):
    with serving([*FILES, "--journal", str(folder / "still"), "--idle", "2"]) as server:
        with socket.create_connection(server, PATIENCE) as idle, socket.create_connection(server, PATIENCE) as slow:
            begin = time.monotonic()
            with contextlib.suppress(ConnectionError):
                for byte in request("cell count")[:20]:
                    slow.sendall(bytes([byte]))
                    time.sleep(0.5)
            check(time.monotonic() - begin < 9, "a client of two bytes a second is served for ever")
            check(idle.recv(1) == b"", "an idle connection goes on")
        with socket.create_connection(server, PATIENCE) as busy:
            for _ in range(8):
                busy.sendall(request("cell count"))
                check(busy.recv(65_536).startswith(b"HTTP/1.1 200 "), "no reply")
                time.sleep(0.5)
    return "a connection without a whole request for --idle seconds is closed, whatever it sends, and one that asks goes on"


ROWS = addresses, privileged_port, files, journals, link_to_nothing, seals, full_disk, peers, still_peers


def main():
    build()
    with tempfile.TemporaryDirectory() as name:
        try:
            for row in ROWS:
                print(row(pathlib.Path(name)), flush=True)
        except (Wrong, OSError, subprocess.SubprocessError) as fault:
            sys.exit(f"refused: {fault}")


if __name__ == "__main__":
    main()
