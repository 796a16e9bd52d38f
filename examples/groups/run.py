#!/usr/bin/env python3
"""Groups: each asks its own cube, and keeps its own journal.

Each row says what was asked of which group and what came of it; the first in which something else came ends the script
with status 1. Needs Python 3 alone. The program is the environment's CUBE.
"""

import http.client
import pathlib
import random
import subprocess
import sys
import tempfile
import urllib.parse

TOP = pathlib.Path(__file__).resolve().parents[2]
sys.path.insert(0, str(TOP / "tests"))

from servers import CUBE, Wrong, build, check, serving  # noqa: E402
from small import PAY  # noqa: E402

PATIENCE = 120
ASKS = 1000
MONTHS = "slice pay by time.month"
AREAS = "slice pay by region.area"
CUT = "source: the cuboid (region.area, time.month) does not cut the cell (region.city=Lyon, time.month=Feb)\n"

UNKNOWN = "unknown group\n"
MONTH_ROWS = "time.month,pay\nJan,80\nFeb,70\n"
AREA_ROWS = "region.area,pay\nSouth,60\nNorth,90\n"
PHRASES = {200: "OK", 403: "Forbidden", 404: "Not Found"}

JANUARY = "source: the cuboid (region.area, time.month) does not cut the cell (region.branch=Nantes, time.month=Jan)\n"


def listed(*groups):
    """A groups file."""
    return "".join(f'[[group]]\nname = "{name}"\npolicy = "{policy}"\n' for name, policy in groups)


class Cube:
    """The files of the small cube in a folder, a groups file, and journals beside them."""

    def __init__(self, folder, groups):
        self.folder = folder
        folder.mkdir()
        for kind, text in PAY.items():
            (folder / kind).write_text(text)
        (folder / "groups").write_text(groups)

    def words(self, rules=("--groups", "groups"), journal="journal"):
        return ["--dims", "dims", "--facts", "facts", *rules, "--journal", journal]

    def run(self, command, *words, given=""):
        return subprocess.run(
            [CUBE, command, *words], cwd=self.folder, input=given.encode(), capture_output=True, timeout=PATIENCE
        )

    def serving(self):
        return serving(self.words(), cwd=self.folder)

    def ask(self, policy, journal, queries):
        ran = self.run("ask", *self.words(("--policy", policy), journal), given="".join(f"{it}\n" for it in queries))
        check(ran.returncode == 0, f"ask ended with {ran.returncode}: {ran.stderr.decode()}")
        return ran.stdout.decode()


def get(address, path):
    """The status and the body of a reply."""
    talk = http.client.HTTPConnection(*address, timeout=PATIENCE)
    talk.request("GET", path)
    reply = talk.getresponse()
    body = reply.read().decode()
    talk.close()
    return reply.status, body


def asked(address, group, query):
    return get(address, f"/g/{group}/v1/query?" + urllib.parse.urlencode({"q": query}))


def side_by_side(folder):
    """G1 and G2: what one group was told is nothing to the other."""
    cube = Cube(folder, listed(("staff", "policy"), ("board", "policy")))
    rows = [
        ("/g/staff/v1/query?q=slice+pay+by+time.month", 200, 29),
        ("/g/board/v1/query?q=slice+pay+by+region.area", 200, 34),
        ("/g/staff/v1/query?q=slice+pay+by+region.area", 403, len(CUT)),
        ("/g/none/v1/shape", 404, len(UNKNOWN)),
        ("/v1/shape", 404, len("not found\n")),
        ("/g/no.name/v1/shape", 404, len("not found\n")),
        ("/g/board/v1/witness?q=cell+pay+region.city%3DLyon,time.month%3DFeb", 200, None),
    ]
    with cube.serving() as address:
        for path, status, size in rows:
            got = get(address, path)
            check(got[0] == status and (size is None or len(got[1]) == size), f"{path}: {got}")
            print(f"{status} {path}")
    names = sorted(it.name for it in cube.folder.iterdir() if it.name.startswith("journal"))
    check(names == ["journal", "journal.1", "journal.1.seal", "journal.seal"], f"the journals are {names}")
    kept = [(cube.folder / name).read_text().splitlines()[1:] for name in ("journal", "journal.1")]
    check(kept == [[f"q {MONTHS}"], [f"q {AREAS}"]], f"the journals hold {kept}")
    print("the journals are", *names)
    with cube.serving() as address:
        check(asked(address, "staff", AREAS) == (403, CUT), "the staff's history was lost")
        check(asked(address, "staff", MONTHS) == (200, MONTH_ROWS), "the staff is not told again what it was told")
        check(asked(address, "board", AREAS) == (200, AREA_ROWS), "the board's history was lost")
        check(asked(address, "board", MONTHS) == (403, CUT), "the board has the history of the staff")
    print("started again, each has its own history")
    told = cube.run("witness", *cube.words(("--policy", "policy"), "journal.1"), "--cell", "cell pay region.city=Lyon, time.month=Feb")
    check(told.returncode == 0, f"witness over the board's journal ended with {told.returncode}: {told.stderr.decode()}")
    print("witness takes the journal of a group by its policy")


def sent(connection, status, body):
    """What the log of `replay` has of a reply."""
    kind = "csv" if status == 200 else "plain"
    head = f"HTTP/1.1 {status} {PHRASES[status]}\r\nContent-Type: text/{kind}; charset=utf-8\r\nContent-Length: {len(body)}\r\n\r\n"
    return "".join(f"sent {connection} {len(piece)}\n{piece}\n" for piece in (head, body))


def played(folder):
    """A script of two connections, on which groups are asked in turns."""
    cube = Cube(folder, listed(("staff", "policy"), ("board", "policy")))
    rows = [
        (1, "/g/staff/v1/query?q=slice+pay+by+time.month", 200, MONTH_ROWS),
        (2, "/g/board/v1/query?q=slice+pay+by+region.area", 200, AREA_ROWS),
        (2, "/g/none/v1/shape", 404, UNKNOWN),
        (2, "/v1/shape", 404, "not found\n"),
        (1, "/g/staff/v1/query?q=slice+pay+by+region.area", 403, CUT),
    ]
    asks = [f"data {connection} " + f"GET {path} HTTP/1.1\r\nHost: a\r\n\r\n".encode().hex() for connection, path, *_ in rows]
    (cube.folder / "script").write_text("".join(f"{line}\n" for line in ["open 1", "open 2", *asks]))
    ran = cube.run("replay", *cube.words(), "--script", "script")
    wanted = "".join(sent(connection, status, body) for connection, _, status, body in rows)
    check((ran.returncode, ran.stdout.decode()) == (0, wanted), f"replay ended with {ran.returncode}: {ran.stdout.decode()}")
    print("a script of two connections is played to groups, byte for byte")


def one_value_corrected(folder):
    """Each journal is held by a seal of its own: over a corrected value no command goes on from any of them, and nothing is changed."""
    cube = Cube(folder, listed(("staff", "policy"), ("board", "policy")))
    with cube.serving() as address:
        check(asked(address, "board", AREAS) == (200, AREA_ROWS), "the board is not answered")
    facts = (cube.folder / "facts").read_text()
    (cube.folder / "facts").write_text(facts.replace(facts.splitlines()[1], facts.splitlines()[1] + "1", 1))
    before = {it.name: it.read_bytes() for it in cube.folder.iterdir() if it.name.startswith("journal")}
    (cube.folder / "script").write_text("")
    alone = cube.words(("--policy", "policy"), "journal.1")
    played = [*cube.words(), "--script", "script"]
    for command, words, name in (("ask", alone, "journal"), ("witness", [*alone, "--cell", "cell pay region.city=Lyon, time.month=Feb"], "journal"), ("replay", played, "journal staff")):
        ran = cube.run(command, *words, given=f"{AREAS}\n")
        check(ran.returncode == 4 and f"{name}: values " in ran.stderr.decode(), f"{command} over other values: {ran.returncode} {ran.stderr.decode()}")
    (cube.folder / "journal.seal").unlink()
    ran = cube.run("replay", *played)
    check(ran.returncode == 4 and "journal board: values " in ran.stderr.decode(), f"the second seal: {ran.returncode} {ran.stderr.decode()}")
    left = (cube.folder / "journal.seal").read_bytes()
    check(left == b"", f"a seal was begun over values that another one refuses: {left}")
    (cube.folder / "journal.seal").write_bytes(before["journal.seal"])
    (cube.folder / "journal.1.seal").write_text("values\n")
    ran = cube.run("replay", *played)
    check(ran.returncode == 4, f"a damaged seal: {ran.returncode}")
    (cube.folder / "facts").write_text(facts)
    ran = cube.run("replay", *played)
    check(ran.returncode == 4 and "journal board: seal damaged\n" in ran.stderr.decode(), f"a damaged seal: {ran.returncode} {ran.stderr.decode()}")
    (cube.folder / "journal.1.seal").write_bytes(before["journal.1.seal"])
    after = {it.name: it.read_bytes() for it in cube.folder.iterdir() if it.name.startswith("journal")}
    check(after == before, "a refused run changed a journal or a seal")
    with cube.serving() as address:
        check(asked(address, "board", MONTHS) == (403, CUT), "the board's history was lost")
    print("over a value that was corrected no journal of a group goes on, by whatever name it is taken")


def query(chance):
    """A query over the small cube."""
    what = chance.choice(["pay", "pay", "hours", "count"])
    levels = [it for it in (chance.choice([None, "region.city", "region.area"]), chance.choice([None, "time.month", "time.quarter"])) if it]
    fixes = []
    if chance.random() < 0.4:
        fixes.append(chance.choice(["region.city=Lyon", "region.city=Nice|Paris", "region.area=South", "region.city=Lyon..Nice"]))
    if chance.random() < 0.4:
        fixes.append(chance.choice(["time.month=Jan", "time.month=Feb", "time.month=Jan..Feb"]))
    if not levels and chance.random() < 0.5:
        return f"range {what} {', '.join(fixes)}" if fixes else f"cell {what}"
    where = f" where {', '.join(fixes)}" if fixes else ""
    return f"slice {what} by {', '.join(levels)}{where}" if levels else f"cell {what}"


def at_random(folder, seed):
    """Two groups are asked in turns that chance makes: each is told what it would be told alone."""
    cube = Cube(folder, listed(("staff", "policy"), ("board", "open")))
    (cube.folder / "open").write_text(PAY["policy"].replace('name = "hours"\nmethod = "parity"', 'name = "hours"\nmethod = "open"'))
    chance = random.Random(seed)
    asks = [("staff" if chance.random() < 0.5 else "board", query(chance)) for _ in range(2 * ASKS)]
    told = {"staff": "", "board": ""}
    with cube.serving() as address:
        talk = http.client.HTTPConnection(*address, timeout=PATIENCE)
        for group, text in asks:
            talk.request("GET", f"/g/{group}/v1/query?" + urllib.parse.urlencode({"q": text}))
            reply = talk.getresponse()
            body = reply.read().decode()
            told[group] += f"{reply.status} {len(body)}\n{body}"
        talk.close()
    for group, policy in (("staff", "policy"), ("board", "open")):
        alone = cube.ask(policy, f"{group}-alone", [text for name, text in asks if name == group])
        check(alone == told[group], f"the group {group} was told something else than alone")
        kept = (cube.folder / ("journal" if group == "staff" else "journal.1")).read_bytes()
        check(kept == (cube.folder / f"{group}-alone").read_bytes(), f"the journal of the group {group} is another than alone")
    sizes = ", ".join(f"{len(text)} bytes to the {group}" for group, text in told.items())
    print(f"{len(asks)} asks at random: {sizes}, the same as alone, and so are the journals")


def refusals(folder):
    """What is refused, and how it is named."""
    cube = Cube(folder, listed(("staff", "policy")))
    (cube.folder / "bad").write_text("[[measure]]\nname = \"pay\"\nmethod = \"latice\"\n")
    seventeen = listed(*((f"g{number}", "policy") for number in range(17)))
    rows = [
        ("", 3, "groups: missing group\n"),
        ("group = 1\n", 3, "groups: wrong kind group\n"),
        ("group = [\n", 3, "groups: not toml\n"),
        (seventeen, 3, "groups: limit groups 16\n"),
        (listed(("a b", "policy")), 3, "groups: bad name group 1 name\n"),
        (listed(("a", "policy"), ("a", "policy")), 3, "groups: name twice group 2 name\n"),
        ('[[group]]\nname = "a"\n', 3, "groups: missing group 1 policy\n"),
        (listed(("a", "policy"), ("b", "bad")), 3, "policy b: unknown measure 1 method\n"),
        (listed(("a", "policy"), ("b", "none")), 5, "cannot read none\n"),
    ]
    (cube.folder / "script").write_text("")
    for groups, status, text in rows:
        (cube.folder / "groups").write_text(groups)
        ran = cube.run("replay", *cube.words(), "--script", "script")
        last = ran.stderr.decode().splitlines(keepends=True)[-1]
        check((ran.returncode, last) == (status, text), f"{groups!r} ended with {ran.returncode}: {last}")
        print(f"{status} {text}", end="")
    check(not (cube.folder / "journal").exists(), "a journal was made of files that were refused")
    (cube.folder / "groups").write_text(listed(("a", "policy"), ("b", "policy")))
    ran = cube.run("replay", *cube.words(), "--script", "script")
    check(ran.returncode == 0, f"two groups with one policy file ended with {ran.returncode}")
    (cube.folder / "journal.1").write_text("x\n")
    ran = cube.run("replay", *cube.words(), "--script", "script")
    last = ran.stderr.decode().splitlines()[-1]
    check(ran.returncode == 4 and last.startswith("journal b: "), f"a damaged journal of a group ended with {ran.returncode}: {last}")
    print(f"4 {last}")
    words = cube.words()
    for more, text in (
        (["--policy", "policy"], "usage: --policy\n"),
        (["--groups", "groups"], "usage: --groups\n"),
    ):
        ran = cube.run("replay", *words, *more, "--script", "script")
        check((ran.returncode, ran.stderr.decode()) == (2, text), f"{more} ended with {ran.returncode}: {ran.stderr.decode()}")
    ran = cube.run("replay", *cube.words(("--policy", "policy"), "other"), "--groups", "groups", "--script", "script")
    check((ran.returncode, ran.stderr.decode()) == (2, "usage: --groups\n"), f"a second of the two ended with {ran.returncode}")
    ran = cube.run("replay", *cube.words((), "other"), "--script", "script")
    check((ran.returncode, ran.stderr.decode()) == (2, "usage: missing --policy\n"), f"none of the two ended with {ran.returncode}")
    ran = cube.run("ask", *cube.words())
    check((ran.returncode, ran.stderr.decode()) == (2, "usage: --groups\n"), f"ask with groups ended with {ran.returncode}")
    print("2 where words name both or none")


def as_typed(folder):
    """The groups of this folder over examples/pay, from the top of the repository."""
    pay = "examples/pay"
    words = ["--dims", f"{pay}/dims.toml", "--facts", f"{pay}/facts.csv", "--groups", "examples/groups/groups.toml"]
    with serving([*words, "--journal", str(folder / "pay.journal")], cwd=TOP) as address:
        january = "slice pay by region.area where time.month=Jan"
        check(asked(address, "board", january)[0] == 200, "the board is not told January by area")
        staff = asked(address, "staff", january)
        check(staff == (403, JANUARY), f"the staff is told {staff}")
        check(asked(address, "staff", "slice pay by region.area, time.quarter")[0] == 200, "the staff is not told quarters by area")
        print("the staff and the board over examples/pay, each by its own policy")


def main():
    build()
    with tempfile.TemporaryDirectory() as made:
        folder = pathlib.Path(made)
        side_by_side(folder / "two")
        played(folder / "played")
        one_value_corrected(folder / "corrected")
        at_random(folder / "random", 1)
        refusals(folder / "refused")
        as_typed(folder)
    return 0


if __name__ == "__main__":
    try:
        sys.exit(main())
    except Wrong as wrong:
        print(f"wrong: {wrong}", file=sys.stderr)
        sys.exit(1)
