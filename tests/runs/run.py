#!/usr/bin/env python3
"""Runs the program over small files, and compares status, output and the text on standard error with what docs/FORMATS.md says.

Each case is a row of a table: the words, the files, the input, and what comes of it. Takes the program in CUBE, or else ./cube at the
top; needs a second or two.
"""

import os
import pty
import re
import subprocess
import sys
import tempfile
import termios

HERE = os.path.dirname(os.path.abspath(__file__))
sys.path.insert(0, os.path.join(HERE, ".."))

from small import GRID, PAY as CITIES  # noqa: E402

CUBE = os.path.abspath(os.environ.get("CUBE", os.path.join(HERE, "..", "..", "cube")))

DIMS = CITIES["dims"]
FACTS = CITIES["facts"]
POLICY = """[[measure]]
name = "pay"
method = "lattice"
[[measure]]
name = "hours"
method = "open"
[[object]]
measure = "pay"
below = { region = "city", time = "month" }
"""
FLAT = "city,month,pay\na,x,10\na,y,20\nb,x,30\n"
PAY = {"d": DIMS, "f": FACTS, "p": POLICY}
CHECK = "check --dims d --facts f --policy p"
ASK = "ask --dims d --facts f --policy p --journal log"
HEAD = "cube-journal 1 4c8df3102cef829a9ffabc98216affca3b5385b1103591ab4371bfd90b02a4df\n"


# What may stand on standard error where all was done.
NOTE = re.compile(rb": (new|entries \d+|nothing is protected|\d+ cells? of \(.*\) may be one person's)$")


def bytes_of(text):
    return text if isinstance(text, bytes) else text.encode()


class Room:
    """A folder of its own, with these files."""

    def __init__(self, files):
        self.place = tempfile.TemporaryDirectory(prefix="cube-runs-")
        self.folder = self.place.name
        for name, text in files.items():
            self.write(name, text)

    def write(self, name, text):
        with open(os.path.join(self.folder, name), "wb") as file:
            file.write(bytes_of(text))

    def read(self, name):
        with open(os.path.join(self.folder, name), "rb") as file:
            return file.read()

    def run(self, words, given="", stdin=None, stdout=subprocess.PIPE):
        words = words.split() if isinstance(words, str) else words
        more = {"stdin": stdin} if stdin is not None else {"input": bytes_of(given)}
        return subprocess.run([CUBE, *words], cwd=self.folder, stdout=stdout, stderr=subprocess.PIPE, **more)

    def typed(self, words, lines, status=0):
        """Runs at a terminal at which these lines are typed: the output, and what else stands on the terminal."""
        near, far = pty.openpty()
        quiet = termios.tcgetattr(far)
        quiet[3] &= ~termios.ECHO
        termios.tcsetattr(far, termios.TCSANOW, quiet)
        os.write(near, bytes_of(lines) + b"\x04")
        ran = subprocess.run([CUBE, *words], cwd=self.folder, stdin=far, stdout=subprocess.PIPE, stderr=far)
        assert ran.returncode == status, (words, ran)
        end = b"(end)\r\n"
        os.write(far, b"(end)\n")
        shown = b""
        while not shown.endswith(end):
            shown += os.read(near, 65_536)
        os.close(near)
        os.close(far)
        return ran.stdout.decode(), shown.removesuffix(end).replace(b"\r\n", b"\n").decode()


def expect(ran, status, out, text, case):
    assert ran.returncode == status, (case, ran)
    assert out is None or ran.stdout == bytes_of(out), (case, ran)
    # Notes for a person stand before the text.
    assert ran.stderr.endswith(bytes_of(text)), (case, ran)
    assert status != 0 or all(NOTE.search(line) for line in ran.stderr.splitlines()), (case, ran)


# ---- words

def wrong_words_are_named():
    room = Room({})
    for words, text in (
        ("", "no command"), ("ask --dims", "--dims"), ("ask --facts f", "missing --dims"), ("ask --requests 0", "0"), ("ask --requests 16777217", "16777217"),
        ("ask --requests +1", "+1"), ("check --requests 1", "--requests"), ("check", "missing --dims"), ("check --dims d", "missing --facts"),
        ("check --facts f --dims d", "missing --policy"), ("ask --dims d --facts f", "missing --policy"), ("witness --requests 1", "--requests"),
        ("twin --dims d --facts f --policy p --journal l", "missing --cell"), ("sum", "missing --facts"), ("sum --facts a --facts b", "--facts"),
        ("sum --facts", "--facts"), ("sum --dims a", "--dims"), ("sun", "sun"), ("--help sun", "sun"), ("help sum ask", "sum"), ("-h --facts f", "--facts"), ("sum -help", "-help"), ("serve --script s", "--script"),
        ("replay --address a", "--address"), ("replay --dims d --facts f --policy p --journal l", "missing --script"), ("ask --groups g", "--groups"),
        ("serve --groups g --policy p", "--policy"), ("replay --policy p --groups g", "--groups"), ("replay --dims d --facts f", "missing --policy"),
        ("serve --groups g --dims d", "missing --facts"), ("serve --idle 86401", "86401"), ("demo --size 21", "21"), ("demo --number 18446744073709551616", "18446744073709551616"),
        ("demo --number 18446744073709551615", "missing --size"), ("demo --size 0", "0"),
        ("draft", "missing --facts"), ("draft --levels x", "x"), ("draft --levels", "--levels"), ("draft --skip", "--skip"), ("draft --policy --policy", "--policy"), ("draft --facts f --facts g", "--facts"),
        ("draft --policy --members a --skip s --levels a=b,c --skip t --members d --policy x", "--policy"),
    ):
        expect(room.run(words), 2, "", f"usage: {text}\n", words)


def help_is_given_whole_and_by_command():
    room = Room({})
    whole = room.run("--help")
    expect(whole, 0, None, "", "--help")
    for command in "draft check sum ask serve replay advise why witness twin audit compact carry demo".split():
        part = room.run([command, "--help", "and", "more"])
        expect(part, 0, None, "", command)
        for words in (["help", command], ["-h", command], ["--help", command], [command, "help"], [command, "-h"]):
            expect(room.run(words), 0, part.stdout, "", words)
        lines = part.stdout.splitlines(keepends=True)
        assert lines[0].startswith(f"cube {command} ".encode()), part
        assert all(line in whole.stdout for line in lines), part
    for words in ("help", "-h"):
        expect(room.run(words), 0, whole.stdout, "", words)
    expect(room.run("--version"), 0, "cube 0.1.0\n", "", "--version")
    with open("/dev/full", "wb") as full:
        expect(room.run("--help", stdout=full), 6, None, "output failed\n", "a full output")


# ---- sum

def lines_are_summed():
    long = "a" * 65_536
    for facts, given, out in (
        (FLAT, 'a,x\n*,*\nc,*\n*\n"a",x', "10\n60\n0\nbad line: fields\nbad line: quote\n"), (FLAT, "a,x\r\n\r\n", "10\nbad line: fields\n"), (FLAT, "", ""), (FLAT, "*,*", "60\n"),
        ("city,pay\n", "*,*\n*", "bad line: fields\n0\n"), (FLAT, f"{long}\r\n*,*\n", "bad line: fields\n60\n"), (FLAT, f"{long}a\r\n*,*\n", "bad line: too long\n60\n"),
    ):
        expect(Room({"f": facts}).run("sum --facts f", given), 0, out, "", (facts, given[:80]))
    for facts, words in (
        ("", "no header"), ("pay\n", "no header"), (b"\xef\xbb\xbf\xef\xbb\xbfcity,pay\n", "no header"), ("city,pay\na,1\nb\n", "row 2 fields"), ("city,pay\na,1.5\n", "row 1 column pay: too fine"),
        ("city,pay\na,x\n", "row 1 column pay: not a number"), ("city,pay\na,1000000000001\n", "row 1 column pay: too large"),
    ):
        expect(Room({"f": facts}).run("sum --facts f", "*\n"), 3, "", f"facts: {words}\n", facts)


def what_fails_ends_a_run():
    room = Room({"f": FLAT, **PAY})
    expect(room.run("sum --facts g"), 5, "", "cannot read g\n", "no file")
    folder = os.open(room.folder, os.O_RDONLY)
    expect(room.run(ASK, stdin=folder), 5, "", "input failed\n", "an input that is a folder")
    os.close(folder)
    with open("/dev/full", "wb") as full:
        expect(room.run(CHECK, stdout=full), 6, None, "output failed\n", "a full output")
        expect(room.run(ASK, "cell pay\n", stdout=full), 6, None, "output failed\n", "a full output")
        expect(room.run("demo --number 2 --size 1", stdout=full), 6, None, "output failed\n", "a full output")
    for missing in "dfp":
        rest = Room({name: text for name, text in PAY.items() if name != missing})
        expect(rest.run(CHECK), 5, "", f"cannot read {missing}\n", missing)


# ---- check

ODD_DIMS = """[[dimension]]
name = 'region'
levels = ['city', 'area']
paths = [["L'Isle, \\"Sud\\" é", 'South']]
[[dimension]]
name = 'time'
levels = ['month', 'quarter']
paths = [['Jan', 'Q1'], ['Feb', 'Q1']]
[[measure]]
name = 'pay'
[[measure]]
name = 'hours'
"""
ODD_FACTS = b"\xef\xbb\xbfcity,month,pay,hours\r\n\"L'Isle, \"\"Sud\"\" \xc3\xa9\",Jan,10,1\r\n"


def files_are_summed_up():
    for dims, facts, counts, digest in (
        (DIMS, FACTS, "5 5 no 5", "4c8df3102cef829a9ffabc98216affca3b5385b1103591ab4371bfd90b02a4df"),
        (DIMS, "city,month,pay,hours\nLyon,Jan,-5,0\nLyon,Jan,5,0\n", "2 1 no 1", "1693e55f228b11f8a7e42b2c4e18649c6a29cad79e31658880a7d51197237d1e"),
        (DIMS, "city,month,pay,hours\nLyon,Jan,1000000000000,0\n", "1 1 no 1", "b76a23411a01cd3f3ff3190efa478c4e360e12edf058c15231f5b721c4550495"),
        (DIMS, "hours,extra,pay,month,city\r\n1,x,2,Jan,Lyon\r\n1,x,2,Feb,Lyon\r\n1,x,2,Jan,Nice\n\n1,x,2,Feb,Nice\r1,x,2,Jan,Paris\n1,x,2,Feb,Paris", "6 6 yes 6", "4e6eee012354c7c3dfff6758ec24af97c1f8f60da6bd9177b9fae46719ae5115"),
        (ODD_DIMS, ODD_FACTS, "1 1 no 1", "2885e987e9bee1b987ab2b378592a6ec136e1e27be7dd6757e2c2a5c550e4312"),
    ):
        facts_held, points, full, protected = counts.split()
        out = f"dimensions 2\nmeasures 2\nfacts {facts_held}\npoints {points}\nfull {full}\ncuboids 9\nprotected {protected}\ndigest {digest}\n"
        expect(Room({"d": dims, "f": facts, "p": POLICY}).run(CHECK), 0, out, "", facts)


def refused_fact_files_are_named():
    header = "city,month,pay,hours\n"
    for facts, words in (
        ("", "no header"), (b"\xef\xbb\xbf", "no header"), ("\n\r\n", "no header"), (b"\xef\xbb\xbf\xef\xbb\xbf" + header.encode(), "no header"), ("city,month,pay\n", "missing column hours"),
        ("city,pay\n", "missing column month"), ("city,month,pay,hours,month,pay\n", "column month twice"), (header + "Lyon,Jan,1,1\nLyon,Jan,1\n", "row 2 fields"), (header + "Lyon,Jan,1,1,1\n", "row 1 fields"),
        (header + "Lyon,Jan,1e3,0\n", "row 1 column pay: not a number"), (header + "Lyon,Jan,,0\n", "row 1 column pay: not a number"), (header + "Lyon,Jan,0.5,0\n", "row 1 column pay: too fine"),
        (header + "Lyon,Jan,1000000000000,0\nLyon,Jan,1000000000001,0\n", "row 2 column pay: too large"), (header + "Lyon,Mar,x,0\n", "row 1 column month: unknown member"),
        ("pay,month,city,hours\nx,Mar,Rome,0\n", "row 1 column pay: not a number"), (header + "lyon,Jan,1,0\n", "row 1 column city: unknown member"), (header + '"Lyon,Jan,1,0\nLyon,Jan,1,0\n', "row 1 fields"),
    ):
        expect(Room({**PAY, "f": facts}).run(CHECK), 3, "", f"facts: {words}\n", facts)
    twice = DIMS.replace('["Nice", "South"]', '["Lyon","North"]')
    expect(Room({"d": twice, "f": ""}).run(CHECK), 3, "", "dims: leaf twice dimension 1 paths 2\n", "the dimension file comes first")


BOTH = 'measure = [{name = "pay", method = "lattice"}, {name = "hours", method = "parity"}]\n'
OPEN = BOTH.replace("lattice", "open")


def refused_policy_files_are_named():
    objects = "[[object]]\nmeasure = \"pay\"\nbelow = {}\n"
    for policy, words in (
        ("measure =", "not toml"), ("measures = 1", "unknown measures"), ('measure = [{name = "hours", method = "open"}]', "missing pay"),
        ('measure = [{name = "pay", method = "open"}, {name = "pay", method = "open"}]', "measure twice measure 2 name"), (BOTH.replace("parity", "shut"), "unknown measure 2 method"),
        (OPEN + 'object = [{measure = "pay", below = {}}]', "object on method object 1"), (BOTH + 'object = [{measure = "hours", below = {region = "area", time = "month"}}]', "object on method object 1"),
        (BOTH + 'object = [{measure = "pay", below = {region = "city", time = 1}}]', "wrong kind object 1 below"), (BOTH + 'object = [{measure = "pay", below = {place = "city"}}]', "unknown object 1 below place"),
        (BOTH + 'object = [{measure = "pay", below = {region = "town"}}]', "unknown object 1 below region"),
        (BOTH + 'object = [{measure = "pay", below = {}, slice = {region = {level = "area", members = ["West"]}}}]', "unknown object 1 slice region members 1"),
        (BOTH + 'object = [{measure = "pay", below = {}, slice = {region = {level = "area", members = []}}}]', "missing object 1 slice region members"), (BOTH + objects * 65, "limit objects 64"),
    ):
        expect(Room({**PAY, "p": policy}).run(CHECK), 3, "", f"policy: {words}\n", policy[:200])
    assert Room({**PAY, "p": BOTH + objects * 64}).run(CHECK).returncode == 0
    expect(Room({**PAY, "f": "", "p": "x"}).run(CHECK), 3, "", "facts: no header\n", "the policy file comes last")


# ---- notes

def notes_show_what_a_report_has_no_room_for():
    header = "city,month,pay,hours\n"
    for facts, note in (
        (header + "Lyon,Jan,1,1\n\"Ly\non\",Jan,1,1\nRo\x1bme,Jan,1,1\n", 'f row 2 is line 3: city "Ly?on" is no member of the dimension region, did you mean "Lyon"?'), (header + "Lyon,Mar,1,1\n", 'f row 1 is line 2: month "Mar" is no member of the dimension time'),
        (header + "Lyon,Jan,1.25,1\n", 'f row 1 is line 2: pay "1.25" has more decimals than the 0 of its measure'), (header + "Lyon,Jan,x,1\n", 'f row 1 is line 2: pay "x" is not a number'),
        (header + f"Lyon,Jan,{'9' * 200},1\n", f'f row 1 is line 2: pay "{"9" * 80}".. is too large'), (header + "Lyon,Jan,1\n", "f row 1 is line 2: 3 fields, and the header has 4"), ("city;month;pay;hours\nLyon;Jan;1;1\n", 'f line 1: the columns are "city;month;pay;hours"'),
    ):
        ran = Room({**PAY, "f": facts}).run(CHECK)
        assert ran.returncode == 3 and ran.stderr.decode().startswith(f"{note}\n"), (facts, ran)
    ran = Room({**PAY, "d": "[[dimension]]\nnam \"region\"\n"}).run(CHECK)
    assert ran.stderr.startswith(b'd line 2: "nam "region""') and ran.stderr.endswith(b"dims: not toml\n"), ran
    ran = Room({**PAY, "p": BOTH}).run(CHECK)
    assert ran.returncode == 0 and ran.stderr == b"pay: nothing is protected\npay: 5 cells of (region.city, time.month) may be one person's\n", ran
    twice = {**PAY, "p": BOTH, "f": FACTS.replace("Paris,Feb,50,5\n", "Paris,Feb,20,2\nParis,Feb,30,3\n")}
    for words in (CHECK, CHECK.replace("check", "advise")):
        told = Room(twice).run(words).stderr
        assert told.endswith(b"pay: 4 cells of (region.city, time.month) may be one person's\n"), (words, told)


# ---- ask

AREAS_REFUSED = "403 102\nsource: the cuboid (region.area, time.month) does not cut the cell (region.city=Lyon, time.month=Feb)\n"
MONTHS_KEPT = "200 29\ntime.month,pay\nJan,80\nFeb,70\n"


def lines_are_asked():
    for given, out in (
        ("", ""), ("cell pay", "200 8\npay\n150\n"), ("slice pay by region.area\ncell count\n", "200 34\nregion.area,pay\nSouth,60\nNorth,90\n200 8\ncount\n5\n"), ("slice pay by time.month\r\n", MONTHS_KEPT),
        ("range hours region.city=Lyon..Nice, time.month=Jan..Jan\n", "200 8\nhours\n4\n"), ("cel pay\n", "400 17\nsyntax at byte 3\n"), ("shapes\n", "400 17\nsyntax at byte 1\n"),
        ("witness cell pay region.city=Lyon, time.month=Feb\n", "200 41\nregion.city,time.month,change\nLyon,Feb,1\n"), ("\n", "400 17\nsyntax at byte 0\n"), ("cell pay region.city=Rome\n", "404 26\nunknown member at byte 21\n"),
        ("range hours time.month=Feb..Jan\n", "400 21\nbackwards at byte 23\n"), ("cell pay time.month=Jan, time.month=Feb\n", "400 27\ndimension twice at byte 25\n"), ("a" * 65_537 + "\r\ncell pay\n", "413 10\ntoo large\n200 8\npay\n150\n"),
    ):
        expect(Room(PAY).run(ASK, given), 0, out, "", given[:80])
    for facts, given, out in (
        ("city,month,pay,hours\n", "cell count\nslice pay by region.city\n", "200 6\ncount\n200 16\nregion.city,pay\n"),
        ("city,month,pay,hours\nLyon,Jan,0,5\nLyon,Jan,0,-5\n", "slice hours by region.city\ncell count region.city=Lyon\n", "200 25\nregion.city,hours\nLyon,0\n200 8\ncount\n2\n"),
    ):
        expect(Room({**PAY, "f": facts}).run(ASK, given), 0, out, "", facts)
    odd = 'slice count by region.city\ncell count region.city="L\'Isle, \\"Sud\\" é"\n'
    expect(Room({"d": ODD_DIMS, "f": ODD_FACTS, "p": POLICY}).run(ASK, odd), 0, "200 41\nregion.city,count\n\"L'Isle, \"\"Sud\"\" é\",1\n200 8\ncount\n1\n", "", "quoted names")
    for requests, status, rows, text in (("2", 10, 2, "spent: 2 requests, 27 events\n"), ("003", 10, 3, "spent: 3 requests, 27 events\n"), ("4", 0, 3, "")):
        expect(Room(PAY).run(f"{ASK} --requests {requests}", "cell pay\n" * 3), status, "200 8\npay\n150\n" * rows, text, requests)


OPEN_BOTH = 'measure = [{name = "pay", method = "open"}, {name = "hours", method = "open"}]\n'
CENTS = """[[dimension]]
name = "region"
levels = ["city"]
paths = [['Lîle, "Sud"'], ["Nice"]]
[[measure]]
name = "pay"
decimals = 2
"""
CENTS_PAID = {"d": CENTS, "f": 'city,pay\n"Lîle, ""Sud""",-0.05\nNice,12.5\n', "p": 'measure = [{name = "pay", method = "open"}]\n'}


def sums_are_written():
    for files, rows in (
        ({**PAY, "p": OPEN_BOTH}, (
            ("cell count", "count\n5\n"), ("cell pay", "pay\n150\n"), ("slice pay by region.area", "region.area,pay\nSouth,60\nNorth,90\n"), ("slice count by time.month", "time.month,count\nJan,3\nFeb,2\n"),
            ("slice hours by region.city, time.month where time.month=Feb", "region.city,time.month,hours\nLyon,Feb,2\nParis,Feb,5\n"), ("range hours region.city=Nice..Paris, time.month=Jan..Feb", "hours\n12\n"),
            ("cell pay region.city=Nice, time.month=Feb", "pay\n"),
        )),
        (CENTS_PAID, (("slice pay by region.city", 'region.city,pay\n"Lîle, ""Sud""",-0.05\nNice,12.50\n'), ('cell count region.city="Lîle, \\"Sud\\""', "count\n1\n"))),
    ):
        out = "".join(f"200 {len(body.encode())}\n{body}" for _, body in rows)
        expect(Room(files).run(ASK, "".join(f"{query}\n" for query, _ in rows)), 0, out, "", rows)


GUARDED = POLICY.replace("open", "parity")
SOUTH = GUARDED + """[[object]]
measure = "hours"
below = { region = "city", time = "month" }
slice = { region = { level = "area", members = ["South"] } }
"""
FIELDS = {"d": GRID["dims"], "f": "r,c,v\nr0,c0,1\nr0,c1,2\nr0,c2,3\nr1,c0,4\nr1,c1,5\nr1,c2,6\n", "p": GRID["policy"]}
SHAPE = (
    '{"dimensions":[{"levels":["city","area"],"name":"region","paths":[["Lyon","South"],["Nice","South"],["Paris","North"]]},{"levels":["month","quarter"],"name":"time",'
    '"paths":[["Jan","Q1"],["Feb","Q1"]]}],"facts":5,"measures":[{"decimals":0,"method":"lattice","name":"pay"},{"decimals":0,"method":"parity","name":"hours"}],"points":5}'
)
MONTHS = ("slice pay by time.month", 200, "time.month,pay\nJan,80\nFeb,70\n")
AREAS = "slice pay by region.area"


def answers_follow_the_history():
    for files, rows in (
        ({**PAY, "p": GUARDED}, (
            ("cell pay", 200, "pay\n150\n"), ("slice pay by region.city", 403, "source: the cuboid (region.city) does not cut the cell (region.city=Nice, time.month=Jan)\n"),
            MONTHS, MONTHS, ("slice pay by time.quarter", 200, "time.quarter,pay\nQ1,150\n"),
            (AREAS, 403, "source: the cuboid (region.area, time.month) does not cut the cell (region.city=Lyon, time.month=Feb)\n"), ("range hours region.city=Lyon..Nice, time.month=Jan..Jan", 200, "hours\n4\n"),
            ("range hours region.city=Lyon..Nice, time.month=Jan..Feb", 403, "single: link 2, (region.city=Nice, time.month=Jan), fixes the cell (region.city=Lyon, time.month=Jan)\n"),
        )),
        ({**PAY, "p": GUARDED}, (
            ("witness cell pay region.city=Lyon, time.month=Feb", 200, "region.city,time.month,change\nLyon,Feb,1\n"), MONTHS,
            ("witness cell pay region.city=Lyon, time.month=Feb", 200, "region.city,time.month,change\nLyon,Feb,1\nParis,Feb,-1\n"), ("shape", 200, SHAPE),
        )),
        ({**PAY, "p": GUARDED}, ((AREAS, 200, "region.area,pay\nSouth,60\nNorth,90\n"),)),
        ({**PAY, "p": SOUTH}, (
            ("cell hours region.city=Paris, time.month=Jan", 200, "hours\n4\n"),
            ("range hours region.city=Nice..Paris, time.month=Jan..Jan", 403, "pair: link 1, (region.city=Nice, time.month=Jan) and (region.city=Paris, time.month=Jan), fixes the cell (region.city=Nice, time.month=Jan)\n"),
            ("cell hours region.area=South", 403, "single: link 2, (region.city=Nice, time.month=Jan), fixes the cell (region.city=Nice, time.month=Jan)\n"),
        )),
        ({**FIELDS, "f": GRID["facts"]}, (
            ("range v col.c=c0..c1", 200, "v\n15\n"), ("cell v row.r=r1", 200, "v\n17\n"),
            ("range v col.c=c1..c2", 403, "pair: link 1, (row.r=r0, col.c=c1) and (row.r=r1, col.c=c2), fixes the cell (row.r=r0, col.c=c1)\n"),
        )),
        (FIELDS, (
            ("range v col.c=c0..c0", 200, "v\n5\n"), ("range v col.c=c1..c1", 200, "v\n7\n"), ("range v col.c=c2..c2", 200, "v\n9\n"), ("range v col.c=c0..c1", 200, "v\n12\n"), ("range v col.c=c1..c2", 200, "v\n16\n"),
            ("range v col.c=c0..c2", 200, "v\n21\n"), ("range v row.r=r0..r0, col.c=c0..c1", 200, "v\n3\n"), ("range v row.r=r0..r0, col.c=c1..c2", 200, "v\n5\n"), ("range v row.r=r1..r1, col.c=c0..c1", 200, "v\n9\n"),
            ("range v row.r=r1..r1, col.c=c1..c2", 200, "v\n11\n"), ("cell v row.r=r0", 403, "single: link 2, (row.r=r0, col.c=c2), fixes the cell (row.r=r0, col.c=c0)\n"),
        )),
    ):
        out = "".join(f"{status} {len(body)}\n{body}" for _, status, body in rows)
        expect(Room(files).run(ASK, "".join(f"{query}\n" for query, *_ in rows)), 0, out, "", rows)


# ---- journals

def journals_are_kept_and_looked_at():
    room = Room(PAY)
    room.run(ASK, "slice pay by time.month\nslice pay by time.month\nslice pay by time.quarter\ncell count\n")
    assert room.read("log").decode() == HEAD + "q slice pay by time.month\n"
    room = Room({**PAY, "log": HEAD + "q slice pay by time.month\nq slice pay by ti"})
    ran = room.run(ASK, "slice pay by region.area\n")
    expect(ran, 0, AREAS_REFUSED, "", "what was kept is remembered")
    assert b"log: entries 1\n" in ran.stderr, ran
    assert room.read("log").decode() == HEAD + "q slice pay by time.month\n"
    foreign = HEAD.replace("4c8df3102cef829a9ffabc98216affca3b5385b1103591ab4371bfd90b02a4df", "0" * 64)
    for log, words in (
        ("x", "line 1 damaged"), (HEAD + "q slice  pay by time.month\n", "line 2 damaged"), (HEAD + "q slice pay by time.month\nq slice pay by region.area\n", "line 3 inadmissible"), (HEAD + "q cell count\n", "line 2 damaged"),
    ):
        room = Room({**PAY, "log": log})
        expect(room.run(ASK, "cell pay\n"), 4, "", f"journal: {words}\n", log)
        assert room.read("log") == log.encode()
    ran = Room({**PAY, "log": foreign}).run(ASK)
    assert ran.returncode == 4 and f"journal: digest {'0' * 64} is not {HEAD[15:-1]}\n".encode() in ran.stderr, ran
    room = Room(PAY)
    room.run(ASK, "slice pay by time.month\n")
    room.write("f", FACTS.replace("Nice,Jan,30", "Nice,Jan,31"))
    ran = room.run(ASK, "slice pay by time.month\n")
    assert ran.returncode == 4 and b"journal: values " in ran.stderr and not ran.stdout, ran
    room.write("f", FACTS)
    expect(room.run(ASK, "slice pay by time.month\n"), 0, MONTHS_KEPT, "", "the facts as they were")


def sources_and_links_are_read():
    nice = 'object = [{measure = "hours", below = {region = "city", time = "month"}, slice = {region = {level = "city", members = ["Nice"]}}}]\n'
    room = Room({**PAY, "p": BOTH + nice})
    digest = room.run(CHECK).stdout.split()[-1].decode()
    room.write("log", f"cube-journal 2 {digest}\ns 0 2 0\nk 1 0 2\nk 1 4\nq slice pay by region.area\n")
    # the pair is Lyon and Nice in January, so Lyon's hours would tell those of Nice; Paris in February stands alone
    refused = "single: link 1, (region.city=Lyon, time.month=Jan), fixes the cell (region.city=Nice, time.month=Jan)\n"
    ran = room.run(ASK, "cell hours region.city=Lyon, time.month=Jan\ncell hours region.city=Paris, time.month=Feb\n")
    expect(ran, 0, f"403 {len(refused)}\n{refused}200 8\nhours\n5\n", "", "sources and links")
    assert b"log: entries 4\n" in ran.stderr, ran


def journals_are_written_down():
    for entries, held in (("", ""), ("q slice pay by time.month\n", "s 0 2 0\n")):
        room = Room({**PAY, "log": HEAD + entries})
        out = HEAD.replace("cube-journal 1", "cube-journal 2") + held
        words = ASK.replace("ask", "compact")
        expect(room.run(words), 0, out, "", entries)
        assert room.read("log").decode() == HEAD + entries
        expect(Room({**PAY, "log": out}).run(words), 0, out, "", "once more")


# ---- connections

REPLAY = ASK.replace("ask", "replay") + " --script s"


def get(path):
    return f"GET {path} HTTP/1.1\r\nHost: a\r\n\r\n".encode()


def script_of(*pieces):
    return "open 7\n" + "".join(f"data 7 {piece.hex()}\n" for piece in pieces)


def sent(*pieces):
    return "".join(f"sent 7 {len(piece)}\n{piece}\n" for piece in pieces)


def head_of(kind, length):
    return f"HTTP/1.1 200 OK\r\nContent-Type: {kind}\r\nContent-Length: {length}\r\n\r\n"


def connections_are_played():
    count = sent(head_of("text/csv; charset=utf-8", 8), "count\n5\n")
    ask = get("/v1/query?q=cell+count")
    for requests, pieces, status, replies, text in (
        ("9", (ask,), 0, 1, ""), ("9", (ask * 2, ask), 0, 3, ""), ("1", (ask, ask), 10, 1, "spent: 1 requests, 2 events\n"), ("2", (ask * 3,), 10, 2, "spent: 2 requests, 2 events\n"),
    ):
        room = Room({**PAY, "s": script_of(*pieces)})
        expect(room.run(f"{REPLAY} --requests {requests}"), status, count * replies, text, (requests, pieces))


def sends_pass_the_room():
    """A send that would pass the 2^28 bytes that may be sent fails, its connection is closed, and it is the last."""
    leaves = [f"{number:05}" + "x" * 60 for number in range(60_000)]
    dims = f'[[dimension]]\nname = "region"\nlevels = ["city"]\npaths = {[[leaf] for leaf in leaves]}\n[[measure]]\nname = "pay"\n'.replace("'", '"')
    paths = ",".join(f'["{leaf}"]' for leaf in leaves)
    shape = f'{{"dimensions":[{{"levels":["city"],"name":"region","paths":[{paths}]}}],"facts":1,"measures":[{{"decimals":0,"method":"open","name":"pay"}}],"points":1}}'
    head = head_of("application/json", len(shape))
    fit = 2**28 // (len(head) + len(shape))
    room = Room({"d": dims, "f": f"city,pay\n{leaves[0]},1\n", "p": 'measure = [{name = "pay", method = "open"}]\n', "s": script_of(get("/v1/shape") * (fit + 2))})
    ran = room.run(REPLAY)
    front = sent(head) if 2**28 % (len(head) + len(shape)) >= len(head) else ""
    expect(ran, 10, sent(head, shape) * fit + front + "shut 7\n", f"spent: room for sends, {fit + 1} requests, 2 events\n", "the room for sends")


# ---- cells, transcripts

def cells_are_told_or_refused():
    cell = "cell pay region.city=Lyon, time.month=Feb"
    full = "city,month,pay,hours\nLyon,Feb,1000000000000,1\n"
    for command, text, facts, status, out, words in (
        ("witness", cell, FACTS, 0, "region.city,time.month,change\nLyon,Feb,1\n", ""), ("twin", cell, FACTS, 0, FACTS.replace("Lyon,Feb,20", "Lyon,Feb,21"), ""),
        ("witness", "cell pay region.city=Nice, time.month=Feb", FACTS, 3, "", "cell: empty cell\n"), ("witness", "cell pay region.area=South", FACTS, 3, "", "cell: not protected\n"),
        ("twin", "cell count", FACTS, 3, "", "cell: not a cell of a measure\n"), ("twin", "slice pay by time.month", FACTS, 3, "", "cell: not a cell of a measure\n"),
        ("twin", "cel pay", FACTS, 3, "", "cell: syntax at byte 3\n"), ("twin", cell, full, 3, "", "cell: beyond the bound\n"),
    ):
        room = Room({**PAY, "f": facts})
        expect(room.run([*ASK.replace("ask", command).split(), "--cell", text]), status, out, words, (command, text))


def changes_and_twins_follow_the_source():
    cell = "cell pay region.city=Lyon, time.month=Feb"
    files = {**PAY, "f": FACTS.replace("Paris,Feb,50,5\n", "Paris,Feb,20,2\nParis,Feb,30,3\n"), "p": GUARDED}
    for given, changes, paris in (("", "Lyon,Feb,1\n", "25"), ("slice pay by time.month\n", "Lyon,Feb,1\nParis,Feb,-1\n", "24")):
        room = Room(files)
        assert room.run(ASK, given).returncode == 0
        twin = f"city,month,pay,hours\nLyon,Jan,10,1\nLyon,Feb,21,2\nNice,Jan,30,3\nParis,Jan,40,4\nParis,Feb,25,3\nParis,Feb,{paris},2\n"
        for command, text, out in (
            ("witness", cell, f"region.city,time.month,change\n{changes}"), ("twin", cell, twin), ("witness", cell.replace("pay", "hours"), "region.city,time.month,change\nLyon,Feb,1\n"),
        ):
            expect(room.run([*ASK.replace("ask", command).split(), "--cell", text]), 0, out, "", (given, command, text))


def transcripts_are_audited():
    months = '{"q":"slice pay by time.month","status":200,"body":"time.month,pay\\nJan,80\\nFeb,70\\n"}'
    areas = '{"q":"slice pay by region.area","status":200,"body":"region.area,pay\\nSouth,60\\nNorth,90\\n"}'
    for transcript, status, out, text in (
        (f"[{months}]", 0, "yes 1\n", ""), (f"[{months},{areas}]", 1, "no: measure pay, cell (region.city=Lyon, time.month=Feb)\n", ""), (f"[{months}]".replace("80", "81"), 1, "no: item 1\n", ""), ("[]", 0, "yes 0\n", ""),
        ("{}", 3, "", "transcript: not an array\n"), ("", 3, "", "transcript: not json\n"), ('[{"q":"cell count","status":200,"body":"count\\n5\\n"},{"q":"cell count","status":99,"body":""}]', 3, "", "transcript: item 2\n"),
    ):
        room = Room({**PAY, "t": transcript})
        expect(room.run("audit --dims d --facts f --policy p --transcript t"), status, out, text, transcript)
    room = Room({**PAY, "t": f"[{months}]"})
    expect(room.run("audit --dims d --facts f --policy p --transcript u"), 5, "", "cannot read u\n", "no transcript")
    with open("/dev/full", "wb") as full:
        expect(room.run("audit --dims d --facts f --policy p --transcript t", stdout=full), 6, None, "output failed\n", "a full output")


def a_person_is_told_more():
    for line, note in (
        ("range pay time.month=Jan..Feb", 'time.month: "Jan" to "Feb", 2 members\n'), ("range pay region.city=Nice..Paris, time.month=Jan..Feb", 'region.city: "Nice" to "Paris", 2 members\ntime.month: "Jan" to "Feb", 2 members\n'),
        ("range pay time.month=Jan..Jan", ""), ("slice pay by region.city where time.month=Jan..Feb", ""), ("range pay time.month=Jan..Mar", "^\n"), ("range", "^\n"),
    ):
        _, shown = Room(PAY).typed(ASK.split(), f"{line}\n")
        assert note in shown and ("members" in shown) == ("members" in note), (line, shown)
        assert b"members" not in Room(PAY).run(ASK, f"{line}\n").stderr, line
    for line, words in (("help", "\nshape "), ("?", "\nslice MEASURE by "), ("quit", "Control-D ends it\n"), ("cell pay", "cube> "), ("cel pay", f"{' ' * 9}^\n")):
        _, shown = Room(PAY).typed(ASK.split(), f"{line}\n")
        assert shown.startswith("cube> ") or "\ncube> " in shown, (line, shown)
        assert words in shown, (line, shown)
        assert b"cube> " not in Room(PAY).run(ASK, f"{line}\n").stderr, line
    cell = ["--cell", "cell pay region.city=Lyon, time.month=Feb"]
    empty = "log: the history is empty\n"
    for words in (["witness", *cell], ["twin", *cell], ["compact"], ["why", "--query", "slice pay by time.month"], ["advise"]):
        room = Room(PAY)
        words = [*words, *ASK.split()[1:]]
        assert empty in room.typed(words, "")[1], words
        assert empty not in room.typed(words, "")[1], words
        assert empty.encode() not in Room(PAY).run(words).stderr, words
    for words, told in (([], "cube draft --facts TABLE.csv > dims.toml\n"), (["sun"], "cube help: all commands; cube help COMMAND: how one is used\n")):
        text, told = f"usage: {words[0] if words else 'no command'}\n", told
        shown = Room({}).typed(words, "", status=2)[1]
        assert shown.startswith(text + told), (words, shown)
        expect(Room({}).run(words), 2, "", text, words)


CHECKS = (
    wrong_words_are_named, help_is_given_whole_and_by_command, lines_are_summed, what_fails_ends_a_run, files_are_summed_up, refused_fact_files_are_named, refused_policy_files_are_named,
    notes_show_what_a_report_has_no_room_for, lines_are_asked, sums_are_written, answers_follow_the_history, journals_are_kept_and_looked_at, sources_and_links_are_read, journals_are_written_down, connections_are_played, sends_pass_the_room, cells_are_told_or_refused,
    changes_and_twins_follow_the_source, transcripts_are_audited, a_person_is_told_more,
)


def main():
    for check in CHECKS:
        check()
        print("runs:", check.__name__.replace("_", " "))


if __name__ == "__main__":
    sys.exit(main())
