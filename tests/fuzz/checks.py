"""What is checked of a cube. Each check needs no other reading of the rules: it looks at what the program said before,
or adds up the facts."""

import collections
import copy
import hashlib
import os

import asks
import cubes
import streams
from program import demand, expect, read_replies, run, see_reply, served

HEAD = b"cube-journal 1 "


class Play:
    """One round: a cube, its files in a folder, lines to ask, and what was replied to them first."""

    def __init__(self, rng, folder):
        self.rng = rng
        self.folder = folder
        self.seen = collections.Counter()
        self.cube = cubes.make_cube(rng)
        self.lines = asks.make_lines(rng, self.cube)
        self.given = b"".join(line.text + b"\n" for line in self.lines)
        self.write("dims.toml", cubes.dims_file(self.cube))
        self.write("facts.csv", cubes.facts_file(rng, self.cube))
        self.write("policy.toml", cubes.policy_file(self.cube))
        self.write("lines", self.given)
        self.out = self.ask("journal", self.given)
        self.replies = read_replies(self.out)
        demand(len(self.replies) == len(self.lines), f"{len(self.replies)} replies to {len(self.lines)} lines")

    def path(self, name):
        return os.path.join(self.folder, name)

    def write(self, name, data):
        with open(self.path(name), "wb") as file:
            file.write(data)

    def read(self, name):
        with open(self.path(name), "rb") as file:
            return file.read()

    def files(self, facts="facts.csv"):
        names = ("dims", "dims.toml"), ("facts", facts), ("policy", "policy.toml")
        return [word for option, name in names for word in (f"--{option}", self.path(name))]

    def words(self, command, journal, *more, facts="facts.csv"):
        return [command, *self.files(facts), "--journal", self.path(journal), *more]

    def ask(self, journal, given, facts="facts.csv"):
        return expect(0, self.words("ask", journal, facts=facts), given)

    def digest_line(self):
        return expect(0, ["check", *self.files()]).splitlines()[-1]

    def answered(self):
        """The requests that are known and were answered, with the bodies of their answers."""
        pairs = zip(self.lines, self.replies)
        return [(line.request, body) for line, (status, body) in pairs if line.request and status == 200]


# ---- of the files

def the_files_hold_what_was_written(play):
    points = play.cube.points()
    leaves = 1
    for one in play.cube.dimensions:
        leaves *= len(one.paths)
    said = dict(line.split(" ") for line in expect(0, ["check", *play.files()]).decode().splitlines())
    known = {
        "dimensions": len(play.cube.dimensions),
        "measures": len(play.cube.measures),
        "facts": len(play.cube.facts),
        "points": len(points),
        "full": "yes" if len(points) == leaves else "no",
    }
    for word, value in known.items():
        demand(said[word] == str(value), f"{word} {said[word]} and not {value}")


def a_damaged_file_is_named(play):
    name = play.rng.choice(("dims.toml", "facts.csv", "policy.toml"))
    whole = play.read(name)
    play.write(name, asks.mutated(play.rng, whole))
    words = ["check", *play.files()]
    first, second = run(words), run(words)
    play.write(name, whole)
    play.seen[f"damaged files with status {first.status}"] += 1
    demand(first == second, f"two ends over one damaged {name}: {first} {second}")
    demand(first.status in (0, 3), f"status {first.status} over a damaged {name}")
    demand(first.status == 0 or not first.out, f"something was written over a damaged {name}")


def wrong_words_are_usage(play):
    words = play.rng.choices("ask check sum witness --dims --facts --journal --number --size 1 é".split() + [""], k=3)
    words.insert(play.rng.randint(0, len(words)), "--nothing")
    demand(run(words).status == 2, f"no status 2 for {words}")


# ---- of the replies

def replies_are_documented(play):
    for status, body in play.replies:
        see_reply(status, body)
        rule = f" {body.split(b':')[0].decode()}" if status == 403 else ""
        play.seen[f"reply {status}{rule}"] += 1


def sums_are_plain(play):
    for request, body in play.answered():
        wanted = asks.answer(play.cube, request)
        demand(body == wanted, f"{asks.query_text(play.cube, request)}: {body} and not {wanted}")
        play.seen["sums added up"] += 1


def open_sums_are_answered(play):
    for line, (status, body) in zip(play.lines, play.replies):
        if line.request and (line.request.what is None or line.request.what.method == "open"):
            demand(status == 200, f"{line.text}: {status} {body}")


def a_known_request_is_answered_or_refused(play):
    for line, (status, body) in zip(play.lines, play.replies):
        demand(not line.request or status in (200, 403), f"{line.text}: {status} {body}")


def a_second_run_says_the_same(play):
    again = play.ask("second", play.given)
    demand(again == play.out, "another journal, other replies to the same lines")
    demand(play.read("second") == play.read("journal"), "two runs left different journals")


def a_restart_in_the_middle_says_the_same(play):
    middle = play.rng.randint(0, len(play.lines))
    parts = [b"".join(line.text + b"\n" for line in part) for part in (play.lines[:middle], play.lines[middle:])]
    again = b"".join(play.ask("parts", part) for part in parts)
    demand(again == play.out, f"other replies with a restart behind line {middle}")
    demand(play.read("parts") == play.read("journal"), f"another journal with a restart behind line {middle}")


def a_restart_answers_what_was_answered(play):
    before = play.read("journal")
    again = read_replies(play.ask("journal", play.given))
    for line, old, new in zip(play.lines, play.replies, again):
        is_changes = line.text.startswith(b"witness ")
        demand(is_changes or (old[0], new[0]) != (200, 403), f"{line.text} was answered, and is refused")
        demand(is_changes or old[0] != 200 or old == new, f"{line.text} was answered by {old}, then by {new}")
        demand(is_changes or old[0] == new[0], f"{line.text} had status {old[0]}, then {new[0]}")
    demand(play.read("journal") == before, "asking again changed the journal")


def no_more_asks_than_stated(play):
    asked = play.rng.randint(1, 5)
    bodies, left = b"", asked
    for status, body in play.replies:
        bodies += b"%d %d\n" % (status, len(body)) + body
        left -= body != b"too large\n"
        if not left:
            break
    result = run(play.words("ask", "stated", "--requests", str(asked)), play.given)
    demand(result.out == bodies, f"other replies with --requests {asked}")
    demand(result.status == (0 if left else 10), f"status {result.status} with --requests {asked}")


# ---- of the other cube

def changes_of(play, text):
    """What the text of a witness says: the change of the measure at each point."""
    facts = cubes.read_facts(
        cubes.Cube(play.cube.dimensions, [cubes.Measure("change", "change", 0, "open")], [], []), text
    )
    return {point: values[0] for point, values in facts}


def changes_hide_each_cell(play):
    """Each protected cell that is drawn has changes that add to 1 in it, and to 0 in each row that was answered."""
    cells = [asks.protected_cell(play.rng, play.cube) for _ in range(20)]
    cells = [cell for cell in cells if cell]
    given = b"".join(b"witness " + asks.query_text(play.cube, cell).encode() + b"\n" for cell in cells)
    for cell, (status, shown) in zip(cells, read_replies(play.ask("journal", given)), strict=True):
        text = asks.query_text(play.cube, cell)
        demand(status == 200, f"no changes for {text}: {status} {shown}")
        see_changes(play, cell, text, changes_of(play, shown))
        play.seen["changes added up"] += 1


def see_changes(play, cell, text, changes):
    demand(set(changes) <= set(play.cube.points()), f"{text}: a change where there is no point")
    demand(sum(asks.rows(play.cube, cell, changes).values()) == 1, f"{text}: the changes do not add to 1 in the cell")
    for request, _ in play.answered():
        if request.what is cell.what:
            left = [total for total in asks.rows(play.cube, request, changes).values() if total]
            demand(not left, f"{text}: {asks.query_text(play.cube, request)} tells the changes")


def the_changes_are_those_of_a_line(play):
    drawn = asks.protected_cell(play.rng, play.cube) or asks.make_request(play.rng, play.cube)
    cell = asks.query_text(play.cube, drawn)
    [(status, body)] = read_replies(play.ask("journal", b"witness " + cell.encode() + b"\n"))
    result = run(play.words("witness", "journal", "--cell", cell))
    wanted = (0, body, b"") if status == 200 else (3, b"", b"cell: " + body)
    demand((result.status, result.out, result.err) == wanted, f"{cell}: `ask` tells {body}, `witness` {result}")


def refusals_name_protected_cells(play):
    """No name has a parenthesis, so the cell is what stands in the last ones."""
    pairs = [(line, body) for line, (status, body) in zip(play.lines, play.replies) if line.request and status == 403]
    cells = [body[body.rindex(b"(") + 1:body.rindex(b")")] for _, body in pairs]
    given = b"".join(
        b"witness cell " + asks.quoted(line.request.what.name).encode() + b" " + cell * (cell != b"all") + b"\n"
        for (line, _), cell in zip(pairs, cells)
    )
    for (line, body), (status, said) in zip(pairs, read_replies(play.ask("journal", given)), strict=True):
        demand(status == 200, f"{line.text}: {body}, but the cell is no protected one: {said}")


def the_twin_is_told_the_same(play):
    cell = asks.protected_cell(play.rng, play.cube)
    if not cell:
        return
    text = asks.query_text(play.cube, cell)
    told = run(play.words("twin", "journal", "--cell", text))
    if told.status == 3:
        demand(told.err == b"cell: beyond the bound\n" and near_the_bound(play.cube, cell.what), f"{text}: {told.err}")
        return
    play.write("twin.csv", told.out)
    twin = cubes.Cube(play.cube.dimensions, play.cube.measures, [], cubes.read_facts(play.cube, told.out))
    see_twin(play.cube, twin, cell, text)
    again = play.ask("twin-journal", play.given, facts="twin.csv")
    demand(again == play.out, f"{text}: other replies over the twin")
    demand(play.read("twin-journal") == play.read("journal"), f"{text}: another journal over the twin")
    play.seen["twins asked"] += 1


def see_twin(cube, twin, cell, text):
    """The same points with as many facts, and one more in the cell."""
    counts = [{point: count for point, (count, _) in one.points().items()} for one in (cube, twin)]
    demand(counts[0] == counts[1], f"{text}: the twin has other points")
    sums = [sum(asks.rows(one, cell, asks.values_of(one, cell.what)).values()) for one in (cube, twin)]
    demand(sums[1] == sums[0] + 1, f"{text}: {sums[0]} in the cube, {sums[1]} in the twin")


def near_the_bound(cube, measure):
    at = cube.measures.index(measure)
    return any(abs(sums[at]) >= count * cubes.BOUND for count, sums in cube.points().values())


# ---- of the journal and its seal

def seal_of(cube):
    """The seal of the values: of each measure how many decimals it has, and its sum at each point in their order."""
    totals = [sums for _, sums in cube.points().values()]
    measures = enumerate(cube.measures)
    values = [bytes([one.decimals]) + b"".join(sums[at].to_bytes(8, "big", signed=True) for sums in totals) for at, one in measures]
    return b"values " + hashlib.sha256(b"".join(values)).hexdigest().encode() + b"\n"


def other_values_are_refused(play):
    """Another file of the same values is accepted, and one in which a value is another is not."""
    journal, seal = play.read("journal"), play.read("journal.seal")
    demand(seal == seal_of(play.cube), f"the seal {seal}")
    play.write("again.csv", cubes.facts_file(play.rng, play.cube))
    demand(play.ask("journal", b"", facts="again.csv") == b"", "a reply to no line")
    other = copy.deepcopy(play.cube)
    if other.facts:
        _, values = play.rng.choice(other.facts)
        at = play.rng.randrange(len(values))
        values[at] += -1 if values[at] > 0 else 1
        play.write("others.csv", cubes.facts_file(play.rng, other))
        result = run(play.words("ask", "journal", facts="others.csv"), play.given)
        demand(result.status == 4 and not result.out, f"status {result.status} over other values, and {result.out}")
    demand((play.read("journal"), play.read("journal.seal")) == (journal, seal), "other values changed the journal or its seal")


def a_cut_seal_is_written_anew(play):
    whole = play.read("journal.seal")
    play.write("resealed", play.read("journal"))
    play.write("resealed.seal", whole[:play.rng.randrange(len(whole))])
    demand(play.ask("resealed", b"") == b"", "a reply to no line")
    demand(play.read("resealed.seal") == whole, "a cut seal was written anew as another one")


def kept_of(log, header):
    """What stands behind an opening of a log that is not refused."""
    return log[:log.rfind(b"\n") + 1] or header


def the_compacted_journal_says_the_same(play):
    """Written down as what it holds, the journal gets the same replies to whatever is asked next."""
    text = expect(0, play.words("compact", "journal"))
    for name, data in (("old", play.read("journal")), ("compacted", text)):
        play.write(name, data)
    demand(text.startswith(b"cube-journal 2 "), f"no journal: {text}")
    demand(expect(0, play.words("compact", "compacted")) == text, "compacted once more it is another text")
    lines = asks.make_lines(play.rng, play.cube)
    cells = [asks.protected_cell(play.rng, play.cube) for _ in range(10)]
    given = b"".join(line.text + b"\n" for line in lines)
    given += b"".join(b"witness " + asks.query_text(play.cube, cell).encode() + b"\n" for cell in cells if cell)
    demand(play.ask("old", given) == play.ask("compacted", given), "other replies over the compacted journal")
    play.write("compacted", text)
    result = run(play.words("compact", "old", "--out", play.path("compacted")))
    demand(result.status == 0 and not result.out, "--out wrote something else")
    demand(play.read("compacted") == expect(0, play.words("compact", "old")), "--out put another text")
    play.seen["journals compacted"] += 1


def header_of(play):
    return HEAD + play.digest_line().split(b" ")[1] + b"\n"


def a_cut_journal_recovers_its_front(play):
    whole = play.read("journal")
    cut = whole[:play.rng.randint(0, len(whole))]
    play.write("cut", cut)
    demand(play.ask("cut", b"") == b"", "a reply to no line")
    demand(play.read("cut") == kept_of(cut, header_of(play)), "a cut journal recovered to something else")


def damaged_log(rng, log):
    lines = log.splitlines(keepends=True)
    kind = rng.randrange(4)
    if kind == 0:
        return asks.mutated(rng, log)
    at = rng.randrange(len(lines))
    if kind == 1:
        del lines[at]
    elif kind == 2:
        lines.insert(at, rng.choice(lines))
    else:
        rng.shuffle(lines)
    return b"".join(lines)


def a_damaged_journal_is_refused_or_read(play):
    damaged = damaged_log(play.rng, play.read("journal"))
    play.write("damaged", damaged)
    words = play.words("ask", "damaged")
    result = run(words, play.given)
    demand(result.status in (0, 4), f"status {result.status} over a damaged journal: {result.err}")
    play.seen[f"damaged journals with status {result.status}"] += 1
    left = play.read("damaged")
    if result.status == 4:
        demand(left == damaged and not result.out, "a refused journal was changed, or lines were answered")
        demand(run(words, play.given) == result, "a refused journal is refused in another way")
        return
    demand(left.startswith(kept_of(damaged, header_of(play))), "lines of a journal that was read are gone")
    for line, (status, body) in zip(play.lines, read_replies(result.out)):
        see_reply(status, body)
        if line.request and status == 200:
            demand(body == asks.answer(play.cube, line.request), f"{line.text}: {body} behind a damaged journal")


# ---- of connections

def replayed(play, script, journal):
    play.write("script", script)
    return expect(0, play.words("replay", journal, "--script", play.path("script")))


def is_text(line):
    """Whether a line can be asked over HTTP as it is."""
    try:
        return len(line.decode()) < 4000
    except UnicodeDecodeError:
        return False


def connections_of(play):
    lines = [line.text for line in play.lines if is_text(line.text)]
    groups = [[] for _ in range(play.rng.randint(1, 3))]
    for line in lines:
        play.rng.choice(groups).append(line)
    return [
        [streams.make_ask(play.rng, line, number == len(group)) for number, line in enumerate(group, 1)]
        for group in groups
    ]


def http_says_what_ask_says(play):
    script, order = streams.mixed_script(play.rng, connections_of(play))
    sent = streams.read_log(replayed(play, script, "replayed"))
    replies = read_replies(play.ask("ordered", b"".join(ask.line + b"\n" for _, ask in order)))
    demand(play.read("replayed") == play.read("ordered"), "another journal over HTTP")
    for (number, ask), (status, body) in zip(order, replies):
        code, kind, length, told, sent[number] = streams.take_response(sent.get(number, b""), ask.has_body)
        wanted = streams.TYPES["shape" if ask.line == b"shape" else status if status == 200 else "other"]
        demand(code == status and kind == wanted and length == len(body), f"{ask.request}: {code} {kind} {length}")
        demand(told == (body if ask.has_body else b""), f"{ask.request}: {told} and not {body}")
        play.seen["responses compared"] += 1
    demand(not any(sent.values()), f"more was sent: {sent}")


def cuts_of_a_stream_change_nothing(play):
    stream = b"".join(ask.request for group in connections_of(play) for ask in group)
    if play.rng.random() < 0.8:
        stream = asks.mutated(play.rng, stream)
    told = []
    for journal in ("cut-once", "cut-anew"):
        log = replayed(play, streams.script_of(play.rng, stream), journal)
        told.append((streams.read_log(log), log.endswith(b"shut 0\n"), play.read(journal)))
    demand(told[0] == told[1], f"cut in another way, another log: {stream}")


def a_server_sends_what_a_script_gets(play):
    """A stream over a socket; where the server closes first, what it sent last may be lost on the way."""
    stream = b"".join(ask.request for group in connections_of(play)[:1] for ask in group)
    if play.rng.random() < 0.3:
        stream = asks.mutated(play.rng, stream)
    wanted = streams.read_log(replayed(play, streams.script_of(play.rng, stream), "heard")).get(0, b"")
    with served([*play.files(), "--journal", play.path("served")]) as address:
        got, whole = streams.exchange(address, streams.pieces(play.rng, stream))
    demand(got == wanted if whole else wanted.startswith(got), f"{got} over a socket, {wanted} to a script: {stream}")
    demand(play.read("served") == play.read("heard"), f"another journal over a socket: {stream}")


def a_damaged_script_is_named(play):
    script, _ = streams.mixed_script(play.rng, connections_of(play))
    play.write("script", asks.mutated(play.rng, script, b" \n0123456789abcdefg opencloseata"))
    words = play.words("replay", "scripted", "--script", play.path("script"))
    result = run(words)
    demand(result.status in (0, 3), f"status {result.status} of a damaged script: {result.err}")
    demand(result.status == 0 or not result.out, "something was written behind a damaged script")


# ---- of flat files

def flat_sums_are_plain(play):
    rng = play.rng
    width = rng.randint(1, 3)
    names = ["a", "b", "ü", " c", "*d"]
    rows = [[rng.choice(names) for _ in range(width)] + [str(cubes.make_value(rng))] for _ in range(rng.randint(0, 20))]
    header = [f"column{number}" for number in range(width)] + ["value"]
    play.write("flat.csv", "".join(",".join(row) + "\n" for row in [header, *rows]).encode())
    questions = [[rng.choice([*names, "*", "*"]) for _ in range(width)] for _ in range(10)]
    given = "".join(",".join(parts) + "\n" for parts in questions).encode()
    said = expect(0, ["sum", "--facts", play.path("flat.csv")], given).decode().splitlines()
    for parts, text in zip(questions, said, strict=True):
        wanted = sum(int(row[-1]) for row in rows if all(part in ("*", name) for part, name in zip(parts, row)))
        demand(int(text) == wanted, f"{parts}: {text} and not {wanted}")


CHECKS = [
    the_files_hold_what_was_written,
    a_damaged_file_is_named,
    wrong_words_are_usage,
    replies_are_documented,
    sums_are_plain,
    open_sums_are_answered,
    a_known_request_is_answered_or_refused,
    a_second_run_says_the_same,
    a_restart_in_the_middle_says_the_same,
    no_more_asks_than_stated,
    changes_hide_each_cell,
    the_changes_are_those_of_a_line,
    refusals_name_protected_cells,
    the_twin_is_told_the_same,
    a_restart_answers_what_was_answered,
    a_cut_journal_recovers_its_front,
    a_damaged_journal_is_refused_or_read,
    the_compacted_journal_says_the_same,
    other_values_are_refused,
    a_cut_seal_is_written_anew,
    http_says_what_ask_says,
    cuts_of_a_stream_change_nothing,
    a_server_sends_what_a_script_gets,
    a_damaged_script_is_named,
    flat_sums_are_plain,
]
