#!/usr/bin/env python3
"""Drives the page in a Chromium without a window, at a desk, on a phone and in the dark: it adds up, lists sums by pages
and as pictures, is refused, shows what hides the cell, keeps what was asked, and gives an answer as a file; and the
pages of two groups, of which one is told what the other is not. SHOTS names a folder for pictures of each step. Where
nginx or Chromium is absent it says so, and ends with 0.
"""

import collections
import csv
import decimal
import io
import json
import os
import random
import re
import shutil
import subprocess
import sys
import tempfile
import time
import urllib.error
import urllib.request
from urllib.parse import urlencode

from browser import LOOKS, SECONDS, Browser

HERE = os.path.dirname(os.path.abspath(__file__))
FACTS = os.path.join(HERE, "..", "pay", "facts.csv")
LEAST_TARGET = 44
ASK = "document.querySelector('#menus button').click()"
HIDE = "document.getElementById('hide').click()"
CAUTION = (
    "The rule counts more as told than was told, so it may refuse what would have been harmless. "
    "The refusal does not mean that the answer would have given this cell away."
)


def check(holds, words):
    if not holds:
        sys.exit(f"page: {words}")


def same(found, wanted, words):
    check(found == wanted, f"{words}: {found!r}, and not {wanted!r}")


def post(address, query):
    """The status and the bytes of a reply, without the page."""
    try:
        with urllib.request.urlopen(f"{address}v1/query", urlencode({"q": query}).encode()) as reply:
            return reply.status, reply.read()
    except urllib.error.HTTPError as refused:
        return refused.code, refused.read()


def rows_of(text):
    return list(csv.reader(io.StringIO(text)))


# ---- how it looks


def well_made(browser, look, name):
    """What has to hold of the page in each state and look."""
    width, _, phone, scheme = LOOKS[look]
    measures = ["dimText()", "dimBorders()", "bareControls()", "dimShapes()", f"wide({width})", "lostColumns()", "cutSums()", "cutMenus()"]
    measures += ["unnamed()", "badTables()"] + [f"smallTargets({LEAST_TARGET})"] * phone
    for measure in measures:
        same(browser.value(f"measures.{measure}"), [], f"{name}, {look}: {measure}")
    ground = browser.value("measures.ground()")
    check(ground < 0.05 if scheme == "dark" else ground > 0.8, f"{name}, {look}: a ground of {ground}")
    named = browser.names("combobox") + browser.names("radio") + browser.names("button")
    check(all(named) and len(set(named)) == len(named), f"{name}, {look}: controls by one name, or by none: {named}")


def load(browser, address, name, menus=()):
    """Opens the page with its menus preset."""
    browser.call("Page.navigate", url=f"{address}?{urlencode({**dict(menus), 'step': name})}")
    browser.wait(f"location.search.endsWith('step={name}') && document.readyState === 'complete' && !menus.hidden")
    browser.value(SAID)


# Notes each text of the status, as a screen reader hears it.
SAID = """
window.said = [];
new MutationObserver(() => said.push(document.getElementById("status").textContent))
    .observe(document.getElementById("status"), { childList: true, characterData: true, subtree: true });
"""


def click(browser, script, then):
    browser.value(script)
    browser.wait(f"document.getElementById('{then}').innerText !== ''")


def asked(browser):
    click(browser, ASK, "reply")


def step(browser, address, name, menus, clicks, texts):
    """Opens the page in each look, clicks, and looks for texts as they were served."""
    for look in LOOKS:
        browser.look(look)
        load(browser, address, name, menus)
        for script, then in clicks:
            click(browser, script, then)
        for text in texts:
            browser.wait(f"document.body.innerText.replaceAll('\\n', ' ').includes({json.dumps(text)})")
        browser.wait("[...document.querySelectorAll('.frame')].every(frame => frame.children.length)")
        well_made(browser, look, name)
        if "SHOTS" in os.environ:
            browser.shoot(os.path.join(os.environ["SHOTS"], f"{name}-{look}.png"))
    browser.look("desktop")
    print(name, flush=True)


# ---- examples/pay


def first_quarter():
    with open(FACTS, newline="") as file:
        return sum(decimal.Decimal(row["pay"]) for row in csv.DictReader(file) if row["month"] in ("Jan", "Feb", "Mar"))


def parts_said(browser):
    """The parts of a refusal that the page names."""
    return browser.value("[...document.querySelectorAll('.refusal dt')].map(it => [it.textContent, it.nextSibling.textContent])")


def refusals(browser, address):
    """The page names rule, cuboid and cell as served, and says what a refusal does not mean."""
    lead = "(region.branch=Lyon, time.month=Jan, grade.grade=lead)"
    cuboid = "(region.area, time.month, grade.grade)"
    grades = {"form": "slice", "what": "pay", "level.time": "month", "from.time": "Jan", "group.grade": "grade"}
    load(browser, address, "refusals", grades)
    asked(browser)
    same(parts_said(browser), [["Measure", "pay"], ["Rule", "source"], ["Cuboid", cuboid], ["Cell", lead]], "a refusal by source")
    _, text = post(address, browser.value("document.getElementById('text').textContent"))
    same(browser.value("document.querySelector('.said').textContent"), text.decode(), "the refusal as served")
    same(browser.value("said"), ["Asking.", "Not told."], "what is read out of a refusal")
    each = {"form": "slice", "what": "hours", "group.region": "branch", "group.time": "month", "group.grade": "grade"}
    load(browser, address, "single", each)
    asked(browser)
    place = "(region.branch=Lyon, time.month=Jan, grade.grade=clerk)"
    same(parts_said(browser), [["Measure", "hours"], ["Rule", "single"], ["Link", "1"], ["Place", place], ["Cell", place]], "by a single")
    one, other, cell = '(a.b="x) and (y")', '(a.b=c, d.e="f\\"), fixes the cell (g")', "(a.b=z)"
    pair = browser.value(f"refusal({json.dumps(f'pair: link 12, {one} and {other}, fixes the cell {cell}' + chr(10))}).parts")
    same(pair, [["Rule", "pair"], ["Link", "12"], ["Place", one], ["Other place", other], ["Cell", cell]], "by a pair, with quoted names")
    full = browser.value("refusal('full: the history holds 16384 requests\\n')")
    same(full["parts"], [["Rule", "full"]], "for want of room")
    print("refusals", flush=True)


def absent(browser, address):
    """Where there is no fact there is no row: the grid says so, and does not say 0."""
    with open(FACTS, newline="") as file:
        there = {(row["branch"], row["month"]) for row in csv.DictReader(file)}
    load(browser, address, "absent", {"form": "slice", "what": "", "group.region": "branch", "group.time": "month"})
    asked(browser)
    cells = browser.value("[...document.querySelectorAll('td')].map(it => it.textContent)")
    same(collections.Counter(cells)["\u2013 no fact"], 7 * 12 - len(there), "cells without a fact")
    check(len(there) < 7 * 12 and "0" not in cells, "a cell without a fact is shown as 0")
    print("absent", flush=True)


def walled(browser, address):
    """No script or style within the page has its way, and nothing comes from elsewhere."""
    with urllib.request.urlopen(address) as reply:
        policy, page = reply.headers["Content-Security-Policy"], reply.read().decode()
    strict = str(policy).startswith("default-src 'none';") and "unsafe" not in policy and "*" not in policy
    check(strict, f"the policy is {policy}")
    check(not re.search(r"<style|<script(?! src)| style=| on\w+=", page), "a script or a style in the page")
    load(browser, address, "walled")
    same(browser.errors, [], "what the browser says of the page")
    browser.value("document.body.setAttribute('style', 'opacity: 0.5')")
    same(browser.value("getComputedStyle(document.body).opacity"), "1", "a style in the page")
    script = "(() => { try { const it = document.createElement('script'); it.text = 'window.broken = 1'; document.body.append(it); } catch {} })()"
    browser.value(script)
    same(browser.value("window.broken"), None, "a script in the page")
    origins = browser.value("[...new Set(performance.getEntriesByType('resource').map(it => new URL(it.name).origin))]")
    same(origins, [address.rstrip("/")], "where the page takes things from")
    # These two were to be refused, and were said.
    browser.errors = [error for error in browser.errors if "inline" not in error and "TrustedScript" not in error]
    print("walled", flush=True)


def steps(browser, address):
    january = {"form": "slice", "what": "pay", "level.time": "month", "from.time": "Jan"}
    areas, grades = {**january, "group.region": "area"}, {**january, "group.grade": "grade"}
    quarter = {"form": "cell", "what": "pay", "level.time": "quarter", "from.time": "Q1"}
    months = {"form": "slice", "what": "pay", "group.region": "area", "group.time": "month"}
    span = {"form": "range", "what": "pay", "level.time": "month", "from.time": "Jan", "to.time": "Mar"}
    hiding = [(ASK, "reply"), (HIDE, "changes")]
    refusal = ["Not told", "(region.branch=Lyon, time.month=Jan, grade.grade=lead)", CAUTION]
    step(browser, address, "load", {}, [], ["276 facts at 208 points", "cell pay"])
    step(browser, address, "sum", quarter, hiding[:1], ["cell pay time.quarter=Q1", str(first_quarter()), "Answered: 1 sum."])
    step(browser, address, "range", span, hiding[:1], ["range pay time.month=Jan..Mar", str(first_quarter())])
    step(browser, address, "slice", areas, hiding[:1], ["28527.28", "27048.63", "9967.87", "Answered: 3 sums."])
    step(browser, address, "grid", months, hiding[:1], ["28527.28", "Dec", "Answered: 36 sums."])
    step(browser, address, "refusal", grades, hiding[:1], refusal)
    step(browser, address, "hiding", grades, hiding, ["What hides it", "+0.01", "\u22120.01"])
    refusals(browser, address)
    absent(browser, address)
    walled(browser, address)


# ---- a larger cube

BRANCHES = [
    ["10", "West"], ["9", "West"], ["2", "East"], ["Z\u00fcrich", "North"], ["Aarau", "North"], ["Saint-\u00c9tienne", "East"],
    ["Lyon, \"Gare\"", "East"], ["Bureau de la rue du Faubourg", "West"], ["Bern", "North"], ["Basel", "North"], ["Chur", "East"], ["Adliswil", "North"],
]
MONTHS = [f"{year}-{month:02}" for year in (2024, 2025) for month in range(1, 13)]
TIMES = [[month, f"{month[:4]}-Q{(int(month[5:]) + 2) // 3}", month[:4]] for month in MONTHS]
GRADES = ["lead", "clerk", "expert"]
EACH = 24


def write_cube(folder):
    """864 points of 24 facts, whose sum passes what the numbers of a browser hold, with sums below 0. All may be asked."""
    dims = [("region", ["branch", "area"], BRANCHES), ("time", ["month", "quarter", "year"], TIMES), ("grade", ["grade"], [[it] for it in GRADES])]
    made = "".join(
        f"[[dimension]]\nname = {json.dumps(name)}\nlevels = {json.dumps(levels)}\npaths = {json.dumps(paths, ensure_ascii=False)}\n"
        for name, levels, paths in dims
    )
    number = random.Random(864)
    facts = {}
    for branch, _ in BRANCHES:
        for month in MONTHS:
            for grade in GRADES:
                low, high = (-9, 2) if branch == "Aarau" else (4, 10)
                facts[branch, month, grade] = [number.randint(low * 10**11, high * 10**11) for _ in range(EACH)]
    with open(os.path.join(folder, "dims.toml"), "w") as file:
        file.write(f"{made}[[measure]]\nname = \"pay\"\ndecimals = 2\n")
    with open(os.path.join(folder, "policy.toml"), "w") as file:
        file.write("[[measure]]\nname = \"pay\"\nmethod = \"open\"\n")
    with open(os.path.join(folder, "facts.csv"), "w", newline="") as file:
        out = csv.writer(file)
        out.writerow(["branch", "month", "grade", "pay"])
        out.writerows([*key, pay(fact)] for key, values in facts.items() for fact in values)
    return {key: sum(values) for key, values in facts.items()}


def pay(units):
    return str(decimal.Decimal(units).scaleb(-2))


def table_rows(browser):
    return browser.value("[...document.querySelectorAll('#reply tbody tr')].map(row => [...row.cells].map(cell => cell.textContent))")


def in_order(browser, address):
    """Each menu has its members in the order of the shape."""
    with urllib.request.urlopen(f"{address}v1/shape") as reply:
        shape = json.load(reply)
    load(browser, address, "order", {"form": "range"})
    many = 0
    for dimension in shape["dimensions"]:
        for at, level in enumerate(dimension["levels"]):
            members = list(dict.fromkeys(path[at] for path in dimension["paths"]))
            browser.value(f"preset(new URLSearchParams({json.dumps(urlencode({'level.' + dimension['name']: level}))}))")
            for kind in ("from", "to"):
                menu = f"menus.elements['{kind}.{dimension['name']}']"
                same(browser.value(f"[...{menu}.options].map(it => it.text)"), members, f"the members of {level}")
            many += members != sorted(members)
    check(many >= 3, "no menu is in an order that another one would spoil")
    print("in order", flush=True)


def exact(browser, address, sums):
    """A sum stands as it was served, where the numbers of a browser would round it."""
    total = pay(sum(sums.values()))
    check(float(total) != decimal.Decimal(total), "the sum is one that a browser's numbers hold")
    load(browser, address, "exact", {"form": "cell", "what": "pay"})
    click(browser, f"{ASK}, {ASK}", "reply")
    same(browser.value("document.querySelector('.sum').textContent"), total, "the whole sum")
    same(browser.value("said"), ["Asking.", "Answered: 1 sum."], "what two clicks ask")
    same(browser.value("getSelection().selectAllChildren(document.querySelector('.sum')), String(getSelection())"), total, "the sum copied")
    less, more = "9007199254740993.01", "9007199254740993.02"
    said = browser.value(f"leastAndMost([['one', '{less}'], ['other', '{more}']])")
    same(said, f"The least sum is {less} (one), the greatest is {more} (other).", "two sums that round to one")
    print("exact", flush=True)


PLACE = "document.querySelector('.place').textContent"
TURN = "[...document.querySelectorAll('.pages button')].find(it => it.textContent === '{}')"


def paged(browser, address):
    """864 rows come by hundreds, each once, as served."""
    query = "slice pay by region.branch, time.month, grade.grade"
    load(browser, address, "paged", {"form": "slice", "what": "pay", "group.region": "branch", "group.time": "month", "group.grade": "grade"})
    asked(browser)
    head, *rows = rows_of(post(address, query)[1].decode())
    same(len(rows), 864, "rows served")
    same(browser.value("[...document.querySelectorAll('#reply thead th')].map(it => it.textContent)"), head, "the titles")
    back, on = TURN.format("Previous"), TURN.format("Next")
    ended = "{}.getAttribute('aria-disabled')"
    same(browser.value(ended.format(back)), "true", "Previous on the first page")
    seen = []
    for first in range(0, 864, 100):
        last = min(first + 100, 864)
        same(browser.value(PLACE), f"rows {first + 1}-{last} of 864", "where the page is")
        page = table_rows(browser)
        same(page, rows[first:last], "the rows of a page")
        seen += page
        same(browser.value(ended.format(on)), "true" if last == 864 else "false", f"Next behind {last}")
        browser.value(f"{on}.click()")
    same(seen, rows, "all pages")
    same(browser.value(PLACE), "rows 801-864 of 864", "behind the last page")
    browser.value(f"{back}.click()")
    same(table_rows(browser), rows[700:800], "the page before the last")
    bars_show(browser, rows[700:800])
    check("rows 701-800 of 864" in browser.value("document.querySelector('figcaption').textContent"), "the picture does not say of which rows")
    print("paged", flush=True)


def drawing(browser):
    browser.wait("document.querySelector('.drawing') !== null")
    same(browser.value("document.querySelectorAll('.drawing').length"), 1, "pictures")


def words_show(browser, rows):
    """The words of a picture name the least and the greatest sum as served; they are its name."""
    drawing(browser)
    said = browser.value("document.querySelector('figcaption').textContent")
    least, most = min(rows, key=lambda row: decimal.Decimal(row[-1])), max(rows, key=lambda row: decimal.Decimal(row[-1]))
    for words, row in (("least sum is", least), ("greatest is", most)):
        check(f"{words} {row[-1]} ({', '.join(row[:-1])})" in said, f"a picture without its {words} {row}: {said}")
    same(browser.names("image") + browser.names("img"), [said], "the picture read out")


def close(one, other, span):
    return abs(one - float(other)) <= 0.01 * span


def bars_show(browser, rows):
    words_show(browser, rows)
    read = browser.value("measures.barsRead()")
    check(not read["off"], "the scale is not even")
    same([bar["said"] for bar in read["bars"]], [f"{', '.join(row[:-1])}: {row[-1]}" for row in rows], "what bars say")
    for bar, row in zip(read["bars"], rows):
        check(close(bar["from"], 0, read["span"]) and close(bar["to"], row[-1], read["span"]), f"a bar of {bar} for {row}")


def lines_show(browser, groups, rows):
    """A line for each group, whose points stand for its rows by the scale that the picture writes."""
    words_show(browser, rows)
    read = browser.value("measures.linesRead()")
    check(not read["off"], "the scale is not even")
    same([len(line["points"]) for line in read["lines"]], [len(group) for group in groups], "points of the lines")
    for line, group in zip(read["lines"], groups):
        for point, row in zip(line["points"], group):
            check(close(point["sum"], row[-1], read["span"]), f"a point at {point['sum']} for {row}")
        said = [text.rsplit(": ", 1)[1] for text in line["said"]]
        same(said, [row[-1] for row in group], "what points say")
        places = [point["x"] for point in line["points"]]
        same(places, sorted(set(places)), "times from left to right")


def pictured(browser, address):
    """Bars show branches, with those below 0; lines show times."""
    may = {"form": "slice", "what": "pay", "level.time": "month", "from.time": "2024-05"}
    load(browser, address, "bars", {**may, "group.region": "branch"})
    asked(browser)
    rows = rows_of(post(address, "slice pay by region.branch where time.month=2024-05")[1].decode())[1:]
    bars_show(browser, rows)
    check(any(row[-1].startswith("-") for row in rows), "no bar is below 0")
    load(browser, address, "below", {**may, "group.region": "branch", "group.grade": "grade"})
    asked(browser)
    bars_show(browser, rows_of(post(address, "slice pay by region.branch, grade.grade where time.month=2024-05")[1].decode())[1:])
    for level, many in (("month", 24), ("quarter", 8), ("year", 2)):
        load(browser, address, level, {"form": "slice", "what": "pay", "group.time": level})
        asked(browser)
        rows = rows_of(post(address, f"slice pay by time.{level}")[1].decode())[1:]
        same(len(rows), many, f"rows by {level}")
        lines_show(browser, [rows], rows)
    load(browser, address, "lines", {"form": "slice", "what": "pay", "group.time": "month", "group.grade": "grade"})
    asked(browser)
    rows = rows_of(post(address, "slice pay by time.month, grade.grade")[1].decode())[1:]
    lines_show(browser, [[row for row in rows if row[1] == grade] for grade in GRADES], rows)
    same(browser.value("[...document.querySelectorAll('.legend li')].map(it => it.textContent)"), GRADES, "the names of the lines")
    times = [["2024", "2025"], ["2024-01", "2024-02"], ["2024-01-31", "2024-02-01"], ["Q1", "Q2"], ["2024-Q4", "2025-Q1"], ["Apr", "May", "Jan"], ["January", "June"]]
    others = [["Lyon", "Paris"], ["2025", "2024"], ["1001", "1002"], ["Q1", "West"], ["2024-13", "2024-14"], ["Jan", "Mar", "Feb"], ["lead", "clerk"]]
    same(browser.value(f"{json.dumps(times + others)}.map(isTime)"), [True] * len(times) + [False] * len(others), "which names are times")
    print("pictured", flush=True)


def remembered(browser, address):
    """What was asked in the tab can be asked again; nothing but its texts is kept, and only in the tab."""
    browser.tab()
    prepare(browser)
    load(browser, address, "remembered")
    items = "[...document.querySelectorAll('#list li')].map(it => [it.children[0].textContent, it.children[1].textContent])"
    same(browser.value(items), [], "what a new tab knows")
    asks = [
        ({"form": "slice", "what": "pay", "group.region": "area"}, "slice pay by region.area", "Answered: 3 sums"),
        ({"form": "cell", "what": "", "level.time": "year", "from.time": "2025"}, "cell count time.year=2025", "Answered: 1 sum"),
        ({"form": "range", "what": "pay", "level.region": "branch", "from.region": "9", "to.region": "Bern"}, "range pay region.branch=9..Bern", "Answered: 1 sum"),
    ]
    for menus, query, _ in asks:
        load(browser, address, "remembered", menus)
        asked(browser)
    wanted = [[query, outcome] for _, query, outcome in reversed(asks)]
    same(browser.value(items), wanted, "the list of asks")
    load(browser, address, "reloaded")
    same(browser.value(items), wanted, "the list of asks behind a reload")
    browser.value("document.querySelector('#list li:last-child button').click()")
    browser.wait("document.getElementById('reply').innerText !== ''")
    same(table_rows(browser), rows_of(post(address, asks[0][1])[1].decode())[1:], "what is asked again")
    same(browser.value("document.getElementById('text').textContent"), asks[0][1], "the menus of what is asked again")
    same(browser.value(items), [wanted[2], wanted[0], wanted[1]], "the list behind it")
    kept = browser.value("[Object.keys(sessionStorage), Object.keys(localStorage), document.cookie]")
    same(kept, [["asks /"], [], ""], "what is kept")
    stored = browser.value("sessionStorage['asks /']")
    told = [row[-1] for _, query, _ in asks for row in rows_of(post(address, query)[1].decode())[1:]]
    check(not any(text in stored for text in told), f"a sum is kept: {stored}")
    browser.value("asks.unshift({ query: 'cell gone', words: 'form=cell&what=gone', outcome: '' }); showAsks(again); document.querySelector('#list button').click()")
    browser.wait("document.getElementById('status').textContent.startsWith('The cube has changed')")
    print("remembered", flush=True)


def focused(browser):
    return browser.value("(it => it.name ? it.name + (it.type === 'radio' ? '=' + it.value : '') : it.textContent.trim() || it.tagName)(document.activeElement)")


def tab_to(browser, wanted, most=40):
    """Goes on by the key Tab alone. Each stop has a ring that is seen."""
    for _ in range(most):
        browser.key("Tab")
        check(browser.value("document.activeElement !== document.body"), f"{wanted} is not reached by Tab")
        same(browser.value("measures.dimRing()"), [], "the ring of the focus")
        if focused(browser).startswith(wanted):
            return
    sys.exit(f"page: {wanted} is not reached by Tab")


def by_keys(browser, address, folder):
    """Asks, reads, turns the page, takes the file and asks again without a pointer."""
    for look in ("desktop", "dark"):
        browser.look(look)
        load(browser, address, f"keys-{look}")
        tab_to(browser, "what")
        tab_to(browser, "form=cell")
        browser.key("ArrowDown")
        same(focused(browser), "form=slice", "the next form")
        for menu, downs in (("group.region", 1), ("group.time", 1), ("group.grade", 1)):
            tab_to(browser, menu)
            for _ in range(downs):
                browser.key("ArrowDown")
        same(browser.value("document.getElementById('text').textContent"), "slice pay by region.branch, time.month, grade.grade", "what is chosen")
        tab_to(browser, "Ask")
        browser.key("Enter")
        browser.wait("document.querySelectorAll('#reply tbody tr').length === 100")
        same(browser.value("said"), ["Asking.", "Answered: 864 sums."], "what is read out")
        same(browser.value("document.getElementById('status').getAttribute('role')"), "status", "whether the status is read out")
        same(focused(browser), "Ask", "the focus behind an answer")
        tab_to(browser, "slice pay by region.branch, time.month, grade.grade")
        same(browser.value("document.activeElement.className"), "box", "the table takes the focus")
        tab_to(browser, "Next")
        browser.key("Enter")
        same(browser.value(PLACE), "rows 101-200 of 864", "the next page")
        same(focused(browser), "Next", "the focus behind a turn")
        for _ in range(8):
            browser.key("Space")
        same((browser.value(PLACE), focused(browser)), ("rows 801-864 of 864", "Next"), "the last page")
        tab_to(browser, "Download")
        file = os.path.join(folder, "slice-pay-by-region-branch-time-month-grade-grade.csv")
        browser.key("Enter")
        same(downloaded(file), post(address, "slice pay by region.branch, time.month, grade.grade")[1], "the file")
        os.remove(file)
        tab_to(browser, "Ask again")
        browser.key("Enter")
        browser.wait("document.querySelector('.place')?.textContent === 'rows 1-100 of 864'")
        same(focused(browser), "Ask again", "the focus behind asking again")
    browser.look("desktop")
    print("by keys", flush=True)


def downloaded(file):
    end = time.monotonic() + SECONDS
    while not os.path.exists(file):
        check(time.monotonic() < end, f"no file {os.path.basename(file)}")
        time.sleep(0.05)
    time.sleep(0.2)
    with open(file, "rb") as it:
        return it.read()


def steps_of_a_large_cube(browser, address, sums):
    every = {"form": "slice", "what": "pay", "group.region": "branch", "group.time": "month", "group.grade": "grade"}
    one = {"form": "range", "what": "pay", "level.region": "branch", "level.time": "month", "level.grade": "grade"}
    may = {"form": "slice", "what": "pay", "group.region": "branch", "level.time": "month", "from.time": "2024-05"}
    months = {"form": "slice", "what": "pay", "group.time": "month", "group.grade": "grade"}
    step(browser, address, "menus", one, [], ["Bureau de la rue du Faubourg"])
    step(browser, address, "large", every, [(ASK, "reply")], ["rows 1-100 of 864", "Answered: 864 sums."])
    step(browser, address, "branches", may, [(ASK, "reply")], ["Answered: 12 sums.", "The least sum is"])
    step(browser, address, "grades", months, [(ASK, "reply")], ["Answered: 72 sums.", "3 lines of pay, one for each grade.grade,"])
    in_order(browser, address)
    exact(browser, address, sums)
    paged(browser, address)
    pictured(browser, address)
    remembered(browser, address)
    with tempfile.TemporaryDirectory() as folder:
        browser.downloads_to(folder)
        by_keys(browser, address, folder)


# ---- a cube of some days

OLD = 'North, "old"'
UNIT = "Administrationsabteilung"
DAYS = {f"2025-03-0{day}": kind for day, kind in ((1, "x"), (2, "y"), (3, "y"), (4, "x"), (5, "y"), (6, "y"))}
WORKED = {OLD: ["2025-03-01", "2025-03-02", "2025-03-04", "2025-03-06"], "South": list(DAYS)}


def write_days(folder):
    """Two branches, of which one has days without a fact; a unit of a long name; hours by the rule of links."""
    branches, days = [[it] for it in WORKED], [list(it) for it in DAYS.items()]
    made = f"[[dimension]]\nname = \"region\"\nlevels = [\"branch\"]\npaths = {json.dumps(branches)}\n"
    made += f"[[dimension]]\nname = \"time\"\nlevels = [\"day\", \"kind\"]\npaths = {json.dumps(days)}\n"
    made += f"[[dimension]]\nname = \"unit\"\nlevels = [\"unit\"]\npaths = [[\"{UNIT}\"]]\n"
    with open(os.path.join(folder, "dims.toml"), "w") as file:
        file.write(f"{made}[[measure]]\nname = \"pay\"\n[[measure]]\nname = \"hours\"\n")
    with open(os.path.join(folder, "policy.toml"), "w") as file:
        file.write('[[measure]]\nname = "pay"\nmethod = "open"\n[[measure]]\nname = "hours"\nmethod = "parity"\n')
    with open(os.path.join(folder, "facts.csv"), "w", newline="") as file:
        out = csv.writer(file)
        out.writerow(["branch", "day", "unit", "pay", "hours"])
        out.writerows([branch, day, UNIT, 10 * int(day[-1]) - len(branch) ** 2, 8] for branch, days in WORKED.items() for day in days)


def gaps(browser, address):
    """A line has a gap where there is no fact."""
    load(browser, address, "gaps", {"form": "slice", "what": "pay", "group.region": "branch", "group.time": "day"})
    asked(browser)
    rows = rows_of(post(address, "slice pay by region.branch, time.day")[1].decode())[1:]
    lines_show(browser, [[row for row in rows if row[0] == branch] for branch in WORKED], rows)
    same([line["pieces"] for line in browser.value("measures.linesRead()")["lines"]], [3, 1], "pieces of the lines")
    check("Where there is no fact a line has a gap." in browser.value("document.querySelector('figcaption').textContent"), "no word of gaps")
    print("gaps", flush=True)


def paired(browser, address):
    """The rule of links names its places, whatever their names are."""
    old = '"North, \\"old\\""'
    for days in ("2025-03-01..2025-03-02", "2025-03-02..2025-03-04"):
        first, last = days.split("..")
        same(post(address, f'range hours region.branch={old}..{old}, time.day="{first}".."{last}"')[0], 200, f"the hours of {days}")
    load(browser, address, "paired", {"form": "cell", "what": "hours", "level.region": "branch", "from.region": OLD, "level.time": "kind", "from.time": "x"})
    asked(browser)
    one, other = (f"(region.branch={old}, time.day={day}, unit.unit={UNIT})" for day in ("2025-03-01", "2025-03-04"))
    wanted = [["Measure", "hours"], ["Rule", "pair"], ["Link", "1"], ["Place", one], ["Other place", other], ["Cell", one]]
    same(parts_said(browser), wanted, "a refusal by a pair")
    print("paired", flush=True)


def steps_of_days(browser, address):
    both = {"form": "slice", "what": "pay", "group.region": "branch", "group.time": "day"}
    step(browser, address, "days", both, [(ASK, "reply")], ["Answered: 10 sums.", "Where there is no fact a line has a gap."])
    step(browser, address, "long", {**both, "group.unit": "unit"}, [(ASK, "reply")], [UNIT])
    browser.look("phone")
    check(browser.value("measures.scrolls()"), "no table is wider than a phone")
    browser.look("desktop")
    gaps(browser, address)
    paired(browser, address)


# ---- groups


def steps_of_groups(browser, staff, board):
    january = {"form": "slice", "what": "pay", "level.time": "month", "from.time": "Jan", "group.region": "area"}
    step(browser, board, "board", january, [(ASK, "reply")], ["Group board", "28527.28", "9967.87"])
    step(browser, staff, "staff", january, [(ASK, "reply")], ["Group staff", "Not told", "region.branch=Nantes"])
    lists = {}
    for name, address in (("board", board), ("staff", staff)):
        load(browser, address, "lists")
        lists[name] = browser.value("document.getElementById('list').innerText")
        same(browser.value("document.title"), f"Sums, {name}", "the title")
    check("Answered" in lists["board"] and "Not told" not in lists["board"], f"the board sees {lists['board']}")
    check("Not told" in lists["staff"] and "Answered" not in lists["staff"], f"the staff sees {lists['staff']}")
    print("groups", flush=True)


# ---- all of it


def prepare(browser):
    """Each page that is opened in the tab has the measures, and is looked at on a desk."""
    with open(os.path.join(HERE, "measures.js")) as file:
        browser.call("Page.addScriptToEvaluateOnNewDocument", source=file.read())
    browser.look("desktop")


def drive(words, take):
    """Serves by these words, and takes steps in a browser at the addresses that are said."""
    run = [os.path.join(HERE, "run.sh"), *words]
    bound = {**os.environ, "SECONDS_AT_MOST": "900"}
    with tempfile.TemporaryDirectory(ignore_cleanup_errors=True) as profile, subprocess.Popen(run, stdout=subprocess.PIPE, env=bound) as server:
        try:
            many = take.__code__.co_argcount - 1
            addresses = [server.stdout.readline().decode().strip() or sys.exit(1) for _ in range(many)]
            browser = Browser(profile)
            try:
                prepare(browser)
                take(browser, *addresses)
                same(browser.errors, [], "what the browser says of the page")
            finally:
                browser.close()
        finally:
            server.terminate()


def main():
    for program in ("nginx", "chromium"):
        if not shutil.which(program):
            print(f"page: {program} is not installed, so nothing was driven")
            return
    drive([], steps)
    with tempfile.TemporaryDirectory() as folder:
        sums = write_cube(folder)
        drive([folder], lambda browser, address: steps_of_a_large_cube(browser, address, sums))
    with tempfile.TemporaryDirectory() as folder:
        write_days(folder)
        drive([folder], steps_of_days)
    drive(["groups"], steps_of_groups)


if __name__ == "__main__":
    main()
