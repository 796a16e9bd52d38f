"use strict";

// An answer as a table by pages, with its picture and its file.

const ROWS = 100;

// A sum as served. Its thousands stand apart by their looks alone, so that what is read and copied is what was served.
const sumText = sum => thousands(sum).map(part => element("span", "thousand", part));

function heading(scope, className, ...parts) {
  const made = element("th", className, ...parts);
  made.scope = scope;
  return made;
}

// The title of a column. Where it is narrow, a level stands below its dimension.
const title = (className, name) => heading("col", className, ...name.split(/(?<=\.)/).flatMap(part => [part, element("wbr")]));

// The name of a row, of which a short one is not broken at its hyphens.
const rowName = name => heading("row", name.length <= 12 ? "short" : "", name);

// A table in a box of its own, in which it scrolls where it is wider. The box takes the focus, so that keys scroll it too.
function boxed(className, caption, titles, lines) {
  const named = element("caption", "", caption);
  named.id = `caption-${className}`;
  const body = element("tbody", "", ...lines);
  const table = element("table", className, named, element("thead", "", element("tr", "", ...titles)), body);
  const box = element("div", "box", table);
  box.tabIndex = 0;
  box.setAttribute("role", "region");
  box.setAttribute("aria-labelledby", named.id);
  return box;
}

// The titles of names, with a number behind them.
const titlesOf = head => head.map((name, at) => title(at === head.length - 1 ? "number" : "", name));

const lineOf = row => element(
  "tr", "",
  ...row.slice(0, -1).map(rowName),
  element("td", "number", ...sumText(row.at(-1))),
);

const listed = (caption, head, rows) => boxed("list", caption, titlesOf(head), rows.map(lineOf));

// The groupings of an answer, each with its members that have a row.
function axesOf(choice, head, rows) {
  return choice.dimensions.filter(({ group }) => group).map(({ dimension, group }, at) => {
    const there = new Set(rows.map(row => row[at]));
    return { at, title: head[at], members: membersOf(dimension, group).filter(name => there.has(name)) };
  });
}

// Sums of two groupings: the longer one down, the other across. An answer has no row where there is no fact.
function gridded(caption, down, across, rows) {
  const lines = Map.groupBy(rows, row => row[down.at]);
  const cellOf = (line, name) => {
    const row = line.find(it => it[across.at] === name);
    return row ? element("td", "number", ...sumText(row[2])) : element("td", "number none", "\u2013", element("span", "unseen", " no fact"));
  };
  const body = down.members.map(name => element(
    "tr", "",
    rowName(name),
    ...across.members.map(it => cellOf(lines.get(name), it)),
  ));
  const titles = across.members.map(name => title("number", name));
  const empty = down.members.length * across.members.length > rows.length;
  const key = empty ? [element("p", "note", "\u2013 no fact, so no sum")] : [];
  return element("div", "", boxed("grid", caption, [title("", down.title), ...titles], body), ...key);
}

// How wide a column of these texts is in a table, with the room beside them.
const columnWidth = texts => 24 + 1.4 * texts.reduce((most, text) => Math.max(most, widthOf(text)), 0);

// A grid is for two groupings whose sums stand whole beside one another: one that is cut reads as a smaller one.
function tabled(choice, caption, head, rows) {
  if (head.length !== 3) return listed(caption, head, rows);
  const [across, down] = axesOf(choice, head, rows).sort((one, other) => one.members.length - other.members.length);
  const columns = across.members.map(name => [name, ...rows.filter(row => row[across.at] === name).map(row => row[2])]);
  const width = [[down.title, ...down.members], ...columns].map(columnWidth).reduce((sum, one) => sum + one);
  const room = document.getElementById("reply").clientWidth;
  return width <= room ? gridded(caption, down, across, rows) : listed(caption, head, rows);
}

// ---- pages

function turner(text, go) {
  const made = element("button", "", text);
  made.type = "button";
  made.onclick = () => {
    if (made.getAttribute("aria-disabled") !== "true") go();
  };
  return made;
}

// Buttons that turn pages of so many rows. One that leads nowhere keeps the focus, so it is not disabled but says so.
function turners(many, turn) {
  const place = element("span", "place");
  place.setAttribute("role", "status");
  let first = 0;
  const go = to => {
    first = to;
    const last = Math.min(first + ROWS, many);
    place.textContent = `rows ${first + 1}-${last} of ${many}`;
    back.setAttribute("aria-disabled", String(first === 0));
    next.setAttribute("aria-disabled", String(last === many));
    turn(first, last, place.textContent);
  };
  const back = turner("Previous", () => go(first - ROWS));
  const next = turner("Next", () => go(first + ROWS));
  const made = element("nav", "pages", back, place, next);
  made.setAttribute("aria-label", "Pages of the answer");
  return [made, go];
}

function paged(choice, caption, head, rows) {
  const leaf = element("div", "");
  const [nav, go] = turners(rows.length, (first, last, place) => {
    const shown = rows.slice(first, last);
    leaf.replaceChildren(picture(choice, head, rows, shown, place), listed(caption, head, shown));
    if (leaf.getBoundingClientRect().top < 0) leaf.scrollIntoView();
  });
  go(0);
  return [leaf, nav];
}

// ---- the answer

// The file of an answer: the bytes as served.
function download(query, bytes) {
  const made = element("a", "button", "Download as CSV");
  made.href = URL.createObjectURL(new Blob([bytes], { type: "text/csv" }));
  made.download = fileName(query);
  return made;
}

function sums(choice, query, head, rows) {
  const caption = element("code", "", query);
  if (!rows.length) return [element("p", "", caption), element("p", "", "No fact is picked.")];
  if (head.length === 1) return [element("p", "", caption), element("p", "sum", ...sumText(rows[0][0]))];
  if (rows.length > ROWS) return paged(choice, caption, head, rows);
  return [...(rows.length > 1 ? [picture(choice, head, rows, rows)] : []), tabled(choice, caption, head, rows)];
}

// The parts of the page that show an answer, and how many sums it has.
function answered(choice, query, text, bytes) {
  const [head, ...rows] = readCsv(text);
  const parts = [element("h2", "", "Answer"), ...sums(choice, query, head, rows), element("p", "file", download(query, bytes))];
  return { parts, outcome: `Answered: ${counted(rows.length, "sum", "sums")}` };
}
