"use strict";

// The picture of an answer: lines where the sums are over time, else a bar for each row. It is drawn from rounded numbers.
// So it writes no number of its own but those of its scale, and each sum that its words name is the text as served.

const SVG = "http://www.w3.org/2000/svg";
const MOST_LINES = 6;
const LETTERS = 13;

// An element of a picture.
function drawn(name, attributes, ...children) {
  const made = document.createElementNS(SVG, name);
  for (const [key, value] of Object.entries(attributes)) made.setAttribute(key, value);
  made.append(...children);
  return made;
}

// ---- what is drawn

const MONTHS = ["jan", "feb", "mar", "apr", "may", "jun", "jul", "aug", "sep", "oct", "nov", "dec"];
const MONTH = /^(jan(uary)?|feb(ruary)?|mar(ch)?|apr(il)?|may|june?|july?|aug(ust)?|sept?(ember)?|oct(ober)?|nov(ember)?|dec(ember)?)$/i;

// Names of times that stand in the order of their letters.
const TIMES = [
  /^(19|20|21)\d\d$/,
  /^\d{4}-(0[1-9]|1[0-2])$/,
  /^\d{4}-(0[1-9]|1[0-2])-[0-3]\d$/,
  /^\d{4}-?W[0-5]\d$/,
  /^\d{4}[- ]?Q[1-4]$/,
  /^Q[1-4]$/,
];

const isAscending = list => list.every((one, at) => at === 0 || list[at - 1] < one);

// A year may begin with any month.
function monthsFrom(members) {
  const numbers = members.map(name => MONTHS.indexOf(name.slice(0, 3).toLowerCase()));
  return numbers.map(number => (number - numbers[0] + 12) % 12);
}

// Whether the members of a level are times, in their order.
function isTime(members) {
  if (members.every(name => MONTH.test(name))) return isAscending(monthsFrom(members));
  return TIMES.some(form => members.every(name => form.test(name))) && isAscending(members);
}

// The lines over the first level of time that an answer groups by, or nothing where there is none, or too many lines.
function linesOf(choice, head, rows) {
  const axes = choice.dimensions.filter(({ group }) => group).map(({ dimension, group }) => membersOf(dimension, group));
  const at = axes.findIndex(isTime);
  const there = new Set(rows.map(row => row[at]));
  if (at < 0 || there.size < 2) return undefined;
  const lines = Map.groupBy(rows, row => row.slice(0, -1).toSpliced(at, 1).join(", "));
  if (lines.size > MOST_LINES) return undefined;
  const [first, last] = [axes[at].findIndex(name => there.has(name)), axes[at].findLastIndex(name => there.has(name))];
  return {
    over: head[at],
    others: head.slice(0, -1).toSpliced(at, 1),
    names: axes[at].slice(first, last + 1),
    lines: [...lines].map(([name, of]) => ({ name, sums: new Map(of.map(row => [row[at], row.at(-1)])) })),
  };
}

// ---- in words

// Sums of one measure have the same decimals, so they compare as whole numbers without any rounding.
const unitsOf = sum => BigInt(sum.replace(".", ""));

const nameOf = row => row.slice(0, -1).join(", ");

function leastAndMost(rows) {
  let [least, most] = [rows[0], rows[0]];
  for (const row of rows) {
    if (unitsOf(row.at(-1)) < unitsOf(least.at(-1))) least = row;
    if (unitsOf(row.at(-1)) > unitsOf(most.at(-1))) most = row;
  }
  return `The least sum is ${least.at(-1)} (${nameOf(least)}), the greatest is ${most.at(-1)} (${nameOf(most)}).`;
}

function wordsOfLines(what, { over, others, names, lines }, rows) {
  const those = lines.length === 1 ? `A line of ${what}` : `${lines.length} lines of ${what}, one for each ${others.join(", ")},`;
  const gaps = lines.some(({ sums }) => sums.size < names.length) ? " Where there is no fact a line has a gap." : "";
  return `${those} over ${over} from ${names[0]} to ${names.at(-1)}. ${leastAndMost(rows)}${gaps}`;
}

const wordsOfBars = (what, head, shown, place) =>
  `${place ? `Bars of ${place}: ` : "Bars of "}${what} for each ${head.slice(0, -1).join(", ")}. ${leastAndMost(shown)}`;

// ---- the scale

const POWERS = { 0: "", 3: ", in thousands", 6: ", in millions" };

// Round values that reach from the least number to the most, with 0 among them.
function scaleOf(numbers, what, decimals, parts) {
  const least = numbers.reduce((one, other) => Math.min(one, other), 0);
  const most = numbers.reduce((one, other) => Math.max(one, other), 0);
  const raw = Math.max((most - least) / parts, 10 ** -decimals);
  const ten = 10 ** Math.floor(Math.log10(raw));
  const step = [1, 2, 5, 10].map(times => times * ten).find(it => it >= raw * 0.999);
  const [from, to] = [Math.floor(least / step), Math.max(Math.ceil(most / step), Math.floor(least / step) + 1)];
  const power = Math.max(to, -from) * step < 1e6 ? 0 : 3 * Math.floor(Math.log10(step) / 3);
  const ticks = Array.from({ length: to - from + 1 }, (_, at) => ({
    part: at / (to - from),
    text: spaced(String(Number(((from + at) * step / 10 ** power).toPrecision(6)))),
  }));
  const unit = POWERS[power] ?? `, in 10${[...String(power)].map(digit => "\u2070\u00b9\u00b2\u00b3\u2074\u2075\u2076\u2077\u2078\u2079"[digit]).join("")}`;
  return { ticks, title: `${what}${unit}`, partOf: number => (number / step - from) / (to - from) };
}

const pen = document.createElement("canvas").getContext("2d");

function widthOf(text) {
  pen.font = `${LETTERS}px ${getComputedStyle(document.body).fontFamily}`;
  return pen.measureText(text).width;
}

// A text with as many of its letters as fit.
function fitted(text, width) {
  const letters = [...text];
  while (letters.length > 1 && widthOf(`${letters.join("")}\u2026`) > width) letters.pop();
  return widthOf(text) <= width ? text : `${letters.join("")}\u2026`;
}

const lettered = (text, x, y, anchor) => drawn("text", { x, y, "text-anchor": anchor }, text);

// A sum stands in a picture where it is pointed at.
const pointed = (name, sum) => drawn("title", {}, `${name}: ${sum}`);

// ---- bars

function drawBars(width, shown, scale) {
  const pitch = shown.length > 30 ? 5 : 24;
  const every = Math.ceil(15 / pitch);
  const names = shown.map(nameOf);
  const left = Math.min(Math.max(...names.map(widthOf)), 0.4 * width) + 8;
  const right = width - widthOf(scale.ticks.at(-1).text) / 2 - 2;
  const bottom = 24 + shown.length * pitch + 4;
  const across = part => left + part * (right - left);
  const zero = scale.partOf(0);
  const bars = shown.map((row, at) => {
    const part = scale.partOf(Number(row.at(-1)));
    const [x, wide] = [across(Math.min(zero, part)), Math.max(Math.abs(part - zero) * (right - left), 1)];
    const y = 24 + at * pitch;
    const bar = drawn(
      "rect",
      { class: part < zero ? "bar below" : "bar", x, y: y + pitch / 8, width: wide, height: 0.75 * pitch },
      pointed(names[at], row.at(-1)),
    );
    const name = at % every ? [] : [lettered(fitted(names[at], left - 8), left - 8, y + Math.min(pitch, 15) / 2 + 4.5, "end")];
    if (pitch > 15) name.forEach(it => it.setAttribute("y", y + pitch / 2 + 4.5));
    return [...name, bar];
  });
  const ticks = scale.ticks.flatMap(({ part, text }) => [
    drawn("line", { class: part === zero ? "axis" : "grid-line", x1: across(part), x2: across(part), y1: 22, y2: bottom }),
    lettered(text, across(part), bottom + 16, "middle"),
  ]);
  return canvas(width, bottom + 22, lettered(scale.title, left, 13, "start"), ...ticks, ...bars.flat());
}

// ---- lines

function drawLine({ name, sums }, number, names, x, y) {
  const at = place => sums.get(names[place]);
  const there = names.map((_, place) => place).filter(place => at(place) !== undefined);
  const path = there.map(place => `${at(place - 1) === undefined ? "M" : "L"}${x(place)} ${y(at(place))}`).join("");
  const dots = there
    .filter(place => names.length <= 60 || (at(place - 1) === undefined && at(place + 1) === undefined))
    .map(place => drawn(
      "circle",
      { cx: x(place), cy: y(at(place)), r: 3 },
      pointed(name ? `${names[place]}, ${name}` : names[place], at(place)),
    ));
  return drawn("g", { class: `line of-${number}` }, drawn("path", { d: path }), ...dots);
}

function drawLines(width, { names, lines }, scale) {
  const [top, bottom] = [28, 232];
  const widest = Math.max(...names.map(widthOf));
  const left = Math.max(...scale.ticks.map(({ text }) => widthOf(text)), widest / 2 - 8) + 8;
  const right = width - widest / 2 - 4;
  const space = (right - left) / (names.length - 1);
  const every = Math.ceil((widest + 12) / space);
  const x = place => left + place * space;
  const upTo = part => bottom - part * (bottom - top);
  const y = sum => upTo(scale.partOf(Number(sum)));
  const ticks = scale.ticks.flatMap(({ part, text }) => [
    drawn("line", { class: part === scale.partOf(0) ? "axis" : "grid-line", x1: left, x2: right, y1: upTo(part), y2: upTo(part) }),
    lettered(text, left - 8, upTo(part) + 4.5, "end"),
  ]);
  const written = names.map((name, place) => [name, place]).filter(([, place]) => place % every === 0);
  const under = written.map(([name, place]) => lettered(name, x(place), bottom + 23, "middle"));
  const drawnLines = lines.map((line, number) => drawLine(line, number, names, x, y));
  return canvas(width, bottom + 31, lettered(scale.title, 0, 13, "start"), ...ticks, ...under, ...drawnLines);
}

// What names each line: a piece of it, and its name.
function legendOf(lines) {
  if (lines.length === 1) return [];
  const items = lines.map(({ name }, number) => {
    const piece = drawn("g", { class: `line of-${number}` }, drawn("path", { d: "M1 7H35" }));
    const key = drawn("svg", { width: 36, height: 14, "aria-hidden": "true" }, piece);
    return element("li", "", key, name);
  });
  return [element("ul", "legend", ...items)];
}

// ---- the picture

function canvas(width, height, ...children) {
  return drawn("svg", { class: "drawing", width, height, role: "img", "aria-labelledby": "drawn" }, ...children);
}

// Draws at the width that there is, and anew where it changes: a picture that is only made smaller could not be read.
function figure(draw, words, ...more) {
  const frame = element("div", "frame");
  let wide = 0;
  new ResizeObserver(([{ contentRect }]) => {
    const width = Math.floor(contentRect.width);
    if (width === 0 || width === wide) return;
    wide = width;
    frame.replaceChildren(draw(width));
  }).observe(frame);
  const said = element("figcaption", "", words);
  said.id = "drawn";
  return element("figure", "picture", frame, ...more, said);
}

// The picture of an answer of which these rows are shown. Bars are those of the shown rows, on the scale of all rows.
function picture(choice, head, rows, shown, place) {
  const what = head.at(-1);
  const numbers = rows.map(row => Number(row.at(-1)));
  const scale = parts => scaleOf(numbers, what, choice.decimals, parts);
  const lines = linesOf(choice, head, rows);
  if (!lines) return figure(width => drawBars(width, shown, scale(width < 500 ? 3 : 5)), wordsOfBars(what, head, shown, place));
  return figure(width => drawLines(width, lines, scale(4)), wordsOfLines(what, lines, rows), ...legendOf(lines.lines));
}
