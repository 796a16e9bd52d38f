"use strict";

// The texts that go to the server, and those that come from it. Nothing here touches the page.

const quoted = name => /^[A-Za-z0-9_-]+$/.test(name) ? name : `"${name.replace(/["\\]/g, "\\$&")}"`;

const levelText = (dimension, level) => `${quoted(dimension.name)}.${quoted(level)}`;

// The members of a level, in the order of their numbers.
function membersOf(dimension, level) {
  const at = dimension.levels.indexOf(level);
  return [...new Set(dimension.paths.map(path => path[at]))];
}

// The query of a choice: what is added up, the form, and for each dimension perhaps a group and a pick.
function queryText(choice) {
  const grouped = choice.dimensions.filter(({ group }) => group);
  const picked = choice.dimensions.filter(({ pick }) => pick);
  const groups = grouped.map(({ dimension, group }) => levelText(dimension, group));
  const picks = picked.map(({ dimension, pick }) => {
    const span = choice.form === "range" ? `..${quoted(pick.to)}` : "";
    return `${levelText(dimension, pick.level)}=${quoted(pick.from)}${span}`;
  });
  const by = groups.length ? ` by ${groups.join(", ")}` : "";
  const where = picks.length ? `${groups.length ? " where" : ""} ${picks.join(", ")}` : "";
  return `${choice.form} ${choice.what}${by}${where}`;
}

// Why a choice is no query yet, or nothing.
function missing(choice) {
  if (choice.form === "slice" && !choice.dimensions.some(({ group }) => group)) return "choose what the sums are for";
  if (choice.form === "range" && !choice.dimensions.some(({ pick }) => pick)) return "choose a range";
  return "";
}

// The rows of a CSV text, in which each line ends with a line feed.
function readCsv(text) {
  const rows = [[]];
  for (const [, inQuotes, plain, end] of text.matchAll(/(?:"((?:[^"]|"")*)"|([^,"\n]*))([,\n])/g)) {
    rows.at(-1).push(inQuotes === undefined ? plain : inQuotes.replaceAll('""', '"'));
    if (end === "\n") rows.push([]);
  }
  return rows.slice(0, -1);
}

// A name for the file of an answer.
const fileName = query => `${query.replace(/[^A-Za-z0-9_-]+/g, "-").slice(0, 80)}.csv`;

// The parts of a number between which its thousands stand apart. Joined they are the number.
const thousands = number => number.split(/\B(?<!\.\d*)(?=(?:\d{3})+(?!\d))/);

// A number with its thousands apart. A sum is not written so, but as served.
const spaced = number => thousands(number).join("\u202f");

const counted = (number, one, more) => `${spaced(String(number))} ${number === 1 ? one : more}`;

// A number of smallest units, with a sign and the decimals of its measure.
function signed(units, decimals) {
  const digits = units.replace("-", "").padStart(decimals + 1, "0");
  const whole = digits.slice(0, digits.length - decimals);
  const rest = decimals ? `.${digits.slice(-decimals)}` : "";
  return `${units.startsWith("-") ? "\u2212" : "+"}${whole}${rest}`;
}

const BEFORE = "With what was answered before,";

const FOLLOWS = `${BEFORE} the rule would count the value of a protected cell as told.`;

// What a refusal does not mean.
const CAUTION = "The rule counts more as told than was told, so it may refuse what would have been harmless. " +
  "The refusal does not mean that the answer would have given this cell away.";

const openedBy = cuboid => cuboid === "(all)" ? "the sum of all" : `all sums by ${cuboid.slice(1, -1)}`;

// A text between whose pieces stand cuboids, places or cells in brackets. A bracket in a quoted name ends none.
function formOf(...pieces) {
  const bracketed = String.raw`(\((?:[^"]|"(?:[^"\\]|\\.)*")*?\))`;
  return new RegExp(`^${pieces.join(bracketed)}\n$`, "s");
}

// What each rule says in plain words, and the parts of its text as served, of which the cell is the last.
const RULES = [
  {
    form: formOf("source: the cuboid ", " does not cut the cell ", ""),
    words: cuboid => `${BEFORE} the rule would count ${openedBy(cuboid)} as told. From these a protected cell could be added up.`,
    parts: ["Cuboid", "Cell"],
  },
  {
    form: formOf(String.raw`single: link (\d+), `, ", fixes the cell ", ""),
    words: (_, place) => `This sum pairs its places, and one is left over: ${place.slice(1, -1)}. ${FOLLOWS}`,
    parts: ["Link", "Place", "Cell"],
  },
  {
    form: formOf(String.raw`pair: link (\d+), `, " and ", ", fixes the cell ", ""),
    words: (_, one, other) => `This sum pairs ${one.slice(1, -1)} with ${other.slice(1, -1)}. ${FOLLOWS}`,
    parts: ["Link", "Place", "Other place", "Cell"],
  },
  {
    form: /^full: /,
    words: () => "As much was answered as can be remembered. What earlier answers tell is still told.",
    parts: [],
  },
];

// The words of a refusal, its parts with their names, and its cell as a query names it.
function refusal(text) {
  for (const { form, words, parts } of RULES) {
    const [, ...found] = text.match(form) ?? [];
    if (!form.test(text)) continue;
    const rule = ["Rule", text.slice(0, text.indexOf(":"))];
    const named = parts.map((part, at) => [part, found[at]]);
    return { words: words(...found), parts: [rule, ...named], cell: found[parts.length - 1]?.slice(1, -1) };
  }
  return { words: "The answer was refused.", parts: [] };
}

const cellText = (what, cell) => cell === "all" ? `cell ${what}` : `cell ${what} ${cell}`;
