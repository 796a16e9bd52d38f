"use strict";

const menus = document.getElementById("menus");
let shape;

// An element with a class and children.
function element(name, className, ...children) {
  const made = document.createElement(name);
  if (className) made.className = className;
  made.append(...children);
  return made;
}

const show = (id, ...children) => document.getElementById(id).replaceChildren(...children);

// ---- the menus

// Fills a menu with names in their order, and does nothing where it has them.
function fill(select, options, none) {
  const names = none === undefined ? options : ["", ...options];
  if (select.options.length === names.length && names.every((name, at) => select.options[at].value === name)) return;
  const kept = select.value;
  select.replaceChildren(...names.map(name => new Option(name === "" && none !== undefined ? none : name, name)));
  if (names.includes(kept)) select.value = kept;
}

// A menu in its label. The name of the dimension stands beside it for the eye, and in it for the ear.
function menu(kind, title, dimension) {
  const select = element("select", "");
  select.name = `${kind}.${dimension.name}`;
  const label = element("span", "", element("span", "unseen", `${dimension.name}, `), title);
  return element("label", `menu ${kind}`, label, select);
}

function dimensionRow(dimension) {
  const choices = element(
    "div", "choices",
    menu("group", "for each", dimension),
    menu("level", "where", dimension),
    menu("from", "is", dimension),
    menu("to", "to", dimension),
  );
  const row = element("div", "dimension", element("span", "name", dimension.name), choices);
  fill(row.querySelector(".group select"), dimension.levels, "\u2013");
  fill(row.querySelector(".level select"), dimension.levels, "all");
  return row;
}

const control = (kind, dimension) => menus.elements[`${kind}.${dimension.name}`];

const appears = (kind, dimension, there) => {
  control(kind, dimension).closest("label").hidden = !there;
};

// The menus of members have those of the level beside them, and are there where they are of use.
function settle() {
  const form = menus.elements.form.value;
  for (const dimension of shape.dimensions) {
    const level = control("level", dimension).value;
    const members = level ? membersOf(dimension, level) : [];
    const [from, to] = [control("from", dimension), control("to", dimension)];
    fill(from, members);
    fill(to, members);
    appears("group", dimension, form === "slice");
    appears("from", dimension, level);
    appears("to", dimension, level && form === "range");
    if (to.selectedIndex < from.selectedIndex) to.selectedIndex = from.selectedIndex;
  }
  const choice = chosen();
  const lacks = missing(choice);
  show("text", lacks ? `(${lacks})` : queryText(choice));
  menus.querySelector("button").disabled = Boolean(lacks);
}

function chosen() {
  const form = menus.elements.form.value;
  const dimensions = shape.dimensions.map(dimension => {
    const [group, level, from, to] = ["group", "level", "from", "to"].map(kind => control(kind, dimension).value);
    return { dimension, group: form === "slice" ? group : "", pick: level && { level, from, to } };
  });
  const measure = menus.elements.what.value;
  return { form, what: measure ? quoted(measure) : "count", decimals: decimalsOf(measure), dimensions };
}

const decimalsOf = name => shape.measures.find(measure => measure.name === name)?.decimals ?? 0;

// Presets the menus from words, in which each has its name: ?form=slice&what=pay&group.region=area
function preset(words) {
  for (const kind of ["what", "form", "group", "level", "from", "to"]) {
    for (const [name, value] of words) {
      if (name.split(".")[0] === kind && menus.elements[name]) menus.elements[name].value = value;
    }
    settle();
  }
}

// ---- the refusal, and the changes that hide its cell

function hideButton(choice, cell) {
  const button = element("button", "", "Show what hides it");
  button.type = "button";
  button.id = "hide";
  button.onclick = () => askChanges(choice, cell).catch(unreached);
  return button;
}

function refused(choice, query, text) {
  const { words, parts, cell } = refusal(text);
  const named = [["Measure", choice.what], ...parts].flatMap(([name, part]) => [
    element("dt", "", name),
    element("dd", "", element("code", "", part)),
  ]);
  return element(
    "div", "refusal",
    element("h2", "", "Not told"),
    element("p", "", element("code", "", query)),
    element("p", "", words),
    element("dl", "", ...named),
    ...(cell === undefined ? [] : [element("p", "caution", CAUTION), hideButton(choice, cell)]),
    element("p", "said", text),
  );
}

const HIDING = "There is another cube, which differs from this one by these changes alone. All that was answered " +
  "so far is the same in both, and the cell is not. So the answers do not tell its value.";

function changesTable(query, csv, decimals) {
  const [head, ...rows] = readCsv(csv);
  const lines = rows.map(row => element(
    "tr", "",
    ...row.slice(0, -1).map(rowName),
    element("td", "number", signed(row.at(-1), decimals)),
  ));
  return boxed("changes", element("span", "", "Changes that hide ", element("code", "", query)), titlesOf(head), lines);
}

async function askChanges(choice, cell) {
  const query = cellText(choice.what, cell);
  const { status, text } = await post("v1/witness", query);
  if (status !== 200) return show("changes", fault(status, text));
  show(
    "changes",
    element("h2", "", "What hides it"),
    element("p", "", HIDING),
    changesTable(query, text, choice.decimals),
  );
  show("status", "What hides the cell is shown below.");
}

// ---- talk with the server

// The page of a group lies at /g/NAME/ and asks that group alone: the paths are those beside the page.
const group = /^\/g\/([\w-]+)\//.exec(location.pathname)?.[1];

// A query goes by POST: its answer is remembered, so nothing may fetch it ahead or anew.
async function post(path, text) {
  const reply = await fetch(path, { method: "POST", body: new URLSearchParams({ q: text }) });
  const bytes = await reply.arrayBuffer();
  return { status: reply.status, bytes, text: new TextDecoder("utf-8", { ignoreBOM: true }).decode(bytes) };
}

async function askShape() {
  const reply = await fetch("v1/shape");
  if (!reply.ok) throw new Error(`status ${reply.status}`);
  return reply.json();
}

const fault = (status, text) =>
  element("div", "refusal", element("h2", "", "No answer"), element("p", "said", `${status} ${text}`));

// The parts of the page that show a reply, and how it ended in few words.
function replyOf(choice, query, { status, text, bytes }) {
  if (status === 200) return answered(choice, query, text, bytes);
  if (status === 403) return { parts: [refused(choice, query, text)], outcome: "Not told" };
  return { parts: [fault(status, text)], outcome: "No answer" };
}

// Takes the earlier answer away, with its file.
function clear() {
  const file = document.querySelector("#reply a[download]");
  if (file) URL.revokeObjectURL(file.href);
  show("reply");
  show("changes");
}

let asking = false;

// One ask at a time: the reply that is shown is that of the last.
async function ask() {
  if (asking) return;
  asking = true;
  const choice = chosen();
  const query = queryText(choice);
  const words = String(new URLSearchParams(new FormData(menus)));
  clear();
  show("status", "Asking.");
  const reply = await post("v1/query", query).catch(unreached);
  asking = false;
  if (!reply) return;
  const { parts, outcome } = replyOf(choice, query, reply);
  show("reply", ...parts);
  show("status", `${outcome}.`);
  keepAsk({ query, words, outcome });
  showAsks(again);
  bringUp();
}

// The reply begins on the screen.
function bringUp() {
  const status = document.getElementById("status");
  const { top } = status.getBoundingClientRect();
  if (top < 0 || top > 0.6 * innerHeight) status.scrollIntoView();
}

// Sets the menus as they were at an ask, and asks. Where the cube is another by now they may not fit.
function again({ query, words }) {
  if (asking) return;
  preset(new URLSearchParams(words));
  if (document.getElementById("text").textContent === query) ask();
  else show("status", "The cube has changed since. This cannot be asked again.");
}

function about() {
  const names = shape.dimensions.map(({ name }) => name).join(", ");
  const whose = group ? `Group ${group}: ` : "";
  return `${whose}${spaced(String(shape.facts))} facts at ${spaced(String(shape.points))} points of ${names}.`;
}

async function begin() {
  shape = await askShape();
  show("about", about());
  if (group) document.title = `Sums, ${group}`;
  fill(menus.elements.what, shape.measures.map(({ name }) => name), "facts");
  menus.elements.what.value = shape.measures[0].name;
  show("dimensions", ...shape.dimensions.map(dimensionRow));
  menus.onchange = () => {
    clear();
    show("status");
    settle();
  };
  menus.onsubmit = event => {
    event.preventDefault();
    ask();
  };
  settle();
  menus.hidden = false;
  showAsks(again);
  // It asks nothing: who follows a link has not asked yet.
  preset(new URLSearchParams(location.search));
}

function unreached(error) {
  if (!shape) show("about", "Nothing is known of the cube.");
  show("status", "No answer.");
  show("reply", fault("", `the server was not reached: ${error.message}`));
}

begin().catch(unreached);
