"use strict";

// What was asked in this tab, the last first, each text once. The browser keeps it as long as the tab is open, and the
// server and other tabs do not see it. It has the texts of asks and no sum. Each group has its own list, by the path.

const KEPT = `asks ${location.pathname}`;
const MOST_ASKS = 50;

// A browser may forbid to keep anything. Then the list ends with the page.
function keptAsks() {
  try {
    return JSON.parse(sessionStorage.getItem(KEPT)) ?? [];
  } catch {
    return [];
  }
}

let asks = keptAsks();

function keepAsk(ask) {
  asks = [ask, ...asks.filter(({ query }) => query !== ask.query)].slice(0, MOST_ASKS);
  try {
    sessionStorage.setItem(KEPT, JSON.stringify(asks));
  } catch {
    // It stays on the page.
  }
}

// An ask and how it ended, with a button that asks it once more.
function askItem(ask, again) {
  const button = element("button", "", "Ask again");
  button.type = "button";
  button.setAttribute("aria-label", `Ask again: ${ask.query}`);
  button.onclick = () => again(ask);
  return element("li", "", element("code", "", ask.query), element("span", "outcome", ask.outcome), button);
}

// Shows the list, with the focus kept on its first button where it was on one.
function showAsks(again) {
  const list = document.getElementById("list");
  const inside = list.contains(document.activeElement);
  list.replaceChildren(...asks.map(ask => askItem(ask, again)));
  document.getElementById("asks").hidden = !asks.length;
  if (inside) list.querySelector("button").focus({ preventScroll: true });
}
