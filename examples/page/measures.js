"use strict";

// Measures of the page as it is shown, which drive.py runs within it. Most give a list of what is wrong.
const measures = (() => {
  const all = selector => [...document.querySelectorAll(selector)];
  const isShown = it => it.checkVisibility({ visibilityProperty: true, opacityProperty: true }) && !it.closest(".unseen");
  const shown = selector => all(selector).filter(isShown);
  const CONTROLS = "select, button, input, a[href]";
  const called = it => `${it.tagName.toLowerCase()}${it.id && `#${it.id}`}${it.name ? `[${it.name}]` : ""} "${it.textContent.trim().slice(0, 30)}"`;

  // ---- contrast, as WCAG 2 has it

  const colourOf = text => {
    const [red, green, blue, alpha = 1] = text.match(/[\d.]+/g)?.map(Number) ?? [0, 0, 0, 0];
    return { parts: [red, green, blue], alpha };
  };
  const over = ({ parts, alpha }, below) => parts.map((part, at) => alpha * part + (1 - alpha) * below[at]);
  const light = part => part / 255 <= 0.04045 ? part / 255 / 12.92 : ((part / 255 + 0.055) / 1.055) ** 2.4;
  const luminance = ([red, green, blue]) => 0.2126 * light(red) + 0.7152 * light(green) + 0.0722 * light(blue);

  // What is seen behind an element, from the ground of the page upwards.
  function ground(it) {
    if (!it) return [255, 255, 255];
    return over(colourOf(getComputedStyle(it).backgroundColor), ground(it.parentElement));
  }

  function contrast(colour, below) {
    const [one, other] = [luminance(over(colourOf(colour), below)), luminance(below)];
    return (Math.max(one, other) + 0.05) / (Math.min(one, other) + 0.05);
  }

  const fades = it => it && (getComputedStyle(it).opacity !== "1" || fades(it.parentElement));
  const hasText = it => [...it.childNodes].some(node => node.nodeType === Node.TEXT_NODE && node.data.trim());

  function dimText() {
    const texts = shown("body *").filter(it => !it.matches("option, script, noscript, title") && (hasText(it) || it.matches("select")));
    return texts.flatMap(it => {
      const style = getComputedStyle(it);
      const ratio = contrast(it.closest("svg") ? style.fill : style.color, ground(it));
      return ratio < 4.5 || fades(it) ? [`text of ${called(it)}: ${ratio.toFixed(2)}`] : [];
    });
  }

  const SIDES = ["Top", "Right", "Bottom", "Left"];
  const edges = it => SIDES.filter(side => parseFloat(getComputedStyle(it)[`border${side}Width`]) > 0);

  function dimBorders() {
    return shown("body *").flatMap(it => edges(it).flatMap(side => {
      const ratio = contrast(getComputedStyle(it)[`border${side}Color`], ground(it.parentElement));
      return ratio < 3 ? [`border ${side} of ${called(it)}: ${ratio.toFixed(2)}`] : [];
    }));
  }

  const bareControls = () => shown(CONTROLS).filter(it => edges(it).length < 4).map(it => `no border: ${called(it)}`);

  // Lines and areas of pictures.
  function dimShapes() {
    return shown("svg rect, svg line, svg path, svg circle").flatMap(it => {
      const { stroke, fill } = getComputedStyle(it);
      const ratio = contrast(stroke === "none" ? fill : stroke, ground(it.closest("svg")));
      return ratio < 3 ? [`${it.tagName} ${it.getAttribute("class") ?? it.parentElement.getAttribute("class")}: ${ratio.toFixed(2)}`] : [];
    });
  }

  // The ring of what has the focus, against what it stands on.
  function dimRing() {
    const it = document.activeElement;
    const { outlineStyle, outlineWidth, outlineColor } = getComputedStyle(it);
    const ratio = contrast(outlineColor, ground(it.parentElement));
    return outlineStyle === "none" || parseFloat(outlineWidth) < 2 || ratio < 3 ? [`ring of ${called(it)}: ${ratio.toFixed(2)}`] : [];
  }

  // ---- room

  function wide(width) {
    const page = document.documentElement.scrollWidth > innerWidth || innerWidth !== width;
    const out = shown("main *").filter(it => {
      const { left, right } = it.getBoundingClientRect();
      return !it.parentElement.closest(".box") && (left < 0 || right > width + 0.5);
    });
    return [...(page ? [`the page is ${document.documentElement.scrollWidth} wide on ${innerWidth}`] : []), ...out.map(called)];
  }

  // Each table is in a box that scrolls to its end.
  function lostColumns() {
    return shown("table").flatMap(it => {
      const box = it.closest(".box");
      if (!box) return [`no box: ${called(it)}`];
      box.scrollLeft = 1e6;
      const end = it.getBoundingClientRect().right <= box.getBoundingClientRect().right + 1;
      const more = box.scrollWidth > box.clientWidth;
      box.scrollLeft = 0;
      const begin = it.getBoundingClientRect().left >= box.getBoundingClientRect().left - 1;
      const reached = !more || (box.tabIndex === 0 && getComputedStyle(box).overflowX === "auto");
      return end && begin && reached ? [] : [`a part out of reach: ${called(it)}`];
    });
  }

  // Sums and captions of which a part is out of sight before anything is scrolled: such a sum reads as another one.
  function cutSums() {
    return shown("td.number, caption > *").filter(it => {
      const [cell, box] = [it.getBoundingClientRect(), it.closest(".box").getBoundingClientRect()];
      return cell.left < box.left - 1 || cell.right > box.right + 1;
    }).map(called);
  }

  const scrolls = () => shown(".box").some(it => it.scrollWidth > it.clientWidth);

  const pen = document.createElement("canvas").getContext("2d");
  const ARROW = 20;

  // Menus of which some option does not fit.
  function cutMenus() {
    return shown("select").flatMap(it => {
      const style = getComputedStyle(it);
      pen.font = `${style.fontStyle} ${style.fontSize} ${style.fontFamily}`;
      const room = it.clientWidth - parseFloat(style.paddingLeft) - parseFloat(style.paddingRight) - ARROW;
      const longest = Math.max(...[...it.options].map(option => pen.measureText(option.text).width));
      return longest > room ? [`${called(it)}: ${longest.toFixed()} in ${room.toFixed()}`] : [];
    });
  }

  function smallTargets(least) {
    return shown(CONTROLS).flatMap(it => {
      const { width, height } = (it.type === "radio" ? it.labels[0] : it).getBoundingClientRect();
      return Math.min(width, height) < least ? [`${called(it)}: ${width.toFixed()} by ${height.toFixed()}`] : [];
    });
  }

  // ---- names

  function unnamed() {
    const fields = all("select, input").filter(it => ![...it.labels].some(label => label.textContent.trim()));
    const buttons = all("button, a[href]").filter(it => !it.textContent.trim());
    return [...fields, ...buttons].map(called);
  }

  function badTables() {
    const heads = shown("th").filter(it => it.scope !== (it.closest("thead") ? "col" : "row") || !it.textContent.trim());
    const bare = shown("table").filter(it => !it.caption?.textContent.trim() || !it.tHead);
    const rows = shown("tbody tr").filter(it => !it.querySelector("th"));
    return [...heads, ...bare, ...rows].map(called);
  }

  // ---- pictures

  const POWERS = { thousands: 1e3, millions: 1e6 };
  const plain = text => Number(text.replaceAll("\u202f", ""));

  // The scale that a picture writes: how a place along it is read as a number.
  function scale(texts, x) {
    const unit = document.querySelector(".drawing text").textContent.match(/, in (\w+)$/)?.[1];
    const digits = "\u2070\u00b9\u00b2\u00b3\u2074\u2075\u2076\u2077\u2078\u2079";
    const power = document.querySelector(".drawing text").textContent.match(/, in 10(.+)$/)?.[1];
    const times = power ? 10 ** Number([...power].map(it => digits.indexOf(it)).join("")) : POWERS[unit] ?? 1;
    const ticks = texts.map(it => [x(it), plain(it.textContent) * times]);
    const [[from, least], [to, most]] = [ticks[0], ticks.at(-1)];
    const read = at => least + (at - from) / (to - from) * (most - least);
    return { read, span: most - least, off: ticks.some(([at, value]) => Math.abs(read(at) - value) > 1e-6 * (most - least)) };
  }

  const number = (it, name) => Number(it.getAttribute(name));

  // The sums that bars show, read from the picture by its own scale.
  function barsRead() {
    const ticks = all(".drawing text[text-anchor=middle]");
    const { read, span, off } = scale(ticks, it => number(it, "x"));
    const bars = all(".drawing .bar").map(it => {
      const [from, to] = [number(it, "x"), number(it, "x") + number(it, "width")];
      const isBelow = it.classList.contains("below");
      return { said: it.textContent, from: read(isBelow ? to : from), to: read(isBelow ? from : to) };
    });
    return { bars, span, off };
  }

  // The sums that lines show, and in how many pieces each line is.
  function linesRead() {
    const ticks = all(".drawing text[text-anchor=end]");
    const { read, span, off } = scale(ticks, it => number(it, "y") - 4.5);
    const lines = all(".drawing .line").map(it => {
      const path = it.querySelector("path").getAttribute("d");
      const points = [...path.matchAll(/([ML])([\d.]+) ([\d.]+)/g)].map(([, , x, y]) => ({ x: Number(x), sum: read(Number(y)) }));
      return { points, pieces: path.split("M").length - 1, said: [...it.querySelectorAll("title")].map(title => title.textContent) };
    });
    return { lines, span, off };
  }

  return {
    dimText, dimBorders, bareControls, dimShapes, dimRing, wide, lostColumns, cutSums, scrolls, cutMenus, smallTargets, unnamed, badTables,
    barsRead, linesRead, ground: () => luminance(ground(document.body)),
  };
})();
