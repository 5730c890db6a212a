"use strict";

// Folds of what a record left as it was are filled from the rows above.
const rowsUpTo = (row) => {
  const rows = [];
  for (let each = row; each; each = each.previousElementSibling) rows.push(each);
  return rows;
};

// The last state of each thing, by its key, in the order in which they came; not what
// the row itself shows.
const unchanged = (row, selector, key, isGone) => {
  const shown = new Set([...row.querySelectorAll(selector)].map(key));
  const found = new Map();
  for (const each of rowsUpTo(row.previousElementSibling)) {
    for (const item of [...each.querySelectorAll(selector)].reverse()) {
      if (item.closest("details") || shown.has(key(item)) || found.has(key(item))) continue;
      found.set(key(item), item);
    }
  }
  return [...found.values()].reverse().filter((item) => !isGone(item));
};

const onTheWire = (row) => {
  const found = new Map();
  for (const each of rowsUpTo(row).reverse()) {
    for (const item of each.querySelectorAll("[data-wire]")) {
      if (!found.has(item.dataset.wire)) found.set(item.dataset.wire, item);
    }
  }
  return [...found.values()];
};

const folds = {
  runs: (row) =>
    unchanged(row, "[data-of]", (item) => item.dataset.of, () => false)
      .sort((one, two) => one.dataset.of - two.dataset.of),
  cache: (row) =>
    unchanged(row, "[data-entry]", (item) => item.dataset.entry, (item) => item.querySelector("del")),
  wire: onTheWire,
};

// A copy for a fold: what was new in its own row is not new here.
const copied = (item) => {
  const copy = item.cloneNode(true);
  if (copy.dataset.wire) copy.firstChild.remove();
  if (copy.dataset.entry) copy.querySelector("i").remove();
  for (const name of Object.keys(copy.dataset)) delete copy.dataset[name];
  return copy;
};

document.addEventListener("toggle", (event) => {
  const { fold } = event.target.dataset;
  if (!fold || !event.target.open || event.target.dataset.filled) return;
  event.target.dataset.filled = "yes";
  const items = folds[fold](event.target.closest("tr")).map(copied);
  event.target.querySelector("div").replaceChildren(...items);
}, true);

// A cut is unfolded where it stands, one portion more a click.
const data = document.getElementById("data");
const { terms, principals, depth, parts } = data ? JSON.parse(data.textContent) : {};
const [PAIR, ENCRYPTED] = [5, 6];
const termOf = (number) => terms.slice(3 * number, 3 * number + 3);

const atom = (kind, l, r) => {
  const name = () => principals[l] ?? `p${l}`;
  return [name, () => `t${l * 65536 + r}`, () => `N${l}`, () => `K(${name()})`, () => `k${l}`][kind]();
};

const cut = (number) => {
  const link = document.createElement("a");
  link.className = "cut";
  link.href = `#term-${number}`;
  link.textContent = `…${number}`;
  return link;
};

// As the notation of the page itself: at most so many layers, and so many parts.
const pieces = (number) => {
  const done = [];
  let left = parts;
  const list = (open, first, close, layers) => {
    done.push(open);
    let rest = first;
    for (let [kind, l, r] = termOf(rest); kind === PAIR && left > 0; [kind, l, r] = termOf(rest)) {
      one(l, layers - 1);
      done.push(", ");
      rest = r;
    }
    one(rest, layers - 1);
    done.push(close);
  };
  const one = (term, layers) => {
    const [kind, l, r] = termOf(term);
    left = Math.max(0, left - 1);
    if (kind < PAIR) done.push(atom(kind, l, r));
    else if (layers === 0 || left === 0) done.push(cut(term));
    else if (kind === PAIR) list("[", term, "]", layers);
    else {
      list("{", l, "}", layers);
      one(r, layers - 1);
    }
  };
  one(number, depth);
  return done;
};

document.addEventListener("click", (event) => {
  const link = event.target.closest("a.cut");
  if (!link || !terms) return;
  event.preventDefault();
  const unfolded = document.createElement("span");
  unfolded.className = "unfolded";
  unfolded.tabIndex = -1;
  unfolded.append(...pieces(Number(link.hash.slice("#term-".length))));
  link.replaceWith(unfolded);
  unfolded.focus({ preventScroll: true });
});
