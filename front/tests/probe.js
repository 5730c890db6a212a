// Runs inside a sheet, looks at what it shows, and leaves that as JSON in its place.
"use strict";

(async () => {
  const all = (selector, from = document) => [...from.querySelectorAll(selector)];
  const rest = () => new Promise((done) => setTimeout(done, 60));
  const isHit = (element) => {
    element.scrollIntoView({ block: "center", behavior: "instant" });
    const { left, top, width, height } = element.getBoundingClientRect();
    const hit = document.elementFromPoint(left + Math.min(width / 2, 30), top + height / 2);
    return element.contains(hit);
  };
  const overflow = () => document.scrollingElement.scrollWidth;
  const faults = [];
  const found = { width: window.innerWidth, overflow: [overflow()], faults };
  const data = document.getElementById("data");
  found.terms = data ? JSON.parse(data.textContent).terms : [];

  found.rows = all(".rows tbody tr").map((row) => ({
    record: row.querySelector("th").textContent,
    answer: row.querySelector(".answer").textContent,
    visible: row.getBoundingClientRect().height > 0,
    step: row.dataset.step ?? null,
    takes: row.querySelector(".takes")?.dataset.takes ?? null,
    sends: all(".sends", row).map(({ dataset, children }) => [
      dataset.wire, dataset.run, children[0].textContent,
    ]),
    warned: Boolean(row.querySelector(".reason.is-warning")),
  }));

  found.events = all("#chart .event").map((event) => ({
    record: event.dataset.record,
    arrows: all(".arrow", event).map(({ dataset }) => [dataset.from, dataset.to]),
    crosses: all(".cross", event).length,
    clock: all(".clock", event).length,
    words: event.textContent,
  }));

  // Each fold opens on a click; one that is open closes first.
  const folds = window.noFolds ? [] : all("details");
  for (const fold of folds) {
    const summary = fold.querySelector("summary");
    const wasOpen = fold.open;
    if (!isHit(summary)) faults.push(`the fold "${summary.textContent}" cannot be clicked`);
    summary.click();
    if (fold.open === wasOpen) faults.push(`the fold "${summary.textContent}" stays as it was`);
    if (wasOpen) summary.click();
  }
  await rest();
  for (const fold of folds) {
    const summary = fold.querySelector("summary");
    const shown = fold.getBoundingClientRect().height - summary.getBoundingClientRect().height;
    if (!fold.open || shown <= 0) faults.push(`the fold "${summary.textContent}" shows nothing`);
    const count = Number(summary.textContent.match(/\d+/)?.[0]);
    const items = fold.querySelector("div")?.children.length;
    if (fold.dataset.fold && items !== count) {
      faults.push(`the fold "${summary.textContent}" of ${fold.closest("tr").id} has ${items}`);
    }
  }
  found.folds = folds.length;
  found.overflow.push(overflow());

  // A cut leads to a row of the table of terms, and unfolds where it stands.
  const unfold = (link) => {
    const parent = link.parentNode;
    const place = [...parent.childNodes].indexOf(link);
    link.click();
    return parent.childNodes[place];
  };
  const cuts = all(".rows tr:last-child .cut");
  found.cuts = cuts.length;
  for (const link of all(".cut")) {
    if (!document.querySelector(link.hash)) faults.push(`${link.hash} is not there`);
  }
  for (let link = cuts[0], clicks = 0; link && clicks < 6; clicks += 1) {
    const unfolded = unfold(link);
    if (unfolded.className !== "unfolded" || unfolded.getBoundingClientRect().height <= 0) {
      faults.push(`${link.textContent} does not unfold`);
    }
    link = unfolded.querySelector(".cut");
  }
  found.overflow.push(overflow());

  // Where nothing is cut, what the script unfolds is what the page says.
  for (const row of all(".terms tbody tr")) {
    const code = row.querySelector("code");
    if (code.querySelector(".cut")) continue;
    const link = document.createElement("a");
    link.className = "cut";
    link.href = `#${row.id}`;
    code.after(link);
    const unfolded = unfold(link);
    if (unfolded.textContent !== code.textContent) faults.push(`${row.id} unfolds differently`);
    unfolded.remove();
  }

  const pre = document.createElement("pre");
  pre.id = "findings";
  pre.textContent = JSON.stringify(found);
  document.body.replaceChildren(pre);
})();
