// What the sheet holds, the latest edits, undo, the picture of the whole, closing up.

import { at, clock, el, fill, many, note, table } from "./shown.js";
import { get, post } from "./wire.js";

let sheet = null;
let most = 10;

const record = ([number, name]) => (name ? `${number} (${name})` : String(number));

function marks(name, found) {
  const head = el("h4", {}, `${name[0].toUpperCase()}${name.slice(1)} (${found.length.toLocaleString("en")})`);
  if (!found.length) return [head, el("p", {}, `No record is ${name}.`)];
  const shown = found.slice(0, 500).map((one) => el("li", {}, record(one)));
  if (found.length > 500) shown.push(el("li", {}, `and ${(found.length - 500).toLocaleString("en")} more`));
  return [head, el("ul", { class: "records" }, ...shown)];
}

export function show(found) {
  sheet = found;
  const letter = (row) => (row[1] ? `${row[0]} (${row[1]})` : row[0]);
  fill(at("totals"), found.totals.length ? table(["kind", "links"], [...found.totals.map((row) => [letter(row), row[2].toLocaleString("en")]), ["all", found.links.toLocaleString("en")]], "") : el("p", {}, "There are no links."));
  fill(at("marks"), ...marks("locked", found.locked), ...marks("withdrawn", found.withdrawn));
  undo();
  history();
  if (at("closing").firstChild) fill(at("closing"), note("old", "The sheet has changed since this was shown: look again."));
  if (at("whole-picture").querySelector("img")) age();
}

function age() {
  if (!at("whole-picture").querySelector(".old")) at("whole-picture").prepend(note("old", "As of then: the sheet has changed since this was drawn."));
}

async function history() {
  try {
    const data = await get("/history", { most });
    const rows = data.rows.map(([call, when, held]) => [clock(when), call, held ? "can take it back" : ""]);
    fill(at("latest"), rows.length ? table(["made", "call", "undo"], rows, `the latest ${rows.length.toLocaleString("en")} of ${data.total.toLocaleString("en")}`) : el("p", {}, "Nothing has been made yet."));
    at("more-history").hidden = rows.length >= data.total;
  } catch (error) {
    fill(at("latest"), note("error", `The latest edits are not known: ${error.message}.`));
  }
}

function undo(...said) {
  const edit = sheet.undo;
  if (!edit) return fill(at("undo"), el("p", {}, "Undo can take back nothing."), ...said);
  const mark = sheet.mark;
  const ask = el("button", { type: "button", id: "undo-ask", disabled: sheet.read_only }, "Undo …");
  ask.addEventListener("click", () => {
    const sure = el("button", { type: "button", id: "undo-sure", class: "main" }, `Take back ${edit}`);
    sure.addEventListener("click", () => takeBack(mark, edit));
    fill(at("undo"), note("plain", "Undo would take back ", el("code", {}, edit), ", whoever made it. It cannot itself be undone."), el("div", { class: "buttons" }, sure, el("button", { type: "button", onclick: () => undo() }, "Leave it")));
    sure.focus();
  });
  fill(at("undo"), el("p", {}, "Undo would take back ", el("code", {}, edit), "."), el("div", { class: "buttons" }, ask), ...said);
}

async function takeBack(mark, edit) {
  try {
    const data = await post("/undo", { mark, edit });
    document.dispatchEvent(new CustomEvent("stands", { detail: data }));
    fill(at("undo"), note("good", `Taken back: ${edit}, at ${clock(data.time)}.`));
  } catch (error) {
    undo(note("error", `Not taken back: ${error.message}.`));
  }
}

async function closing() {
  fill(at("closing"), el("p", { class: "state" }, "Under way …"));
  try {
    const data = await get("/closing");
    const kept = el("input", { type: "checkbox", id: "kept-table" });
    const sure = el("button", { type: "button", class: "main", disabled: true }, "Close up");
    kept.addEventListener("change", () => {
      sure.disabled = !kept.checked || sheet.read_only;
    });
    sure.addEventListener("click", () => closeUp(data.mark));
    fill(
      at("closing"),
      el("p", {}, `Nothing is done yet. Closing up would leave ${many(data.records, "record")}, numbered anew; neither it nor any edit before it can be undone.`),
      el("ul", { class: "records" }, ...data.words.slice(1, 201).map((line) => el("li", {}, line))),
      el("p", {}, el("a", { href: "/closing.csv", download: "numbers.csv" }, "Keep the table of old and new numbers"), " (it is also put into a file beside the history before anything is done)."),
      el("label", { class: "check" }, kept, " I have the table, and want the numbers closed up"),
      el("div", { class: "buttons" }, sure, el("button", { type: "button", onclick: () => fill(at("closing")) }, "Leave it")),
    );
  } catch (error) {
    fill(at("closing"), note("refused", `Closing up cannot be done: ${error.message}.`));
  }
}

async function closeUp(mark) {
  try {
    const data = await post("/close", { mark });
    fill(at("closing"));
    document.dispatchEvent(new CustomEvent("stands", { detail: data }));
    setTimeout(() => fill(at("closing"), note("good", `Done: ${data.words}.`)), 0);
  } catch (error) {
    fill(at("closing"), note("error", `Not closed up: ${error.message}.`));
  }
}

async function whole(letters) {
  const place = at("whole-picture");
  fill(place, el("p", { class: "state" }, "Drawing …"));
  const address = `/whole.svg?${new URLSearchParams({ letters })}`;
  try {
    const answer = await fetch(address, { cache: "no-store" });
    if (!answer.ok) throw new Error((await answer.json()).error);
    const image = el("img", { alt: `links ${letters} by generations`, class: "whole" });
    image.src = `${address}&at=${encodeURIComponent(sheet.mark)}`;
    fill(place, el("div", { class: "picture", tabindex: "0", role: "group", "aria-label": "picture of the whole" }, image), el("a", { href: address, target: "_blank", rel: "noopener" }, "The picture alone"));
  } catch (error) {
    fill(place, note("refused", `No picture: ${error.message}`));
  }
}

export function begin() {
  at("more-history").addEventListener("click", () => {
    most = Math.min(5000, most + 90);
    history();
  });
  at("look-closing").addEventListener("click", closing);
  at("whole").addEventListener("submit", (event) => {
    event.preventDefault();
    whole(event.target.elements.letters.value.trim());
  });
}
