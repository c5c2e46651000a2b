// A question and its answer. Under way, answered, none, refused, no answer and as of then look different, and each says in a word which it is.

import { at, clock, el, fill, note, picture, table, unbroken, wide } from "./shown.js";
import { Told, get } from "./wire.js";

const form = at("ask");
const place = at("answer");
const LABELS = { support: "Core", ends: "Record", starts: "Record" };
let asked = null; // the fields of the question at hand
let answer = null; // its latest answer
let turn = 0;

export const atHand = () => (answer && asked ? asked : null);

function fields() {
  const kind = at("kind").value;
  const found = { kind };
  for (const label of form.querySelectorAll("label[data-for]")) {
    if (label.dataset.for.split(" ").includes(kind)) {
      const input = label.querySelector("input");
      found[input.name] = input.value.trim();
    }
  }
  return found;
}

function shape() {
  const kind = at("kind").value;
  for (const piece of form.querySelectorAll("[data-for]")) piece.hidden = !piece.dataset.for.split(" ").includes(kind);
  at("record-label").textContent = LABELS[kind] || "Record";
  at("print").href = `/pages.txt?${new URLSearchParams({ expression: form.elements.expression.value.trim() })}`;
}

function show(kind, state, ...inside) {
  place.className = `answer ${kind}`;
  place.setAttribute("aria-busy", kind === "under-way" ? "true" : "false");
  fill(place, el("p", { class: "state" }, state), ...inside);
}

function told(data) {
  const [first, ...rest] = data.words;
  const pieces = [el("p", { class: "words" }, ...unbroken(first)), ...rest.map((line) => el("p", { class: "line" }, ...unbroken(line))), picture(data.picture)];
  if (data.remark) pieces.push(el("p", { class: "line" }, data.remark));
  if (data.rows.length) pieces.push(rows(data));
  pieces.push(el("p", { class: "small" }, "Asked: ", el("code", {}, data.request), ` · sheet of ${clock(data.time)}`));
  show(data.found ? "found" : "none", data.found ? "Answer" : "None", ...pieces);
}

function rows(data) {
  const end = data.first + data.rows.length;
  const caption = data.total > data.rows.length ? `${(data.first + 1).toLocaleString("en")} to ${end.toLocaleString("en")} of ${data.total.toLocaleString("en")}` : "";
  const frame = el("div", { class: "rows" }, table(data.head, data.rows, caption));
  if (end < data.total) {
    const left = data.total - end;
    frame.append(el("button", { type: "button", class: "more", onclick: (event) => more(event.target, frame, end) }, `Show more (${left.toLocaleString("en")} left)`));
  }
  return frame;
}

async function more(button, frame, first) {
  const mine = turn;
  button.disabled = true;
  button.textContent = "Under way …";
  try {
    const data = await get("/ask", { ...asked, first, width: wide(place) });
    if (mine !== turn) return;
    if (data.mark !== answer.mark) {
      button.replaceWith(note("old", "The sheet has changed since the first part: ask again for the whole list."));
      return;
    }
    button.remove();
    frame.after(rows(data));
  } catch (error) {
    button.replaceWith(note("error", `No more came: ${error.message}. The list is not at its end.`));
  }
}

export async function ask(given = fields()) {
  const mine = ++turn;
  asked = given;
  answer = null;
  const began = Date.now();
  show("under-way", "Under way …", el("p", { class: "words" }, "The question is being answered; this is no answer yet."));
  const ticking = setInterval(() => {
    place.querySelector(".state").textContent = `Under way … ${Math.round((Date.now() - began) / 1000)} s`;
  }, 1000);
  try {
    const data = await get("/ask", { ...given, width: wide(place) }, 120);
    if (mine !== turn) return;
    answer = data;
    told(data);
    document.dispatchEvent(new CustomEvent("asked"));
  } catch (error) {
    if (mine !== turn) return;
    if (error instanceof Told && error.data.kind !== "failed") {
      const number = error.data.number ? ` ${error.data.number}` : "";
      show("refused", `Refused${number}`, el("p", { class: "words" }, error.message), error.data.mark ? el("pre", {}, error.data.mark) : null, el("p", { class: "line" }, "The question was not answered."));
    } else {
      show("error", "No answer", el("p", { class: "words" }, `${error.message}.`), el("p", { class: "line" }, "This does not mean none: the question was not answered."), again("Ask again"));
    }
    document.dispatchEvent(new CustomEvent("asked"));
  } finally {
    clearInterval(ticking);
  }
}

const again = (words) => el("button", { type: "button", onclick: () => ask(asked) }, words);

// The sheet stands at another mark now: the answer is as of then.
export function age(mark) {
  if (!answer || answer.mark === mark || place.classList.contains("old")) return;
  place.classList.add("old");
  const state = place.querySelector(".state");
  state.textContent = `${state.textContent}, as of then`;
  state.after(note("old", `As of ${clock(answer.time)}. The sheet has changed since; this may no longer hold. `, again("Ask again")));
}

export function begin() {
  at("kind").addEventListener("change", shape);
  form.elements.expression.addEventListener("input", shape);
  form.addEventListener("submit", (event) => {
    event.preventDefault();
    ask().then(() => place.focus({ preventScroll: true }));
  });
  shape();
}
