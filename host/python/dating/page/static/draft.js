// The draft: lines that are not made yet. It is in this page alone until it is saved, and is kept in the browser's tab, so that nothing of it is lost when the
// page is loaded anew or the server ends.

import { at, calls, clock, el, fill, many, note, quoted } from "./shown.js";
import { Told, Unreached, post } from "./wire.js";
import { atHand } from "./question.js";

const KEPT = "dating draft";
let draft = { lines: [], since: "", name: "" };
let sheet = null;
let refused = null;
let words = [];
let busy = false;
let unsure = false; // whether a Save was not answered
let checks = 0;
let later = 0;

function keep() {
  try {
    if (draft.lines.length) sessionStorage.setItem(`${KEPT} ${sheet.path}`, JSON.stringify({ ...draft, unsure }));
    else sessionStorage.removeItem(`${KEPT} ${sheet.path}`);
  } catch (error) {
    // Without such a store the draft is in the page alone.
  }
}

function restore() {
  try {
    const kept = JSON.parse(sessionStorage.getItem(`${KEPT} ${sheet.path}`));
    if (kept && Array.isArray(kept.lines)) {
      draft = { lines: kept.lines.map(String), since: String(kept.since), name: String(kept.name) };
      unsure = kept.unsure === true;
    }
  } catch (error) {
    draft = { lines: [], since: "", name: "" };
  }
}

const fresh = () => Array.from(crypto.getRandomValues(new Uint8Array(16)), (byte) => byte.toString(16).padStart(2, "0")).join("");

function changed() {
  refused = null;
  words = [];
  if (!draft.lines.length) draft = { lines: [], since: "", name: "" };
  else draft.name = fresh();
  keep();
  show();
  check();
}

function put(line) {
  if (!sheet) {
    fill(at("told"), note("error", "The sheet is not here yet: nothing is put into the draft."));
    return false;
  }
  if (!draft.lines.length) draft.since = sheet.mark;
  draft.lines.push(line);
  fill(at("told"));
  changed();
  return true;
}

function line(text, place) {
  const input = el("input", { value: text, "aria-label": `Line ${place + 1} of the draft`, spellcheck: "false", autocapitalize: "off" });
  const taken = () => {
    draft.lines[place] = input.value.trim();
    draft.name = fresh();
    keep();
  };
  input.addEventListener("input", taken);
  input.addEventListener("change", () => {
    taken();
    changed();
  });
  const out = el("button", { type: "button", "aria-label": `Take out line ${place + 1}, ${text}`, onclick: () => takeOut(place) }, "Take out");
  return el("li", {}, el("div", { class: "line-of-draft" }, input, out), el("div", { class: "of-line" }));
}

// Fields that are there stay, so that the focus is not lost while a line is mended; what is said of each line is said anew.
function lines() {
  const there = [...at("lines").querySelectorAll("input")];
  const same = there.length === draft.lines.length && there.every((input, place) => input.value.trim() === draft.lines[place]);
  if (!same) fill(at("lines"), ...draft.lines.map(line));
  [...at("lines").children].forEach((item, place) => {
    const faulty = refused !== null && refused.place === place;
    item.className = faulty ? "faulty" : "";
    item.querySelector("input").setAttribute("aria-invalid", String(faulty));
    const said = faulty ? el("p", { class: "fault" }, `${refused.number ? `Refused ${refused.number}` : "No edit"}: ${refused.words}`) : null;
    const named = !faulty && words[place] && words[place] !== draft.lines[place] ? el("p", { class: "small" }, words[place]) : null;
    fill(item.querySelector(".of-line"), said, named);
  });
}

function takeOut(place) {
  draft.lines.splice(place, 1);
  changed();
  const left = at("lines").querySelectorAll("button");
  (left[Math.min(place, left.length - 1)] || at("save")).focus();
}

function show() {
  const count = draft.lines.length;
  at("draft").className = count ? "has-lines" : "";
  at("draft-count").textContent = count ? `${many(count, "line")}, ${unsure ? "not known whether made" : "not made"}` : "empty";
  at("draft-says").textContent = unsure ? "A Save of these lines was not answered: whether they are made is being looked up." : count ? "Not made yet: nobody else sees these lines, and no answer has them, until you save." : "Nothing is waiting to be made. What you put in here is made when you save it.";
  lines();
  at("save").disabled = at("cancel").disabled = busy || sheet.read_only;
  const bar = at("draft-bar");
  bar.className = count ? "" : "hidden";
  bar.textContent = `Draft: ${at("draft-count").textContent}`;
  if (!count) {
    fill(at("effect"));
    fill(at("between"));
  }
}

export function check() {
  clearTimeout(later);
  later = setTimeout(tried, 150);
}

async function tried() {
  if (!draft.lines.length || busy) return;
  const mine = ++checks;
  fill(at("effect"), el("p", { class: "state" }, "Looking what it would change …"));
  try {
    const data = await post("/draft", { edits: draft.lines, question: atHand(), since: draft.since });
    if (mine !== checks || !draft.lines.length) return;
    if (unsure && settled(data)) return;
    refused = data.refused;
    words = data.words || [];
    between(data.between);
    show();
    effect(data);
  } catch (error) {
    if (mine === checks) fill(at("effect"), note("error", `What the draft would change is not known: ${error.message}.`));
  }
}

// A Save that was not answered has been made, or not: the history tells.
function settled(data) {
  unsure = false;
  if (data.made) {
    draft = { lines: [], since: "", name: "" };
    keep();
    show();
    fill(at("told"), note("good", `Saved after all: the history has these lines, made at ${clock(data.made)}.`));
    return true;
  }
  keep();
  show();
  fill(at("told"), note("error", "The Save that was not answered has not been made. The draft is still here; save again."));
  return false;
}

function between(found) {
  if (found.another) fill(at("between"), note("old", "The file holds another history than when you began this draft. Look at the lines before you save."));
  else if (found.total) fill(at("between"), note("old", `The sheet has changed since you began this draft, by ${many(found.total, "call")}. It will be saved on the sheet as it is now:`, calls(found)));
  else fill(at("between"));
}

function list(sign, name, rows, total) {
  if (!total) return null;
  const items = rows.map((row) => el("li", {}, el("b", { "aria-hidden": "true" }, sign), ` ${row.join(" → ")}`));
  if (total > rows.length) items.push(el("li", {}, `and ${(total - rows.length).toLocaleString("en")} more`));
  return el("div", { class: name }, el("h4", {}, `What ${name} (${total.toLocaleString("en")})`), el("ul", {}, ...items));
}

function effect(data) {
  if (data.refused) {
    fill(at("effect"), note("refused", `Line ${data.refused.place + 1} would be refused: ${data.refused.words}. None would be made.`));
  } else if (!data.effect) {
    fill(at("effect"), el("p", { class: "small" }, "The draft can be saved. Ask a question to see what it would change there."));
  } else {
    const found = data.effect;
    fill(at("effect"), el("h3", {}, "In the question at hand"), el("p", {}, found.words), list("+", "comes", found.comes, found.comes_total), list("−", "goes", found.goes, found.goes_total));
  }
}

async function save() {
  if (busy || !sheet) return;
  if (!draft.lines.length) {
    fill(at("told"), note("plain", "There is nothing to save: the draft is empty, and the sheet is as it was."));
    return;
  }
  busy = true;
  checks++;
  show();
  fill(at("told"), note("under-way", "Saving … it is not made until this says so."));
  try {
    const data = await post("/save", { edits: draft.lines, since: draft.since, name: draft.name });
    draft = { lines: [], since: "", name: "" };
    refused = null;
    const found = data.between;
    const also = found.another ? "The file held another history than when you began." : found.total ? `The sheet had changed since you began, by ${many(found.total, "call")}:` : "";
    fill(at("told"), note("good", `Saved: ${many(data.saved, "edit")} made, and in the file, at ${clock(data.time)}. ${also}`, found.total ? calls(found) : null));
    document.dispatchEvent(new CustomEvent("stands", { detail: data }));
  } catch (error) {
    failed(error);
  }
  busy = false;
  keep();
  show();
  if (draft.lines.length && !refused) check();
}

function failed(error) {
  if (error instanceof Told && error.data.kind === "refused line") {
    refused = { place: error.data.place, words: error.message, number: error.data.number };
    fill(at("told"), note("refused", `Not saved: line ${refused.place + 1}, `, el("code", {}, draft.lines[refused.place] || ""), `, is refused${refused.number ? ` (${refused.number})` : ""}: ${refused.words}. None is made; the draft is still here to mend.`));
  } else if (error instanceof Unreached) {
    unsure = true;
    fill(at("told"), note("error", `No answer to Save: ${error.message}. Whether it was made is not known yet; this is looked up as soon as the server is there. The draft is still here.`));
  } else {
    fill(at("told"), note("error", `Not saved: ${error.message}. The draft is still here.`));
  }
}

function cancel() {
  if (!sheet) return;
  const count = draft.lines.length;
  checks++;
  draft = { lines: [], since: "", name: "" };
  refused = null;
  unsure = false;
  keep();
  show();
  fill(at("told"), note("plain", count ? `Cancelled: ${many(count, "line")} of the draft thrown away. The sheet was not touched.` : "There is nothing to cancel: the draft is empty."));
}

function entered(form, line) {
  form.addEventListener("submit", (event) => {
    event.preventDefault();
    const word = event.submitter ? event.submitter.value : form.querySelector("button").value;
    const missing = [...form.querySelectorAll("input")].find((input) => !input.value.trim());
    if (missing) {
      fill(at("told"), note("refused", `${missing.closest("label").firstChild.textContent.trim()} is empty: nothing is put into the draft.`));
      missing.focus();
      return;
    }
    if (!put(line(word, form.elements))) return;
    form.reset();
    form.querySelector("input").focus();
  });
}

export function seen(found) {
  const first = sheet === null;
  const other = !first && found.mark !== sheet.mark;
  sheet = found;
  if (first) restore();
  for (const button of document.querySelectorAll("#draft button")) button.disabled = found.read_only;
  if (first) show();
  if ((first || other || unsure) && draft.lines.length) check();
}

export function begin() {
  entered(at("edit-record"), (word, fields) => `${word} ${quoted(fields.record.value)}`);
  entered(at("edit-link"), (word, fields) => `${word} ${quoted(fields.from.value)} ${fields.letter.value.trim()} ${quoted(fields.to.value)}`);
  at("save").addEventListener("click", save);
  at("cancel").addEventListener("click", cancel);
  document.addEventListener("asked", check);
  window.addEventListener("beforeunload", (event) => {
    if (draft.lines.length) event.preventDefault();
  });
}
