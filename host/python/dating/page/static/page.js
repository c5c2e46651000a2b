// The page: it learns every second what has changed, and hands it to its parts.

import * as curator from "./curator.js";
import * as draft from "./draft.js";
import * as question from "./question.js";
import { at, calls, el, fill, many, note } from "./shown.js";
import { get, takeToken } from "./wire.js";

const EVERY = 1000;
let mark = "";
let lost = 0;
let timer = 0;

function wire(kind, words) {
  if (at("wire").textContent === words) return;
  at("wire").className = `wire ${kind}`;
  at("wire").textContent = words;
}

async function look() {
  const data = await get("/sheet", {}, 20);
  takeToken(data.token);
  mark = data.mark;
  at("file").textContent = data.file;
  document.title = `${data.file} – dating register`;
  const locked = data.locked.length ? `${many(data.locked.length, "record")} locked` : "none locked";
  const gone = data.withdrawn.length ? `${data.withdrawn.length.toLocaleString("en")} withdrawn` : "none withdrawn";
  at("sheet-line").textContent = `${many(data.records, "record")}, ${many(data.links, "link")}, ${locked}, ${gone}${data.read_only ? " · open for reading alone" : ""}`;
  fill(at("records"), ...data.names.map(([record, name]) => el("option", { value: String(record) }, name)));
  fill(at("letters"), ...data.letters.map(([letter, name]) => el("option", { value: letter }, name)));
  question.age(mark);
  draft.seen(data);
  curator.show(data);
  told(data);
  return data;
}

function told(data) {
  if (data.trouble) fill(at("changes"), note("error", data.trouble));
  else if (data.torn && !at("changes").firstChild) fill(at("changes"), note("old", data.torn));
}

function news(data) {
  if (data.another) fill(at("changes"), note("old", "The file holds another history now; everything here is of the new one.", close()));
  else if (data.total) fill(at("changes"), note("old", `The sheet has changed: ${many(data.total, "call")} made by others.`, close(), calls({ total: data.total, calls: data.calls.slice(0, 5) })));
}

const close = () => el("button", { type: "button", class: "close", onclick: () => fill(at("changes")) }, "Seen");

async function poll() {
  clearTimeout(timer);
  try {
    if (!mark) await look();
    else {
      const data = await get("/changes", { since: mark }, 10);
      if (data.mark !== mark || lost) {
        if (data.mark !== mark) news(data);
        await look();
      } else if (data.trouble) told(data);
    }
    lost = 0;
    wire("good", "Connected: what is shown is the sheet as it is");
  } catch (error) {
    lost++;
    wire("bad", `Not connected (${error.message}): what is shown may be old, and nothing can be saved`);
  }
  timer = setTimeout(poll, EVERY);
}

question.begin();
draft.begin();
curator.begin();
document.addEventListener("stands", () => look().catch(() => {}));
document.addEventListener("visibilitychange", () => {
  if (!document.hidden) poll();
});
poll();
