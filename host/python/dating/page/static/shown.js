// Pieces of the page. Whatever comes from the server is put in as text, never as markup; a picture is read as XML and taken over without any script.

export const at = (id) => document.getElementById(id);

export function el(name, given = {}, ...inside) {
  const made = document.createElement(name);
  for (const [key, value] of Object.entries(given)) {
    if (key === "class") made.className = value;
    else if (key.startsWith("on")) made.addEventListener(key.slice(2), value);
    else if (value !== false && value !== null && value !== undefined) made.setAttribute(key, value === true ? "" : value);
  }
  made.append(...inside.filter((piece) => piece !== null && piece !== undefined && piece !== ""));
  return made;
}

export function fill(place, ...inside) {
  place.replaceChildren(...inside.filter((piece) => piece !== null && piece !== undefined && piece !== ""));
}

export function picture(text) {
  if (!text) return null;
  const read = new DOMParser().parseFromString(text, "image/svg+xml").documentElement;
  if (read.nodeName !== "svg") return null;
  const frame = el("div", { class: "picture", tabindex: "0", role: "group", "aria-label": "picture" });
  frame.append(document.importNode(read, true));
  return frame;
}

export function table(head, rows, caption = "") {
  const cells = (kind, row) => el("tr", {}, ...row.map((cell) => el(kind, kind === "th" ? { scope: "col" } : {}, String(cell))));
  const made = el("table", {}, caption ? el("caption", {}, caption) : "");
  if (head.length) made.append(el("thead", {}, cells("th", head)));
  made.append(el("tbody", {}, ...rows.map((row) => cells("td", row))));
  return el("div", { class: "table", tabindex: "0", role: "group", "aria-label": caption || "rows" }, made);
}

export const clock = (stamp) => (stamp ? `${stamp.slice(0, 10)} ${stamp.slice(11, 19)} UTC` : "");

export const many = (count, one) => (count === 0 ? `no ${one}s` : count === 1 ? `1 ${one}` : `${count.toLocaleString("en")} ${one}s`);

export function calls(found) {
  const list = el("ul", { class: "calls" }, ...found.calls.map(([call, when]) => el("li", {}, el("code", {}, call), ` ${clock(when)}`)));
  if (found.total > found.calls.length) list.append(el("li", {}, `and ${many(found.total - found.calls.length, "call")} before these`));
  return list;
}

export function note(kind, ...inside) {
  return el("div", { class: `note ${kind}` }, ...inside);
}

// How wide a picture may be.
export const wide = (place) => Math.max(300, Math.min(4000, place.clientWidth - 28));

export const quoted = (word) => (/[\s,]/.test(word.trim()) && !word.includes('"') ? `"${word.trim()}"` : word.trim());

// Words as text; arrows and short names that have a hyphen are not broken at it.
export const unbroken = (line) => line.split(" ").flatMap((word, place) => [place ? " " : "", word.includes("-") && word.length < 25 ? el("span", { class: "whole-word" }, word) : word]);
