// Search, and definitions beside what cites them. It asks for nothing from the net.
"use strict";
const find = document.getElementById("find"), hits = document.getElementById("hits"), beside = document.getElementById("beside");
const frame = beside.querySelector("iframe"), whole = document.getElementById("beside.whole");
const MOST = 40;
let from = null;

// How well a row of NAMES fits the words: lower is better, and none where a word stands nowhere in it.
function rank([name, kind, crate, , said], words) {
  const low = name.toLowerCase(), last = low.split("::").pop(), all = `${crate}::${low} ${kind} ${said.toLowerCase()}`;
  let sum = kind === "definition" ? 3 : kind === "definitions" ? 2 : 0;
  for (const word of words) {
    if (!all.includes(word)) return null;
    sum += last === word || low === word ? 0 : last.startsWith(word) ? 4 : low.includes(word) ? 8 : `${crate}::${low}`.includes(word) ? 12 : 20;
  }
  return sum + name.length / 100;
}

function search() {
  const words = find.value.toLowerCase().trim().split(/\s+/).filter(Boolean);
  hits.hidden = !words.length;
  hits.replaceChildren();
  if (!words.length) return;
  const found = NAMES.map(row => [rank(row, words), row]).filter(([at]) => at !== null).sort((a, b) => a[0] - b[0]);
  for (const [, [name, kind, crate, link, said]] of found.slice(0, MOST)) {
    const line = document.createElement("li"), a = document.createElement("a"), more = document.createElement("small");
    a.href = link;
    a.textContent = kind === "crate" ? name : `${crate}::${name}`;
    more.textContent = said ? `${kind} · ${said}` : kind;
    a.append(more);
    if (link.startsWith("definitions/")) a.target = "beside";
    line.append(a);
    hits.append(line);
  }
  const told = document.createElement("p");
  told.textContent = found.length > MOST ? `The first ${MOST} of ${found.length}.` : found.length ? "" : "Nothing has all these words.";
  told.setAttribute("role", "status");
  hits.append(told);
}

function step(by) {
  const all = [...hits.querySelectorAll("a")], at = all.indexOf(document.activeElement) + by;
  (at < 0 ? find : all[Math.min(at, all.length - 1)] || find).focus();
}

function close() {
  beside.hidden = true;
  document.body.classList.remove("aside");
  if (from && from.isConnected) from.focus();
}

find.addEventListener("input", search);
find.form.addEventListener("submit", event => {
  event.preventDefault();
  const first = hits.querySelector("a");
  if (first) first.click();
});
document.addEventListener("keydown", event => {
  const typing = document.activeElement === find;
  if (event.key === "/" && !typing) {
    event.preventDefault();
    find.focus();
    find.select();
  } else if (event.key === "Escape") {
    if (!hits.hidden) {
      hits.hidden = true;
      find.focus();
    } else if (!beside.hidden) close();
  } else if (!hits.hidden && (event.key === "ArrowDown" || event.key === "ArrowUp") && find.form.contains(document.activeElement)) {
    event.preventDefault();
    step(event.key === "ArrowDown" ? 1 : -1);
  }
});
document.addEventListener("click", event => {
  const a = event.target.closest("a");
  if (!find.form.contains(event.target) || a) hits.hidden = true;
  if (!a || a.target !== "beside" || event.ctrlKey || event.metaKey || event.shiftKey) return;
  // The frame is told where to go by the link itself; it only has to be seen.
  from = a;
  whole.href = a.href;
  beside.hidden = false;
  document.body.classList.add("aside");
  frame.focus();
});
document.getElementById("beside.close").addEventListener("click", close);
addEventListener("message", event => {
  if (event.source !== frame.contentWindow) return;
  if (event.data === "close") close();
});
