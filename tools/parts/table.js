// The table of connections sorts and filters; a connection's figures are made when they are near; links between table, figures and squeues.
const fill = section => {
  const later = section?.querySelector("noscript");
  if (!later) return;
  const holder = document.createElement("div");
  holder.innerHTML = later.textContent;
  later.replaceWith(holder);
  section.classList.add("full");
  for (const svg of holder.querySelectorAll("svg[data-view]")) graph(svg);
};
const near = new IntersectionObserver(seen => seen.filter(one => one.isIntersecting).forEach(one => {
  near.unobserve(one.target);
  fill(one.target);
}), {rootMargin: "800px"});
const sections = [...document.querySelectorAll("section.conn")];
for (const section of sections) sections.length > 6 ? near.observe(section) : fill(section);     // a few are there at once, for a picture of the page
const go = () => {
  const section = /^#conn\d+$/.test(location.hash) && document.querySelector(location.hash);
  if (!section) return;
  const show = () => section.scrollIntoView();
  for (let n = 0, one = section; n < 3 && one?.matches("section"); n++, one = one.previousElementSibling) fill(one);
  show();
  requestAnimationFrame(() => { show(); requestAnimationFrame(show); });     // what stands above has its height by then
};
addEventListener("hashchange", go);
go();
addEventListener("beforeprint", () => document.querySelectorAll("section.conn").forEach(fill));
document.addEventListener("click", ev => {
  const to = ev.target.closest("[data-follow]");
  if (to && timeline) {
    timeline.follow(Number(to.dataset.follow));
    document.getElementById("squeues").scrollIntoView();
    ev.preventDefault();
  }
  const copied = ev.target.closest("[data-copy]");
  if (copied) copy(copied);
});
const copy = async button => {
  const words = button.previousElementSibling;
  getSelection().selectAllChildren(words);
  try {
    await navigator.clipboard.writeText(words.textContent);
    button.textContent = "copied";
  } catch {
    button.textContent = document.execCommand("copy") ? "copied" : "selected: copy it with Ctrl+C";
  }
};
const list = document.querySelector(".list");
if (list) {
  const {columns, rows, drawn} = JSON.parse(list.querySelector("script").textContent), has = new Set(drawn), MOST = 200;
  const [input, count, body, more] = ["input", ".count", "tbody", ".more"].map(selector => list.querySelector(selector));
  let sorted = rows, by = -1, down = false, shown = MOST;
  const cell = (row, n) => {
    const td = document.createElement("td");
    td.className = columns[n][1] ? "n" : columns[n][2] ? "short" : "long";
    if (n === 0 && has.has(row[0])) td.append(Object.assign(document.createElement("a"), {href: "#conn" + row[0], textContent: row[0]}));
    else td.textContent = typeof row[n] === "number" && n ? row[n].toLocaleString("en-US") : row[n] ?? "";
    return td;
  };
  const show = () => {
    const words = input.value.trim().toLowerCase().split(/\s+/).filter(Boolean);
    const contains = (row, word) => row.some(value => String(value).toLowerCase().includes(word)), told = n => n.toLocaleString("en-US");
    const line = row => { const tr = document.createElement("tr"); tr.append(...columns.map((_, n) => cell(row, n))); return tr; };
    const found = sorted.filter(row => words.every(word => contains(row, word)));
    body.replaceChildren(...found.slice(0, shown).map(line));
    count.textContent = `${told(found.length)} of ${told(rows.length)}` + (found.length > shown ? `, the first ${shown} shown` : "");
    more.hidden = found.length <= shown;
  };
  list.querySelectorAll("th button").forEach((button, n) => button.addEventListener("click", () => {
    down = by === n ? !down : columns[n][1] === 1 && n > 0;
    by = n;
    const text = (p, q) => String(p).localeCompare(String(q), "en", {numeric: true});
    const order = (p, q) => typeof p === "number" && typeof q === "number" ? p - q : (p === "") - (q === "") || text(p, q);
    sorted = rows.slice().sort((p, q) => (down ? -1 : 1) * order(p[n], q[n]));
    list.querySelectorAll("th").forEach((th, k) => k === n ? th.setAttribute("aria-sort", down ? "descending" : "ascending") : th.removeAttribute("aria-sort"));
    show();
  }));
  input.addEventListener("input", () => { shown = MOST; show(); });
  input.form.addEventListener("submit", ev => ev.preventDefault());
  more.addEventListener("click", () => { shown += 5 * MOST; show(); });
  list.hidden = false;
  show();
}
