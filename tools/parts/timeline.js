// Squeues: all marks on a canvas, at any width from an overview of all to single ones. A column is a place to the right of what happened before.
const LEFT = 92, LANE = 22, CURVE = 36, HEAD = 26, GAP = 30, LEAST = 8, EACH = 1500, ARCS = 100, POLLING = 16;
const coarse = matchMedia("(pointer: coarse)").matches;
const CAME = {f: "came straight in", c: "claimed it", w: "was woken", A: "was granted it"};
// Numbers as the page has them: a character each from ] on, or plain ones where some are large; odd ones are negative.
const unpacked = told => {
  const out = new Int32Array(told.length), text = typeof told === "string";
  for (let i = 0; i < out.length; i++) { const n = text ? told.charCodeAt(i) - 93 : told[i]; out[i] = n & 1 ? -(n + 1) / 2 : n / 2; }
  return out;
};
const summed = told => { const out = unpacked(told); for (let i = 1; i < out.length; i++) out[i] += out[i - 1]; return out; };
const begins = counts => { const out = new Int32Array(counts.length + 1); for (let i = 0; i < counts.length; i++) out[i + 1] = out[i] + counts[i]; return out; };
// The first of n places for which `is` holds, where it holds from some place on.
const search = (n, is) => { let a = 0, b = n; while (a < b) { const m = a + b >> 1; if (is(m)) b = m; else a = m + 1; } return a; };

class Squeue {
  constructor(told, y) {
    Object.assign(this, {q: told.q, kind: told.kind, by: told.by, state: told.state, stuck: told.stuck, lanes: told.lanes, y});
    this.column = summed(told.column);
    this.queued = summed(told.queued);
    this.first = summed(told.first);
    const length = unpacked(told.length);
    this.last = this.first.map((n, s) => n + length[s]);
    [this.feedAt, this.feedConn, this.feedFirst, this.feedCount] = [begins(unpacked(told.feeds[0])), ...told.feeds.slice(1).map(unpacked)];
    [this.fillAt, this.fillConn, this.fillFirst, this.fillCount] = [begins(unpacked(told.fills[0])), ...told.fills.slice(1).map(unpacked)];
    this.fillMarks = Int32Array.from(this.places("F"));
    this.grants = new Map(this.places("g").map((mark, n) => [mark, told.to.charCodeAt(n) - 48]));
    this.act = told.act;
    this.actConn = unpacked(told.actConn);
    this.made = new Map();
    for (let s = told.act.indexOf("c"), n = 0; s >= 0; s = told.act.indexOf("c", s + 1)) this.made.set(s, told.made[n++]);
    this.laneOf = new Map(this.lanes.map(([pass], n) => [pass, n]));
    this.top = y + HEAD;
    this.base = this.top + this.lanes.length * LANE + 4;
    this.bottom = this.base + CURVE + GAP;
  }
  places(letter) {
    const out = [];
    for (let i = this.kind.indexOf(letter); i >= 0; i = this.kind.indexOf(letter, i + 1)) out.push(i);
    return out;
  }
  pass(mark) { return this.by.charCodeAt(mark) - 48; }
  lane(pass) { return this.laneOf.get(pass); }
  name(pass) { return (this.lanes[this.lane(pass)] ?? [0, "pass " + pass])[1]; }
  role(pass) { return (this.lanes[this.lane(pass)] ?? [0, "", "worker"])[2]; }
  laneY(pass) { return this.top + this.lane(pass) * LANE; }
  // Marks, stretches and fills from column a up to before column b.
  marksIn(a, b) { return [search(this.column.length, i => this.column[i] >= a), search(this.column.length, i => this.column[i] >= b)]; }
  stretchesIn(a, b) { return [search(this.last.length, s => this.column[this.last[s]] + 1 > a), search(this.first.length, s => this.column[this.first[s]] >= b)]; }
  runs(conn, first, count, from, to) {
    const out = [];
    for (let r = from; r < Math.min(to, from + 12); r++) out.push(conn[r] + "." + first[r] + (count[r] > 1 ? "–" + (first[r] + count[r] - 1) : ""));
    return out.join(" ") + (to - from > 12 ? ` and ${to - from - 12} more` : "");
  }
  feeds(s) { return this.runs(this.feedConn, this.feedFirst, this.feedCount, this.feedAt[s], this.feedAt[s + 1]); }
  filled(mark) {
    const n = search(this.fillMarks.length, k => this.fillMarks[k] >= mark);
    return [n, this.runs(this.fillConn, this.fillFirst, this.fillCount, this.fillAt[n], this.fillAt[n + 1])];
  }
  has(s, c) {
    for (let r = this.feedAt[s]; r < this.feedAt[s + 1]; r++) if (this.feedConn[r] === c) return true;
    return this.actConn[s] === c && "coi".includes(this.act[s]);
  }
  fillHas(n, c) {
    for (let r = this.fillAt[n]; r < this.fillAt[n + 1]; r++) if (this.fillConn[r] === c) return true;
    return false;
  }
  conns(thing) {
    const [conn, from, to] = thing.fill >= 0 ? [this.fillConn, this.fillAt[thing.fill], this.fillAt[thing.fill + 1]]
      : thing.stretch >= 0 ? [this.feedConn, this.feedAt[thing.stretch], this.feedAt[thing.stretch + 1]] : [[], 0, 0];
    const out = new Set(thing.stretch >= 0 && "coi".includes(this.act[thing.stretch]) ? [this.actConn[thing.stretch]] : []);
    for (let r = from; r < to && out.size < 6; r++) out.add(conn[r]);
    return [...out];
  }
}

class Timeline {
  constructor(box) {
    this.box = box;
    const text = box.querySelector("script"), told = JSON.parse(text.textContent);
    text.remove();
    Object.assign(this, {calls: told.calls, names: told.conns, linked: new Set(told.linked)});
    let y = 0;
    this.squeues = told.squeues.map(one => { const squeue = new Squeue(one, y); y = squeue.bottom; return squeue; });
    this.height = y;
    this.byNumber = new Map(this.squeues.map(squeue => [squeue.q, squeue]));
    const moves = told.moves.map(unpacked);
    this.moves = [...moves[0]].map((conn, n) => ({conn, from: this.byNumber.get(moves[1][n]), mark: moves[2][n],
      to: this.byNumber.get(moves[3][n]), end: moves[4][n], begin: moves[5][n]}));
    this.whole = [0, Math.max(1, ...this.squeues.map(one => 1 + (one.column.at(-1) ?? 0)))];
    this.view = this.whole.slice();
    this.chosen = this.pointed = null;
    this.followed = -1;
    this.hits = [];
    for (const [name, selector] of Object.entries({strip: "canvas.strip", canvas: "canvas.lanes", scroll: ".scroll", tall: ".tall", readout: ".read", input: "input"}))
      this[name] = box.querySelector(selector);
    this.colours = colours(box);
    box.hidden = false;
    if (told.window) this.begin(...told.window);
    this.wire();
  }
  // The view of some marks of a squeue, one of them chosen.
  begin(q, first, last, point) {
    const one = this.byNumber.get(q);
    this.view = moved.inside([one.column[first], one.column[last] + 1], this.whole);
    if (point >= 0) this.chosen = {one, mark: point, plain: true};
  }

  // Size and colours.
  resize() {
    const width = this.box.clientWidth, high = Math.min(this.height + 4, Math.max(240, innerHeight - 330));
    if (!width) return;
    const dots = Math.min(2, devicePixelRatio || 1);
    Object.assign(this, {width, high, dots, strips: null});
    for (const [canvas, h] of [[this.canvas, high], [this.strip, 44]]) {
      canvas.width = width * dots;
      canvas.height = h * dots;
      canvas.style.height = h + "px";
    }
    this.scroll.style.height = high + "px";
    this.tall.style.height = this.height + 4 + "px";
    this.redraw();
  }
  redraw() {
    if (this.due) return;
    this.due = true;
    requestAnimationFrame(() => { this.due = false; this.draw(); });
  }
  get step() { return (this.width - LEFT - 10) / (this.view[1] - this.view[0]); }
  x(column) { return LEFT + (column - this.view[0]) * this.step; }
  columnAt(x) { return this.view[0] + (x - LEFT) / this.step; }

  // Drawing.
  draw() {
    if (!this.width) return;
    const pen = this.pen = this.canvas.getContext("2d"), at = this.scroll.scrollTop;
    pen.setTransform(this.dots, 0, 0, this.dots, 0, -at * this.dots);
    pen.fillStyle = this.colours.paper;
    pen.fillRect(0, at, this.width, this.high);
    const seen = this.squeues.filter(one => one.bottom > at && one.y < at + this.high);
    this.drawn = {marks: 0, bars: 0, shares: 0, arcs: 0};
    pen.save();
    pen.beginPath();
    pen.rect(LEFT, at, this.width - LEFT - 8, this.high);
    pen.clip();
    for (const one of seen) this.drawSqueue(one);
    this.drawMoves();
    this.drawFollowed(seen);
    this.drawChosen();
    pen.restore();
    for (const one of seen) this.drawNames(one);
    this.drawEdges(at);
    this.drawStrip();
    Object.assign(this.box.dataset, {view: this.view.join(" "), ...this.drawn, followed: this.followed, hits: this.hits.length});
  }
  // Where squeues stand above or below what is in view, and how many.
  drawEdges(at) {
    const pen = this.pen, cut = {above: this.squeues.filter(one => one.y < at - 4).length, below: this.squeues.filter(one => one.bottom > at + this.high + 4).length};
    for (const [where, count] of Object.entries(cut)) if (count) {
      const y = where === "above" ? at : at + this.high - 20;
      Object.assign(pen, {fillStyle: this.colours.wash, globalAlpha: .92});
      pen.fillRect(0, y, this.width, 20);
      pen.globalAlpha = 1;
      this.words(this.width / 2, y + 14, `${where === "above" ? "↑" : "↓"} ${count} more squeue${count > 1 ? "s" : ""} ${where}: scroll`, "ink", "600 11px", "center");
    }
  }
  drawNames(one) {
    this.words(10, one.y + 16, `squeue ${one.q}`, "ink", "600 12px");
    const stuck = one.stuck >= 0 ? `; mark ${one.stuck} doesn't follow from those before it` : "";
    this.words(LEFT, one.y + 16, `${one.kind.length.toLocaleString("en-US")} marks${stuck}`, "muted");
    for (const [pass, name] of one.lanes) this.words(LEFT - 12, one.laneY(pass) + 15, name, "ink", "11px", "right");
    this.words(LEFT - 12, one.base + CURVE / 2 + 4, "queued", "muted", "11px", "right");
    this.words(LEFT - 12, one.base + CURVE + 16, "mark", "muted", "9.5px", "right");
  }
  words(x, y, text, colour, font = "11px", align = "left") {
    Object.assign(this.pen, {fillStyle: this.colours[colour], font: font + ' system-ui,"DejaVu Sans",sans-serif', textAlign: align});
    this.pen.fillText(text, x, y);
  }
  drawSqueue(one) {
    const pen = this.pen, [i, k] = one.marksIn(...this.view), [s, e] = one.stretchesIn(...this.view);
    pen.fillStyle = this.colours.wash;
    for (const [pass] of one.lanes) pen.fillRect(LEFT, one.laneY(pass) + 2, this.width - LEFT - 8, LANE - 4);
    this.drawn.marks += k - i;
    if (e - s > EACH) this.drawShares(one, s, e);
    else for (let n = s; n < e; n++) this.drawBar(one, n);
    if (k - i <= 2 * EACH) this.drawSigns(one, i, k);
    if (this.step > 5) this.drawTakes(one, i, k);
    this.drawQueue(one, i, k);
    this.drawNumbers(one, i, k);
  }
  // Left, top and width of a stretch's bar.
  barBox(one, s) {
    const inset = this.step > 6 ? 1 : 0, left = this.x(one.column[one.first[s]]) + inset;
    return [left, one.laneY(one.pass(one.first[s])) + 3, Math.max(1, this.x(one.column[one.last[s]] + 1) - left - inset)];
  }
  drawBar(one, s) {
    const pen = this.pen, [left, top, width] = this.barBox(one, s);
    this.drawn.bars++;
    pen.globalAlpha = this.followed >= 0 && !one.has(s, this.followed) ? .3 : 1;
    pen.fillStyle = this.colours[one.role(one.pass(one.first[s]))];
    pen.beginPath();
    if (width > 6) pen.roundRect(left, top, width, LANE - 6, 3); else pen.rect(left, top, width, LANE - 6);
    pen.fill();
    if (width > 16) {
      const act = one.act[s], c = one.actConn[s], word = {c: "call", o: "out " + c, i: "in " + c, a: "away"}[act] ?? "";
      const text = [one.feeds(s), word].filter(Boolean).join(" "), short = {o: c + "→", i: "→" + c}[act];
      const shown = [left, left + width], from = Math.max(shown[0], LEFT), to = Math.min(shown[1], this.width - 8);
      const wide = (one, size) => { pen.font = size + ' system-ui,"DejaVu Sans",sans-serif'; return pen.measureText(one).width; };
      const tried = [text, word || text.split(" ")[0], short].filter(Boolean).flatMap(one => [[one, "9.5px"], [one, "8px"]]);
      const fits = tried.find(one => wide(...one) <= to - from - 2);
      if (fits) this.words(from + Math.min(4, (to - from - wide(...fits)) / 2), top + 11.5, fits[0], "paper", fits[1]);
    }
    pen.globalAlpha = 1;
  }
  // For each column of dots the share of it in which a pass had the squeue.
  drawShares(one, s, e) {
    const shares = one.lanes.map(() => new Float32Array(Math.ceil(this.width) + 1)), pen = this.pen;
    for (; s < e; s++) {
      const lane = shares[one.lane(one.pass(one.first[s]))];
      const right = Math.min(this.width, this.x(one.column[one.last[s]] + 1));
      for (let x = Math.max(LEFT, this.x(one.column[one.first[s]])); x < right;) {
        const next = Math.min(right, Math.floor(x) + 1);
        lane[Math.floor(x)] += next - x;
        x = next;
      }
    }
    one.lanes.forEach(([pass, , role], n) => {
      pen.fillStyle = this.colours[role];
      pen.globalAlpha = this.followed >= 0 ? .35 : 1;
      const floor = one.laneY(pass) + LANE - 3;
      shares[n].forEach((share, x) => { if (share) { const h = Math.max(2, Math.min(1, share) * (LANE - 6)); pen.fillRect(x, floor - h, 1, h); } });
      pen.globalAlpha = 1;
    });
    this.drawn.shares++;
  }
  drawSigns(one, i, k) {
    for (; i < k; i++) if ("Fagx".includes(one.kind[i]) && one.laneOf.has(one.pass(i))) this.drawSign(one, i);
  }
  // When an owner took the queue: a dotted line in its bar.
  drawTakes(one, i, k) {
    const pen = this.pen;
    Object.assign(pen, {strokeStyle: this.colours.paper, lineWidth: 1.6});
    pen.setLineDash([2, 2]);
    pen.beginPath();
    for (; i < k; i++) if (one.kind[i] === "t" && one.laneOf.has(one.pass(i))) {
      const x = this.x(one.column[i] + .5), y = one.laneY(one.pass(i)) + 3;
      pen.moveTo(x, y);
      pen.lineTo(x, y + LANE - 6);
    }
    pen.stroke();
    pen.setLineDash([]);
  }
  drawSign(one, i) {
    const pen = this.pen, x = this.x(one.column[i] + .5), y = one.laneY(one.pass(i)) + LANE / 2, r = Math.min(4, Math.max(1.2, this.step / 3));
    pen.lineWidth = r > 3 ? 1.6 : 1;
    pen.beginPath();
    if (one.kind[i] === "F") {
      pen.moveTo(x - r, y - r); pen.lineTo(x + r, y - r); pen.lineTo(x, y + r); pen.closePath();
      pen.fillStyle = this.colours.paper; pen.strokeStyle = this.colours.ring;
    } else if (one.kind[i] === "a") {
      pen.arc(x, y, r, 0, 7); pen.fillStyle = this.colours.paper; pen.strokeStyle = this.colours.thread;
    } else if (one.kind[i] === "g" && one.laneOf.has(one.grants.get(i))) {
      const to = one.laneY(one.grants.get(i)) + LANE / 2;
      pen.moveTo(x, y); pen.lineTo(x, to); pen.arc(x, to, r * .6, 0, 7); pen.fillStyle = pen.strokeStyle = this.colours.ink; pen.setLineDash([3, 2]);
    } else if (one.kind[i] === "x") {
      pen.moveTo(x - r, y - r); pen.lineTo(x + r, y + r); pen.moveTo(x + r, y - r); pen.lineTo(x - r, y + r); pen.strokeStyle = this.colours.muted;
    }
    if ("Fa".includes(one.kind[i])) pen.fill();
    pen.stroke();
    pen.setLineDash([]);
  }
  // How much is queued after each mark; where many stand in one column of dots, the most, and what is left after them.
  drawQueue(one, i, k) {
    const pen = this.pen, floor = one.base + CURVE, size = Math.ceil(this.width) + 1, most = new Int32Array(size).fill(-1), after = new Int32Array(size);
    const state = new Uint8Array(size), left = new Uint8Array(size), stop = Math.min(k + 1, one.queued.length);
    let top = 1;
    for (let n = Math.max(0, i - 1); n < stop; n++) {
      const x = Math.min(size - 1, Math.max(LEFT, Math.floor(this.x(one.column[n])))), now = one.state.charCodeAt(n) - 48;
      most[x] = Math.max(most[x], after[x] = one.queued[n]);
      state[x] |= left[x] = now;
      top = Math.max(top, one.queued[n]);
    }
    const scale = (CURVE - 8) / top, ends = Math.min(this.width - 8, this.x((one.column[Math.min(k, one.column.length - 1)] ?? 0) + 1));
    const rect = (colour, x, y, w, h, alpha = 1) => { Object.assign(pen, {fillStyle: colour, globalAlpha: alpha}); pen.fillRect(x, y, w, h); };
    const {room, line, muted, again} = Object.fromEntries(["room", "line", "muted", "again"].map(name => [name, this.colours[name]]));
    for (let x = LEFT, next; x < ends; x = next) {
      for (next = x + 1; next < ends && most[next] < 0; next++);
      if (most[x] < 0) continue;
      if (state[x] & 1) rect(room, x, one.base, left[x] & 1 ? next - x : 1, CURVE, .22);
      for (const [from, w, n] of [[x, 1, most[x]], [x, next - x, after[x]]]) {
        if (n) rect(line, from, floor - n * scale, w, n * scale);
        rect(muted, from, floor - n * scale, w, 1);
      }
      if (state[x] & 2) rect(again, x, floor + 2, left[x] & 2 ? next - x : 1, 3);
    }
    pen.globalAlpha = 1;
    if (top >= POLLING) {
      pen.strokeStyle = room;
      pen.setLineDash([4, 3]);
      pen.beginPath();
      pen.moveTo(LEFT, floor - POLLING * scale);
      pen.lineTo(this.width, floor - POLLING * scale);
      pen.stroke();
      pen.setLineDash([]);
    }
    this.words(this.width - 12, one.base + 11, `at most ${top.toLocaleString("en-US")}`, "muted", "9.5px", "right");
  }
  drawNumbers(one, i, k) {
    const marks = Math.max(1, k - i), room = Math.max(1, (this.width - LEFT) / 70), step = nice(0, marks, room)[1];
    const each = Math.max(1, Math.round(step));
    let right = 0;
    for (let n = Math.ceil(i / each) * each; n < k; n += each) {
      const x = this.x(one.column[n] + .5);
      if (x < right || x < LEFT + 2 || x > this.width - 30) continue;
      this.words(x, one.base + CURVE + 16, n.toLocaleString("en-US"), "muted", "9.5px", "center");
      right = x + 50;
    }
  }
  arc(move) {
    const ax = this.x(move.from.column[move.mark] + 1) - 1, ay = move.from.laneY(move.from.pass(move.mark)) + LANE / 2;
    const column = move.to.column[move.begin] > move.from.column[move.mark] ? move.begin : move.end;
    const bx = this.x(move.to.column[column]) - 1, by = move.to.laneY(move.to.pass(move.end)) + LANE / 2, reach = Math.min(60, Math.max(10, (bx - ax) / 2));
    return [ax, ay, ax + reach, ay, bx - reach, by, bx, by];
  }
  // Those that are seen; where they are too many, those that begin or end in view.
  movesInView() {
    const [a, b] = this.view, begin = move => move.from.column[move.mark], end = move => move.to.column[move.end];
    const seen = this.moves.filter(move => begin(move) < b && end(move) + 1 > a);
    return seen.length <= ARCS ? seen : seen.filter(move => begin(move) >= a || end(move) < b);
  }
  drawMoves() {
    const seen = this.movesInView(), dense = seen.length > this.width / 12;
    if (seen.length > ARCS) return this.drawManyMoves(seen);
    for (const move of seen) {
      const mine = move.conn === this.followed;
      this.drawArc(move, mine ? 1 : this.followed >= 0 ? .15 : dense ? .5 : .8, mine ? 3 : dense ? 1 : 1.8);
    }
  }
  drawArc(move, alpha, thick) {
    const pen = this.pen, [ax, ay, ...rest] = this.arc(move);
    Object.assign(pen, {strokeStyle: this.colours.move, fillStyle: this.colours.move, globalAlpha: alpha, lineWidth: thick});
    pen.beginPath(); pen.moveTo(ax, ay); pen.bezierCurveTo(...rest); pen.stroke();
    pen.beginPath(); pen.arc(rest[4], rest[5], Math.min(3, Math.max(1, this.step / 3)), 0, 7); pen.fill();
    pen.globalAlpha = 1;
    this.drawn.arcs++;
  }
  // Too many to be told apart: how many leave each squeue, by column of dots, as a row above its marks' numbers.
  drawManyMoves(seen) {
    const pen = this.pen, rows = new Map(this.squeues.map(one => [one, new Float32Array(Math.ceil(this.width) + 1)]));
    let most = 1;
    for (const move of seen) {
      const x = Math.floor(this.x(move.from.column[move.mark]));
      if (x >= LEFT && x < this.width) most = Math.max(most, ++rows.get(move.from)[x]);
    }
    pen.fillStyle = this.colours.move;
    for (const [one, row] of rows) row.forEach((count, x) => {
      if (!count) return;
      pen.globalAlpha = .25 + .75 * count / most;
      pen.fillRect(x, one.base - 3, 1, 4);
    });
    pen.globalAlpha = 1;
    for (const move of seen) if (move.conn === this.followed) this.drawArc(move, 1, 2);
  }
  drawFollowed(seen) {
    const pen = this.pen, [a, b] = this.view;
    for (const {one, stretch, fill} of this.hits) {
      const mark = stretch >= 0 ? one.first[stretch] : one.fillMarks[fill];
      if (!seen.includes(one) || one.column[mark] > b || one.column[stretch >= 0 ? one.last[stretch] : mark] + 1 < a) continue;
      const top = one.laneY(one.pass(mark)), [left, , width] = stretch >= 0 ? this.barBox(one, stretch) : [this.x(one.column[mark]), 0, this.step];
      pen.fillStyle = pen.strokeStyle = this.colours.ink;
      if (width > 6) {
        pen.lineWidth = 2;
        pen.strokeRect(left - 1, top + 1, width + 2, LANE - 2);
      } else pen.fillRect(left, top + 1, Math.max(2, width), LANE - 2);
    }
  }
  drawChosen() {
    const thing = this.chosen, pen = this.pen;
    if (!thing || thing.move) return;
    const one = thing.one, mark = thing.stretch >= 0 ? one.first[thing.stretch] : thing.mark;
    const [left, , width] = thing.stretch >= 0 ? this.barBox(one, thing.stretch) : [this.x(one.column[mark]), 0, this.step];
    const lane = one.laneOf.has(one.pass(mark)) ? one.laneY(one.pass(mark)) : one.top;
    Object.assign(pen, {strokeStyle: this.colours.again, lineWidth: 2});
    pen.strokeRect(left - 2, lane, Math.max(4, width + 4), LANE);
  }
  drawStrip() {
    const pen = this.strip.getContext("2d");
    if (!this.strips) this.strips = this.stripOnce();
    pen.setTransform(1, 0, 0, 1, 0, 0);
    pen.drawImage(this.strips, 0, 0);
    pen.setTransform(this.dots, 0, 0, this.dots, 0, 0);
    const [left, right] = this.view.map(column => this.stripX(column));
    Object.assign(pen, {fillStyle: this.colours.paper, globalAlpha: .6});
    pen.fillRect(LEFT, 0, left - LEFT, 44); pen.fillRect(right, 0, this.width - right, 44);
    Object.assign(pen, {globalAlpha: 1, strokeStyle: this.colours.ink, lineWidth: 1.5});
    pen.strokeRect(left, 1, Math.max(3, right - left), 42);
    pen.fillStyle = this.colours.again;
    for (const {one, stretch, fill} of this.hits) pen.fillRect(this.stripX(one.column[stretch >= 0 ? one.first[stretch] : one.fillMarks[fill]]), 38, 1.5, 5);
  }
  stripX(column) { return LEFT + (column - this.whole[0]) / (this.whole[1] - this.whole[0]) * (this.width - LEFT - 10); }
  stripOnce() {
    const canvas = document.createElement("canvas");
    [canvas.width, canvas.height] = [this.strip.width, this.strip.height];
    const pen = canvas.getContext("2d"), high = 38 / this.squeues.length;
    pen.scale(this.dots, this.dots);
    pen.fillStyle = this.colours.wash;
    pen.fillRect(0, 0, this.width, 44);
    this.squeues.forEach((one, n) => {
      const shares = new Float32Array(Math.ceil(this.width) + 1);
      for (let s = 0; s < one.first.length; s++) {
        const right = this.stripX(one.column[one.last[s]] + 1);
        for (let x = this.stripX(one.column[one.first[s]]); x < right;) {
          const next = Math.min(right, Math.floor(x) + 1);
          shares[Math.floor(x)] += next - x;
          x = next;
        }
      }
      pen.fillStyle = this.colours.ring;
      shares.forEach((share, x) => { if (share) { pen.globalAlpha = .15 + .7 * Math.min(1, share); pen.fillRect(x, 2 + n * high, 1, Math.max(1, high - 1)); } });
    });
    pen.globalAlpha = 1;
    return canvas;
  }

  // What is under a point, and what is said of it.
  at(x, y) {
    const one = this.squeues.find(squeue => y >= squeue.y && y < squeue.bottom), column = this.columnAt(x);
    if (!one || x < LEFT) return null;
    const lane = Math.floor((y - one.top) / LANE), pass = one.lanes[lane]?.[0];
    return (pass === undefined ? null : this.signAt(one, pass, x) ?? this.stretchAt(one, pass, column)) ?? this.moveAt(x, y) ?? this.markAt(one, column);
  }
  stretchAt(one, pass, column) {
    const near = Math.max(.5, 3 / this.step), [s, e] = one.stretchesIn(column - near, column + near);
    let best = null, apart = Infinity;
    for (let n = s; n < Math.min(e, s + 2000); n++) if (one.pass(one.first[n]) === pass) {
      const off = Math.max(one.column[one.first[n]] - column, column - one.column[one.last[n]] - 1, 0);
      if (off < apart) [best, apart] = [{one, stretch: n}, off];
    }
    return best;
  }
  signAt(one, pass, x) {
    if (this.step < 2) return null;
    const [i, k] = one.marksIn(this.columnAt(x - 6) - .5, this.columnAt(x + 6) - .5);
    for (let n = i; n < k; n++)
      if ("Fagx".includes(one.kind[n]) && one.pass(n) === pass) return {one, mark: n, fill: one.kind[n] === "F" ? one.filled(n)[0] : -1};
    return null;
  }
  moveAt(x, y) {
    const seen = this.movesInView();
    if (seen.length > ARCS) return null;
    for (const move of seen) {
      const [ax, ay, bx, by, cx, cy, dx, dy] = this.arc(move);
      for (let t = 0; t <= 1; t += 1 / 32) {
        const u = 1 - t, along = (a, b, c, d) => u ** 3 * a + 3 * u * u * t * b + 3 * u * t * t * c + t ** 3 * d;
        const px = along(ax, bx, cx, dx), py = along(ay, by, cy, dy);
        if (Math.abs(px - x) < 5 && Math.abs(py - y) < 5) return {one: move.from, move};
      }
    }
    return null;
  }
  markAt(one, column) {
    const mark = search(one.column.length, i => one.column[i] > column) - 1;
    return mark >= 0 ? {one, mark, plain: true} : null;
  }
  said(thing) {
    const {one, move} = thing, n = thing.mark, from = `squeue ${one.q}, `;
    if (move) return `connection ${move.conn} moved from squeue ${move.from.q} (mark ${move.mark}) to squeue ${move.to.q} (mark ${move.end})`;
    if (thing.stretch >= 0) return from + this.saidOfStretch(one, thing.stretch);
    const who = one.name(one.pass(n));
    const state = ["", ", polling", ", and nobody has it", ", polling, and nobody has it"][one.state.charCodeAt(n) - 48 || 0];
    if (thing.plain) return `${from}mark ${n}: ${one.queued[n] ?? 0} queued${state}`;
    const doing = {F: () => "queued " + one.filled(n)[1], a: () => "asked for it", g: () => "granted it to " + one.name(one.grants.get(n)),
      x: () => "closed its pass"};
    return `${from}mark ${n}: ${who} ${doing[one.kind[n]]()}`;
  }
  saidOfStretch(one, s) {
    const c = one.actConn[s], feeds = one.feeds(s), kind = one.kind[one.first[s]], [j, k] = one.made.get(s) ?? [];
    const call = this.calls.find(told => told[0] === j && told[1] === k);
    const done = {c: `made call ${j}.${k} on connection ${c}` + (call ? ` (${call[3]}${call[4] ? ": " + call[4] : ""})` : ""),
      o: `took the block of connection ${c} out`, i: `put the block of connection ${c} in`, a: "looked for a block that is elsewhere"}[one.act[s]];
    const what = (feeds ? `, processed ${feeds}` : "") + (done ? `, ${done}` : "");
    return `marks ${one.first[s]} to ${one.last[s]}: ${one.name(one.pass(one.first[s]))} ${CAME[kind] ?? "had it"}${what}`;
  }
  read() {
    const thing = this.pointed ?? this.chosen, out = this.readout;
    out.textContent = thing ? this.said(thing) : this.followed >= 0 ? this.saidOfFollowed() : out.dataset[coarse ? "coarse" : "hint"];
    const conns = thing ? thing.move ? [thing.move.conn] : thing.one.conns(thing) : this.followed >= 0 ? [this.followed] : [];
    const put = (name, told) => out.append(" ", Object.assign(document.createElement(name), told));
    for (const c of conns) {
      if (c !== this.followed) put("button", {type: "button", textContent: `follow ${c}`, onclick: () => this.follow(c)});
      if (this.linked.has(c)) put("a", {href: "#conn" + c, textContent: `graph of ${c}`});
    }
  }
  saidOfFollowed() {
    const fills = this.hits.filter(hit => hit.fill >= 0).length, moves = this.moves.filter(move => move.conn === this.followed).length;
    return `connection ${this.followed}, ${this.names[this.followed] ?? ""}: ${this.hits.length - fills} bars, queued ${fills} times, ${moves} moves; `
      + "n and p go through them";
  }

  // Moving and choosing.
  see(view) {
    this.view = moved.inside(view, this.whole);
    this.redraw();
  }
  zoom(factor, over = .5) { this.see(moved.zoom(this.view, this.whole, factor, over, Math.min(LEAST, this.whole[1]))); }
  pan(share) { this.see(moved.pan(this.view, this.whole, share)); }
  all() { this.see(this.whole); }
  choose(thing) {
    this.chosen = thing;
    this.pointed = null;
    if (thing) this.bring(thing);
    this.read();
    this.redraw();
  }
  span(thing) {
    if (thing.move) return [thing.move.from.column[thing.move.mark], thing.move.to.column[thing.move.end]];
    const {one, stretch, mark} = thing;
    return stretch >= 0 ? [one.column[one.first[stretch]], one.column[one.last[stretch]]] : [one.column[mark], one.column[mark]];
  }
  bring(thing) {
    const [a, b] = this.span(thing), size = Math.max(this.view[1] - this.view[0], Math.min(b - a + 2, 200)), {one} = thing;
    if (a < this.view[0] || b + 1 > this.view[1]) this.see([(a + b - size) / 2, (a + b + size) / 2]);
    const hidden = one.y < this.scroll.scrollTop || one.bottom > this.scroll.scrollTop + this.high;
    if (hidden) this.scroll.scrollTop = Math.max(0, Math.min(one.y, one.bottom - this.high));
  }
  follow(c) {
    this.followed = c;
    this.hits = [];
    for (const one of this.squeues) {
      for (let s = 0; s < one.first.length; s++) if (one.has(s, c)) this.hits.push({one, stretch: s, at: one.column[one.first[s]]});
      one.fillMarks.forEach((mark, fill) => { if (one.fillHas(fill, c)) this.hits.push({one, stretch: -1, fill, mark, at: one.column[mark]}); });
    }
    this.hits.sort((p, q) => p.at - q.at);
    this.chosen = this.pointed = null;
    this.input.value = c >= 0 ? c : "";
    const seen = this.hits.filter(hit => hit.at >= this.view[0] && hit.at < this.view[1]);
    if (this.hits.length && !seen.length) this.bring(this.hits[0]);
    this.read();
    this.redraw();
  }
  stepHit(way) {
    if (!this.hits.length) return;
    const same = hit => this.chosen && ["one", "stretch", "fill"].every(name => hit[name] === this.chosen[name]), now = this.hits.findIndex(same);
    this.choose(this.hits[(now + way + this.hits.length) % this.hits.length] ?? this.hits[0]);
  }
  search() {
    const words = this.input.value.trim();
    if (!words) return this.follow(-1);
    const from = this.followed, count = this.names.length;
    let c = /^\d+$/.test(words) ? Number(words) : -1;
    for (let n = 1; c < 0 && n <= count; n++) if (this.names[(from + n + count) % count].includes(words)) c = (from + n + count) % count;
    if (c >= 0 && c < count) this.follow(c); else this.readout.textContent = `no connection ${words}`;
    this.input.value = words;
  }
  walk(way) {
    const thing = this.chosen, one = thing?.one ?? this.squeues.find(squeue => squeue.first.length);
    if (!one) return;
    const [s, e] = one.stretchesIn(...this.view);
    const now = thing?.stretch >= 0 ? thing.stretch + way : thing?.mark >= 0 ? search(one.first.length, n => one.first[n] >= thing.mark) - (way < 0)
      : Math.min(s, one.first.length - 1);
    if (now >= 0 && now < one.first.length) this.choose({one, stretch: now});
  }
  across(way) {
    if (!this.chosen || this.chosen.move) return this.walk(1);
    const at = this.squeues.indexOf(this.chosen.one) + way, one = this.squeues[at], column = this.span(this.chosen)[0];
    if (one?.first.length) this.choose({one, stretch: Math.min(one.first.length - 1, search(one.first.length, s => one.column[one.last[s]] >= column))});
  }
  escape() {
    if (this.chosen) this.choose(null);
    else if (this.followed >= 0) this.follow(-1);
    else this.all();
  }
  followChosen() {
    const [c] = this.chosen?.move ? [this.chosen.move.conn] : this.chosen?.one.conns(this.chosen) ?? [];
    if (c >= 0) this.follow(c);
  }
  key(ev) {
    const size = this.view[1] - this.view[0], nearer = () => this.zoom(.5), farther = () => this.zoom(2);
    const does = {ArrowRight: () => this.walk(1), ArrowLeft: () => this.walk(-1), ArrowDown: () => this.across(1), ArrowUp: () => this.across(-1),
      "+": nearer, "=": nearer, w: nearer, "-": farther, s: farther, a: () => this.pan(-.25), d: () => this.pan(.25),
      Home: () => this.see([this.whole[0], this.whole[0] + size]), End: () => this.see([this.whole[1] - size, this.whole[1]]),
      n: () => this.stepHit(1), p: () => this.stepHit(-1), "/": () => this.input.focus(), Enter: () => this.followChosen(), Escape: () => this.escape()}[ev.key];
    if (!does || ev.ctrlKey || ev.metaKey || ev.altKey) return;
    does();
    ev.preventDefault();
  }
  wire() {
    const place = () => { const box = this.canvas.getBoundingClientRect(); return [box.left + LEFT, this.width - LEFT - 10]; };
    const act = {zoom: (factor, over) => this.zoom(factor, over), pan: share => this.pan(share)};
    const touched = gestures(this.canvas, place, act);
    const point = ev => { const box = this.canvas.getBoundingClientRect(); return [ev.clientX - box.left, ev.clientY - box.top + this.scroll.scrollTop]; };
    let from = null, dragged = false;
    this.canvas.addEventListener("pointerdown", ev => { from = point(ev); dragged = false; this.canvas.setPointerCapture(ev.pointerId); });
    this.canvas.addEventListener("pointermove", ev => {
      const [x, y] = point(ev);
      if (from && !touched.pinching() && (dragged || Math.abs(x - from[0]) > 4)) {
        this.pan((from[0] - x) / (this.width - LEFT - 10));
        [from, dragged] = [[x, y], true];
      } else if (!from) {
        this.pointed = this.at(x, y);
        this.read();
      }
    });
    this.canvas.addEventListener("pointerup", ev => {
      if (from && !dragged) this.choose(this.at(...point(ev)));
      from = null;
    });
    this.canvas.addEventListener("pointercancel", () => from = null);
    this.canvas.addEventListener("pointerleave", () => { this.pointed = null; this.read(); });
    this.canvas.addEventListener("dblclick", ev => this.zoom(.25, (point(ev)[0] - LEFT) / (this.width - LEFT - 10)));
    this.canvas.addEventListener("keydown", ev => this.key(ev));
    this.scroll.addEventListener("scroll", () => this.redraw());
    this.wireStrip(act);
    this.input.form.addEventListener("submit", ev => { ev.preventDefault(); this.search(); });
    const buttons = {out: () => this.zoom(2), in: () => this.zoom(.5), all: () => this.all(), before: () => this.stepHit(-1), after: () => this.stepHit(1)};
    for (const [name, does] of Object.entries(buttons)) this.box.querySelector(`[data-do=${name}]`).addEventListener("click", does);
    new ResizeObserver(() => this.resize()).observe(this.box);
    matchMedia("(prefers-color-scheme: dark)").addEventListener("change", () => { this.strips = null; this.redraw(); });
    this.read();
  }
  wireStrip(act) {
    const column = ev => {
      const box = this.strip.getBoundingClientRect();
      return this.whole[0] + (ev.clientX - box.left - LEFT) / (this.width - LEFT - 10) * (this.whole[1] - this.whole[0]);
    };
    let from = null, held = 0;
    this.strip.addEventListener("pointerdown", ev => {
      from = column(ev);
      held = from >= this.view[0] && from <= this.view[1] && this.view[1] - this.view[0] < this.whole[1] * .98 ? from - this.view[0] : -1;
      this.strip.setPointerCapture(ev.pointerId);
    });
    this.strip.addEventListener("pointermove", ev => {
      if (from === null) return;
      const now = column(ev), size = this.view[1] - this.view[0];
      if (held >= 0) this.see([now - held, now - held + size]);
      else if (Math.abs(now - from) >= Math.min(LEAST, this.whole[1])) this.see([Math.min(from, now), Math.max(from, now)]);
    });
    this.strip.addEventListener("pointerup", ev => {
      const now = column(ev), size = this.view[1] - this.view[0];
      if (held < 0 && Math.abs(now - from) < (this.whole[1] - this.whole[0]) / 200) this.see([now - size / 2, now + size / 2]);
      from = null;
    });
    gestures(this.strip, () => { const box = this.strip.getBoundingClientRect(); return [box.left + LEFT, this.width - LEFT - 10]; }, act);
  }
}
const timeline = document.querySelector(".timeline") && new Timeline(document.querySelector(".timeline"));
