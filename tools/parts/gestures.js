"use strict";
// What the figures share: how one moves in them, and round numbers on axes.
const nice = (lo, hi, most) => {
  const span = hi - lo || 1;
  let step = 10 ** Math.floor(Math.log10(span / most));
  step *= [1, 2, 5, 10].find(m => span / (step * m) <= most);
  const out = [];
  for (let k = Math.ceil(lo / step); k * step <= hi + step * 1e-9; k++) out.push(k * step || 0);
  return [out, step];
};
const colours = element => {
  const style = getComputedStyle(element);
  return new Proxy({}, {get: (_, name) => style.getPropertyValue("--" + name)});
};
// Wheel with Ctrl zooms, with Shift or sideways it pans; two fingers zoom and pan. `over` is where the pointer is, from 0 to 1.
// do.zoom(factor, over): a factor below 1 shows less. do.pan(share): of what is in view.
const gestures = (element, place, act) => {
  const over = x => { const [left, width] = place(); return Math.min(1, Math.max(0, (x - left) / width)); };
  element.addEventListener("wheel", ev => {
    const [, width] = place();
    if (ev.ctrlKey || ev.metaKey) act.zoom(Math.exp(Math.max(-80, Math.min(80, ev.deltaY)) / 160), over(ev.clientX));
    else if (ev.shiftKey || Math.abs(ev.deltaX) > Math.abs(ev.deltaY)) act.pan((ev.shiftKey && !ev.deltaX ? ev.deltaY : ev.deltaX) / width);
    else return;
    ev.preventDefault();
  }, {passive: false});
  const fingers = new Map();
  const two = () => { const [a, b] = [...fingers.values()]; return [Math.abs(a - b) || 1, (a + b) / 2]; };
  element.addEventListener("pointerdown", ev => { if (ev.pointerType === "touch") fingers.set(ev.pointerId, ev.clientX); });
  element.addEventListener("pointermove", ev => {
    if (!fingers.has(ev.pointerId)) return;
    const before = fingers.size === 2 && two();
    fingers.set(ev.pointerId, ev.clientX);
    if (!before) return;
    const [apart, middle] = two(), [, width] = place();
    act.zoom(before[0] / apart, over(middle));
    act.pan((before[1] - middle) / width);
  });
  for (const name of ["pointerup", "pointercancel"]) element.addEventListener(name, ev => fingers.delete(ev.pointerId));
  return {pinching: () => fingers.size > 1};
};
// A view [a, b] of the whole [first, last], no smaller than `least`.
const moved = {
  zoom: ([a, b], [first, last], factor, over, least) => {
    const size = Math.min(last - first, Math.max(least, (b - a) * factor)), at = a + over * (b - a);
    return moved.inside([at - over * size, at - over * size + size], [first, last]);
  },
  pan: ([a, b], whole, share) => moved.inside([a + share * (b - a), b + share * (b - a)], whole),
  inside: ([a, b], [first, last]) => {
    const size = Math.min(b - a, last - first), at = Math.min(Math.max(a, first), last - size);
    return [at, at + size];
  }
};
