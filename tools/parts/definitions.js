// In the frame beside a page: Escape closes it, and the definition that was asked for has the keyboard.
"use strict";
function focus() {
  const at = document.getElementById(decodeURIComponent(location.hash.slice(1)));
  if (at && at.tabIndex !== undefined) at.focus({ preventScroll: true });
}
addEventListener("hashchange", focus);
addEventListener("load", focus);
document.addEventListener("keydown", event => {
  if (event.key === "Escape" && parent !== window) parent.postMessage("close", "*");
});
