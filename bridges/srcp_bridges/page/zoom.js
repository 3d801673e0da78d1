// How large the plan is drawn, and which part of it is in sight: by buttons, by two fingers, and as the page begins.
import { $ } from "./layout.js";

const STEP = 1.25, MOST = 2;                    // what a press on a button makes of the size, and how large it may be
const FINGER = 44, MOUSE = 24;                  // pixels that a finger hits for sure, and a mouse
const BEGINS = 1000;                            // milliseconds in which rows of before still come
const QUIET = 500;                              // milliseconds after a move of the plan in which a click is of before
let size = [1, 1], scale = 1, isWhole = false, pinch = null;
let begins = 0, begun = null;                   // until when it begins, and what it has begun with
let quiet = 0;                                  // until when a click does nothing

function draw(to) {
  scale = Math.min(Math.max(to, Math.min(fit(), 1) / STEP), MOST);
  ["width", "height"].forEach((key, n) => $("drawing").setAttribute(key, size[n] * scale));
}
function room() {                               // how wide the sheet is, and how high what is below the head
  const sheet = $("sheet"), beside = 2 * parseFloat(getComputedStyle(sheet).paddingLeft);
  const above = document.querySelector("header").offsetHeight + $("zoom").offsetHeight;
  return [sheet.clientWidth - beside, innerHeight - above - 2 * beside];
}
function fit() {
  const [width, height] = room();
  return Math.max(Math.min(1, width / size[0], height / size[1]), 0.05);
}
function whole() {
  isWhole = true;
  draw(fit());
}

// Draws it larger or smaller; what is at that point of the window stays there.
function zoom(to, x, y) {
  const drawing = $("drawing"), before = drawing.getBoundingClientRect(), was = scale;
  isWhole = false;
  draw(to);
  const after = drawing.getBoundingClientRect(), grown = scale / was;
  $("sheet").scrollLeft += after.left + (x - before.left) * grown - x;
  scrollBy(0, after.top + (y - before.top) * grown - y);
}
function zoomMiddle(to) {
  const { left, width, top, height } = $("sheet").getBoundingClientRect();
  zoom(to, left + width / 2, top + height / 2);
}

// A new plan is drawn, of so many pixels in full size.
export function sized(width, height) {
  [size, begun, begins] = [[width, height], null, performance.now() + BEGINS];
}

// As the page begins, a plan that is too wide is in sight as a whole; if a route is set, the part of it where that
// begins, in full size. `route` has the points of its two buttons, or is null. Rows come within a moment; later the
// plan stays.
export function begin(route) {
  const key = JSON.stringify(route), sheet = $("sheet"), [width] = room();
  if (performance.now() > begins || begun === key) return;
  if (begun) quiet = performance.now() + QUIET;
  begun = key;
  if (size[0] > width && !route) return whole();
  isWhole = false;
  draw(1);
  if (size[0] <= width) return;
  const [[from, down], [to]] = route, isLong = Math.abs(to - from) + FINGER > width;
  sheet.scrollLeft = (isLong ? from + (width - FINGER) / 2 * Math.sign(to - from) : (from + to) / 2) - width / 2;
  const below = sheet.getBoundingClientRect().top + down + FINGER - innerHeight;
  if (below > 0) scrollBy(0, below);
}
const touched = () => { begins = 0; };

// Says whether a click acts. If the plan is drawn too small to be hit for sure, the click only brings that place to its
// full size. One that follows at once, as the second of two taps, does nothing.
export function acts({ detail, pointerType, clientX, clientY }) {
  if (!detail) return true;                     // of a screen reader: it hits what it names
  const isQuiet = performance.now() < quiet, least = pointerType === "mouse" ? MOUSE : FINGER;
  if (isQuiet || FINGER * scale >= least) return !isQuiet;
  zoom(1, clientX, clientY);
  quiet = performance.now() + QUIET;
  return false;
}

// ---- two fingers

const apart = ([one, two]) => Math.hypot(one.clientX - two.clientX, one.clientY - two.clientY);
$("sheet").addEventListener("touchstart", ({ touches }) => {
  pinch = touches.length === 2 ? { apart: apart(touches), scale } : null;
});
$("sheet").addEventListener("touchmove", e => {
  if (!pinch || e.touches.length !== 2) return;
  e.preventDefault();                           // or it is scrolled too
  const [one, two] = e.touches;
  zoom(pinch.scale * apart(e.touches) / pinch.apart, (one.clientX + two.clientX) / 2, (one.clientY + two.clientY) / 2);
}, { passive: false });
for (const kind of ["touchend", "touchcancel"]) $("sheet").addEventListener(kind, () => {
  if (pinch) quiet = performance.now() + QUIET;
  pinch = null;
});

// ---- buttons, and a window that changes

$("smaller").onclick = () => zoomMiddle(scale / STEP);
$("larger").onclick = () => zoomMiddle(scale * STEP);
$("whole").onclick = whole;
for (const kind of ["pointerdown", "wheel", "keydown"]) for (const id of ["sheet", "zoom"]) {
  $(id).addEventListener(kind, touched, { passive: true });
}
new ResizeObserver(() => { if (isWhole) whole(); }).observe($("sheet"));
addEventListener("resize", () => { if (isWhole) whole(); });
