// The track plan: drawn once, and then changed as the layout changes.
import { $, aspect, isNamed, name, rowOf, signals, whenDrawn } from "./layout.js";
import { press, said, shows } from "./elements.js";
import { holding, isAsked, isLost, isSet, listRoutes } from "./routes.js";
import { acts, begin, sized } from "./zoom.js";

const ACROSS = 24, DOWN = 44, FINGER = 44;      // pixels of a letter of the drawing, and of what a finger hits
const EDGE = 12, TOP = 6, GAP = 16;             // beside it, above it, and of a leg to which a turnout does not lead
const HIGH = 18;                                // pixels of a platform
let plan = null, shown = "", tracks = [], groups = new Map();

const point = ([x, y]) => [x * ACROSS, y * DOWN];
function make(tag, words, ...inner) {
  const element = document.createElementNS($("drawing").namespaceURI, tag);
  for (const [key, value] of Object.entries(words)) element.setAttribute(key, value);
  element.append(...inner);
  return element;
}
const line = points => "M" + points.map(each => point(each).join(" ")).join("L");

// ---- what stands on the tracks

const BARS = { stop: "M-5 0H5", go: "M0 -5V5", more1: "M-4 4L4 -4", more2: "M-4 -4L4 4" };  // not by colour alone
const ARROW = "M10 -7L21 0L10 7Z", BACK = "M-10 -7L-21 0L-10 7Z";  // where a train drives that obeys a signal
const SYMBOLS = {
  turnout: ({ at, ends }) => [...ends.map((end, port) => make("path", { class: "leg leg" + port, d: leg(at, end) })),
    make("circle", { class: "mark", r: 6 })],
  signal: ({ to }) => [...to ? [make("path", { class: "way " + to, d: to === "right" ? ARROW : BACK })] : [],
    make("circle", { class: "mark", r: 8 }),
    ...Object.entries(BARS).map(([is, d]) => make("path", { class: "bar " + is, d })),
    make("text", { class: "aspect", y: 20 })],
  sensor: () => [make("rect", { class: "mark", x: -8, y: -5, width: 16, height: 10, rx: 3 })],
  button: ({ name }) => [make("circle", { class: "mark", r: 11 }), make("text", { class: "letter", y: 4 }, name)],
};
function leg(at, end) {                         // from the points of a turnout some way to where the leg leads
  const [[x, y], [toX, toY]] = [point(at), point(end)], part = GAP / Math.hypot(toX - x, toY - y);
  return `M0 0L${(toX - x) * part} ${(toY - y) * part}`;
}
function above({ at: [x], kind }, says) {       // its name, or what its button says, above it
  const isLeft = x < 2, isRight = x > plan.width - 2, anchor = isLeft ? "start" : isRight ? "end" : "middle";
  const words = { class: "name", y: kind === "button" ? -15 : -13, x: isLeft ? -11 : isRight ? 11 : 0 };
  return make("text", { ...words, "text-anchor": kind === "button" ? anchor : "middle" }, says);
}
function makeBeside({ kind, at, wide, text }) { // a text, or a platform
  const [x, y] = point(at), says = make("text", { class: "note", y: 4 }, text);
  const area = { class: "area", x: -wide * ACROSS / 2, y: -HIGH / 2, width: wide * ACROSS, height: HIGH, rx: 3 };
  return make("g", { class: kind, transform: `translate(${x} ${y})` },
    ...kind === "platform" ? [make("rect", area)] : [], says);
}

// What is written above each element: its name of [names] if there is room for it beside its neighbours, else the one
// that it has in the drawing.
function captions() {
  const pen = document.createElement("canvas").getContext("2d"), rows = new Map();
  pen.font = "12px " + getComputedStyle($("drawing")).fontFamily;
  const span = ({ at: [x] }, says) => [-1, 1].map(side => x * ACROSS + side * (pen.measureText(says).width / 2 + 3));
  const taken = plan.elements.map(each => ({ each, says: each.text ?? each.name }));
  for (const one of taken) (rows.get(one.each.at[1]) ?? rows.set(one.each.at[1], []).get(one.each.at[1])).push(one);
  for (const one of taken) one.span = span(one.each, one.says);
  for (const one of taken) {
    if (!isNamed(one.each.key)) continue;
    const says = name(one.each.key), [left, right] = span(one.each, says);
    const isFree = left > -EDGE && right < plan.width * ACROSS + EDGE && rows.get(one.each.at[1])
      .every(other => other === one || right < other.span[0] || left > other.span[1]);
    if (isFree) Object.assign(one, { says, span: [left, right] });
  }
  return new Map(taken.map(({ each, says }) => [each, says]));
}
function makeElement(element, says) {
  const [x, y] = point(element.at), half = FINGER / 2;
  const words = { class: element.kind, transform: `translate(${x} ${y})`, tabindex: 0, "data-name": element.name };
  const hit = make("rect", { class: "hit", x: -half, y: -half, width: FINGER, height: FINGER, rx: 8 });
  const group = make("g", { ...words, role: element.kind === "sensor" ? "img" : "button" },
    hit, ...SYMBOLS[element.kind](element), above(element, says), make("title", {}));
  group.onclick = e => { if (acts(e)) press(element); };
  group.onkeydown = e => {
    if (e.key !== "Enter" && e.key !== " ") return;
    e.preventDefault();                         // or the page scrolls
    press(element);
  };
  groups.set(element, group);
  return group;
}

// Draws the plan that web.py has; `given` is null if it has none.
export function drawPlan(given) {
  const named = given?.elements.map(({ key }) => isNamed(key) ? name(key) : ""), key = JSON.stringify([given, named]);
  if (key === shown) return;
  [plan, shown] = [given, key];
  for (const each of document.querySelectorAll(".plan")) each.hidden = !plan;
  groups.clear();
  signals.clear();
  for (const each of plan?.elements ?? []) if (each.kind === "signal") {
    signals.set(each.key, { ...each, isOfRoute: plan.routes.some(({ signal }) => signal?.key === each.key) });
  }
  listRoutes(plan ?? { routes: [], elements: [] });
  if (!plan) return $("drawing").replaceChildren();
  const [width, height] = [plan.width * ACROSS + 2 * EDGE, plan.height * DOWN + TOP];
  $("drawing").setAttribute("viewBox", `${-EDGE} ${-TOP} ${width} ${height}`);
  sized(width, height);
  tracks = plan.tracks.map(each => make("path", { d: line(each) }));
  const says = captions();
  $("drawing").replaceChildren(...plan.beside.map(makeBeside), ...tracks,
    ...plan.elements.map(each => makeElement(each, says.get(each))));
}

// ---- how it is

function paintTracks() {
  const busy = new Set(plan.elements.filter(({ kind, key }) => kind === "sensor" && rowOf(key).does?.value)
    .flatMap(each => each.tracks));
  const of = test => new Set(plan.routes.filter(test).flatMap(each => each.tracks));
  const set = of(isSet), asked = of(isAsked), lost = of(isLost);
  tracks.forEach((track, n) => track.setAttribute("class", "track "
    + (busy.has(n) ? "busy" : lost.has(n) ? "lost" : set.has(n) ? "set" : asked.has(n) ? "asked" : "")));
}
function paintElement(group, element) {
  const { key, kind } = element, { lies, does, lock } = rowOf(key), words = said(element);
  const is = { turnout: "lies" + lies, signal: kind === "signal" && shows(element), sensor: "", button: "" };
  if (kind === "signal" && element.aspects.length) {
    group.querySelector(".aspect").textContent = is.signal && aspect(element, lies);
  }
  const more = { locked: kind === "turnout" && (lock || holding(key)), busy: does?.value, ...words.marks };
  group.setAttribute("class", [kind, is[kind], ...Object.keys(more).filter(each => more[each])].join(" "));
  if (kind === "button") group.ariaPressed = words.marks.chosen;
  group.ariaLabel = group.lastChild.textContent = words.label;
}
function ends() {                               // of the first route that is set: the points of its buttons, or null
  const route = plan.routes.find(isSet), at = name => point(plan.elements.find(each => each.name === name).at);
  return route ? [route.from, route.to].map(at).map(([x, y]) => [x + EDGE, y + TOP]) : null;
}
whenDrawn(() => {
  if (!plan) return;
  begin(ends());
  paintTracks();
  groups.forEach(paintElement);
});
