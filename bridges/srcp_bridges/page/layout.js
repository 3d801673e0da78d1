// What the page knows of the layout, the elements that show it, and when they are drawn.
import { text } from "./texts.js";

export const $ = id => document.getElementById(id);

// What the page knows of a device.
//   row: what web.py tells: the rows `is`, `does` and `lock`, `ports` by their numbers, how an accessory `lies`, and how
//     often a locomotive was stopped, as `stops`.
//   view: the elements that show it: its `card`, the `entry` of a list, and those of its group; null until it is drawn.
//   wish: what this page wants of a locomotive, and has not sent or seen done yet, as locomotives.js has it.
export class Device {
  row = {};
  view = null;
  wish = null;

  remove() {
    this.view?.card.remove();
    this.view?.entry?.remove();
    this.view = null;
  }
}
export const devices = new Map();               // "1 GL 3" -> its Device
export const rowOf = key => devices.get(key)?.row ?? {};
export const paint = {};                        // the function that draws a device, by its group
const waiting = new Set();
let names = {}, labels = {}, drawn = [];
let routes = { bus: null, names: new Map() };   // the bus on which routes are asked for and told, and their names

export function make(tag, words = {}, ...inner) {
  const element = Object.assign(document.createElement(tag), words);
  element.append(...inner);
  return element;
}
export function button(text, label, onclick) {
  const element = make("button", { type: "button", textContent: text, onclick });
  if (label) element.ariaLabel = element.title = label;
  return element;
}

// Why devices are not driven, by their keys, as the drivers of web.py's machine tell.
let leftOut = {};
export function leaveOut(reasons) { leftOut = reasons; redraw(); }
export function paintWhy(key, view) {
  const { why, protocol, slots } = leftOut[key] ?? {};
  view.why.textContent = !why ? "" : protocol ? text("noDecoder", { protocol })
    : slots ? text("noSlot", { slots }) : text("notDriven", { why });
}

// The accessories and sensors of the routes' bus are requests and reports: they have no cards, and the names of routes.
export function askedOn(bus, given) {
  const named = given.map(({ number, name }) => [`${bus} GA ${number}`, name]);
  routes = { bus: given.length ? bus : null, names: new Map(named) };
}
function isOfRoutes(key) {
  const [bus, group] = key.split(" ");
  return +bus === routes.bus && (group === "GA" || group === "FB");
}

export function called(given, functions) { [names, labels] = [given, functions]; }
export const labelOf = (key, n) => labels[key]?.[n];  // of a function of a locomotive
// The signals of the plan, by their keys: what an accessory of two ports shows is told by that alone.
export const signals = new Map();
export function aspect({ go, stop, aspects }, port) {
  return aspects[port] || (port === stop ? text("halt") : port === go ? text("go") : "");
}

export const isNamed = key => key in names;
export function name(key) {
  const [, group, address] = key.split(" ");
  const ports = Object.keys(rowOf(key).ports ?? {}).length;
  const kind = { GL: "locomotive", GA: ports > 2 || signals.has(key) ? "signal" : "turnout", FB: "sensor" }[group];
  const called = routes.names.get(key) ?? names[key];
  return called ?? (kind ? `${text(kind)} ${address}` : `${text("power")} ${key.split(" ")[0]}`);
}

// Puts a card where its address has it.
export function place(container, card, key) {
  const [bus, , address] = key.split(" ").map(Number);
  card.dataset.key = key;
  card.rank = bus * 100000 + (address || 0);
  let next = container.lastElementChild;
  while (next && next.rank > card.rank) next = next.previousElementSibling;
  next ? next.after(card) : container.prepend(card);
}

export function forget(key) {
  devices.get(key)?.remove();
  devices.delete(key);
  redraw([...devices.keys()].filter(other => other.includes(" GL ")));
}

// Draws these once a frame, however many lines came.
export function redraw(keys = [...devices.keys()]) {
  if (!waiting.size) requestAnimationFrame(draw);
  waiting.add("");
  keys.forEach(key => waiting.add(key));
}
export const whenDrawn = then => drawn.push(then);
function draw() {
  const keys = [...waiting].filter(key => devices.has(key));
  waiting.clear();
  for (const key of keys) if (!isOfRoutes(key)) paint[key.split(" ")[1]](key, devices.get(key));
  for (const then of drawn) then(keys);
}

// Makes all cards anew: in another language, say.
export function remake() {
  for (const device of devices.values()) device.remove();
  redraw();
}
