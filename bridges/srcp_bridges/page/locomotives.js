// Throttles, and the list of all locomotives.
import { $, button, devices, labelOf, make, name, paint, paintWhy, place, redraw, rowOf } from "./layout.js";
import { ask, isDone, order, session } from "./server.js";
import { Slider } from "./slider.js";
import { text } from "./texts.js";

const MANY = 6;                                 // with more locomotives than that, throttles are opened by hand
const PAUSE = 1000;                             // milliseconds for which a locomotive that was stopped takes no speed
const NUDGES = 25;                              // presses of "+" from standing to the top
let opened = {};
try { opened = JSON.parse(localStorage.opened ?? "{}"); } catch (fault) { /* not kept, then */ }

const steps = row => row.is.steps;
function speed(row) {
  const { v, v_max } = row.does;
  return v_max ? Math.round(v * steps(row) / v_max) : Math.min(v, steps(row));
}
const isOthers = row => !!row.lock && row.lock.session !== session;
export const lockClass = row => !row.lock ? "" : isOthers(row) ? " locked" : " mine";

export const isOpen = key => opened[key] ?? [...devices.keys()].filter(other => other.includes(" GL ")).length <= MANY;
export function open(key, whether) {
  opened[key] = whether;
  try { localStorage.opened = JSON.stringify(opened); } catch (fault) { /* not kept, then */ }
  redraw([key]);
}

// ---- what is asked of a locomotive

// What this page wants of a locomotive, and has not sent or seen done yet.
class Wish {
  want = null;                                  // what is still to be sent: mode, V, and the stops that were seen
  aim = 0;                                      // the V that was wanted last
  way = undefined;                              // the direction that was wanted last, or is told
  isBusy = false;                               // whether a command is on its way
  comes = () => {};                             // is told each row meanwhile
  pressed = new Map();                          // the functions whose buttons were pressed, and what they are to be
  rests = null;                                 // the timer of a locomotive that was stopped

  constructor(drop) { this.drop = drop; }       // drop: what was wanted is not wanted any more
}
const wishOf = (key, device) => device.wish ??= new Wish(() => halt(key, device));

// Sends the last speed and direction that were wanted, one command at a time, with the stops that were seen.
async function drive(key, change) {
  const device = devices.get(key), { row, wish } = device, [bus, , address] = key.split(" ");
  wish.want = { mode: wish.way, v: wish.isBusy ? wish.aim : speed(row), ...change, seen: row.stops };
  wish.way = wish.want.mode;
  wish.aim = wish.want.v;
  if (wish.isBusy) return;
  wish.isBusy = true;
  while (wish.want && devices.get(key) === device) {
    const { mode, v, seen } = wish.want, v_max = steps(row);
    let isTold = false;                         // then what the row says may be of another, who was later
    wish.comes = told => isTold ||= told.mode === mode && told.v === v && told.v_max === v_max;
    wish.want = null;
    const given = await ask(key, "/command", `SET ${bus} GL ${address} ${mode} ${v} ${v_max}`, { seen });
    if (isTold || !isDone(given) || seen !== row.stops) continue;
    row.does = { ...row.does, mode, v, v_max, way: mode };
  }
  wish.isBusy = false;
  redraw([key]);
}
function nudge(key, by) {
  const { row, wish } = devices.get(key), v = wish.isBusy ? wish.aim : speed(row);
  drive(key, { v: Math.max(0, Math.min(steps(row), v + by * Math.max(1, Math.round(steps(row) / NUDGES)))) });
}
function stop(key) {
  const [bus, , address] = key.split(" ");
  halt(key, devices.get(key));
  order(key, "/stop", `${bus} ${address}`);
}
async function press(key, n) {
  const { row, wish: { pressed } } = devices.get(key), [bus, , address] = key.split(" ");
  pressed.set(n, 1 - (pressed.get(n) ?? row.does.functions[n]));
  await ask(key, "/function", `${bus} ${address} ${n} ${pressed.get(n)}`);
  pressed.delete(n);
}
function lock(key) {
  const [bus, , address] = key.split(" ");
  ask(key, "/command", rowOf(key).lock ? `TERM ${bus} LOCK GL ${address}` : `SET ${bus} LOCK GL ${address} 0`);
}
function remove(key) {
  const [bus, , address] = key.split(" ");
  ask(key, "/command", `TERM ${bus} GL ${address}`);
}

// It was stopped: what was wanted of it is not wanted any more, and whoever moves its slider has to take it anew.
export function halt(key, device) {
  const { view } = device, wish = wishOf(key, device);
  wish.want = null;
  wish.pressed.clear();
  view?.slider.release();
  for (const each of view?.speeds ?? []) each.disabled = true;
  clearTimeout(wish.rests);
  wish.rests = setTimeout(() => { wish.rests = null; redraw([key]); }, PAUSE);
}

// ---- its card

function makeFunction(key, n) {
  const label = labelOf(key, n), about = text("functionOf", { n });
  return button(label || "F" + n, label ? `${label}, ${about}` : about, () => press(key, n));
}
function makeCard(key, row) {
  const named = name(key), most = steps(row);
  const input = make("input", { type: "range", min: 0, max: most, ariaLabel: text("speedOf", { name: named }) });
  const slider = new Slider(input, v => drive(key, { v }), () => speed(row));
  const shown = make("span", { className: "speed" }), about = make("small"), why = make("p", { className: "why" });
  const back = button("◀", text("backward"), () => drive(key, { mode: 0, v: 0 }));
  const forth = button("▶", text("forward"), () => drive(key, { mode: 1, v: 0 }));
  const stand = button("0", text("stand"), () => drive(key, { v: 0 }));
  const halts = button(text("stop"), text("stopOf", { name: named }), () => stop(key));
  halts.className = "stop";
  const slower = button("−", text("slower"), () => nudge(key, -1));
  const faster = button("+", text("faster"), () => nudge(key, 1));
  const take = button("", "", () => lock(key));
  const removes = button(text("remove"), text("removeHint"), () => remove(key));
  const functions = row.does.functions.map((_, n) => makeFunction(key, n));
  const card = make("li", { className: "card" },
    make("div", { className: "row" }, make("h3", { className: "name" }, named + " ", about), shown), why,
    make("div", { className: "row throttle" }, slower, slider.rail, faster),
    make("div", { className: "row drive" }, back, stand, forth, halts),
    make("div", { className: "row functions" }, ...functions),
    make("details", {}, make("summary", { textContent: text("more") }),
      make("div", { className: "row" }, take, removes,
        make("small", { textContent: text("steps", { protocol: row.is.protocol, steps: most }) }))));
  place($("GL"), card, key);
  const chip = button("", "", () => open(key, !isOpen(key))), entry = make("li", {}, chip);
  place($("roster"), entry, key);
  const speeds = [input, slower, faster], commands = [back, forth, stand, halts, removes, take, ...functions];
  return { card, entry, chip, why, slider, shown, about, back, forth, take, functions, speeds, commands };
}
function paintSpeed(key, { row, view, wish }) {
  const v = speed(row), isStopped = row.does.mode === 2;
  if (!wish.isBusy) wish.way = row.does.way;
  const way = text(wish.way ? "forward" : "backward");
  const now = isStopped ? text("stop") : (v ? (wish.way ? "▶ " : "◀ ") : "") + v;
  const { input } = view.slider;
  if (!view.slider.held && !wish.isBusy) input.value = v;
  input.ariaValueText = isStopped ? text("emergencyStop") : text("speedNow", { v, steps: steps(row), way });
  view.shown.textContent = now;
  view.back.ariaPressed = wish.way === 0;
  view.forth.ariaPressed = wish.way === 1;
  view.chip.replaceChildren(make("span", { textContent: name(key) }),
    make("span", { textContent: isStopped || v ? " " + now : "" }));
  view.chip.ariaPressed = isOpen(key);
}
function paintLock(key, { row, view, wish }) {
  const others = isOthers(row), { session } = row.lock ?? {};
  view.about.textContent = key + (!row.lock ? "" : ", " + text(others ? "isTaken" : "isMine"));
  view.take.textContent = !row.lock ? text("take") : others ? text("takenBySession", { session }) : text("giveBack");
  for (const each of view.commands) each.disabled = others;
  for (const each of view.speeds) each.disabled = others || !!wish.rests;
  view.card.className = "card" + lockClass(row);
}
paint.GL = (key, device) => {
  const { row } = device;
  if (!row.is || !row.does) return;
  wishOf(key, device).way ??= row.does.way;
  device.view ??= makeCard(key, row);
  paintSpeed(key, device);
  paintLock(key, device);
  paintWhy(key, device.view);
  device.view.functions.forEach((each, n) => each.ariaPressed = row.does.functions[n] === 1);
};
