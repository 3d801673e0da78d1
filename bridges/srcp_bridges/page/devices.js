// Turnouts and signals, sensors, and power.
import { $, aspect, button, isNamed, make, name, paint, paintWhy, place, signals } from "./layout.js";
import { lockClass } from "./locomotives.js";
import { ask, isDone, order, session } from "./server.js";
import { text } from "./texts.js";

export const PULSE = 250;                       // milliseconds of a turnout's coil

// ---- a turnout, or a signal: an accessory of more than two ports

export async function put(key, ports, port, words, time = Object.keys(ports).length > 2 ? -1 : PULSE) {
  const [bus, , address] = key.split(" ");
  for (const other of Object.keys(ports)) if (other !== port && ports[other].value) {
    const given = await ask(key, "/command", `SET ${bus} GA ${address} ${other} 0 -1`, words);
    if (!isDone(given)) return given;
  }
  return ask(key, "/command", `SET ${bus} GA ${address} ${port} 1 ${time}`, words);
}
function makeAccessory(key, device) {
  const { row } = device, ports = Object.keys(row.ports);
  const signal = signals.get(key), isSignal = ports.length > 2 || signal;
  const words = { className: "card", role: "group", ariaLabel: name(key) };
  const says = port => signal && aspect(signal, +port)
    || (isSignal ? port : text(port === "0" ? "straight" : "branch"));
  device.remove();
  const buttons = new Map(ports.map(port => [port, button(says(port), isSignal ? text("portOf", { port }) : "",
    () => put(key, row.ports, port))]));
  const why = make("p", { className: "why" });
  const named = make("div", { className: "name" }, name(key) + " ", make("small", { textContent: key }));
  const card = make("li", words, named, why, make("div", { className: "row" }, ...buttons.values()));
  device.view = { card, why, buttons };
  place($("GA"), card, key);
}
paint.GA = (key, device) => {
  const { row } = device, ports = Object.keys(row.ports ?? {});
  if (!row.is || !ports.length) return;
  if (device.view?.buttons.size !== ports.length) makeAccessory(key, device);
  for (const [port, each] of device.view.buttons) {
    each.ariaPressed = +port === row.lies;
    const { isOfRoute, stop } = signals.get(key) ?? {};  // go is shown by routes alone
    each.disabled = !!row.lock && row.lock.session !== session || isOfRoute && +port !== stop;
  }
  device.view.card.className = "card" + lockClass(row);
  paintWhy(key, device.view);
};

// ---- a sensor

function makeSensor(key) {
  const [bus, , address] = key.split(" "), number = bus === "1" ? address : bus + ":" + address;
  const card = isNamed(key) ? make("li", {}, name(key) + " ", make("small", { textContent: number }))
    : make("li", { textContent: number });
  card.role = "listitem";
  place($("FB"), card, key);
  return { card };
}
paint.FB = (key, sensor) => {
  const { value } = sensor.row.does, [bus] = key.split(" "), is = text(value ? "occupied" : "free");
  const { card } = sensor.view ??= makeSensor(key);
  card.title = card.ariaLabel = text("sensorIs", { name: name(key), bus, is });
  card.className = value ? "on" : "";
};

// ---- power, and what the track does

const WHY = {                                   // texts of POWER, and how this page says them
  "no station": "noStation", "station was reset": "stationReset", "station says off": "stationOff",
  "server was away": "serverWasAway", overload: "overload", "stop all": "cutByStop", "all stood": "cutByStop",
  "no driver": "noDriver",
};
const QUIET = ["stop all", "all stood", "confirms again"];  // of power that is on: the bar tells of them
const UNCONFIRMED = "does not confirm: ";
const THROWN = /^thrown by hand: (\d+) \d+$/;
function says(bus, why) {
  const [, address] = why.match(THROWN) ?? [];
  if (address) return text("thrownByHand", { turnout: name(`${bus} GA ${address}`) });
  if (!why.startsWith(UNCONFIRMED)) return why in WHY ? text(WHY[why]) : why;
  const addresses = why.slice(UNCONFIRMED.length).split(" ");
  return text("noConfirm", { names: addresses.map(address => name(`${bus} GL ${address}`)).join(", ") });
}

function makePower(key, row) {
  const [bus] = key.split(" "), entry = make("li");
  const card = button("", "", () => order(key, "/command", `SET ${bus} POWER ${row.does.on ? "OFF" : "ON"}`));
  place($("POWER"), card, key);
  place($("track"), entry, key);
  return { card, entry };
}
paint.POWER = (key, power) => {
  const [bus] = key.split(" "), { on, text: why } = power.row.does;
  const { card, entry } = power.view ??= makePower(key, power.row);
  card.textContent = text(on ? "powerOn" : "powerOff", { name: name(key) });
  card.ariaPressed = on;
  entry.textContent = text(on ? "trackSays" : "trackIsOff", { name: name(key), why: says(bus, why) });
  entry.hidden = !why || on && QUIET.includes(why);
};
