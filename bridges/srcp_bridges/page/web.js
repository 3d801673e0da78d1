// The page: what web.py tells it, and its head and forms.
import { stood, stopSent, tell } from "./bar.js";
import { $, Device, called, devices, forget, leaveOut, name, redraw, remake, whenDrawn } from "./layout.js";
import { halt, isOpen, open } from "./locomotives.js";
import "./devices.js";
import { drawPlan } from "./plan.js";
import { unchoose } from "./routes.js";
import { ask, drop, isDone, joined, post, stopAll } from "./server.js";
import { otherLanguage, text, translate } from "./texts.js";

// ---- what web.py tells

const GROUPS = ["GL", "GA", "FB", "POWER"];
function apply({ key: [bus, group, address, part], row, ...beside }) { // row is null if it is gone
  if (!GROUPS.includes(group)) return;
  const key = (group === "POWER" ? [bus, group] : [bus, group, address]).join(" ");
  if (!row && part !== "lock") return forget(key);
  const device = devices.get(key) ?? new Device(), known = device.row;
  devices.set(key, device);
  if (typeof part === "number") (known.ports ??= {})[part] = row;
  else known[part] = part === "does" ? { ...row, way: beside.way } : row;
  if (row && part === "does") device.wish?.comes(row);
  if ("lies" in beside) known.lies = beside.lies;
  if ("stops" in beside) counted(key, device, beside.stops);
  redraw([key]);
}
function counted(key, device, stops) {
  if (stops > device.row.stops) halt(key, device);
  device.row.stops = stops;
}

// A web.py of other files than this page's has no such path: then this page loads itself anew, as that web.py has it.
const events = new EventSource("/events?" + document.documentElement.dataset.version);
document.body.classList.remove("plain");        // a browser without EventSource keeps the page as it came
const on = (name, take) => events.addEventListener(name, e => take(JSON.parse(e.data)));
let state = "joining", isHere = false;
let here = false;                               // whether web.py has the server
let silence = 10;                               // seconds without a beat until web.py counts as away
let deaf = null;                                // the timer of them
function shown(key, here) {
  [state, isHere] = [key, here];
  $("state").textContent = text(state);
  document.body.classList.toggle("away", !isHere);
}
function hears() {                              // what this page shows may be of before, once no beat comes
  clearTimeout(deaf);
  deaf = setTimeout(() => shown("programAway", false), silence * 1000);
}
on("page", ({ key, names, functions, plan, ...beside }) => {  // this page has joined, or joined again: all rows come
  silence = beside.silence;
  hears();
  joined(key);
  called(names, functions);
  drawPlan(plan);
  for (const key of [...devices.keys()]) forget(key);
});
const showHere = () => shown(here ? "layout" : "serverAway", here);
on("here", is => { here = is; showHere(); });
on("leftOut", leaveOut);
on("row", apply);
on("beat", () => {
  post("/alive");
  hears();
  if (state === "programAway") showHere();
});
on("stop", counts => {                          // a STOP ALL, whoever pressed it
  drop();
  for (const [key, stops] of Object.entries(counts)) if (devices.has(key)) counted(key, devices.get(key), stops);
  stopSent();
});
on("stood", stood);                             // the buses whose drivers do not confirm it
on("elsewhere", () => { events.close(); clearTimeout(deaf); shown("tooManyTabs", false); });
async function again() {                        // once web.py answers, and has a place for this page
  const answer = await fetch("/").catch(() => null);
  if (answer && answer.status !== 503) location.reload();
  else events.onerror();
}
events.onerror = () => {
  shown("programAway", false);
  if (events.readyState === EventSource.CLOSED) setTimeout(again, 1000);
};

// ---- the head: STOP ALL, find, how many there are

$("halt").onsubmit = e => { e.preventDefault(); stopAll(); };
document.addEventListener("keydown", e => {
  if (e.key !== "Escape") return;
  if (unchoose()) return;                       // the next one stops all
  if (!e.target.matches("input:not([type=range])")) return stopAll();
  if (e.target === $("find")) $("find").value = "";
  e.target.blur();                              // the next one stops all
  redraw();
});
$("find").oninput = () => redraw();
function find(keys) {
  const wanted = $("find").value.trim().toLowerCase();
  for (const key of keys) {
    const view = devices.get(key)?.view, group = key.split(" ")[1];
    if (!view || group === "POWER") continue;
    const hidden = !(key + " " + name(key)).toLowerCase().includes(wanted);
    view.card.hidden = hidden || group === "GL" && !isOpen(key);
    if (view.chip) view.chip.hidden = hidden;
  }
}
function count() {
  for (const group of ["GL", "GA", "FB"]) {
    const all = [...devices].filter(([key, device]) => key.split(" ")[1] === group && device.view);
    const on = all.filter(([, { row: { does } }]) => group === "GL" ? does.v : group === "FB" && does.value).length;
    $("count" + group).textContent = text("count" + group, { all: all.length, on });
  }
}
whenDrawn(find);
whenDrawn(count);

// ---- what is added: asked for first, since INIT of what is there may stop a train

async function add(group, { bus, address, steps, functions }) {
  const key = `${bus} ${group} ${address}`, quiet = [412, 416, 422];
  const given = await ask(key, "/command", `GET ${key}${group === "GA" ? " 0" : ""}`, { quiet });
  if (isDone(given)) tell(text("isThere", { name: name(key) }), { failed: false });
  else if (given.code === 412 || given.code === 422) return tell(await whyNot(key));
  else if (given.code !== 416) return;
  else {
    const words = group === "GL" ? `N ${address < 128 ? 1 : 2} ${steps} ${functions}` : "N";
    if (!isDone(await ask(key, "/command", `INIT ${key} ${words}`))) return;
  }
  if (group === "GL") open(key, true);
  $("add" + group).elements.address.value = "";
}
async function whyNot(key) {                    // an address that the server does not take, or a bus
  const [bus, group, address] = key.split(" "), most = group === "GL" ? "gl_max" : "ga_max";
  const { code } = await post("/command", `GET ${bus} ${group} 1${group === "GA" ? " 0" : ""}`);
  if (code === 412) return text("noBus", { bus });
  if (code === 422) return text("noGroup", { bus });
  return text("tooHigh", { address, bus, most });
}
for (const group of ["GL", "GA"]) $("add" + group).onsubmit = e => {
  e.preventDefault();
  add(group, Object.fromEntries(new FormData(e.target)));
};

// ---- its language

function speak() {
  translate();
  shown(state, isHere);
  remake();
}
$("language").onclick = () => { otherLanguage(); speak(); };
speak();
