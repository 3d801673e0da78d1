// What stands on the plan: what is said of it, and what a click on it does.
import { tell } from "./bar.js";
import { put } from "./devices.js";
import { aspect, isNamed, name, rowOf } from "./layout.js";
import { choose, chosen, goes, holding, mayFollow, showing, stopSignal } from "./routes.js";
import { ask, isDone } from "./server.js";
import { text } from "./texts.js";

const MADE = 50, TRIES = 40;                    // milliseconds, and how often: until a device that was made is there

function nameOf({ kind, key, text: words }) {
  if (kind === "button") return words;
  return kind === "signal" && !isNamed(key) ? `${text(kind)} ${key.split(" ")[2]}` : name(key);
}
// What a signal shows: "stop", "go", "more1" or "more2" for the other aspects that have names; "" if that is unknown.
export function shows({ key, go, stop, aspects }) {
  const { lies } = rowOf(key), others = [...aspects.keys()].filter(n => aspects[n] && n !== go && n !== stop);
  if (lies === stop) return "stop";
  if (others.includes(lies)) return "more" + Math.min(others.indexOf(lies) + 1, 2);
  return [go, ...goes(key)].includes(lies) ? "go" : "";
}
// How an element is, in words.
function stateOf(element) {
  const { kind, key, branch } = element, { lies, does } = rowOf(key);
  if (kind === "sensor") return text(does?.value ? "occupied" : "free");
  if (kind === "signal") return shows(element) && aspect(element, lies) || text(shows(element) || "unknown");
  return text(lies !== 0 && lies !== 1 ? "unknown" : lies === branch ? "branch" : "straight");
}

// What a screen reader says of an element; of a button also whether it is chosen, and may follow the one that is.
export function said(element) {
  const to = { right: `, ${text("toRight")}`, left: `, ${text("toLeft")}` }[element.to] ?? "";
  const label = `${element.name}, ${nameOf(element)}${to}`;
  if (element.kind === "button") return { label, marks: { chosen: chosen() === element, may: mayFollow(element) } };
  const words = [stateOf(element), ...holding(element.key) ? [text("locked")] : []];
  return { label: `${label}: ${words.join(", ")}` };
}

export function press(element) {
  const { kind, key, stop } = element, { lies } = rowOf(key), route = showing(key);
  if (kind === "button") choose(element);
  else if (kind === "turnout") move(element, lies === 0 ? 1 : 0);
  else if (kind === "signal" && route) stopSignal(route, nameOf(element)); // its program has it locked
  else if (kind === "signal") move(element, stop); // go is shown by routes alone
}

// Puts a turnout or a signal to a port. What the server does not have yet is made first.
async function move(element, port) {
  const { key } = element, quiet = [414];
  if (!rowOf(key).ports && !isDone(await ask(key, "/command", `INIT ${key} N`))) return;
  for (let tries = TRIES; tries && !rowOf(key).ports; tries--) await new Promise(then => setTimeout(then, MADE));
  const { code } = await put(key, rowOf(key).ports ?? {}, String(port), { quiet });
  if (code !== 414) return;
  const route = holding(key), words = { name: nameOf(element), route: route?.name };
  tell(text(route ? "lockedByRoute" : "lockedByOther", words), { of: key });
}
