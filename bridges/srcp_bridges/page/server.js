// What this page asks of web.py, and what it says of a refusal.
import { done, stood, tell } from "./bar.js";
import { devices, name, redraw } from "./layout.js";
import { sentence, text } from "./texts.js";

// What becomes of a request: `code` is 200, that of the server's error reply, the name of a Reason of replies.py, or
// one of these of this page's own. `reply` has the words.
export const isDone = ({ code }) => code === 200;
const DROPPED = { code: "DROPPED", reply: "dropped" };
const BUSY = { code: "BUSY", reply: "too many connections" };
const SILENT = { code: "SILENT", reply: "no answer" };

const LATE = 2000;                              // milliseconds until a STOP ALL without an answer is told as failed
export let session = null;                      // of this page alone, once it has taken something
let page = "none", line = Promise.resolve(), stops = 0;

// What this page still wanted before it was lost is not wanted any more: all that it drove stands.
export function joined(key) {
  [page, session] = [key, null];
  drop();
}

export async function post(path, body = "", headers = {}) {
  try {
    const priority = path === "/stop" ? "high" : "auto";
    const answer = await fetch(path, { method: "POST", headers: { "X-Page": page, ...headers }, body, priority });
    if (answer.ok) return await answer.json();
    if (answer.status === 503) return BUSY;
  } catch (fault) { /* told as no answer */ }
  return SILENT;
}

// Carries out a request for a device at once; returns what became of it, and says what is refused, but for `quiet`
// codes.
export async function order(key, path, body, { seen, quiet = [] } = {}) {
  const before = stops;
  const given = await post(path, body, seen === undefined ? {} : { "X-Stops": seen });
  if (given.session !== undefined && given.session !== session) {
    session = given.session;
    redraw();
  }
  const isQuiet = quiet.includes(given.code) || before !== stops;
  if (isDone(given)) done(key);
  else if (!isQuiet) tell(sentence(given, name(key)), { of: key });
  return given;
}

// The same, one after the other, so that a connection is free for STOP ALL; which drops those that wait.
export function ask(key, path, body, how) {
  const before = stops, given = line.then(() => before === stops ? order(key, path, body, how) : DROPPED);
  line = given;
  return given;
}

// Whatever this page still wanted is not wanted any more.
export function drop() {
  stops += 1;
  line = Promise.resolve();
  for (const device of devices.values()) device.wish?.drop();
}

export async function stopAll() {
  drop();
  const failed = why => tell(text("stopFailed", { why }), { seconds: 60 });
  for (let tries = 3; tries; tries--) {
    const late = setTimeout(() => failed(sentence(SILENT, text("layout"))), LATE);
    const { faults = [], ...given } = await post("/stop");
    clearTimeout(late);
    if (isDone(given)) return stood([]);
    const why = faults.map(fault => sentence(fault, name(fault.key))).join(" ");
    failed(why || sentence(given, text("layout")));
    await new Promise(then => setTimeout(then, 500));
  }
}
