// The bar at the foot of the page: what failed, in red, and what else there is to say.
import { $, devices, name, rowOf, whenDrawn } from "./layout.js";
import { text } from "./texts.js";

const MOST = 5;                                 // names that the bar has room for
let timer = null, about = null, stop = null;    // stop: null, "sent", or "done", of the STOP ALL that the bar tells of
let unsure = null;                              // the buses whose drivers do not confirm that, once web.py has said so

export function tell(words, { failed = true, of = null, seconds = 6 } = {}) {
  $("told").textContent = words;
  $("told").className = failed ? "failed" : "";
  [about, stop] = [of, null];
  clearTimeout(timer);
  timer = setTimeout(clear, seconds * 1000);
}
function clear() {
  $("told").textContent = "";
  about = stop = null;
}

// What failed with a thing has been done since.
export function done(key) { if (about === key) clear(); }

// After a STOP ALL the bar says what the registry, the track and the drivers say.
export function stopSent() {
  [stop, unsure] = ["sent", null];
  tellStop();
}
export function stood(buses) {
  if (buses.length || unsure?.length) stop ??= "sent";
  unsure = buses;
  tellStop();
}
const isOff = key => rowOf(key.split(" ")[0] + " POWER").does?.on === false;
function tellStop() {
  if (!stop) return;
  const drive = [...devices].filter(([key, { row }]) => row.does?.v && !isOff(key)).map(([key]) => name(key));
  const [deaf] = [...devices].filter(([, { row }]) => row.does?.text === "no station").map(([key]) => key);
  const before = stop;
  if (deaf) return tell(text("stationDeaf", { bus: deaf.split(" ")[0] }), { seconds: 60 });
  if (drive.length && before === "done") return clear();
  if (unsure?.length) tell(text("notConfirmed", { bus: unsure[0] }), { seconds: 60 });
  else if (drive.length) tell(text("stopping", { names: drive.slice(0, MOST).join(", ") }), { failed: false });
  else if (!unsure) tell(text("stopSent"), { failed: false });
  else if (before === "sent") tell(text("allStand"), { failed: false });
  stop = drive.length || unsure?.length !== 0 ? "sent" : "done";
}
whenDrawn(tellStop);
