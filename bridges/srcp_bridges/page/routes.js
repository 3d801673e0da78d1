// Routes: port 1 of an accessory of their bus asks for one, port 0 gives it back, and a sensor tells that it is set.
import { done, tell } from "./bar.js";
import { PULSE, put } from "./devices.js";
import { $, askedOn, button, make, name, redraw, rowOf, whenDrawn } from "./layout.js";
import { isDone } from "./server.js";
import { text } from "./texts.js";

const STOPS = "2";                              // the port that stops the signal of a set route
const KEPT = 10;                                // seconds for which a begin stays chosen: a later click means another
let plan = { routes: [] }, first = null, chips = new Map();  // first: the button that was chosen, until a second one is
let forgets = null;                             // the timer of it

const accessory = route => `${plan.bus} GA ${route.number}`;
const isTold = route => rowOf(`${plan.bus} FB ${route.number}`).does?.value === 1;
const hasLock = key => !!rowOf(key).lock;
const liesAt = ([key, port]) => hasLock(key) && rowOf(key).lies === port;
const holds = route => Object.entries(route.turnouts).every(liesAt) && (!route.signal || hasLock(route.signal.key));

// A route is set if its sensor tells so, each of its turnouts is locked and lies right, and its signal is locked. If the
// sensor alone tells so the route is lost: the program that set it is gone, and anybody may throw its turnouts.
export const isSet = route => isTold(route) && holds(route);
export const isLost = route => isTold(route) && !holds(route);
export const isAsked = route => !isTold(route) && rowOf(accessory(route)).lies === 1;

// The route that has locked a turnout, or is about to.
export const holding = key => plan.routes.find(route => isSet(route) && key in route.turnouts)
  ?? plan.routes.find(route => isAsked(route) && hasLock(key) && key in route.turnouts);

// The route that is set, and whose signal this is.
export const showing = key => plan.routes.find(route => isSet(route) && route.signal?.key === key);

// The ports by which routes have a signal show go.
export const goes = key => plan.routes.filter(route => route.signal?.key === key).map(route => route.signal.go);

// Whether a program that sets routes is there: that has locked the signals of the plan.
const signals = () => plan.routes.filter(route => route.signal).map(route => route.signal.key);
const isServed = () => !signals().length || signals().some(hasLock);

// Why a route waits: nobody sets routes, a block is occupied, or another route is in the way.
function whyItWaits(route) {
  if (!isServed()) return text("waitsForBox");
  const block = route.blocks.find(key => rowOf(key).does?.value);
  if (block) return text("waitsFor", { what: name(block) });
  const other = plan.routes.find(each => each !== route && isTold(each) && conflict(each, route));
  return other ? text("waitsFor", { what: other.name }) : text("routeAsked");
}
function whyItIsLost(route) {                   // a turnout that a hand has thrown is locked nonetheless
  const [key] = Object.entries(route.turnouts).find(([key, port]) => hasLock(key) && !liesAt([key, port])) ?? [];
  return key && text("routeThrown", { name: name(key) });
}
function conflict(one, other) {
  const of = ({ turnouts, signal, blocks, pieces }) =>
    [...Object.keys(turnouts), ...blocks, ...signal ? [signal.key] : [], ...pieces];
  return of(one).some(key => of(other).includes(key));
}
export const chosen = () => first;
export function unchoose() {                    // takes a chosen begin back; says whether there was one
  const was = first;
  first = null;
  clearTimeout(forgets);
  if (was) redraw([]), done("begin");
  return !!was;
}
const between = (from, to) => plan.routes.find(route => route.from === from.name && route.to === to.name);
export const mayFollow = to => !!first && !!between(first, to);

// Chooses the begin of a route, or its end: then the route is asked for.
export function choose(element) {
  const from = first;
  first = from ? null : element;
  redraw([]);
  clearTimeout(forgets);
  if (!from) {
    forgets = setTimeout(unchoose, KEPT * 1000);
    const words = { from: element.text || element.name };
    return tell(text("chooseEnd", words), { failed: false, of: "begin", seconds: KEPT });
  }
  if (from === element) return tell("");
  const route = between(from, element);
  if (!route) return tell(text("noRoute", { from: from.text || from.name, to: element.text || element.name }));
  if (isSet(route)) return tell(text("isSet", route), { failed: false });
  tell("", { failed: false });                  // its end is chosen
  order(route, "1");
}

// Has the signal of a set route stopped. The route keeps its locks: given back, it would leave its turnouts to a route
// that waits, and a train may be on them.
export async function stopSignal(route, signal) {
  const { ports = {} } = rowOf(accessory(route)), words = { name: signal, route: route.name };
  if (!(STOPS in ports)) return tell(text("stopsByRoute", words));
  const given = await put(accessory(route), ports, STOPS, {}, PULSE);
  if (isDone(given)) tell(text("signalStopped", words), { failed: false });
}
async function order(route, port) {
  const { ports } = rowOf(accessory(route));
  if (!ports) return tell(text("noBox", { name: route.name, bus: plan.bus }));
  const given = await put(accessory(route), ports, port, {}, PULSE);
  if (port === "1" && isDone(given) && !isSet(route)) tell(text("asked", route), { failed: false });
}

export function listRoutes(given) {
  unchoose();
  plan = given;
  askedOn(plan.bus, plan.routes);
  chips = new Map(plan.routes.map(route => [route, button("", "",
    () => order(route, isTold(route) || isAsked(route) ? "0" : "1"))]));
  $("routes").replaceChildren(...[...chips.values()].map(chip => make("li", {}, chip)));
}
whenDrawn(() => {
  for (const [route, chip] of chips) {
    const state = isSet(route) ? "routeSet" : isLost(route) ? "routeLost"
      : isAsked(route) ? "routeAsked" : "routeFree";
    const says = { routeAsked: whyItWaits, routeLost: whyItIsLost }[state]?.(route) ?? text(state);
    chip.replaceChildren(make("span", { textContent: route.name }), make("small", { textContent: says }));
    chip.className = state === "routeLost" ? "lost" : "";
    chip.ariaPressed = state !== "routeFree";
    chip.title = text(state === "routeFree" ? "askRoute" : "giveRouteBack");
  }
});
