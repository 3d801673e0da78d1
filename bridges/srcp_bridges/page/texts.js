// The texts of the page, in English and German. Words in braces are put in.
export const TEXTS = {
  layout: ["Layout", "Anlage"],
  joining: ["joining", "verbindet"],
  serverAway: ["The server is away", "Der Server ist nicht da"],
  programAway: ["web.py is away", "web.py ist nicht da"],
  tooManyTabs: ["Open in too many tabs: close some, and load this one again",
    "In zu vielen Tabs offen: einige schließen und diesen neu laden"],
  otherLanguage: ["Deutsch", "English"],

  stopAll: ["STOP ALL", "ALLE HALT"],
  stopAllHint: ["Emergency stop of all locomotives; key: Escape", "Nothalt aller Lokomotiven; Taste: Escape"],
  stopping: ["STOP ALL is sent. Still driving: {names}", "ALLE HALT ist gesendet. Noch in Fahrt: {names}"],
  stopSent: ["STOP ALL is sent.", "ALLE HALT ist gesendet."],
  notConfirmed: ["STOP ALL is not confirmed by the driver of bus {bus}: trains may drive. Pull the station's plug.",
    "Der Treiber von Bus {bus} bestätigt ALLE HALT nicht: Züge fahren vielleicht. Netzstecker der Zentrale ziehen."],
  allStand: ["All locomotives stand.", "Alle Lokomotiven stehen."],
  stopFailed: ["STOP ALL FAILED. {why}", "ALLE HALT GING NICHT. {why}"],
  stationDeaf: ["The station of bus {bus} does not hear: trains may drive on. Pull its plug.",
    "Die Zentrale von Bus {bus} hört nicht: Züge fahren vielleicht weiter. Netzstecker ziehen."],

  power: ["Power", "Strom"],
  powerOn: ["{name} on", "{name} an"],
  powerOff: ["{name} off", "{name} aus"],
  trackSays: ["{name}: {why}", "{name}: {why}"],
  trackIsOff: ["{name} is off: {why}", "{name} ist aus: {why}"],
  noStation: ["no station answers. Trains may drive on, and no command reaches them.",
    "keine Zentrale antwortet. Züge fahren vielleicht weiter, und kein Befehl erreicht sie."],
  overload: ["overload, perhaps a short circuit.", "Überlast, vielleicht ein Kurzschluss."],
  stationReset: ["the station began anew.", "die Zentrale hat neu begonnen."],
  serverWasAway: ["the server was away. Nothing starts by itself.", "der Server war weg. Nichts fährt von selbst an."],
  stationOff: ["the station has switched it off.", "die Zentrale hat ihn abgeschaltet."],
  noDriver: ["its driver was killed, or sleeps. It stopped all trains before that.",
    "ihr Treiber wurde beendet oder schläft. Vorher hielten alle Züge an."],
  noConfirm: ["the station does not confirm what it is told. Perhaps these trains do not obey: {names}",
    "die Zentrale bestätigt nicht, was ihr gesagt wird. Vielleicht gehorchen diese Züge nicht: {names}"],
  thrownByHand: ["a hand at the station has thrown {turnout}, which is locked.",
    "Jemand hat {turnout} an der Zentrale gestellt, obwohl sie verschlossen ist."],
  cutByStop: ["STOP ALL cut it, for another throttle's train or at the station.",
    "ALLE HALT hat ihn abgeschaltet, für den Zug eines anderen Reglers oder an der Zentrale."],

  parts: ["Parts of this page", "Teile dieser Seite"],
  plan: ["Plan", "Plan"],
  trackPlan: ["Track plan", "Gleisplan"],
  sizeOfPlan: ["Size of the plan", "Größe des Plans"],
  smallerPlan: ["smaller", "kleiner"],
  largerPlan: ["larger", "größer"],
  wholePlan: ["Whole plan", "Ganzer Plan"],
  routes: ["Routes", "Fahrstraßen"],
  trains: ["Trains", "Züge"],
  locomotives: ["Locomotives", "Lokomotiven"],
  turnouts: ["Turnouts", "Weichen"],
  turnoutsAndSignals: ["Turnouts and signals", "Weichen und Signale"],
  sensors: ["Sensors", "Melder"],
  find: ["find", "suchen"],
  findHint: ["Find by name or address", "Nach Name oder Adresse suchen"],
  throttles: ["Throttles", "Regler"],
  roster: ["All locomotives: which have a throttle above", "Alle Lokomotiven: welche oben einen Regler haben"],
  countGL: ["{all}, {on} drive", "{all}, {on} in Fahrt"],
  countGA: ["{all}", "{all}"],
  countFB: ["{all}, {on} occupied", "{all}, {on} besetzt"],

  locomotive: ["Loco", "Lok"],
  turnout: ["Turnout", "Weiche"],
  signal: ["Signal", "Signal"],
  sensor: ["Sensor", "Melder"],
  speedOf: ["Speed of {name}", "Geschwindigkeit von {name}"],
  speedNow: ["{v} of {steps}, {way}", "{v} von {steps}, {way}"],
  forward: ["forward", "vorwärts"],
  backward: ["backward", "rückwärts"],
  slower: ["slower", "langsamer"],
  faster: ["faster", "schneller"],
  stand: ["stand", "anhalten"],
  stop: ["Stop", "Halt"],
  stopOf: ["emergency stop of {name}", "Nothalt von {name}"],
  emergencyStop: ["emergency stop", "Nothalt"],
  functionOf: ["function {n}", "Funktion {n}"],
  more: ["More", "Mehr"],
  take: ["Take for this page alone", "Nur für diese Seite nehmen"],
  giveBack: ["Give back", "Zurückgeben"],
  takenBySession: ["taken by session {session}", "Sitzung {session} hat sie"],
  isMine: ["taken by this page", "von dieser Seite genommen"],
  isTaken: ["taken by another", "von anderen genommen"],
  remove: ["Remove", "Entfernen"],
  removeHint: ["take this locomotive off the server", "diese Lokomotive vom Server nehmen"],
  steps: ["{protocol}, {steps} steps", "{protocol}, {steps} Fahrstufen"],
  straight: ["straight", "gerade"],
  branch: ["branch", "Abzweig"],
  portOf: ["port {port}", "Anschluss {port}"],
  sensorIs: ["{name} of bus {bus}: {is}", "{name} von Bus {bus}: {is}"],
  unknown: ["unknown", "unbekannt"],
  go: ["go", "Fahrt"],
  halt: ["stop", "Halt"],
  toRight: ["to the right", "nach rechts"],
  toLeft: ["to the left", "nach links"],
  locked: ["locked", "verschlossen"],
  lockedByRoute: ["{name} is locked by the route {route}.", "{name} ist von der Fahrstraße {route} verschlossen."],
  chooseEnd: ["From {from}: choose where the route ends.", "Von {from}: das Ziel der Fahrstraße wählen."],
  noRoute: ["No route leads from {from} to {to}.", "Keine Fahrstraße führt von {from} nach {to}."],
  noBox: ["{name}: no program sets routes on bus {bus}.", "{name}: Kein Programm stellt Fahrstraßen auf Bus {bus}."],
  signalStopped: ["{name} is to show stop. The route {route} stays set.",
    "{name} soll Halt zeigen. Die Fahrstraße {route} bleibt gestellt."],
  stopsByRoute: ["{name} shows stop once the route {route} is given back: press it below.",
    "{name} zeigt Halt, sobald die Fahrstraße {route} aufgelöst ist: unten drücken."],
  isSet: ["The route {name} is set.", "Die Fahrstraße {name} ist gestellt."],
  asked: ["The route {name} is asked for.", "Die Fahrstraße {name} ist angefordert."],
  routeSet: ["set", "gestellt"],
  routeAsked: ["waits", "wartet"],
  waitsFor: ["waits for {what}", "wartet auf {what}"],
  waitsForBox: ["waits: no program sets routes", "wartet: kein Programm stellt Fahrstraßen"],
  routeLost: ["lost: its turnouts are not locked", "verloren: Weichen nicht verschlossen"],
  routeThrown: ["lost: {name} lies otherwise", "verloren: {name} liegt anders"],
  routeFree: ["free", "frei"],
  askRoute: ["Ask for this route", "Diese Fahrstraße anfordern"],
  giveRouteBack: ["Give this route back", "Diese Fahrstraße auflösen"],
  occupied: ["occupied", "besetzt"],
  free: ["free", "frei"],

  noDecoder: ["Not driven: the station has no commands for the protocol {protocol}.",
    "Fährt nicht: Die Zentrale hat keine Befehle für das Protokoll {protocol}."],
  noSlot: ["Not driven: the station has {slots} slots, and all were taken.",
    "Fährt nicht: Die Zentrale hat {slots} Plätze, und alle waren belegt."],
  notDriven: ["Not driven: {why}.", "Fährt nicht: {why}."],

  addLocomotive: ["Add a locomotive", "Lokomotive hinzufügen"],
  addTurnout: ["Add a turnout", "Weiche hinzufügen"],
  bus: ["Bus", "Bus"],
  address: ["Address", "Adresse"],
  stepsOf: ["Steps", "Fahrstufen"],
  functions: ["Functions", "Funktionen"],
  add: ["Add", "Hinzufügen"],
  isThere: ["{name} is there already. It stays as it is.", "{name} ist schon da und bleibt, wie sie ist."],
  tooHigh: ["Address {address} is above the greatest address of bus {bus} in the layout ({most}).",
    "Die Adresse {address} liegt über der größten von Bus {bus} in der Anlage ({most})."],
  noBus: ["The layout has no bus {bus}.", "Die Anlage hat keinen Bus {bus}."],
  noGroup: ["Bus {bus} of the layout has none of these.", "Bus {bus} der Anlage hat keine davon."],

  wrongValue: ["{name}: the server does not take this value.", "{name}: Der Server nimmt diesen Wert nicht."],
  lockedByOther: ["{name} is taken by another throttle.", "{name} ist von einem anderen Regler genommen."],
  forbidden: ["{name}: this is not allowed.", "{name}: Das ist nicht erlaubt."],
  isGone: ["{name} is not there any more.", "{name} ist nicht mehr da."],
  noMemory: ["{name}: the server has no memory left.", "{name}: Der Server hat keinen Speicher mehr."],
  stopped: ["{name} was stopped meanwhile, so this was not done.",
    "{name} wurde inzwischen angehalten, daher geschah das nicht."],
  full: ["{name}: the server is full. It has no room for another throttle.",
    "{name}: Der Server ist voll. Er hat keinen Platz für noch einen Regler."],
  serverGone: ["{name}: the server is away, so this was not done.",
    "{name}: Der Server ist nicht da, daher geschah das nicht."],
  tooMany: ["{name}: web.py has too many connections.", "{name}: web.py hat zu viele Verbindungen."],
  noAnswer: ["{name}: web.py does not answer.", "{name}: web.py antwortet nicht."],
  unsure: ["{name}: its driver does not confirm. Trains may drive: pull the station's plug.",
    "{name}: Der Treiber bestätigt nicht. Züge fahren vielleicht: Netzstecker der Zentrale ziehen."],
  refused: ["{name}: the server refused this ({reply}).", "{name}: Der Server lehnt das ab ({reply})."],

  wordAsked: ["The word that web.py was given, or printed at its start",
    "Das Wort, das web.py bekam oder beim Start ausgab"],
  wordWrong: ["That is not the word.", "Das ist nicht das Wort."],
  wordWait: ["Too many wrong words came from here. The next one is taken in {wait} seconds.",
    "Von hier kamen zu viele falsche Wörter. Das nächste gilt in {wait} Sekunden."],
  enter: ["Enter", "Eintreten"],
};
const LANGUAGES = ["en", "de"];
const REFUSALS = {                              // the text for the code of what is refused
  412: "wrongValue", 414: "lockedByOther", 415: "forbidden", 416: "isGone", 500: "noMemory",
  STOPPED: "stopped", FULL: "full", AWAY: "serverGone", UNSURE: "unsure", BUSY: "tooMany", SILENT: "noAnswer",
};
let language = preferred();

// What was chosen here last, else the first language of the browser that is one of these.
function preferred() {
  let chosen = [];
  try { chosen = [localStorage.language]; } catch (fault) { /* not kept, then */ }
  const wanted = [...chosen, ...navigator.languages].map(each => each?.slice(0, 2));
  return wanted.find(each => LANGUAGES.includes(each)) ?? "en";
}

export function text(key, words = {}) {
  return TEXTS[key][LANGUAGES.indexOf(language)].replace(/\{(\w+)\}/g, (_, word) => words[word]);
}

// What a refusal says of the thing with that name.
export function sentence({ code, reply }, name) {
  return text(REFUSALS[code] ?? "refused", { name, reply });
}

// Puts the texts into the elements that name one.
export function translate() {
  document.documentElement.lang = language;
  document.title = text("layout");
  for (const element of document.querySelectorAll("[data-text]")) element.textContent = text(element.dataset.text);
  for (const element of document.querySelectorAll("[data-label]")) element.ariaLabel = text(element.dataset.label);
  for (const element of document.querySelectorAll("[data-hint]")) element.title = text(element.dataset.hint);
  for (const element of document.querySelectorAll("[data-placeholder]")) {
    element.placeholder = text(element.dataset.placeholder);
  }
}

export function otherLanguage() {
  language = LANGUAGES.find(each => each !== language);
  try { localStorage.language = language; } catch (fault) { /* not kept, then */ }
  translate();
}
