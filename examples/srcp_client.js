"use strict";
// srcp_client.js: a session at the server, and a mirror of its registry, for clients of your own.
// Copy this file beside them. It takes node alone. docs/protocol.md has the commands.
const net = require("node:net");

const NAMES = { POWER: 3, GL: 4, GA: 4, FB: 4, LOCK: 5, SESSION: 4 }; // where the name of a device ends, behind INFO
const MEANING = { 410: "no such command", 412: "a word is wrong, or a number out of its range, or there is no such bus",
  414: "another session has it locked", 415: "that is another session's", 416: "it is not there",
  418: "too many words, or more functions than it has", 419: "too few words", 420: "no such protocol of decoders",
  421: "no such group of devices", 422: "the bus has no such group", 423: "the group has no such command",
  500: "the server has no memory for it" };

// The server's reply is an error. `code` is its number; the message says in words what that means.
class Refused extends Error {
  constructor(command, reply) {
    const code = reply.split(" ")[1];
    super(`${command}: ${MEANING[code] ?? reply} (${code})`);
    this.code = code;
  }
}

// A session at the server, of which `id` is the number.
class Session {
  #begun = "";
  #waiting = [];

  // Begins a session of the mode COMMAND or INFO. `onLine` is called with each line of an information session, and
  // `onEnd` once the connection is closed. `seconds` is how long it waits for an answer, now and later.
  static async begin({ mode = "COMMAND", ...others } = {}) {
    const session = new Session(others);
    await session.#reply("the server is full: 64 programs are connected"); // the welcome line
    await session.ask(`SET CONNECTIONMODE SRCP ${mode}`);
    session.id = Number((await session.ask("GO")).split(" ")[4]);
    return session;
  }

  constructor({ host = "127.0.0.1", port = 4303, seconds = 5, onLine = () => {}, onEnd = () => {} }) {
    Object.assign(this, { seconds, onLine, socket: net.connect(port, host).setEncoding("latin1") });
    this.socket.on("data", (text) => this.#take(text)).on("error", (fault) => { this.fault = fault; });
    this.socket.on("close", () => {
      for (const { reject, why } of this.#waiting.splice(0)) reject(this.fault ?? new Error(why));
      onEnd();
    });
  }

  #take(text) { // the last line before the end may be cut: it has no LF, and is dropped
    const lines = (this.#begun + text).split("\n");
    this.#begun = lines.pop();
    for (const line of lines) this.#waiting.length ? this.#waiting.shift().resolve(line) : this.onLine(line);
  }

  #reply(why = "the server closed the connection") {
    if (this.socket.destroyed) return Promise.reject(this.fault ?? new Error(why));
    const late = setTimeout(() => this.socket.destroy(new Error("the server does not answer")), 1000 * this.seconds);
    return new Promise((resolve, reject) => this.#waiting.push({ resolve, reject, why }))
      .finally(() => clearTimeout(late));
  }

  // Has the server carry out a command, and returns its reply. Throws Refused if that is an error.
  async ask(command) {
    this.socket.write(`${command}\n`, "latin1");
    const reply = await this.#reply();
    if (reply.split(" ")[2] === "ERROR") throw new Refused(command, reply);
    return reply;
  }
  close() { this.socket.end(); }
}

// Puts the row that a line tells into a Map, or takes out all rows of the device that is gone. Returns whether its code
// and its group are known: a client skips any other line.
function apply(rows, line) {
  const [, code, ...words] = line.split(" ");
  if (!["100", "101", "102"].includes(code) || words.length < 3 || !Object.hasOwn(NAMES, words[2])) return false;
  const device = words.slice(1, NAMES[words[2]]).join(" ");
  if (code !== "102") rows.set(`${device}|${code}|${words[2] === "GA" && code === "100" ? words[4] : ""}`, line);
  else for (const key of [...rows.keys()]) if (key.startsWith(`${device}|`)) rows.delete(key);
  return true;
}

module.exports = { MEANING, Refused, Session, apply };
