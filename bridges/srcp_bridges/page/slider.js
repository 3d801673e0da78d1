// A slider that a finger takes only once it has moved sideways or was held, so that scrolling drives nothing. From then
// on the speed follows how far the finger moves, and not where it came down. Mouse and keyboard move it as any slider.
import { make } from "./layout.js";

const SIDEWAYS = 10;                            // pixels from which on a finger means the slider, and not the page
const HELD = 500;                               // milliseconds after which a finger that stays means it too
const THUMB = 16;                               // pixels that the thumb of the browser is wide

export class Slider {
  #grip = null;                                 // of the pointer that is down: its id, where, and the value it took
  #fingers = new Set();                         // that are on it: of two, which pinch, none drives

  constructor(input, moved, now) {              // now: the value that the registry has
    this.input = input;
    this.moved = moved;
    this.now = now;
    this.rail = make("div", { className: "rail" }, input);
    input.oninput = () => moved(+input.value);
    this.rail.onmousedown = e => e.preventDefault();  // or the focus would leave the slider
    this.rail.onpointerdown = e => this.#down(e);
    this.rail.onpointermove = e => this.#follow(e);
    this.rail.onpointerup = e => { this.#fingers.delete(e.pointerId); if (this.#has(e)) this.release(); };
    this.rail.onpointercancel = e => { this.#fingers.delete(e.pointerId); if (this.#has(e)) this.#cancel(); };
  }

  get held() { return this.#grip?.from !== undefined; }
  #has(e) { return this.#grip?.id === e.pointerId; }

  // Whoever has it has to take it anew.
  release() {
    clearTimeout(this.#grip?.timer);
    this.#grip = null;
    this.rail.classList.remove("held");
  }

  #down(e) {
    if (e.isPrimary) this.#fingers.clear();     // it is the first one on the screen
    if (e.pointerType !== "mouse") this.#fingers.add(e.pointerId);
    if (this.#fingers.size > 1) return this.#cancel();
    if (this.input.disabled || e.button) return;
    this.release();
    this.#grip = { id: e.pointerId, x: e.clientX, y: e.clientY };
    if (e.pointerType !== "mouse") {
      this.#grip.timer = setTimeout(() => this.#take(this.#grip.x), HELD);
      return;
    }
    this.rail.setPointerCapture(e.pointerId);
    this.input.focus();
    this.#take(e.clientX);
    const off = (e.clientX - this.#left()) / this.#length() * this.input.max - this.#grip.from;
    if (Math.abs(off) * this.#length() / this.input.max <= THUMB / 2) return;  // it is on the thumb
    this.#grip.from += off;
    this.#follow(e);
  }

  #left() { return this.input.getBoundingClientRect().left + THUMB / 2; }
  #length() { return this.input.getBoundingClientRect().width - THUMB; }

  #take(x) {
    Object.assign(this.#grip, { x, from: +this.input.value });
    clearTimeout(this.#grip.timer);
    this.rail.classList.add("held");
  }

  #follow(e) {
    if (!this.#has(e)) return;
    if (!this.held) {
      const [x, y] = [Math.abs(e.clientX - this.#grip.x), Math.abs(e.clientY - this.#grip.y)];
      if (x < SIDEWAYS || x < y) return;
      this.#take(e.clientX);
    }
    this.#set(this.#grip.from + (e.clientX - this.#grip.x) / this.#length() * this.input.max);
  }

  #set(value) {
    const before = this.input.value;
    this.input.value = value;                   // which the browser rounds, and keeps from 0 to max
    if (this.input.value !== before) this.moved(+this.input.value);
  }

  // The browser scrolls or has taken the finger away, or another finger has come: what it made faster is put back, and
  // nothing is made faster.
  #cancel() {
    const from = Math.min(this.#grip?.from, this.now());  // another may have made it slower meanwhile
    this.release();
    if (from < +this.input.value) this.#set(from);
  }
}
