// Performs the acts of `dgt simulate`, and shows what is promised after each.

import { Drawing, lettersOf } from "./drawing.js";
import { World } from "../../bindings/javascript/world.js";

const KEPT_LINES = 200;
const hexText = (/** @type {number[]} */ bytes) =>
  bytes.map(one => one.toString(16).padStart(2, "0")).join("");

export class Theorem {
  #dgt;
  #world;
  #node;
  /** @type {Drawing} */
  #board;
  /** @type {Drawing} */
  #host;
  /** @type {string[]} all acts, as a script of `dgt simulate` */
  script = [];

  /** @param {import("../../bindings/javascript/dgt.js").Library} dgt @param {HTMLElement} node */
  constructor(dgt, node) {
    this.#dgt = dgt;
    this.#node = node;
    this.#world = new World(dgt);
    [this.#board, this.#host] = Array.from(node.querySelectorAll("svg"), svg => new Drawing(svg));
    node.addEventListener("click", ({ target }) => {
      const { acts } = /** @type {HTMLElement} */ (target).dataset;
      if (acts) this.#press(acts);
      this.#draw();
    });
    const form = this.#find("form"), field = /** @type {HTMLInputElement} */ (this.#find("input"));
    form.addEventListener("submit", event => {
      event.preventDefault();
      if (this.#move(field.value)) field.value = "";
      else field.select();
    });
    this.#draw();
  }

  /** @param {string} selector */
  #find(selector) {
    return /** @type {HTMLElement} */ (this.#node.querySelector(selector));
  }

  /** @param {string} line */
  #press(line) {
    const { up, down } = this.#world;
    if (line === "settle") for (const each of this.#world.settling()) this.act(each);
    else if (line === "garbleup") this.act(`garbleup ${hexText(garbled(up))}`);
    else if (line === "garbledown") this.act(`garbledown ${hexText(garbled(down))}`);
    else this.act(line);
  }

  /**
   * Moves a piece, as "e2e4".
   * @param {string} text
   */
  #move(text) {
    const found = /^([a-h][1-8])([a-h][1-8])$/.exec(text.trim().toLowerCase());
    if (!found) return false;
    const from = this.#dgt.squareNumber(found[1]);
    const letter = this.#dgt.pieceLetter(this.#world.board.position[from]);
    this.act(`change ${found[1]} .`);
    this.act(`change ${found[2]} ${letter}`);
    this.#draw();
    return true;
  }

  /**
   * Performs an act of a script, and lists it with its outcome.
   * @param {string} line
   */
  act(line) {
    const outcome = this.#world.act(line), list = this.#find("ol");
    const made = document.createElement("li");
    this.script.push(line);
    made.textContent = `${line} → ${outcome}`;
    list.prepend(made);
    if (list.childElementCount > KEPT_LINES) list.lastElementChild?.remove();
  }

  #draw() {
    const { board, host, up, down } = this.#world, { position } = board, { picture } = host;
    const dgt = this.#dgt, placement = dgt.placement(position);
    this.#board.draw(lettersOf(dgt, position), `The board: ${placement}`);
    this.#host.draw(picture ? lettersOf(dgt, picture) : ".".repeat(64),
                    `The host's picture: ${host.placement ?? "unknown"}`);
    this.#host.frame(picture ? dgt.differ(position, picture) : []);
    this.#host.svg.classList.toggle("nothing", !picture);
    this.#write("up", `${up.length} bytes to the host: ${hexText(up.slice(0, 40))}`);
    this.#write("down", `${down.length} bytes to the board: ${hexText(down.slice(-40))}`);
    this.#write("said", this.#said());
    const { isInStep, dump, updates } = this.#world.counted;
    const facts = { asked: dump && updates, step: isInStep, quiet: this.#world.isQuiet,
                    equal: host.placement === placement };
    for (const [name, isSo] of Object.entries(facts)) this.#write(name, isSo ? "yes" : "no");
  }

  /** @param {string} name @param {string} text */
  #write(name, text) {
    const node = this.#find(`[data-shows=${name}]`);
    if (node.textContent !== text) node.textContent = text;
  }

  #said() {
    const { isPromised, isQuiet, counted } = this.#world;
    if (isPromised) {
      return (counted.hadFault ? "Healed. " : "") + (isQuiet ?
        "Proved: nothing is in transit or left to send, so the host's picture is the board's " +
        "position." :
        "Proved: once nothing is in transit or left to send, the host's picture is the board's " +
        "position.");
    }
    if (!counted.isInStep) {
      return "Nothing is promised: the board may misread the host's commands. " +
        "Restart the host to heal that.";
    }
    const lacks = [counted.updates ? "" : "updates with its last mode command",
                   counted.dump ? "" : "a dump since the last break or fault"].filter(Boolean);
    return `Nothing is promised: the host hasn't requested ${lacks.join(", or ")}.`;
  }
}

/**
 * Returns the bytes of a line with one lost or altered; for an empty line, one stray byte.
 * @param {number[]} bytes
 */
function garbled(bytes) {
  const made = bytes.slice(0, 250), at = Math.floor(Math.random() * made.length);
  if (!made.length) return [Math.floor(Math.random() * 128)];
  if (Math.random() < .5) made.splice(at, 1);
  else made[at] ^= 1 << Math.floor(Math.random() * 7);
  return made;
}
