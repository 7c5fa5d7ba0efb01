// The game on a board, for the page: its moves, its PGN, and what to put right.

import { State } from "../../bindings/javascript/chess.js";
import { Recogniser } from "../../bindings/javascript/recogniser.js";

/**
 * @typedef {{state: State, text: string, count: number}} Entry  a state, and how it was reached: by
 *   one move such as "1. e4" or "e5", or by more that nobody has seen
 */

const NAMES = /** @type {Record<string, string>} */ (
  { p: "pawn", r: "rook", n: "knight", b: "bishop", q: "queen", k: "king" });
const MOST_STEPS = 6;
const NONE = "No moves: no game begins with this position. Set up the pieces for one.";

export class Game {
  /** @type {Entry[]} the first one has no moves */
  line = [];
  result = "*";
  isLost = false; // no moves lead to what the board shows
  changes = 0; // how often any of these changed
  /** @type {Entry[]} what is taken back, and not made again: the first one last */
  #back = [];
  #held = 0; // as many entries stay, whatever is taken back
  #isTurned = false;
  /** @type {ArrayLike<number>} what the board shows */
  #seen = [];
  #isConfirmed = false;

  /** @param {import("../../bindings/javascript/dgt.js").Library} dgt */
  constructor(dgt) {
    this.dgt = dgt;
    this.recogniser = new Recogniser(dgt);
  }

  /**
   * Takes what the board shows, as a Recogniser does. Call it again at the recogniser's `dueAt`.
   * @param {number} now @param {ArrayLike<number> | null} position
   * @param {{isSure?: boolean, isConfirmed?: boolean}} [options]
   */
  see(now, position, options = {}) {
    for (const event of this.recogniser.see(now, position, options)) this.#note(event);
    this.#seen = position ?? this.#seen;
    this.#isConfirmed = options.isConfirmed ?? true;
  }

  /** @param {import("../../bindings/javascript/recogniser.js").GameEvent} event */
  #note(event) {
    const { type } = event;
    this.changes++;
    if (type !== "lost" && type !== "found") this.result = type === "ended" ? event.result : "*";
    switch (type) {
      case "begun":
        this.line = [{ state: event.state, text: "", count: 0 }];
        [this.#back, this.#held] = [[], 0];
        this.#isTurned = event.isTurned;
        break;
      case "made": return this.#move(event.move);
      case "unseen": return event.moves.forEach(move => this.#move(move));
      case "gap": {
        const { state, count } = event;
        this.#branch();
        this.line.push({ state, count, text: `(${count} moves not seen)` });
        break;
      }
      case "back":
        if (event.stays) this.#held = this.line.length + this.#back.length;
        for (let { count } = event; count > 0;) {
          const entry = this.line.pop();
          if (entry) this.#back.push(entry);
          count -= entry?.count || count;
        }
        break;
      case "lost": case "found": this.isLost = type === "lost";
    }
  }

  /** @param {string} move */
  #move(move) {
    const { state, count } = this.line[this.line.length - 1], { turn, number } = state;
    const first = turn === "white" ? `${number}. ` : count === 1 ? "" : `${number}... `;
    const entry = { state: state.play(move), text: first + state.san(move), count: 1 };
    const before = this.#back.pop();
    if (before && before.state.fen !== entry.state.fen) this.#branch();
    this.line.push(entry);
  }

  /** Whether the game stays as it was, though moves of it are taken back. */
  get stays() {
    return this.#held > this.line.length;
  }

  // Other moves follow than those taken back. If these stay, another game goes on from here.
  #branch() {
    if (this.stays) [this.line, this.#held] = [[...this.line], 0];
    this.#back = [];
  }

  /** The moves with their numbers. */
  get moves() {
    return this.line.slice(1).map(({ text }) => text);
  }

  /** The position of the game, on the squares of the board. */
  get #right() {
    const { position } = this.line[this.line.length - 1].state;
    return this.#isTurned ? position.reverse() : position;
  }

  /** The squares of the board to put right. */
  get lost() {
    return this.isLost ? this.dgt.differ(this.#right, this.#seen) : [];
  }

  /** Why moves are missing, or "". */
  get lacks() {
    if (this.isLost) return `No move leads to this: ${this.#advice}.`;
    const isIdle = this.#isConfirmed && this.recogniser.dueAt === Infinity;
    return isIdle && !this.line.length ? NONE : "";
  }

  get #advice() {
    const { dgt, lost } = this, seen = this.#seen, right = this.#right;
    const extra = lost.filter(n => seen[n]);
    const puts = lost.filter(n => right[n]).map(n => {
      const at = extra.findIndex(from => seen[from] === right[n]);
      const from = at < 0 ? "" : ` from ${dgt.squareName(extra.splice(at, 1)[0])}`;
      return `put the ${this.#name(right[n])}${from} on ${dgt.squareName(n)}`;
    });
    const takes = extra.map(n => `take the ${this.#name(seen[n])} off ${dgt.squareName(n)}`);
    const all = [...takes, ...puts], more = all.splice(MOST_STEPS).length;
    return all.join("; ") + (more ? `; and ${more} more` : "");
  }

  /** @param {number} piece */
  #name(piece) {
    const letter = this.dgt.pieceLetter(piece);
    return `${letter <= "Z" ? "white" : "black"} ${NAMES[letter.toLowerCase()] ?? "piece"}`;
  }

  /** The game. After moves that nobody has seen another one begins with the state after them. */
  get pgn() {
    const gaps = this.line.flatMap(({ count }, n) => count > 1 ? [n] : []);
    return [0, ...gaps].map((first, n) => this.#part(first, gaps[n])).join("");
  }

  /** @param {number} first @param {number} [gap] */
  #part(first, gap) {
    const { line } = this, fen = line[first]?.state.fen;
    const day = new Date().toLocaleDateString("sv").replaceAll("-", "."); // as in Sweden
    const tags = { Event: "?", Site: "?", Date: day, Round: "?", White: "?", Black: "?",
                   Result: gap ? "*" : this.result };
    if (fen && fen !== State.start(this.dgt).fen) Object.assign(tags, { SetUp: "1", FEN: fen });
    const cut = gap ? `{${line[gap].text.slice(1, -1)}}` :
      this.isLost ? "{broken off: no move leads to the position after this}" : "";
    const words = [...line.slice(first + 1, gap).map(({ text }) => text), cut, tags.Result];
    const text = words.filter(Boolean).join(" ").replace(/(.{1,78})(?: |$)/g, "$1\n");
    return Object.entries(tags).map(([name, said]) => `[${name} "${said}"]\n`).join("") +
      `\n${text}\n`;
  }
}
