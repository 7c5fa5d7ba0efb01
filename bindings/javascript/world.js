// A board and a host with a line of bytes each way. Nothing happens by itself: each act is a line
// of a script of `dgt simulate --faults`, and has the same outcome.

import { ASK, Board, Host } from "./dgt.js";
import { RESTART_LENGTH } from "./header.js";

export const LINE_ROOM = 1024; // bytes of a line
const SENDINGS = ["done", "toomany", "noroom"], POLLINGS = ["nothing", "done", "noroom"];
const UPDATE_MODES = [ASK.update, ASK.updateBoard, ASK.updateNice];

const hexBytes = (text = "-") => (text.match(/[0-9a-f]{2}/g) ?? []).map(two => parseInt(two, 16));

export class World {
  /** @type {number[]} */
  up = [];
  /** @type {number[]} */
  down = [];
  /** The premises of docs/PROMISES.md for the promise of the picture. */
  counted = { isInStep: true, dump: false, updates: false, hadFault: false };

  /** @param {import("./dgt.js").Library} dgt */
  constructor(dgt) {
    this.dgt = dgt;
    this.board = new Board(dgt);
    this.host = new Host(dgt);
  }

  close() {
    this.board.close();
    this.host.close();
  }

  /**
   * Performs an act, and returns its outcome. Only "done" has changed anything.
   * @param {string} line
   */
  act(line) {
    const [word, value, other] = line.split(" ");
    const outcome = ACTS[word](this, value, other) ?? "done";
    if (outcome === "done") this.#count(word, value);
    return outcome;
  }

  /** @param {string} word @param {string} value */
  #count(word, value) {
    const { counted } = this;
    const set = (/** @type {boolean} */ isInStep, /** @type {boolean} */ isAsked) =>
      Object.assign(counted, { isInStep, dump: isAsked, updates: isAsked });
    if (word === "restart" || word === "hostbreak") set(true, true);
    if (word === "break") set(true, false);
    if (word === "garbledown" || word === "boardlost") set(false, false);
    if (word === "garbleup") counted.dump = false;
    counted.hadFault ||= ["garbleup", "garbledown", "boardlost"].includes(word);
    if (word !== "host") return;
    const code = parseInt(value, 16);
    counted.dump ||= code === ASK.dump;
    if (code === ASK.reset) counted.updates = false;
    counted.updates ||= UPDATE_MODES.includes(code);
  }

  /** Whether the host's picture is the board's once all is quiet. */
  get isPromised() {
    const { isInStep, dump, updates } = this.counted;
    return isInStep && dump && updates;
  }

  /** Whether nothing is in transit or left to send. */
  get isQuiet() {
    const { up, down, board, host } = this;
    return !up.length && !down.length && !board.unread && !host.unread && !board.owes;
  }

  /** The acts that deliver everything, and make the board send all that it has to send. */
  *settling() {
    for (;;) {
      if (this.up.length) yield "tohost 65535";
      else if (this.board.owes) yield "send";
      else if (this.down.length) yield "toboard 65535";
      else return;
    }
  }
}

/** @type {Record<string, (world: World, value: string, other: string) => string | void>} */
const ACTS = {
  change({ board }, square, letter) {
    board.change(square, letter);
  },
  host({ dgt, host, down }, value) { // a command of one byte
    const room = LINE_ROOM - down.length;
    const { status, bytes } = host.call("send", parseInt(value, 16), dgt.out, room);
    if (status === 0) down.push(...dgt.bytes(dgt.out, bytes));
    return SENDINGS[status];
  },
  send({ dgt, board, up }) {
    const { status, bytes } = board.call("poll", dgt.out, LINE_ROOM - up.length);
    if (status === 1) up.push(...dgt.bytes(dgt.out, bytes));
    return POLLINGS[status];
  },
  toboard({ board, down }, count) {
    const bytes = Uint8Array.from(down.slice(0, Number(count)));
    if (!bytes.length) return "nothing";
    const { used } = board.take(bytes);
    down.splice(0, used);
    return used ? "done" : "busy";
  },
  tohost({ host, up }, count) {
    const bytes = Uint8Array.from(up.splice(0, Number(count)));
    host.hear(bytes);
    return bytes.length ? "done" : "nothing";
  },
  break(world) {
    world.up = [];
    world.down = [];
    world.host.lineLost();
    world.board.lineLost();
  },
  hostbreak(world) {
    world.up = [];
    world.host.lineLost();
    world.down = [...world.host.restart()];
  },
  garbleup(world, bytes) {
    world.up = hexBytes(bytes);
  },
  garbledown(world, bytes) {
    world.down = hexBytes(bytes);
  },
  boardlost({ board }) {
    board.lineLost();
  },
  restart({ host, down }) {
    if (LINE_ROOM - down.length < RESTART_LENGTH) return "noroom";
    host.giveUpAwaited();
    down.push(...host.restart());
  },
  giveup({ host }) {
    host.giveUpAwaited();
  },
};
