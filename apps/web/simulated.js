// A simulated board on a port, with the part of a SerialPort's interface that Session uses.

import { ASK, Board, IDS } from "../../bindings/javascript/dgt.js";

const BYTES_A_MS = .96; // 9600 baud, with a start bit and a stop bit
const GARBLED = 8; // bytes
const NOISE = .04; // of the bytes

export class SimulatedPort extends EventTarget {
  /** @type {ReadableStream<Uint8Array> | null} */
  readable = null;
  /** @type {WritableStream<Uint8Array> | null} */
  writable = null;
  isPlugged = true;
  isOn = true;
  noise = 0;
  shown = ""; // the clock's text
  /** @type {number[]} squares */
  lit = [];
  carried = 0; // bytes, both ways
  altered = 0;
  #garbled = 0; // of the next bytes
  /** @type {number[]} */
  #toBoard = [];
  /** @type {number[]} */
  #toHost = [];
  /** @type {ReadableStreamController<Uint8Array> | null} of the readable stream */
  #out = null;
  #since = 0;
  #timer = 0;

  /** @param {import("../../bindings/javascript/dgt.js").Library} dgt @param {Uint8Array} pieces */
  constructor(dgt, pieces) {
    super();
    this.board = new Board(dgt);
    this.pieces = pieces; // on the table: the board sees them while it is on
  }

  getInfo() {
    return {};
  }

  async open() {
    if (!this.isPlugged) throw new DOMException("The cable is not plugged in.", "NetworkError");
    this.#stream();
    this.writable = new WritableStream({ write: bytes => { this.#toBoard.push(...bytes); } });
    this.#since = performance.now();
    this.#timer ||= setInterval(() => this.#pass(), 15);
  }

  #stream() {
    this.readable = new ReadableStream({ start: control => { this.#out = control; },
                                         cancel: () => { this.#out = null; } });
  }

  async close() {
    this.readable = this.writable = this.#out = null;
    clearInterval(this.#timer);
    this.#timer = 0;
  }

  /** @param {number} square @param {number} piece */
  change(square, piece) {
    this.pieces[square] = piece;
    if (this.isOn) this.#put(square);
  }

  /** @param {number} square */
  #put(square) {
    const { dgt } = this.board;
    this.board.change(dgt.squareName(square), dgt.pieceLetter(this.pieces[square]));
  }

  garble() {
    this.#garbled += GARBLED;
  }

  // A byte has arrived without its stop bit. It is lost with the bytes right after it, and the port
  // gets a new stream.
  frame() {
    this.#toHost = [];
    const out = this.#out;
    if (!out) return;
    this.#stream();
    out.error(new DOMException("A framing error has been detected.", "FramingError"));
  }

  /** @param {boolean} isNoisy */
  makeNoise(isNoisy) {
    this.noise = isNoisy ? NOISE : 0;
  }

  /** @param {boolean} isPlugged */
  plug(isPlugged) {
    this.isPlugged = isPlugged;
    if (!isPlugged) this.#pull();
    this.dispatchEvent(new Event(isPlugged ? "connect" : "disconnect"));
  }

  #pull() {
    this.#drop();
    const out = this.#out;
    this.readable = this.writable = this.#out = null;
    out?.error(new DOMException("The device has been lost.", "NetworkError"));
  }

  /**
   * The port stays, as with a serial adapter, but nothing replies while the board is off.
   * @param {boolean} isOn
   */
  power(isOn) {
    this.isOn = isOn;
    this.#drop();
    if (isOn) this.pieces.forEach((_, square) => this.#put(square));
  }

  #drop() {
    this.#toBoard = [];
    this.#toHost = [];
    this.lit = [];
    this.board.lineLost();
  }

  // Moves the bytes that are due.
  #pass() {
    const now = performance.now(), count = Math.floor((now - this.#since) * BYTES_A_MS);
    if (count === 0) return;
    this.#since += count / BYTES_A_MS;
    if (!this.#out) return;
    this.#hearHost(this.#disturb(this.#toBoard.splice(0, count)));
    if (!this.isOn) return;
    while (this.#toHost.length < count && this.board.owes) this.#send();
    const sent = this.#disturb(this.#toHost.splice(0, count));
    if (sent.length) this.#out.enqueue(Uint8Array.from(sent));
  }

  #send() {
    this.#toHost.push(...this.board.poll() ?? []);
  }

  /** @param {number[]} sent */
  #hearHost(sent) {
    if (!this.isOn) return;
    for (let left = Uint8Array.from(sent); left.length;) {
      const { used, commands } = this.board.take(left);
      left = left.subarray(used);
      commands.forEach(command => this.#obey(command));
      if (left.length) this.#send(); // it owes eight replies
    }
  }

  /** @param {import("../../bindings/javascript/dgt.js").Command} command */
  #obey(command) {
    if (command.type !== "command") return;
    const { code, id, word } = command;
    if (code === ASK.leds) this.lit = word[2] === 1 ? [...word.subarray(3, 5)] : [];
    if (code !== ASK.clockMessage) return;
    if (id === IDS.text) this.shown = String.fromCharCode(...word.subarray(4, 12)).trim();
    if (id === IDS.end) this.shown = "";
  }

  /**
   * Returns these bytes after noise: a byte here and there is lost, altered or doubled.
   * @param {number[]} bytes
   */
  #disturb(bytes) {
    this.carried += bytes.length;
    if (!this.noise && !this.#garbled) return bytes;
    return bytes.flatMap(one => {
      if (this.#garbled > 0) this.#garbled--;
      else if (Math.random() >= this.noise) return one;
      this.altered++;
      const kind = Math.random();
      return kind < .4 ? [] : kind < .9 ? Math.floor(Math.random() * 256) : [one, one];
    });
  }
}
