/**
 * The proved library for the DGT electronic chess board, for browsers and Node.
 *
 *     import { load, Follower } from "./dgt.js";
 *     const dgt = await load();
 *     const follower = new Follower(dgt);
 *     // In a loop: write follower.ask(now) to the line if it isn't null, wait for bytes until
 *     // follower.dueAt, and pass them to follower.hear(now, bytes).
 *
 * Nothing here opens a line, waits, or makes a request, except `load` with a URL or without an
 * argument. Each returned value is a copy: no view of the module's memory leaves this file.
 * bindings/c/include/dgt.h documents each call.
 *
 * Squares have names such as "e4", and pieces the letters of a FEN, with "." for none. The bytes of
 * a position are numbers of pieces, from a8 to h1: White's pawn, rook, knight, bishop, king and
 * queen are 1 to 6, Black's are 7 to 12, and 0 is an empty square. Times are in milliseconds.
 */

import { ASK, BATTERY_UNKNOWN, BUTTONS, CALLS, CLOCKS, EVENTS, FAULTS, FLAGS, IDS, LEAST_PERIOD,
         MARKS, MAX_BODY, MODES, NO_SUCH, PLACEMENT_ROOM, REFUSED, SIGNALS, STATUS, STORED, STRUCTS,
         TOO_MANY_AWAITED, VERSION, WORDS, WROTE } from "./header.js";

export { ASK, FLAGS, IDS, MODES, STATUS };

/** A call that was refused. It has changed nothing. */
export class DgtError extends Error {
  /** @param {string} text */
  constructor(text) {
    super(text);
    this.name = new.target.name;
  }
}
/** 16 replies are awaited already. */
export class TooManyAwaited extends DgtError {}
/** The object was closed. */
export class Closed extends DgtError {}
/** An argument is out of its range. */
export class BadValue extends DgtError {}
/** A text is not a placement. The first wrong character, or the text's end, is at `at`. */
export class BadPlacement extends DgtError {
  /** @param {number} at */
  constructor(at) {
    super(`not a placement: wrong at character ${at}`);
    this.at = at;
  }
}

/**
 * @typedef {{hours: number, minutes: number, seconds: number, flags: number}} Time
 * @typedef {{kind: "times", status: number, first: Time, second: Time}} Times
 * @typedef {{kind: "none", status: number, raw: Uint8Array}} NoClock
 * @typedef {Times | NoClock} Clock
 *
 * @typedef {(
 *   {type: "dump", pieces: Uint8Array, placement: string} |
 *   {type: "field", square: string, piece: string} |
 *   {type: "times", clock: Times} |
 *   {type: "noClock", clock: NoClock} |
 *   {type: "ack", ack: Uint8Array, ackStatus: number} |
 *   {type: "serial", serial: Uint8Array} |
 *   {type: "trademark" | "battery" | "longSerial" | "other", code: number, body: Uint8Array} |
 *   {type: "version", mainNumber: number, subNumber: number} |
 *   {type: "refused", code: number, at: number,
 *    fault: "wrongSize" | "badPiece" | "badSquare" | "badReading"} |
 *   {type: "cut", have: number} |
 *   {type: "badLength"} |
 *   {type: "stray", byte: number}
 * )} Message  of a board, or a fault of its bytes
 * @typedef {Message | {type: "dump", pieces: ArrayLike<number>}} Encodable
 * @typedef {Message & {offset: number, unasked: boolean}} Event  `offset` is the number of bytes
 *   received since the handle was made, finished or reset, or its line was lost
 *
 * @typedef {(
 *   {type: "command", code: number, id: number, word: Uint8Array} |
 *   {type: "badSize" | "badStart" | "badEnd"} |
 *   {type: "strayByte", byte: number}
 * )} Command
 *
 * @typedef {(
 *   {type: "piece", square: string, piece: string, bit: boolean} |
 *   {type: "time", time: Time} |
 *   {type: "mark", mark: keyof typeof MARKS} |
 *   {type: "unknown", byte: number}
 * )} Stored  by a board while no host listens: a square and its piece, a player's time (with flags
 *   6 or 7, one for each player), or a byte
 * @typedef {(
 *   {type: "done", id: number} |
 *   {type: "version", mainNumber: number, subNumber: number} |
 *   {type: "pressed", button: keyof typeof BUTTONS} |
 *   {type: "off" | "ready"}
 * )} Signal  of a clock
 * @typedef {{percent: number | null, hoursLeft: number | null, minutesLeft: number | null,
 *   hoursOn: number, minutesOn: number, daysResting: number, hoursResting: number,
 *   minutesResting: number, charging: boolean, discharging: boolean}} BatteryState  null is unknown
 *
 * @typedef {{serial: ArrayLike<number>, mainNumber: number, subNumber: number,
 *   clockVersion: number, trademark: ArrayLike<number>, battery: ArrayLike<number>,
 *   longSerial: ArrayLike<number>}} Identity
 *
 * @typedef {typeof ASK[keyof typeof ASK]} CommandCode
 * @typedef {Exclude<CommandCode, typeof ASK.clockMessage | typeof ASK.leds>} ByteCommand  one byte
 * @typedef {typeof MODES[keyof typeof MODES]} Mode
 * @typedef {Exclude<Mode, typeof MODES.idle>} ReportingMode
 */

// The types of calls and structs, derived from header.js.
/** @typedef {typeof CALLS} Calls @typedef {typeof STRUCTS} Structs */
/**
 * @template S
 * @typedef {S extends "u8" | "u16" | "u32" | "char" | "wide" ? number :
 *   S extends "bool" ? boolean : S extends "void" ? void : S extends number ? Uint8Array :
 *   S extends "clock" ? Clock | null : S extends keyof Structs ? Struct<S> : never} Value
 */
/**
 * @template {keyof Structs} S
 * @typedef {{[M in Structs[S]["members"][number] as M[0]]: Value<M[2]>}} Struct
 */
/**
 * @template S
 * @typedef {S extends `${infer W},${infer More}` ? [Value<W>, ...Values<More>] : [Value<S>]} Values
 */
/**
 * @template S
 * @typedef {S extends `${infer W},${infer More}` ? (...values: Values<More>) => Value<W> :
 *   () => Value<S>} Call
 */
/**
 * @typedef {{[N in keyof Calls as N extends `dgt_${infer M}` ? M : never]: Call<Calls[N]>}} Named
 */
/**
 * @typedef {"host" | "follower" | "decoder" | "command_decoder" | "board" | "recogniser"} Kind
 *   of a handle
 */
/**
 * The calls of a kind of handle, without the kind's prefix.
 * @template {Kind} K
 * @typedef {{[N in keyof Named]: N extends `${K}_${infer M}` ? M : never}[keyof Named]} NameOf
 */
/**
 * The parameters of a handle's call after the handle, and its result.
 * @template {string} N
 * @typedef {N extends keyof Named ?
 *   Named[N] extends (at: number, ...more: infer M) => infer R ? [M, R] : never : never} OfHandle
 */

const CHUNK = 4096; // bytes passed to a call at once
const MOST_EVENTS = 64; // events read from a call at once
const ROOM = 2 * MAX_BODY + 80; // bytes of the longest text of an event
const PAGE = 65536;

const CARRIED = ["code", "body"];
/** @type {Record<string, string[]>} the members that each type of event or command sets */
const MEMBERS = {
  dump: ["pieces"], field: ["square", "piece"], times: ["clock"], noClock: ["clock"],
  ack: ["ack", "ackStatus"], serial: ["serial"], version: ["mainNumber", "subNumber"],
  trademark: CARRIED, battery: CARRIED, longSerial: CARRIED, other: CARRIED,
  refused: ["code", "fault", "at"], cut: ["have"], badLength: [], stray: ["byte"],
  command: ["code", "id"], badSize: [], badStart: [], badEnd: [], strayByte: ["byte"],
};
/** @type {Record<string, string[]>} the members of each kind of clock */
const OF_CLOCKS = { times: ["status", "first", "second"], none: ["status", "raw"] };
const OF_ALL = ["kind", "unasked", "place", "bodyLen"];
/** @type {Record<string, Map<string, [number, any]>>} each struct's members by name */
const PLACES = Object.fromEntries(Object.entries(STRUCTS).map(([struct, { members }]) =>
  [struct, new Map(members.map(([name, ...how]) => [name, how]))]));
/** @type {<N extends string>(object: Readonly<Record<N, number>>) => Record<number, N>} */
const names = object => Object.fromEntries(Object.entries(object).map(([name, n]) => [n, name]));
const EVENT_NAMES = names(EVENTS), FAULT_NAMES = names(FAULTS), CLOCK_NAMES = names(CLOCKS);
const WORD_NAMES = names(WORDS);
const MARK_NAMES = names(MARKS), BUTTON_NAMES = names(BUTTONS);

/** @param {number} value */
function byte(value) {
  if (!Number.isInteger(value) || value < 0 || value > 255) {
    throw new BadValue(`not a byte: ${value}`);
  }
  return value;
}

/**
 * Checks that these are bytes, and `length` of them.
 * @param {ArrayLike<number>} values
 */
function checked(values, length = values?.length) {
  if (!Number.isInteger(length)) throw new BadValue(`not bytes: ${values}`);
  if (values.length !== length) throw new BadValue(`${values.length} bytes instead of ${length}`);
  if (!(values instanceof Uint8Array)) Array.from(values, byte);
  return values;
}

/** @param {Uint8Array} bytes */
function chunk(bytes) {
  if (!(bytes instanceof Uint8Array)) throw new BadValue(`not a Uint8Array: ${bytes}`);
  return bytes;
}

/**
 * A time or a period in whole milliseconds.
 * @param {number} time
 */
export function whole(time) {
  if (!(time >= 0 && time <= Number.MAX_SAFE_INTEGER)) {
    throw new BadValue(`not a time in milliseconds: ${time}`);
  }
  return Math.floor(time);
}

/**
 * The bytes of a text, one for each character, padded with spaces to `length`.
 * @param {string} text
 */
function latin(text, length = 0) {
  const bytes = Array.from(text.padEnd(length), one => byte(one.codePointAt(0) ?? 0));
  if (length && bytes.length > length) throw new BadValue(`more than ${length} characters`);
  return bytes;
}

/**
 * The module's calls, and its memory, which contains all handles. Only this class grows the memory:
 * the module has no instruction for that.
 */
export class Library {
  /** @type {{buffer: ArrayBuffer, grow(pages: number | bigint): unknown}} */
  #memory;
  #top;
  #bytes;
  #view;
  /** @type {Map<number, number[]>} released places by size */
  #free = new Map();

  /** @param {WebAssembly.Instance} instance */
  constructor(instance) {
    const exports = /** @type {any} */ (instance.exports);
    this.#memory = exports.memory;
    this.#top = Number(exports.__heap_base.value);
    this.#bytes = new Uint8Array(this.#memory.buffer);
    this.#view = new DataView(this.#memory.buffer);
    /** @type {Named} named without `dgt_` */
    this.calls = /** @type {any} */ (Object.fromEntries(
      Object.entries(CALLS).map(([name, words]) => {
        const [gives, ...takes] = words.split(",");
        return [name.slice(4), this.#caller(exports[name], gives, takes)];
      })));
    this.version = this.calls.version();
    if (this.version < VERSION || Math.trunc(this.version / 1e6) !== Math.trunc(VERSION / 1e6)) {
      throw new DgtError(`the module has version ${this.version}, but dgt.js needs ${VERSION}`);
    }
    // Besides handles, calls read and write these places.
    this.in = this.take(CHUNK);
    this.other = this.take(512);
    this.out = this.take(ROOM);
    this.events = this.take(MOST_EVENTS * STRUCTS.event.size);
    this.body = this.take(MAX_BODY);
    this.result = this.take(16);
    this.small = this.take(STRUCTS.identity.size);
  }

  /**
   * Makes a call that takes numbers of JavaScript. A returned struct is written to a place that is
   * passed first.
   * @param {(...values: (number | bigint)[]) => any} call @param {string} gives
   * @param {string[]} takes
   * @returns {(...values: number[]) => unknown}
   */
  #caller(call, gives, takes) {
    const isWide = takes.map(each => each === "wide");
    const handed = (/** @type {number[]} */ values) =>
      values.map((value, n) => isWide[n] ? BigInt(value) : value);
    switch (gives) {
      case "wide": return (...values) => Number(call(...handed(values)));
      case "u32": return (...values) => call(...handed(values)) >>> 0;
      case "bool": return (...values) => Boolean(call(...handed(values)));
      case "u8": case "char": case "void": return (...values) => call(...handed(values));
      default: return (...values) => {
        call(BigInt(this.result), ...handed(values));
        return this.read(/** @type {keyof Structs} */ (gives), this.result);
      };
    }
  }

  /**
   * Returns a place of `size` bytes, aligned to 16.
   * @param {number} size
   * @returns {number}
   */
  take(size) {
    const free = this.#free.get(size)?.pop();
    if (free !== undefined) return free;
    const at = Math.ceil(this.#top / 16) * 16, end = at + size;
    const lacking = end - this.#memory.buffer.byteLength;
    if (end > 2 ** 31) throw new RangeError("no more memory"); // places are below 2 GB
    if (lacking > 0) this.#grow(Math.ceil(lacking / PAGE)); // may throw a RangeError
    this.#top = end;
    return at;
  }

  // A memory of 64 bits takes a BigInt, and one of 32 bits a number: each refuses the other.
  /** @param {number} pages */
  #grow(pages) {
    try {
      this.#memory.grow(pages);
    } catch (error) {
      if (!(error instanceof TypeError)) throw error;
      this.#memory.grow(BigInt(pages));
    }
    this.#bytes = new Uint8Array(this.#memory.buffer);
    this.#view = new DataView(this.#memory.buffer);
  }

  /** @param {number} at @param {number} size */
  giveBack(at, size) {
    this.#free.set(size, [...this.#free.get(size) ?? [], at]);
  }

  /** The size of the module's memory in bytes. */
  get memorySize() {
    return this.#memory.buffer.byteLength;
  }

  /**
   * A copy of bytes.
   * @param {number} at @param {number} size
   */
  bytes(at, size) {
    return this.#bytes.slice(at, at + size);
  }

  /**
   * Writes bytes, and returns their place.
   * @param {number} at @param {ArrayLike<number>} values
   */
  put(at, values) {
    this.#bytes.set(values, at);
    return at;
  }

  /**
   * The text up to the first zero byte.
   * @param {number} at
   */
  text(at) {
    return String.fromCharCode(...this.#bytes.subarray(at, this.#bytes.indexOf(0, at)));
  }

  /** @param {number} at */
  wide(at) {
    return Number(this.#view.getBigUint64(at, true));
  }

  /**
   * The members of a struct.
   * @template {keyof Structs} S @param {S} struct @param {number} at
   * @returns {Struct<S>}
   */
  read(struct, at) {
    return /** @type {any} */ (this.#members(struct, at, PLACES[struct].keys()));
  }

  /**
   * The members with these names.
   * @param {keyof Structs} struct @param {number} at @param {Iterable<string>} wanted
   */
  #members(struct, at, wanted) {
    /** @type {Record<string, any>} */
    const found = {};
    for (const name of wanted) {
      const [place, kind] = PLACES[struct].get(name) ?? [];
      if (place !== undefined) found[name] = this.#member(kind, at + place);
    }
    return found;
  }

  /**
   * @param {any} kind  a word or a length
   * @param {number} at
   */
  #member(kind, at) {
    switch (kind) {
      case "u8": return this.#bytes[at];
      case "u16": return this.#view.getUint16(at, true);
      case "bool": return this.#bytes[at] !== 0;
      case "wide": return this.wide(at);
      case "clock": return this.clock(at);
      default: return typeof kind === "number" ? this.bytes(at, kind) : this.read(kind, at);
    }
  }

  /**
   * Writes these members of a struct, zeros for the rest, and returns the place.
   * @param {keyof Structs} struct @param {number} at @param {Record<string, unknown>} values
   */
  write(struct, at, values) {
    this.#bytes.fill(0, at, at + STRUCTS[struct].size);
    for (const [name, [place, kind]] of PLACES[struct]) {
      if (values[name] !== undefined) this.#writeMember(kind, at + place, values[name]);
    }
    return at;
  }

  /**
   * @param {any} kind  a word or a length
   * @param {number} at @param {any} value
   */
  #writeMember(kind, at, value) {
    switch (kind) {
      case "u8": this.#bytes[at] = byte(value); break;
      case "u16":
        if (!(value >= 0 && value <= 65535)) throw new BadValue(`not from 0 to 65535: ${value}`);
        this.#view.setUint16(at, value, true);
        break;
      case "wide": this.#view.setBigUint64(at, BigInt(whole(value)), true); break;
      case "clock": this.writeClock(at, value); break;
      case "body":
        if (value.length > 64) throw new BadValue(`a body of ${value.length} bytes, not 0 to 64`);
        this.write("body", at, { len: value.length });
        this.put(at + 8, checked(value));
        break;
      default:
        if (typeof kind === "number") this.put(at, checked(value, kind));
        else this.write(kind, at, value);
    }
  }

  /**
   * @param {number} at
   * @returns {Clock | null}
   */
  clock(at) {
    const kind = CLOCK_NAMES[this.#bytes[at]];
    if (kind === "unknown") return null;
    return /** @type {any} */ ({ kind, ...this.#members("clock", at, OF_CLOCKS[kind]) });
  }

  /** @param {number} at @param {Clock} clock */
  writeClock(at, clock) {
    /** @type {Record<string, any>} */
    const given = clock, members = OF_CLOCKS[clock?.kind];
    if (!members) throw new BadValue(`not a clock: ${clock?.kind ?? clock}`);
    const said = Object.fromEntries(members.map(name => [name, given[name]]));
    return this.write("clock", at, { kind: CLOCKS[clock.kind], ...said });
  }

  /**
   * The event at a place, or null if there is none. Its body is at `this.body`.
   * @param {number} at
   * @param {number} before  the number of bytes received before the call
   * @returns {Event | null}
   */
  event(at, before) {
    const { kind, unasked, place, bodyLen } = this.#members("event", at, OF_ALL);
    if (kind === EVENTS.none) return null;
    const type = EVENT_NAMES[kind] ?? "other";
    /** @type {any} */
    const event = { type, offset: before + place, unasked: unasked === 1,
                    ...this.#members("event", at, MEMBERS[type]) };
    if (type === "refused") event.fault = FAULT_NAMES[event.fault];
    if (type === "dump") event.placement = this.placement(event.pieces);
    if (MEMBERS[type] === CARRIED) event.body = this.bytes(this.body, bodyLen);
    return type === "field" ? { ...event, ...this.#named(event) } : event;
  }

  /**
   * The name of a square, and the letter of a piece.
   * @param {{square: number, piece: number}} numbers
   */
  #named({ square, piece }) {
    return { square: this.squareName(square), piece: this.pieceLetter(piece) };
  }

  /**
   * Writes a message to `events`, and its body to `body`. Returns a call's arguments for both.
   * @param {Encodable} message
   * @returns {[number, number, number]}
   */
  #writeMessage(message) {
    /** @type {Record<string, any>} */
    const given = message, { type } = message, members = MEMBERS[type] ?? [];
    if (!(type in EVENTS)) throw new BadValue(`not a type of message: '${type}'`);
    const lacking = members.filter(name => given[name] === undefined);
    if (lacking.length) throw new BadValue(`a ${type} lacks its ${lacking.join(" and ")}`);
    const said = Object.fromEntries(members.map(name => [name, given[name]]));
    if ("fault" in message) said.fault = FAULTS[message.fault];
    if (type === "field") said.square = this.squareNumber(said.square);
    if (type === "field") said.piece = this.pieceCode(said.piece);
    const body = "body" in message ? checked(message.body) : [];
    if (body.length > MAX_BODY) throw new BadValue(`a body of more than ${MAX_BODY} bytes`);
    this.write("event", this.events, { ...said, kind: EVENTS[type] });
    return [this.events, this.put(this.body, body), body.length];
  }

  /**
   * The bytes that a call has written to `out`.
   * @param {Struct<"encoded">} encoded
   */
  #encoded({ status, bytes }) {
    if (status === REFUSED) throw new BadValue("a member is out of its range");
    return this.bytes(this.out, bytes);
  }

  /**
   * The bytes of a message, as a board sends them.
   * @param {Encodable} message
   */
  encodeMessage(message) {
    return this.#encoded(this.calls.encode_message(...this.#writeMessage(message), this.out, ROOM));
  }

  /**
   * The line that `dgt monitor` prints for an event, without the offset.
   * @param {Encodable} event
   */
  eventText(event) {
    return String.fromCharCode(...this.#encoded(
      this.calls.event_text(...this.#writeMessage(event), this.out, ROOM))).slice(0, -1);
  }

  /**
   * The message with this code and this body, or a "refused" that names the body's fault.
   * @param {number} code @param {ArrayLike<number>} body
   * @returns {Message}
   */
  viewMessage(code, body) {
    const { length } = checked(body);
    if (length > MAX_BODY || !this.calls.view_message(
      byte(code), this.put(this.body, body), length, this.events)) {
      throw new BadValue(`the code ${code} or a byte is above 127, or the body is too long`);
    }
    const { offset, unasked, ...message } = /** @type {Event} */ (this.event(this.events, 0));
    return message;
  }

  /**
   * The bytes of a command.
   * @param {CommandCode} code
   * @param {number} id  of a clock message, one of IDS
   * @param {ArrayLike<number>} carried
   */
  encodeCommand(code, id = 0, carried = []) {
    if (checked(carried).length > 255) throw new BadValue("a command carries at most 255 bytes");
    return this.#encoded(this.calls.encode_command(
      byte(code), byte(id), this.put(this.other, carried), carried.length, this.out, ROOM));
  }

  /**
   * The command with exactly these bytes, or null.
   * @param {ArrayLike<number>} word
   */
  viewCommand(word) {
    if (checked(word).length > CHUNK) return null;
    const isOne = this.calls.view_command(this.put(this.in, word), word.length, this.small);
    return isOne ? this.command(this.in) : null;
  }

  /**
   * The command that a call has reported at `small`, or null.
   * @param {number} word
   * @returns {Command | null}
   */
  command(word) {
    const { kind, wordLen } = this.read("command", this.small);
    if (kind === WORDS.noWord) return null;
    const type = WORD_NAMES[kind] ?? "strayByte";
    /** @type {any} */
    const command = { type, ...this.#members("command", this.small, MEMBERS[type]) };
    if (type === "command") command.word = this.bytes(word, wordLen);
    return command;
  }

  // The meanings of carried bytes that other programs give them. No board was tried.

  /**
   * Writes a body to `body`, and returns a call's arguments for it.
   * @param {ArrayLike<number>} body
   * @returns {[number, number]}
   */
  #putBody(body) {
    if (checked(body).length > MAX_BODY) throw new BadValue(`more than ${MAX_BODY} bytes`);
    return [this.put(this.body, body), body.length];
  }

  /**
   * Reads the body of a message with the code 0f: what a board has stored, in order. A board sends
   * it after the byte 49, which no call here encodes.
   * @param {ArrayLike<number>} body
   */
  readStored(body) {
    const [begin, length] = this.#putBody(body);
    /** @type {Stored[]} */
    const found = [];
    for (let at = 0; at < length;) {
      at += this.calls.stored_first(begin + at, length - at, this.small);
      const { kind, square, piece, bit, byte, time } = this.read("stored", this.small);
      if (kind === STORED.piece) {
        found.push({ type: "piece", ...this.#named({ square, piece }), bit: bit === 1 });
      } else if (kind === STORED.time) found.push({ type: "time", time });
      else if (kind === STORED.mark) found.push({ type: "mark", mark: MARK_NAMES[byte] });
      else found.push({ type: "unknown", byte });
    }
    return found;
  }

  /**
   * The meaning of an acknowledgement's four bytes, or null if that is unknown.
   * @param {ArrayLike<number>} ack
   * @returns {Signal | null}
   */
  signalOf(ack) {
    if (!this.calls.signal_of(this.put(this.in, checked(ack, 4)), this.small)) return null;
    const { kind, id, mainNumber, subNumber, button } = this.read("signal", this.small);
    switch (kind) {
      case SIGNALS.done: return { type: "done", id };
      case SIGNALS.version: return { type: "version", mainNumber, subNumber };
      case SIGNALS.pressed: return { type: "pressed", button: BUTTON_NAMES[button] };
      default: return { type: kind === SIGNALS.off ? "off" : "ready" };
    }
  }

  /**
   * The meaning of a battery message's body, or null unless it has nine bytes.
   * @param {ArrayLike<number>} body
   * @returns {BatteryState | null}
   */
  batteryOf(body) {
    if (!this.calls.battery_of(...this.#putBody(body), this.small)) return null;
    const it = this.read("battery", this.small);
    const known = (/** @type {number} */ n) => n === BATTERY_UNKNOWN ? null : n;
    return { ...it, percent: known(it.percent), hoursLeft: known(it.hoursLeft),
             minutesLeft: known(it.minutesLeft), charging: it.charging === 1,
             discharging: it.discharging === 1 };
  }

  /**
   * These bytes as text, or null if there are none or one isn't a printable character.
   * @param {ArrayLike<number>} bytes
   */
  textOf(bytes) {
    const isOne = this.calls.is_text(...this.#putBody(bytes));
    return isOne ? String.fromCharCode(...Array.from(bytes)) : null;
  }

  /**
   * The placement of a FEN.
   * @param {ArrayLike<number>} pieces
   */
  placement(pieces) {
    if (!this.calls.placement(this.put(this.in, checked(pieces, 64)), this.small)) {
      throw new BadValue("a piece is above 15");
    }
    return this.text(this.small);
  }

  /**
   * The pieces of a placement.
   * @param {string} text
   */
  parsePlacement(text) {
    const bytes = latin(text.slice(0, CHUNK));
    const { ok, at } = this.calls.parse_placement(this.put(this.in, bytes), bytes.length,
                                                  this.small);
    if (!ok) throw new BadPlacement(at);
    return this.bytes(this.small, 64);
  }

  /**
   * The squares on which two positions differ.
   * @param {ArrayLike<number>} pieces @param {ArrayLike<number>} others
   */
  differ(pieces, others) {
    const [one, other] = [this.put(this.in, checked(pieces, 64)),
                          this.put(this.other, checked(others, 64))];
    if (!this.calls.differ(one, other, this.small)) throw new BadValue("a piece is above 15");
    return this.squares(this.small);
  }

  /**
   * The squares of a set.
   * @param {number} at
   */
  squares(at) {
    const bits = this.#view.getBigUint64(at, true);
    return [...Array(64).keys()].filter(n => bits >> BigInt(n) & 1n);
  }

  /**
   * The move at a place, as a text.
   * @param {number} at
   */
  move(at) {
    const { from, to, promotion } = this.read("chess_move", at);
    const letter = promotion ? this.pieceLetter(promotion).toLowerCase() : "";
    return this.squareName(from) + this.squareName(to) + letter;
  }

  /**
   * The letter of a piece in a FEN, or "." for 0.
   * @param {number} piece
   */
  pieceLetter(piece) {
    const letter = this.calls.piece_letter(byte(piece));
    if (!letter) throw new BadValue(`not a piece from 0 to 15: ${piece}`);
    return String.fromCharCode(letter);
  }

  /**
   * The piece with this letter.
   * @param {string} letter
   */
  pieceCode(letter) {
    return this.#such("piece_code", letter, 1);
  }

  /**
   * The name of a square, such as "e4".
   * @param {number} square
   */
  squareName(square) {
    if (!this.calls.square_name(byte(square), this.small)) {
      throw new BadValue(`not a square from 0 to 63: ${square}`);
    }
    return this.text(this.small);
  }

  /**
   * The square with this name.
   * @param {string} name
   */
  squareNumber(name) {
    return this.#such("square_number", name, 2);
  }

  /**
   * The segments of a digit, a space or a hyphen on the clock's display.
   * @param {string} character
   */
  segment(character) {
    return this.#such("segment", character, 1);
  }

  /**
   * @param {"piece_code" | "square_number" | "segment"} name @param {string} text
   * @param {number} length
   */
  #such(name, text, length) {
    /** @type {(...values: number[]) => number} */
    const call = this.calls[name], isOne = typeof text === "string" && text.length === length;
    const found = isOne ? call(...latin(text)) : NO_SUCH;
    if (found === NO_SUCH) throw new BadValue(`not a ${name.split("_")[0]}: '${text}'`);
    return found;
  }
}

/**
 * The bytes at a URL. In Node, `fetch` reads no files.
 * @param {URL | string} url
 */
async function fetched(url) {
  if ("process" in globalThis && String(url).startsWith("file:")) {
    const files = "node:fs/promises"; // bundlers for browsers mustn't look for it
    const { readFile } = await import(/* @vite-ignore */ /* webpackIgnore: true */ files);
    return readFile(new URL(url));
  }
  const answer = await fetch(url);
  if (!answer.ok) throw new DgtError(`${url} can't be fetched: status ${answer.status}`);
  return answer.arrayBuffer(); // whatever content type the server sends
}

/**
 * Loads the module. Without an argument it takes one from this file's folder, also in Node:
 * dgt64.wasm if 64-bit memories are supported, or dgt.wasm.
 * @param {BufferSource | WebAssembly.Module | URL | string} [source]  the module, its bytes, or its
 *   URL
 */
export async function load(source) {
  const name = isWide() ? "dgt64.wasm" : "dgt.wasm";
  let taken = source ?? new URL(name, import.meta.url);
  if (typeof taken === "string" || taken instanceof URL) taken = await fetched(taken);
  const module = taken instanceof WebAssembly.Module ? taken : await WebAssembly.compile(taken);
  return new Library(await WebAssembly.instantiate(module, {}));
}

/** Whether 64-bit memories are supported: validates a module that has only such a memory. */
export function isWide() {
  return WebAssembly.validate(Uint8Array.of(0, 97, 115, 109, 1, 0, 0, 0, 5, 3, 1, 4, 1));
}

/**
 * The bytes for `sendLeds` that light two squares, or none.
 * @param {string[]} squares  such as "e2", "e4"
 */
export function lighting(...squares) {
  if (squares.length === 0) return Uint8Array.of(0, 64, 64, 0);
  if (squares.length !== 2 || !squares.every(name => /^[a-h][1-8]$/.test(name))) {
    throw new BadValue(`not two squares: ${squares.join(", ")}`);
  }
  const numbers = squares.map(([file, rank]) => "abcdefgh".indexOf(file) + 8 * (8 - Number(rank)));
  return Uint8Array.of(1, ...numbers, 0);
}

/** @type {FinalizationRegistry<{dgt: Library, at: number, size: number}>} */
const forgotten = new FinalizationRegistry(({ dgt, at, size }) => dgt.giveBack(at, size));

/**
 * The base of all handles. `close` releases their memory, and so does the garbage collector.
 * @template {Kind} K
 */
export class Handle {
  #at;
  #size;

  /** @param {Library} dgt @param {K} kind */
  constructor(dgt, kind) {
    this.dgt = dgt;
    this.kind = kind;
    this.#size = dgt.calls[/** @type {`${Kind}_size`} */ (`${kind}_size`)]();
    this.#at = dgt.take(this.#size);
    dgt.calls[/** @type {`${Kind}_make`} */ (`${kind}_make`)](this.#at);
    forgotten.register(this, { dgt, at: this.#at, size: this.#size }, this);
  }

  /**
   * A call with this handle first.
   * @template {NameOf<K>} N @param {N} name @param {OfHandle<`${K}_${N}`>[0]} values
   * @returns {OfHandle<`${K}_${N}`>[1]}
   */
  call(name, ...values) {
    if (!this.#at) throw new Closed(`the ${this.kind} was closed`);
    /** @type {Record<string, any>} */
    const { calls } = this.dgt;
    return calls[`${this.kind}_${name}`](this.#at, ...values);
  }

  close() {
    if (!this.#at) return;
    forgotten.unregister(this);
    this.dgt.giveBack(this.#at, this.#size);
    this.#at = 0;
  }
}

/**
 * A reader of a board's bytes.
 * @extends {Handle<"host" | "follower" | "decoder">}
 */
class Reader extends Handle {
  /** The number of bytes used since it was made, finished or reset, or its line was lost. */
  total = 0;

  /**
   * The events of a chunk.
   * @param {"feed_many" | "hear_many"} name  of the call
   * @param {Uint8Array} bytes
   * @returns {Event[]}
   */
  all(name, bytes) {
    const { dgt } = this, { event: { size } } = STRUCTS, found = [];
    chunk(bytes);
    for (let from = 0; from < bytes.length;) {
      const part = bytes.subarray(from, from + CHUNK);
      const { used, count } = /** @type {{used: number, count: number}} */ (this.call(
        name, dgt.put(dgt.in, part), part.length, dgt.events, MOST_EVENTS, dgt.body, MAX_BODY));
      for (let n = 0; n < count; n++) {
        found.push(/** @type {Event} */ (dgt.event(dgt.events + n * size, this.total)));
      }
      from += used;
      this.total += used;
    }
    return found;
  }

  /**
   * The same, one by one: a byte is used once you have taken the event before it.
   * @param {"feed" | "hear"} name @param {Uint8Array} bytes
   * @param {[] | [number]} before  the call's arguments before the bytes
   * @returns {Generator<Event, void, undefined>}
   */
  *each(name, bytes, ...before) {
    const { dgt } = this;
    chunk(bytes);
    for (let from = 0; from < bytes.length;) {
      const part = bytes.subarray(from, from + 256);
      const used = this.call(name, ...before, dgt.put(dgt.in, part), part.length, dgt.events,
                             dgt.body, MAX_BODY);
      const event = dgt.event(dgt.events, this.total);
      from += used;
      this.total += used;
      if (event) yield event;
    }
  }
}

/** Reports the events of a board's bytes, without keeping a picture. */
export class Decoder extends Reader {
  /** @param {Library} dgt */
  constructor(dgt) {
    super(dgt, "decoder");
  }

  /** @param {Uint8Array} bytes */
  feed(bytes) {
    return this.all("feed_many", bytes);
  }

  /** @param {Uint8Array} bytes */
  feedEach(bytes) {
    return this.each("feed", bytes);
  }

  /** The number of bytes received of an unfinished message. */
  get unread() {
    return this.call("unread");
  }

  /** Returns the same at the end of the bytes, and resets the decoder. */
  finish() {
    const count = this.call("finish");
    this.total = 0;
    return count;
  }

  /** Returns to the first state. */
  reset() {
    this.call("reset");
    this.total = 0;
  }
}

/**
 * The commands of hosts and followers. Each call returns the bytes to write to the line. It throws
 * a BadValue if no command carries such a text or payload.
 */
class Sender extends Reader {
  /**
   * @template {NameOf<"host" | "follower">} N @param {N} name
   * @param {OfHandle<`${"host" | "follower"}_${N}`>[0] extends [...infer M, number, number] ? M :
   *   never} values  all but the place to write to, and its size
   */
  sent(name, ...values) {
    const { dgt } = this, given = /** @type {any} */ ([...values, dgt.out, ROOM]);
    const { status, bytes } = /** @type {Struct<"sent">} */ (this.call(name, ...given));
    if (status === TOO_MANY_AWAITED) throw new TooManyAwaited("16 replies are awaited already");
    if (status === REFUSED) throw new BadValue("no command has this code, text or payload");
    return dgt.bytes(dgt.out, bytes);
  }

  /**
   * @param {ArrayLike<number>} bytes
   * @returns {[number, number]} their place and their number
   */
  #carried(bytes) {
    if (checked(bytes).length > 255) throw new BadValue("a command carries at most 255 bytes");
    return [this.dgt.put(this.dgt.in, bytes), bytes.length];
  }

  /**
   * A command of one byte.
   * @param {ByteCommand} code
   */
  send(code) {
    return this.sent("send", byte(code));
  }

  /**
   * A message to the clock.
   * @param {number} id  one of IDS
   * @param {ArrayLike<number>} payload
   */
  sendClock(id, payload = []) {
    return this.sent("send_clock", byte(id), ...this.#carried(payload));
  }

  /**
   * Shows at most six digits, spaces and hyphens.
   * @param {string} text
   */
  sendDisplay(text, dots = 0, beep = 0) {
    return this.sent("send_display", this.#carried(latin(text, 6))[0], byte(dots), byte(beep));
  }

  /**
   * Shows at most eight ASCII characters.
   * @param {string} text
   */
  sendText(text, beep = 0) {
    if (latin(text).some(one => one > 127)) throw new BadValue(`not ASCII: '${text}'`);
    return this.sent("send_text", this.#carried(latin(text, 8))[0], byte(beep));
  }

  /** @param {number} duration */
  sendBeep(duration) {
    return this.sent("send_beep", byte(duration));
  }

  /**
   * Sets the times of both sides: hours, minutes and seconds.
   * @param {ArrayLike<number>} left @param {ArrayLike<number>} right @param {number} control
   */
  sendSetAndRun(left, right, control) {
    const { dgt } = this;
    return this.sent("send_set_and_run", dgt.put(dgt.in, checked(left, 3)),
                     dgt.put(dgt.other, checked(right, 3)), byte(control));
  }

  /** @param {ArrayLike<number>} icons */
  sendIcons(icons) {
    return this.sent("send_icons", ...this.#carried(icons));
  }

  /** Makes the clock show its times again. */
  sendEnd() {
    return this.sent("send_end");
  }

  /** Requests the state of the clock's buttons. */
  sendButton() {
    return this.sent("send_button");
  }

  sendClockVersion() {
    return this.sent("send_clock_version");
  }

  /**
   * Lights LEDs: pass the result of `lighting`, or other bytes.
   * @param {ArrayLike<number>} leds
   */
  sendLeds(leds) {
    return this.sent("send_leds", ...this.#carried(leds));
  }

  /** The pieces on the squares, or null before the first dump. */
  get picture() {
    const { dgt } = this;
    return this.call("picture", dgt.small) ? dgt.bytes(dgt.small, 64) : null;
  }

  /** The same as text, the placement of a FEN. */
  get placement() {
    const { dgt } = this;
    return this.call("placement", dgt.small) ? dgt.text(dgt.small) : null;
  }

  /** The board's last report of its clock, or null. */
  get clock() {
    const { dgt } = this;
    this.call("clock", dgt.small);
    return dgt.clock(dgt.small);
  }

  /** The number of bytes received of an unfinished message. */
  get unread() {
    return this.call("unread");
  }

  /** Call it when the line was lost, with everything in transit. */
  lineLost() {
    this.call("line_lost");
    this.total = 0;
  }
}

/** Sends requests when you call it, and keeps a picture from the board's bytes. */
export class Host extends Sender {
  /** @param {Library} dgt */
  constructor(dgt) {
    super(dgt, "host");
  }

  /** @param {Uint8Array} bytes */
  hear(bytes) {
    return this.all("hear_many", bytes);
  }

  /** @param {Uint8Array} bytes */
  hearEach(bytes) {
    return this.each("hear", bytes);
  }

  /** Requests each change, and all squares. */
  follow() {
    return this.sent("follow");
  }

  /** The same after 255 zeros, which complete any command that the board has in part. */
  restart() {
    return this.sent("restart");
  }

  /** The codes of the commands that await replies, the next one first. */
  get awaited() {
    const { dgt } = this;
    const count = this.call("awaited", dgt.small);
    return [...dgt.bytes(dgt.small, count)];
  }

  giveUpAwaited() {
    return this.call("give_up_awaited");
  }
}

/**
 * A host that keeps its picture right: it requests the whole position again and again. After LED
 * frames and messages to the clock, it repeats its mode's command: if a byte of those is lost, the
 * board may read others of them as commands, and reset ends its reports.
 */
export class Follower extends Sender {
  /**
   * @param {Library} dgt
   * @param {{period?: number, patience?: number, mode?: ReportingMode, confirm?: boolean,
   *   identify?: boolean, clock?: boolean}} [options]  `clock` stands for the mode updateNice, in
   *   which the board also reports its clock
   */
  constructor(dgt, options = {}) {
    const { period = 10000, patience = 6, clock = false } = options;
    const { mode = clock ? MODES.updateNice : MODES.updateBoard } = options;
    if (clock && "mode" in options) throw new BadValue("clock and mode exclude each other");
    const wanted = whole(period);
    if (wanted < LEAST_PERIOD) {
      throw new BadValue(`not a period of ${LEAST_PERIOD} milliseconds or more: ${period}`);
    }
    if (!(patience >>> 0 === patience)) {
      throw new BadValue(`not a patience from 0 to 4294967295: ${patience}`);
    }
    super(dgt, "follower");
    this.call("start", wanted, patience);
    this.mode = mode;
    this.call("set_confirm", Boolean(options.confirm));
    this.call("set_identify", Boolean(options.identify));
  }

  /**
   * The request to send now, or null if none is due.
   * @param {number} now
   */
  ask(now) {
    const asked = this.sent("ask", whole(now));
    return asked.length ? asked : null;
  }

  /** The first time at which `ask` returns a request unless bytes arrive before, or Infinity. */
  get dueAt() {
    return this.#time("due_at") ?? Infinity;
  }

  /** The time of the last whole message, or null. */
  get lastHeard() {
    return this.#time("last_heard");
  }

  /** @param {"due_at" | "last_heard"} name */
  #time(name) {
    return this.call(name, this.dgt.small) ? this.dgt.wide(this.dgt.small) : null;
  }

  /** Makes a request due at once, or as soon as the last one is answered. */
  askNow() {
    this.call("ask_now");
  }

  /**
   * Hears bytes that arrived at this time.
   * @param {number} now @param {Uint8Array} bytes
   */
  hear(now, bytes) {
    const { dgt } = this, at = whole(now);
    for (let from = 0; from < chunk(bytes).length; from += CHUNK) {
      const part = bytes.subarray(from, from + CHUNK);
      this.call("hear_all", at, dgt.put(dgt.in, part), part.length);
    }
    this.total += bytes.length;
  }

  /**
   * The events of bytes that arrived at this time. A byte is heard once you have taken the event
   * before it.
   * @param {number} now @param {Uint8Array} bytes
   */
  hearEach(now, bytes) {
    return this.each("hear", bytes, whole(now));
  }

  /** The mode that each request sets: what the board reports by itself. */
  get mode() {
    return /** @type {ReportingMode} */ (this.call("mode"));
  }

  set mode(mode) {
    if (!this.call("set_mode", byte(mode))) throw new BadValue(`not a reporting mode: ${mode}`);
  }

  /** Whether the picture may be wrong. */
  get inDoubt() {
    return this.call("in_doubt");
  }

  /** Whether a second report of all squares has shown the same picture. */
  get confirmed() {
    return this.call("confirmed");
  }

  /** The serial number of the board, or null. */
  get serial() {
    const { dgt } = this;
    return this.call("serial", dgt.small) ? dgt.bytes(dgt.small, 5) : null;
  }

  get heartbeatsLeft() {
    return this.call("heartbeats_left");
  }

  /** Call it when the reader of the line has found that bytes were lost or altered. */
  lineDisturbed() {
    this.call("line_disturbed");
  }
}

/**
 * Reports the commands in a host's bytes.
 * @extends {Handle<"command_decoder">}
 */
export class CommandDecoder extends Handle {
  /** @param {Library} dgt */
  constructor(dgt) {
    super(dgt, "command_decoder");
  }

  /** @param {Uint8Array} bytes */
  feed(bytes) {
    const { dgt } = this, found = [];
    for (let from = 0; from < chunk(bytes).length;) {
      const part = bytes.subarray(from, from + CHUNK);
      from += this.call("feed", dgt.put(dgt.in, part), part.length, dgt.small, dgt.body, MAX_BODY);
      const command = dgt.command(dgt.body);
      if (command) found.push(command);
    }
    return found;
  }

  /** The number of bytes received of an unfinished command. */
  get unread() {
    return this.call("unread");
  }

  /** Returns the same at the end of the bytes, and resets the decoder. */
  finish() {
    return this.call("finish");
  }

  reset() {
    this.call("reset");
  }
}

/**
 * A simulated board.
 * @extends {Handle<"board">}
 */
export class Board extends Handle {
  /** @param {Library} dgt */
  constructor(dgt) {
    super(dgt, "board");
  }

  /**
   * Starts the board again, idle.
   * @param {ArrayLike<number>} pieces @param {Clock} clock @param {Identity} identity
   */
  start(pieces, clock, identity) {
    const { dgt } = this;
    const wrong = this.call("start", dgt.put(dgt.in, checked(pieces, 64)),
                            dgt.writeClock(dgt.other, clock),
                            dgt.write("identity", dgt.small, identity));
    if (wrong) {
      const what = ["", "a piece", "a member of the clock", "a member of the identity"][wrong];
      throw new BadValue(`${what} is out of its range`);
    }
  }

  /**
   * Puts the piece with this letter on a square, or empties it with ".".
   * @param {string} square @param {string} piece
   */
  change(square, piece) {
    this.call("change", this.dgt.squareNumber(square), this.dgt.pieceCode(piece));
  }

  /**
   * Sets the times of the clock.
   * @param {Clock} clock
   */
  handClock(clock) {
    const { dgt } = this;
    if (!this.call("hand_clock", dgt.writeClock(dgt.other, clock))) {
      throw new BadValue("a time or a status of the clock is out of its range");
    }
  }

  /**
   * Takes a host's bytes, and stops before one if eight replies are owed: then poll, and pass the
   * rest.
   * @param {Uint8Array} bytes
   */
  take(bytes) {
    const commands = [];
    let used = 0;
    while (used < chunk(bytes).length) {
      const taken = this.#takeOne(bytes.subarray(used, used + CHUNK));
      if (taken.busy) break;
      used += taken.used;
      const command = this.dgt.command(this.dgt.body);
      if (command) commands.push(command);
    }
    return { used, commands };
  }

  /** @param {Uint8Array} part */
  #takeOne(part) {
    const { dgt } = this;
    return this.call("take", dgt.put(dgt.in, part), part.length, dgt.small, dgt.body, MAX_BODY);
  }

  /**
   * Takes all of a host's bytes, and yields the messages to send: first those that were pending,
   * and then the replies to each command. A command is taken once you have taken each message
   * before it.
   * @param {Uint8Array} bytes
   * @returns {Generator<Uint8Array, void, undefined>}
   */
  *answers(bytes) {
    for (let used = 0;; used += this.#takeOne(bytes.subarray(used, used + CHUNK)).used) {
      for (let message; (message = this.poll());) yield message;
      if (used === chunk(bytes).length) return;
    }
  }

  /** The next message to send, or null. It then counts as sent. */
  poll() {
    const { dgt } = this;
    const { status, bytes } = this.call("poll", dgt.out, ROOM);
    return status === WROTE ? dgt.bytes(dgt.out, bytes) : null;
  }

  /** Whether there is anything to send. */
  get owes() {
    return this.call("owes");
  }

  /** The number of owed replies. */
  get owedLength() {
    return this.call("owed_len");
  }

  /** The number of bytes received of an unfinished command. */
  get unread() {
    return this.call("unread");
  }

  get mode() {
    return /** @type {Mode} */ (this.call("mode"));
  }

  get position() {
    const { dgt } = this;
    this.call("position", dgt.small);
    return dgt.bytes(dgt.small, 64);
  }

  get clock() {
    const { dgt } = this;
    this.call("clock", dgt.small);
    return /** @type {Clock} */ (dgt.clock(dgt.small));
  }

  lineLost() {
    this.call("line_lost");
  }
}
