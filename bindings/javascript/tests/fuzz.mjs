// Makes random calls of dgt.js, and compares all that they return with what the library for C has
// returned for them: RIGHT has a hash for each hundred cases. With -v it prints what they return.
// tests/libraries/chess_rules compares chess.js.
//
// node fuzz.mjs MODULE [-v]

import { deepEqual } from "node:assert/strict";
import { readFileSync } from "node:fs";
import { load, Board, BadPlacement, BadValue, CommandDecoder, Decoder, Follower, Host,
         TooManyAwaited } from "../dgt.js";
import { BUTTONS, CLOCKS, EVENTS, FAULTS, MARKS, SIGNALS, STORED, WORDS } from "../header.js";
import { chance } from "./random.mjs";

const RIGHT = [2349714743, 843024212, 4093679176, 673278469, 3241146035, 2900327504, 3425549584,
               2766397869, 3801803229, 3690565890];

Error.stackTraceLimit = 0; // many are thrown
const [module, loud] = process.argv.slice(2);
const dgt = await load(readFileSync(module));

const unused = new Set(Object.keys(dgt.calls).filter(name => !/^(chess|recogniser)_/.test(name)));
for (const [name, call] of Object.entries(dgt.calls)) {
  dgt.calls[name] = (...values) => {
    unused.delete(name);
    return call(...values);
  };
}

const random = chance(1);
const pick = list => list[random(list.length)];
const some = (n, below = 128) => Array.from({ length: n }, () => random(below));

/* Results are hashed. */

let hash = 2166136261 | 0;
function say(words) {
  for (let n = 0; n < words.length; n++) hash = Math.imul(hash ^ words.charCodeAt(n), 16777619);
  if (loud === "-v") process.stdout.write(words);
}
const HEX = Array.from({ length: 256 }, (_, n) => n.toString(16).padStart(2, "0"));
const sayBytes = bytes => say(Array.from(bytes, n => HEX[n]).join("") + " ");
const sayNumbers = (...numbers) => say(numbers.map(n => `${Number(n)} `).join(""));
function sayClock(c) {
  if (c === null) return sayNumbers(CLOCKS.unknown);
  sayNumbers(CLOCKS[c.kind], c.status);
  if (c.kind === "none") return sayBytes(c.raw);
  for (const side of [c.first, c.second]) {
    sayNumbers(side.hours, side.minutes, side.seconds, side.flags);
  }
}
const sayPlace = ({ square, piece }) =>
  sayNumbers(dgt.squareNumber(square), dgt.pieceCode(piece));
function sayMessage(e) {
  sayNumbers(EVENTS[e.type]);
  switch (e.type) {
    case "dump": return sayBytes(dgt.placement(e.pieces) === e.placement ? e.pieces : []);
    case "field": return sayPlace(e);
    case "times": case "noClock": return sayClock(e.clock);
    case "ack": sayBytes(e.ack); return sayNumbers(e.ackStatus);
    case "serial": return sayBytes(e.serial);
    case "version": return sayNumbers(e.mainNumber, e.subNumber);
    case "refused": return sayNumbers(e.code, FAULTS[e.fault], e.at);
    case "cut": return sayNumbers(e.have);
    case "badLength": return undefined;
    case "stray": return sayNumbers(e.byte);
    default: sayNumbers(e.code); return sayBytes(e.body);
  }
}
function sayEvent(e) {
  say("E");
  sayNumbers(e.offset, e.unasked);
  sayMessage(e);
}
function sayCommand(c) {
  say("C");
  sayNumbers(WORDS[c.type]);
  if (c.type === "command") {
    sayNumbers(c.code, c.id);
    sayBytes(c.word);
  }
  if (c.type === "strayByte") sayNumbers(c.byte);
}
function sayStored(it) {
  sayNumbers(STORED[it.type]);
  switch (it.type) {
    case "piece": sayPlace(it); return sayNumbers(it.bit);
    case "time": return sayNumbers(it.time.hours, it.time.minutes, it.time.seconds, it.time.flags);
    case "mark": return sayNumbers(MARKS[it.mark]);
    default: return sayNumbers(it.byte);
  }
}
function saySignal(it) {
  const { type, id = 0, mainNumber = 0, subNumber = 0, button } = it;
  sayNumbers(SIGNALS[type], id, mainNumber, subNumber, button ? BUTTONS[button] : 0);
}
// Hashes what a call returns or throws.
function sayResult(act, then = sayBytes) {
  let result;
  try {
    result = act();
  } catch (error) {
    if (error instanceof TooManyAwaited) return say("many ");
    if (error instanceof BadPlacement) return say(`at ${error.at} `);
    if (error instanceof BadValue) return say("bad ");
    throw error;
  }
  say("ok ");
  if (result !== null && result !== undefined) then(result);
}

/* What the bytes of a board and of a host are like. */

function message() {
  const whole = (code, body) => [0x80 | code, body.length + 3 >> 7, body.length + 3 & 127, ...body];
  const bcd = () => random(6) << 4 | random(10);
  switch (random(12)) {
    case 0: return whole(6, some(64, random(20) ? 13 : 17));
    case 1: case 2: case 3: return whole(14, [random(random(9) ? 64 : 80), random(14)]);
    case 4: return whole(13, [random(128) & 0x7a, bcd(), bcd(), random(128) & 0x79, bcd(), bcd(),
                              random(64)]);
    case 5: return whole(13, [...some(6), 0x20 | random(32)]);
    case 6: return whole(13, [0x0a | random(8) << 4, random(128), random(128),
                              0x0a | random(8) << 4, random(128), random(128), random(128)]);
    case 7: return whole(pick([0x11, 0x12, 0x13, 0x20, 0x22]), some(pick([0, 1, 2, 5, 64, 70])));
    case 8: return whole(random(128), some(random(12)));
    case 9: return whole(random(128), some(pick([128, 300, 600, random(50) ? 130 : 16380])));
    case 10: return [0x80 | random(128), random(128), random(128)];
    default: return some(1 + random(4), 256);
  }
}
function command() {
  const n = random(16);
  switch (random(6)) {
    case 0: return [0x2b, n + 3, 3, pick([1, 2, 3, 8, 9, 10, 11, 12]), ...some(n, 256), 0];
    case 1: return [0x60, n, ...some(n, 256)];
    case 2: return Array(random(300)).fill(0);
    case 3: return some(1 + random(5), 256);
    default: return [pick([0x40, 0x41, 0x42, 0x43, 0x44, 0x45, 0x47, 0x4b, 0x4c, 0x4d, 0x55])];
  }
}
function hurt(bytes) {
  const kind = random(6), at = random(bytes.length || 1);
  if (kind === 0 && bytes.length) bytes[at] = random(256);
  if (kind === 1) bytes.splice(at, 1 + random(3));
  if (kind === 2) bytes.splice(at, 0, random(256));
  return bytes;
}
const chunk = make => {
  const bytes = [];
  for (let n = random(4); n >= 0; n--) bytes.push(...hurt(make()));
  const cut = random(3) ? bytes.length : random(bytes.length + 1);
  kept = bytes.slice(cut);
  return bytes.slice(0, cut);
};
let kept = []; // of the chunk before: its end comes next

/* The cases. */

let has, now;

function anyClock() {
  const bytes = random(2) ? [1, random(140), 0, 0, 0, 0, 0, 0, random(11), random(61), random(61),
                             random(9), random(10), random(60), random(60), random(8)] :
    [2, 0x20 | random(64), ...some(6, random(9) ? 128 : 200), 0, 0, 0, 0, 0, 0, 0, 0];
  const time = at => ({ hours: bytes[at], minutes: bytes[at + 1], seconds: bytes[at + 2],
                        flags: bytes[at + 3] });
  return bytes[0] === 1 ?
    { kind: "times", status: bytes[1], first: time(8), second: time(12) } :
    { kind: "none", status: bytes[1], raw: bytes.slice(2, 8) };
}

// A square and a piece by name. There may be none.
const place = (square, piece) => ({ square: square > 63 ? "i9" : dgt.squareName(square),
                                    piece: piece > 15 ? "x" : dgt.pieceLetter(piece) });

// A message with members of any range.
function anyMessage() {
  const clock = anyClock(), n = some(9, random(4) ? 128 : 256);
  return pick([
    { type: "field", ...place(n[0] & 71, n[1] & 17) },
    { type: "version", mainNumber: n[0], subNumber: n[1] },
    { type: "ack", ack: n.slice(0, 4), ackStatus: n[4] }, { type: "serial", serial: n.slice(0, 5) },
    { type: clock.kind === "times" ? "times" : "noClock", clock },
  ]);
}

const sayEvents = events => { for (const each of events) sayEvent(each); };
const ACTS = [
  [6, () => {
    const bytes = take(message);
    sayEvents(has.decoder[random(2) ? "feed" : "feedEach"](bytes));
  }],
  [6, () => {
    const bytes = take(message);
    sayEvents(has.host[random(2) ? "hear" : "hearEach"](bytes));
  }],
  [4, () => has.follower.hear(now, take(message))],
  [4, () => sayEvents(has.follower.hearEach(now, take(message)))],
  [3, () => has.reader.feed(take(command)).forEach(sayCommand)],
  [5, () => {
    const { used, commands } = has.board.take(take(command));
    commands.forEach(sayCommand);
    sayNumbers(used);
  }],
  [4, () => { for (let n = random(8); n >= 0; n--) sayResult(() => has.board.poll()); }],
  [4, () => {
    const { square, piece } = place(random(66), random(17));
    sayResult(() => has.board.change(square, piece));
  }],
  [4, () => {
    const code = random(3) ? 0x40 + random(0x16) : random(256), sender = random(2);
    sayResult(() => (sender ? has.follower : has.host).send(code));
  }],
  [2, () => {
    const restarts = random(2);
    sayResult(() => restarts ? has.host.restart() : has.host.follow());
  }],
  [4, () => {
    now += random(4000);
    sayResult(() => has.follower.ask(now) ?? []);
  }],
  [3, sayClockCommand],
  [1, () => {
    const mode = random(5);
    sayResult(() => { has.follower.mode = mode; });
  }],
  [2, () => OTHERS[random(10)]()],
  [1, () => {
    const clock = anyClock();
    sayResult(() => has.board.handClock(clock));
  }],
  [1, () => {
    const words = anyPlacement();
    sayResult(() => dgt.parsePlacement(words));
  }],
  [1, () => {
    const pieces = some(64, random(4) ? 16 : 17), clock = anyClock();
    const below = random(9) ? 128 : 130, bodies = [0, 1, 2].map(() => some(random(65), below));
    const [serial, numbers] = [some(5, below), some(3, below)];
    const [mainNumber, subNumber, clockVersion] = numbers;
    const [trademark, battery, longSerial] = bodies;
    sayResult(() => has.board.start(pieces, clock, {
      serial, mainNumber, subNumber, clockVersion, trademark, battery, longSerial }));
  }],
  [1, () => {
    const code = random(9) ? pick([0x06, 0x0d, 0x0e, 0x11, 0x13, 0x20, random(128)]) : random(256);
    const body = some(pick([0, 2, 2, 5, 7, 7, 64, 250]), random(3) ? 16 : 130);
    sayResult(() => dgt.viewMessage(code, body), view => {
      sayMessage(view);
      sayResult(() => dgt.encodeMessage(view));
      say(dgt.eventText(view));
    });
  }],
  [1, () => {
    const message = anyMessage();
    sayResult(() => dgt.encodeMessage(message));
    sayResult(() => dgt.eventText(message), say);
  }],
  [1, () => {
    const word = hurt(command()).slice(0, 255), carried = some(random(14), 256);
    const [code, id] = [random(4) ? pick([0x2b, 0x60, 0x42]) : random(256), random(16)];
    sayResult(() => dgt.encodeCommand(code, id, carried));
    const found = dgt.viewCommand(word);
    if (found) sayCommand(found);
  }],
  [1, () => {
    const [one, other] = [some(64, random(4) ? 16 : 17), some(64, 16)];
    const [n, c, d] = [random(70), 32 + random(96), 32 + random(32)];
    if (random(2)) one.forEach((piece, at) => { if (random(9)) other[at] = piece; });
    const [letter, next] = [c, d].map(code => String.fromCharCode(code));
    sayResult(() => dgt.differ(one, other));
    sayResult(() => dgt.placement(one), say);
    sayResult(() => dgt.pieceLetter(n & 31), say);
    sayResult(() => dgt.squareName(n), say);
    sayResult(() => dgt.pieceCode(letter), sayNumbers);
    sayResult(() => dgt.segment(letter), sayNumbers);
    sayResult(() => dgt.squareNumber(letter + next), sayNumbers);
  }],
  [2, () => {
    const near = () => pick([0x08, 0x09, 0x10, 0x31, 0x35, 0x44, 0x61, 0x88, random(128)]);
    const body = Array.from({ length: pick([0, 4, 9, random(60)]) }, near);
    const ack = [random(9) ? 0x10 : random(256), near(), near(), near()];
    dgt.readStored(body).forEach(sayStored);
    const signal = dgt.signalOf(ack), state = dgt.batteryOf(body);
    if (signal) saySignal(signal);
    if (state) sayNumbers(...Object.values(state).map(n => n ?? 127));
    sayNumbers(dgt.textOf(body) !== null);
  }],
];
const OTHERS = [
  () => has.host.lineLost(), () => has.follower.lineLost(), () => has.board.lineLost(),
  () => sayNumbers(has.decoder.finish()), () => sayNumbers(has.host.giveUpAwaited()),
  () => sayNumbers(has.reader.finish()), () => has.decoder.reset(), () => has.reader.reset(),
  () => has.follower.askNow(), () => has.follower.lineDisturbed(),
];
const WEIGHTED = ACTS.flatMap(([weight, act]) => Array(weight).fill(act));

function anyPlacement() {
  const words = dgt.placement(some(64, 16));
  if (random(2)) return words;
  return (words.slice(0, random(words.length)) + pick(["", "/", "9", "K", "e", "44"]) +
    words.slice(random(words.length))).slice(0, 255);
}

// Each call for the clock, and LEDs, by a host or a follower.
function sayClockCommand() {
  const b = some(pick([0, 1, 6, 8, 9, 252, 253, 255]), 256);
  const [which, sender] = [random(9), random(2)];
  const digits = Array.from({ length: 6 }, () => random(20) ? pick([..."0123456789 -"]) : "x");
  const letters = some(8), [x, y] = some(2, 256), it = sender ? has.follower : has.host;
  const sides = which === 4 ? some(6, 60) : [];
  sayResult(() => [
    () => it.sendClock(x, b), () => it.sendDisplay(digits.join(""), x, y),
    () => it.sendText(String.fromCharCode(...letters), x), () => it.sendBeep(x),
    () => it.sendSetAndRun(sides.slice(0, 3), sides.slice(3), x), () => it.sendIcons(b),
    () => it.sendLeds(b), () => it.sendEnd(),
    () => x & 1 ? it.sendButton() : it.sendClockVersion(),
  ][which]());
}

// The rest of one chunk begins the next one of its kind.
const rests = new Map();
function take(make) {
  const bytes = [...rests.get(make) ?? [], ...chunk(make)].slice(0, 60000);
  rests.set(make, kept);
  return Uint8Array.from(bytes);
}

function look() {
  const { host, decoder, follower, board, reader } = has;
  for (const it of [host, follower]) {
    sayResult(() => it.picture);
    sayResult(() => it.placement, say);
    sayClock(it.clock);
    sayNumbers(it.unread);
  }
  sayBytes(host.awaited);
  sayNumbers(decoder.unread, reader.unread);
  if (follower.dueAt !== Infinity) sayNumbers(follower.dueAt);
  if (follower.lastHeard !== null) sayNumbers(follower.lastHeard);
  sayResult(() => follower.serial);
  sayNumbers(follower.inDoubt, follower.confirmed, follower.heartbeatsLeft, follower.mode);
  sayBytes(board.position);
  sayClock(board.clock);
  sayNumbers(board.owes, board.owedLength, board.unread, board.mode);
}

function runCase() {
  const period = pick([1000, 1001, 2500, 10000]), patience = pick([0, 1, 6, 255]), says = random(4);
  const options = { period, patience, confirm: (says & 1) > 0, identify: (says & 2) > 0 };
  has = { decoder: new Decoder(dgt), host: new Host(dgt), board: new Board(dgt),
          reader: new CommandDecoder(dgt), follower: new Follower(dgt, options) };
  now = random(100000);
  rests.clear();
  for (let n = 4 + random(20); n > 0; n--) pick(WEIGHTED)();
  look();
  Object.values(has).forEach(handle => handle.close());
}

const hashes = RIGHT.map(() => {
  for (let n = 0; n < 100; n++) runCase();
  return hash >>> 0;
});
unused.delete("version"); // was called by `load`
deepEqual(hashes, RIGHT);
deepEqual([...unused], []); // calls that no case has made
