// Plays games on a simulated board while its line and power fail, and compares the moves that a
// session finds, one by one. Time is simulated, too.
//
// node games.mjs MODULE COUNT [SEED]

import { pass } from "./clock.mjs";
import assert from "node:assert/strict";
import { readFileSync } from "node:fs";
import { State } from "../../../bindings/javascript/chess.js";
import { Board, load } from "../../../bindings/javascript/dgt.js";
import { lettersOf } from "../drawing.js";
import { Session } from "../session.js";
import { SimulatedPort } from "../simulated.js";
import { chance } from "../../../bindings/javascript/tests/random.mjs";

const [module, count, seed = "1"] = process.argv.slice(2);
const dgt = await load(readFileSync(module));
const START = "rnbqkbnr/pppppppp/8/8/8/8/PPPPPPPP/RNBQKBNR";
const PLIES = 40, PERIOD = 2000, MOST = 12000; // PERIOD, MOST: milliseconds
const numbered = (state, move) =>
  (state.turn === "white" ? `${state.number}. ` : "") + state.san(move);

const random = chance(seed);
Math.random = () => random(2 ** 32) / 2 ** 32; // for the noise of the line

// Faults, each with what starts it before a move and what ends it afterwards.
const NONE = [() => {}, () => {}];
const FAULTS = {
  none: NONE, garble: [port => port.garble(), () => {}], frame: [() => {}, port => port.frame()],
  noise: [port => port.makeNoise(true), port => port.makeNoise(false)],
  cable: [port => port.plug(false), port => port.plug(true)],
  power: [port => port.power(false), port => port.power(true)],
};

const lines = [];
const page = { note: (kind, text) => lines.push(text), changed: () => {} };

// Changes the squares of a move to these pieces one after another, as hands move them.
async function show(port, position) {
  const [before, after] = [port.pieces, position].map(pieces => lettersOf(dgt, pieces));
  const changed = [...before].map((_, n) => n).filter(n => before[n] !== after[n])
    .sort((a, b) => (after[a] !== ".") - (after[b] !== "."));
  for (const square of changed) {
    port.change(square, after[square] === "." ? 0 : dgt.pieceCode(after[square]));
    await pass(100 + random(400));
  }
}

async function play(number) {
  const port = new SimulatedPort(dgt, dgt.parsePlacement(START));
  const session = new Session(dgt, port, port, PERIOD, page), ran = session.run();
  const isRight = () => session.state === "confirmed" &&
    lettersOf(dgt, session.picture) === lettersOf(dgt, port.pieces);
  let state = State.start(dgt), faults = 0;
  const texts = [];
  await pass(MOST, isRight);
  for (let ply = 0; ply < PLIES && state.canMove; ply++) {
    const moves = state.moves(), move = moves[random(moves.length)];
    const name = random(3) ? "none" : Object.keys(FAULTS)[random(6)], [begin, end] = FAULTS[name];
    texts.push(numbered(state, move));
    state = state.play(move);
    begin(port);
    await show(port, state.position);
    end(port);
    if (name === "frame") {
      await pass(0);
      assert.equal(session.state, "doubt", `game ${number}, ply ${ply}: ${name}`);
    }
    if (name !== "none") faults++;
    const isFound = () => isRight() && session.game.moves.at(-1) === texts.at(-1);
    const isHurried = name === "none" && random(2) > 0;
    await pass(isHurried ? 500 : MOST, isFound);
    assert(isHurried || isFound(), `game ${number}, ply ${ply} with ${name}: not found`);
  }
  await pass(MOST);
  assert.deepEqual(session.game.moves, texts, `game ${number}`);
  await session.end();
  port.close();
  port.board.close();
  await pass(2000);
  await ran;
  return [texts.length, faults];
}

// A port that delivers the bytes of this test. Bytes written to it are in `sent`.
class ScriptedPort extends EventTarget {
  sent = [];
  writable = new WritableStream({ write: bytes => { this.sent.push(bytes); } });
  constructor() {
    super();
    this.stream();
  }
  stream() {
    this.readable = new ReadableStream({ start: control => { this.out = control; } });
  }
  fail(name) {
    const { out } = this;
    this.stream();
    out.error(new DOMException("", name));
  }
  getInfo() {}
  async open() {}
  async close() {}
}

// Each fault of a line starts a doubt. A dump that arrives up to a tenth of a second later may be
// older, and one that was requested afterwards ends the doubt.
async function checkFault(name) {
  const port = new ScriptedPort(), board = new Board(dgt);
  const session = new Session(dgt, port, port, PERIOD, page), ran = session.run();
  const reply = async () => {
    await pass(MOST, () => port.sent.length > 0);
    board.take(port.sent.pop());
    for (let message; (message = board.poll());) port.out.enqueue(message);
    await pass(0);
  };
  const expect = (wanted, when) => assert.equal(session.state, wanted, `${name}: ${when}`);
  await reply();
  await reply();
  expect("confirmed", "at first");
  await pass(MOST, () => port.sent.length > 0);
  port.fail(name);
  await pass(50);
  expect("doubt", "after the fault");
  await reply();
  expect("doubt", "after a dump that may be older");
  await pass(100);
  await reply();
  expect("known", "after a dump that is newer");
  port.fail(name);
  port.out.enqueue(Uint8Array.of(0x8e, 0, 5, 52, 0, 0x8e, 0, 5, 36, 1)); // e2e4, which is wrong
  await pass(0);
  assert.deepEqual(session.game.moves, [], "moves of a picture in doubt");
  await session.end();
  await pass(PERIOD);
  await ran;
}

// A position that no move leads to makes the game lost, and after a pulled cable begins another.
// Moves that were made meanwhile are missing if several orders of them are legal.
async function checkLost() {
  const port = new SimulatedPort(dgt, dgt.parsePlacement(START));
  const session = new Session(dgt, port, port, PERIOD, page), ran = session.run();
  const { game } = session;
  const put = steps => {
    for (const [file, rank, letter] of steps.split(" ")) {
      port.change(dgt.squareNumber(file + rank), letter === "." ? 0 : dgt.pieceCode(letter));
    }
  };
  await pass(MOST, () => session.state === "confirmed");
  put("g1. g3N");
  await pass(MOST, () => game.lost.length > 0);
  assert.equal(game.lacks, "No move leads to this: put the white knight from g3 on g1.");
  put("g3. f3N");
  await pass(MOST, () => game.moves.length > 0);
  assert.deepEqual([game.moves, game.lost], [["1. Nf3"], []]);
  for (const steps of ["g8. f6n d2. d4P d7. d5p", "a1. a5R h1. h5R"]) {
    port.plug(false);
    put(steps);
    await pass(PERIOD);
    port.plug(true);
    await pass(MOST);
    assert.deepEqual(game.moves, steps[0] === "a" ? [] : ["1. Nf3", "(3 moves not seen)"]);
  }
  put("c2. c4P");
  await pass(MOST, () => game.moves.length > 0);
  assert.deepEqual(game.moves, ["1. c4"]);
  await session.end();
  port.close();
  port.board.close();
  await pass(PERIOD);
  await ran;
}

await checkLost();
for (const name of ["FramingError", "BufferOverrunError", "ParityError", "BreakError"]) {
  await checkFault(name);
}
let plies = 0, faults = 0;
for (let number = 1; number <= Number(count); number++) {
  const [more, failed] = await play(number);
  plies += more;
  faults += failed;
}
console.log(`${count} games, ${plies} moves, ${faults} faults`);
