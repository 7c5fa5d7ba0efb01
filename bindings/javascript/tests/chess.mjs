// Tests the rules of chess, as chess.js hands them on, and the program of the package's page. What
// tests/libraries/chess_rules compares with other languages isn't tried here.
//
// node chess.mjs MODULE    MODULE is in the folder of the package

import assert from "node:assert/strict";
import { readFileSync } from "node:fs";
import { BadFen, BadSan, IllegalMove, Impossible, State } from "../chess.js";
import { BadValue, load } from "../dgt.js";
import { checkProgram } from "./program.mjs";

const dgt = await load(readFileSync(process.argv[2]));
const START = "rnbqkbnr/pppppppp/8/8/8/8/PPPPPPPP/RNBQKBNR", KINGS = "4k3/8/8/8/8/8/8/4K3";
const BEGIN = State.start(dgt), parse = fen => State.parse(dgt, fen);

assert.deepEqual(BEGIN.moves("g1"), ["g1f3", "g1h3"]);
assert.deepEqual(parse("8/P6k/8/8/8/8/8/K7 w - - 0 1").moves("a7"),
                 ["a7a8q", "a7a8r", "a7a8b", "a7a8n"]);
assert.deepEqual([BEGIN.moves("e4"), BEGIN.moves("e7")], [[], []]);
assert.equal(BEGIN.moveTo(BEGIN.position), null);

// The parts of a state.
const parts = state => [dgt.placement(state.position), state.turn, state.rights, state.passed,
                        state.halfMoves, state.number];
const right = parse("r3k3/8/8/8/4P3/8/8/4K2R b Kq e3 0 65535");
assert.deepEqual(parts(right), ["r3k3/8/8/8/4P3/8/8/4K2R", "black", "Kq", "e3", 0, 65535]);
assert.deepEqual(parts(BEGIN), [START, "white", "KQkq", null, 0, 1]);
const { position } = right;
const same = new State(dgt, { position, turn: "black", rights: "Kq", passed: "e3", number: 65535 });
assert.deepEqual(parts(same), parts(right));
position.fill(0);
assert.deepEqual([parts(same), parts(right)], [parts(right), parts(same)]);
assert.equal(new State(dgt, { position: dgt.parsePlacement(KINGS), turn: "white" }).fen,
             `${KINGS} w - - 0 1`);

// Texts that aren't FEN: the field that is wrong, and the place.
const BAD_FENS = [
  [`${START} w KQkq \u2013 0 1`, "passed", 51], [`${START} w KQkq - 0 \u0131`, "number", 55],
  [`${START} w KQkq - 0 1${" ".repeat(9999)}`, "number", 56],
];
for (const [text, field, at] of BAD_FENS) {
  assert.throws(() => parse(text), error =>
    error instanceof BadFen && error.field === field && error.at === at, text);
}
// States that no game reaches.
for (const [wrong, why] of [[{ number: 0 }, "badNumber"], [{ rights: "Kk" }, "badRights"],
                            [{ position: new Uint8Array(64) }, "badKings"],
                            [{ position: new Uint8Array(64).fill(16) }, "badMember"]]) {
  const made = { position: dgt.parsePlacement(KINGS), turn: "white", ...wrong };
  assert.throws(() => new State(dgt, made), error =>
    error instanceof Impossible && error.why === why, why);
}

// Texts of moves.
for (const [text, why] of [["Ke2", "noMove"], ["e\u0134", "badText"]]) {
  assert.throws(() => BEGIN.parseSan(text), error => error instanceof BadSan && error.why === why);
}
assert.equal(BEGIN.parseSan("e2e4", { lenient: true }), "e2e4");

for (const move of ["e2e5", "e7e5", "e2e4q", "a1a1", "e1g1", "e9e4", "e2e4k", "e4", null]) {
  assert.equal(BEGIN.isLegal(move), false);
  assert.throws(() => BEGIN.play(move), IllegalMove);
  assert.throws(() => BEGIN.san(move), IllegalMove);
}
const pieces = BEGIN.position;
[
  () => BEGIN.moves("i1"), () => BEGIN.moves(""), () => BEGIN.moveTo([1]), () => parse(null),
  () => BEGIN.parseSan(7), () => new State(dgt, new Uint8Array(79)),
  () => new State(dgt, { position: [1], turn: "white" }),
  () => new State(dgt, { position: pieces, turn: "w" }),
  () => new State(dgt, { position: pieces, turn: "white", rights: "QK" }),
  () => new State(dgt, { position: pieces, turn: "white", passed: "e" }),
  () => new State(dgt, { position: pieces, turn: "white", halfMoves: 65536 }),
  () => new State(dgt, { position: pieces, turn: "white", number: -1 }),
].forEach((act, n) => assert.throws(act, BadValue, `wrong ${n}`));

await checkProgram(/State\.parse/, process.argv[2]);
