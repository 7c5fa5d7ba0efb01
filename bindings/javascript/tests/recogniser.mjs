// Tests what recogniser.js refuses, and the program of the package's page.
//
// node recogniser.mjs MODULE    MODULE is in the folder of the package

import assert from "node:assert/strict";
import { readFileSync } from "node:fs";
import { State } from "../chess.js";
import { BadValue, Closed, load } from "../dgt.js";
import { Recogniser } from "../recogniser.js";
import { checkProgram } from "./program.mjs";

const dgt = await load(readFileSync(process.argv[2]));

// A game of each kind of module: tests/libraries/chess_rules has more.
const START = State.start(dgt), games = new Recogniser(dgt);
const E4 = "rnbqkbnr/pppppppp/8/8/4P3/8/PPPP1PPP/RNBQKBNR";
const [begun] = games.see(0, START.position), made = games.see(1000, dgt.parsePlacement(E4));
assert.deepEqual([begun.state.fen, begun.isTurned, made, games.dueAt],
                 [START.fen, false, [], 1300]);
assert.deepEqual(games.due(1300), [{ type: "made", move: "e2e4" }]);
games.goOn(games.state, true);
assert.deepEqual([games.due(2000), games.state.fen], [[], `${E4} b KQkq - 0 1`]);

// A new one, and what is refused.
const recogniser = new Recogniser(dgt), { position } = START;
assert.deepEqual([recogniser.state, recogniser.dueAt, recogniser.see(5, null)],
                 [null, Infinity, []]);
[
  () => recogniser.due(-1), () => recogniser.due("x"), () => recogniser.see(-1, position),
  () => recogniser.see(6, [1]), () => recogniser.see(6, new Uint8Array(64).fill(16)),
  () => recogniser.see(6, position, { running: "w" }),
].forEach((act, n) => assert.throws(act, BadValue, `wrong ${n}`));
recogniser.see(6, position, { isSure: false, isConfirmed: false, running: "black" });
recogniser.close();
assert.throws(() => recogniser.due(7), Closed);

await checkProgram(/Recogniser/, process.argv[2]);
