// Tests the page's game: random games, what is said if no move leads to a picture, gaps and PGN.
//
// node game.mjs MODULE

import assert from "node:assert/strict";
import { readFileSync } from "node:fs";
import { State } from "../../../bindings/javascript/chess.js";
import { load } from "../../../bindings/javascript/dgt.js";
import { chance } from "../../../bindings/javascript/tests/random.mjs";
import { Game } from "../game.js";

const dgt = await load(readFileSync(process.argv[2]));
const START = State.start(dgt);
const REST = 12000; // milliseconds: the longest rest of moves
const numbered = (state, move) =>
  (state.turn === "white" ? `${state.number}. ` : "") + state.san(move);
const words = ({ pgn }) => pgn.split("\n\n").filter((_, n) => n % 2)
  .map(part => part.replace(/\s+/g, " ").trim());

const GAMES = 20;
// Each move of a random game is shown as a board shows it: one square after another.
const random = chance(1);
let plies = 0;
for (let round = 0; round < GAMES; round++) {
  const game = new Game(dgt), texts = [];
  let state = START, now = 0;
  game.see(now, state.position);
  for (let n = 0; n < 120 && state.canMove; n++) {
    const moves = state.moves(), move = moves[random(moves.length)];
    texts.push(numbered(state, move));
    const shown = Array.from(state.position);
    state = state.play(move);
    const after = state.position;
    const changed = dgt.differ(shown, after).sort((a, b) => (after[a] > 0) - (after[b] > 0));
    for (const at of changed) {
      shown[at] = after[at];
      game.see(now += 150, shown);
    }
    now += 2500; // a rook's move may be half a castling
  }
  game.see(now, state.position);
  plies += texts.length;
  assert.deepEqual(game.moves, texts, `game ${round}`);
  assert.equal(game.result !== "*", !state.canMove, `game ${round}`);
}

/** A game in which these placements were shown, each for this time. */
const shown = (placements, time = REST) => {
  const game = new Game(dgt);
  let now = 0;
  game.show = (placement, rest = time, options = {}) => {
    const position = placement && dgt.parsePlacement(placement);
    game.see(now, position, options);
    game.see(now += rest, position, options);
  };
  for (const placement of placements) game.show(placement);
  return game;
};

// A position that no move leads to is said to be lost, with what to put right, and found again.
const BEGIN = "rnbqkbnr/pppppppp/8/8/8/8/PPPPPPPP/RNBQKBNR";
const BLACK = "rnbqkbnr/pppp1ppp/8/4p3", E4 = "4P3", WHITE = "4P3/8/PPPP1PPP/RNBQKBNR";
const OPEN = [BEGIN, `rnbqkbnr/pppppppp/8/8/${WHITE}`, `${BLACK}/${WHITE}`];
const CUT = "{broken off: no move leads to the position after this}";
const erring = shown(OPEN);
erring.show(`${BLACK}/${E4}/6N1/PPPP1PPP/RNBQKB1R`, 999);
assert.deepEqual([erring.lost, erring.lacks], [[], ""]);
erring.show(`${BLACK}/${E4}/6N1/PPPP1PPP/RNBQKB1R`, 1);
assert.deepEqual([erring.lost, erring.lacks], [
  [46, 62], "No move leads to this: put the white knight from g3 on g1."]);
assert.deepEqual(words(erring), [`1. e4 e5 ${CUT} *`]);
erring.show(`${BLACK}/${E4}/5N2/PPPP1PPP/RNBQKB1R`);
assert.deepEqual([erring.lost, erring.lacks, words(erring)], [[], "", ["1. e4 e5 2. Nf3 *"]]);
erring.show(`${BLACK}/${E4}/5N2/PPPP1PPP/RNBQKB2`, 99999);
assert.deepEqual(erring.lost, [], "a lifted piece");

// It begins another game, after five seconds if the board was away or in doubt, otherwise after a
// minute. Either side may move first.
const NEXT = `r1bqkbnr/1ppp1ppp/p1n5/4p3/${E4}/5N2/PPPP1PPP/RNBQKB1R`;
for (const [placement, time] of [[null, 5000], [NEXT, 4900], ["", 60000]]) {
  const game = shown(OPEN), { line } = game;
  if (placement !== "") game.show(placement, 100, { isSure: false });
  game.show(NEXT, time - 1);
  assert.equal(game.line, line, `${time}`);
  game.show(NEXT, 1);
  assert.notEqual(game.line, line, `${time}`);
  game.show(NEXT.replace("1ppp1ppp/p1n5/4p3", "2pp1ppp/p1n5/1p2p3"));
  game.show(`r1bqkbnr/2pp1ppp/p1n5/1p2p3/3PP3/5N2/PPP2PPP/RNBQKB1R`);
  assert.deepEqual(words(game), ["1... b5 2. d4 *"]);
  assert.ok(game.pgn.includes(`[SetUp "1"]\n[FEN "${NEXT} b KQkq - 0 1"]`), game.pgn);
}

// Moves that were not seen are in the game if no other line of as many leads there. Otherwise the
// PGN goes on with another game.
const away = shown(OPEN);
away.show(null);
away.show(`r1bqkbnr/pppp1ppp/2n5/4p3/${E4}/5N2/PPPP1PPP/RNBQKB1R`);
assert.deepEqual(away.moves, ["1. e4", "e5", "2. Nf3", "Nc6"]);
const gap = shown(OPEN);
gap.show(null);
gap.show(`r1bqkbnr/pppp1ppp/2n5/4p3/2B1P3/5N2/PPPP1PPP/RNBQK2R`);
gap.show(`r1bqk1nr/pppp1ppp/2n5/2b1p3/2B1P3/5N2/PPPP1PPP/RNBQK2R`);
assert.deepEqual(gap.moves, ["1. e4", "e5", "(3 moves not seen)", "3... Bc5"]);
assert.deepEqual(words(gap), ["1. e4 e5 {3 moves not seen} *", "3... Bc5 *"]);
gap.show(`r1bqkbnr/pppp1ppp/2n5/4p3/2B1P3/5N2/PPPP1PPP/RNBQK2R`);
gap.show(OPEN[2]);
assert.deepEqual(gap.moves, ["1. e4", "e5"], "a gap is taken back");

// Moves that are taken back stay, and another game goes on from there, but for one or two that were
// made shortly before.
const { Games } = await import("../games.js");
const stored = {};
globalThis.localStorage = { getItem: key => stored[key], setItem: (key, text) => {
  stored[key] = text;
} };
const KNIGHT = `${E4}/5N2/PPPP1PPP/RNBQKB1R`;
const LINE = [...OPEN, `${BLACK}/${KNIGHT}`, `r1bqkbnr/pppp1ppp/2n5/4p3/${KNIGHT}`];
for (const [back, right, kept] of [[3, true, ["1. e4 e5 2. Nf3 Nc6", "1. e4 e5 2. d4"]],
                                   [2, false, ["1. e4 e5 2. d4"]]]) {
  const game = shown([]), games = new Games();
  for (const { at } of [...games.all]) games.remove(at);
  const show = placement => {
    game.show(placement);
    games.keep(game);
  };
  for (const placement of LINE) show(placement);
  for (let n = 0; n < back; n++) show(LINE[LINE.length - 2 - n]);
  assert.equal(game.stays, right, `${back} taken back`);
  if (back === 3) show(LINE[2]); // one of them is made again
  assert.deepEqual(games.all.map(({ moves }) => moves), ["1. e4 e5 2. Nf3 Nc6"]);
  await new Promise(done => setTimeout(done, 5)); // a game is known by when it began
  show(`${BLACK}/3PP3/8/PPP2PPP/RNBQKBNR`);
  assert.equal(game.stays, false);
  assert.deepEqual(games.all.map(({ moves }) => moves).reverse(), kept);
}
const again = shown(LINE);
for (const n of [3, 2, 1, 2, 3, 4]) again.show(LINE[n]);
assert.deepEqual([again.stays, again.moves], [false, ["1. e4", "e5", "2. Nf3", "Nc6"]]);

// No game begins without kings. The board may be turned: then its squares are those of the board.
const turned = shown(["8/8/8/8/8/8/8/8"]);
assert.equal(turned.lacks.slice(0, 8), "No moves");
turned.show("RNBKQBNR/PPPPPPPP/8/8/8/8/pppppppp/rnbkqbnr");
turned.show("RNBKQBNR/PPP1PPPP/8/3P4/8/8/pppppppp/rnbkqbnr");
assert.deepEqual([turned.moves, turned.lacks], [["1. e4"], ""]);
turned.show("R1BKQBNR/PPP1PPPP/1N6/3P4/8/8/pppppppp/rnbkqbnr", 1000);
assert.equal(turned.lacks, "No move leads to this: put the white knight from b6 on b8.");

// The day of a PGN is the local one.
for (const hours of [14, -12]) { // in one of these zones it is another day than in UTC
  process.env.TZ = `Etc/GMT${hours < 0 ? "+" : "-"}${Math.abs(hours)}`;
  const day = new Date(Date.now() + 3600e3 * hours).toISOString().slice(0, 10);
  assert.ok(erring.pgn.includes(`[Date "${day.replaceAll("-", ".")}"]`), erring.pgn);
}
console.log(`${GAMES} games, ${plies} moves`);
