// Answers tests/libraries/chess_rules by the package for JavaScript.

import { load } from "dgt-board";
import { BadFen, BadSan, Impossible, State } from "dgt-board/chess.js";
import { Recogniser } from "dgt-board/recogniser.js";
import { readFileSync } from "node:fs";

const dgt = await load();
const GAME = 100, REMEMBERED = 8;
const FIELDS = ["placement", "turn", "rights", "passed", "halfMoves", "number"];
const WHY = ["", "badKings", "extraPiece", "badPawn", "inCheck", "badRights", "badPassed",
  "badNumber", "badMember", "badText", "noMove", "ambiguous"];

function shown(state, moves) {
  const flags = [state.isCheck, state.canMove, state.isMate, state.isStalemate, state.isDead,
    state.isFiftyMoves, state.isSeventyFiveMoves];
  return [state.fen, state.passed ?? "-", flags.map(Number).join(""), moves.join(" ")].join("|");
}

function san(state, text) {
  return [false, true].map(lenient => {
    try {
      return state.parseSan(text, { lenient });
    } catch (wrong) {
      if (!(wrong instanceof BadSan)) throw wrong;
      return WHY.indexOf(wrong.why);
    }
  }).join(" ");
}

function perft(state, depth) {
  const moves = state.moves();
  if (depth === 1) return moves.length;
  return moves.reduce((count, move) => count + perft(state.play(move), depth - 1), 0);
}

function* walk(start, count) {
  let game = [start], random = 1n;
  for (; count > 0; count--) {
    const state = game.at(-1), before = game.slice(0, -1), choices = state.moves();
    const parts = [shown(state, choices), state.repetitions(before.slice(-REMEMBERED))];
    if (choices.length && before.length < GAME) {
      random = BigInt.asUintN(64, random * 6364136223846793005n + 1442695040888963407n);
      const move = choices[Number((random >> 33n) % BigInt(choices.length))];
      const after = state.play(move), name = state.san(move);
      parts.push([move, name, san(state, name), state.moveTo(after.position)].join(" "));
      game.push(after);
    } else {
      game = [start];
    }
    yield parts.join("|");
  }
}

function said(event) {
  switch (event.type) {
    case "begun": return `game ${event.state.fen}${event.isTurned ? " turned" : ""}`;
    case "made": return event.move;
    case "unseen": return ["unseen", ...event.moves].join(" ");
    case "gap": return `gap ${event.count} ${event.state.fen}`;
    case "back": return `back ${event.count}${event.stays ? " stays" : ""}`;
    case "ended": return event.result;
    case "lost": return ["lost", ...event.squares].join(" ");
    default: return event.type;
  }
}

const RUNNING = { w: "white", b: "black", "-": null };

function seen(rest) {
  const [at, [sight, confirmed, running], placement] = rest.split(" ");
  const pieces = sight === "a" ? null : dgt.parsePlacement(placement);
  return recogniser.see(Number(at), pieces, { isSure: sight === "s",
    isConfirmed: confirmed === "c", running: RUNNING[running] });
}

function games(word, rest) {
  let events = [];
  if (word === "anew") recogniser = new Recogniser(dgt);
  else if (word === "from") recogniser.goOn(State.parse(dgt, rest.slice(2)), rest[0] === "1");
  else events = word === "board" ? seen(rest) : recogniser.due(Number(rest));
  const { dueAt, state } = recogniser, told = events.map(event => `${said(event)};`).join("");
  return [told, Number.isFinite(dueAt) ? dueAt : "-", state?.fen].join("|");
}

let state, recogniser;

function answer(line) {
  const [, word, rest] = /^(\w+) (.*)$/.exec(line);
  try {
    if (word === "read") {
      state = State.parse(dgt, rest);
      return [shown(state, state.moves())];
    }
    if (word === "san") return [san(state, rest)];
    if (word === "perft") return [perft(state, Number(rest))];
    if (word === "walk") return walk(state, Number(rest));
    return [games(word, rest)];
  } catch (wrong) {
    if (wrong instanceof Impossible) return [`impossible ${WHY.indexOf(wrong.why)}`];
    if (wrong instanceof BadFen) return [`text ${FIELDS.indexOf(wrong.field)} ${wrong.at}`];
    throw wrong;
  }
}

for (const line of readFileSync(0, "utf8").trimEnd().split("\n"))
  for (const each of answer(line)) process.stdout.write(`${each}\n`);
