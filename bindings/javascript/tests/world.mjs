// Runs random scripts in a world of dgt.js, and compares the outcomes with `dgt simulate`. What is
// promised has to hold whenever nothing is in transit.
//
// node world.mjs MODULE DGT COUNT

import assert from "node:assert/strict";
import { execFileSync } from "node:child_process";
import { readFileSync } from "node:fs";
import { load } from "../dgt.js";
import { LINE_ROOM, World } from "../world.js";
import { chance } from "./random.mjs";

const [module, program, count] = process.argv.slice(2);
const dgt = await load(readFileSync(module));
const random = chance(1);
const pick = list => list[random(list.length)];
const hex = bytes => bytes.map(one => one.toString(16).padStart(2, "0")).join("") || "-";

// The bytes of a line, with some lost, altered or inserted.
function garbled(bytes) {
  const made = bytes.slice(0, 250);
  made.splice(random(made.length + 1), random(3), ...pick([[], [random(256)], [0x8e], [0x60, 1]]));
  return hex(made);
}
const square = () => "abcdefgh"[random(8)] + (1 + random(8));
const few = () => pick([1, 2, 5, 67, 300, 65535]);
const LINES = [
  () => `change ${square()} ${pick([..."PRNBKQprnbkq......"])}`, () => "send", () => "send",
  () => `host ${pick(["40", "41", "42", "42", "43", "44", "44", "4b", "4d", "55"])}`,
  () => `toboard ${few()}`, () => `toboard ${few()}`, () => `tohost ${few()}`,
  () => `tohost ${few()}`,
];
const FAULTS = [
  () => "break", () => "hostbreak", () => "boardlost", () => "restart", () => "restart",
  () => "giveup", world => `garbleup ${garbled(world.up)}`,
  world => `garbledown ${garbled(world.down)}`,
];

let promised = 0;
for (let number = 0; number < Number(count); number++) {
  const world = new World(dgt), script = [], outcomes = [];
  const act = line => {
    script.push(line);
    outcomes.push(world.act(line));
    if (!world.isQuiet || !world.isPromised) return;
    promised++;
    assert.deepEqual(world.host.picture, world.board.position, script.join("\n"));
  };
  const settle = () => { for (const line of world.settling()) act(line); };
  for (let n = random(120); n > 0; n--) {
    act(pick(random(12) ? LINES : FAULTS)(world));
    if (!random(12)) settle();
  }
  settle();
  const { host, board, isQuiet } = world;
  outcomes.push(`board ${dgt.placement(board.position)}`, `host ${host.placement ?? "unknown"}`);
  const words = ["simulate", "--faults", "--up", LINE_ROOM, "--down", LINE_ROOM];
  const said = execFileSync(program, words, { input: script.map(line => `${line}\n`).join("") })
    .toString().trimEnd().split("\n");
  said.splice(-2, 1); // the host's clock
  assert.deepEqual(said, [...outcomes, `quiet ${isQuiet ? "yes" : "no"}`], script.join("\n"));
  world.close();
}
console.log(`${count} scripts, ${promised} promises`);
