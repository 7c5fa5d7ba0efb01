// Follows a simulated board on a port that fails, in simulated time.
//
// node following.mjs MODULE

import { pass } from "../../../apps/web/tests/clock.mjs";
import assert from "node:assert/strict";
import { readFileSync } from "node:fs";
import { SimulatedPort } from "../../../apps/web/simulated.js";
import { BadValue, Board, Closed, MODES, load } from "../dgt.js";
import { follow } from "../following.js";

const dgt = await load(readFileSync(process.argv[2]));
const START = "rnbqkbnr/pppppppp/8/8/8/8/PPPPPPPP/RNBQKBNR";
const LIFTED = START.replace("PPPPP", "PPPP1"), LIFTED_TWO = START.replace("PPPPP", "PPP2");
const GONE = "the port has gone; it is looked for every two seconds";
const E2 = 52, D2 = 51;
const simulated = () => new SimulatedPort(dgt, dgt.parsePlacement(START));
const times = (status, hours) => {
  const time = { hours, minutes: 0, seconds: 0, flags: 0 };
  return { kind: "times", status, first: time, second: time };
};

/** Lets a promise be settled in simulated time. */
async function settled(promise) {
  let isOver = false;
  const over = () => { isOver = true; };
  promise.then(over, over);
  await pass(60_000, () => isOver);
  assert(isOver, "it is never settled");
  return promise;
}

{ // Changes, faults and a port that goes, in a loop.
  const port = simulated(), views = [];
  const board = follow(dgt, port, { period: 2000, clock: true, confirm: true, identify: true });
  const loop = (async () => { for await (const view of board) views.push(view); })();
  const until = async (what, holds) => {
    await pass(30_000, () => holds(board.view));
    assert(holds(board.view), `${what}: ${JSON.stringify(board.view)}`);
    await pass(0);
    assert.equal(views.at(-1), board.view, what);
  };
  const shows = placement => view =>
    view.placement === placement && view.confirmed && !view.inDoubt && view.away === null;
  await until("at first", view => shows(START)(view) && view.serial);
  assert.deepEqual([views[0].placement, views[0].clock, views[0].confirmed], [START, null, false]);
  assert.deepEqual([String.fromCharCode(...board.view.serial), [...board.view.picture]],
                   ["00001", [...dgt.parsePlacement(START)]]);
  port.change(E2, 0);
  await until("lifted", view => view.placement === LIFTED && !view.confirmed);
  await until("confirmed", shows(LIFTED));
  port.board.handClock(times(0x11, 1));
  await until("its clock", view => view.clock !== null);
  assert.deepEqual(board.view.clock, times(0x11, 1));
  board.light("e2", "e4");
  board.write(board.follower.sendText("hello"));
  await until("lights and texts", () => port.lit.join() === "52,36" && port.shown === "hello");
  port.frame();
  await until("a framing error", view => view.inDoubt && view.away === null);
  await until("healed", shows(LIFTED));
  const ask = board.follower.ask.bind(board.follower);
  let asked = null;
  board.follower.ask = now => (asked = ask(now));
  await pass(30_000, () => asked);
  port.frame();
  await pass(300);
  assert(board.view.inDoubt, "a dump that was requested before the fault");
  await until("healed again", shows(LIFTED));
  port.power(false);
  await until("silent", view => view.away?.startsWith("the board doesn't answer"));
  assert.deepEqual([board.view.placement, board.view.inDoubt], [LIFTED, true]);
  port.power(true);
  await until("on again", shows(LIFTED));
  port.plug(false);
  await until("gone", view => view.away === GONE && view.inDoubt && view.placement === LIFTED);
  board.write(new Uint8Array(1)); // it is lost
  port.change(D2, 0);
  port.plug(true);
  await until("back", shows(LIFTED_TWO));
  assert.deepEqual(board.view.clock, times(0x11, 1));
  port.board.handClock(times(0, 0));
  await until("no reading", view => view.clock === null);
  assert.throws(() => board.light("e2"), BadValue);
  await settled(board.close());
  await settled(loop);
  assert.deepEqual([port.readable, port.writable], [null, null]);
  await assert.rejects(settled(board.wait(0)), Closed);
  assert.throws(() => board.write(new Uint8Array(1)), Closed);
}
{ // Waits, and a loop that is left.
  const port = simulated(), board = follow(dgt, port, { mode: MODES.update });
  assert.equal(await settled(board.wait(0)), null);
  const first = await settled(board.wait());
  assert.deepEqual([first.placement, first.inDoubt], [START, false]);
  const begun = performance.now();
  assert.equal(await settled(board.wait(500)), null);
  assert(performance.now() - begun >= 500 && performance.now() - begun < 600);
  await assert.rejects(board.wait(-1), BadValue);
  const [one, other] = [board.wait(100), board.wait()];
  await pass(200);
  assert.equal(await one, null);
  port.change(E2, 0);
  assert.equal((await settled(other)).placement, LIFTED);
  port.change(D2, 0);
  await pass(100);
  port.change(E2, 1);
  await pass(2000); // the older view is dropped
  port.change(D2, 1);
  await pass(100);
  for await (const view of board) {
    assert.equal(view.placement, START);
    break;
  }
  assert.equal(port.readable, null);
}
{ // A port that can't be opened.
  const port = simulated();
  port.plug(false);
  const failed = follow(dgt, port);
  for (let n = 0; n < 2; n++) {
    await assert.rejects(settled(failed.wait()), { name: "NetworkError" });
  }
  const board = follow(dgt, port, { waitForPort: true });
  const away = await settled(board.wait());
  assert.deepEqual([away.away, away.placement], ["The cable is not plugged in.", null]);
  port.plug(true);
  assert.equal((await settled(board.wait())).away, null);
  assert.equal((await settled(board.wait())).placement, START);
  await settled(board.close());
  assert.throws(() => follow(dgt, port, { period: 10 }), BadValue);
}
{ // A port that comes back as another object. That of another board is left alone.
  const ports = Object.assign(new EventTarget(), { all: [], getPorts: async () => ports.all });
  const [old, fresh, other] = [simulated(), simulated(), simulated()];
  ports.all = [other, old];
  const board = follow(dgt, old, { ports });
  assert.equal((await settled(board.wait())).placement, START);
  old.plug(false);
  assert.equal((await settled(board.wait())).away, GONE);
  fresh.change(E2, 0);
  ports.all = [other, fresh];
  ports.dispatchEvent(new Event("connect"));
  while (board.view.placement !== LIFTED) await settled(board.wait());
  await settled(board.close());
}
{ // A board answers more requests than it can owe, and first what was pending.
  const board = new Board(dgt), codes = bytes => [...board.answers(bytes)].map(([code]) => code);
  assert.deepEqual(codes(Uint8Array.of(0x44)), []);
  board.change("e2", ".");
  const asked = Uint8Array.of(...Array(10).fill(0x4d), 0x42, 0x2b, 4);
  assert.deepEqual(codes(asked), [0x8e, ...Array(10).fill(0x93), 0x86]);
  assert.deepEqual([board.unread, board.owes, codes(new Uint8Array())], [2, false, []]);
  assert.throws(() => codes("text"), BadValue);
}
