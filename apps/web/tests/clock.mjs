// Replaces timers and performance.now() with a clock that only `pass` moves.

let now = 0, number = 0;
const timers = new Map();

function add(act, delay = 0, again = 0) {
  timers.set(++number, { at: now + Math.max(delay, 1), act, again });
  return number;
}
globalThis.setTimeout = (act, delay) => add(act, delay);
globalThis.setInterval = (act, delay) => add(act, delay, delay);
globalThis.clearTimeout = globalThis.clearInterval = id => timers.delete(id);
performance.now = () => now;

const NEVER = [0, { at: Infinity }];
const settled = () => new Promise(setImmediate); // once resolved promises have run

/** Lets this time pass, in milliseconds, or stops once a condition holds. */
export async function pass(time, holds = () => false) {
  const end = now + time;
  await settled();
  while (!holds()) {
    const [id, next] = [...timers].reduce((a, b) => b[1].at < a[1].at ? b : a, NEVER);
    if (next.at > end) break;
    now = next.at;
    if (next.again) next.at += next.again;
    else timers.delete(id);
    next.act();
    await settled();
  }
  if (!holds()) now = end;
}
