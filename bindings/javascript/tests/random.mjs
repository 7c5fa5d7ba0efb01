/** Returns a random function: it returns whole numbers below a limit, the same for each seed. */
export function chance(seed) {
  let state = Number(seed) >>> 0;
  return below => { // mulberry32
    state = state + 0x6d2b79f5 >>> 0;
    let n = Math.imul(state ^ state >>> 15, state | 1);
    n ^= n + Math.imul(n ^ n >>> 7, n | 61);
    return Math.floor(((n ^ n >>> 14) >>> 0) / 2 ** 32 * below);
  };
}
