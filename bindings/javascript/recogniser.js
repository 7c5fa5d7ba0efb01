/**
 * Recognises the games that are played on a board, by the proved library.
 *
 *     import { load } from "./dgt.js";
 *     import { Recogniser } from "./recogniser.js";
 *     const recogniser = new Recogniser(await load());
 *     // In a loop: pass what the board shows to recogniser.see(now, pieces) when that has changed,
 *     // and call recogniser.due(now) at recogniser.dueAt. Both return events.
 *
 * A move is a text such as "e2e4", and a state one of chess.js. Times are in milliseconds.
 *
 * bindings/c/include/dgt.h documents each call. This file only passes values to the library and
 * back. It is tested, not proved.
 */

import { State } from "./chess.js";
import { BadValue, Handle, whole } from "./dgt.js";
import { GAMES, NO_SUCH, RESULTS, SEE, SIGHTS, STRUCTS, TURNS } from "./header.js";

const EMPTY = new Uint8Array(64), STATE_LENGTH = STRUCTS.chess_state.size;
const MOVE_LENGTH = STRUCTS.chess_move.size;
/** @type {Record<string, number>} the places of an event's members */
const AT = Object.fromEntries(STRUCTS.game_event.members.map(([name, at]) => [name, at]));
/** @type {Record<number, GameResult>} */
const RESULT_TEXTS = { [RESULTS.whiteWins]: "1-0", [RESULTS.blackWins]: "0-1",
                       [RESULTS.draw]: "1/2-1/2" };

/**
 * @typedef {import("./dgt.js").Library} Library
 * @typedef {import("./chess.js").Turn} Turn
 * @typedef {"1-0" | "0-1" | "1/2-1/2"} GameResult
 *
 * @typedef {(
 *   {type: "begun", state: State, isTurned: boolean} |
 *   {type: "made", move: string} |
 *   {type: "unseen", moves: string[]} |
 *   {type: "gap", count: number, state: State} |
 *   {type: "back", count: number, stays: boolean} |
 *   {type: "ended", result: GameResult} |
 *   {type: "lost", squares: string[]} |
 *   {type: "found"}
 * )} GameEvent
 */

/**
 * A recogniser of games. It has no clock of its own: pass it times of one that is never set back.
 *
 * | An event | means that |
 * |---|---|
 * | begun | a game begins with this state, and the one before is broken off if it hasn't ended. The
 *   board is turned if White's pieces began on its ranks 8 and 7 |
 * | made | a move was made, and the position after it was shown |
 * | unseen | these moves were made, and only the position after the last was shown: no other legal
 *   line of as many leads there |
 * | gap | `count` moves were made, and only the position after the last was shown. Some legal line
 *   of as many leads to this state, but it isn't known which was made |
 * | back | `count` moves are taken back: those of the last made, unseen or gap. If it stays, what
 *   is taken back since moves were made last stays: keep the game with it, too |
 * | ended | the game has ended |
 * | lost | no moves lead to what the board shows: these squares differ from the last state's |
 * | found | the board shows a position of the game again |
 *
 * @extends {Handle<"recogniser">}
 */
export class Recogniser extends Handle {
  /** @param {Library} dgt */
  constructor(dgt) {
    super(dgt, "recogniser");
  }

  /**
   * Takes what the board shows at this time, or null while it can't be heard. Returns the events
   * until then. Something may have been lost on the line if a position isn't sure. It is confirmed
   * if the board was asked again, and has shown the same. `running` is the side whose clock runs,
   * or null if that isn't known.
   * @param {number} now @param {ArrayLike<number> | null} position
   * @param {{isSure?: boolean, isConfirmed?: boolean, running?: Turn | null}} [options]
   */
  see(now, position, options = {}) {
    const { isSure = true, isConfirmed = true, running = null } = options;
    const sight = position === null ? SIGHTS.away : isSure ? SIGHTS.sure : SIGHTS.doubted;
    const side = running === null ? NO_SUCH : TURNS[running];
    if (side === undefined) throw new BadValue(`not a side: '${running}'`);
    const take = () => this.#see(now, position ?? EMPTY, sight, isConfirmed, side);
    const status = take(), events = this.due(now);
    if (status !== SEE.stillDue) return events;
    take();
    return [...events, ...this.due(now)];
  }

  /**
   * @param {number} now @param {ArrayLike<number>} pieces @param {number} sight
   * @param {boolean} isConfirmed @param {number} side
   */
  #see(now, pieces, sight, isConfirmed, side) {
    const { dgt } = this;
    if (pieces.length !== 64) throw new BadValue(`${pieces.length} pieces instead of 64`);
    const status = this.call("see", whole(now), dgt.put(dgt.in, pieces), sight, isConfirmed, side);
    if (status === SEE.badPieces) throw new BadValue("a piece is above 15");
    return status;
  }

  /** The first time at which `due` has something to do if nothing is seen before, or Infinity. */
  get dueAt() {
    const { dgt } = this;
    return this.call("due_at", dgt.small) ? dgt.wide(dgt.small) : Infinity;
  }

  /**
   * The events that are due at this time.
   * @param {number} now
   */
  due(now) {
    const { dgt } = this;
    /** @type {GameEvent[]} */
    const events = [];
    while (this.call("due", whole(now), dgt.events)) events.push(this.#event(dgt.events));
    return events;
  }

  /** The state that the events so far lead to, or null before a game has begun. */
  get state() {
    const { dgt } = this;
    return this.call("state", dgt.small) ? this.#state(dgt.small) : null;
  }

  /**
   * Goes on from this state of a game, as if events had led to it, and forgets everything else.
   * @param {State} state @param {boolean} isTurned  as that of an event
   */
  goOn(state, isTurned = false) {
    const { dgt } = this;
    this.call("go_on", dgt.put(dgt.in, state.bytes), isTurned);
  }

  /**
   * @param {number} at
   * @returns {GameEvent}
   */
  #event(at) {
    const { dgt } = this, [kind, count, result, turned] = dgt.bytes(at, 4);
    const move = (/** @type {number} */ n) => dgt.move(at + AT.moves + n * MOVE_LENGTH);
    switch (kind) {
      case GAMES.begun:
        return { type: "begun", state: this.#state(at + AT.state), isTurned: turned === 1 };
      case GAMES.made: return { type: "made", move: move(0) };
      case GAMES.unseen:
        return { type: "unseen", moves: Array.from({ length: count }, (_, n) => move(n)) };
      case GAMES.gap: return { type: "gap", count, state: this.#state(at + AT.state) };
      case GAMES.back: return { type: "back", count, stays: dgt.bytes(at + AT.stays, 1)[0] === 1 };
      case GAMES.ended: return { type: "ended", result: RESULT_TEXTS[result] };
      case GAMES.lost:
        return { type: "lost", squares: dgt.squares(at + AT.squares).map(n => dgt.squareName(n)) };
      default: return { type: "found" };
    }
  }

  /** @param {number} at */
  #state(at) {
    return new State(this.dgt, this.dgt.bytes(at, STATE_LENGTH));
  }
}
