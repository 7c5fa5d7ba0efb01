/**
 * Follows a board on a port of Web Serial, and opens the port again if it disappears.
 *
 *     import { load } from "./dgt.js";
 *     import { follow } from "./following.js";
 *     const port = await navigator.serial.requestPort();
 *     for await (const view of follow(await load(), port)) console.log(view.placement);
 */

import { BadValue, Closed, Follower, lighting } from "./dgt.js";
import { Line } from "./line.js";

const LOOK = 2000; // milliseconds between two looks for a port that has gone
const STALE = 1000; // milliseconds after which a view is dropped if there is a newer one
const LONGEST = 3_600_000; // milliseconds of a timer
const GONE = "the port has gone; it is looked for every two seconds";
const SILENT = "the board doesn't answer (switch it off and on)";

/**
 * @typedef {import("./dgt.js").Clock} Clock
 * @typedef {{picture: Uint8Array | null, placement: string | null, clock: Clock | null,
 *   inDoubt: boolean, away: string | null, confirmed: boolean,
 *   serial: Uint8Array | null}} BoardView  What is known of a board. `picture` has the numbers of
 *   the pieces, and `placement` is the same as text; both are null before the board has reported
 *   them. `clock` is null unless it is requested, before its first report, and while it shows no
 *   digits. The picture may be wrong if it is `inDoubt`. `away` is why the board can't be heard. A
 *   second report has shown the same picture if it is `confirmed`. `serial` is the serial number,
 *   once reported.
 *
 * @typedef {{period?: number, patience?: number, mode?: import("./dgt.js").ReportingMode,
 *   confirm?: boolean, identify?: boolean, clock?: boolean, waitForPort?: boolean,
 *   ports?: Ports}} FollowOptions  those of a Follower. With `waitForPort` a port that can't be
 *   opened at first is looked for. `ports` is navigator.serial unless you pass another one: it
 *   finds a port that comes back as another object.
 *
 * @typedef {import("./line.js").BoardPort} BoardPort
 * @typedef {import("./line.js").Ports} Ports
 */

/**
 * Follows the board on a port. If it can't be opened, the first `wait` or step of a loop fails.
 * @param {import("./dgt.js").Library} dgt @param {BoardPort} port @param {FollowOptions} [options]
 */
export function follow(dgt, port, options = {}) {
  return new Following(dgt, port, options);
}

/**
 * A board that is followed: an asynchronous iterable of views, one after each change. A loop that
 * you leave closes it. A view that has waited for a second is dropped if there is a newer one.
 */
export class Following {
  /**
   * The present view.
   * @type {BoardView}
   */
  view = { picture: null, placement: null, clock: null, inDoubt: false, away: null,
           confirmed: false, serial: null };
  /** Makes commands for `write`: `board.write(board.follower.sendText("hello"))`. */
  follower;
  /** @type {{at: number, view: BoardView}[]} those that nobody has taken */
  #views = [];
  /** @type {Set<() => void>} each ends a `wait` */
  #waiting = new Set();
  #isClosed = false;
  /** @type {unknown} why the port could not be opened */
  #fault = null;
  #wasThere = false;
  /** @type {string | null} why there is no port */
  #missing = null;
  #askedAt = -Infinity;
  #unansweredAt = -Infinity;
  /** @type {Line} */
  #line;
  #served;

  /**
   * @param {import("./dgt.js").Library} dgt @param {BoardPort} port
   * @param {FollowOptions} [options]
   */
  constructor(dgt, port, options = {}) {
    const { ports, waitForPort, ...rest } = options;
    this.follower = new Follower(dgt, rest);
    const found = ports ?? /** @type {any} */ (globalThis.navigator)?.serial;
    this.#line = new Line(this.follower, port, found, LOOK, {
      opened: () => {
        this.#wasThere = true;
        this.#missing = null;
        this.#note();
      },
      refused: error => {
        if (this.#wasThere || waitForPort) {
          this.#lose(this.#wasThere ? GONE : error.message);
        } else {
          this.#fault = error;
          this.#line.hasEnded = true;
        }
        this.#wake();
      },
      lost: () => { if (!this.#isClosed) this.#lose(GONE); },
      disturbed: () => {},
      heard: event => {
        const isZero = event.type === "times" && !this.follower.clock;
        this.#note(isZero || (event.type === "refused" && event.fault === "badReading"));
      },
      asked: (_, now) => {
        this.#askedAt = now;
        if (!this.#isUnanswered) this.#unansweredAt = now;
      },
      passed: now => {
        this.#note(); // an answer or the rest of a message may be overdue
        return now + LONGEST;
      },
    });
    this.#served = this.#line.run();
  }

  /**
   * Returns the view after the next change, or null if there was none for this time in
   * milliseconds. Throws a Closed after `close`, and the port's error if it can't be opened.
   * @param {number} timeout
   * @returns {Promise<BoardView | null>}
   */
  async wait(timeout = Infinity) {
    if (!(timeout >= 0)) throw new BadValue(`not a time in milliseconds: ${timeout}`);
    const end = performance.now() + timeout;
    for (let isFirst = true;; isFirst = false) {
      this.#drop();
      const next = this.#views.shift();
      if (next) return next.view;
      if (this.#isClosed) throw new Closed("this Following is closed");
      if (this.#fault) throw this.#fault;
      const left = end - performance.now();
      if (left <= 0 && !isFirst) return null;
      await this.#sleep(Math.max(left, 0));
    }
  }

  // Waits for this time, or until something changes.
  /** @param {number} time */
  #sleep(time) {
    return new Promise((/** @type {(value?: unknown) => void} */ done) => {
      const end = () => {
        clearTimeout(timer);
        this.#waiting.delete(end);
        done();
      };
      const timer = setTimeout(end, Math.min(time, LONGEST));
      this.#waiting.add(end);
    });
  }

  #wake() {
    for (const end of [...this.#waiting]) end();
  }

  /** @returns {AsyncGenerator<BoardView, void, undefined>} */
  async *[Symbol.asyncIterator]() {
    try {
      for (let view; (view = await this.wait());) yield view;
    } catch (error) {
      if (!(error instanceof Closed)) throw error;
    } finally {
      await this.close();
    }
  }

  /**
   * Sends bytes to the board. They are lost if the port has gone.
   * @param {Uint8Array} bytes
   */
  write(bytes) {
    if (this.#isClosed) throw new Closed("this Following is closed");
    this.#line.write(bytes);
  }

  /**
   * Lights two squares of a board with lights, or none: see `lighting`.
   * @param {string[]} squares
   */
  light(...squares) {
    this.write(this.follower.sendLeds(lighting(...squares)));
  }

  /** Ends it, and closes the port. Each `wait` throws a Closed, also one that is under way. */
  async close() {
    this.#isClosed = true;
    this.#views = [];
    this.#wake();
    await this.#line.end();
    await this.#served;
  }

  /** @param {string} why */
  #lose(why) {
    this.#missing = why;
    this.#askedAt = this.#unansweredAt = -Infinity;
    this.#note();
  }

  /** Whether nothing was heard since a request. */
  get #isUnanswered() {
    return this.#unansweredAt > (this.follower.lastHeard ?? -Infinity);
  }

  // Notes a change. The last known state is kept while the port is away, and until the board
  // reports it again.
  #note(hasNoReading = false) {
    const { follower, view: old } = this, { picture, placement, clock, serial } = follower;
    const isSilent = this.#isUnanswered && this.#askedAt - this.#unansweredAt >= 1000;
    const away = this.#missing ?? (isSilent ? SILENT : null);
    const isOld = picture === null && old.picture !== null;
    const view = { picture: picture ?? old.picture, placement: placement ?? old.placement,
                   clock: clock ?? (hasNoReading ? null : old.clock),
                   inDoubt: follower.inDoubt || away !== null || isOld, away,
                   confirmed: follower.confirmed, serial: serial ?? old.serial };
    if (JSON.stringify(view) === JSON.stringify(old)) return;
    this.view = view;
    this.#drop();
    this.#views.push({ at: performance.now(), view });
    this.#wake();
  }

  #drop() {
    const oldest = performance.now() - STALE;
    while (this.#views.length > 1 && this.#views[0].at < oldest) this.#views.shift();
  }
}
