// Follows a board on a port, and reopens the port if it disappears.

import { Follower } from "../../bindings/javascript/dgt.js";
import { Line } from "../../bindings/javascript/line.js";
import { Game } from "./game.js";

const PATIENCE = 6;
const PAUSE = 1000; // milliseconds between two looks for a port that has gone
const SHOWN = 500; // milliseconds between two changes of the page

export class Session {
  wasTried = false; // the port was opened once, or failed to open
  isRefused = false; // the port is there, and can't be opened
  /** @type {Uint8Array | null} the last known picture */
  picture = null;
  /** @type {import("../../bindings/javascript/dgt.js").Clock | null} the last known clock */
  clock = null;
  confirmedAt = 0;
  #askedAt = -Infinity;
  #askedBefore = -Infinity;
  #why = "";
  /** @type {Line} */
  #line;

  /**
   * @param {import("../../bindings/javascript/dgt.js").Library} dgt
   * @param {import("../../bindings/javascript/line.js").BoardPort} port  or a simulated port
   * @param {import("../../bindings/javascript/line.js").Ports} ports  reports that a port was
   *   plugged in; a simulated port reports it itself
   * @param {number} period  milliseconds
   * @param {{note: (kind: string, text: string, key?: string) => void, changed: () => void}} page
   */
  constructor(dgt, port, ports, period, page) {
    this.dgt = dgt;
    this.page = page;
    this.game = new Game(dgt);
    this.follower = new Follower(dgt, { period, patience: PATIENCE, clock: true, confirm: true });
    this.#line = new Line(this.follower, port, ports, PAUSE, {
      opened: () => this.#note("news", "the port is open"),
      refused: ({ message }, isThere) => {
        this.#note("fault", `the port can't be opened: ${message}`, isThere);
        page.changed();
      },
      lost: () => {
        this.#see(performance.now());
        this.#askedAt = this.#askedBefore = -Infinity;
        if (!this.hasEnded) page.note("fault", "the port was disconnected");
        page.changed();
      },
      disturbed: fault => page.note("fault", `line: ${fault}`),
      heard: (event, now) => this.#hear(event, now),
      asked: (bytes, now) => {
        this.#askedBefore = this.#askedAt;
        this.#askedAt = now;
        page.note("sent", bytes.length < 4 ? `ask ${hex(bytes)}` :
          `start over: 255 zeros, ${hex(bytes.subarray(255))}`);
      },
      passed: now => {
        this.#see(now);
        page.changed();
        return Math.min(now + SHOWN, this.game.recogniser.dueAt);
      },
    });
  }

  async run() {
    await this.#line.run();
    this.page.changed();
  }

  end() {
    return this.#line.end();
  }

  /** @param {Uint8Array} bytes */
  send(bytes) {
    return this.#line.write(bytes);
  }

  get isOpen() {
    return this.#line.isOpen;
  }

  get hasEnded() {
    return this.#line.hasEnded;
  }

  /**
   * Notes once that the port is open, or why it can't be opened.
   * @param {string} kind @param {string} text
   */
  #note(kind, text, isRefused = false) {
    this.wasTried = true;
    this.isRefused = isRefused;
    if (this.#why !== text) this.page.note(kind, text);
    this.#why = kind === "fault" ? text : "";
  }

  /** @param {import("../../bindings/javascript/dgt.js").Event} event @param {number} now */
  #hear(event, now) {
    const { follower, dgt } = this, isNonsense = NONSENSE.includes(event.type);
    this.page.note(isNonsense ? "fault" : "",
                   `${String(event.offset).padStart(8, "0")} ${dgt.eventText(event)}`,
                   event.type === "times" ? "times" : "");
    if ("clock" in event) this.clock = event.clock;
    // The clock shows no digits, for instance while somebody sets it.
    if ("fault" in event && event.fault === "badReading") this.clock = null;
    if (event.type === "dump" && follower.confirmed) this.confirmedAt = now;
    this.#see(now);
  }

  /** @param {number} now */
  #see(now) {
    const { picture, inDoubt, confirmed } = this.follower;
    this.picture = picture ?? this.picture;
    this.game.see(now, this.isOpen ? picture : null, { isSure: !inDoubt, isConfirmed: confirmed });
  }

  /** The state of the picture. The board is silent after two requests without a reply. */
  get state() {
    const { follower } = this;
    if (this.isRefused) return "refused";
    if (!this.isOpen) return this.wasTried ? "gone" : "asking";
    if (this.#askedBefore > (follower.lastHeard ?? -Infinity)) return "silent";
    if (!follower.picture) return "asking";
    return follower.inDoubt ? "doubt" : follower.confirmed ? "confirmed" : "known";
  }
}

const NONSENSE = ["refused", "cut", "badLength", "stray"];

/** @param {Uint8Array} bytes */
function hex(bytes) {
  return Array.from(bytes, one => one.toString(16).padStart(2, "0")).join(" ");
}
