// Keeps games in the browser.

const PLACE = "dgt-games", MOST_GAMES = 50;

/**
 * A game. `at` is when it began, in milliseconds.
 * @typedef {{at: number, moves: string, result: string, pgn: string}} Kept
 */

/** @returns {Kept[]} */
function storedGames() {
  const all = JSON.parse(localStorage.getItem(PLACE) ?? "[]");
  return Array.isArray(all) ? all : [];
}

export class Games {
  /** @type {Kept[]} the newest first */
  all = [];
  isStored = true; // whether the browser has stored the last change
  at = 0; // when the game that was kept last began
  #of = {};
  #count = 0;
  #changes = 0;

  constructor() {
    this.#change(all => all);
  }

  /**
   * Keeps a game, also while it goes on. Pieces that are set up one by one look like moves that are
   * taken back, so these are kept until the next move, and for good if they stay: then another game
   * goes on from there. At the starting position a game begins.
   * @param {import("./game.js").Game} game
   */
  keep(game) {
    const { line, changes } = game;
    if (line === this.#of && changes === this.#changes) return;
    const isTakenBack = line === this.#of && line.length < this.#count;
    if (line !== this.#of || line.length < 2) this.at = Date.now();
    [this.#of, this.#count, this.#changes] = [line, line.length, changes];
    const { moves, result, pgn } = game;
    if (!moves.length || isTakenBack || game.stays) return;
    const kept = { at: this.at, moves: moves.join(" "), result, pgn };
    this.#change(all => [kept, ...all.filter(({ at }) => at !== kept.at)]);
  }

  /** @param {number} time */
  remove(time) {
    this.#change(all => all.filter(({ at }) => at !== time));
  }

  // Other pages may have changed what is stored.
  /** @param {(all: Kept[]) => Kept[]} change */
  #change(change) {
    try {
      this.all = change(storedGames()).slice(0, MOST_GAMES);
      localStorage.setItem(PLACE, JSON.stringify(this.all));
      this.isStored = true;
    } catch {
      this.all = change(this.all).slice(0, MOST_GAMES);
      this.isStored = false;
    }
  }
}
