/**
 * The rules of chess, from the proved library: which moves are legal, the state after one, draws,
 * and texts.
 *
 *     import { load } from "./dgt.js";
 *     import { State } from "./chess.js";
 *     const state = State.start(await load()).play("e2e4");
 *     console.log(state.fen, state.moves());
 *
 * A move is a text: its two squares, and the letter of the piece that a pawn becomes, such as
 * "e2e4" or "e7e8q". A castling is the move of its king, such as "e1g1".
 *
 * The rules are proved in the library: bindings/c/include/dgt.h documents each call. This file only
 * passes values to it and back, and has no rule of its own. It is tested, not proved.
 */

import { BadValue, DgtError } from "./dgt.js";
import { CHESS, NO_SUCH, STRUCTS, TURNS } from "./header.js";

const FEN_FIELDS = /** @type {const} */ (
  ["placement", "turn", "rights", "passed", "halfMoves", "number"]);
const MOVE = /^([a-h][1-8])([a-h][1-8])([qrbn]?)$/, RIGHTS = "KQkq", PROMOTIONS = "qrbn";
const REASONS = Object.keys(CHESS), SIDES = /** @type {Turn[]} */ (Object.keys(TURNS));
const STATE_SIZE = STRUCTS.chess_state.size, MOST_READ = 255; // characters of a text

/**
 * @typedef {import("./dgt.js").Library} Library
 * @typedef {keyof typeof TURNS} Turn
 * @typedef {{position: ArrayLike<number>, turn: Turn, rights?: string, passed?: string | null,
 *   halfMoves?: number, number?: number}} Parts  of a state, as its properties return them
 * @typedef {typeof FEN_FIELDS[number]} FenField
 * @typedef {"badText" | "noMove" | "ambiguous"} SanFault
 * @typedef {Exclude<keyof typeof CHESS, "done" | SanFault>} Why
 * @typedef {"is_check" | "can_move" | "is_mate" | "is_stalemate" | "is_dead" | "is_fifty_moves" |
 *   "is_seventy_five_moves"} Question
 */

/** A move isn't legal, or a text isn't a move. */
export class IllegalMove extends DgtError {}

/**
 * No game reaches a state. `why` is the first reason that holds: one of "badKings", "extraPiece",
 * "badPawn", "inCheck", "badRights", "badPassed" and "badNumber", or "badMember" for a piece
 * above 15.
 */
export class Impossible extends DgtError {
  /** @param {number} status */
  constructor(status) {
    const why = /** @type {Why} */ (REASONS[status]);
    super(`no game reaches this state: ${why}`);
    this.why = why;
  }
}

/**
 * A text isn't a FEN. The first wrong character, or the text's end, is at `at`, in the field
 * `field`.
 */
export class BadFen extends DgtError {
  /** @param {string} text @param {number} field @param {number} at */
  constructor(text, field, at) {
    super(`not a FEN: wrong at character ${at}, in the field ${FEN_FIELDS[field]}: '${text}'`);
    this.field = FEN_FIELDS[field];
    this.at = at;
  }
}

/**
 * A text isn't that of a legal move. `why` is "badText" if it is no move's in any state, "noMove"
 * if the move isn't legal, and "ambiguous" if several legal moves fit.
 */
export class BadSan extends DgtError {
  /** @param {string} text @param {number} status */
  constructor(text, status) {
    const why = /** @type {SanFault} */ (REASONS[status]);
    super(`not the text of a legal move: ${why}: '${text}'`);
    this.why = why;
  }
}

/**
 * The state of a game: a position, the side to move, and what the rules remember of earlier moves.
 * It is always one that a game may reach, and it never changes.
 */
export class State {
  #dgt;
  #bytes;

  /**
   * The state of these parts. Throws Impossible.
   * @param {Library} dgt
   * @param {Parts | Uint8Array} parts  or the bytes of a `dgt_chess_state`
   */
  constructor(dgt, parts) {
    this.#dgt = dgt;
    this.#bytes = parts instanceof Uint8Array ? parts.slice() : stateBytes(dgt, parts);
    if (this.#bytes.length !== STATE_SIZE) throw new BadValue(`not ${STATE_SIZE} bytes`);
    const status = dgt.calls.chess_check(this.#put());
    if (status !== CHESS.done) throw new Impossible(status);
  }

  /**
   * The state in which a game begins.
   * @param {Library} dgt
   */
  static start(dgt) {
    dgt.calls.chess_start(dgt.in);
    return new State(dgt, dgt.bytes(dgt.in, STATE_SIZE));
  }

  /**
   * The state of a text in Forsyth-Edwards Notation: six fields with one space between two. Throws
   * BadFen and Impossible.
   * @param {Library} dgt @param {string} fen
   */
  static parse(dgt, fen) {
    const [text, length] = putText(dgt, fen);
    const { status, field, at } = dgt.calls.chess_parse_fen(text, length, dgt.in);
    if (status === CHESS.badText) throw new BadFen(fen, field, at);
    if (status !== CHESS.done) throw new Impossible(status);
    return new State(dgt, dgt.bytes(dgt.in, STATE_SIZE));
  }

  /** The numbers of the pieces, from a8 to h1. */
  get position() {
    return this.#members.pieces;
  }

  /** The side to move. */
  get turn() {
    return SIDES[this.#members.turn];
  }

  /** The castlings that no earlier move has ruled out: letters of "KQkq" in this order. */
  get rights() {
    const { rights } = this.#members;
    return [...RIGHTS].filter((_, n) => rights[n]).join("");
  }

  /**
   * The square that a pawn passed over by a double step in the last move, whether or not it can be
   * captured there, or null.
   */
  get passed() {
    const { passed } = this.#members;
    return passed === NO_SUCH ? null : this.#dgt.squareName(passed);
  }

  /**
   * The number of moves of either side since the last capture or move of a pawn, or 65535 if there
   * are more.
   */
  get halfMoves() {
    return this.#members.halfMoves;
  }

  /**
   * The number of the move: 1 at the beginning, and one more after each move of Black. It ends at
   * 65535.
   */
  get number() {
    return this.#members.number;
  }

  /**
   * Whether a move is legal. A text that isn't a move is not.
   * @param {string} move
   */
  isLegal(move) {
    return this.#dgt.calls.chess_is_legal(this.#put(), this.#putMove(move));
  }

  /**
   * The state after a legal move. Throws IllegalMove for any other.
   * @param {string} move
   */
  play(move) {
    const dgt = this.#dgt, place = this.#put();
    if (!dgt.calls.chess_play(place, this.#putMove(move))) throw this.#illegal(move);
    return new State(dgt, dgt.bytes(place, STATE_SIZE));
  }

  /**
   * The legal moves, or only those from one square.
   * @param {string} [from]
   */
  moves(from) {
    const dgt = this.#dgt, squares = [...Array(64).keys()], found = [];
    dgt.calls.chess_goals(this.#put(), dgt.out);
    const goals = dgt.bytes(dgt.out, 512); // 64 bits for each square
    for (const a of from === undefined ? squares : [dgt.squareNumber(from)]) {
      for (const b of squares.filter(n => goals[8 * a + (n >> 3)] >> (n & 7) & 1)) {
        const move = dgt.squareName(a) + dgt.squareName(b);
        const all = this.isLegal(move) ? [move] : [...PROMOTIONS].map(letter => move + letter);
        found.push(...all);
      }
    }
    return found;
  }

  /**
   * The legal move that leads to these pieces, or null. There is at most one.
   * @param {ArrayLike<number>} position
   */
  moveTo(position) {
    const dgt = this.#dgt;
    if (position.length !== 64) throw new BadValue(`${position.length} pieces instead of 64`);
    const isOne = dgt.calls.chess_move_to(this.#put(), dgt.put(dgt.other, position), dgt.small);
    return isOne ? dgt.move(dgt.small) : null;
  }

  /** Whether the side to move is in check. */
  get isCheck() {
    return this.#is("is_check");
  }

  /** Whether the side to move has a legal move. */
  get canMove() {
    return this.#is("can_move");
  }

  /** Whether the side to move is checkmated. */
  get isMate() {
    return this.#is("is_mate");
  }

  /** Whether the side to move has no legal move and isn't in check. */
  get isStalemate() {
    return this.#is("is_stalemate");
  }

  /**
   * Whether no moves can lead to checkmate, because only kings are left, or also one knight, or
   * also bishops that all stand on squares of one colour. Other such positions aren't found.
   */
  get isDead() {
    return this.#is("is_dead");
  }

  /**
   * Whether the last 50 moves of each side moved no pawn and captured nothing: the side to move may
   * claim a draw.
   */
  get isFiftyMoves() {
    return this.#is("is_fifty_moves");
  }

  /** Whether the last 75 moves of each side did: a draw, unless the last one was checkmate. */
  get isSeventyFiveMoves() {
    return this.#is("is_seventy_five_moves");
  }

  /**
   * Whether another state has the same position with the same side to move, in which the same moves
   * are possible.
   * @param {State} other
   */
  isRepeated(other) {
    return this.#dgt.calls.chess_is_repeated(this.#put(), other.#put(this.#dgt.other));
  }

  /**
   * How many of these states do. If three of a game do, the side to move may claim a draw.
   * @param {State[]} history
   */
  repetitions(history) {
    return history.filter(other => this.isRepeated(other)).length;
  }

  /**
   * The text in Forsyth-Edwards Notation. It has the passed square only if a legal move captures
   * the pawn there.
   */
  get fen() {
    const dgt = this.#dgt;
    dgt.calls.chess_fen(this.#put(), dgt.small);
    return dgt.text(dgt.small);
  }

  /**
   * A legal move in Standard Algebraic Notation, as PGN files contain it. Throws IllegalMove for
   * any other.
   * @param {string} move
   */
  san(move) {
    const dgt = this.#dgt, place = this.#putMove(move);
    if (!dgt.calls.chess_san(this.#put(), place, dgt.small)) throw this.#illegal(move);
    return dgt.text(dgt.small);
  }

  /**
   * The legal move that `san` writes so. If `lenient`, the sign of check or mate and the = of a
   * promotion may be missing, the file and the rank that the move leaves are each written or left
   * out, and castling is written with the letter O or with zeros. Throws BadSan.
   * @param {string} text @param {{lenient?: boolean}} [options]
   */
  parseSan(text, options = {}) {
    const dgt = this.#dgt, [place, length] = putText(dgt, text);
    const call = dgt.calls[options.lenient ? "chess_parse_san_leniently" : "chess_parse_san"];
    const status = call(this.#put(), place, length, dgt.small);
    if (status !== CHESS.done) throw new BadSan(text, status);
    return dgt.move(dgt.small);
  }

  /** The bytes of its `dgt_chess_state`. */
  get bytes() {
    return this.#bytes.slice();
  }

  /** @param {Question} question */
  #is(question) {
    return this.#dgt.calls[`chess_${question}`](this.#put());
  }

  get #members() {
    return this.#dgt.read("chess_state", this.#put());
  }

  /** Writes the state for a call, and returns its place. */
  #put(place = this.#dgt.in) {
    return this.#dgt.put(place, this.#bytes);
  }

  /**
   * The same for a move. Another text is written as a move that is never legal.
   * @param {string} move
   */
  #putMove(move) {
    const dgt = this.#dgt, [, from, to, letter] = MOVE.exec(move) ?? ["", "a8", "a8"];
    const promotion = letter ? dgt.pieceCode(letter.toUpperCase()) : 0;
    const [a, b] = [dgt.squareNumber(from), dgt.squareNumber(to)];
    return dgt.write("chess_move", dgt.other, { from: a, to: b, promotion });
  }

  /** @param {string} move */
  #illegal(move) {
    return new IllegalMove(`not legal in ${this.fen}: '${move}'`);
  }
}

/** @param {Library} dgt @param {Parts} parts */
function stateBytes(dgt, parts) {
  const { position, turn, rights = "", passed = null, halfMoves = 0, number = 1 } = parts;
  if (!SIDES.includes(turn)) throw new BadValue(`not a side: '${turn}'`);
  if (!/^K?Q?k?q?$/.test(rights)) throw new BadValue(`not letters of KQkq in order: '${rights}'`);
  const place = dgt.write("chess_state", dgt.in, {
    pieces: position, turn: TURNS[turn], halfMoves, number,
    rights: Array.from(RIGHTS, right => Number(rights.includes(right))),
    passed: passed === null ? NO_SUCH : dgt.squareNumber(passed),
  });
  return dgt.bytes(place, STATE_SIZE);
}

/**
 * Writes a text, or so much of it that it is too long. Returns a call's arguments for it.
 * @param {Library} dgt @param {string} text
 * @returns {[number, number]}
 */
function putText(dgt, text) {
  if (typeof text !== "string") throw new BadValue(`not a text: ${text}`);
  const units = Array.from({ length: Math.min(text.length, MOST_READ) }, (_, n) => n);
  const bytes = units.map(n => Math.min(text.charCodeAt(n), 255)); // no text has the byte 255
  return [dgt.put(dgt.other, bytes), bytes.length];
}
