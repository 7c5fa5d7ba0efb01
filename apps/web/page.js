// The page: shows a board that is followed, and one that is simulated.

import { DgtError, FLAGS, STATUS, isWide, lighting,
         load } from "../../bindings/javascript/dgt.js";
import { Drawing, lettersOf } from "./drawing.js";
import { Games } from "./games.js";
import { Session } from "./session.js";
import { SimulatedPort } from "./simulated.js";
import { Theorem } from "./theorem.js";

/** @typedef {import("../../bindings/javascript/dgt.js").Library} Library */
/** @typedef {import("../../bindings/javascript/dgt.js").Follower} Follower */
/** @typedef {import("../../bindings/javascript/dgt.js").Time} Time */
/** @typedef {import("../../bindings/javascript/dgt.js").Clock} Clock */

const find = (/** @type {string} */ id) =>
  /** @type {HTMLElement} */ (document.getElementById(id));
const drawing = (/** @type {string} */ id) =>
  new Drawing(/** @type {SVGElement} */ (document.querySelector(`#${id} svg`)));
const wait = (/** @type {number} */ ms) => new Promise(done => setTimeout(done, ms));
const asked = new URLSearchParams(location.search);
const PERIODS = { serial: Number(asked.get("period")) || 10000, simulated: 2000 }; // milliseconds
const START = "rnbqkbnr/pppppppp/8/8/8/8/PPPPPPPP/RNBQKBNR";
const NO_PIECES = ".".repeat(64);
const NO_GAME = { moves: [], result: "*", lost: [], lacks: "" };
const STATES = {
  none: "no board", gone: "disconnected: waiting for the port", silent: "the board doesn't answer",
  refused: "the port can't be opened", asking: "asking the board", doubt: "in doubt: asking again",
  known: "not confirmed yet", confirmed: "confirmed",
};
const ADVICE = "The port can't be opened. Close another program or another tab that uses it. On " +
  "Linux, join the group dialout (sudo adduser $USER dialout), and log in again.";
const seen = drawing("seen"), table = drawing("table"), games = new Games();
/** @type {Library} */
let library;
/** @type {Session | null} */
let session = null;
/** @type {SimulatedPort | null} */
let simulated = null;
/** @type {Theorem | null} */
let theorem = null;
let isDrawing = false, isAdvised = false;

/** @param {Element} node @param {string} text */
function write(node, text) {
  if (node.textContent !== text) node.textContent = text;
}

/** @param {Element} button @param {boolean} isPressed @param {string} text @param {string} other */
function press(button, isPressed, text, other) {
  button.setAttribute("aria-pressed", String(isPressed));
  write(button, isPressed ? other : text);
}

/* What is shown. */

// Draws the page once after several changes.
function draw() {
  if (!isDrawing) queueMicrotask(drawNow);
  isDrawing = true;
}

function drawNow() {
  isDrawing = false;
  if (session?.hasEnded) session = null;
  const state = session ? session.state : "none";
  drawState(state);
  drawClock(session?.clock, state);
  if (isAdvised !== (state === "refused")) {
    isAdvised = !isAdvised;
    say(isAdvised ? ADVICE : "");
  }
  const { moves, result, lost, lacks } = session?.game ?? NO_GAME;
  drawMoves(result === "*" ? moves : [...moves, result]);
  write(find("lacks"), lacks);
  seen.frame(lost);
  if (session) games.keep(session.game);
  drawGames();
  find("save").hidden = !moves.length;
  find("connect").hidden = find("try").hidden = Boolean(session);
  find("end").hidden = find("sends").hidden = !session;
  find("table").hidden = find("acts").hidden = !simulated;
  document.querySelector("main")?.classList.toggle("trying", Boolean(simulated));
  write(find("title"), simulated ? "What this page knows" : "The board");
  if (simulated) drawTable(simulated);
}

/**
 * Each move has its own node, so that a screen reader says only new ones.
 * @param {string[]} moves
 */
function drawMoves(moves) {
  const node = find("moves");
  while (node.childElementCount > moves.length) node.lastElementChild?.remove();
  moves.forEach((text, n) => {
    write(node.children[n] ?? node.appendChild(document.createElement("span")), `${text} `);
  });
}

// Draws the kept games, without the one that goes on.
function drawGames() {
  const shown = games.all.filter(({ at }) => !session || at !== games.at), node = find("games");
  const key = shown.map(({ at }) => at).join();
  node.hidden = !key;
  if (node.dataset.key === key) return;
  node.dataset.key = key;
  write(node.children[0], `Kept games (${shown.length})`);
  node.children[1].replaceChildren(...shown.map(drawnGame));
}

/** @param {import("./games.js").Kept} kept */
function drawnGame({ at, moves, result, pgn }) {
  const row = document.createElement("div"), text = document.createElement("span");
  const time = new Date(at).toLocaleString([], { dateStyle: "medium", timeStyle: "short" });
  text.textContent = `${time}: ${moves} ${result}`;
  row.className = "row";
  row.append(text);
  for (const [name, act] of /** @type {[string, () => void][]} */ (
    [["Save PGN", () => save(pgn)], ["Remove", () => games.remove(at)]])) {
    const button = row.appendChild(document.createElement("button"));
    button.textContent = name;
    button.setAttribute("aria-label", `${name}, game of ${time}`);
    onClick(button, act);
  }
  return row;
}

/** @param {keyof STATES} state */
function drawState(state) {
  const picture = session?.picture, fen = picture ? library.placement(picture) : "";
  find("state").dataset.state = state;
  write(/** @type {Element} */ (find("state").firstElementChild), STATES[state]);
  const age = state === "confirmed" ? performance.now() - (session?.confirmedAt ?? 0) : NaN;
  write(find("age"), age >= 1000 ? ` ${Math.floor(age / 1000)} s ago` : "");
  seen.draw(picture ? lettersOf(library, picture) : NO_PIECES,
            fen ? `${STATES[state]}. FEN: ${fen}` : STATES[state]);
  seen.svg.classList.toggle("unsure", !["none", "known", "confirmed"].includes(state));
  seen.svg.classList.toggle("nothing", !fen);
  write(find("fen"), fen);
  find("copy").hidden = !fen;
}

/** @param {SimulatedPort} simulated */
function drawTable({ pieces, lit, shown, carried, altered, isPlugged, isOn, noise }) {
  table.draw(lettersOf(library, pieces), `The board on the table: ${library.placement(pieces)}`);
  table.frame(lit);
  const wrong = session?.picture ? library.differ(pieces, session.picture) : [];
  if (wrong.length) seen.frame(wrong);
  write(find("wire"), shown ? `the clock shows “${shown}”` :
    `${carried} bytes, ${altered} altered`);
  press(find("cable"), !isPlugged, "Pull the cable", "Plug it in");
  press(find("power"), !isOn, "Switch it off", "Switch it on");
  press(find("noise"), noise > 0, "Noise", "Stop the noise");
}

const timeText = (/** @type {Time} */ { hours, minutes, seconds }) =>
  `${hours}:${String(minutes).padStart(2, "0")}:${String(seconds).padStart(2, "0")}`;

/**
 * The clock's left side and its right one: a board doesn't report which player has which.
 * @param {Clock | null | undefined} clock @param {keyof STATES} state
 */
function drawClock(clock, state) {
  const node = find("clock"), times = clock?.kind === "times" ? clock : null;
  const status = times && ["confirmed", "known"].includes(state) ? times.status : 0;
  const key = JSON.stringify([clock, status]);
  node.hidden = !clock;
  if (!clock || node.dataset.key === key) return;
  node.dataset.key = key;
  const sides = times ? [times.first, times.second] : [null];
  const turns = [STATUS.whiteTurn, STATUS.blackTurn];
  find("times").replaceChildren(...sides.map((time, n) => {
    const made = document.createElement("span");
    made.textContent = time ? timeText(time) : "no clock is connected";
    const runs = status & STATUS.running && status & turns[n];
    made.className = !time ? "absent" : runs ? "runs" : "";
    return made;
  }));
  ["left", "right"].forEach((side, n) =>
    write(find("flags").children[n], flagsText(side, sides[n]?.flags ?? 0)));
}

/** @param {string} side @param {number} flags */
function flagsText(side, flags) {
  const set = [];
  if (flags & FLAGS.perMove) set.push("time per move");
  if (flags & (FLAGS.blocked | FLAGS.fallen)) set.push("flag fallen");
  return set.length ? `${side}: ${set.join(", ")}` : "";
}

/* The messages. */

const KEPT = 300; // lines
/** @type {string[]} all lines, for tests and the console */
const log = [];

/** @param {string} kind @param {string} text */
function note(kind, text, key = "") {
  const lines = find("lines"), last = lines.querySelector("li");
  showLines(true);
  const same = key && last?.dataset.key === key ? last : null; // a running clock has one line
  const made = same ?? document.createElement("li");
  made.className = kind;
  made.textContent = text;
  if (key) made.dataset.key = key;
  if (!same) lines.prepend(made);
  if (lines.childElementCount > KEPT) lines.lastElementChild?.remove();
  log.push(text);
  if (log.length > 10 * KEPT) log.splice(0, KEPT);
}

/**
 * Shows the messages, or how to begin.
 * @param {boolean} isShown
 */
function showLines(isShown) {
  find("hint").hidden = isShown;
  find("lines").hidden = find("order").hidden = !isShown;
  write(find("heading"), isShown ? "Messages" : "How it works");
}

/** @param {string} text */
function say(text) {
  find("says").hidden = !text;
  write(find("says"), text);
}

/* Sessions. */

/** @param {SerialPort} port @param {EventTarget} ports @param {number} period */
function begin(port, ports, period) {
  say("");
  find("lines").replaceChildren();
  session = new Session(library, port, ports, period, { note, changed: draw });
  session.run().catch(error => say(`Internal error: ${error}`));
  draw();
}

async function connect() {
  const { serial } = navigator;
  try {
    if (serial) begin(await serial.requestPort(), serial, PERIODS.serial);
  } catch (error) {
    const { name, message } = /** @type {Error} */ (error);
    if (name !== "NotFoundError") say(`No port was chosen: ${message}`);
  }
}

function tryIt() {
  simulated = new SimulatedPort(library, library.parsePlacement(START));
  clock.begin();
  begin(simulated, simulated, PERIODS.simulated);
}

async function end() {
  stopGame();
  clock.end();
  await session?.end();
  simulated?.close();
  simulated = session = null;
  showLines(false);
  draw();
}

/* The clock on the table. */

const clock = {
  left: [5400, 5400], turn: 0, isRunning: false, timer: 0,

  begin() {
    Object.assign(this, { left: [5400, 5400], turn: 0, isRunning: false });
    this.timer = setInterval(() => this.tick(), 1000);
    this.hand();
  },

  end() {
    clearInterval(this.timer);
  },

  tick() {
    if (!this.isRunning) return;
    this.left[this.turn] = Math.max(0, this.left[this.turn] - 1);
    this.hand();
  },

  press() {
    if (this.isRunning) this.turn = 1 - this.turn;
    this.isRunning = true;
    this.hand();
  },

  hand() {
    const [first, second] = this.left.map(all => ({
      hours: Math.floor(all / 3600), minutes: Math.floor(all / 60) % 60, seconds: all % 60,
      flags: all ? 0 : FLAGS.fallen,
    }));
    const turn = this.turn ? STATUS.blackTurn : STATUS.whiteTurn;
    const status = (this.isRunning ? STATUS.running : 0) | turn;
    simulated?.board.handClock({ kind: "times", status, first, second });
  },
};

/* Pieces are moved on the table. */

/**
 * The squares of a move as "e2e4", or null.
 * @param {string} text
 * @returns {[number, number] | null}
 */
function squaresOf(text) {
  const found = /^([a-h][1-8])([a-h][1-8])$/.exec(text.trim().toLowerCase());
  return found && [library.squareNumber(found[1]), library.squareNumber(found[2])];
}

/** @param {number} square @param {number} piece */
function put(square, piece) {
  const isLast = square < 8 || square > 55; // a pawn is promoted to a queen
  const isPawn = piece === 1 || piece === 7;
  simulated?.change(square, isLast && isPawn ? piece + 5 : piece);
}

/** @param {SVGElement} svg */
function dragging(svg) {
  /** @type {{from: number, piece: number} | null} */
  let held = null;
  svg.addEventListener("pointerdown", event => {
    const place = table.at(event), from = place.square ?? 64, piece = simulated?.pieces[from];
    if (held || !piece) return;
    svg.setPointerCapture(event.pointerId);
    held = { from, piece };
    table.hold(library.pieceLetter(piece), place);
    simulated?.change(from, 0);
    draw();
  });
  svg.addEventListener("pointermove", event => {
    if (held) table.hold(library.pieceLetter(held.piece), table.at(event));
  });
  const drop = (/** @type {number | null} */ square) => {
    if (held && square !== null) put(square, held.piece);
    table.hold("");
    held = null;
    draw();
  };
  svg.addEventListener("pointerup", event => drop(table.at(event).square));
  svg.addEventListener("pointercancel", () => drop(held?.from ?? null));
}

/** @param {[number, number]} squares */
async function move([from, to], pause = 0) {
  const piece = simulated?.pieces[from];
  if (!piece || from === to) return;
  simulated?.change(from, 0);
  draw();
  if (pause) await wait(pause);
  put(to, piece);
  draw();
}

// Morphy against Duke Karl and Count Isouard, Paris 1858.
const GAME = ("e2e4 e7e5 g1f3 d7d6 d2d4 c8g4 d4e5 g4f3 d1f3 d6e5 f1c4 g8f6 f3b3 d8e7 b1c3 c7c6 " +
  "c1g5 b7b5 c3b5 c6b5 c4b5 b8d7 e1c1,a1d1 a8d8 d1d7 d8d7 h1d1 e7e6 b5d7 f6d7 b3b8 d7b8 d1d8")
  .split(" ");
/** @type {{} | null} the game in progress */
let game = null;
/** @type {Promise<void> | null} its last move, which may hold a piece */
let played = null;

async function setUp() {
  await played;
  const pieces = library.parsePlacement(START);
  pieces.forEach((piece, square) => simulated?.change(square, piece));
  draw();
}

function stopGame() {
  game = null;
  press(find("play"), false, "Play a game", "Stop the game");
}

async function play() {
  if (game) return stopGame();
  const mine = game = {};
  press(find("play"), true, "Play a game", "Stop the game");
  await setUp();
  for (const ply of GAME) {
    await wait(900);
    for (const part of ply.split(",")) {
      if (game !== mine) return;
      const squares = squaresOf(part);
      if (squares) await (played = move(squares, 250));
    }
    clock.press();
  }
  if (game === mine) stopGame();
}

/* What the user does. */

/**
 * Sends a command that a call of the follower returns.
 * @param {string} text @param {(follower: Follower) => Uint8Array} command
 */
async function send(text, command) {
  if (!session?.isOpen) return;
  try {
    const bytes = command(session.follower);
    note("sent", text);
    await session.send(bytes);
  } catch (error) {
    if (!(error instanceof DgtError)) throw error;
    note("fault", error.message);
  }
}

/** @param {string} pgn */
function save(pgn) {
  const link = document.createElement("a");
  const type = "application/x-chess-pgn";
  link.href = URL.createObjectURL(new Blob([pgn], { type }));
  link.download = "game.pgn";
  link.click();
  setTimeout(() => URL.revokeObjectURL(link.href), 1000);
}

/** @param {Element} button @param {() => void} act */
function onClick(button, act) {
  button.addEventListener("click", () => {
    act();
    draw();
  });
}

/** @param {string} id @param {() => void} act */
const on = (id, act) => onClick(find(id), act);

/**
 * Handles a form with one field: `act` gets its text, and returns false if it is invalid.
 * @param {string} id @param {(text: string) => false | void} act
 */
function onText(id, act) {
  const form = find(id), field = /** @type {HTMLInputElement} */ (form.querySelector("input"));
  form.addEventListener("submit", event => {
    event.preventDefault();
    if (act(field.value) === false) field.select();
    else field.value = "";
    draw();
  });
}

on("connect", connect);
on("try", tryIt);
on("end", end);
on("garble", () => simulated?.garble());
on("frame", () => simulated?.frame());
on("noise", () => simulated?.makeNoise(simulated.noise === 0));
on("cable", () => simulated?.plug(!simulated.isPlugged));
on("power", () => {
  simulated?.power(!simulated.isOn);
  clock.hand();
});
on("press", () => clock.press());
on("play", play);
on("pieces", () => {
  stopGame();
  setUp();
});
on("copy", () => navigator.clipboard?.writeText(find("fen").textContent ?? ""));
on("save", () => save(session?.game.pgn ?? ""));
onText("move", text => {
  const squares = squaresOf(text);
  if (!squares) return false;
  move(squares);
});
onText("show", text => {
  if (text) send(`clock “${text}”`, it => it.sendText(text));
  else send("clock: its times", it => it.sendEnd());
});
onText("light", text => {
  const squares = text ? squaresOf(text) : [];
  if (!squares) return false;
  const lit = lighting(...squares.map(n => library.squareName(n)));
  send(text ? `LEDs ${text}` : "no LEDs", it => it.sendLeds(lit));
});
dragging(table.svg);
addEventListener("beforeunload", event => {
  if (session?.game.moves.length && !games.isStored) event.preventDefault();
});

/* The beginning. */

async function openAllowed() {
  if (!navigator.serial) {
    say(isSecureContext ?
      "This browser can't open a serial port from a page. Chrome, Edge and new versions of " +
      "Firefox on a computer can. Here you can try the page without a board." :
      "Serial ports work only on pages from https, localhost or a disk: open this page there.");
    return;
  }
  find("connect").removeAttribute("disabled");
  const ports = await navigator.serial.getPorts(); // those that the user chose before
  if (ports.length === 1) begin(ports[0], navigator.serial, PERIODS.serial);
}

// A page from a server can be installed, and then opens offline.
function keep() {
  if (!location.protocol.startsWith("http") || !("serviceWorker" in navigator)) return;
  const link = document.createElement("link");
  Object.assign(link, { rel: "manifest", href: "manifest.webmanifest" });
  document.head.append(link);
  navigator.serviceWorker.register("worker.js").catch(() => {}); // it works without
}

async function start() {
  const isNarrow = asked.has("narrow") || !isWide();
  const text = atob(isNarrow ? DGT : DGT64); // apps/web/build defines both
  library = await load(Uint8Array.from(text, letter => letter.charCodeAt(0)));
  const parts = [1e6, 1e3, 1].map(n => Math.trunc(library.version / n) % 1000);
  write(find("version"), `version ${parts.join(".")}, ${isNarrow ? 32 : 64} bits`);
  find("try").removeAttribute("disabled");
  find("theorem").addEventListener("toggle", () => {
    theorem ??= new Theorem(library, find("theorem"));
  });
  await openAllowed();
}

try {
  await start();
} catch (error) {
  say(`The library could not be started: ${error}`);
}
keep();
draw();
globalThis.page = { // for tests and the console
  get session() { return session; }, get simulated() { return simulated; },
  get library() { return library; }, get theorem() { return theorem; }, clock, log, seen, squaresOf,
  move, games,
};
