// Draws a board as SVG.

const SVG = "http://www.w3.org/2000/svg";
/** @type {Record<string, string>} */
const SHAPES = { // the path of each piece in a square of 100 by 100
  p: "M50 22a13 13 0 0 1 8 23q10 12 11 30h6v11H25V75h6q1-18 11-30a13 13 0 0 1 8-23z",
  r: "M24 86V75h8l3-31-9-8V16h12v8h7v-8h10v8h7v-8h12v20l-9 8 3 31h8v11z",
  n: "M30 86V76q0-14 15-26-14 2-20 12l-9-7q4-18 16-26l3-13 9 7q30-2 34 32 1 12-2 31z",
  b: "M50 12a6 6 0 0 1 5 10q16 16 13 29-2 7-9 11l4 13h12v11H25V75h12l4-13q-7-4-9-11-3-13 13-29" +
    "a6 6 0 0 1 5-10zM47 32h6v8h8v6h-8v8h-6v-8h-8v-6h8z",
  q: "M28 86V75l3-9-15-38 18 18 4-30 12 28 12-28 4 30 18-18-15 38 3 9v11z",
  k: "M46 10h8v7h7v8h-7v11q24-12 29 6 3 12-14 24l3 9v11H28V75l3-9q-17-12-14-24 5-18 29-6V25h-7" +
    "v-8h7z",
  x: "M50 24a26 26 0 0 1 0 52 26 26 0 0 1 0-52z",
  y: "M50 22l30 54H20z",
  z: "M26 26h48v48H26z",
};
const SQUARES = [...Array(64).keys()];

/**
 * The letters of pieces, with "." for none.
 * @param {import("../../bindings/javascript/dgt.js").Library} dgt @param {ArrayLike<number>} pieces
 */
export const lettersOf = (dgt, pieces) =>
  Array.from(pieces, one => dgt.pieceLetter(one)).join("");

/** @param {string} name @param {Record<string, string | number>} attributes */
function element(name, attributes, text = "") {
  const made = document.createElementNS(SVG, name);
  for (const [key, value] of Object.entries(attributes)) made.setAttribute(key, String(value));
  made.textContent = text;
  return made;
}

/** @param {Element} node @param {string} letter */
function shape(node, letter) {
  const small = letter.toLowerCase();
  node.setAttribute("d", SHAPES[small] ?? "");
  node.setAttribute("class", letter === small ? "black" : "white");
}

export class Drawing {
  /** @param {SVGElement} svg */
  constructor(svg) {
    this.svg = svg;
    this.letters = ".".repeat(64);
    const dark = SQUARES.filter(n => (n + (n >> 3)) % 2);
    const path = dark.map(n => `M${n % 8}00 ${n >> 3}00h100v100h-100z`).join("");
    this.frames = element("path", { class: "frames" });
    svg.append(element("path", { class: "light", d: "M0 0h800v800H0z" }),
               element("path", { class: "dark", d: path }), this.frames);
    const coordinate = { class: "coordinate", "aria-hidden": "true" }; // the label has a FEN
    for (let n = 0; n < 8; n++) { // in corners that no piece covers
      const end = { ...coordinate, x: 100 * n + 97, y: 795, "text-anchor": "end" };
      svg.append(element("text", end, "abcdefgh"[n]),
                 element("text", { ...coordinate, x: 3, y: 100 * n + 16 }, `${8 - n}`));
    }
    this.pieces = element("g", { class: "pieces" });
    this.nodes = SQUARES.map(n =>
      element("path", { transform: `translate(${100 * (n % 8)} ${100 * (n >> 3)})` }));
    this.held = element("path", {});
    this.pieces.append(...this.nodes, this.held);
    svg.append(this.pieces);
  }

  /**
   * Draws the pieces that have changed. The label describes them to a screen reader.
   * @param {string} letters @param {string} label
   */
  draw(letters, label) {
    for (const n of SQUARES) if (letters[n] !== this.letters[n]) shape(this.nodes[n], letters[n]);
    this.letters = letters;
    if (this.svg.getAttribute("aria-label") !== label) this.svg.setAttribute("aria-label", label);
  }

  /** @param {number[]} squares */
  frame(squares) {
    const d = squares.map(n => `M${n % 8}04 ${n >> 3}04h92v92h-92z`).join("");
    if (this.frames.getAttribute("d") !== d) this.frames.setAttribute("d", d);
  }

  /**
   * The square and the place under a pointer. The square is null outside the board.
   * @param {PointerEvent} event
   */
  at(event) {
    const box = this.svg.getBoundingClientRect();
    const x = (event.clientX - box.left) / box.width * 800;
    const y = (event.clientY - box.top) / box.height * 800;
    const isOn = x >= 0 && y >= 0 && x < 800 && y < 800;
    return { x, y, square: isOn ? 8 * Math.floor(y / 100) + Math.floor(x / 100) : null };
  }

  /**
   * Shows a piece under a pointer.
   * @param {string} letter  or "" for none
   */
  hold(letter, { x, y } = { x: 0, y: 0 }) {
    shape(this.held, letter);
    this.held.setAttribute("transform", `translate(${x - 50} ${y - 50})`);
    this.svg.classList.toggle("lifted", letter !== "");
  }
}
