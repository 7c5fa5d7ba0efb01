// Runs the program of the page that shows a clock, with a board at a terminal.
//
// node shown.mjs PACKAGE TERMINAL    PACKAGE is the folder of the package

import { constants, openSync, writeSync } from "node:fs";
import { Readable } from "node:stream";
import { ReadStream } from "node:tty";
import { runProgram } from "./program.mjs";

const [folder, path] = process.argv.slice(2);

/** A port of Web Serial. */
class Terminal extends EventTarget {
  readable = null;
  writable = null;
  async open() {
    const file = openSync(path, constants.O_RDWR | constants.O_NOCTTY | constants.O_NONBLOCK);
    this.readable = Readable.toWeb(new ReadStream(file).setRawMode(true));
    this.writable = new WritableStream({ write: bytes => { writeSync(file, bytes); } });
  }
  getInfo() {
    return {};
  }
}

const serial = { requestPort: async () => new Terminal() };
Object.defineProperty(globalThis, "navigator", { value: { serial } });
await runProgram(/requestPort/, folder);
