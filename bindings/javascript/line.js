// A follower's port of Web Serial: read, written, and opened again once it is back.

const SERIAL = { baudRate: 9600, dataBits: 8, stopBits: 1, parity: "none", flowControl: "none",
                 bufferSize: 4096 };
const LATE = 100; // milliseconds in which bytes from before a fault of the line may still arrive

/**
 * @typedef {EventTarget & {readable: ReadableStream<Uint8Array> | null,
 *   writable: WritableStream<Uint8Array> | null, open(options: typeof SERIAL): Promise<void>,
 *   close(): Promise<void>, getInfo?(): object}} BoardPort  what is used of a SerialPort
 * @typedef {EventTarget & {getPorts?(): Promise<BoardPort[]>}} Ports
 * @typedef {{opened(): void, refused(error: Error, isThere: boolean): void, lost(): void,
 *   disturbed(fault: string): void, heard(event: import("./dgt.js").Event, now: number): void,
 *   asked(bytes: Uint8Array, now: number): void, passed(now: number): number}} Owner  Calls for
 *   what happens. The port was opened, can't be opened (`isThere`: it is plugged in) or has gone.
 *   The line had a fault such as a FramingError. An event; a request. Time has passed: this returns
 *   the time at which to call it again.
 */

export class Line {
  isOpen = false;
  hasEnded = false;
  #disturbedUntil = 0;
  /** @type {ReadableStreamDefaultReader<Uint8Array> | null} */
  #reader = null;
  /** @type {WritableStreamDefaultWriter<Uint8Array> | null} */
  #writer = null;
  /** @type {Set<Uint8Array>} what the line hasn't taken yet */
  #unwritten = new Set();
  /** @type {ReturnType<typeof setTimeout> | undefined} */
  #timer;
  #wake = () => {};
  /** @type {BoardPort[]} the other ports while this one was there: those of other boards */
  #others = [];

  /**
   * @param {import("./dgt.js").Follower} follower @param {BoardPort} port
   * @param {Ports | undefined} ports  finds a port that comes back as another object
   * @param {number} pause  milliseconds between two looks for the port
   * @param {Owner} owner
   */
  constructor(follower, port, ports, pause, owner) {
    this.follower = follower;
    this.port = port;
    this.ports = ports;
    this.pause = pause;
    this.owner = owner;
  }

  /** Serves the board until `end`. */
  async run() {
    while (!this.hasEnded) {
      if (await this.#open()) await this.#talk();
      if (!this.hasEnded) await this.#comesBack();
    }
    this.follower.close();
  }

  async end() {
    this.hasEnded = true;
    this.#wake();
    try {
      await this.#reader?.cancel();
    } catch { /* the port has disappeared already */ }
  }

  async #open() {
    try {
      await this.port.open(SERIAL);
    } catch (error) {
      const fault = /** @type {Error} */ (error);
      if (fault.name !== "InvalidStateError") { // that means: it is open already
        this.owner.refused(fault, (await this.#present()).includes(this.port));
        return false;
      }
    }
    return true;
  }

  async #talk() {
    this.isOpen = true;
    this.owner.opened();
    this.#writer = this.port.writable?.getWriter() ?? null;
    this.#unwritten = new Set();
    this.drive();
    for (let chunk; (chunk = await this.#next());) this.#hear(chunk);
    this.isOpen = false;
    clearTimeout(this.#timer);
    try {
      this.#reader?.releaseLock();
      this.#writer?.releaseLock();
      await this.port.close();
    } catch { /* the port has disappeared */ }
    this.#reader = this.#writer = null;
    this.follower.lineLost();
    this.owner.lost();
  }

  // Returns the next chunk, or null once the port has disappeared. A fault of the line, such as a
  // framing error, ends the stream; the port then has a new one.
  async #next() {
    for (let stream; this.port.readable && this.port.readable !== stream && !this.hasEnded;) {
      stream = this.port.readable;
      this.#reader ??= stream.getReader();
      try {
        return (await this.#reader.read()).value ?? null;
      } catch (error) {
        this.#reader.releaseLock();
        this.#reader = null;
        if (this.port.readable) this.#disturb(/** @type {Error} */ (error).name);
      }
    }
    return null;
  }

  // A dump that arrives soon after a fault may be older than it, and must not end the doubt.
  /** @param {string} fault */
  #disturb(fault) {
    this.#disturbedUntil = performance.now() + LATE;
    this.follower.lineDisturbed();
    this.owner.disturbed(fault);
    this.drive();
  }

  /** @param {Uint8Array} chunk */
  #hear(chunk) {
    const now = performance.now();
    for (const event of this.follower.hearEach(now, chunk)) {
      if (now < this.#disturbedUntil) this.follower.lineDisturbed();
      this.owner.heard(event, now);
    }
    this.drive(); // timers of a hidden page are late; bytes aren't
  }

  /** Sends a request if one is due and the line has taken the one before. */
  drive() {
    if (!this.isOpen || this.hasEnded) return;
    clearTimeout(this.#timer);
    const now = performance.now(), bytes = this.#unwritten.size ? null : this.follower.ask(now);
    if (bytes) {
      this.owner.asked(bytes, Math.floor(now));
      this.write(bytes);
      this.#seeOthers();
    }
    const next = Math.min(this.owner.passed(now), this.follower.dueAt);
    const left = this.#unwritten.size ? LATE : Math.ceil(next - now);
    this.#timer = setTimeout(() => this.drive(), Math.max(10, left));
  }

  /**
   * Sends bytes. They are lost if the port has gone.
   * @param {Uint8Array} bytes
   */
  async write(bytes) {
    const unwritten = this.#unwritten.add(bytes);
    try {
      await this.#writer?.write(bytes);
    } catch { /* the port has disappeared: #next finds that out */ }
    unwritten.delete(bytes);
  }

  /** The ports that are there, or none if they aren't known. */
  async #present() {
    try {
      return await this.ports?.getPorts?.() ?? [];
    } catch {
      return [];
    }
  }

  async #seeOthers() {
    const all = await this.#present();
    if (all.includes(this.port)) this.#others = all.filter(port => port !== this.port);
  }

  // Waits until the port may be back, perhaps as another object.
  async #comesBack() {
    const over = new AbortController(), { signal } = over;
    await new Promise((/** @type {(value?: unknown) => void} */ done) => {
      const timer = setTimeout(done, this.pause);
      this.#wake = () => (clearTimeout(timer), done());
      for (const target of [this.port, this.ports]) {
        target?.addEventListener?.("connect", this.#wake, { signal });
      }
    });
    over.abort();
    const info = JSON.stringify(this.port.getInfo?.()), all = await this.#present();
    const alike = all.filter(one =>
      JSON.stringify(one.getInfo?.()) === info && !this.#others.includes(one));
    if (alike.length && !alike.includes(this.port)) this.port = alike[0];
  }
}
