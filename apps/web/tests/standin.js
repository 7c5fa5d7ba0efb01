// A stand-in for navigator.serial with a port and a board, and the port of another board that is
// off. It is written from the protocol, and uses nothing of the library.
(() => {
  "use strict";
  const LETTERS = ".PRNBKQprnbkqXYZ";
  class Standin {
    pieces = [];
    reported = []; // the squares as last reported
    mode = 0;
    word = [];
    out = []; // messages that wait
    clock = [1, 30, 0, 1, 30, 0, 0x11];
    isOn = true;
    lit = [];

    set(fen) {
      const letters = fen.replaceAll("/", "").replace(/\d/g, n => ".".repeat(n));
      this.pieces = [...letters].map(one => LETTERS.indexOf(one));
    }
    say(code, body) {
      const size = body.length + 3;
      this.out.push(code, size >> 7, size & 127, ...body);
    }
    times() {
      const bcd = n => Math.floor(n / 10) << 4 | n % 10;
      const [h1, m1, s1, h2, m2, s2, status] = this.clock;
      this.say(0x8d, [h1, bcd(m1), bcd(s1), h2, bcd(m2), bcd(s2), status]);
    }
    change(square, letter) {
      this.pieces[square] = LETTERS.indexOf(letter);
      this.report();
    }
    report() {
      if (!this.isOn || !this.mode) return;
      this.pieces.forEach((piece, n) => {
        if (piece !== this.reported[n]) this.say(0x8e, [n, piece]);
        this.reported[n] = piece;
      });
    }
    hear(bytes) {
      for (const one of bytes) {
        this.word.push(one);
        const [first, size] = this.word;
        if (first === 0x2b || first === 0x60) {
          // A byte, a length, and that number of bytes.
          if (this.word.length < 2 || this.word.length < 2 + size) continue;
          if (first === 0x60) this.lit = this.word[2] ? this.word.slice(3, 5) : [];
          if (first === 0x2b) this.say(0x8d, [0x0a, 0x10, 0, 0x0a, 0, 0, 0]);
        }
        if (first === 0x42) {
          this.say(0x86, this.pieces);
          this.reported = [...this.pieces];
        }
        if (first === 0x41) this.times();
        if (first === 0x40) this.mode = 0;
        if ([0x43, 0x44, 0x4b].includes(first)) this.mode = first;
        this.word = [];
      }
      this.report();
    }
    restart() {
      Object.assign(this, { mode: 0, word: [], out: [], reported: [...this.pieces], isOn: true });
    }
  }

  class Port extends EventTarget {
    isThere = true;
    isBusy = false; // another program uses it
    readable = null;
    writable = null;
    constructor(board) {
      super();
      this.board = board;
    }
    getInfo() {
      return { usbVendorId: 0x0403, usbProductId: 0x6001 };
    }
    async open(options) {
      if (!this.isThere || this.isBusy) {
        throw new DOMException("Failed to open serial port.", "NetworkError");
      }
      if (this.readable) throw new DOMException("The port is already open.", "InvalidStateError");
      if (options.baudRate !== 9600) throw new TypeError("another baud rate");
      this.#stream();
      this.writable = new WritableStream({ write: bytes => {
        if (!this.isThere) throw new DOMException("The device has been lost.", "NetworkError");
        if (this.board.isOn) this.board.hear(serial.hurt([...bytes]));
      } });
      this.timer = setInterval(() => this.#pass(), 10);
    }
    #stream() {
      this.readable = new ReadableStream({ start: c => { this.control = c; } });
    }
    #pass() {
      const bytes = serial.hurt(this.board.out.splice(0, 10));
      if (bytes.length && this.isThere) this.control.enqueue(Uint8Array.from(bytes));
    }
    async close() {
      clearInterval(this.timer);
      this.readable = this.writable = null;
    }
    // A fault of the line ends this stream, and the port gets a new one.
    fault(name) {
      const { control } = this;
      this.#stream();
      control.error(new DOMException("A fault of the line.", name));
    }
    lose() {
      this.isThere = false;
      clearInterval(this.timer);
      const { control } = this;
      this.readable = this.writable = null;
      this.board.out = [];
      control.error(new DOMException("The device has been lost.", "NetworkError"));
      serial.dispatchEvent(new Event("disconnect"));
    }
  }

  class Serial extends EventTarget {
    board = new Standin();
    noise = 0;
    count = 0; // of bytes that were hurt
    port = null;
    other = new Port(Object.assign(new Standin(), { isOn: false }));
    allowed = false;
    async requestPort() {
      this.allowed = true;
      return this.port;
    }
    async getPorts() {
      return this.allowed ? [this.other, this.port].filter(port => port.isThere) : [];
    }
    hurt(bytes) {
      return bytes.flatMap(one => {
        if (Math.random() >= this.noise) return one;
        this.count++;
        const kind = Math.random();
        return kind < .4 ? [] : kind < .9 ? Math.floor(Math.random() * 256) : [one, one];
      });
    }
    lose() {
      this.port.lose();
    }
    // The board comes back as another object, as if it was plugged into another socket.
    comeBack() {
      this.board.restart();
      this.port = new Port(this.board);
      this.dispatchEvent(new Event("connect"));
    }
  }
  const serial = new Serial();
  serial.board.set("rnbqkbnr/pppppppp/8/8/8/8/PPPPPPPP/RNBQKBNR");
  serial.board.restart();
  serial.port = new Port(serial.board);
  Object.defineProperty(Navigator.prototype, "serial", { get: () => serial, configurable: true });
  window.standin = serial;
  window.standinLetters = () => serial.board.pieces.map(n => LETTERS[n]).join("");
})();
