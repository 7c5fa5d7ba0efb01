// Tests what fuzzing doesn't reach: handles, growth of the memory, wrong arguments, the stack.
//
// node handles.mjs MODULE

import assert from "node:assert/strict";
import { readFileSync } from "node:fs";
import { State } from "../chess.js";
import { ASK, BadPlacement, BadValue, Board, Closed, CommandDecoder, Decoder, Follower, Host,
         Library, MODES, TooManyAwaited, lighting, load } from "../dgt.js";

const bytes = readFileSync(process.argv[2]);
const START = "rnbqkbnr/pppppppp/8/8/8/8/PPPPPPPP/RNBQKBNR";
const dgt = await load(bytes);

{ // Handles stay valid when the memory grows.
  const board = new Board(dgt), host = new Host(dgt), before = dgt.memorySize;
  board.take(host.restart());
  const many = Array.from({ length: 300 }, () => new Follower(dgt));
  assert(dgt.memorySize > before + 300 * 16000);
  host.hear(board.poll());
  assert.equal(host.placement, START);
  assert.equal(many.filter(one => one.ask(5)?.length === 258).length, 300);
  many.forEach(one => one.close());
  const high = dgt.memorySize;
  for (let n = 0; n < 10000; n++) new Follower(dgt).close();
  assert.equal(dgt.memorySize, high, "places are used again");
  assert.equal(host.placement, START);
}
{ // A closed handle can't be used; it may be closed again.
  const old = new Decoder(dgt);
  old.close();
  old.close();
  new Decoder(dgt).feed(Uint8Array.of(0x8e));
  for (const act of [() => old.feed(new Uint8Array(1)), () => old.unread, () => old.reset()]) {
    assert.throws(act, Closed);
  }
}
{ // Returned values are copies.
  const host = new Host(dgt), board = new Board(dgt);
  board.take(host.restart());
  const [event] = host.hear(board.poll()), picture = host.picture;
  picture.fill(3);
  event.pieces.fill(3);
  assert.deepEqual([host.placement, event.placement, host.clock], [START, START, null]);
  const [{ body }] = new Decoder(dgt).feed(Uint8Array.of(0x92, 0, 5, 65, 66));
  new Decoder(dgt).feed(Uint8Array.of(0x92, 0, 5, 67, 68));
  assert.deepEqual([...body], [65, 66]);
}
{ // A byte is heard once the event before it was taken, whatever is called in between.
  const follower = new Follower(dgt), board = new Board(dgt), seen = [];
  board.take(follower.ask(0));
  follower.hear(1, board.poll());
  const moved = Uint8Array.of(0x8e, 0, 5, 52, 0, 0x8e, 0, 5, 36, 1);
  for (const { type } of follower.hearEach(2, moved)) {
    new Decoder(dgt).feed(new Uint8Array(4096).fill(0x92));
    seen.push(type, follower.placement);
  }
  assert.deepEqual(seen, ["field", "rnbqkbnr/pppppppp/8/8/8/8/PPPP1PPP/RNBQKBNR",
                          "field", "rnbqkbnr/pppppppp/8/8/4P3/8/PPPP1PPP/RNBQKBNR"]);
  assert.equal(follower.inDoubt, false);
  follower.lineDisturbed();
  assert.equal(follower.inDoubt, true);
  assert.equal(new Follower(dgt, { patience: 2 ** 32 - 1 }).heartbeatsLeft, 2 ** 32 - 1);
  const modes = [true, false].map(clock => new Follower(dgt, { clock }).mode);
  assert.deepEqual(modes, [MODES.updateNice, MODES.updateBoard]);
}
{ // Offsets begin again.
  const decoder = new Decoder(dgt), host = new Host(dgt), field = Uint8Array.of(0x8e, 0, 5, 52, 0);
  const offset = () => [decoder.feed(field)[0].offset, host.hear(field)[0].offset];
  const seen = [offset(), offset()];
  host.lineLost();
  for (const act of [() => decoder.finish(), () => decoder.reset()]) {
    act();
    seen.push(offset());
  }
  assert.deepEqual(seen, [[5, 5], [10, 10], [5, 5], [5, 10]]);
}
{ // Carried bytes as text. fuzz.mjs tries their other meanings.
  assert.deepEqual([[0x44, 0x7e], [], [0x44, 0x7f]].map(it => dgt.textOf(it)), ["D~", null, null]);
}
{ // Wrong arguments do nothing.
  const board = new Board(dgt), host = new Host(dgt), follower = new Follower(dgt);
  const wrong = [
    () => board.change("i1", "P"), () => board.change("e2", "x"), () => board.change("e2", ""),
    () => board.change("e2", 1), () => board.change(52, "P"), () => board.change(["e", "2"], "P"),
    () => board.change(null, "P"), () => board.handClock({ kind: "unknown" }),
    () => board.handClock({ kind: "none", status: 32, raw: [1, 2, 3, 4, 5, 6, 7] }),
    () => board.handClock({ kind: "other" }), () => board.handClock(null),
    () => board.take([1, 2]), () => host.hear("text"), () => host.hear(null),
    () => follower.ask(-1), () => follower.ask(NaN), () => follower.ask(Infinity),
    () => follower.hear(1e300, new Uint8Array(1)), () => { follower.mode = 0; },
    () => new Follower(dgt, { patience: -1 }), () => new Follower(dgt, { period: -1 }),
    () => new Follower(dgt, { period: 999.9 }), () => host.sendText("\u00e4"),
    () => new Follower(dgt, { clock: true, mode: MODES.update }),
    () => new Follower(dgt, { patience: 2 ** 32 }), () => host.sendText("123456789"),
    () => host.sendText("\u2654"), () => host.send(1000), () => host.send(0x20),
    () => dgt.placement([1]), () => dgt.placement(new Uint8Array(64).fill(16)),
    () => dgt.squareName(64), () => dgt.pieceLetter(16), () => dgt.pieceCode("x"),
    () => dgt.squareNumber("i1"), () => dgt.squareNumber("e4x"), () => dgt.segment("x"),
    () => dgt.encodeMessage({ type: "cut", have: 1 }), () => dgt.encodeMessage({ type: "dump" }),
    () => dgt.encodeMessage({ type: "none" }), () => dgt.eventText({ type: "field", square: "e2" }),
    () => dgt.encodeMessage({ type: "field", square: 52, piece: "P" }),
    () => dgt.viewMessage(128, []), () => dgt.viewMessage(1, new Uint8Array(16381)),
    () => dgt.encodeCommand(ASK.dump, 0, [1]), () => dgt.encodeCommand(0x20),
    () => lighting("e2"), () => lighting("e2", "e9"), () => lighting(52, 36),
    () => host.sendDisplay("abcdef"), () => host.sendLeds(new Uint8Array(256)),
    () => host.sendClock(1, new Uint8Array(253)),
    () => host.sendSetAndRun([1, 2], [1, 2, 3], 0), () => dgt.readStored([256]),
    () => dgt.readStored(new Uint8Array(16381)), () => dgt.signalOf([16, 8, 0]),
    () => dgt.batteryOf("text"), () => dgt.textOf([-1]),
  ];
  wrong.forEach((act, n) => assert.throws(act, BadValue, `wrong ${n}`));
  assert.throws(() => dgt.parsePlacement("8/8/8/8/8/8/8/9"), error =>
    error instanceof BadPlacement && error.at === 14);
  assert.equal(dgt.viewCommand([0x20]), null);
  for (let n = 0; n < 16; n++) host.send(ASK.version);
  assert.throws(() => host.send(ASK.version), TooManyAwaited);
  assert.equal(host.giveUpAwaited(), 16);
  assert.equal(dgt.placement(board.position), START);
}
{ // How deep the stack gets: it grows down from 1 MB to 0.
  const instance = await WebAssembly.instantiate(await WebAssembly.compile(bytes));
  const fresh = new Library(instance), stack = 1048576;
  new Uint8Array(instance.exports.memory.buffer, 0, stack).fill(0xa5);
  const board = new Board(fresh), host = new Host(fresh), reader = new CommandDecoder(fresh);
  const follower = new Follower(fresh, { period: 1000, mode: MODES.update });
  const decoder = new Decoder(fresh);
  board.start(new Uint8Array(64), { kind: "none", status: 32, raw: [1, 2, 3, 4, 5, 6] },
    { serial: [1, 2, 3, 4, 5], mainNumber: 1, subNumber: 2, clockVersion: 3,
      trademark: new Uint8Array(64), battery: [], longSerial: [] });
  for (const asked of [host.restart(), follower.ask(1), follower.ask(2000), host.sendText("abc"),
                       host.sendDisplay("123"), host.sendLeds(new Uint8Array(255)),
                       host.sendSetAndRun([1, 2, 3], [1, 2, 3], 1)]) {
    reader.feed(asked);
    board.take(asked);
    for (let sent; (sent = board.poll());) {
      host.hear(sent);
      follower.hear(3, sent);
      fresh.eventText(decoder.feed(sent)[0]);
    }
  }
  const long = Uint8Array.from([0x85, 127, 127, ...new Uint8Array(16380)]);
  host.hear(long);
  follower.hear(4, long);
  const [event] = decoder.feed(long);
  assert.deepEqual([...fresh.encodeMessage(event)], [...long]);
  assert.equal(fresh.eventText(event).length, 9 + 2 * 16380);
  fresh.parsePlacement(fresh.placement(board.position));
  const state = State.parse(
    fresh, "r3k2r/p1ppqpb1/bn2pnp1/3PN3/1p2P3/2N2Q1p/PPPBBPPP/R3K2R w KQkq - 0 1");
  for (const move of state.moves()) {
    const after = state.play(move);
    assert.deepEqual([state.parseSan(state.san(move)), state.moveTo(after.position)], [move, move]);
    assert.equal(after.isMate || after.isStalemate || after.isRepeated(state), false);
    State.parse(fresh, after.fen);
  }
  const used = new Uint8Array(instance.exports.memory.buffer, 0, stack).findIndex(n => n !== 0xa5);
  assert(stack - used < stack / 4);
  console.log(`at most ${stack - used} bytes of the stack`);
}
