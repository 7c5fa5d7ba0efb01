// A site that uses the package, for the compiler only, which has to refuse each line after
// `@ts-expect-error`.

import { ASK, Board, CommandDecoder, Follower, Host, IDS, MODES, lighting, load,
         type Command, type Event, type Library } from "dgt-board";
import { BadFen, State } from "dgt-board/chess.js";
import { follow, type BoardView } from "dgt-board/following.js";
import { Recogniser, type GameEvent } from "dgt-board/recogniser.js";

const dgt: Library = await load(new URL("https://example.org/dgt64.wasm"));
const follower = new Follower(dgt, { period: 2000, clock: true, confirm: true });

function describe(event: Event): string {
  switch (event.type) {
    case "dump": return event.placement;
    case "field": return event.square + event.piece;
    case "times": return `${event.clock.first.hours}:${event.clock.second.minutes}`;
    case "refused": return event.fault === "badPiece" ? "a piece" : `byte ${event.at}`;
    default: return `${event.offset} ${dgt.eventText(event)}`;
  }
}

export function hear(now: number, chunk: Uint8Array): string[] {
  const asked: Uint8Array | null = follower.ask(now), said: string[] = [];
  if (asked) console.log(asked.length, follower.dueAt - now);
  for (const event of follower.hearEach(now, chunk)) said.push(describe(event));
  const placement: string | null = follower.placement, isRight: boolean = !follower.inDoubt;
  if (isRight && follower.confirmed && placement) console.log(placement);
  return said;
}

export const sent: Uint8Array[] = [
  follower.send(ASK.battery), follower.sendClock(IDS.end), follower.sendLeds(lighting("e2", "e4")),
  new Host(dgt).restart(), dgt.encodeCommand(ASK.leds, 0, lighting("a1", "h8")),
];
const board = new Board(dgt);
export const answers: Uint8Array[] = [...board.answers(sent[0])];
export async function show(port: Parameters<typeof follow>[1]): Promise<string | null> {
  const followed = follow(dgt, port, { period: 2000, clock: true, waitForPort: true });
  for await (const view of followed) if (view.confirmed) return view.placement;
  const next: BoardView | null = await followed.wait(500);
  // @ts-expect-error squares have names
  followed.light(52, 36);
  // @ts-expect-error there may be no view
  return next.away;
}
export function wrongField(fen: string): "placement" | "turn" | string {
  try {
    const state = State.parse(dgt, fen), moves: string[] = state.moves("e2");
    const best: string | null = state.moveTo(board.position), passed: string | null = state.passed;
    return state.isMate ? state.turn : state.play(best ?? moves[0]).fen + passed;
  } catch (error) {
    return error instanceof BadFen ? error.field : "";
  }
}
export const begin = new State(dgt, { position: board.position, turn: "white", rights: "KQkq" });
export const read: string = begin.parseSan("e4", { lenient: true });
const recogniser = new Recogniser(dgt);
export function play(now: number, pieces: Uint8Array | null): string[] {
  const events: GameEvent[] = recogniser.see(now, pieces, { isSure: true, running: "white" });
  const due: number = recogniser.dueAt, state: State | null = recogniser.state;
  if (state) recogniser.goOn(state, due < now);
  return [...events, ...recogniser.due(now)].flatMap(event => {
    switch (event.type) {
      case "begun": return [event.state.fen, String(event.isTurned)];
      case "made": return [event.move];
      case "ended": return [event.result === "1-0" ? "White wins" : event.result];
      case "lost": return event.squares;
      default: return [event.type];
    }
  });
}
// @ts-expect-error a side is white or black
recogniser.see(0, null, { running: "w" });
// @ts-expect-error a state isn't a text
recogniser.goOn(begin.fen);
export const commands: Command[] = new CommandDecoder(dgt).feed(sent[0]);
const { used }: { used: number } = board.take(sent[0]);
follower.mode = MODES.update;

// @ts-expect-error LEDs aren't a command of one byte
follower.send(ASK.leds);
// @ts-expect-error nor is this a command
follower.send(7);
// @ts-expect-error a command is not a text
dgt.encodeCommand("dump");
// @ts-expect-error idle isn't a reporting mode
follower.mode = MODES.idle;
// @ts-expect-error a chunk is bytes
follower.hear(0, "text");
// @ts-expect-error the time comes first
follower.hearEach(sent[0]);
// @ts-expect-error not a type of event
export const is = (event: Event): boolean => event.type === "dumps";
// @ts-expect-error not each event has a square
export const square = (event: Event): string => event.square;
// @ts-expect-error the placement may not be known
export const { length } = follower.placement;
// @ts-expect-error a board has no placement
board.placement;
// @ts-expect-error it is a number
used.length;
// @ts-expect-error a field has its piece
dgt.encodeMessage({ type: "field", square: "e2" });
// @ts-expect-error squares have names
board.change(52, "P");
// @ts-expect-error no call of the library has this name
dgt.calls.host_hears;
// @ts-expect-error a side is white or black
new State(dgt, { position: board.position, turn: "w" });
// @ts-expect-error a move is a text
begin.play({ from: "e2", to: "e4" });
// @ts-expect-error a recogniser needs the library
new Recogniser();
