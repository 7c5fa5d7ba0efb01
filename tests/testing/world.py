"""Checks the world of the package for Python: the outcome of each act, and the closing states of
board and host, are those of `dgt simulate --faults` for the same acts."""

import pathlib
import random
import subprocess

import cases
import dgt
from wrong import Wrong, wanted

LAUNCHER = pathlib.Path(__file__).resolve().parents[2] / "dgt"
PROGRAM = LAUNCHER if LAUNCHER.exists() else "dgt"  # packaging/deb/trial tests the installed one

SCRIPTS, ACTS, SEED = 150, 60, 14
# How often each act comes: in most scripts, and in those of a host that asks more than is answered.
WEIGHTS = ((14, 3, 20, 20, 14, 14, 1, 1, 4), (4, 1, 50, 1, 10, 2, 0, 0, 0))
ASKS = (0x40, 0x41, 0x42, 0x43, 0x44, 0x45, 0x47, 0x4B, 0x4C, 0x4D, 0x55)
# Whole messages and parts of them, and parts of commands.
GARBAGE = ("8e000534", "860043080909", "8e00052401", "8e000534008e000540", "05", "2b04", "60ff4242",
           "4442", "92", "930005")


# ---- The acts of a script, each with its line


def any_command(chance):
    """A command for the host, and its bytes."""
    kind = chance.randrange(8)
    if kind == 0:
        leds = chance.randbytes(chance.choice((0, 1, 20, 255)))
        return dgt.Leds(leds), bytes([0x60, len(leds)]) + leds
    if kind == 1:
        payload, id = chance.randbytes(chance.choice((0, 1, 7, 252))), chance.randrange(256)
        return dgt.ClockMessage(id, payload), bytes([0x2B, len(payload) + 3, 3, id, *payload, 0])
    code = chance.choice(ASKS)
    return dgt.Ask(code), bytes([code])


def any_clock(chance):
    """A clock, and the bytes of its report."""
    if chance.random() < 0.2:
        return dgt.NoClock(bytes(6), 0x20), bytes(6) + b"\x20"
    sides = [(chance.randrange(10), chance.randrange(60), chance.randrange(60)) for _ in "12"]
    digits = [byte for hours, *rest in sides
              for byte in (hours, *((part // 10) << 4 | part % 10 for part in rest))]
    return dgt.Times(*(dgt.Time(*side) for side in sides), 0x11), bytes([*digits, 0x11])


def any_act(world, chance, weights):
    """The line of an act, and the call that does it."""
    kind = chance.choices(range(9), weights)[0]
    if kind == 0:
        square, letter = chance.choice(dgt.SQUARES), chance.choice(dgt.LETTERS)
        return f"change {square} {letter}", lambda: world.change(square, letter)
    if kind == 1:
        clock, data = any_clock(chance)
        return f"clock {data.hex()}", lambda: world.hand_clock(clock)
    if kind == 2:
        command, data = any_command(chance)
        return f"host {data.hex()}", lambda: world.host_sends(command)
    if kind == 3:
        return "send", world.board_sends
    count = chance.choice((1, 2, 5, 30, 300, 65535))
    if kind == 4:
        return f"toboard {count}", lambda: world.to_board(count)
    if kind == 5:
        return f"tohost {count}", lambda: world.to_host(count)
    if kind == 6:
        return "break", world.both_disconnect
    if kind == 7:
        return "hostbreak", world.host_disconnects
    return any_fault(world, chance)


def any_fault(world, chance):
    """The line of a fault or of a restart, and the call that does it."""
    word, call = chance.choice((
        ("garbleup", world.garble_up), ("garbledown", world.garble_down),
        ("boardlost", world.board_loses_power), ("restart", world.host_restarts),
        ("giveup", world.host_gives_up)))
    if not word.startswith("garble"):
        return word, call
    data = bytes.fromhex(chance.choice(("", *GARBAGE, 67 * "8e", 68 * "05", 120 * "8e")))
    return f"{word} {data.hex() or '-'}", lambda: call(data)


# ---- What came of it


def closing(world):
    """The lines that `dgt simulate` prints at the end."""
    picture, clock = world.host.picture, world.host.clock
    return [f"board {world.board.position}",
            f"host {'unknown' if picture is None else picture}",
            f"hostclock {'unknown' if clock is None else clock}",
            f"quiet {'yes' if world.quiet else 'no'}"]


def check_script(chance):
    """One script, by the package and by the program."""
    up, down = chance.choice((67, 68, 150, 1024)), chance.choice((257, 258, 600, 1024))
    world, lines, outcomes = dgt.World(up=up, down=down), [], []
    weights = chance.choice(WEIGHTS)
    for _ in range(ACTS):
        line, act = any_act(world, chance, weights)
        before = closing(world), world.up, world.down
        outcomes.append(str(act()))
        lines.append(line)
        if outcomes[-1] != "done":
            wanted(f"what {line} left", (closing(world), world.up, world.down), before)
    words = [PROGRAM, "simulate", "--faults", "--up", str(up), "--down", str(down)]
    text = "".join(f"{line}\n" for line in lines)
    ran = subprocess.run(words, input=text, capture_output=True, text=True, check=True, timeout=30)
    wanted(f"of {' '.join(words[1:])}:\n{text}", [*outcomes, *closing(world)],
           ran.stdout.splitlines())
    world.host_restarts()
    world.settle()
    wanted(f"quiet after\n{text}", (world.up, world.down, world.board.owes), (b"", b"", False))
    return outcomes


class Worlds(cases.Case):
    def test_scripts(self):
        """Each outcome has to come often."""
        chance, count = random.Random(SEED), dict.fromkeys(map(str, dgt.Outcome), 0)
        for _ in range(SCRIPTS):
            for outcome in check_script(chance):
                count[outcome] += 1
        if rare := {outcome for outcome, times in count.items() if times < SCRIPTS // 10}:
            raise Wrong(f"outcomes that came seldom: {rare} ({count})")

    def test_settled(self):
        """A restart, and all that is left: the picture is the board's."""
        world = dgt.World(dgt.Position.parse("8/8/8/8/8/8/8/K6k"))
        world.garble_up(b"\x86\x00\x43")
        world.to_host(65535)
        wanted("a restart", world.host_restarts(), dgt.Outcome.DONE)
        world.change("e4", "Q")
        wanted("acts that settle", (world.settle(), world.settle(), world.quiet), (3, 0, True))
        wanted("the picture", world.host.picture, dgt.Position.parse("8/8/8/8/4Q3/8/8/K6k"))

    def test_refusals(self):
        """Capacities, counts and commands that are none."""
        for make in (lambda: dgt.World(up=66), lambda: dgt.World(up=65536),
                     lambda: dgt.World(down=256), lambda: dgt.World(down="257"),
                     lambda: dgt.World().to_host(-1), lambda: dgt.World().to_board(65536),
                     lambda: dgt.World().host_sends(256), lambda: dgt.World().change("e9", "P")):
            self.assertRaises(dgt.BadValue, make)
        for command in 0x46, dgt.Leds(bytes(256)), dgt.ClockMessage(1, bytes(253)):
            self.assertRaises(dgt.NoSuchCommand, dgt.World().host_sends, command)
