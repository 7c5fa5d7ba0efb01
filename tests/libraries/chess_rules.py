"""Answers tests/libraries/chess_rules by the package for Python."""

import sys

from dgt import Position
from dgt.chess import Colour, State
from dgt.errors import BadFen, BadSan, Impossible
from dgt.recogniser import Back, Begun, Ended, Gap, Lost, Made, Recogniser, Unseen

GAME, REMEMBERED = 100, 8
FIELDS = ("placement", "turn", "rights", "passed", "half_moves", "number")


def shown(state, moves):
    flags = (state.is_check, state.can_move, state.is_mate, state.is_stalemate, state.is_dead,
             state.is_fifty_moves, state.is_seventy_five_moves)
    return "|".join([state.fen, state.passed or "-", "".join(str(int(each)) for each in flags),
                     " ".join(moves)])


def san(state, text):
    read = []
    for lenient in (False, True):
        try:
            read.append(state.parse_san(text, lenient=lenient))
        except BadSan as wrong:
            read.append(str(int(wrong.why)))
    return " ".join(read)


def perft(state, depth):
    moves = state.moves()
    return (len(moves) if depth == 1
            else sum(perft(state.play(move), depth - 1) for move in moves))


def walk(start, count):
    game, random = [start], 1
    for _ in range(count):
        state, before = game[-1], game[:-1]
        choices, repeated = state.moves(), state.repetitions(before[-REMEMBERED:])
        parts = [shown(state, choices), str(repeated)]
        if choices and len(before) < GAME:
            random = (random * 6364136223846793005 + 1442695040888963407) % 2**64
            move = choices[(random >> 33) % len(choices)]
            after, name = state.play(move), state.san(move)
            parts.append(f"{move} {name} {san(state, name)} {state.move_to(after.position)}")
            game.append(after)
        else:
            game = [start]
        print("|".join(parts))


def said(event):
    match event:
        case Begun(state, is_turned):
            return f"game {state.fen}{' turned' * is_turned}"
        case Made(move):
            return move
        case Unseen(moves):
            return f"unseen {' '.join(moves)}"
        case Gap(count, state):
            return f"gap {count} {state.fen}"
        case Back(count, stays):
            return f"back {count}{' stays' * stays}"
        case Ended(result):
            return result
        case Lost(squares):
            return f"lost {' '.join(squares)}"
    return "found"


def games(recogniser, word, rest):
    events = []
    if word == "from":
        recogniser.go_on(State.parse(rest[2:]), rest[0] == "1")
    elif word == "board":
        at, how, placement = rest.split()
        position = None if how[0] == "a" else Position.parse(placement)
        running = {"w": Colour.WHITE, "b": Colour.BLACK}.get(how[2])
        events = recogniser.see(int(at), position, is_sure=how[0] == "s",
                                is_confirmed=how[1] == "c", running=running)
    elif word == "due":
        events = recogniser.due(int(rest))
    due_at, state = recogniser.due_at(), recogniser.state
    told = "".join(f"{said(event)};" for event in events)
    return f"{told}|{'-' if due_at is None else due_at}|{state.fen if state else ''}"


def main():
    state, recogniser = None, None
    for line in sys.stdin:
        word, _, rest = line.rstrip("\n").partition(" ")
        try:
            if word == "read":
                state = State.parse(rest)
                print(shown(state, state.moves()))
            elif word == "san":
                print(san(state, rest))
            elif word == "perft":
                print(perft(state, int(rest)))
            elif word == "walk":
                walk(state, int(rest))
            else:
                recogniser = Recogniser() if word == "anew" else recogniser
                print(games(recogniser, word, rest))
        except Impossible as wrong:
            print("impossible", int(wrong.why))
        except BadFen as wrong:
            print("text", FIELDS.index(wrong.field), wrong.at)


main()
