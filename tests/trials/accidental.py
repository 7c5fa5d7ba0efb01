"""What happens in games with accidents: ways to make a half-move, and longer ones."""

from typing import Any

from dgt.chess import Colour, State
from dgt.errors import BadValue
from handled import CENTRE, CODE, KINGS, NUMBER, PAWNS, START, Family, Record, Step
from mishaps import Hands, Way, kind, state_of

# ---- Ways to make a half-move: its steps, or None if it is made as usual


def late(what: str, number: int, waits: tuple[int, int], good: Any) -> Way:
    """Half-moves of a kind, in an order that is `good`, with a long wait before one step."""
    def way(hands: Hands, move: str) -> list[Step] | None:
        if kind(hands.squares, move) != what:
            return None
        order = hands.order(move)
        while not good(order, NUMBER[move[:2]], NUMBER[move[2:4]]):
            order = hands.order(move)
        return [(hands.wait(*(waits if at == number else (80, 400))), *each)
                for at, each in enumerate(order)]
    return way


def slide(shown: tuple[int, int], is_all: bool) -> Way:
    """The piece is shown for so long on all squares that it passes, or on one of them."""
    def way(hands: Hands, move: str) -> list[Step] | None:
        ends = NUMBER[move[:2]], NUMBER[move[2:4]]
        hands.family = Family("slides", 1, slide=1, late=0)
        steps = hands.steps(move)
        passed = [at for at, step in enumerate(steps) if not step[2] and step[1] not in ends]
        for at in passed if is_all else hands.chance.sample(passed, min(1, len(passed))):
            if kind(hands.squares, move) in ("plain", "capture"):
                steps[at] = (hands.wait(*shown), *steps[at][1:])
        return steps
    return way


def elsewhere(hands: Hands, move: str) -> list[Step] | None:
    """The captured piece is put on another square of the board for a while."""
    if kind(hands.squares, move) != "capture":
        return None
    done, at, to = len(hands.kept[-1].moves), NUMBER[move[:2]], NUMBER[move[2:4]]
    aside = hands.empty(*hands.record.moves[done:done + 2])
    return [(200, to, 0), (300, aside, hands.squares[to]), (300, at, 0),
            (400, to, hands.squares[at]), (hands.wait(1000, 4000), aside, 0)]


def stays(hands: Hands) -> None:
    """The same until after the reply."""
    *steps, last = elsewhere(hands, hands.next())
    hands.half(hands.next(), steps)
    hands.half(hands.next())
    hands.put(last)
    hands.at += 1000


def promote(*first: tuple[str, int, int]) -> Way:
    """Other pieces are put first, for a time: `P` is the pawn, `.` is nothing."""
    def way(hands: Hands, move: str) -> list[Step] | None:
        order = hands.order(move)
        steps, to, wait = [(hands.wait(80, 300), *each) for each in order[:-1]], order[-1][0], 300
        for letter, *waits in first:
            steps.append((wait, to, CODE[letter.upper() if to < 8 else letter.lower()]))
            wait = hands.wait(*waits)
        return [*steps, (wait, to, 0), (300, *order[-1])]
    return way


def hesitate(count: int, hold: tuple[int, int]) -> Way:
    """The piece is first put on other squares to which it may go."""
    def way(hands: Hands, move: str) -> list[Step] | None:
        others = [NUMBER[each[2:4]] for each in hands.others(move) if each[:2] == move[:2]
                  and kind(hands.squares, each) == "plain"]
        if kind(hands.squares, move) != "plain" or not others:
            return None
        at, to = NUMBER[move[:2]], NUMBER[move[2:4]]
        man, steps = hands.squares[at], [(200, at, 0)]
        for other in hands.chance.sample(others, min(count, len(others))):
            steps += [(hands.wait(200, 500), other, man), (hands.wait(*hold), other, 0)]
        return [*steps, (300, to, man)]
    return way


def to_queen(squares: bytes, move: str) -> bool:
    return move[4:] == "q"


def is_kind(what: str) -> Any:
    return lambda squares, move: kind(squares, move) == what


def do_once(way: Way) -> Any:
    def act(hands: Hands) -> None:
        move = hands.next()
        hands.half(move, way(hands, move))
    return act


def rook_first(order: Any, at: int, to: int) -> bool:
    return order[0][0] != at


def king_first(order: Any, at: int, to: int) -> bool:
    return order[1][0] == to


def passed_last(order: Any, at: int, to: int) -> bool:
    return order[2][0] != to


# ---- Longer accidents


def rook_stands_for_a_queen(hands: Hands) -> None:
    hands.open(to_queen)
    move, side = hands.next(), hands.state.turn
    to = NUMBER[move[2:4]]
    hands.half(move[:4] + "r")
    for _ in range(40):
        place = hands.squares[to]
        moves = [each for each in hands.others("")
                 if to not in (NUMBER[each[:2]], NUMBER[each[2:4]])]
        if hands.state.turn == side:
            for by in (-9, -7, 7, 9):
                goal = bytearray(hands.squares)
                if 0 <= to + by < 64 and abs((to + by) % 8 - to % 8) == 1 and not goal[to + by]:
                    goal[to], goal[to + by] = 0, place
                    if (state := state_of(goal, side ^ 1)) and state.can_move:
                        hands.at += 3000
                        hands.put((300, to, 0), (300, to + by, place))
                        hands.is_warned = True
                        return anew(hands, state)
        if not moves:
            break
        hands.half(hands.chance.choice(moves))
    hands.result = "1/2-1/2"
    return hands.finish()


def anew(hands: Hands, state: State, wait: int = 65_000) -> None:
    """A position that the game doesn't lead to rests for over a minute, and is played on."""
    hands.run(100, 400, None)
    hands.at += wait
    hands.begin(state)
    hands.some(12)
    hands.result = hands.chance.choice(list(CENTRE))
    hands.finish()


def pawn_left(hands: Hands) -> None:
    """Needs a promotion whose square isn't touched in the next three half-moves."""
    while True:
        hands.choose(to_queen)
        rest = hands.record.moves[hands.place:hands.place + 4]
        if all(rest[0][2:4] not in (each[:2], each[2:4]) for each in rest[1:]):
            break
    hands.begin(State.start())
    hands.go(hands.place)
    move = hands.next()
    to, pawn = NUMBER[move[2:4]], hands.squares[NUMBER[move[:2]]]
    hands.half(move, [(200, *each) for each in hands.order(move)[:-1]] + [(300, to, pawn)])
    hands.go(hands.place + 4)
    hands.put((1000, to, 0), (2000, to, CODE["Q" if to < 8 else "q"]))
    hands.at += 1000
    hands.go()
    hands.finish()


def analysis(hands: Hands) -> None:
    while True:
        hands.choose()
        if not hands.record.result:
            break
    hands.begin(State.start())
    hands.go()
    last = bytes(hands.squares)
    hands.finish()
    hands.restore(last)
    hands.at += 2000
    hands.analyse(hands.wait(4, 16))
    hands.again()


def abandoned(hands: Hands, falls: bool = False) -> None:
    hands.open()
    hands.run(500, 1000, None)
    hands.at += hands.wait(5000, 20_000)
    if falls:
        king = hands.squares.index(KINGS[hands.state.turn])
        hands.put((0, king, 0))
        hands.at += hands.wait(5000, 20_000)
    hands.again()


def rematch(hands: Hands, *first: int, turns: bool = False) -> None:
    hands.each()
    if turns:
        hands.squares.reverse()
        hands.acts.append((hands.at, "turn", True, 0))
    hands.again(*first)


def position(hands: Hands, way: str) -> None:
    """A position of a game is set up, and played on from there."""
    while True:
        hands.choose()
        state = State.start()
        for move in hands.record.moves[:hands.place]:
            state = state.play(move)
        if state.fen.split()[3] == "-" and (way != "any" or hands.place > 7):
            break  # no pawn to capture in passing, and moves don't lead there from the start
    squares = state.position.codes
    if way == "start":
        hands.squares, hands.first = bytearray(squares), squares
    else:
        hands.at += 3000
        hands.place_all(squares, KINGS if way == "kings" else ())
        hands.at += 6000 if way == "kings" else 65_000 if hands.seed % 2 else 3000
    hands.record = Record(hands.record.moves[hands.place:], [], hands.record.result)
    hands.begin(state)
    hands.go()
    hands.finish()


def chess960(hands: Hands, castles: bool) -> None:
    back = "1rk2r2" if castles else ""
    while not back:
        pieces = hands.chance.sample("rnbqkbnr", 8)
        rooks = [at for at in range(8) if pieces[at] == "r"]
        bishops = [at for at in range(8) if pieces[at] == "b"]
        if rooks[0] < pieces.index("k") < rooks[1] and sum(bishops) % 2 and pieces[4] != "k":
            back = "".join(pieces)
    state = State.parse(f"{back}/pppppppp/8/8/8/8/PPPPPPPP/{back.upper()} w - - 0 1")
    hands.squares, hands.first = bytearray(state.position.codes), state.position.codes
    hands.result = hands.chance.choice(list(CENTRE))
    hands.begin(state)
    if not castles:
        hands.some(30)
        return hands.finish()
    for _ in range(6):
        moves = [move for move in hands.others("") if hands.squares[NUMBER[move[:2]]] in PAWNS]
        hands.half(hands.chance.choice(moves))
    hands.put((3000, 58, 0), (200, 61, 0), (300, 62, CODE["K"]), (300, 61, CODE["R"]))
    hands.is_warned = True
    return anew(hands, state_of(bytes(hands.squares), 1))


def swapped(hands: Hands, halves: int) -> None:
    """White's king and queen stand on each other's squares, for some half-moves."""
    goal = bytearray(START)
    goal[59], goal[60] = goal[60], goal[59]
    hands.first, hands.squares = bytes(goal), goal[:]
    while True:
        hands.choose()
        if not any(move[:2] in ("d1", "e1") for move in hands.record.moves[:halves]):
            break
    hands.at += hands.wait(2000, 10_000)
    hands.begin(State.start())
    hands.go(halves)
    if halves:
        hands.missing, hands.is_warned = halves, True
    man, other = hands.squares[59], hands.squares[60]
    hands.at += 2000
    hands.put((200, 59, 0), (200, 60, 0), (300, 59, other), (300, 60, man))
    hands.at += 3000
    hands.go()
    hands.finish()


def early_move(hands: Hands) -> None:
    hands.each()
    late_men = hands.chance.sample(range(16), hands.wait(1, 8))
    goal = bytearray(START)
    for at in late_men:
        goal[at] = 0
    hands.run(0, 100, None)
    hands.restore(bytes(goal), 80, 400)
    hands.choose(back=20)
    hands.missing = 1
    hands.begin(State.start())
    hands.half(hands.next())
    hands.put(*[(hands.wait(200, 600), at, START[at]) for at in late_men])
    hands.go(20)
    hands.finish()


def cat(hands: Hands) -> None:
    squares = bytes(hands.squares)
    full = [at for at in range(64) if squares[at]]
    for at in hands.chance.sample(full, min(8, len(full) - 2)):
        hands.put((hands.wait(50, 250), at, 0), (20, hands.empty(), squares[at]))
    hands.at += hands.wait(10_000, 40_000)
    hands.restore(squares, 200, 600)
    hands.at += 2000


def replayed(hands: Hands) -> None:
    count = len(hands.kept[-1].moves)
    for at in range(count - 1, count - 4, -1):
        hands.restore(hands.record.squares[at])
    hands.at += hands.wait(2000, 8000)
    for move in hands.record.moves[count - 3:count]:
        hands.make(move)
    hands.run(100, 400, hands.state.turn)


def takebacks_final(hands: Hands) -> None:
    hands.choose()
    while bool(hands.record.result) == bool(hands.seed % 2):
        hands.choose()
    hands.begin(State.start())
    hands.go()
    count = 1 if hands.record.result else hands.wait(1, 2)
    hands.at += hands.wait(2000, 6000)
    state, moves = State.start(), hands.record.moves[:-count]
    for at in range(1, count + 1):
        hands.restore(hands.record.squares[-1 - at])
    for move in moves:
        state = state.play(move)
    hands.state, hands.kept[-1] = state, hands.kept[-1]._replace(moves=list(moves))
    if hands.record.result:
        hands.some(4)
    hands.finish(hands.chance.choice(list(CENTRE)))


def adjourned(hands: Hands) -> None:
    squares = bytes(hands.squares)
    hands.run(0, 100, None)
    hands.restore(bytes(64))
    hands.at += 300_000
    hands.place_all(squares, KINGS)
    hands.at += 6000
    hands.run(0, 100, hands.state.turn)
    hands.missing = 0


def power_mid(hands: Hands, what: str) -> None:
    move = hands.next()
    steps = [(hands.wait(80, 300), *each) for each in hands.order(move)]
    steps[-1] = (hands.wait(3000, 9000), *steps[-1][1:])
    begun = hands.at
    hands.half(move, steps, (900, 1200))
    down = hands.acts[-1 - hands.has_clock][0]
    assert down > begun
    hands.acts += [(down - 2500, what, False, 0), (down - hands.wait(200, 2000), what, True, 0)]
    hands.at += 1500


def noise(hands: Hands, rate: float, period: float = 2) -> None:
    hands.noise, hands.period = rate, period
    hands.each()


def pressed_early(hands: Hands) -> None:
    hands.has_clock = True
    hands.choose()
    hands.begin(State.start())
    while move := hands.next():
        if hands.happens(0.2):
            hands.at += hands.wait(*hands.pace)
            hands.run(0, 0, Colour(hands.state.turn ^ 1))
            hands.at += hands.wait(300, 2000)
        hands.half(move)
    hands.finish()


def forgotten(hands: Hands) -> None:
    hands.has_clock = True
    hands.choose()
    hands.begin(State.start())
    while move := hands.next():
        forgets = hands.happens(0.1)
        hands.half(move, None, (5000, 20_000) if forgets else (100, 400))
        hands.at += 20_000 if forgets else 0
    hands.finish()


def hesitating_long(hands: Hands) -> None:
    move = hands.next()
    while not (steps := hesitate(1, (35_000, 60_000))(hands, move)):
        hands.half(move)
        if not (move := hands.next()):
            return
    wrong = {number: name for name, number in NUMBER.items()}[steps[1][1]]
    first = hands.kept[-1]
    hands.kept[-1:] = [first._replace(moves=[*first.moves, move[:2] + wrong]),
                       first._replace(moves=list(first.moves))]
    hands.half(move, steps)


def in_hand(hands: Hands) -> None:
    move = hands.next()
    steps = [(hands.wait(80, 300), *each) for each in hands.order(move)]
    hands.half(move, [*steps[:-1], (hands.wait(10_000, 50_000), *steps[-1][1:])])


def knights(hands: Hands) -> None:
    for man in hands.chance.sample((CODE["N"], CODE["n"]), 2):
        both = [at for at in range(64) if hands.squares[at] == man]
        if len(both) == 2:
            hands.put((500, both[0], 0), (500, both[1], 0), (hands.wait(500, 3000), both[1], man),
                      (hands.wait(300, 1000), both[0], man))
            hands.at += 1000


def kings_moment(hands: Hands, *hold: int) -> None:
    squares = bytes(hands.squares)
    hands.put_kings(hands.chance.choice(list(CENTRE)))
    if hold:
        hands.at = hands.acts[-1][0] + hands.wait(*hold)
        hands.restore(squares, 50, 150)
    else:
        hands.restore(squares)
    hands.at += 1500


def goes_on(hands: Hands) -> None:
    hands.run(0, 100, None)
    hands.at += 1500
    kings_moment(hands)


def corrected(hands: Hands) -> None:
    hands.choose()
    while hands.record.result:
        hands.choose()
    hands.begin(State.start())
    hands.go()
    hands.finish(hands.chance.choice([each for each in CENTRE if each != hands.result]))
    hands.at += hands.wait(1000, 4000)
    hands.finish()


def removed(hands: Hands) -> None:
    """Looks for a piece that the rest of a game doesn't need."""
    while True:
        hands.choose()
        squares = hands.record.squares[hands.place]
        men = [at for at in range(64) if squares[at] and squares[at] not in KINGS]
        for at in hands.chance.sample(men, min(8, len(men))):
            goal = bytearray(squares)
            goal[at] = 0
            state = first = state_of(goal, hands.place % 2)
            rest = hands.record.moves[hands.place:]
            try:
                for move in rest if first else []:
                    state = state.play(move)
            except BadValue:
                continue
            if first:
                hands.begin(State.start())
                hands.go(hands.place)
                hands.put((1000, at, 0))
                hands.begin(first)
                hands.record, hands.missing = Record(rest, [], ""), 0
                hands.go()
                return hands.finish()


def arbiter(hands: Hands) -> None:
    hands.choose()
    while hands.place < 12:
        hands.choose()
    hands.begin(State.start())
    hands.go(hands.place)
    back = hands.place - hands.wait(4, 8)
    hands.run(0, 100, None)
    hands.at += 4000
    hands.restore(hands.record.squares[back])
    hands.at += hands.wait(3000, 10_000)
    state = State.start()
    for move in hands.record.moves[:back]:
        state = state.play(move)
    hands.begin(State.start())
    hands.kept[-1].moves.extend(hands.record.moves[:back])
    hands.state = state
    hands.run(0, 100, state.turn)
    moves = hands.others(hands.record.moves[back])
    hands.half(hands.chance.choice(moves))
    hands.some(11)
    hands.finish()
