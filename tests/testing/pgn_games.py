"""Reads games of PGN files, with our own reader and with Debian's pgn-extract."""

import re
import shutil
import subprocess

from wrong import Wrong

SQUARES = tuple(f"{file}{rank}" for rank in "87654321" for file in "abcdefgh")
START = "rnbqkbnr/pppppppp/8/8/8/8/PPPPPPPP/RNBQKBNR w KQkq - 0 1"
RESULTS = ("1-0", "0-1", "1/2-1/2", "*")
PGN_EXTRACT = shutil.which("pgn-extract") or shutil.which("/usr/games/pgn-extract")
WIDE = 1 << 20
HEAD = re.compile(r'\[(\w+) "((?:[^"\\]|\\["\\])*)"\]')
MOVE = re.compile(r"([KQRBN]?)([a-h]?)([1-8]?)(x?)([a-h][1-8])(?:=([QRBN]))?([+#]?)")


class Read:
    """A game that was read: its tags, its moves by their long names, the clock after each of them
    or None, its result, and what else its comments say."""

    def __init__(self, tags):
        self.tags, self.moves, self.clocks = tags, [], []
        self.san, self.result, self.comments = [], None, []

    @property
    def fen(self):
        return self.tags.get("FEN", START)

    def comment(self, text):
        clock = re.fullmatch(r"\[%clk (\d:\d\d:\d\d)\]", text)
        if not clock:
            self.comments.append(text)
        elif not self.moves or self.clocks[-1]:
            raise Wrong(f"{text} does not follow a move")
        else:
            self.clocks[-1] = clock[1]

    def move(self, name):
        self.moves.append(name)
        self.clocks.append(None)


def split(text):
    """The tags and the words of each game. A comment is one word."""
    for part in re.split(r"(?m)^(?=\[Event )", text)[1:]:
        heads, _, body = part.partition("\n\n")
        tags = [HEAD.fullmatch(line) for line in heads.splitlines()]
        if None in tags:
            raise Wrong(f"no tags: {heads}")
        values = {tag[1]: re.sub(r"\\(.)", r"\1", tag[2]) for tag in tags}
        if len(values) != len(tags):
            raise Wrong(f"a tag is there twice: {heads}")
        yield values, re.findall(r"\{[^}]*\}|[^\s{]+", body)


def origin(move, of_kind):
    """What SAN has of the square that a piece comes from: the file if that is enough, or else the
    rank, or else both."""
    others = [other for other in of_kind if other != move]
    if not others:
        return ""
    if all(other[0] != move[0] for other in others):
        return move[0]
    return move[1] if all(other[1] != move[1] for other in others) else move[:2]


def named(state, text):
    """The long name of a move in SAN, which has to be as short as may be."""
    letters, legal = dict(zip(SQUARES, state.letters)), state.moves()
    read = MOVE.fullmatch(text)
    if castling := re.fullmatch(r"(O-O(?:-O)?)([+#]?)", text):
        rank = "1" if state.white else "8"
        found, mark = [f"e{rank}{'g' if castling[1] == 'O-O' else 'c'}{rank}"], castling[2]
    elif read:
        kind, file, rank, takes, to, becomes, mark = read.groups()
        of_kind = [move for move in legal if letters[move[:2]].upper() == (kind or "P")
                   and move[2:] == to + (becomes or "").lower()]
        found = [move for move in of_kind if file in ("", move[0]) and rank in ("", move[1])]
        took = letters[to] != "." or not kind and file != ""
        if kind and found and file + rank != origin(found[0], of_kind) or bool(takes) != took:
            raise Wrong(f"{text} in {state.fen} isn't the name of {found}")
    else:
        raise Wrong(f"no move: {text!r}")
    if len(found) != 1 or found[0] not in legal:
        raise Wrong(f"{text} in {state.fen} is one of {found}")
    after = legal[found[0]]
    if mark != (("+" if after.moves() else "#") if after.check else ""):
        raise Wrong(f"{text} in {state.fen} has a wrong mark")
    return found[0]


def read(dgt, text):
    """The games of a file, from our own reader. It accepts only the export format."""
    return [read_game(dgt, Read(tags), words) for tags, words in split(text)]


def read_game(dgt, game, words):
    state, after_comment, has_number = dgt.GameState.parse(game.fen), True, False
    for word in words:
        if game.result:
            raise Wrong(f"{word!r} follows the result")
        if word in RESULTS:
            game.result = word
        elif word[0] == "{":
            game.comment(word[1:-1].replace("\n", " "))
            after_comment = True
        elif word.endswith("."):
            if has_number or word != f"{state.number}{'.' if state.white else '...'}":
                raise Wrong(f"the number {word} before a move of {state.fen}")
            has_number = True
        else:
            if has_number != (state.white or after_comment):
                raise Wrong(f"a number before {word} in {state.fen}: {has_number}")
            move = named(state, word)
            game.san.append(word)
            game.move(move)
            state, after_comment, has_number = state.after(move), False, False
    if game.result != game.tags.get("Result"):
        raise Wrong(f"the result {game.result}, and the tag {game.tags.get('Result')}")
    return game


def extract(path, form):
    """The games of a file as pgn-extract reads them, in one of its forms of moves."""
    ran = subprocess.run([PGN_EXTRACT, "-s", f"-W{form}", "-w", str(WIDE), str(path)],
                         capture_output=True, text=True, timeout=600, check=False,
                         stdin=subprocess.DEVNULL)
    if ran.returncode or ran.stderr.strip():
        raise Wrong(f"pgn-extract: {ran.returncode} {ran.stderr[-600:]}")
    games = []
    for tags, words in split(ran.stdout):
        game = Read(tags)
        games.append(game)
        for word in words:
            if word in RESULTS:
                game.result = word
            elif word[0] == "{":
                game.comment(word[1:-1].strip())
            elif not word.endswith("."):
                game.move(word.rstrip("+#").lower() if form == "lalg" else word)
    return games


def compare(path, dgt):
    """The games of a file, by both readers if both are here. They agree on all, and both name each
    move in the same way."""
    text = path.read_text()
    long = [line for line in text.splitlines() if len(line) > 79 and line[0] != "["]
    if long:
        raise Wrong(f"lines of more than 79 columns: {long[:2]}")
    own = read(dgt, text)
    if not PGN_EXTRACT:
        return own
    by_name, by_san = extract(path, "lalg"), extract(path, "san")
    if not len(own) == len(by_name) == len(by_san):
        raise Wrong(f"{len(own)} games, and {len(by_name)} by pgn-extract")
    for mine, other, short in zip(own, by_name, by_san):
        for what, one, two in [("tags", mine.tags, other.tags), ("moves", mine.moves, other.moves),
                               ("clocks", mine.clocks, other.clocks),
                               ("results", mine.result, other.result),
                               ("comments", mine.comments, other.comments),
                               ("short names", mine.san, short.moves)]:
            if one != two:
                raise Wrong(f"{what}: {one}, and by pgn-extract {two}")
    return own
