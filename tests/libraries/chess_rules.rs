//! Answers tests/libraries/chess_rules by the crate for plain Rust.

use dgt::Square;
use dgt::chess::{BadFen, BadSan, Colour, Man, Move, State};
use dgt::game::{Event, GameResult, Observation, Recogniser, Sight};
use std::fmt::Write;
use std::io::{BufWriter, Write as _, stdin, stdout};

const GAME: usize = 100;
const REMEMBERED: usize = 8;

fn moves(state: &State) -> Vec<Move> {
    let mut moves = Vec::new();
    let squares = || (0..64).map(|index| Square::try_from(index).unwrap());
    for from in squares() {
        let is_pawn = state.turn().man(state.position()[from]) == Some(Man::Pawn);
        let goals = state.goals(from);
        for to in squares().filter(|to| goals >> to.index() & 1 == 1) {
            if is_pawn && !(8..56).contains(&to.index()) {
                let men = [Man::Queen, Man::Rook, Man::Bishop, Man::Knight];
                moves.extend(men.map(|man| Move { from, to, promotion: Some(man) }));
            } else {
                moves.push(Move { from, to, promotion: None });
            }
        }
    }
    moves
}

fn text(one: Move) -> String {
    let letter = one.promotion.map(|man| Colour::Black.piece(man).to_string());
    format!("{}{}{}", one.from, one.to, letter.unwrap_or_default())
}

fn shown(state: &State, moves: &[Move]) -> String {
    let passed = state.passed().map_or("-".to_string(), |square| square.to_string());
    let mut shown = format!("{state}|{passed}|");
    for holds in [
        state.is_check(),
        state.can_move(),
        state.is_mate(),
        state.is_stalemate(),
        state.is_dead(),
        state.is_fifty_moves(),
        state.is_seventy_five_moves(),
    ] {
        write!(shown, "{}", u8::from(holds)).unwrap();
    }
    shown + "|" + &moves.iter().copied().map(text).collect::<Vec<_>>().join(" ")
}

fn read(fen: &str, state: &mut State) -> String {
    match fen.parse() {
        Ok(read) => {
            *state = read;
            shown(state, &moves(state))
        }
        Err(BadFen::Text { field, at }) => format!("text {} {at}", field as u8),
        Err(BadFen::Impossible(why)) => format!("impossible {}", why as u8 + 1),
    }
}

fn san(state: &State, given: &str) -> String {
    let [strict, lenient] = [state.parse_san(given), state.parse_san_leniently(given)].map(
        |read| match read {
            Ok(one) => text(one),
            Err(BadSan::NotSan) => "9".to_string(),
            Err(BadSan::NoMove) => "10".to_string(),
            Err(BadSan::Ambiguous) => "11".to_string(),
        },
    );
    format!("{strict} {lenient}")
}

fn perft(state: &State, depth: u32) -> usize {
    let moves = moves(state);
    if depth == 1 {
        return moves.len();
    }
    moves.into_iter().map(|one| perft(&state.play(one).unwrap(), depth - 1)).sum()
}

fn walk(start: &State, count: usize, mut out: impl std::io::Write) {
    let (mut game, mut random) = (vec![*start], 1_u64);
    for _ in 0..count {
        let (state, before) = game.split_last().unwrap();
        let first = before.len().saturating_sub(REMEMBERED);
        let (choices, repeated) = (moves(state), state.repetitions(&before[first..]));
        write!(out, "{}|{repeated}", shown(state, &choices)).unwrap();
        if !choices.is_empty() && before.len() < GAME {
            random = random.wrapping_mul(6_364_136_223_846_793_005);
            random = random.wrapping_add(1_442_695_040_888_963_407);
            let one = choices[(random >> 33) as usize % choices.len()];
            let (after, name) = (state.play(one).unwrap(), state.san(one).unwrap());
            let (read, found) = (san(state, name.as_str()), state.move_to(after.position()));
            let found = text(found.unwrap());
            write!(out, "|{} {} {read} {found}", text(one), name.as_str()).unwrap();
            game.push(after);
        } else {
            game.truncate(1);
        }
        writeln!(out).unwrap();
    }
}

fn said(event: &Event) -> String {
    match event {
        Event::Begun(state, false) => format!("game {state}"),
        Event::Begun(state, true) => format!("game {state} turned"),
        Event::Made(one) => text(*one),
        Event::Unseen(moves) => {
            let texts = moves.as_slice().iter().copied().map(text).collect::<Vec<_>>();
            format!("unseen {}", texts.join(" "))
        }
        Event::Gap(state, count) => format!("gap {count} {state}"),
        Event::Back(count, stays) => format!("back {count}{}", if *stays { " stays" } else { "" }),
        Event::Ended(GameResult::WhiteWins) => "1-0".to_string(),
        Event::Ended(GameResult::BlackWins) => "0-1".to_string(),
        Event::Ended(GameResult::Draw) => "1/2-1/2".to_string(),
        Event::Lost(squares) => (0..64).filter(|n| squares >> n & 1 == 1).fold(
            "lost".to_string(),
            |said, n| format!("{said} {}", Square::try_from(n).unwrap()),
        ),
        _ => "found".to_string(),
    }
}

fn due(recogniser: &mut Recogniser, at: u64) -> String {
    std::iter::from_fn(|| recogniser.due(at)).map(|event| said(&event) + ";").collect()
}

fn board(recogniser: &mut Recogniser, rest: &str) -> String {
    let [at, how, placement] = rest.split(' ').collect::<Vec<_>>()[..] else { panic!("{rest}") };
    let (at, how, pieces) = (at.parse().unwrap(), how.as_bytes(), placement.parse().unwrap());
    let seen = Observation {
        at,
        sight: match how[0] {
            b's' => Sight::Sure(pieces),
            b'd' => Sight::Doubted(pieces),
            _ => Sight::Away,
        },
        is_confirmed: how[1] == b'c',
        running: match how[2] {
            b'w' => Some(Colour::White),
            b'b' => Some(Colour::Black),
            _ => None,
        },
    };
    let mut told = String::new();
    while recogniser.see(&seen).is_err() {
        told += &due(recogniser, at);
    }
    told + &due(recogniser, at)
}

fn games(recogniser: &mut Recogniser, word: &str, rest: &str) -> String {
    let mut told = String::new();
    match word {
        "anew" => *recogniser = Recogniser::new(),
        "from" => recogniser.go_on(rest[2..].parse().unwrap(), &rest[..1] == "1"),
        "board" => told = board(recogniser, rest),
        _ => told = due(recogniser, rest.parse().unwrap()),
    }
    let due_at = recogniser.due_at().map_or("-".to_string(), |time| time.to_string());
    let state = recogniser.state().map_or(String::new(), |state| state.to_string());
    format!("{told}|{due_at}|{state}")
}

fn main() {
    let (mut state, mut out) = (State::start(), BufWriter::new(stdout().lock()));
    let mut recogniser = Recogniser::new();
    for line in stdin().lines().map(Result::unwrap) {
        let (word, rest) = line.split_once(' ').unwrap();
        let answer = match word {
            "read" => read(rest, &mut state),
            "san" => san(&state, rest),
            "perft" => perft(&state, rest.parse().unwrap()).to_string(),
            "walk" => {
                walk(&state, rest.parse().unwrap(), &mut out);
                continue;
            }
            _ => games(&mut recogniser, word, rest),
        };
        writeln!(out, "{answer}").unwrap();
    }
}
