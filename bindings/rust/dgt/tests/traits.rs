//! Values are converted, compared and hashed, and types have defaults.

use dgt::chess::{BadFen, FenField, Impossible, State};
use dgt::game::Recogniser;
use dgt::names::Flags;
use dgt::values::Kept;
use dgt::*;
use std::collections::{BTreeSet, HashSet};

#[test]
fn squares_are_names_and_numbers() {
    let square: Square = "e4".parse().unwrap();
    assert_eq!(square.to_string(), "e4");
    assert_eq!((u8::from(square), usize::from(square)), (36, 36));
    assert_eq!(Square::try_from(36), Ok(square));
    assert_eq!(("e9".parse::<Square>(), Square::try_from(64)), (Err(NoSquare), Err(NoSquare)));
    let squares = BTreeSet::from(["h1", "a8", "e4"].map(|name| name.parse::<Square>().unwrap()));
    assert_eq!(squares.iter().map(Square::to_string).collect::<Vec<_>>(), ["a8", "e4", "h1"]);
}

#[test]
fn pieces_are_letters_and_codes() {
    let pawn = Piece::WhitePawn;
    assert_eq!((pawn.to_string(), char::from(pawn), u8::from(pawn)), ("P".to_string(), 'P', 1));
    assert_eq!(["P".parse(), Piece::try_from('P'), Piece::try_from(1)], [Ok(pawn); 3]);
    for refused in ["".parse(), "PP".parse(), Piece::try_from('A'), Piece::try_from(16)] {
        assert_eq!(refused, Err(NoPiece));
    }
    assert_eq!(HashSet::from([pawn, Piece::Empty, pawn]).len(), 2);
}

#[test]
fn states_are_fens() {
    let state: State = "4k3/8/8/8/8/8/8/4K2R w K - 0 1".parse().unwrap();
    let after = state.play(state.parse_san("O-O").unwrap()).unwrap();
    assert_eq!(after.to_string(), "4k3/8/8/8/8/8/8/5RK1 b - - 1 1");
    assert_eq!(State::default(), State::start());
    let wrong = "4k3/8/8/8/8/8/8/4K2R w K e9 0 1".parse::<State>();
    assert_eq!(wrong, Err(BadFen::Text { field: FenField::Passed, at: 26 }));
    let empty = "8/8/8/8/8/8/8/8 w - - 0 1".parse::<State>();
    assert_eq!(empty, Err(BadFen::Impossible(Impossible::Kings)));
}

#[test]
fn positions_are_placements() {
    let mut position: Position = "8/8/8/8/4P3/8/8/8".parse().unwrap();
    let (e2, e4) = ("e2".parse().unwrap(), "e4".parse().unwrap());
    assert_eq!((position[e2], position[e4]), (Piece::Empty, Piece::WhitePawn));
    assert_eq!(format!("{position:<18}|"), "8/8/8/8/4P3/8/8/8 |");
    assert_eq!("8/8".parse::<Position>(), Err(BadPlacement { at: 3 }));
    position.set(e4, Piece::Empty);
    assert_eq!(HashSet::from([position, Position::empty()]).len(), 1);
}

#[test]
fn bytes_are_numbers() {
    assert_eq!(SevenBit::try_from(127).map(u8::from), Ok(127));
    assert!(SevenBit::try_from(1).unwrap() < SevenBit::try_from(2).unwrap());
    let flags = Flags { blocked: false, per_move: true, fallen: true };
    assert_eq!((Flags::of(6), Flags::of(1).blocked), (flags, true));
}

#[test]
fn listeners_are_types_too() {
    struct Nobody;
    impl Listener for Nobody {
        fn hear(&mut self, _: usize, _: &Event<'_>) {}
    }
    let _: Followed = Follower::default().hear_with(0, b"\x42", &mut Nobody);
}

/// The default follower sends a request every ten seconds, and starts over after six heartbeats.
/// The default board is the one that `dgt board` simulates.
#[test]
fn types_have_defaults() {
    let (mut follower, mut board, mut out) = (Follower::default(), Board::default(), [0; MAX_SENT]);
    let mut answer = |command| {
        board.take(&[command]).unwrap();
        let polled = board.poll(&mut out);
        out[..if let Polled::Wrote(count) = polled { count } else { 0 }].to_vec()
    };
    follower.ask(0, &mut [0; MAX_ASKING]).unwrap();
    follower.hear_all(1, &answer(0x42));
    assert_eq!((follower.picture(), follower.due_at()), (Some(&Position::start()), Some(10_000)));
    assert_eq!((follower.heartbeats_left(), Position::default()), (6, Position::start()));
    assert_eq!(answer(0x45), b"\x91\x00\x0800001");
    assert_eq!(answer(0x41), b"\x8d\x00\x0a\0\0\0\0\0\0\0");
    assert_eq!((Decoder::default().rest(), CommandDecoder::default().partial()), (0, 0));
    assert_eq!((Host::default().picture(), Recogniser::default().clone().state()), (None, None));
    assert_eq!(format!("{:?}", Kept::<2>::default()), "Kept([])");
}
