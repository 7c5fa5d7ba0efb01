//! Traits that users of Rust expect in addition to those that the generated modules derive:
//! defaults, conversions, and closures as listeners.

use crate::chess::State;
use crate::command::WordFramer;
use crate::decode::Framer;
use crate::game::Recogniser;
use crate::values::Kept;
use crate::{
    BadPlacement, Board, CommandDecoder, Decoder, Event, Follower, Host, Identity, Listener,
    NoPiece, NoSquare, Piece, Position, SevenBit, Square, simulated_clock,
};
use core::fmt::{self, Debug, Formatter};
use core::ops::Index;
use core::str::FromStr;

macro_rules! new_by_default {
    ($($name:ty),*) => {$(
        impl Default for $name {
            fn default() -> Self {
                Self::new()
            }
        }
    )*};
}

new_by_default!(CommandDecoder, Decoder, Framer, Host, Recogniser, WordFramer);

impl Default for Follower {
    /// A follower that sends a request every ten seconds, and starts over after six heartbeats.
    fn default() -> Self {
        Self::new(10_000, 6)
    }
}

impl Default for Board {
    /// The board that `dgt board` simulates, in the initial position.
    fn default() -> Self {
        Self::new(Position::start(), simulated_clock(), Identity::simulated())
    }
}

impl Default for Position {
    /// The initial position of a game.
    fn default() -> Self {
        Self::start()
    }
}

impl Default for State {
    /// The state in which a game begins.
    fn default() -> Self {
        Self::start()
    }
}

impl<const ROOM: usize> Default for Kept<ROOM> {
    fn default() -> Self {
        Self::new()
    }
}

impl<const ROOM: usize> Debug for Kept<ROOM> {
    fn fmt(&self, f: &mut Formatter<'_>) -> fmt::Result {
        f.debug_tuple("Kept").field(&self.as_slice()).finish()
    }
}

/// ```
/// use dgt::{Decoder, Event};
///
/// let mut lines = Vec::new();
/// let mut note = |place, event: &Event<'_>| lines.push(format!("{place} {event}"));
/// Decoder::new().feed_all(b"\x8e\x00\x05\x24\x01\x31", &mut note);
/// assert_eq!(lines, ["5 field e4 P", "6 stray 31"]);
/// ```
impl<F: FnMut(usize, &Event<'_>)> Listener for F {
    fn hear(&mut self, place: usize, event: &Event<'_>) {
        self(place, event);
    }
}

/// ```
/// use dgt::{Piece, Position, Square};
///
/// let mut position = Position::start();
/// let e2: Square = "e2".parse()?;
/// assert_eq!(position[e2], Piece::WhitePawn);
/// assert_eq!(position.differ(&Position::empty()), 0xffff_0000_0000_ffff);
/// # Ok::<(), dgt::NoSquare>(())
/// ```
impl Index<Square> for Position {
    type Output = Piece;

    fn index(&self, square: Square) -> &Piece {
        &self.pieces()[usize::from(square)]
    }
}

impl FromStr for Position {
    type Err = BadPlacement;

    /// The position of a placement, as [`Position::parse_placement`] reads it.
    fn from_str(text: &str) -> Result<Self, BadPlacement> {
        Self::parse_placement(text)
    }
}

impl FromStr for Square {
    type Err = NoSquare;

    /// The square of a name, as [`Square::parse`] reads it.
    fn from_str(name: &str) -> Result<Self, NoSquare> {
        Self::parse(name)
    }
}

impl FromStr for Piece {
    type Err = NoPiece;

    /// The piece of one letter, as [`Piece::from_letter`] reads it.
    fn from_str(text: &str) -> Result<Self, NoPiece> {
        let mut letters = text.chars();
        match (letters.next(), letters.next()) {
            (Some(letter), None) => Self::from_letter(letter),
            _ => Err(NoPiece),
        }
    }
}

impl TryFrom<u8> for Square {
    type Error = NoSquare;

    /// The square of a number, as [`Square::from_index`] returns it.
    fn try_from(index: u8) -> Result<Self, NoSquare> {
        Self::from_index(index)
    }
}

impl TryFrom<u8> for Piece {
    type Error = NoPiece;

    /// The piece of a code, as [`Piece::from_code`] returns it.
    fn try_from(code: u8) -> Result<Self, NoPiece> {
        Self::from_code(code)
    }
}

impl TryFrom<char> for Piece {
    type Error = NoPiece;

    /// The piece of a letter, as [`Piece::from_letter`] returns it.
    fn try_from(letter: char) -> Result<Self, NoPiece> {
        Self::from_letter(letter)
    }
}

macro_rules! into {
    ($($from:ty => $to:ty: $call:expr),* $(,)?) => {$(
        impl From<$from> for $to {
            fn from(value: $from) -> Self {
                $call(value)
            }
        }
    )*};
}

into! {
    Square => u8: Square::index,
    Square => usize: |square: Square| usize::from(square.index()),
    Piece => u8: Piece::code,
    Piece => char: Piece::letter,
    SevenBit => u8: SevenBit::get,
}

#[cfg(feature = "std")]
into! {
    crate::SendFault => std::io::Error: std::io::Error::other,
    crate::NoRoom => std::io::Error: std::io::Error::other,
}
