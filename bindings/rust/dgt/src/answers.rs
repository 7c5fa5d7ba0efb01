//! What a simulated board sends, and the frames that light squares.

use crate::{Board, MAX_SENT, Polled, Square};
use core::ops::Deref;

/// A message that a [`Board`] sends: a slice of bytes.
#[derive(Clone, Copy, Debug, PartialEq, Eq)]
pub struct Answer {
    bytes: [u8; MAX_SENT],
    count: usize,
}

impl Deref for Answer {
    type Target = [u8];

    fn deref(&self) -> &[u8] {
        &self.bytes[..self.count]
    }
}

/// The messages that a board sends, one by one: see [`Board::answers`].
#[derive(Debug)]
pub struct Answers<'a> {
    board: &'a mut Board,
    bytes: &'a [u8],
}

impl Board {
    /// Takes all of a host's bytes, and returns the messages to send: first those that were
    /// pending, and then the replies to each command. A command is taken once each message before
    /// it was, so that one that ends updates suppresses none of them.
    ///
    /// ```
    /// let mut board = dgt::Board::default();
    /// let mut sent = Vec::new();
    /// for message in board.answers(b"\x4d\x42") {
    ///     sent.push(message[0]); // a version, and a dump
    /// }
    /// assert_eq!(sent, [0x93, 0x86]);
    /// ```
    pub fn answers<'a>(&'a mut self, bytes: &'a [u8]) -> Answers<'a> {
        Answers { board: self, bytes }
    }
}

impl Iterator for Answers<'_> {
    type Item = Answer;

    fn next(&mut self) -> Option<Answer> {
        let mut bytes = [0; MAX_SENT];
        loop {
            if let Polled::Wrote(count) = self.board.poll(&mut bytes) {
                return Some(Answer { bytes, count });
            }
            if self.bytes.is_empty() {
                return None;
            }
            let taken = self.board.take(self.bytes).ok()?; // it owes nothing, so it isn't busy
            self.bytes = &self.bytes[taken.used..];
        }
    }
}

/// The bytes of an LED frame that lights two squares, such as those of a move, or none. Other
/// programs encode it this way; no board with lights was tried.
///
/// ```
/// use dgt::{Command, LedBytes, lighting};
///
/// let leds = lighting(Some(["e2".parse()?, "e4".parse()?]));
/// assert_eq!(leds, [0x01, 0x34, 0x24, 0x00]);
/// let command = Command::Leds(LedBytes::new(&leds)?);
/// assert_eq!(command.to_string(), "leds 01342400");
/// assert_eq!(lighting(None), [0x00, 0x40, 0x40, 0x00]);
/// # Ok::<(), Box<dyn std::error::Error>>(())
/// ```
#[must_use]
pub fn lighting(squares: Option<[Square; 2]>) -> [u8; 4] {
    squares.map_or([0, 64, 64, 0], |[one, other]| [1, one.index(), other.index(), 0])
}
