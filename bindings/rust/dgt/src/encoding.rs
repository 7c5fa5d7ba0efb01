//! The bytes of one message or one command.

use crate::command::{self, Command};
use crate::message::{self, BodyFault, Message};
use crate::values::{Body, NoRoom, SevenBit};

impl<'a> Message<'a> {
    /// The message with this code and this body, as [`message::view`] reads it.
    ///
    /// ```
    /// use dgt::{Body, BodyFault, Message, SevenBit};
    ///
    /// let field = SevenBit::try_from(0x0e).unwrap();
    /// let view = |body| Message::view(field, Body::new(body).unwrap());
    /// assert_eq!(view(&[0x34, 0x00]).unwrap().to_string(), "field e2 .");
    /// assert_eq!(view(&[0x34, 0x10]), Err(BodyFault::BadPiece { at: 1 }));
    /// ```
    ///
    /// # Errors
    ///
    /// The fault of a body that doesn't belong to its code.
    pub fn view(code: SevenBit, body: Body<'a>) -> Result<Self, BodyFault> {
        message::view(code, body)
    }

    /// Writes the message at the beginning of the slice, as [`message::encode`] does, and returns
    /// how many bytes it takes.
    ///
    /// ```
    /// use dgt::{Message, NoRoom, Piece};
    ///
    /// let square = "e2".parse().unwrap();
    /// let (message, mut out) = (Message::Field { square, piece: Piece::Empty }, [0; 5]);
    /// assert_eq!(message.encode(&mut out), Ok(5));
    /// assert_eq!(out, *b"\x8e\x00\x05\x34\x00");
    /// assert_eq!(message.encode(&mut out[..4]), Err(NoRoom { need: 5 }));
    /// ```
    ///
    /// # Errors
    ///
    /// `NoRoom` if the slice is shorter than the message. Then nothing is written.
    pub fn encode(&self, out: &mut [u8]) -> Result<usize, NoRoom> {
        message::encode(self, out)
    }
}

impl<'a> Command<'a> {
    /// The command with exactly these bytes, as [`command::view_command`] reads it.
    #[must_use]
    pub fn view(bytes: &'a [u8]) -> Option<Self> {
        command::view_command(bytes)
    }

    /// Writes the command at the beginning of the slice, as [`command::encode`] does, and returns
    /// how many bytes it takes.
    ///
    /// ```
    /// use dgt::{ClockCommand, Command};
    ///
    /// let beep = Command::ClockMessage(ClockCommand::Beep(3));
    /// let mut out = [0; 6];
    /// assert_eq!(beep.encode(&mut out), Ok(6));
    /// assert_eq!(out, *b"\x2b\x04\x03\x0b\x03\x00");
    /// ```
    ///
    /// # Errors
    ///
    /// `NoRoom` if the slice is shorter than the command. Then nothing is written.
    pub fn encode(&self, out: &mut [u8]) -> Result<usize, NoRoom> {
        command::encode(self, out)
    }
}
