//! Values as text. Messages, commands and events have the texts of the lines of `dgt monitor` and
//! `dgt commands`, without their offsets.

use crate::chess::State;
use crate::{
    BodyFault, Clock, ClockAck, ClockCommand, Command, CommandEvent, Event, Message, NoClock,
    Piece, Position, Reading, SevenBit, Square, Times, segment,
};
use core::fmt::{self, Display, Formatter, Write};

/// Two hexadecimal digits for each byte, or a hyphen if there is none.
struct Hex<'a>(&'a [u8]);

impl Display for Hex<'_> {
    fn fmt(&self, f: &mut Formatter<'_>) -> fmt::Result {
        if self.0.is_empty() {
            return f.write_str("-");
        }
        self.0.iter().try_for_each(|byte| write!(f, "{byte:02x}"))
    }
}

impl Display for Square {
    /// The name, such as `e4`.
    fn fmt(&self, f: &mut Formatter<'_>) -> fmt::Result {
        let [file, rank] = self.name().map(char::from);
        write!(f, "{file}{rank}")
    }
}

impl Display for Piece {
    /// The letter.
    fn fmt(&self, f: &mut Formatter<'_>) -> fmt::Result {
        f.write_char(self.letter())
    }
}

impl Display for Position {
    /// The placement, the first field of a FEN.
    fn fmt(&self, f: &mut Formatter<'_>) -> fmt::Result {
        f.pad(self.placement().as_str())
    }
}

impl Display for State {
    /// The FEN.
    fn fmt(&self, f: &mut Formatter<'_>) -> fmt::Result {
        f.pad(self.fen().as_str())
    }
}

impl Display for Reading {
    /// Hours, minutes and seconds, such as `1:29:55`.
    fn fmt(&self, f: &mut Formatter<'_>) -> fmt::Result {
        write!(f, "{}:{:02}:{:02}", self.hours(), self.minutes(), self.seconds())
    }
}

impl Display for Times {
    fn fmt(&self, f: &mut Formatter<'_>) -> fmt::Result {
        let (first, second, status) = (self.first(), self.second(), self.status().code().get());
        let (one, two) = (first.flags(), second.flags());
        write!(f, "times {first} {one} {second} {two} {status:02x}")
    }
}

impl Display for NoClock {
    fn fmt(&self, f: &mut Formatter<'_>) -> fmt::Result {
        write!(f, "noclock {} {:02x}", Hex(&self.raw_bytes()), self.status().code().get())
    }
}

impl Display for Clock {
    fn fmt(&self, f: &mut Formatter<'_>) -> fmt::Result {
        match self {
            Clock::Times(times) => times.fmt(f),
            Clock::NoClock(absence) => absence.fmt(f),
        }
    }
}

#[allow(clippy::many_single_char_names)]
impl Display for Message<'_> {
    fn fmt(&self, f: &mut Formatter<'_>) -> fmt::Result {
        match self {
            Message::Dump(position) => write!(f, "dump {position}"),
            Message::Field { square, piece } => write!(f, "field {square} {piece}"),
            Message::Times(times) => times.fmt(f),
            Message::NoClock(absence) => absence.fmt(f),
            Message::Ack(ClockAck { ack, status }) => {
                let [a, b, c, d] = ack;
                write!(f, "ack {a:02x} {b:02x} {c:02x} {d:02x} {:02x}", status.get())
            }
            Message::Serial(serial) => write!(f, "serial {}", Hex(&serial.map(SevenBit::get))),
            Message::Trademark(body) => write!(f, "trademark {}", Hex(body.bytes())),
            Message::Version { main, sub } => write!(f, "version {}.{}", main.get(), sub.get()),
            Message::Battery(body) => write!(f, "battery {}", Hex(body.bytes())),
            Message::LongSerial(body) => write!(f, "longserial {}", Hex(body.bytes())),
            Message::Other { code, body } => {
                write!(f, "other {:02x} {}", code.get().get(), Hex(body.bytes()))
            }
        }
    }
}

impl Display for Event<'_> {
    fn fmt(&self, f: &mut Formatter<'_>) -> fmt::Result {
        match self {
            Event::Message(message) => message.fmt(f),
            Event::Refused { code, fault } => {
                write!(f, "refused {:02x} ", code.get())?;
                match fault {
                    BodyFault::WrongSize => f.write_str("wrongsize"),
                    BodyFault::BadPiece { at } => write!(f, "badpiece {at}"),
                    BodyFault::BadSquare { at } => write!(f, "badsquare {at}"),
                    BodyFault::BadReading { at } => write!(f, "badreading {at}"),
                }
            }
            Event::Cut { have } => write!(f, "cut {have}"),
            Event::BadLength => f.write_str("badlength"),
            Event::Stray(byte) => write!(f, "stray {byte:02x}"),
        }
    }
}

impl Display for Command<'_> {
    fn fmt(&self, f: &mut Formatter<'_>) -> fmt::Result {
        f.write_str(match self {
            Command::Reset => "reset",
            Command::Clock => "clock",
            Command::Dump => "dump",
            Command::Update => "update",
            Command::UpdateBoard => "updateboard",
            Command::UpdateNice => "updatenice",
            Command::Serial => "serial",
            Command::Trademark => "trademark",
            Command::Battery => "battery",
            Command::Version => "version",
            Command::LongSerial => "longserial",
            Command::ClockMessage(asked) => return asked.fmt(f),
            Command::Leds(leds) => return write!(f, "leds {}", Hex(leds.bytes())),
        })
    }
}

impl Display for CommandEvent<'_> {
    fn fmt(&self, f: &mut Formatter<'_>) -> fmt::Result {
        match self {
            CommandEvent::Command(command) => command.fmt(f),
            CommandEvent::BadSize => f.write_str("badsize"),
            CommandEvent::BadStart => f.write_str("badstart"),
            CommandEvent::BadEnd => f.write_str("badend"),
            CommandEvent::Stray(byte) => write!(f, "stray {byte:02x}"),
        }
    }
}

/// The character of these segments, if there is one.
fn shown(segments: u8) -> Option<char> {
    "0123456789 -".chars().find(|&character| segment(character) == Ok(segments))
}

#[allow(clippy::many_single_char_names)]
impl Display for ClockCommand<'_> {
    fn fmt(&self, f: &mut Formatter<'_>) -> fmt::Result {
        match self {
            ClockCommand::Display { places, dots, beep } => {
                f.write_str("display ")?;
                if *dots == 0 && *beep == 0 && places.iter().all(|it| shown(*it).is_some()) {
                    return places
                        .iter()
                        .filter_map(|it| shown(*it))
                        .try_for_each(|it| f.write_char(it));
                }
                let [a, b, c, d, e, g] = *places;
                Hex(&[c, b, a, g, e, d, *dots, *beep]).fmt(f)
            }
            ClockCommand::Icons(payload) => write!(f, "icons {}", Hex(payload.bytes())),
            ClockCommand::End => f.write_str("end"),
            ClockCommand::Button => f.write_str("button"),
            ClockCommand::Version => f.write_str("clockversion"),
            ClockCommand::SetAndRun { left: [a, b, c], right: [d, e, g], control } => {
                write!(f, "setandrun {}", Hex(&[*a, *b, *c, *d, *e, *g, *control]))
            }
            ClockCommand::Beep(duration) => write!(f, "beep {duration}"),
            ClockCommand::Text { letters, beep: 0 }
                if letters.iter().all(|letter| matches!(letter, b' '..=b'~')) =>
            {
                f.write_str("text ")?;
                letters.iter().try_for_each(|letter| f.write_char(char::from(*letter)))
            }
            ClockCommand::Text { letters, beep } => {
                write!(f, "text {}{beep:02x}", Hex(letters))
            }
            ClockCommand::Raw(raw) => {
                write!(f, "clockmessage {:02x} {}", raw.id(), Hex(raw.payload().bytes()))
            }
        }
    }
}
