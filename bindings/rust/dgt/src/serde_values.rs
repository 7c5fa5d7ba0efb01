//! Values for serde: squares, pieces and positions as their texts, bytes as numbers, and clocks as
//! their parts. Values are checked when they are read, as everywhere else.

use crate::{Clock, NoClock, Piece, Position, Reading, SevenBit, Square, Status, Times};
use core::convert::Infallible;
use core::fmt::{self, Display, Formatter};
use core::marker::PhantomData;
use core::str::FromStr;
use serde::de::{Deserialize, Deserializer, Error, Visitor};
use serde::ser::{Serialize, Serializer};

/// Reads the text of a value.
struct Text<T>(PhantomData<T>);

impl<T: FromStr<Err: Display>> Visitor<'_> for Text<T> {
    type Value = T;

    fn expecting(&self, f: &mut Formatter<'_>) -> fmt::Result {
        f.write_str("a text")
    }

    fn visit_str<E: Error>(self, text: &str) -> Result<T, E> {
        text.parse().map_err(E::custom)
    }
}

macro_rules! as_text {
    ($($name:ty),*) => {$(
        impl Serialize for $name {
            fn serialize<S: Serializer>(&self, to: S) -> Result<S::Ok, S::Error> {
                to.collect_str(self)
            }
        }

        impl<'de> Deserialize<'de> for $name {
            fn deserialize<D: Deserializer<'de>>(from: D) -> Result<Self, D::Error> {
                from.deserialize_str(Text(PhantomData))
            }
        }
    )*};
}

as_text!(Piece, Position, Square);

/// The form in which a value is written and read.
macro_rules! as_parts {
    ($($name:ident as $parts:ty: $write:expr, $read:expr);* $(;)?) => {$(
        impl Serialize for $name {
            fn serialize<S: Serializer>(&self, to: S) -> Result<S::Ok, S::Error> {
                let write: fn(&$name) -> $parts = $write;
                write(self).serialize(to)
            }
        }

        impl<'de> Deserialize<'de> for $name {
            fn deserialize<D: Deserializer<'de>>(from: D) -> Result<Self, D::Error> {
                let read = $read;
                read(<$parts>::deserialize(from)?).map_err(D::Error::custom)
            }
        }
    )*};
}

#[derive(serde::Serialize, serde::Deserialize)]
#[serde(rename = "Reading")]
struct ReadingParts {
    hours: u8,
    minutes: u8,
    seconds: u8,
    #[serde(default)]
    flags: u8,
}

#[derive(serde::Serialize, serde::Deserialize)]
#[serde(rename = "Times")]
struct TimesParts {
    first: Reading,
    second: Reading,
    status: Status,
}

#[derive(serde::Serialize, serde::Deserialize)]
#[serde(rename = "NoClock")]
struct NoClockParts {
    raw: [SevenBit; 6],
    status: Status,
}

#[derive(serde::Serialize, serde::Deserialize)]
#[serde(rename = "Clock")]
enum ClockParts {
    Times(Times),
    NoClock(NoClock),
}

as_parts! {
    SevenBit as u8: |it| it.get(), SevenBit::try_from;
    Status as SevenBit: |it| it.code(), |code| Ok::<_, Infallible>(Status::new(code));
    Reading as ReadingParts: |it| ReadingParts {
        hours: it.hours(),
        minutes: it.minutes(),
        seconds: it.seconds(),
        flags: it.flags(),
    }, |it: ReadingParts| Reading::new(it.hours, it.minutes, it.seconds, it.flags);
    Times as TimesParts: |it| TimesParts {
        first: it.first(),
        second: it.second(),
        status: it.status(),
    }, |it: TimesParts| Times::new(it.first, it.second, it.status);
    NoClock as NoClockParts: |it| NoClockParts { raw: it.raw(), status: it.status() },
        |it: NoClockParts| NoClock::new(it.raw, it.status);
    Clock as ClockParts: |it| match it {
        Clock::Times(times) => ClockParts::Times(*times),
        Clock::NoClock(absence) => ClockParts::NoClock(*absence),
    }, |it| Ok::<_, Infallible>(match it {
        ClockParts::Times(times) => Clock::Times(times),
        ClockParts::NoClock(absence) => Clock::NoClock(absence),
    });
}
