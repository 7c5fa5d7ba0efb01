//! Values are written and read by serde as texts, numbers and parts, and are checked when read.
#![cfg(feature = "serde")]

use dgt::*;
use serde::Deserialize;
use serde::Serialize;
use serde::de::IntoDeserializer;
use serde::de::value::{Error, MapDeserializer, StrDeserializer};
use std::fmt;

/// The output for a value: serde writes texts and numbers to a formatter.
struct Written<T>(T);

impl<T: Serialize> fmt::Display for Written<T> {
    fn fmt(&self, f: &mut fmt::Formatter<'_>) -> fmt::Result {
        self.0.serialize(f)
    }
}

fn read<'a, T: Deserialize<'a>>(text: &'a str) -> Result<T, Error> {
    let from: StrDeserializer<'a, Error> = text.into_deserializer();
    T::deserialize(from)
}

#[test]
fn values_are_texts() {
    let square: Square = "e4".parse().unwrap();
    assert_eq!(Written(square).to_string(), "e4");
    assert_eq!(read::<Square>("e4"), Ok(square));
    assert!(read::<Square>("e9").is_err());
    assert_eq!(Written(Piece::BlackKing).to_string(), "k");
    assert_eq!(read::<Piece>("k"), Ok(Piece::BlackKing));
    assert!(read::<Piece>("kk").is_err());
    let start = "rnbqkbnr/pppppppp/8/8/8/8/PPPPPPPP/RNBQKBNR";
    assert_eq!(Written(Position::start()).to_string(), start);
    assert_eq!(read::<Position>(start), Ok(Position::start()));
    assert!(read::<Position>("8/8").is_err());
}

#[test]
fn modes_and_kinds_are_names() {
    assert_eq!(Written(Kind::Dump).to_string(), "Dump");
    assert_eq!(Written(Mode::UpdateNice).to_string(), "UpdateNice");
    assert_eq!(Written(UpdateMode::UpdateNice).to_string(), "UpdateNice");
    assert_eq!(read::<UpdateMode>("UpdateBoard"), Ok(UpdateMode::UpdateBoard));
}

fn number<T: for<'a> Deserialize<'a>>(value: u8) -> Result<T, Error> {
    T::deserialize(value.into_deserializer())
}

#[test]
fn bytes_are_numbers() {
    let seven = SevenBit::try_from(127).unwrap();
    assert_eq!(Written(seven).to_string(), "127");
    assert_eq!(number::<SevenBit>(127), Ok(seven));
    assert!(number::<SevenBit>(128).is_err());
    assert_eq!(Written(Status::new(seven)).to_string(), "127");
    assert_eq!(number::<Status>(127), Ok(Status::new(seven)));
}

#[test]
fn readings_are_checked() {
    let reading = |hours: u8| {
        let parts = [("hours", hours), ("minutes", 59), ("seconds", 5)];
        Reading::deserialize(MapDeserializer::<_, Error>::new(parts.into_iter()))
    };
    assert_eq!(reading(9), Ok(Reading::new(9, 59, 5, 0).unwrap()));
    assert!(reading(10).is_err());
}
