//! A host, a follower, a decoder, a decoder of commands and a board for DGT electronic chess
//! boards, the rules of chess, and a recogniser of games.
//!
//! | Type | What it does |
//! |---|---|
//! | [`Follower`] | requests all squares again and again, so that its picture stays right |
//! | [`Host`] | sends the requests that you choose, and reports each event |
//! | [`Decoder`] | reads a board's bytes, and keeps no picture |
//! | [`Board`] | simulates a board, so that a host can be tested without one |
//! | [`CommandDecoder`] | reads a host's bytes |
//! | [`chess::State`] | a state of a game: its legal moves, and the state after each |
//! | [`game::Recogniser`] | reports the games that are played on a board |
//!
//! None of them opens a line, waits or allocates memory: you pass the received bytes in chunks of
//! any length, and send the bytes that a call wrote into your slice. With the feature `std`, which
//! is on by default, `follow` follows a board on a serial port, and [`Views`] one on any stream.
//!
//! ```
//! use dgt::{Board, Host, Piece, RESTART_LENGTH};
//!
//! let (mut board, mut host) = (Board::default(), Host::new());
//! let mut asked = [0; RESTART_LENGTH];
//! let count = host.restart(&mut asked)?;
//! board.change("e2".parse()?, Piece::Empty);
//! board.change("e4".parse()?, Piece::WhitePawn);
//! for message in board.answers(&asked[..count]) {
//!     host.hear_all(&message);
//! }
//! let picture = host.picture().unwrap().to_string();
//! assert_eq!(picture, "rnbqkbnr/pppppppp/8/8/4P3/8/PPPP1PPP/RNBQKBNR");
//! # Ok::<(), Box<dyn std::error::Error>>(())
//! ```
//!
//! # What is proved
//!
//! The public modules are generated from crates in Rattle, which is Rust with contracts. The
//! contracts of those crates are proved for all inputs. The modules contain their code without the
//! contracts, except for the few places that `bindings/rust/plain.edits` of the repository lists.
//! What comments say of contracts is about those crates. The rest of this crate, such as traits,
//! texts and views, is written by hand, and tested.
//!
//! # Features
//!
//! | Feature | It adds |
//! |---|---|
//! | `std` (by default) | `follow`, `follow_with`, `ports`, `Port`, [`Views`], `std::io` errors |
//! | `serde` | `Serialize` and `Deserialize` of values, clocks and modes |
//!
//! Without `std` it depends only on `core` and the crate `arrayvec`.
#![no_std]
#![forbid(unsafe_code)]

#[cfg(feature = "std")]
extern crate std;

/// Generated modules: their layout is that of their sources.
macro_rules! generated {
    ($($name:ident $path:literal),* $(,)?) => {$(
        #[path = $path]
        #[rustfmt::skip]
        #[allow(missing_docs, unused_imports, unused_variables, clippy::all, clippy::pedantic)]
        #[deny(clippy::incompatible_msrv)]
        pub mod $name;
    )*};
}

generated! {
    values "generated/values/mod.rs",
    chess "generated/chess/mod.rs",
    game "generated/game/mod.rs",
    message "generated/message/mod.rs",
    stored "generated/stored/mod.rs",
    decode "generated/decode/mod.rs",
    command "generated/command/mod.rs",
    names "generated/names/mod.rs",
    board "generated/board/mod.rs",
    host "generated/host/mod.rs",
    follow "generated/follow/mod.rs",
}

mod answers;
mod encoding;
mod text;
mod traits;

#[cfg(feature = "std")]
mod following;
#[cfg(all(feature = "std", target_os = "linux"))]
mod port;
#[cfg(feature = "serde")]
mod serde_values;

pub use answers::{Answer, Answers, lighting};
pub use board::{
    Board, Busy, Identity, MAX_KEPT_BODY, MAX_OWED, MAX_SENT, Mode, Polled, Taken, TooLong,
    simulated_clock,
};
pub use command::{
    ClockCommand, Command, CommandDecoder, CommandEvent, CommandFed, KnownId, LedBytes,
    MAX_LED_BYTES, MAX_PAYLOAD, MAX_WORD, Payload, RawClock, display,
};
pub use decode::{Decoder, Event, Fed, Listener, MAX_TOTAL, Unfinished};
pub use follow::{Followed, Follower, LEAST_PERIOD, MAX_ASKING, UpdateMode};
pub use host::{Heard, Host, MAX_AWAITED, RESTART_LENGTH, SendFault};
pub use message::{
    BadDigits, BodyFault, Clock, ClockAck, KnownCode, Message, NoClock, NotThisKind, OtherCode,
    Reading, Status, Times,
};
pub use values::{
    BadPlacement, Body, BodyError, Kind, Known, MAX_BODY, NoPiece, NoRoom, NoSegment, NoSquare,
    NotSevenBit, Piece, Position, SevenBit, Square, TooMuch, segment,
};

#[cfg(feature = "std")]
pub use following::{Away, BoardView, Closer, Views, now};
#[cfg(all(feature = "std", target_os = "linux"))]
pub use port::{Port, Reopen, follow, follow_with, ports};
