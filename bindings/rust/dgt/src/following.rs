//! Follows a board over a stream, view by view.

use crate::{Clock, Command, Follower, MAX_ASKING, Position};
use core::fmt::{self, Display, Formatter};
use core::time::Duration;
use std::io::{self, ErrorKind, Read, Write};
use std::sync::atomic::{AtomicBool, Ordering};
use std::sync::{Arc, OnceLock};
use std::thread;
use std::time::Instant;

/// The time between two searches for a port that has gone, in milliseconds.
const LOOK: u64 = 2000;
/// How many milliseconds to wait if a stream has gone, or has nothing to read and doesn't block.
const NAP: u64 = 10;

/// The time in milliseconds, by a clock that doesn't go back, for [`Follower::hear`] and other
/// calls.
#[must_use]
pub fn now() -> u64 {
    static BEGUN: OnceLock<Instant> = OnceLock::new();
    u64::try_from(BEGUN.get_or_init(Instant::now).elapsed().as_millis()).unwrap_or(u64::MAX)
}

/// Why nothing is heard of a board.
#[derive(Clone, Copy, Debug, PartialEq, Eq, Hash)]
#[cfg_attr(feature = "serde", derive(serde::Serialize, serde::Deserialize))]
#[non_exhaustive]
pub enum Away {
    /// Its port has gone. The program looks for it every two seconds.
    Gone,
    /// Its port exists, but the board doesn't answer.
    Silent,
}

impl Display for Away {
    fn fmt(&self, f: &mut Formatter<'_>) -> fmt::Result {
        f.write_str(match self {
            Away::Gone => "the port has gone; it is looked for every two seconds",
            Away::Silent => "the board doesn't answer",
        })
    }
}

/// What is known of a followed board.
#[derive(Clone, Copy, Debug, Default, PartialEq, Eq, Hash)]
#[cfg_attr(feature = "serde", derive(serde::Serialize, serde::Deserialize))]
#[non_exhaustive]
pub struct BoardView {
    /// The pieces on the squares, or `None` before the first dump.
    pub picture: Option<Position>,
    /// The last report of the board's clock. `None` before the first report, and while the clock
    /// shows no digits, as while it is being set, or sends only zeros.
    pub clock: Option<Clock>,
    /// Whether the picture may be wrong: the line lost or altered bytes, or the board is away. It
    /// may be wrong until the board reports all squares again.
    pub in_doubt: bool,
    /// Whether a second report of all squares has shown the same picture. After
    /// [`Follower::set_confirm`] that happens soon.
    pub confirmed: bool,
    /// Why nothing is heard of the board. `None` if it is heard.
    pub away: Option<Away>,
}

/// Ends a [`Views`], also from another thread.
#[derive(Clone, Debug)]
pub struct Closer(Arc<AtomicBool>);

impl Closer {
    /// Ends the views: a call that waits for one closes the stream, and returns `None`. It does so
    /// within ten milliseconds, or once a read or a write of the stream returns.
    pub fn close(&self) {
        self.0.store(true, Ordering::Release);
    }
}

/// A followed board on a stream, as an iterator of [`BoardView`]s, one for each change. A stream
/// that has gone is reopened. It ends only if a [`Closer`] ends it.
///
/// `open` returns the stream. If no bytes arrive, a read has to return `TimedOut` or `WouldBlock`
/// after a while, so that the next request is on time. `InvalidData` means that bytes were lost or
/// altered. `Ok(0)` and any other error mean that the stream has gone. A port of the crate
/// `serialport` behaves this way on each system that it supports:
///
/// ```ignore
/// let port = || Ok(serialport::new("COM3", 9600).timeout(Duration::from_millis(100)).open()?);
/// for view in dgt::Views::new(port)? {
///     println!("{view:?}");
/// }
/// ```
///
/// This example uses a simulated board:
///
/// ```
/// use dgt::{Board, Polled, Views};
/// use std::io::{self, Read, Write};
///
/// struct Simulated(Board);
///
/// impl Read for Simulated {
///     fn read(&mut self, out: &mut [u8]) -> io::Result<usize> {
///         match self.0.poll(out) {
///             Polled::Wrote(count) => Ok(count),
///             _ => Err(io::ErrorKind::WouldBlock.into()),
///         }
///     }
/// }
///
/// impl Write for Simulated {
///     fn write(&mut self, bytes: &[u8]) -> io::Result<usize> {
///         self.0.take(bytes).map(|taken| taken.used).map_err(io::Error::other)
///     }
///     fn flush(&mut self) -> io::Result<()> {
///         Ok(())
///     }
/// }
///
/// let view = Views::new(|| Ok(Simulated(Board::default())))?.next().unwrap();
/// assert_eq!(view.picture.unwrap().to_string(), "rnbqkbnr/pppppppp/8/8/8/8/PPPPPPPP/RNBQKBNR");
/// # Ok::<(), io::Error>(())
/// ```
#[derive(Debug)]
pub struct Views<Open, Stream> {
    open: Open,
    stream: Option<Stream>,
    looked: u64,
    follower: Follower,
    view: BoardView,
    asked: Option<u64>,
    asked_before: Option<u64>,
    chunk: [u8; 256],
    heard: usize,
    came: usize,
    closed: Arc<AtomicBool>,
}

impl<Open: FnMut() -> io::Result<Stream>, Stream: Read + Write> Views<Open, Stream> {
    /// Follows the board on the stream that `open` returns, and calls it again whenever the stream
    /// has gone. It uses the default follower; change its settings with [`Views::follower`].
    ///
    /// # Errors
    ///
    /// The error of opening the stream for the first time.
    pub fn new(open: Open) -> io::Result<Self> {
        Views::with_follower(open, Follower::default())
    }

    /// The same with this follower, which has another period or patience. It has asked nothing yet.
    ///
    /// # Errors
    ///
    /// As for [`Views::new`].
    pub fn with_follower(mut open: Open, follower: Follower) -> io::Result<Self> {
        let stream = Some(open()?);
        Ok(Views {
            open,
            stream,
            looked: now(),
            follower,
            view: BoardView::default(),
            asked: None,
            asked_before: None,
            chunk: [0; 256],
            heard: 0,
            came: 0,
            closed: Arc::default(),
        })
    }

    /// Waits until something changes, and returns the new view. Returns `None` if nothing has
    /// changed for this time, and once it was closed. It may wait ten milliseconds longer, or as
    /// long as a read or a write of the stream takes.
    pub fn wait(&mut self, timeout: Duration) -> Option<BoardView> {
        let end = Instant::now().checked_add(timeout);
        while !self.closed.load(Ordering::Acquire) {
            if self.turn() {
                return Some(self.view);
            }
            if self.heard == self.came && end.is_some_and(|end| Instant::now() >= end) {
                return None;
            }
        }
        self.stream = None;
        None
    }

    /// What ends it, for another thread. To end it in this one, drop it.
    #[must_use]
    pub fn closer(&self) -> Closer {
        Closer(Arc::clone(&self.closed))
    }

    /// What is known now.
    #[must_use]
    pub fn view(&self) -> BoardView {
        self.view
    }

    /// The follower, for its settings: `views.follower().set_confirm(true)`.
    pub fn follower(&mut self) -> &mut Follower {
        &mut self.follower
    }

    /// Sends another command, as [`Follower::send`] does.
    ///
    /// # Errors
    ///
    /// `NotConnected` while the stream is away, the error of writing, or a
    /// [`SendFault`](crate::SendFault).
    pub fn send(&mut self, command: &Command<'_>) -> io::Result<()> {
        let Some(stream) = &mut self.stream else {
            return Err(ErrorKind::NotConnected.into());
        };
        let mut out = [0; MAX_ASKING];
        let count = self.follower.send(command, &mut out)?;
        stream.write_all(&out[..count])
    }

    /// Takes one step, and returns whether it changed what is known.
    fn turn(&mut self) -> bool {
        if self.heard < self.came {
            self.heard += self.follower.hear(now(), &self.chunk[self.heard..self.came]);
        } else if self.stream.is_none() {
            self.look();
        } else if self.converse().is_err() {
            (self.stream, self.looked) = (None, now());
            (self.asked, self.asked_before) = (None, None);
            self.follower.line_lost();
        }
        self.note()
    }

    /// Sends what is due, and reads what was received.
    fn converse(&mut self) -> io::Result<()> {
        if let Some(stream) = &mut self.stream {
            if ask(&mut self.follower, stream)? > 0 {
                (self.asked_before, self.asked) = (self.asked, Some(now()));
            }
            (self.heard, self.came) = (0, read(&mut self.follower, stream, &mut self.chunk)?);
        }
        Ok(())
    }

    /// Opens the stream again if it is time to look for it, or else waits a little.
    fn look(&mut self) {
        if now() < self.looked + LOOK {
            thread::sleep(Duration::from_millis(NAP));
        } else {
            (self.stream, self.looked) = ((self.open)().ok(), now());
        }
    }

    /// Whether nothing was heard since the first of the last two requests.
    fn is_silent(&self) -> bool {
        self.asked_before
            .is_some_and(|asked| self.follower.last_heard().is_none_or(|it| it < asked))
    }

    /// Updates what is known. The last known state is kept while the stream is away, and until the
    /// board reports it again. Returns whether anything changed.
    fn note(&mut self) -> bool {
        let away = match &self.stream {
            None => Some(Away::Gone),
            Some(_) => self.is_silent().then_some(Away::Silent),
        };
        let picture = self.follower.picture().copied();
        let is_old = picture.is_none() && self.view.picture.is_some();
        let clock = match (self.follower.clock(), self.follower.host().clock()) {
            (None, None) => self.view.clock,
            (clock, _) => clock.copied(), // None while it has no reading
        };
        let view = BoardView {
            picture: picture.or(self.view.picture),
            clock,
            in_doubt: self.follower.in_doubt() || away.is_some() || is_old,
            confirmed: self.follower.confirmed(),
            away,
        };
        let changed = view != self.view;
        self.view = view;
        changed
    }
}

impl<Open: FnMut() -> io::Result<Stream>, Stream: Read + Write> Iterator for Views<Open, Stream> {
    type Item = BoardView;

    /// Waits until something changes, and returns the new view. Returns `None` once it was closed.
    fn next(&mut self) -> Option<BoardView> {
        self.wait(Duration::MAX)
    }
}

/// Sends what is due, and returns how many bytes. If the stream doesn't take them in time, they are
/// lost, and the follower asks again.
fn ask(follower: &mut Follower, stream: &mut impl Write) -> io::Result<usize> {
    let mut out = [0; MAX_ASKING];
    let count = follower.ask(now(), &mut out)?;
    match stream.write_all(&out[..count]).and_then(|()| stream.flush()) {
        Err(fault) if fault.kind() != ErrorKind::TimedOut => Err(fault),
        _ => Ok(count),
    }
}

/// Reads what was received, and returns how many bytes: 0 if none arrived in time.
fn read(follower: &mut Follower, stream: &mut impl Read, chunk: &mut [u8]) -> io::Result<usize> {
    match stream.read(chunk) {
        Ok(0) => Err(ErrorKind::UnexpectedEof.into()),
        Ok(count) => Ok(count),
        Err(fault) => match fault.kind() {
            ErrorKind::WouldBlock => {
                thread::sleep(Duration::from_millis(NAP));
                Ok(0)
            }
            ErrorKind::TimedOut | ErrorKind::Interrupted => Ok(0),
            ErrorKind::InvalidData => {
                follower.line_disturbed();
                Ok(0)
            }
            _ => Err(fault),
        },
    }
}
