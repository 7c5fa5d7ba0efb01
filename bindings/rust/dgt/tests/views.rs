//! A followed board on a stream that disappears and comes back.
#![cfg(feature = "std")]

use dgt::*;
use std::cell::RefCell;
use std::collections::VecDeque;
use std::io::{self, Read, Write};
use std::rc::Rc;
use std::thread;
use std::time::{Duration, Instant};

/// A board, the bytes that wait for the host, and whether its port is there.
struct Plugged {
    board: Board,
    waiting: VecDeque<u8>,
    is_there: bool,
    is_deaf: bool,
}

impl Plugged {
    fn answer(&mut self, asked: &[u8]) {
        for message in self.board.answers(asked) {
            self.waiting.extend(&*message);
        }
    }
}

#[derive(Clone)]
struct Line(Rc<RefCell<Plugged>>);

/// A clock with five minutes for each player.
fn clock() -> Clock {
    let five = Reading::new(0, 5, 0, 0).unwrap();
    Clock::Times(Times::new(five, five, Status::new(SevenBit::try_from(0).unwrap())).unwrap())
}

impl Line {
    fn new() -> Self {
        let board = Board::new(Position::start(), clock(), Identity::simulated());
        let waiting = VecDeque::new();
        Line(Rc::new(RefCell::new(Plugged { board, waiting, is_there: true, is_deaf: false })))
    }

    fn open(&self) -> io::Result<Line> {
        let is_there = self.0.borrow().is_there;
        if is_there { Ok(self.clone()) } else { Err(io::ErrorKind::NotFound.into()) }
    }

    fn change(&self, square: &str, piece: Piece) {
        let mut it = self.0.borrow_mut();
        it.board.change(square.parse().unwrap(), piece);
        it.answer(&[]);
    }

    fn unplug(&self) {
        let mut it = self.0.borrow_mut();
        it.is_there = false;
        it.waiting.clear();
        it.board.line_lost();
    }
}

impl Read for Line {
    fn read(&mut self, chunk: &mut [u8]) -> io::Result<usize> {
        let mut it = self.0.borrow_mut();
        match it.waiting.read(chunk)? {
            _ if !it.is_there => Ok(0),
            0 => Err(io::ErrorKind::WouldBlock.into()),
            count => Ok(count),
        }
    }
}

impl Write for Line {
    fn write(&mut self, bytes: &[u8]) -> io::Result<usize> {
        let mut it = self.0.borrow_mut();
        if !it.is_deaf {
            it.answer(bytes);
        }
        Ok(bytes.len())
    }

    fn flush(&mut self) -> io::Result<()> {
        Ok(())
    }
}

fn start_without(square: &str) -> Position {
    let mut position = Position::start();
    position.set(square.parse().unwrap(), Piece::Empty);
    position
}

#[test]
fn each_change_is_a_view() {
    let line = Line::new();
    let mut views = Views::new(|| line.open()).unwrap();
    views.follower().set_mode(UpdateMode::UpdateNice);
    let first = views.next().unwrap();
    assert_eq!((first.picture, first.in_doubt), (Some(Position::start()), false));
    assert_eq!((first.confirmed, first.away, first.clock), (false, None, None));
    assert_eq!(views.next().unwrap().clock, Some(clock()));
    line.change("e2", Piece::Empty);
    let lifted = views.next().unwrap();
    assert_eq!(lifted.picture, Some(start_without("e2")));
    assert_eq!((lifted.clock, views.view()), (Some(clock()), lifted));
    line.0.borrow_mut().waiting.push_back(7);
    assert!(views.next().unwrap().in_doubt);
}

#[test]
fn commands_are_sent() {
    let line = Line::new();
    let mut views = Views::new(|| line.open()).unwrap();
    views.send(&Command::Dump).unwrap();
    assert_eq!(views.next().unwrap().picture, Some(Position::start()));
    line.0.borrow_mut().is_deaf = true;
    for _ in 0..MAX_AWAITED {
        views.send(&Command::Dump).unwrap();
    }
    let fault = views.send(&Command::Version).unwrap_err();
    assert_eq!(fault.to_string(), "16 replies are awaited already");
}

#[test]
fn a_port_that_goes_is_found_again() {
    let line = Line::new();
    let mut views = Views::new(|| line.open()).unwrap();
    views.follower().set_mode(UpdateMode::Update);
    assert_eq!(views.next().unwrap().picture, Some(Position::start()));
    assert_eq!(views.next().unwrap().clock, Some(clock()));
    line.unplug();
    let begun = Instant::now();
    let gone = views.next().unwrap();
    assert_eq!((gone.picture, gone.in_doubt), (Some(Position::start()), true));
    assert_eq!((gone.away, gone.confirmed), (Some(Away::Gone), false));
    let fault = views.send(&Command::Dump).unwrap_err();
    assert_eq!(fault.kind(), io::ErrorKind::NotConnected);
    line.0.borrow_mut().is_there = true;
    line.change("e2", Piece::Empty); // nobody hears it
    let back = views.next().unwrap();
    assert!(begun.elapsed() > Duration::from_millis(1900)); // it is looked for every two seconds
    assert_eq!((back.picture, back.in_doubt), (Some(Position::start()), true));
    assert_eq!(back.away, None);
    let right = views.next().unwrap();
    assert_eq!(right.picture, Some(start_without("e2")));
    assert!(!right.in_doubt);
    assert_eq!([gone.clock, back.clock, right.clock], [Some(clock()); 3]);
    let unreadable = [0x8d, 0, 0x0a, 0x0f, 0x0f, 0x0f, 0x0f, 0x0f, 0x0f, 9];
    line.0.borrow_mut().waiting.extend(unreadable);
    assert_eq!(views.next().unwrap().clock, None);
}

#[test]
fn a_port_that_is_not_there_is_a_fault_at_first() {
    let line = Line::new();
    line.unplug();
    let fault = Views::new(|| line.open()).err().unwrap();
    assert_eq!(fault.kind(), io::ErrorKind::NotFound);
}

#[test]
fn a_board_that_does_not_answer_is_silent() {
    let line = Line::new();
    let mut views = Views::with_follower(|| line.open(), Follower::new(LEAST_PERIOD, 6)).unwrap();
    assert_eq!(views.next().unwrap().away, None);
    line.0.borrow_mut().is_deaf = true;
    let silent = views.by_ref().find(|view| view.away.is_some()).unwrap();
    assert_eq!((silent.away, silent.in_doubt), (Some(Away::Silent), true));
    assert_eq!(silent.picture, Some(Position::start()));
    assert_eq!(Away::Silent.to_string(), "the board doesn't answer");
}

#[test]
fn a_wait_ends_in_time() {
    let line = Line::new();
    let mut views = Views::new(|| line.open()).unwrap();
    let (none, some) = (Duration::ZERO, Duration::from_millis(50));
    assert_eq!(views.wait(some).unwrap().picture, Some(Position::start()));
    let begun = Instant::now();
    assert_eq!((views.wait(none), views.wait(some)), (None, None));
    assert!(begun.elapsed() >= some && begun.elapsed() < Duration::from_secs(5));
    line.change("e2", Piece::Empty);
    line.change("e4", Piece::WhitePawn);
    let (lifted, put) = (views.wait(none).unwrap(), views.wait(none).unwrap());
    assert_eq!((lifted.picture, put.picture), (Some(start_without("e2")), views.view().picture));
    assert!(put != lifted && views.wait(none).is_none());
    line.unplug();
    assert_eq!(views.wait(none).unwrap().away, Some(Away::Gone));
    assert_eq!(views.wait(none), None);
}

#[test]
fn another_thread_closes_it() {
    let line = Line::new();
    let mut views = Views::new(|| line.open()).unwrap();
    let closer = views.closer();
    let other = thread::spawn(move || {
        thread::sleep(Duration::from_millis(50));
        closer.close();
    });
    assert_eq!(views.by_ref().count(), 1); // until it ends
    other.join().unwrap();
    assert_eq!((views.next(), views.wait(Duration::MAX)), (None, None));
    let fault = views.send(&Command::Dump).unwrap_err();
    assert_eq!(fault.kind(), io::ErrorKind::NotConnected);
}

/// A board answers more requests than it can owe, and first what was pending.
#[test]
fn answers_are_in_order() {
    let mut board = Board::default();
    assert_eq!(board.answers(&[0x44]).count(), 0);
    board.change("e2".parse().unwrap(), Piece::Empty);
    let kinds: Vec<_> = board.answers(b"MMMMMMMMMM\x42\x2b\x04").map(|it| it[0]).collect();
    assert_eq!(kinds, [&[0x8e][..], &[0x93; 10], &[0x86]].concat());
    assert_eq!((board.partial(), board.answers(&[]).next()), (2, None));
}
