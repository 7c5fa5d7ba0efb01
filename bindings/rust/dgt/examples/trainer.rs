//! Follows a board on a serial port: prints the position after each change, and each time of its
//! clock, which shows the number of changes. It reopens a port that was unplugged.

use dgt::{Clock, ClockCommand, Command, UpdateMode};
use std::{env, error::Error, thread, time::Duration};

fn follow(path: &str) -> Result<(), Box<dyn Error>> {
    let mut board = dgt::follow(path)?;
    board.follower().set_mode(UpdateMode::UpdateNice);
    let (mut picture, mut clock, mut changes) = (None, None, 0);
    while let Some(view) = board.next() {
        if let Some(away) = view.away {
            eprintln!("{path}: {away}");
        }
        if let Some(new) = view.picture.filter(|it| !view.in_doubt && picture != Some(*it)) {
            (picture, changes) = (Some(new), changes + 1);
            println!("{new}");
            let letters = format!("{changes:<8}").as_bytes().try_into()?;
            let text = Command::ClockMessage(ClockCommand::Text { letters, beep: 0 });
            board.send(&text).ok(); // `next` will find a lost port
        }
        if let Some(new) = view.clock.filter(|it| clock != Some(*it)) {
            clock = Some(new);
            if let Clock::Times(times) = new {
                println!("clock {} {}", times.first(), times.second());
            }
        }
    }
    Ok(())
}

fn main() {
    let path = env::args().nth(1).expect("usage: trainer PORT");
    while let Err(fault) = follow(&path) {
        eprintln!("{fault}");
        thread::sleep(Duration::from_secs(2));
    }
}
