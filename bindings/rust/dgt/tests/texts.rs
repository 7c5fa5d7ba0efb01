//! The texts of messages, events and commands are the lines of tests/testing/rows.txt, and errors
//! say what is wrong.

use dgt::*;

const LINES: &str = include_str!("../../../../tests/testing/rows.txt");

/// The rows of the table after a heading: the contents of the backticks in the first two cells.
fn rows_after(heading: &str) -> Vec<[Vec<&'static str>; 2]> {
    let (_, rest) = LINES.split_once(heading).unwrap();
    let table = rest.lines().skip(1).take_while(|line| !line.starts_with('#'));
    let rows: Vec<_> = table.filter(|line| line.starts_with("| `")).map(cells).collect();
    assert!(rows.len() > 12, "{heading}: {} rows", rows.len());
    rows
}

fn cells(row: &'static str) -> [Vec<&'static str>; 2] {
    let mut cells = row.split('|').skip(1);
    [(); 2].map(|()| cells.next().unwrap().split('`').skip(1).step_by(2).collect())
}

/// The bytes of hexadecimal digits, with spaces between them.
fn bytes(digits: &str) -> Vec<u8> {
    digits.split(' ').map(|digits| u8::from_str_radix(digits, 16).unwrap()).collect()
}

#[test]
fn events_are_the_lines_of_monitor() {
    for [digits, right] in rows_after("## Lines of show and monitor") {
        let (mut decoder, mut lines, bytes) = (Decoder::new(), Vec::new(), bytes(digits[0]));
        let mut note = |place, event: &Event<'_>| lines.push(format!("{place:08} {event}"));
        decoder.feed_all(&bytes, &mut note);
        if let Some(Unfinished { have }) = decoder.finish() {
            lines.push(format!("{:08} unfinished {have}", bytes.len()));
        }
        assert_eq!(lines, right);
    }
}

#[test]
fn events_are_the_lines_of_commands() {
    for [digits, right] in rows_after("## Lines of commands") {
        let (mut reader, mut lines, bytes) = (CommandDecoder::new(), Vec::new(), bytes(digits[0]));
        let mut at = 0;
        while at < bytes.len() {
            let CommandFed { used, event } = reader.feed(&bytes[at..]);
            at += used;
            lines.extend(event.map(|event| format!("{at:08} {event}")));
        }
        if reader.partial() > 0 {
            lines.push(format!("{at:08} unfinished {}", reader.partial()));
        }
        assert_eq!(lines, right);
    }
}

#[test]
fn commands_are_the_words_of_ask() {
    let of_ask =
        rows_after("## Words of ask").into_iter().map(|[word, digits]| (digits[0], word[0]));
    let carrying = [
        ("2b 0a 03 0a 01 02 03 04 05 06 0a 00", "setandrun 0102030405060a"),
        ("2b 05 03 02 00 ff 00", "icons 00ff"),
        ("2b 03 03 02 00", "icons -"),
        ("2b 0c 03 0c 41 42 43 44 45 46 47 48 01 00", "text 414243444546474801"),
        ("2b 0c 03 0c 41 42 43 44 45 46 47 19 00 00", "text 414243444546471900"),
    ];
    for (digits, word) in of_ask.filter(|(_, word)| *word != "follow").chain(carrying) {
        let bytes = bytes(digits);
        assert_eq!(Command::view(&bytes).unwrap().to_string(), word);
    }
}

#[test]
fn refusals_say_what_is_wrong() {
    let said: [(Box<dyn std::error::Error>, &str); 18] = [
        (Box::new(NotSevenBit), "the byte's top bit is set"),
        (Box::new(TooMuch), "too many bytes"),
        (Box::new(BodyError::Length(TooMuch)), "the body is longer than 16380 bytes"),
        (Box::new(BodyError::Byte(NotSevenBit)), "a byte of the body has its top bit set"),
        (Box::new(NoRoom { need: 2 }), "the buffer needs 2 bytes"),
        (Box::new(SendFault::NoRoom { need: 3 }), "the buffer needs 3 bytes"),
        (Box::new(SendFault::TooMany), "16 replies are awaited already"),
        (Box::new(NoSquare), "not a square"),
        (Box::new(NoPiece), "not a piece"),
        (Box::new(NoSegment), "not a digit, a space or a hyphen"),
        (Box::new(BadPlacement { at: 7 }), "not a placement: wrong at offset 7"),
        (Box::new(Known), "this has a variant of its own"),
        (Box::new(BadDigits), "not a time from 0:00:00 to 9:59:59 with flags from 0 to 7"),
        (Box::new(NotThisKind), "these bytes are another kind of clock message"),
        (Box::new(TooLong), "a body is longer than 64 bytes"),
        (Box::new(Busy), "the board owes 8 replies: poll it first"),
        (Box::new(BodyFault::WrongSize), "the body has the wrong size for its code"),
        (Box::new(BodyFault::BadReading { at: 1 }), "byte 1 is not valid in a clock time"),
    ];
    for (error, text) in said {
        assert_eq!(error.to_string(), text);
    }
}

#[cfg(feature = "std")]
#[test]
fn refusals_are_errors_of_std_io() {
    let fault: std::io::Error = SendFault::TooMany.into();
    assert_eq!(fault.to_string(), "16 replies are awaited already");
    let fault: std::io::Error = NoRoom { need: 9 }.into();
    assert_eq!(fault.to_string(), "the buffer needs 9 bytes");
}
