//! Times the proved library, and the plain Rust that is generated from the proved sources
//! (`generated`).
use std::cell::RefCell;
use std::hint::black_box;
use std::time::{Duration, Instant};

mod generated {
    include!(env!("DGT_GENERATED"));
}

// A slice is passed as a pointer and a length.
unsafe extern "C" {
    fn dgt_bench_decode(bytes: *const u8, len: usize, most: usize) -> u64;
    fn dgt_bench_feed_all(bytes: *const u8, len: usize, most: usize) -> u64;
    fn dgt_bench_hear(bytes: *const u8, len: usize) -> u64;
    fn dgt_bench_take(bytes: *const u8, len: usize, poll: bool) -> u64;
    fn dgt_bench_poll(squares: *const u8, len: usize) -> u64;
    fn dgt_bench_lines(fen: *const u8, len: usize, length: u8) -> u64;
}

const HALF_A_SECOND: Duration = Duration::from_millis(500);
const LINES: u64 = 20_000;
const DUMPS: usize = 1_000;
const LONGEST: usize = 16383;
/// Work of this many parts is done once.
const LONG: usize = 100_000;
/// Positions, and how many lines of five legal moves begin there (chessprogramming.org, "Perft
/// Results").
const POSITIONS: [(&str, u64); 5] = [
    ("rnbqkbnr/pppppppp/8/8/8/8/PPPPPPPP/RNBQKBNR w KQkq - 0 1", 4_865_609),
    ("r3k2r/p1ppqpb1/bn2pnp1/3PN3/1p2P3/2N2Q1p/PPPBBPPP/R3K2R w KQkq - 0 1", 193_690_690),
    ("8/2p5/3p4/KP5r/1R3p1k/8/4P1P1/8 w - - 0 1", 674_624),
    ("r3k2r/Pppp1ppp/1b3nbN/nP6/BBP1P3/q4N2/Pp1P2PP/R2Q1RK1 w kq - 0 1", 15_833_292),
    ("rnbq1k1r/pp1Pbppp/2p5/8/2B5/8/PPP1NnPP/RNBQK2R w KQ - 1 8", 89_941_194),
];
const GENERATED: &str = "generated";
const BACK: [u8; 8] = [8, 9, 10, 12, 11, 10, 9, 8];

fn message(code: u8, body: &[u8]) -> Vec<u8> {
    let total = body.len() + 3;
    let mut bytes = vec![0x80 | code, (total >> 7) as u8, (total & 0x7f) as u8];
    bytes.extend_from_slice(body);
    bytes
}

/// The microseconds that some work takes, the least of these runs or of half a second, and its
/// result. Unless there is only one run, it is so short that at least one isn't interrupted.
fn least(runs: u32, work: impl Fn() -> u64) -> (f64, u64) {
    let (begun, mut best) = (Instant::now(), (f64::MAX, 0));
    for run in 0.. {
        if run >= runs && begun.elapsed() >= HALF_A_SECOND {
            break;
        }
        let start = Instant::now();
        let answer = work();
        let took = start.elapsed().as_secs_f64() * 1e6;
        if took < best.0 {
            best = (took, answer);
        }
    }
    best
}

/// Prints a row: the proved work, and the same work done otherwise.
fn compare(
    name: &str,
    parts: usize,
    proved: impl Fn() -> u64,
    other_name: &str,
    other: impl Fn() -> u64,
) {
    let runs = if parts < LONG { 100 } else { 1 };
    let ((proved, answer), (other, same)) = (least(runs, proved), least(runs, other));
    assert_eq!(answer, same, "{name}: the answers differ");
    let each = |time: f64| time * 1e3 / parts as f64;
    print!("{name}: {:.1} ns each, {other_name} {:.1} ns, ", each(proved), each(other));
    println!("{:.2} times", proved / other);
}

fn compare_decode(name: &str, parts: usize, bytes: &[u8], most: usize) {
    compare(
        name,
        parts,
        || unsafe { dgt_bench_decode(black_box(bytes.as_ptr()), bytes.len(), most) },
        GENERATED,
        || generated::decode(black_box(bytes), most),
    );
}

fn compare_feed_all(name: &str, parts: usize, bytes: &[u8]) {
    compare(
        name,
        parts,
        || unsafe { dgt_bench_feed_all(black_box(bytes.as_ptr()), bytes.len(), 64) },
        GENERATED,
        || generated::feed_all(black_box(bytes), 64),
    );
}

fn compare_hear(name: &str, parts: usize, bytes: &[u8]) {
    compare(
        name,
        parts,
        || unsafe { dgt_bench_hear(black_box(bytes.as_ptr()), bytes.len()) },
        GENERATED,
        || generated::hear(black_box(bytes)),
    );
}

fn compare_take(name: &str, parts: usize, bytes: &[u8], poll: bool) {
    compare(
        name,
        parts,
        || unsafe { dgt_bench_take(black_box(bytes.as_ptr()), bytes.len(), poll) },
        GENERATED,
        || generated::take(black_box(bytes), poll),
    );
}

/// Bytes that look random, the same in each run. None is zero, so no short message is complete.
fn garbage(len: usize) -> Vec<u8> {
    let mut state = 1u64;
    let step = |_| {
        state = state.wrapping_mul(6364136223846793005).wrapping_add(1442695040888963407);
        ((state >> 56) as u8).max(1)
    };
    (0..len).map(step).collect()
}

/// Decoders and hosts.
fn compare_messages() {
    let fields: Vec<u8> =
        (0..LINES).flat_map(|n| message(0x0e, &[(n % 64) as u8, (n % 16) as u8])).collect();
    let squares =
        [BACK, [7; 8], [0; 8], [0; 8], [0; 8], [0; 8], [1; 8], BACK.map(|piece| piece - 6)]
            .concat();
    let dumps = message(0x06, &squares).repeat(DUMPS);
    let longest = message(0x30, &[1; LONGEST - 3]).repeat(20);
    let noise = garbage(20_000);

    compare_decode("Decoder::feed, fields", LINES as usize, &fields, 64);
    compare_decode("Decoder::feed, dumps", DUMPS, &dumps, 64);
    compare_decode("Decoder::feed, longest messages", 20, &longest, 4096);
    compare_decode("Decoder::feed, random bytes", noise.len(), &noise, 64);
    compare_feed_all("Decoder::feed_all, fields", LINES as usize, &fields);
    compare_feed_all("Decoder::feed_all, dumps", DUMPS, &dumps);
    let game = [&dumps[..67], &fields].concat();
    compare_hear("Host::hear, fields after a dump", LINES as usize, &game);
    compare_hear("Host::hear, dumps", DUMPS, &dumps);
    compare_copies(&longest);
}

/// Copies all bytes at once, and reads the last byte of each part.
fn copy_all(bytes: &[u8], part: usize, copy: &mut [u8]) -> u64 {
    copy.copy_from_slice(bytes);
    black_box(&*copy).chunks(part).map(|part| u64::from(part[part.len() - 1])).sum()
}

/// Copies each part of the bytes into one buffer, and reads its last byte.
fn copies(bytes: &[u8], part: usize) -> u64 {
    let (mut held, mut sum) = ([0; LONGEST], 0);
    for piece in bytes.chunks(part) {
        held[..piece.len()].copy_from_slice(piece);
        sum += u64::from(black_box(&held)[piece.len() - 1]);
    }
    sum
}

/// Longest messages in whole chunks, compared with a copy of as many bytes.
fn compare_copies(longest: &[u8]) {
    let many = longest.repeat(50);
    let copy = RefCell::new(vec![1; many.len()]);
    compare(
        "Decoder::feed, longest messages in whole chunks",
        1000,
        || unsafe { dgt_bench_decode(black_box(many.as_ptr()), many.len(), LONGEST) },
        "one memcpy of them all",
        || copy_all(black_box(&many), LONGEST, &mut copy.borrow_mut()),
    );
    compare(
        "Decoder::feed, longest messages in whole chunks",
        20,
        || unsafe { dgt_bench_decode(black_box(longest.as_ptr()), longest.len(), LONGEST) },
        "memcpy of each to one place",
        || copies(black_box(longest), LONGEST),
    );
}

/// Boards.
fn compare_boards() {
    let leds: Vec<u8> = (0..5_000).flat_map(|n| [0x60, 4, 1, 2, 3, (n % 251) as u8]).collect();
    compare_take("Board::take, LED frames", 5_000, &leds, false);
    compare_take("Board::take, commands for a mode", 5_000, &[0x44; 5_000], false);
    compare_take("Board::take and poll, a version", 5_000, &[0x4d; 5_000], true);
    compare_take("Board::take and poll, a dump", 1_000, &[0x42; 1_000], true);
    let squares: Vec<u8> = garbage(5_000).iter().map(|byte| byte % 64).collect();
    compare(
        "Board::change and poll, a field",
        2 * squares.len(),
        || unsafe { dgt_bench_poll(black_box(squares.as_ptr()), squares.len()) },
        GENERATED,
        || generated::poll(black_box(&squares)),
    );
}

/// Lines of chess moves.
fn compare_lines() {
    for (fen, count) in POSITIONS {
        let proved = || {
            let found = unsafe { dgt_bench_lines(fen.as_ptr(), fen.len(), 5) };
            assert_eq!(found, count, "{fen}");
            found
        };
        compare(
            &format!("State::goals and play, {count} lines of five moves from {fen}"),
            count as usize,
            proved,
            GENERATED,
            || generated::lines(black_box(fen.as_bytes()), 5),
        );
    }
}

fn main() {
    compare_messages();
    compare_boards();
    compare_lines();
}
