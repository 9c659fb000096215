//! A soak (bench/soak): bids without end, noise of every kind, in pieces of random lengths into one board that runs all the time.
//!
//!   second noise soak MINUTES SEED COMMAND..
//!                              the command is the board, with blocks told; a status other than 0 where a line differs from the second
//!                              program's, or the board's memory grows
//!
//! Each piece is a packet of the pipe, so that the board reads it by itself and not with the next.

use crate::bids;
use crate::board::Board;
use crate::cases::Random;
use crate::noise::{self, Day};
use std::fs::File;
use std::io::{Read, Write};
use std::os::fd::{FromRawFd, OwnedFd};
use std::process::{Command, Stdio};
use std::sync::mpsc::{channel, Receiver, RecvTimeoutError};
use std::time::{Duration, Instant};

extern "C" {
    fn pipe2(ends: *mut [i32; 2], flags: i32) -> i32;
}
const CLOSED_ON_EXEC: i32 = 0o2_000_000;
/// What is written at once is read by itself.
const PACKETS: i32 = if cfg!(target_arch = "aarch64") { 0o200_000 } else { 0o40_000 };

/// How long a line may take.
const PATIENCE: Duration = Duration::from_secs(60);

fn packet_pipe() -> (OwnedFd, File) {
    let mut ends = [0; 2];
    assert_eq!(unsafe { pipe2(&mut ends, CLOSED_ON_EXEC | PACKETS) }, 0, "a pipe");
    unsafe { (OwnedFd::from_raw_fd(ends[0]), File::from_raw_fd(ends[1])) }
}

/// What a process holds of the memory now, in KiB.
fn resident(process: u32) -> u64 {
    let file = format!("/proc/{process}/smaps_rollup");
    let told = std::fs::read_to_string(&file).expect(&file);
    let line = told.lines().find_map(|line| line.strip_prefix("Rss:")).expect("Rss");
    line.trim().trim_end_matches(" kB").parse().expect("a number")
}

/// Bytes as they come out of a pipe.
fn read_all(mut from: impl Read + Send + 'static) -> Receiver<Vec<u8>> {
    let (to, read) = channel();
    std::thread::spawn(move || loop {
        let mut bytes = vec![0; 1 << 16];
        let n = from.read(&mut bytes).expect("the board's lines");
        bytes.truncate(n);
        if n == 0 || to.send(bytes).is_err() {
            return;
        }
    });
    read
}

/// So much of the board's text, or what there was of it in time.
fn text_of(read: &Receiver<Vec<u8>>, length: usize) -> Vec<u8> {
    let mut text = Vec::new();
    while text.len() < length {
        match read.recv_timeout(PATIENCE) {
            Ok(bytes) => text.extend(bytes),
            Err(RecvTimeoutError::Timeout | RecvTimeoutError::Disconnected) => break,
        }
    }
    text
}

/// A byte or few, some hundred, or more than a block has.
fn piece_length(random: &mut Random) -> usize {
    let most = [3, 300, 300, 1500][random.below(4)];
    1 + random.below(most)
}

#[derive(Default)]
struct Totals {
    bids: usize,
    bytes: usize,
    pieces: usize,
    lines: usize,
    shown: usize,
    /// The most of the memory that the board held: at first, in the first tenth of the time, and behind it.
    memory: [u64; 3],
}

impl Totals {
    fn told(&self, began: Instant) -> String {
        let [first, early, later] = self.memory;
        format!(
            "{:.1} min: {} bids sent, {} bytes in {} pieces, {} lines compared, {} bids shown; memory {first} KiB at first, {early} in the first tenth, {later} behind it",
            began.elapsed().as_secs_f64() / 60.0,
            self.bids,
            self.bytes,
            self.pieces,
            self.lines,
            self.shown
        )
    }

    fn note_memory(&mut self, early: bool, now: u64) {
        let most = &mut self.memory[if early { 1 } else { 2 }];
        *most = now.max(*most);
        if self.memory[0] == 0 {
            self.memory[0] = now;
        }
    }
}

pub fn run(minutes: u64, seed: u64, command: &[&str]) -> i32 {
    let [program, words @ ..] = command else { return 2 };
    let (input, mut air) = packet_pipe();
    let mut process = Command::new(program).args(words).stdin(Stdio::from(input)).stdout(Stdio::piped()).spawn().expect(program);
    let read = read_all(process.stdout.take().expect("a pipe"));
    let (mut day, mut random, mut board) = (Day::new(seed), noise::drawn(!seed), Board::new(true, true));
    let (began, mut spoke, mut totals) = (Instant::now(), Instant::now(), Totals::default());
    let time = Duration::from_secs(60 * minutes);
    while began.elapsed() < time {
        let count = 20 + random.below(400);
        let came = noise::any(&mut random, &bids::sent(&day.lines(count)).0);
        board.hear(&came);
        let right = std::mem::take(&mut board.text).into_bytes();
        let mut rest = &came[..];
        while !rest.is_empty() {
            let (piece, behind) = rest.split_at(piece_length(&mut random).min(rest.len()));
            air.write_all(piece).expect("the board reads");
            totals.pieces += 1;
            rest = behind;
        }
        let text = text_of(&read, right.len());
        if text != right {
            let at = text.iter().zip(&right).take_while(|(a, b)| a == b).count();
            println!("behind byte {} the board's text differs: {}", totals.bytes + came.len(), String::from_utf8_lossy(&text[at..text.len().min(at + 200)]));
            return 1;
        }
        totals.bids += count;
        totals.bytes += came.len();
        totals.lines += right.split(|b| *b == b'\n').count() - 1;
        totals.shown += bids::bid_lines(&right).len();
        totals.note_memory(began.elapsed() < time / 10, resident(process.id()));
        if spoke.elapsed() >= Duration::from_secs(10) {
            spoke = Instant::now();
            eprintln!("{}", totals.told(began));
        }
    }
    drop(air);
    let ended = process.wait().expect("the board").success() && text_of(&read, 1).is_empty();
    println!("{}; 0 differences from the second program", totals.told(began));
    let grows = totals.memory[2] > totals.memory[1];
    if grows {
        println!("the board's memory grew");
    }
    if !ended {
        println!("the board did not end as it should");
    }
    (grows || !ended) as i32
}
