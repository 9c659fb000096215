//! The second program: the paper's sender and receiver once more, in Rust, written from the paper and not from the proved
//! code, so that the two can be held against each other.
//!
//!   second bids ARGUMENTS..  the office's sender, and a day of it (bids.rs)
//!   second board [--recording|--stream] [--blocks] [--ports=A-B]
//!                            what the manager reads of standard input: of a bare opportunistic stream, or of a recording (board.rs)
//!   second boards DIR [SEED] streams and recordings for the board, into a folder (board_cases.rs)
//!   second feed FIFO TEXT STREAM
//!                            a stream into a board, byte by byte; fails where a line is not there with its byte (board.rs)
//!   second capture           the delivered packets of the recording on standard input as a capture (capture.rs)
//!   second replay            the packets of the capture on standard input as a recording
//!   second captures DIR [SEED]
//!                            captures to be replayed, good and damaged, into a folder (capture_cases.rs)
//!   second viewed            what the viewer should show of the capture on standard input, a line for each record
//!   second fcs HEX           the check of bytes
//!   second parity R HEX      the parity of a message
//!   second word R HEX        clean or damaged
//!   second repair R HEX      what repair finds, and the word that it leaves
//!   second test [SEED]       holds the second program itself to the paper (selftest.rs)
//!   second fixed send|list R DEPTH
//!                            standard input sent on a fixed sub-channel, or what one makes of it, as a listing (fixed.rs)
//!   second fixed steady R DEPTH PAYLOAD MIB
//!                            received bytes of a sub-channel, clean, to be timed, to standard output
//!   second fixed streams DIR [SEED]
//!                            streams for fixed sub-channels, plain, sent and damaged, into a folder (fixed_cases.rs)
//!   second interleave push|pull DEPTH
//!                            standard input through the interleaver, with the closing push, or back
//!   second list              the listing of the recording on standard input
//!   second missed [--ports A-B]
//!                            which bids were missed in the recording on standard input, of every port or of A to B (ports.rs)
//!   second noise ARGUMENTS.. a day of bids, altered on its way, and what boards show of it; a soak (noise.rs, soak.rs)
//!   second numbered FILE [SEED]
//!                            a recording with distances of every kind between sequence numbers
//!   second sheet [--ports A-B] FILE..
//!                            the monthly reception sheet of recordings, of every port or of A to B (sheet.rs)
//!   second months DIR [SEED] groups of recordings to be counted, into a folder
//!   second tallies CASES ANSWERS [SEED]
//!                            recordings counted from rows of any numbers, and what becomes of them, into two files
//!   second ports CASES ANSWERS [SEED]
//!                            calls on tables of ports, and what they answer, into two files
//!   second rack CASES ANSWERS [SEED]
//!                            calls of the rack's functions, and what they answer and leave, into two files (rack.rs)
//!   second kinds FILE..      how often each kind of line occurs in the listings of recordings; fails where one never does
//!   second recordings DIR [SEED]
//!                            recordings to be listed, into a folder
//!   second steady plain|marked MIB
//!                            a clean recording to be timed, to standard output
//!   second samples DIR       the recordings of samples/ with their listings
//!   second unit ARGUMENTS..  Layer 2 units, written and read (units.rs)
//!   second cases calls|interleaver|stream|channel|listing|board|four|unit|capture [SEED]
//!                            cases for the proved code, to standard output: single calls, the interleaver, streams and channels in pieces,
//!                            recordings, boards with any room for their text, fixed sub-channels, Layer 2 units, or captures
//!   second words R PLACES N  N cases for repair: words altered in so many places
//!   second time N M          times of N words made and checked, and of M words of each kind repaired (time.rs)
//!   second time-rack MIB     times of the rack's three jobs, so many MiB each: words made, words checked, plain streams read (time.rs, readers.rs)
//!   second compare CASES ANSWERS ..
//!                            holds its own answers to those of the proved code, of one file or more

mod bids;
mod board;
mod board_cases;
mod capture;
mod capture_calls;
mod capture_cases;
mod cases;
mod channel;
mod channel_cases;
mod fcs;
mod fixed;
mod fixed_cases;
mod interleaver;
mod key_cases;
mod kinds;
mod listing;
mod listing_cases;
mod noise;
mod packet;
mod parity;
mod ports;
mod rack;
mod readers;
mod repair;
mod samples;
mod selftest;
mod sheet;
mod soak;
mod stream;
mod time;
mod unit_cases;
mod units;
mod words;

use interleaver::{Receiver, Sender};
use std::io::{Read, Write};

fn main() {
    std::panic::set_hook(Box::new(|failed| {
        let said = failed.payload();
        let text = said.downcast_ref::<String>().cloned().or(said.downcast_ref::<&str>().map(|text| text.to_string())).unwrap_or_default();
        say_failed(&text, failed.location().map(|place| format!("{}:{}", place.file(), place.line())).unwrap_or_default());
        std::process::exit(1);
    }));
    let args: Vec<String> = std::env::args().skip(1).collect();
    let words: Vec<&str> = args.iter().map(String::as_str).collect();
    let done = match words[..] {
        ["fcs", bytes] => unhex(bytes).map(|b| println!("{:04x}", fcs::check(&b))),
        ["parity", r, bytes] => both(r, bytes).map(|(r, b)| show(parity::make(r, &b, 64))),
        ["word", r, bytes] => both(r, bytes).map(|(r, b)| show_word(r, &b)),
        ["repair", r, bytes] => both(r, bytes).map(|(r, b)| show_repair(r, b)),
        ["test"] => Some(selftest::run(1)),
        ["test", seed] => number(seed).map(selftest::run),
        ["interleave", side @ ("push" | "pull"), depth] => number(depth).filter(|d| *d <= 64).map(|d| interleave(side == "push", d)),
        ["fixed", "send", r, depth] => sub_channel(r, depth).map(|(r, depth)| fixed::send_input(r, depth)),
        ["fixed", "steady", r, depth, payload, mib] => {
            sub_channel(r, depth).zip(number(payload).zip(number(mib))).map(|(sub, (payload, mib))| write_sub_channel(sub, payload, mib))
        }
        ["fixed", "streams", dir] => Some(fixed_cases::write_streams(dir, 1)),
        ["fixed", "streams", dir, seed] => number(seed).map(|seed| fixed_cases::write_streams(dir, seed)),
        ["fixed", "list", r, depth] => sub_channel(r, depth).map(|(r, depth)| fixed::list_input(r, depth)),
        ["bids", ref rest @ ..] => ended(bids::run(rest)),
        ["board", ref rest @ ..] if board::are_options(rest) => Some(board::show(rest).expect("standard input and output")),
        ["boards", dir] => Some(board_cases::write(dir, 1)),
        ["boards", dir, seed] => number(seed).map(|seed| board_cases::write(dir, seed)),
        ["capture"] => std::process::exit(capture::export()),
        ["replay"] => std::process::exit(capture::replay()),
        ["captures", dir] => Some(capture_cases::write(dir, 1)),
        ["captures", dir, seed] => number(seed).map(|seed| capture_cases::write(dir, seed)),
        ["viewed"] => Some(capture::view()),
        ["feed", fifo, text, stream] => std::process::exit(board::feed(fifo, text, stream)),
        ["unit", ref rest @ ..] => std::process::exit(units::run(rest)),
        ["list"] => Some(listing::list_input().expect("standard input and output")),
        ["missed"] => std::process::exit(ports::show_missed(ports::EVERY)),
        ["missed", "--ports", range] => ports::between(range).map(|range| std::process::exit(ports::show_missed(range))),
        ["noise", "soak", minutes, seed, ref command @ ..] => number(minutes).zip(number(seed)).map(|(minutes, seed)| std::process::exit(soak::run(minutes, seed, command))),
        ["noise", ref rest @ ..] => ended(noise::run(rest)),
        ["numbered", file] => Some(ports::write_numbered(file, 1)),
        ["numbered", file, seed] => number(seed).map(|seed| ports::write_numbered(file, seed)),
        ["sheet", "--ports", range, ref files @ ..] => ports::between(range).map(|range| std::process::exit(sheet::show(range, files))),
        ["sheet", _, ..] => std::process::exit(sheet::show(ports::EVERY, &words[1..])),
        ["months", dir] => Some(sheet::write_months(dir, 1)),
        ["months", dir, seed] => number(seed).map(|seed| sheet::write_months(dir, seed)),
        ["tallies", asked, told] => Some(sheet::write_calls(asked, told, 1)),
        ["tallies", asked, told, seed] => number(seed).map(|seed| sheet::write_calls(asked, told, seed)),
        ["ports", asked, told] => Some(ports::write_cases(asked, told, 1)),
        ["ports", asked, told, seed] => number(seed).map(|seed| ports::write_cases(asked, told, seed)),
        ["rack", asked, told] => Some(rack::write(asked, told, 1)),
        ["rack", asked, told, seed] => number(seed).map(|seed| rack::write(asked, told, seed)),
        ["kinds", ref files @ ..] => std::process::exit(kinds::show(files)),
        ["recordings", dir] => Some(write_recordings(dir, 1)),
        ["recordings", dir, seed] => number(seed).map(|seed| write_recordings(dir, seed)),
        ["steady", kind, mib] => first_byte(kind).zip(number(mib)).map(|(letter, mib)| write_steady(letter, mib)),
        ["samples", dir] => Some(samples::write(dir).expect(dir)),
        ["cases", kind] if KINDS.contains(&kind) => Some(write_cases(kind, 1)),
        ["cases", kind, seed] if KINDS.contains(&kind) => number(seed).map(|seed| write_cases(kind, seed)),
        ["words", r, places, n] => three(r, places, n).map(|(r, places, n)| write(cases::altered_words(r, places, n))),
        ["time", n, m] => number(n).zip(number(m)).map(|(n, m)| time::run(n as usize, m as usize)),
        ["time-rack", mib] => number(mib).map(|mib| time::rack(mib as usize)),
        ["compare", _, _, ref more @ ..] if more.len() % 2 == 0 => std::process::exit(compare(&words[1..])),
        _ => None,
    };
    if done.is_none() {
        eprintln!("usage: second bids ARGUMENTS.. | fcs HEX | parity R HEX | word R HEX | repair R HEX | interleave push|pull DEPTH | list | missed [--ports A-B] | kinds FILE..");
        eprintln!("  | fixed send|list R DEPTH | fixed steady R DEPTH PAYLOAD MIB | fixed streams DIR [SEED] | board [--recording|--stream] [--blocks] [--ports=A-B] | boards DIR [SEED] | feed FIFO TEXT STREAM");
        eprintln!("  | capture | replay | captures DIR [SEED] | viewed");
        eprintln!("  | recordings DIR [SEED] | steady plain|marked MIB | samples DIR | cases calls|interleaver|stream|channel|listing|board|four|unit|capture [SEED]");
        eprintln!("  | compare CASES ANSWERS .. | test [SEED] | words R PLACES N | time N M | noise ARGUMENTS.. | numbered FILE [SEED] | ports CASES ANSWERS [SEED] | unit ARGUMENTS..");
        eprintln!("  | sheet [--ports A-B] FILE.. | months DIR [SEED] | tallies CASES ANSWERS [SEED] | rack CASES ANSWERS [SEED] | time-rack MIB");
        std::process::exit(2);
    }
}

/// A line of what failed: of a file what the system says, of anything else where in this program; none where the reader of the output has gone.
fn say_failed(text: &str, place: String) {
    let system = text.split_once("message: \"").and_then(|(_, rest)| rest.split_once('"')).map(|(reason, _)| reason);
    let print = text.strip_prefix("failed printing to stdout: ").and_then(|rest| rest.split_once(" (os error"));
    match (system, print) {
        (Some("Broken pipe"), _) | (_, Some(("Broken pipe", _))) => {}
        (Some(reason), _) => eprintln!("second: {}: {reason}", text.split(": Os {").next().unwrap_or(text).trim_start_matches("called `Result::unwrap()` on an `Err` value")),
        (_, Some((reason, _))) => eprintln!("second: standard output: {reason}"),
        _ => eprintln!("second: {text} ({place})"),
    }
}

/// Ends with this status, but for that of a usage error, which has the usage.
fn ended(status: i32) -> Option<()> {
    if status == 2 { None } else { std::process::exit(status) }
}

fn number(text: &str) -> Option<u64> {
    text.parse().ok()
}

/// R and the depth of a sub-channel.
fn sub_channel(r: &str, depth: &str) -> Option<(u64, u64)> {
    number(r).filter(|r| *r <= 64).zip(number(depth).filter(|depth| *depth <= 64))
}

fn write_sub_channel((r, depth): (u64, u64), payload: u64, mib: u64) {
    std::io::stdout().write_all(&fixed_cases::steady(r, depth, payload as usize, mib as usize)).expect("standard output");
}

fn unhex(text: &str) -> Option<Vec<u8>> {
    if text.len() % 2 != 0 || !text.is_ascii() {
        return None;
    }
    (0..text.len()).step_by(2).map(|i| u8::from_str_radix(&text[i..i + 2], 16).ok()).collect()
}

fn hex(bytes: &[u8]) -> String {
    bytes.iter().map(|b| format!("{b:02x}")).collect()
}

/// The first bytes, for a message.
fn short(bytes: &[u8]) -> String {
    hex(&bytes[..bytes.len().min(40)])
}

fn both(n: &str, bytes: &str) -> Option<(u64, Vec<u8>)> {
    Some((number(n)?, unhex(bytes)?))
}

fn show(result: Result<Vec<u8>, u8>) {
    match result {
        Ok(bytes) => println!("{}", hex(&bytes)),
        Err(n) => println!("refused {n}"),
    }
}

fn show_word(r: u64, word: &[u8]) {
    match parity::check(r, word) {
        Ok(true) => println!("clean"),
        Ok(false) => println!("damaged"),
        Err(n) => println!("refused {n}"),
    }
}

fn show_repair(r: u64, mut word: Vec<u8>) {
    match repair::repair(r, &mut word) {
        Ok(Some(0)) => println!("clean {}", hex(&word)),
        Ok(Some(places)) => println!("repaired in {places} places {}", hex(&word)),
        Ok(None) => println!("beyond repair {}", hex(&word)),
        Err(n) => println!("refused {n}"),
    }
}

fn three(a: &str, b: &str, c: &str) -> Option<(usize, usize, usize)> {
    Some((a.parse().ok()?, b.parse().ok()?, c.parse().ok()?))
}

fn first_byte(kind: &str) -> Option<u8> {
    match kind {
        "plain" => Some(listing_cases::PLAIN),
        "marked" => Some(listing_cases::OPPORTUNISTIC),
        _ => None,
    }
}

/// Small recordings, and two that take many reads; the marked one is shorter, since words take an emulator long.
fn write_recordings(dir: &str, seed: u64) {
    let mut all = listing_cases::small(seed);
    all.push(("large-plain".to_string(), listing_cases::large(seed, listing_cases::PLAIN, 4 << 20)));
    all.push(("large-marked".to_string(), listing_cases::large(seed, listing_cases::OPPORTUNISTIC, 1 << 20)));
    for (name, bytes) in all {
        std::fs::write(format!("{dir}/{name}.rec"), bytes).expect(dir);
    }
}

fn write_steady(letter: u8, mib: u64) {
    let bytes = listing_cases::steady(letter, (mib as usize) << 20);
    std::io::stdout().write_all(&bytes).expect("standard output");
}

/// The kinds of cases; the program cases_KIND answers them.
const KINDS: [&str; 9] = ["calls", "interleaver", "stream", "channel", "listing", "board", "four", "unit", "capture"];

fn write_cases(kind: &str, seed: u64) {
    let all = if kind == "unit" { unit_cases::all(seed) } else { cases::all(seed) };
    write(all.into_iter().filter(|case| case.kind() == kind).collect());
}

/// Standard input through the interleaver as a whole.
fn interleave(push: bool, depth: u64) {
    let mut bytes = Vec::new();
    std::io::stdin().read_to_end(&mut bytes).expect("standard input");
    let mut out = Vec::new();
    if push {
        let mut sender = Sender::new();
        out.extend(sender.push(depth, &bytes, bytes.len()).unwrap());
        out.extend(sender.close(depth, 255 * depth as usize).unwrap());
    } else {
        out.extend(Receiver::new().pull(depth, &bytes, bytes.len()).unwrap());
    }
    std::io::stdout().write_all(&out).expect("standard output");
}

fn write(cases: Vec<cases::Case>) {
    let mut bytes = Vec::new();
    for case in cases {
        case.write(&mut bytes);
    }
    std::io::stdout().write_all(&bytes).expect("standard output");
}

/// Files of cases, each with the proved code's answers; fails where one has no case.
fn compare(files: &[&str]) -> i32 {
    let (mut count, mut differ, mut empty) = (0, 0, false);
    for pair in files.chunks(2) {
        let (cases, differences) = compare_file(pair[0], pair[1]);
        println!("{}: {cases} cases, {differences} differences", pair[1]);
        count += cases;
        differ += differences;
        empty |= cases == 0;
    }
    println!("{count} cases, {differ} differences");
    (differ > 0 || empty) as i32
}

/// Reads the cases and the proved code's answers, and counts them, and where the second program answers otherwise. The cases are read
/// back from the file, so that a seed need not be told twice.
fn compare_file(asked: &str, told: &str) -> (usize, usize) {
    let asked = std::fs::read(asked).expect(asked);
    let told = std::fs::read(told).expect(told);
    let (mut at, mut from, mut count, mut differ) = (0, 0, 0, 0);
    let mut carried = cases::Carried::new();
    while at < asked.len() {
        let case = read_case(&asked[at..]);
        at += 13 + case.bytes.len();
        let right = case.reply(&mut carried);
        let end = told.len().min(from + right.len());
        if told[from..end] != right[..] {
            differ += 1;
            if differ <= 10 {
                let first = right.iter().zip(&told[from..end]).take_while(|(a, b)| a == b).count();
                println!("{} {} space {}: {}", case.asked as char, case.number, case.space, short(&case.bytes));
                println!("  at byte {first} of the answer the proved code has {}", short(&told[(from + first).min(end)..end]));
                println!("  and the second program {}", short(&right[first..]));
            }
        }
        from = end;
        count += 1;
    }
    if from != told.len() {
        differ += 1;
        println!("{} bytes behind the last answer", told.len() - from);
    }
    (count, differ)
}

fn read_case(bytes: &[u8]) -> cases::Case {
    let low = |i: usize| u16::from_le_bytes([bytes[i], bytes[i + 1]]);
    let length = low(11) as usize;
    cases::Case {
        asked: bytes[0],
        number: u64::from_le_bytes(bytes[1..9].try_into().unwrap()),
        space: low(9),
        bytes: bytes[13..13 + length].to_vec(),
    }
}
