//! Streams and recordings for the board: texts that can be printed and that cannot, gaps, late and repeated packets, more ports than the table
//! has places, packets for subscribers, frames refused, and damage of every kind.
//!
//!   second boards DIR [SEED]   into a folder: streams and recordings, by name
//!
//! And as cases for the library, with every room for the text: crates/cases_board/src/reading.rt has their form and that of an answer.

use crate::board::{apart, last_line, Board, Watched, EVERY};
use crate::cases::{self, Case, Random};
use crate::channel::{self, MARKER};
use crate::channel_cases::stray;
use crate::key_cases::{self, with_key};
use crate::listing::STREAM_LIMIT;
use crate::listing_cases::{self, cut, faults, long_faults, Named, OPPORTUNISTIC, PLAIN};
use crate::packet::{Packet, ESCAPE, FLAG, RAW_LIMIT};
use crate::stream;

/// Kinds of payloads.
pub const TEXTS: usize = 7;

/// A payload: a bid, any bytes, what looks like a byte's number, what would end a line or move a cursor, escapes, and what looks like a remark
/// or like another bid.
pub fn payload(random: &mut Random, kind: usize) -> Vec<u8> {
    let n = 1 + random.below(60);
    let mut of = |bytes: &[u8]| (0..n).map(|_| bytes[random.below(bytes.len())]).collect();
    match kind {
        0 => of(b"\\\\\\x0479aAF"),
        1 => of(b"\x0A\x0D\x1B[\x09\x00\x1F\x7F\x80\xC3\xA9\xFF ~"),
        2 => of(b"}~]^\\"),
        3 => random.bytes(n),
        4 => [&b"! lock lost"[..], b"!", b" ", b"! late 1401 7 CORN", b"\n1401 7 CORN 9.99", b"7 CORN 9.99\n"][random.below(6)].to_vec(),
        _ => format!("{:02}:{:02} CORN US 2 YELLOW 4.{:02} DEC BASIS -{}", random.below(24), random.below(60), random.below(100), n).into_bytes(),
    }
}

/// A frame that should be refused: bits altered, an escape broken or left open, cut short, or of a barred port.
fn spoilt(random: &mut Random, packet: &Packet) -> Vec<u8> {
    let mut raw = packet.raw();
    let at = random.below(raw.len());
    match random.below(5) {
        0 => raw[at] ^= 1 << random.below(8),
        1 => drop(raw.splice(at..at, [ESCAPE, 0x21])),
        2 => raw.push(ESCAPE),
        3 => raw.truncate(at),
        _ => raw = Packet { port: 0x7D00, ..packet.clone() }.raw(),
    }
    raw
}

/// A stream on so many ports, with distances of every kind between their numbers, now and then for subscribers or refused.
fn day(random: &mut Random, ports: usize, count: usize) -> Vec<u8> {
    let mut last: Vec<u16> = (0..ports).map(|_| random.next() as u16).collect();
    let mut bytes = vec![FLAG];
    for _ in 0..count {
        let (port, kind) = (random.below(ports), random.below(TEXTS));
        let distance = [1, 1, 1, 1, 1, 1, 0, 2, 3, 100, 32_767, 32_768, 65_535, 65_500][random.below(14)];
        last[port] = last[port].wrapping_add(distance);
        let mut packet = Packet::new(0x1400 + port as u16, last[port], &payload(random, kind));
        if random.below(5) == 0 {
            packet = with_key(random, packet);
        }
        bytes.extend(if random.below(9) == 0 { spoilt(random, &packet) } else { packet.raw() });
        bytes.push(FLAG);
    }
    bytes
}

fn in_blocks(stream: &[u8]) -> Vec<u8> {
    channel::in_blocks(stream, usize::MAX).unwrap()
}

/// Packets on one port with these payloads.
fn packets(payloads: &[Vec<u8>]) -> Vec<u8> {
    let escaped = |(i, payload): (usize, &Vec<u8>)| Packet::new(0x1401, i as u16, payload).escaped(usize::MAX).unwrap();
    [&[FLAG][..], &payloads.iter().enumerate().flat_map(escaped).collect::<Vec<_>>()].concat()
}

/// Every byte alone, and all together; then the longest payloads, and the longest packet for subscribers.
fn edges() -> Vec<u8> {
    let mut payloads: Vec<Vec<u8>> = (0..=255).map(|b| vec![b]).collect();
    payloads.push((0..=255).collect());
    payloads.extend([vec![0x80; 8192], vec![b'\\'; 8192], vec![b'a'; 8192], vec![0x7E; 4096], vec![0x0A; 4097]]);
    [&packets(&payloads)[..], &key_cases::longest(0x507D, &[0x80; 8192]).raw(), &[FLAG]].concat()
}

/// Bare opportunistic streams.
fn streams(random: &mut Random) -> Vec<Named> {
    let mut all = vec![("empty".to_string(), vec![]), ("noise".to_string(), random.bytes(3000)), ("no-marker".to_string(), MARKER[..3].repeat(300))];
    for (name, stream) in [("edges", edges()), ("faults", faults()), ("long-faults", long_faults()), ("long-day", day(random, 15, 3000))] {
        all.push((name.to_string(), in_blocks(&stream)));
    }
    for ports in [1, 16, 17, 40] {
        all.push((format!("ports-{ports:02}"), in_blocks(&day(random, ports, 200))));
    }
    for kind in 0..36 {
        let ports = 1 + random.below(20);
        let sent = in_blocks(&day(random, ports, 20));
        let came = listing_cases::on_the_way(random, kind, sent);
        all.push((format!("drawn-{kind:02}"), [stray(random), came].concat()));
    }
    all
}

/// Recordings of such days.
pub fn recordings(random: &mut Random) -> Vec<Named> {
    let mut all = Vec::new();
    for (i, ports) in [1, 2, 5, 16, 17, 18, 40].into_iter().enumerate() {
        let plain = day(random, ports, 60);
        let came = listing_cases::on_the_way(random, i, in_blocks(&plain));
        all.push((format!("day-plain-{ports:02}"), cut(random, PLAIN, &plain)));
        all.push((format!("day-channel-{ports:02}"), cut(random, OPPORTUNISTIC, &came)));
    }
    all.push(("edges-plain".to_string(), cut(random, PLAIN, &edges())));
    all
}

/// One stream of three words: a bid in the first; one that ends in the second, and a gap; a marker lost, and a late packet behind it.
fn live() -> Vec<u8> {
    let escaped = |sequence, text: &[u8]| Packet::new(1201, sequence, text).escaped(usize::MAX).unwrap();
    let stream = [&[FLAG][..], &escaped(1, b"CORN 4.1275"), &escaped(4, &[b'x'; 250]), &escaped(5, b"CORN 4.1300")].concat();
    let late = in_blocks(&[&[FLAG][..], &escaped(3, b"CORN 4.1200")].concat());
    [b"O", &in_blocks(&stream)[..], &[0], &late].concat()
}

/// `second boards DIR [SEED]`
pub fn write(dir: &str, seed: u64) {
    let mut random = Random::new(seed);
    let named = |(name, bytes): Named, kind: &str| std::fs::write(format!("{dir}/{name}.{kind}"), bytes).expect(dir);
    streams(&mut random).into_iter().for_each(|stream| named(stream, "stream"));
    named(("live".to_string(), live()), "stream");
    recordings(&mut random).into_iter().chain(listing_cases::small(seed)).for_each(|recording| named(recording, "rec"));
}

// ---- by calls

/// How a board may stand at first: fresh; with the offset near its width; with a port held twice; with a piece longer than its bytes.
const STARTS: usize = 4;
const NEAR: u64 = 1;

/// Bytes to be read out by calls: how they are cut, the receive buffer, how the board stands at first, the room for text.
struct Run {
    /// The length of a piece, or 0: as the seed says.
    size: usize,
    seed: u64,
    lent: usize,
    start: usize,
    bare: bool,
    blocks_too: bool,
    watched: Watched,
    room: usize,
    bytes: Vec<u8>,
}

/// A range of ports: all, some about those of a day, one of them, none, or any.
fn watched(random: &mut Random) -> Watched {
    let mut of_day = || 0x1400 + random.below(20) as u16;
    let (a, b) = (of_day(), of_day());
    match random.below(10) {
        0..=4 => EVERY,
        5..=6 => a.min(b)..=a.max(b),
        7 => a..=a,
        8 => a + 1..=a,
        _ => random.next() as u16..=random.next() as u16,
    }
}

impl Run {
    /// A stream or a recording.
    fn new(size: usize, room: usize, bare: bool, bytes: &[u8]) -> Self {
        Run { size, seed: 0, lent: RAW_LIMIT, start: 0, bare, blocks_too: true, watched: EVERY, room, bytes: bytes.to_vec() }
    }

    fn case(self) -> Case {
        let flags = (self.bare as u64) << 62 | (self.blocks_too as u64) << 63;
        let number = self.seed | (self.size as u64) << 32 | (self.start as u64) << 46 | (self.lent as u64) << 48 | flags;
        let bytes = [&self.watched.start().to_le_bytes()[..], &self.watched.end().to_le_bytes(), &self.bytes].concat();
        Case { asked: b'b', number, space: self.room as u16, bytes }
    }
}

/// The lines of each answer of a stream or of a recording, with the number of bytes read when it is given.
fn answers_of(bare: bool, blocks_too: bool, watched: Watched, bytes: &[u8]) -> Vec<(usize, Vec<u8>)> {
    let places = if bare { (0..bytes.len()).collect() } else { apart(bytes, STREAM_LIMIT).0 };
    let mut board = Board::new(bare || bytes.first() == Some(&OPPORTUNISTIC), blocks_too).watching(watched);
    let mut answers = Vec::new();
    for place in places {
        let mut piece = &bytes[place..place + 1];
        while let Some(taken) = board.next(piece) {
            piece = &piece[taken..];
            answers.push((place + 1, std::mem::take(&mut board.text).into_bytes()));
        }
    }
    answers
}

/// Bytes read out by calls, a range's two ends before them, the output for text lent; what is told of them.
pub fn read_by_calls(number: u64, case: &[u8], out: &mut [u8]) -> Vec<u8> {
    let (ends, bytes) = case.split_at(4);
    let watched = u16::from_le_bytes([ends[0], ends[1]])..=u16::from_le_bytes([ends[2], ends[3]]);
    let (size, lent, start) = ((number >> 32) as usize & 0x3FFF, (number >> 48) as usize & 0x3FFF, number >> 46 & 3);
    let (bare, blocks_too) = (number >> 62 & 1 == 1, number >> 63 == 1);
    let before = if start == NEAR { u64::MAX - 300 } else { 0 };
    let wrong = apart(bytes, STREAM_LIMIT).1;
    let mut answers = answers_of(bare, blocks_too, watched, bytes).into_iter().peekable();
    let (mut at, mut end, mut seed) = (0, 0, number & 0x7FFFFFFF);
    let (mut told, mut owed) = (Vec::new(), Vec::new());
    loop {
        // the offset stays where something is wrong
        let offset = before + wrong.unwrap_or(at).min(at) as u64;
        let sound = start <= NEAR && (bare || offset.checked_add((end - at) as u64).is_some());
        if !sound || lent < RAW_LIMIT {
            cases::push_all(&mut told, &[0, cases::refusal(if sound { 11 } else { 10 }), 0]);
            break;
        }
        let written = owed.len().min(out.len());
        let text: Vec<u8> = owed.drain(..written).collect();
        out[..written].copy_from_slice(&text);
        let (mut taken, mut more) = (0, false);
        if owed.is_empty() {
            let answer = answers.next_if(|(read, _)| *read <= end);
            more = answer.is_none();
            (taken, owed) = answer.map_or((end - at, vec![]), |(read, text)| (read - at, text));
        }
        at += taken;
        cases::push_all(&mut told, &[taken as u64, !more as u64, written as u64]);
        told.extend(text);
        if more && end == bytes.len() || !more && taken == 0 && out.is_empty() {
            break;
        }
        if more {
            let left = bytes.len() - at;
            let (length, next) = if size > 0 { (size.min(left), seed) } else { stream::piece_length(seed, left) };
            (end, seed) = (at + length, next);
        }
    }
    let last = if bare { String::new() } else { last_line(apart(&bytes[..at], STREAM_LIMIT).1, before) };
    cases::push_all(&mut told, &[last.len() as u64]);
    told.extend(last.bytes());
    told
}

/// Rooms around a byte, and around the longest beginning of a line.
const ROOMS: [usize; 11] = [1, 2, 3, 4, 5, 22, 23, 24, 25, 128, 1000];

/// Every room with some cutting, every cutting with some rooms, and many others with any.
pub fn all(random: &mut Random, cases: &mut Vec<Case>) {
    let mut runs = Vec::new();
    let small = |random: &mut Random, ports: usize| day(random, ports, 6);
    for room in (0..40).chain(ROOMS) {
        let plain = day(random, 17, 25);
        let came = listing_cases::on_the_way(random, room, in_blocks(&plain));
        runs.push(Run::new(1 + random.below(50), room, true, &[stray(random), came].concat()));
        runs.push(Run::new(1 + random.below(50), room, false, &cut(random, PLAIN, &plain)));
    }
    let (stream, recording) = (in_blocks(&small(random, 3)), cut(random, OPPORTUNISTIC, &live()));
    for (bare, bytes) in [(true, stream), (false, recording)] {
        for size in 1..=bytes.len() {
            let room = ROOMS[random.below(ROOMS.len())];
            runs.push(Run { blocks_too: random.below(2) == 0, ..Run::new(size, room, bare, &bytes) });
        }
    }
    for kind in 0..400 {
        let (bare, room) = (random.below(2) == 0, random.below(30));
        let bytes = if bare { in_blocks(&small(random, 4)) } else { listing_cases::any(random, kind) };
        let mut run = Run { seed: random.next() % 0x7FFFFFFF, blocks_too: random.below(2) == 0, ..Run::new(0, room, bare, &bytes) };
        run.lent = if random.below(20) == 0 { random.below(RAW_LIMIT) } else { RAW_LIMIT };
        run.start = if random.below(4) == 0 { random.below(STARTS) } else { 0 };
        runs.push(run);
    }
    for room in [1, 3, 24, 4096] {
        let payloads = [vec![0x80; 8192], vec![b'\\'; 8192], vec![b'a'; 1]];
        runs.push(Run::new(4096, room, true, &in_blocks(&packets(&payloads))));
    }
    for run in &mut runs {
        run.watched = watched(random);
    }
    cases.extend(runs.into_iter().map(Run::case));
}
