//! Recordings to be listed: clean, damaged, random and malformed ones, as files for the program and as cases for the library.
//! crates/cases_listing/src/reading.rt has the form of a case and of its answer.

use crate::cases::{self, Case, Random};
use crate::channel::{self, BLOCK, MARKER};
use crate::channel_cases::{alter, damage, damage_all, packet, packets, sent, stray};
use crate::listing::{Scribe, STREAM_LIMIT};
use crate::key_cases::{self, told_length};
use crate::packet::{self, Packet, FLAG, RAW_LIMIT};
use crate::stream;

pub const PLAIN: u8 = 0x50;
pub const OPPORTUNISTIC: u8 = 0x4F;

/// The paper's case.
pub const PAPER: [u8; 19] =
    [0x50, 0xF5, 0x5F, 5, 0, 0x7E, 0x21, 0, 0x51, 0, 0xF5, 0x5F, 5, 0, 0, 0x41, 0xE4, 0xEC, 0x7E];

/// A call writes lines while so many bytes are left, whatever the next line is.
const LINE: usize = 128;

/// A recording by name.
pub type Named = (String, Vec<u8>);

/// A stream in records, as long as `size` says.
pub fn recorded(letter: u8, mut stream: &[u8], mut size: impl FnMut() -> usize) -> Vec<u8> {
    let mut bytes = vec![letter];
    while !stream.is_empty() {
        let (record, rest) = stream.split_at(size().min(stream.len()));
        bytes.extend([0xF5, 0x5F]);
        bytes.extend((record.len() as u16).to_le_bytes());
        bytes.extend(record);
        stream = rest;
    }
    bytes
}

/// A stream in records of many sizes, some of them empty.
pub fn cut(random: &mut Random, letter: u8, stream: &[u8]) -> Vec<u8> {
    let most = [10, 300, 3000, 65535][random.below(4)];
    let bytes = recorded(letter, stream, || if random.below(6) == 0 { 0 } else { 1 + random.below(most) });
    if random.below(4) == 0 { [&bytes[..], &[0xF5, 0x5F, 0, 0]].concat() } else { bytes }
}

/// A packet for each edge of a class, in both formats, then a frame for each refusal.
pub fn faults() -> Vec<u8> {
    let bid = |sequence: u16| Packet::new(0x5100, sequence, b"bid");
    let mut raws = Vec::new();
    for (i, port) in cases::PORTS.into_iter().enumerate() {
        let packet = Packet::new(port, 0x7D7C + i as u16, b"~}bid");
        raws.extend([packet.raw(), packet.restricted(0x7C + i as u8, &[0x7E; 32][..2 + i]).raw()]);
    }
    let mut altered = [bid(1).raw(), bid(1).restricted(7, b"key").raw()];
    altered.iter_mut().for_each(|raw| raw[7] ^= 1);
    raws.extend(altered);
    raws.extend([0x20, 0x27, 0x7E].map(|format| Packet { format, ..bid(2) }.raw()));
    raws.extend([0, 1, 2, 32, 33, 255].map(|length| bid(3).restricted(7, &vec![0x41; length]).raw()));
    raws.push(packet::escape(&told_length(2, 7, b"ke\x00\x51\x00\x00")));
    raws.extend([&[0x21][..], &[0x21, 0x7D], &[0x7D, 0x21], &[]].map(<[u8]>::to_vec));
    raws.push(vec![0x41; RAW_LIMIT + 1]);
    between_flags(&raws)
}

/// The greatest frame that is delivered, and a payload that is too long in each format.
pub fn long_faults() -> Vec<u8> {
    let long = Packet::new(0x5100, 0, &[0x41; 8193]);
    between_flags(&[key_cases::longest(0x507D, &[0x41; 8192]).raw(), long.raw(), long.restricted(7, b"key").raw()])
}

fn between_flags(raws: &[Vec<u8>]) -> Vec<u8> {
    [&[FLAG][..], &raws.join(&FLAG), &[FLAG]].concat()
}

/// Clean packets, n bytes at least.
fn clean(random: &mut Random, n: usize) -> Vec<u8> {
    let mut bytes = vec![FLAG];
    while bytes.len() < n {
        bytes.extend(packet(random));
    }
    bytes
}

/// Blocks that were altered on the way, stray bytes before them.
fn damaged(random: &mut Random, kind: usize) -> Vec<u8> {
    let blocks = 2 + random.below(4);
    let sent = sent(random, blocks);
    let came = on_the_way(random, kind, sent);
    [stray(random), came].concat()
}

/// What comes of blocks: words altered, markers, bytes lost or put in, or cut off.
pub fn on_the_way(random: &mut Random, kind: usize, mut bytes: Vec<u8>) -> Vec<u8> {
    let start = BLOCK * random.below(bytes.len() / BLOCK);
    let at = random.below(bytes.len());
    let few = 1 + random.below(5);
    match kind % 9 {
        0 => damage(random, &mut bytes[start + 4..start + BLOCK]),
        1 => alter(random, &mut bytes[start..start + 4], 1),
        2 => drop(bytes.drain(start..start + 4)),
        3 => drop(bytes.drain(at..(at + few).min(bytes.len()))),
        4 => drop(bytes.splice(at..at, random.bytes(few))),
        5 => drop(bytes.splice(start..start, MARKER[..few % 4].to_vec())),
        6 => damage_all(random, &mut bytes),
        7 => {
            damage_all(random, &mut bytes);
            alter(random, &mut bytes[start..start + 4], 1);
        }
        _ => bytes.truncate(at),
    }
    bytes
}

/// A recording with one of its marks' bytes altered, or its first byte, or cut short.
fn malformed(random: &mut Random, kind: usize) -> Vec<u8> {
    let letter = [PLAIN, OPPORTUNISTIC][random.below(2)];
    let stream = if letter == PLAIN { packets(random, 300) } else { sent(random, 2) };
    let mut sizes = Vec::new();
    let mut bytes = recorded(letter, &stream, || {
        sizes.push(random.below(200));
        sizes[sizes.len() - 1]
    });
    let before = random.below(sizes.len());
    let mark = 1 + sizes[..before].iter().map(|n| n + 4).sum::<usize>();
    let at = random.below(bytes.len());
    let other = 1 + random.below(255) as u8;
    match kind % 5 {
        0 => bytes[0] ^= other,
        1 => bytes[mark] ^= other,
        2 => bytes[mark + 1] ^= other,
        3 => bytes.truncate(at),
        _ => bytes[mark + 2 + random.below(2)] ^= other,
    }
    bytes
}

/// One recording of a kind, drawn anew each time.
pub fn any(random: &mut Random, kind: usize) -> Vec<u8> {
    let n = random.below(700);
    match kind % 8 {
        0 => {
            let stream = clean(random, n);
            cut(random, PLAIN, &stream)
        }
        1 => {
            let stream = channel::in_blocks(&clean(random, n), usize::MAX).unwrap();
            cut(random, OPPORTUNISTIC, &stream)
        }
        2 => {
            let stream = packets(random, n + 1);
            cut(random, PLAIN, &stream)
        }
        3 | 4 => {
            let stream = damaged(random, n);
            cut(random, OPPORTUNISTIC, &stream)
        }
        5 => {
            let (letter, stream) = ([PLAIN, OPPORTUNISTIC][n % 2], random.bytes(n));
            cut(random, letter, &stream)
        }
        6 if n < 100 => random.bytes(n),
        _ => malformed(random, n),
    }
}

/// Clean packets in blocks, each word altered in so many places.
fn altered(random: &mut Random, places: usize) -> Vec<u8> {
    let mut bytes = channel::in_blocks(&clean(random, 500), usize::MAX).unwrap();
    bytes.chunks_mut(BLOCK).for_each(|block| alter(random, &mut block[4..], places));
    bytes
}

/// Small recordings by name, more than a hundred.
pub fn small(seed: u64) -> Vec<Named> {
    let mut random = Random::new(seed);
    let mut all = vec![("paper".to_string(), PAPER.to_vec())];
    for n in 0..PAPER.len() {
        all.push((format!("paper-first-{n:02}"), PAPER[..n].to_vec()));
    }
    for at in [0, 1, 2, 10, 11] {
        let mut bytes = PAPER.to_vec();
        bytes[at] ^= 0x0A;
        all.push((format!("paper-wrong-{at:02}"), bytes));
    }
    for (name, faults) in [("faults", faults()), ("long", long_faults())] {
        all.push((format!("{name}-plain"), cut(&mut random, PLAIN, &faults)));
        all.push((format!("{name}-channel"), cut(&mut random, OPPORTUNISTIC, &channel::in_blocks(&faults, usize::MAX).unwrap())));
    }
    for places in 0..=20 {
        let stream = altered(&mut random, places);
        all.push((format!("altered-{places:02}"), cut(&mut random, OPPORTUNISTIC, &stream)));
    }
    for kind in 0..80 {
        all.push((format!("drawn-{kind:02}"), any(&mut random, kind)));
    }
    all
}

/// A stream over and over, until it has so many bytes.
fn repeated(stream: &[u8], length: usize) -> Vec<u8> {
    stream.repeat(length.div_ceil(stream.len()))
}

/// A recording of so many stream bytes at least: packets, now and then a fault; on the channel also damaged words, bytes altered anywhere
/// and a lost marker.
pub fn large(seed: u64, letter: u8, length: usize) -> Vec<u8> {
    let mut random = Random::new(seed);
    let mut stream = packets(&mut random, 400_000);
    if letter == OPPORTUNISTIC {
        stream = channel::in_blocks(&stream, usize::MAX).unwrap();
        for _ in 0..60 {
            let start = BLOCK * random.below(stream.len() / BLOCK);
            damage(&mut random, &mut stream[start + 4..start + BLOCK]);
        }
        alter(&mut random, &mut stream, 60);
        stream.drain(9 * BLOCK..9 * BLOCK + 4);
    }
    recorded(letter, &repeated(&stream, length), || [0, 1, 200, 3000, 65535][random.below(5)])
}

/// A clean recording of so many stream bytes at least, to be timed: packets of up to 400 bytes, in records of 4,096.
pub fn steady(letter: u8, length: usize) -> Vec<u8> {
    let mut random = Random::new(1);
    let mut stream = vec![FLAG];
    while stream.len() < 1_000_000 {
        let n = 1 + random.below(400);
        stream.extend(packet::escaped_packet(0x1401, random.next() as u16, &random.bytes(n), usize::MAX).unwrap());
    }
    if letter == OPPORTUNISTIC {
        stream = channel::in_blocks(&stream, usize::MAX).unwrap();
    }
    recorded(letter, &repeated(&stream, length), || 4096)
}

/// Where a recording may stand at first (bytes read, stream bytes, each total): fresh; near the stream's limit; with the offset, or the
/// totals, near their width. crates/cases_listing/src/reading.rt has the same.
const STARTS: [[u64; 3]; 4] = [[0, 0, 0], [0, STREAM_LIMIT - 300, 0], [u64::MAX - 300, 0, 0], [0, 0, u64::MAX - 140]];

/// A recording to be listed by calls: how it is cut, the receive buffer, where it stands at first, the space for lines.
struct Run {
    /// The length of a piece, or 0: as the seed says.
    size: usize,
    seed: u64,
    lent: usize,
    start: usize,
    space: usize,
    bytes: Vec<u8>,
}

impl Run {
    fn new(size: usize, space: usize, bytes: &[u8]) -> Self {
        Run { size, seed: 0, lent: RAW_LIMIT, start: 0, space, bytes: bytes.to_vec() }
    }

    fn case(self) -> Case {
        let number = self.seed | (self.size as u64) << 32 | (self.lent as u64) << 48 | (self.start as u64) << 62;
        Case { asked: b'L', number, space: self.space as u16, bytes: self.bytes }
    }
}

/// The lines of a recording, each with the number of bytes read when it is printed; so many stream bytes count as read at first.
fn lines_of(stream_bytes: u64, bytes: &[u8]) -> Vec<(usize, Vec<u8>)> {
    let (mut scribe, mut lines) = (Scribe::starting_at(0, stream_bytes), Vec::new());
    for (i, byte) in bytes.iter().enumerate() {
        scribe.consume(&[*byte]);
        lines.extend(scribe.lines().split_inclusive(|b| *b == b'\n').map(|line| (i + 1, line.to_vec())));
    }
    lines
}

/// Counts a line in the totals.
fn add_up(totals: &mut [u64; 4], line: &[u8]) {
    for (total, start) in totals.iter_mut().zip(["P", "R", "B X", "L"]) {
        *total += line.starts_with(start.as_bytes()) as u64;
    }
}

/// A recording listed by calls, the output for lines lent; what is told of them.
pub fn recording_in_pieces(number: u64, bytes: &[u8], out: &mut [u8]) -> Vec<u8> {
    let (size, lent) = ((number >> 32) as usize & 0xFFFF, (number >> 48) as usize & 0x3FFF);
    let [offset, stream_bytes, total] = STARTS[(number >> 62) as usize];
    let mut lines = lines_of(stream_bytes, bytes).into_iter().peekable();
    let (mut scribe, mut totals) = (Scribe::starting_at(offset, stream_bytes), [total; 4]);
    let (mut at, mut end, mut seed) = (0, 0, number & 0x7FFFFFFF);
    let mut told = Vec::new();
    loop {
        let countable = scribe.can_count(end - at) && totals.iter().all(|t| t.checked_add(out.len() as u64).is_some());
        if !countable || lent < RAW_LIMIT {
            cases::push_all(&mut told, &[0, cases::refusal(if countable { 11 } else { 10 }), 0]);
            break;
        }
        let (mut taken, mut printed) = (0, 0);
        while out.len() - printed >= LINE && lines.peek().is_some_and(|(read, _)| *read <= end) {
            let (read, line) = lines.next().unwrap();
            taken = read - at;
            out[printed..printed + line.len()].copy_from_slice(&line);
            printed += line.len();
            add_up(&mut totals, &line);
        }
        let more = out.len() - printed >= LINE;
        let taken = if more { end - at } else { taken };
        scribe.consume(&bytes[at..at + taken]);
        at += taken;
        cases::push_all(&mut told, &[taken as u64, !more as u64, printed as u64]);
        told.extend(&out[..printed]);
        if !more && printed == 0 || more && end == bytes.len() {
            break;
        }
        if more {
            let left = bytes.len() - at;
            let (length, next) = if size > 0 { (size.min(left), seed) } else { stream::piece_length(seed, left) };
            (end, seed) = (at + length, next);
        }
    }
    last_call(&scribe.last_line(totals), out, &mut told);
    told
}

/// The last line with all of the output; where it fits, also with just enough, and with a byte less.
fn last_call(line: &[u8], out: &mut [u8], told: &mut Vec<u8>) {
    let n = line.len();
    if out.len() < n {
        return cases::push_all(told, &[cases::refusal(23)]);
    }
    out[..n].copy_from_slice(line);
    cases::push_all(told, &[n as u64, n as u64, cases::refusal(23)]);
}

/// Every cutting of some recordings, and many recordings with some cutting, each with several rooms.
pub fn all(random: &mut Random, cases: &mut Vec<Case>) {
    let mut runs = Vec::new();
    everywhere(random, &mut runs);
    short(random, &mut runs);
    for kind in 0..1600 {
        let mut run = Run::new(0, [128, 128, 129, 200, 1000, 5000, random.below(128)][random.below(7)], &any(random, kind));
        match random.below(4) {
            0 => run.size = 1 + random.below(40),
            1 => run.size = 1 + random.below(run.bytes.len() + 1),
            _ => run.seed = random.next() % 0x7FFFFFFF,
        }
        run.lent = if random.below(50) == 0 { random.below(RAW_LIMIT) } else { RAW_LIMIT };
        run.start = if random.below(3) == 0 { random.below(4) } else { 0 };
        runs.push(run);
    }
    let [marked, long_marked] = [faults(), long_faults()].map(|faults| channel::in_blocks(&faults, usize::MAX).unwrap());
    for stream in [faults(), marked, long_faults(), long_marked] {
        let letter = if stream[0] == FLAG { PLAIN } else { OPPORTUNISTIC };
        for (space, seed) in [(128, 0), (128, 5), (135, 9), (200, 6), (1000, 7)] {
            for start in 0..STARTS.len() {
                runs.push(Run { seed, start, ..Run::new(0, space, &cut(random, letter, &stream)) });
            }
        }
    }
    cases.extend(runs.into_iter().map(Run::case));
}

/// Recordings in pieces of every length.
fn everywhere(random: &mut Random, runs: &mut Vec<Run>) {
    let plain = packets(random, 150);
    let blocks = [sent(random, 1), MARKER[..3].to_vec(), sent(random, 1)].concat();
    let mut damaged = blocks.clone();
    alter(random, &mut damaged[4..BLOCK], 16);
    alter(random, &mut damaged[BLOCK + 3 + 4..], 17);
    let mut sizes = [5, 0, 1, 33, 2, 300, 4, 7].into_iter().cycle();
    let recordings = [
        PAPER.to_vec(),
        recorded(PLAIN, &plain, || sizes.next().unwrap()),
        recorded(OPPORTUNISTIC, &blocks, || sizes.next().unwrap()),
        recorded(OPPORTUNISTIC, &damaged, || sizes.next().unwrap()),
    ];
    for bytes in recordings {
        for size in 1..=bytes.len() {
            for space in [128, 129, 200, 1000] {
                runs.push(Run::new(size, space, &bytes));
            }
        }
        for space in [0, 1, 3, 4, 20, 64, 127] {
            runs.push(Run::new(7, space, &bytes));
        }
    }
}

/// Recordings cut short at every place, and every first byte.
fn short(random: &mut Random, runs: &mut Vec<Run>) {
    let stream = sent(random, 1);
    let bytes = recorded(OPPORTUNISTIC, &stream, || 1 + random.below(90));
    for n in 0..=bytes.len() {
        runs.push(Run::new(50, 128, &bytes[..n]));
    }
    for first in 0..=255 {
        let mut bytes = PAPER.to_vec();
        bytes[0] = first;
        runs.push(Run::new(11, 128, &bytes));
    }
}
