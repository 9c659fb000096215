//! Cases for the opportunistic channel: blocks marked, streams sent, and what a receiver hears in pieces.
//! crates/cases_channel/src/hearing.rt has the form of a heard channel.

use crate::cases::{self, Case, Random};
use crate::channel::{self, Answer, Receiver, BLOCK, MARKER, MESSAGE, ROOTS};
use crate::key_cases::{self, told_length, with_key};
use crate::packet::{self, Packet, FLAG, RAW_LIMIT};
use crate::parity::{self, WORD};
use crate::stream::{self, Reader};

/// One channel to be heard: the receiver, how the bytes are cut, the lent buffers and the bytes.
struct Run {
    receiver: Receiver,
    /// The length of the first piece; the rest is cut as the seed says.
    first: usize,
    seed: u64,
    word: Vec<u8>,
    space: usize,
    bytes: Vec<u8>,
}

impl Run {
    /// A fresh receiver with buffers as they should be; everything in one piece.
    fn whole(bytes: Vec<u8>) -> Self {
        Run { receiver: Receiver::new(), first: bytes.len(), seed: 0, word: vec![0xA5; WORD], space: RAW_LIMIT, bytes }
    }

    fn case(self) -> Case {
        let r = self.receiver;
        let mut bytes = vec![r.locked as u8];
        bytes.extend(r.hunted);
        for n in [r.word_bytes, r.message_bytes, r.marker_bytes, self.first, self.word.len(), r.reader.broken] {
            bytes.extend((n as u16).to_le_bytes());
        }
        bytes.extend(self.word);
        bytes.extend(self.bytes);
        Case { asked: b'O', number: self.seed | cases::reader_number(&r.reader), space: self.space as u16, bytes }
    }
}

/// A channel read in pieces, the receive buffer lent; what is told of it, the word buffer last.
pub fn channel_in_pieces(number: u64, bytes: &[u8], buffer: &mut [u8]) -> Vec<u8> {
    let pair = |i: usize| u16::from_le_bytes([bytes[i], bytes[i + 1]]) as usize;
    let mut r = Receiver {
        locked: bytes[0] == 1,
        hunted: [bytes[1], bytes[2], bytes[3], bytes[4]],
        word_bytes: pair(5),
        message_bytes: pair(7),
        marker_bytes: pair(9),
        reader: cases::reader_in(number, pair(15)),
    };
    let (word, stream) = bytes[17..].split_at(pair(13));
    let mut word = word.to_vec();
    let (mut at, mut end, mut seed) = (0, pair(11).min(stream.len()), number & 0x7FFFFFFF);
    let mut told = Vec::new();
    loop {
        let result = r.call(buffer, &mut word, &stream[at..end]);
        let taken = result.map_or(0, |(_, taken)| taken);
        at += taken;
        cases::push_all(&mut told, &[taken as u64, result.map_or_else(cases::refusal, |(answer, _)| answer.map_or(0, answer_number))]);
        match result {
            Err(_) => break,
            Ok((Some(Answer::Frame(Ok(packet))), _)) => cases::push_delivered(&mut told, &packet, buffer),
            Ok((Some(_), _)) => {}
            Ok((None, _)) if end == stream.len() => break,
            Ok((None, _)) => {
                let (length, next) = stream::piece_length(seed, stream.len() - at);
                (end, seed) = (at + length, next);
            }
        }
    }
    state_numbers(&r, &mut told);
    told.extend(word);
    told
}

/// The state's numbers and the hunted bytes.
fn state_numbers(r: &Receiver, told: &mut Vec<u8>) {
    let counts = [r.word_bytes, r.message_bytes, r.marker_bytes, !r.reader.waits as usize, r.reader.raw, r.reader.stored, r.reader.broken];
    cases::push_all(told, &[r.locked as u64]);
    cases::push_all(told, &counts.map(|n| n as u64));
    cases::push_all(told, &r.hunted.map(u64::from));
}

/// An answer as a number; 0 is kept for "more wanted".
pub fn answer_number(answer: Answer) -> u64 {
    match answer {
        Answer::Block(Some(0)) => 1,
        Answer::Block(None) => 2,
        Answer::LockLost => 3,
        Answer::Block(Some(places)) => 256 + places as u64,
        Answer::Frame(result) => cases::frame_number(result),
    }
}

pub fn all(random: &mut Random, cases: &mut Vec<Case>) {
    senders(random, cases);
    let mut runs = Vec::new();
    everywhere(random, &mut runs);
    changed(random, &mut runs);
    repaired(random, &mut runs);
    between(random, &mut runs);
    nearly(random, &mut runs);
    slipped(random, &mut runs);
    states(random, &mut runs);
    word_in_two(random, &mut runs);
    buffers(random, &mut runs);
    longest(random, &mut runs);
    broken_escape(&mut runs);
    cases.extend(runs.into_iter().map(Run::case));
}

/// Messages and outputs as they should be, and one off.
fn senders(random: &mut Random, cases: &mut Vec<Case>) {
    for n in [0, MESSAGE - 1, MESSAGE, MESSAGE + 1, WORD] {
        for bytes in [vec![0; n], vec![0xFF; n], vec![FLAG; n], random.bytes(n), random.bytes(n)] {
            for space in [0, BLOCK - 1, BLOCK, BLOCK + 1, 300] {
                cases.push(Case { asked: b'M', number: 0, space: space as u16, bytes: bytes.clone() });
            }
        }
    }
    for n in [0, 1, 2, MESSAGE - 1, MESSAGE, MESSAGE + 1, 2 * MESSAGE - 1, 2 * MESSAGE, 2 * MESSAGE + 1, 3 * MESSAGE, 700] {
        let result = n.div_ceil(MESSAGE) * BLOCK;
        for bytes in [random.bytes(n), vec![FLAG; n], packets(random, n)] {
            for space in [result, result.saturating_sub(1), result + 1, result + 40, 0] {
                cases.push(Case { asked: b'R', number: 0, space: space as u16, bytes: bytes.clone() });
            }
        }
    }
}

/// One packet as the stream has it, half of them full of escapes, half of them for subscribers.
pub fn packet(random: &mut Random) -> Vec<u8> {
    let n = 1 + random.below(90);
    let mut payload = random.bytes(n);
    if random.below(2) == 0 {
        payload.iter_mut().for_each(|b| *b = [0x7D, 0x7E, 0x5D, 0x5E, *b][*b as usize % 5]);
    }
    let port = if random.below(12) == 0 { 0x7E00 } else { 0x5100 + random.below(256) as u16 };
    let packet = Packet::new(port, random.next() as u16, &payload);
    let mut bytes = if random.below(2) == 0 { packet.raw() } else { with_key(random, packet).raw() };
    bytes.push(FLAG);
    bytes
}

/// A stream of n bytes: packets, and now and then a fault, flags, or a marker where none should be.
pub fn packets(random: &mut Random, n: usize) -> Vec<u8> {
    let mut bytes = vec![FLAG];
    while bytes.len() < n {
        match random.below(15) {
            0 => bytes.extend([FLAG; 3]),
            4 => {
                let (length, n) = (random.below(40) as u8, 3 + random.below(50));
                bytes.extend(packet::escape(&told_length(length, 1, &random.bytes(n))));
                bytes.push(FLAG);
            }
            1 => bytes.extend(MARKER),
            2 => bytes.extend([0x7D, FLAG]),
            3 => {
                let mut faulty = packet(random);
                let at = random.below(faulty.len());
                faulty[at] ^= 1 << random.below(8);
                bytes.extend(faulty);
            }
            _ => bytes.extend(packet(random)),
        }
    }
    bytes.truncate(n);
    bytes
}

/// A stream in so many blocks, the last of them filled with flags or not.
pub fn sent(random: &mut Random, blocks: usize) -> Vec<u8> {
    let spare = [0, random.below(MESSAGE), random.below(30)][random.below(3)];
    let plain = packets(random, blocks * MESSAGE - spare);
    channel::in_blocks(&plain, usize::MAX).unwrap()
}

/// Bytes in front of the first marker: none, random ones, almost the marker, the marker too early.
pub fn stray(random: &mut Random) -> Vec<u8> {
    let n = random.below(40);
    match random.below(8) {
        0 | 1 => vec![],
        2 | 3 => random.bytes(n),
        4 => vec![0x7D, 0x3A, 0xE2, 0x7D, 0x3A, 0xE2, 0x42],
        5 => [&[0x7D, 0x3A, 0x7D, 0x7D, 0x3A, 0xE2][..], &MARKER[..random.below(4)]].concat(),
        6 => (0..n).map(|_| MARKER[random.below(4)]).collect(),
        _ => [&MARKER[..], &random.bytes(n)].concat(),
    }
}

/// How a run is cut: not at all, once, or in many pieces.
fn cut(random: &mut Random, run: Run) -> Run {
    let kind = random.below(3);
    cut_as(kind, random, run)
}

fn cut_as(kind: usize, random: &mut Random, mut run: Run) -> Run {
    if kind > 0 {
        run.first = random.below(run.bytes.len() + 1);
    }
    if kind > 1 {
        run.first %= 300;
        run.seed = 1 + random.next() % 0x7FFFFFFE;
    }
    run
}

/// One block cut at every place; behind it nothing, a wrong marker, a marker one byte late, or a marker and some of a word. The block is
/// as sent, repaired, or beyond repair.
fn everywhere(random: &mut Random, runs: &mut Vec<Run>) {
    for (places, before, behind) in [
        (0, &[][..], &[][..]),
        (0, &MARKER[..3], &[0x43, FLAG]),
        (0, &[0x7D], &MARKER),
        (0, &MARKER, &[FLAG, 0x21]),
        (16, &[], &[]),
        (16, &MARKER, &[FLAG, 0x21]),
        (17, &MARKER, &[FLAG, 0x21]),
    ] {
        let mut block = sent(random, 1);
        alter(random, &mut block[4..], places);
        let bytes = [&block, before, behind].concat();
        for first in 0..=bytes.len() {
            runs.push(Run { first, ..Run::whole(bytes.clone()) });
        }
    }
}

/// Alters so many bytes of a part, each in a place of its own.
pub fn alter(random: &mut Random, part: &mut [u8], count: usize) {
    let mut places: Vec<usize> = (0..part.len()).collect();
    for _ in 0..count {
        let at = places.swap_remove(random.below(places.len()));
        part[at] ^= 1 + random.below(255) as u8;
    }
}

/// Damages a word: mostly in 1 to 16 places, which is repaired, else in 17 to 20, or all of it.
pub fn damage(random: &mut Random, word: &mut [u8]) {
    let (few, many) = (1 + random.below(16), 17 + random.below(4));
    match random.below(6) {
        0 => word.fill_with(|| random.byte()),
        1 => alter(random, word, many),
        _ => alter(random, word, few),
    }
}

/// Damages every word of a stream in blocks.
pub fn damage_all(random: &mut Random, blocks: &mut [u8]) {
    blocks.chunks_mut(BLOCK).for_each(|block| damage(random, &mut block[4..]));
}

/// Streams with stray bytes in front and blocks, markers or lengths changed on the way.
fn changed(random: &mut Random, runs: &mut Vec<Run>) {
    for i in 0..2880 {
        let blocks = 2 + random.below(5) * random.below(2);
        let mut bytes = sent(random, blocks);
        let start = BLOCK * random.below(blocks);
        let at = random.below(bytes.len());
        let few = 1 + random.below(5);
        let many = 2 + random.below(60);
        match i % 12 {
            0 => {}
            1 | 2 => damage(random, &mut bytes[start + 4..start + BLOCK]),
            3 => alter(random, &mut bytes[start + 4..start + BLOCK], many),
            4 => bytes[start + 4..start + BLOCK].fill_with(|| random.byte()),
            5 => alter(random, &mut bytes[start..start + 4], 1),
            6 => bytes[start..start + 4].fill_with(|| random.byte()),
            7 => drop(bytes.drain(at..(at + few).min(bytes.len()))),
            8 => drop(bytes.splice(at..at, random.bytes(few))),
            9 => damage_all(random, &mut bytes),
            10 => {
                damage_all(random, &mut bytes);
                alter(random, &mut bytes[start..start + 4], 1);
            }
            _ => bytes.truncate(at),
        }
        let bytes = [stray(random), bytes].concat();
        runs.push(cut(random, Run::whole(bytes)));
    }
}

/// Words altered in 0 to 20 places, cut in every way. Behind them nothing, or some of a further block: the word buffer is told as repair
/// left it.
fn repaired(random: &mut Random, runs: &mut Vec<Run>) {
    for places in 0..=20 {
        for i in 0..12 {
            let mut bytes = sent(random, 3);
            bytes.truncate(2 * BLOCK + [0, 3, 4, 100][i / 3]);
            for start in [0, BLOCK] {
                alter(random, &mut bytes[start + 4..start + BLOCK], places);
            }
            runs.push(cut_as(i % 3, random, Run::whole(bytes)));
        }
    }
}

/// Words on the way between two clean ones that differ in 33 places: repaired to the nearer one.
fn between(random: &mut Random, runs: &mut Vec<Run>) {
    for steps in 0..=33 {
        let mut way = vec![0; MESSAGE];
        way[0] = 1 + random.below(255) as u8;
        way.extend(parity::make(ROOTS, &way, 64).unwrap());
        way.rotate_left(random.below(WORD)); // a clean word turned round is clean
        let mut places: Vec<usize> = (0..WORD).filter(|at| way[*at] != 0).collect();
        let mut bytes = sent(random, 1);
        for _ in 0..steps {
            let at = places.swap_remove(random.below(places.len()));
            bytes[4 + at] ^= way[at];
        }
        runs.push(cut(random, Run::whole(bytes)));
    }
}

/// Words that are zero at all roots but the last one or the first one, and words that are zero at one more.
fn nearly(random: &mut Random, runs: &mut Vec<Run>) {
    for i in 0..12 {
        let roots = [31, 31, 33][i % 3];
        let mut word = packets(random, WORD - roots);
        word.extend(parity::make(roots as u64, &word, 64).unwrap());
        if i % 3 == 1 {
            for (at, b) in word.iter_mut().enumerate() {
                *b = parity::times(*b, parity::power(at as u64 + 1));
            }
        }
        runs.push(cut(random, Run::whole([&MARKER[..], &word].concat())));
    }
}

/// Up to four bytes too many or too few before the second marker: some of the four at the lost lock begin a marker.
fn slipped(random: &mut Random, runs: &mut Vec<Run>) {
    for i in 0..320 {
        let mut bytes = sent(random, 3);
        let few = 1 + i % 4;
        match i / 4 % 4 {
            0 => drop(bytes.splice(BLOCK..BLOCK, random.bytes(few))),
            1 => drop(bytes.splice(BLOCK..BLOCK, MARKER[..few].to_vec())),
            2 => drop(bytes.splice(BLOCK..BLOCK, vec![0x7D; few])),
            _ => drop(bytes.drain(BLOCK - few..BLOCK)),
        }
        runs.push(cut(random, Run::whole(bytes)));
    }
}

/// One of some counts, now and then one beyond the limit.
fn count(random: &mut Random, within: &[usize], beyond: &[usize]) -> usize {
    let from = if random.below(12) == 0 { beyond } else { within };
    from[random.below(from.len())]
}

/// A receiver in any state: counts at and beyond their limits, also such as no run reaches.
fn any(random: &mut Random) -> Receiver {
    let raw = [0, 0, 1, 7, RAW_LIMIT - 1, RAW_LIMIT, RAW_LIMIT + 1, RAW_LIMIT + 2, random.below(RAW_LIMIT + 95)][random.below(9)];
    let stored = if random.below(15) == 0 { random.below(8300) } else { raw.min(RAW_LIMIT) };
    let (part, few) = (random.below(WORD), random.below(MESSAGE));
    let marker_bytes = count(random, &[0, 1, 2, 3], &[4, 5, 65535]);
    let mut hunted = [0x7D, 0x3A, 0xE2, [0x42, random.byte()][random.below(2)]];
    hunted.rotate_left(if random.below(2) == 0 { marker_bytes % 4 } else { random.below(4) });
    Receiver {
        locked: random.below(4) > 0,
        hunted,
        word_bytes: count(random, &[0, 1, WORD - 2, WORD - 1, WORD, WORD, WORD, WORD, part], &[WORD + 1, BLOCK, 65535]),
        message_bytes: count(random, &[0, 1, MESSAGE - 2, MESSAGE - 1, MESSAGE, MESSAGE, few], &[MESSAGE + 1, WORD, 65535]),
        marker_bytes,
        reader: Reader { waits: random.below(2) == 0, raw, stored, broken: cases::any_place(random, raw) },
    }
}

/// Any state, a whole word in the buffer, and the rest of a marker or any part of a stream to hear. The word in the buffer has had its
/// answer: it is handed on as it stands, also where it is not clean.
fn states(random: &mut Random, runs: &mut Vec<Run>) {
    for _ in 0..1800 {
        let receiver = any(random);
        let mut word = sent(random, 1).split_off(4);
        if random.below(3) == 0 {
            alter(random, &mut word, 3);
        }
        let mut bytes = sent(random, 2);
        if random.below(3) == 0 {
            damage(random, &mut bytes[4..BLOCK]);
        }
        let from = [receiver.marker_bytes.min(4), random.below(5), random.below(bytes.len())][random.below(3)];
        bytes.drain(..from);
        bytes.truncate(random.below(bytes.len() + 1));
        let run = Run { receiver, word, ..Run::whole(bytes) };
        runs.push(cut(random, run));
    }
}

/// A word begun before, whose rest is heard: the two parts belong together, and the word is clean, repaired or beyond repair.
fn word_in_two(random: &mut Random, runs: &mut Vec<Run>) {
    for i in 0..300 {
        let mut word = sent(random, 1).split_off(4);
        if i % 4 < 2 {
            damage(random, &mut word);
        }
        let there = if i < 20 { [0, 1, MESSAGE - 1, MESSAGE, MESSAGE + 1, WORD - 2, WORD - 1][i % 7] } else { random.below(WORD) };
        let mut bytes = word.split_off(there);
        bytes.extend(sent(random, 1));
        word.resize(WORD + i % 3, 0x33);
        let mut receiver = any(random);
        (receiver.locked, receiver.word_bytes) = (true, there);
        receiver.reader = Reader { waits: i % 2 == 1, raw: 0, stored: 0, broken: 0 };
        runs.push(cut(random, Run { receiver, word, ..Run::whole(bytes) }));
    }
}

/// Buffers too short, exact and longer, with states that are refused and such as are not.
fn buffers(random: &mut Random, runs: &mut Vec<Run>) {
    for space in [0, RAW_LIMIT - 1, RAW_LIMIT, RAW_LIMIT + 1, 8300] {
        for length in [0, 1, MESSAGE, WORD - 1, WORD, WORD + 1, 300] {
            for i in 0..6 {
                let receiver = if i < 2 { Receiver::new() } else { any(random) };
                let mut block = sent(random, 1);
                if i % 2 == 1 {
                    damage(random, &mut block[4..]);
                }
                let bytes = [stray(random), block].concat();
                let run = Run { receiver, word: random.bytes(length), space, ..Run::whole(bytes) };
                runs.push(cut(random, run));
            }
        }
    }
}

/// Frames of the greatest length and beyond, over many blocks: as sent, with a word repaired, and with one beyond repair.
fn longest(random: &mut Random, runs: &mut Vec<Run>) {
    let escaped = Packet::new(0x5100, 0x7E7D, &[0x7E; 4096]);
    let plain = Packet::new(0x5101, 2, &[0x41; 8192]);
    let beyond = Packet::new(0x5102, 3, &[0x41; 8193]);
    let keyed = [&escaped, &plain, &beyond].map(|packet| packet.clone().restricted(0x7E, &[0x7D; 32]).raw());
    let greatest = key_cases::longest(0x507D, &[0x41; 8192]).raw();
    let other = [vec![0x41; RAW_LIMIT], vec![0x41; RAW_LIMIT + 1], vec![0x7D; 9000]];
    for frame in [vec![greatest, escaped.raw(), plain.raw(), beyond.raw()], keyed.to_vec(), other.to_vec()].concat() {
        let bytes = [&[FLAG][..], &frame, &[FLAG], &packet(random)].concat();
        for places in [0, 1, 16, 17] {
            let mut bytes = channel::in_blocks(&bytes, usize::MAX).unwrap();
            let at = BLOCK * (1 + random.below(30));
            alter(random, &mut bytes[at + 4..at + BLOCK], places);
            runs.push(cut(random, Run::whole(bytes.clone())));
            runs.push(cut_as(2, random, Run::whole(bytes)));
        }
    }
}

/// An escape that breaks over the end of a word: 7D is the last byte of a message, and the byte behind it the first of the next one. The
/// frame is closed or not, lock is kept or lost, and the blocks are cut at every place.
fn broken_escape(runs: &mut Vec<Run>) {
    let message = [&[FLAG; MESSAGE - 2][..], &[0x41, 0x7D, 0x21, 0x42, FLAG]].concat();
    let blocks = channel::in_blocks(&message, usize::MAX).unwrap();
    let open = channel::in_blocks(&[&message[..MESSAGE + 2], &[0x43; MESSAGE - 2]].concat(), usize::MAX).unwrap();
    for bytes in [blocks, open.clone(), [&open[..], &[0; 4]].concat()] {
        for first in 0..=bytes.len() {
            runs.push(Run { first, ..Run::whole(bytes.clone()) });
        }
    }
}
