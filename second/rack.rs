//! Calls for the rack's functions, as rack/cases.c reads them, and what they answer and leave: words, streams and channels, two of them in turns,
//! states of any numbers, buffers of any length.
//!
//! A call: a letter and what it lends; numbers have 8 bytes and lengths 2, low byte first. `M` r, message, length of the output; `C` r, word; `F` r,
//! word; `Z` which of two receivers, a byte for its buffers, its 21 numbers; `S` which, length of the receive buffer, piece; `O` which, lengths of
//! receive buffer and word buffer, piece. A message, word or piece is a length and its bytes. An answer: the number; of `S` and `O` the 21
//! numbers; then a sum of all bytes of the memory that was lent, and of those behind it.

use crate::cases::{raws, Random};
use crate::channel::{self, Answer, Receiver, MESSAGE, ROOTS};
use crate::packet::{Fault, Frame, FLAG, RAW_LIMIT};
use crate::parity::{self, WORD};
use crate::repair;
use crate::stream::Reader;

/// Memory of a receive buffer and of a word buffer, or of a word; as much is lent of it as a call says.
const RECV: usize = RAW_LIMIT + 128;
const SHORT: usize = 512;
const NUMBERS: usize = 21;

/// One of the two receivers that calls take turns on.
#[derive(Clone)]
struct Held {
    numbers: [u64; NUMBERS],
    recv: Vec<u8>,
    word: Vec<u8>,
}

struct Script {
    asked: Vec<u8>,
    told: Vec<u8>,
    held: [Held; 2],
    calls: usize,
    /// The answers that were given, each with the letter of its call.
    seen: std::collections::BTreeSet<(u8, u64)>,
}

/// A sum that changes with every byte and with its place (FNV-1a).
fn sum(bytes: &[u8]) -> u64 {
    bytes.iter().fold(0xCBF29CE484222325, |sum, byte| (sum ^ *byte as u64).wrapping_mul(0x100000001B3))
}

/// The memory that a word or an output is lent from.
fn filled(bytes: &[u8]) -> Vec<u8> {
    let mut all = vec![0xA5; SHORT];
    all[..bytes.len()].copy_from_slice(bytes);
    all
}

/// The state of a frame reader from its numbers.
fn reader_of(numbers: &[u64; NUMBERS]) -> Reader {
    Reader { waits: numbers[8] == 0, raw: numbers[9] as usize, stored: numbers[10] as usize, broken: numbers[11] as usize }
}

fn receiver_of(numbers: &[u64; NUMBERS]) -> Receiver {
    Receiver {
        locked: numbers[13] != 0,
        hunted: std::array::from_fn(|i| numbers[17 + i] as u8),
        word_bytes: numbers[14] as usize,
        message_bytes: numbers[15] as usize,
        marker_bytes: numbers[16] as usize,
        reader: reader_of(numbers),
    }
}

impl Held {
    /// What an accepted call tells, and the frame reader behind it; the answer.
    fn tell(&mut self, taken: usize, frame: Option<Frame>, reader: &Reader) -> u64 {
        self.numbers[..8].fill(0);
        self.numbers[0] = taken as u64;
        self.numbers[8..12].copy_from_slice(&[!reader.waits as u64, reader.raw as u64, reader.stored as u64, reader.broken as u64]);
        match frame {
            None => 0,
            Some(Ok(packet)) => {
                let (key, at) = (packet.key_length as u64, packet.payload(&self.recv).as_ptr() as u64 - self.recv.as_ptr() as u64);
                self.numbers[1..8].copy_from_slice(&[
                    packet.format as u64,
                    packet.key_number as u64,
                    key,
                    packet.port as u64,
                    packet.sequence as u64,
                    packet.payload_length as u64,
                    at,
                ]);
                256
            }
            Some(Err(Fault::BrokenEscape(place))) => {
                self.numbers[7] = place as u64;
                3
            }
            Some(Err(Fault::Number(n))) => n as u64,
        }
    }

    fn stream_call(&mut self, room: usize, piece: &[u8]) -> u64 {
        let mut reader = reader_of(&self.numbers);
        match reader.call(&mut self.recv[..room], piece) {
            Err(n) => n as u64,
            Ok((frame, taken)) => self.tell(taken, frame, &reader),
        }
    }

    fn channel_call(&mut self, room: usize, word_room: usize, piece: &[u8]) -> u64 {
        let mut receiver = receiver_of(&self.numbers);
        let (answer, taken) = match receiver.call(&mut self.recv[..room], &mut self.word[..word_room], piece) {
            Err(n) => return n as u64,
            Ok(given) => given,
        };
        let frame = match answer {
            Some(Answer::Frame(frame)) => Some(frame),
            _ => None,
        };
        let number = self.tell(taken, frame, &receiver.reader);
        let counts = [receiver.word_bytes as u64, receiver.message_bytes as u64, receiver.marker_bytes as u64];
        self.numbers[12..14].copy_from_slice(&[0, receiver.locked as u64]);
        self.numbers[14..17].copy_from_slice(&counts);
        self.numbers[17..].copy_from_slice(&receiver.hunted.map(u64::from));
        match answer {
            Some(Answer::LockLost) => 257,
            Some(Answer::Block(Some(0))) => 258,
            Some(Answer::Block(Some(places))) => {
                self.numbers[12] = places as u64;
                259
            }
            Some(Answer::Block(None)) => 260,
            _ => number,
        }
    }
}

impl Script {
    fn lend(&mut self, bytes: &[u8]) {
        self.length(bytes.len());
        self.asked.extend(bytes);
    }

    fn length(&mut self, n: usize) {
        self.asked.extend((n as u16).to_le_bytes());
    }

    fn number(&mut self, n: u64) {
        self.asked.extend(n.to_le_bytes());
    }

    fn answer(&mut self, call: u8, n: u64) {
        self.calls += 1;
        self.seen.insert((call, n));
        self.told.extend(n.to_le_bytes());
    }

    fn remember(&mut self, bytes: &[u8]) {
        self.told.extend(sum(bytes).to_le_bytes());
    }

    fn make(&mut self, r: u64, message: &[u8], room: usize) {
        self.asked.push(b'M');
        self.number(r);
        self.lend(message);
        self.length(room);
        let made = parity::make(r, message, room);
        self.answer(b'M', made.as_ref().map_or_else(|n| *n as u64, |_| 0));
        self.remember(&filled(&made.unwrap_or_default()));
        self.remember(&filled(message));
    }

    fn check(&mut self, r: u64, word: &[u8]) {
        self.asked.push(b'C');
        self.number(r);
        self.lend(word);
        self.answer(b'C', parity::check(r, word).map_or_else(u64::from, |clean| !clean as u64));
        self.remember(&filled(word));
    }

    fn repair(&mut self, r: u64, word: &[u8]) {
        self.asked.push(b'F');
        self.number(r);
        self.lend(word);
        let mut left = word.to_vec();
        let answer = match repair::repair(r, &mut left) {
            Err(n) => n as u64,
            Ok(Some(0)) => 0,
            Ok(Some(places)) => 256 + places as u64,
            Ok(None) => 1,
        };
        self.answer(b'F', answer);
        self.remember(&filled(&left));
    }

    /// A receiver with these numbers, its buffers filled with one byte.
    fn begin(&mut self, which: usize, fill: u8, numbers: [u64; NUMBERS]) {
        self.asked.extend([b'Z', which as u8, fill]);
        numbers.into_iter().for_each(|n| self.number(n));
        self.held[which] = Held { numbers, recv: vec![fill; RECV], word: vec![fill; SHORT] };
    }

    /// One call on a receiver; whether more is to be handed in, and from where.
    fn hear(&mut self, which: usize, marked: bool, room: usize, word_room: usize, piece: &[u8]) -> (bool, usize) {
        self.asked.extend([if marked { b'O' } else { b'S' }, which as u8]);
        self.length(room);
        if marked {
            self.length(word_room);
        }
        self.lend(piece);
        let mut held = self.held[which].clone();
        let n = if marked { held.channel_call(room, word_room, piece) } else { held.stream_call(room, piece) };
        self.answer(if marked { b'O' } else { b'S' }, n);
        held.numbers.iter().for_each(|n| self.told.extend(n.to_le_bytes()));
        self.remember(&held.recv);
        self.remember(&held.word);
        let taken = held.numbers[0] as usize;
        self.held[which] = held;
        (n != 0 && n != 10 && n != 11, taken)
    }
}

/// Frames of every kind in a stream, with stray bytes.
fn stream(random: &mut Random, raws: &[Vec<u8>], frames: usize) -> Vec<u8> {
    let mut bytes = random.bytes(3);
    bytes.push(FLAG);
    for _ in 0..frames {
        match random.below(9) {
            0 => bytes.extend([0x7D, 0x7E, 0x7E]),
            1 => bytes.extend(vec![0x41; RAW_LIMIT + random.below(3)]),
            _ => bytes.extend(&raws[random.below(raws.len())]),
        }
        bytes.push(FLAG);
    }
    bytes
}

/// Two receivers hear two streams, piece by piece in turns.
fn turns(script: &mut Script, random: &mut Random, marked: bool, streams: [Vec<u8>; 2]) {
    for which in 0..2 {
        script.begin(which, random.byte(), [0; NUMBERS]);
    }
    let mut at = [0; 2];
    while (0..2).any(|which| at[which] < streams[which].len()) {
        let which = random.below(2);
        let left = &streams[which][at[which]..];
        let cut = [0, 1, 4, 255, 259, 4096, random.below(700)][random.below(7)].min(left.len());
        let mut piece = left[..cut].to_vec();
        at[which] += cut;
        let (room, word_room) = (RAW_LIMIT + random.below(3) * 64, WORD + random.below(3) * 9);
        while let (true, taken) = script.hear(which, marked, room, word_room, &piece) {
            piece.drain(..taken);
        }
    }
}

/// States of any numbers, with buffers of any length.
fn states(script: &mut Script, random: &mut Random, pieces: &[Vec<u8>]) {
    let edges = |random: &mut Random| {
        let limit = RAW_LIMIT as u64;
        let some = [0, 1, 2, 3, 4, 222, 223, 224, 254, 255, 256, limit - 1, limit, limit + 1, limit + 2, 1 << 16, 1 << 32, 1 << 63, u64::MAX - 1, u64::MAX, random.next()];
        some[random.below(some.len())]
    };
    for i in 0..3000 {
        let mut numbers = [0; NUMBERS];
        // most numbers are in order, so that others are looked at
        let raw = [0, 5, RAW_LIMIT as u64, RAW_LIMIT as u64 + 1][random.below(4)];
        numbers[8..12].copy_from_slice(&[random.below(2) as u64, raw, raw.min(RAW_LIMIT as u64), 0]);
        numbers[13] = random.below(2) as u64;
        numbers[14..17].copy_from_slice(&[[0, 9, 254, 255][random.below(4)], [0, 222, 223][random.below(3)], random.below(4) as u64]);
        for _ in 0..1 + random.below(2) {
            let edge = edges(random);
            numbers[random.below(NUMBERS)] = edge;
        }
        script.begin(i % 2, random.byte(), numbers);
        let room = [0, 1, RAW_LIMIT - 1, RAW_LIMIT, RAW_LIMIT, RAW_LIMIT, RECV][random.below(7)];
        let word_room = [0, WORD - 1, WORD, WORD, WORD, SHORT][random.below(6)];
        let piece = &pieces[random.below(pieces.len())];
        let cut = random.below(piece.len() + 1).min(600);
        for marked in [i % 3 == 0, i % 3 != 0] {
            script.hear(i % 2, marked, room, word_room, &piece[..cut]);
        }
    }
}

fn words(script: &mut Script, random: &mut Random) {
    for r in (0..=66).chain([255, 256, 1 << 32, u64::MAX - 254, u64::MAX]) {
        let right = WORD.saturating_sub(r.min(WORD as u64) as usize);
        for length in [right, right, 0, right.saturating_sub(1), right + 1, WORD] {
            for room in [r.min(400) as usize, (r.min(400) as usize).saturating_sub(1), 0, 300] {
                let message = random.bytes(length);
                script.make(r, &message, room);
            }
        }
        for length in [0, WORD - 1, WORD, WORD + 1, 400] {
            let word = random.bytes(length);
            script.check(r, &word);
            script.repair(r, &word);
        }
        if r > 64 {
            continue;
        }
        let half = r as usize / 2;
        for places in [0, 1, half, half + 1, half + 2, 60] {
            let word = repair::altered(random, r as usize, places).1;
            script.check(r, &word);
            script.repair(r, &word);
        }
    }
}

/// The calls and their answers, into two files.
pub fn write(asked: &str, told: &str, seed: u64) {
    let mut random = Random::new(seed);
    let fresh = || Held { numbers: [0; NUMBERS], recv: vec![0; RECV], word: vec![0; SHORT] };
    let mut script = Script { asked: vec![], told: vec![], held: [fresh(), fresh()], calls: 0, seen: Default::default() };
    words(&mut script, &mut random);
    let raws = raws(&mut random);
    let mut pieces = vec![];
    for _ in 0..12 {
        let two: [Vec<u8>; 2] = std::array::from_fn(|_| stream(&mut random, &raws, 12));
        turns(&mut script, &mut random, false, two.clone());
        let marked = two.map(|bytes| damaged(&mut random, channel::in_blocks(&bytes, usize::MAX).expect("any stream")));
        turns(&mut script, &mut random, true, marked.clone());
        pieces.extend(marked);
        pieces.push(stream(&mut random, &raws, 3));
    }
    // a frame of each kind, in whole words: on both streams every answer to a frame occurs
    let mut kinds = std::collections::BTreeMap::new();
    for raw in &raws {
        let (mut held, bytes) = (fresh(), [&[FLAG][..], raw, &[FLAG]].concat());
        kinds.entry(held.stream_call(RAW_LIMIT, &bytes)).or_insert(bytes);
    }
    let each: Vec<u8> = kinds.into_values().flatten().collect();
    let whole = channel::in_blocks(&each, usize::MAX).expect("any stream");
    turns(&mut script, &mut random, false, [each.clone(), each]);
    turns(&mut script, &mut random, true, [whole.clone(), whole]);
    states(&mut script, &mut random, &pieces);
    let frames = [0, 1, 2, 3, 4, 5, 6, 7, 8, 10, 11, 12, 256];
    let every: [(u8, Vec<u64>); 5] = [
        (b'M', vec![0, 23, 30, 31]),
        (b'C', vec![0, 1, 30, 31]),
        (b'F', vec![0, 1, 30, 31, 257, 272]),
        (b'S', frames.to_vec()),
        (b'O', [&frames[..], &[257, 258, 259, 260]].concat()),
    ];
    for (call, answers) in every {
        let never: Vec<u64> = answers.into_iter().filter(|n| !script.seen.contains(&(call, *n))).collect();
        assert!(never.is_empty(), "never answered by {}: {never:?}", call as char);
    }
    std::fs::write(asked, &script.asked).expect(asked);
    std::fs::write(told, &script.told).expect(told);
    println!("{} calls on the rack's functions, {} different answers", script.calls, script.seen.len());
    // a word's 1 is no refusal
    let refusals = script.seen.iter().filter(|(call, n)| *n < 256 && *n > (b"CF".contains(call) as u64)).map(|(_, n)| *n);
    let refusals: std::collections::BTreeSet<u64> = refusals.collect();
    println!("refused {}", refusals.iter().map(u64::to_string).collect::<Vec<_>>().join(" "));
}

/// Marked blocks with bytes altered: few in most words, many in some, a marker now and then.
fn damaged(random: &mut Random, mut bytes: Vec<u8>) -> Vec<u8> {
    for block in bytes.chunks_mut(channel::BLOCK) {
        let places = [0, 0, 1, 5, ROOTS as usize / 2, 40][random.below(6)];
        for _ in 0..places {
            let at = 4 + random.below(WORD.min(MESSAGE + 20));
            block[at] = random.byte();
        }
        if random.below(40) == 0 {
            block[random.below(4)] ^= 1;
        }
    }
    bytes
}
