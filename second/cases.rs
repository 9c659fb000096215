//! Cases for the comparison: how they are written, which are asked, and what the second program answers.
//! crates/cases_calls/src/main.rt has the form of a case and of an answer, crates/cases_stream/src, crates/cases_channel/src, crates/cases_listing/src,
//! crates/cases_board/src and crates/cases_capture/src that of an answer in pieces; crates/cases_interleaver/src/main.rt what is asked of the interleaver and of a fixed
//! sub-channel's sender, crates/cases_four/src/main.rt of its receiver, whose states are carried over from case to case; crates/cases_unit/src/main.rt what
//! is asked of Layer 2 units.

use crate::interleaver::{Sender, Sides, CELLS};
use crate::packet::{Delivery, Fault, Frame, Packet, FLAG, RAW_LIMIT};
use crate::parity::WORD;
use crate::repair::altered;
use crate::stream::Reader;
use crate::{board_cases, capture_calls, channel, channel_cases, fcs, fixed_cases, key_cases, listing_cases, packet, parity, repair, stream, unit_cases};

pub struct Case {
    pub asked: u8,
    pub number: u64,
    pub space: u16,
    pub bytes: Vec<u8>,
}

/// What a file of cases carries over from one to the next.
pub struct Carried {
    sides: Sides,
    fixed: fixed_cases::Carried,
}

impl Carried {
    pub fn new() -> Self {
        Carried { sides: Sides::new(), fixed: fixed_cases::Carried::new() }
    }
}

impl Case {
    pub fn write(&self, to: &mut Vec<u8>) {
        assert!(self.bytes.len() <= 65535, "a case is too long");
        to.push(self.asked);
        to.extend(self.number.to_le_bytes());
        to.extend(self.space.to_le_bytes());
        to.extend((self.bytes.len() as u16).to_le_bytes());
        to.extend(&self.bytes);
    }

    /// Which program answers it, cases_KIND: a stream, a channel, a recording's listing, a board, a capture, a Layer 2 unit, the interleaver and a fixed
    /// sub-channel's sender, a receiver of four of those, and `calls`: each other single call. A letter belongs to one of them.
    pub fn kind(&self) -> &'static str {
        match self.asked {
            b'S' => "stream",
            b'O' => "channel",
            b'L' => "listing",
            b'b' => "board",
            b'U' | b'u' => "unit",
            b'r' | b'e' | b'f' | b'd' => "capture",
            b'I' | b'J' | b'Z' | b'N' | b'X' | b'V' | b's' | b'g' | b'q' | b'p' | b'w' => "interleaver",
            b'n' | b'c' | b'h' | b'x' | b'v' => "four",
            _ => "calls",
        }
    }

    /// What the second program answers, as bytes.
    pub fn reply(&self, carried: &mut Carried) -> Vec<u8> {
        let mut out = vec![0xA5; self.space as usize];
        let mut reply = match self.asked {
            b'S' => self.stream_in_pieces(&mut out),
            b'O' => channel_cases::channel_in_pieces(self.number, &self.bytes, &mut out),
            b'L' => listing_cases::recording_in_pieces(self.number, &self.bytes, &mut out),
            b'b' => board_cases::read_by_calls(self.number, &self.bytes, &mut out),
            b'r' => capture_calls::capture_in_pieces(self.number, &self.bytes, &mut out),
            b'Q' => self.closed_frame(&mut out),
            b's' | b'g' | b'q' => fixed_cases::sender_reply(self, &mut carried.sides.sender, &mut out),
            b'p' | b'w' => fixed_cases::four_reply(self, &mut out),
            _ if self.kind() == "interleaver" => self.turn(&mut carried.sides, &mut out).to_le_bytes().to_vec(),
            _ if self.kind() == "four" => carried.fixed.reply(self, &mut out),
            _ => self.number_of_call(&mut out).to_le_bytes().to_vec(),
        };
        reply.extend(out);
        reply
    }

    fn number_of_call(&self, out: &mut [u8]) -> u64 {
        let (low, next) = (self.number as u16, (self.number >> 16) as u16);
        match self.asked {
            b'F' => fcs::check(&self.bytes) as u64,
            b'G' => fcs::register_after(low, &self.bytes) as u64,
            b'T' => parity::times((low >> 8) as u8, low as u8) as u64,
            b'E' => parity::power(self.number) as u64,
            b'P' => answer_in(parity::make(self.number, &self.bytes, out.len()), out),
            b'W' => parity::check(self.number, &self.bytes).map_or_else(refusal, |clean| !clean as u64),
            b'Y' => {
                lay(&self.bytes, out);
                repair::repair(self.number, out).map_or_else(refusal, |repaired| repaired.map_or(256, |places| places as u64))
            }
            b'C' => class_number(low),
            b'K' => answer_in(packet::escaped_packet(low, next, &self.bytes, out.len()), out),
            b'B' => answer_in(if out.is_empty() { Err(23) } else { Ok(vec![packet::FLAG]) }, out),
            b'A' => {
                let at = out.len().min((self.number >> 32) as usize);
                answer_in(packet::escaped_packet(low, next, &self.bytes, out.len() - at), &mut out[at..])
            }
            b'k' => answer_in(key_cases::packet_in(self.number, &self.bytes).escaped(out.len()), out),
            b'a' => {
                let at = out.len().min((self.number >> 32) as usize);
                answer_in(key_cases::packet_in(self.number, &self.bytes).escaped(out.len() - at), &mut out[at..])
            }
            b'D' => part(key_cases::delivery_in(self.number).payload(&self.bytes), out),
            b'H' => part(key_cases::delivery_in(self.number).key(&self.bytes), out),
            b'f' => answer_in(capture_calls::begun(out.len()), out),
            b'e' => answer_in(capture_calls::entered(self.number as u32, &self.bytes, out.len()), out),
            b'd' => part(capture_calls::all_bytes(key_cases::delivery_in(self.number), &self.bytes), out),
            b'M' => answer_in(channel::marked_block(&self.bytes, out.len()), out),
            b'R' => answer_in(channel::in_blocks(&self.bytes, out.len()), out),
            b'U' => answer_in(unit_cases::written(self.number, &self.bytes, out.len()), out),
            b'u' => answer_in(unit_cases::read(self.number, &self.bytes, out.len()), out),
            _ => 0,
        }
    }

    /// A closed frame, of raw bytes that the output holds from its start: two numbers.
    fn closed_frame(&self, out: &mut [u8]) -> Vec<u8> {
        lay(&self.bytes, out);
        let result = packet::frame_call(out, self.number as usize);
        let mut told = Vec::new();
        push_all(&mut told, &[frame_number(result), result.map_or(0, key_numbers)]);
        told
    }

    /// The interleaver: both sides as they stand behind this case.
    fn turn(&self, sides: &mut Sides, out: &mut [u8]) -> u64 {
        match self.asked {
            b'I' => answer_in(sides.sender.push(self.number, &self.bytes, out.len()), out),
            b'Z' => answer_in(sides.sender.close(self.number, out.len()), out),
            b'J' => answer_in(sides.receiver.pull(self.number, &self.bytes, out.len()), out),
            b'V' if self.number == 0 => {
                lay(&sides.sender.cells, out);
                sides.sender.place
            }
            b'V' => {
                out.fill(sides.receiver.again as u8);
                lay(&sides.receiver.cells, out);
                sides.receiver.place
            }
            b'X' => {
                (sides.sender.place, sides.receiver.place, sides.receiver.again) = (self.number, self.number, self.bytes[0] != 0);
                0
            }
            _ => {
                *sides = Sides::new();
                0
            }
        }
    }

    /// A stream read in pieces, the receive buffer lent.
    fn stream_in_pieces(&self, buffer: &mut [u8]) -> Vec<u8> {
        let mut told = Vec::new();
        let pair = |i: usize| u16::from_le_bytes([self.bytes[i], self.bytes[i + 1]]) as usize;
        let bytes = &self.bytes[4..];
        let mut reader = reader_in(self.number, pair(0));
        let (mut at, mut end, mut seed) = (0, pair(2).min(bytes.len()), self.number & 0x7FFFFFFF);
        loop {
            let result = reader.call(buffer, &bytes[at..end]);
            let taken = result.map_or(0, |(_, taken)| taken);
            at += taken;
            push_all(&mut told, &[taken as u64, result.map_or_else(refusal, |(answer, _)| answer.map_or(0, frame_number))]);
            match result {
                Err(_) => break,
                Ok((Some(Ok(packet)), _)) => push_delivered(&mut told, &packet, buffer),
                Ok((Some(Err(_)), _)) => {}
                Ok((None, _)) if end == bytes.len() => break,
                Ok((None, _)) => {
                    let (length, next) = stream::piece_length(seed, bytes.len() - at);
                    (end, seed) = (at + length, next);
                }
            }
        }
        push_all(&mut told, &[!reader.waits as u64, reader.raw as u64, reader.stored as u64, reader.broken as u64]);
        told
    }
}

/// The reader in the number of a case, with the place that stands beside it.
pub fn reader_in(number: u64, broken: usize) -> Reader {
    Reader { waits: number >> 31 & 1 == 0, raw: (number >> 32) as usize & 0xFFFF, stored: (number >> 48) as usize, broken }
}

/// The same the other way round.
pub fn reader_number(reader: &Reader) -> u64 {
    (!reader.waits as u64) << 31 | (reader.raw as u64) << 32 | (reader.stored as u64) << 48
}

pub fn frame_number(result: Frame) -> u64 {
    result.map_or_else(fault_number, |p| p.port as u64 | (p.sequence as u64) << 16 | (p.payload_length as u64) << 32 | 1 << 56)
}

/// What else is told of a packet: format, key number and key length.
fn key_numbers(packet: Delivery) -> u64 {
    packet.format as u64 | (packet.key_number as u64) << 8 | (packet.key_length as u64) << 16
}

/// The same, and key and payload.
pub fn push_delivered(told: &mut Vec<u8>, packet: &Delivery, buffer: &[u8]) {
    push_all(told, &[key_numbers(*packet)]);
    told.extend(packet.key(buffer));
    told.extend(packet.payload(buffer));
}

/// A broken escape has its place above its number.
fn fault_number(fault: Fault) -> u64 {
    match fault {
        Fault::Number(n) => refusal(n),
        Fault::BrokenEscape(place) => refusal(3) | (place as u64) << 32,
    }
}

pub fn refusal(n: u8) -> u64 {
    65536 + n as u64
}

/// The classes in the order of the paper's table; the last number: may not be used.
fn class_number(port: u16) -> u64 {
    packet::class_letter(port).map_or(5, |letter| b"SAMDF".iter().position(|l| *l == letter).unwrap() as u64)
}

pub fn push_all(told: &mut Vec<u8>, numbers: &[u64]) {
    numbers.iter().for_each(|n| told.extend(n.to_le_bytes()));
}

/// Lays bytes at the start of the output, as many as it holds.
pub fn lay(bytes: &[u8], out: &mut [u8]) {
    let n = out.len().min(bytes.len());
    out[..n].copy_from_slice(&bytes[..n]);
}

/// The length of a part that is handed out; it is laid into the output.
fn part(bytes: &[u8], out: &mut [u8]) -> u64 {
    lay(bytes, out);
    bytes.len() as u64
}

/// The answer of a call that writes its result to the start of the output.
pub fn answer_in(result: Result<Vec<u8>, u8>, out: &mut [u8]) -> u64 {
    result.map_or_else(refusal, |bytes| {
        out[..bytes.len()].copy_from_slice(&bytes);
        bytes.len() as u64
    })
}

/// Numbers that look random, the same ones for the same seed (xorshift64*).
pub struct Random(u64);

impl Random {
    pub fn new(seed: u64) -> Self {
        Random(seed.wrapping_mul(2).wrapping_add(1))
    }

    pub fn next(&mut self) -> u64 {
        self.0 ^= self.0 >> 12;
        self.0 ^= self.0 << 25;
        self.0 ^= self.0 >> 27;
        self.0.wrapping_mul(0x2545F4914F6CDD1D) >> 11
    }

    pub fn below(&mut self, n: usize) -> usize {
        (self.next() % n as u64) as usize
    }

    pub fn byte(&mut self) -> u8 {
        self.next() as u8
    }

    pub fn bytes(&mut self, n: usize) -> Vec<u8> {
        (0..n).map(|_| self.byte()).collect()
    }
}

/// R as it should be, and as it should not.
fn roots() -> Vec<u64> {
    let mut r: Vec<u64> = (0..=66).collect();
    r.extend([254, 255, 256, 257, 1 << 16, 1 << 32, u64::MAX - 254, u64::MAX - 1, u64::MAX]);
    r
}

pub fn all(seed: u64) -> Vec<Case> {
    let mut random = Random::new(seed);
    let mut cases = Vec::new();
    checks(&mut random, &mut cases);
    products(&mut random, &mut cases);
    parities(&mut random, &mut cases);
    words(&mut random, &mut cases);
    repairs(&mut random, &mut cases);
    matrices(&mut random, &mut cases);
    packets(&mut random, &mut cases);
    frames_of(&raws(&mut random), &mut cases);
    key_cases::all(&mut random, &mut cases);
    streams(&mut random, &mut cases);
    broken_escapes(&mut cases);
    channel_cases::all(&mut random, &mut cases);
    listing_cases::all(&mut random, &mut cases);
    board_cases::all(&mut random, &mut cases);
    fixed_cases::all(&mut random, &mut cases);
    capture_calls::all(&mut random, seed, &mut cases);
    cases
}

fn checks(random: &mut Random, cases: &mut Vec<Case>) {
    for b in 0..=255u8 {
        cases.push(Case { asked: b'F', number: 0, space: 0, bytes: vec![b] });
    }
    for n in (0..200).chain([254, 255, 256, 1000, 8191, 8192, 8193, 65535]) {
        for bytes in [random.bytes(n), vec![0; n], vec![0xFF; n]] {
            cases.push(Case { asked: b'F', number: 0, space: 0, bytes });
        }
        let number = random.next();
        cases.push(Case { asked: b'G', number, space: 0, bytes: random.bytes(n) });
    }
}

/// Every product, and powers small and large.
fn products(random: &mut Random, cases: &mut Vec<Case>) {
    for number in 0..65536 {
        cases.push(Case { asked: b'T', number, space: 0, bytes: vec![] });
    }
    let mut exponents: Vec<u64> = (0..600).collect();
    exponents.extend((9..64).flat_map(|k| [(1 << k) - 1, 1 << k]));
    exponents.push(u64::MAX);
    exponents.extend((0..400).map(|_| random.next()));
    for number in exponents {
        cases.push(Case { asked: b'E', number, space: 0, bytes: vec![] });
    }
}

/// Messages of n bytes: the plain ones, and random ones.
fn messages(random: &mut Random, n: usize) -> Vec<Vec<u8>> {
    let mut all = vec![vec![0; n], vec![0xFF; n], random.bytes(n), random.bytes(n), random.bytes(n)];
    if n > 0 {
        for at in [0, n - 1, random.below(n)] {
            let mut one = vec![0; n];
            one[at] = 1;
            all.push(one);
        }
    }
    all
}

fn parities(random: &mut Random, cases: &mut Vec<Case>) {
    for r in roots() {
        let right = WORD - r.min(WORD as u64) as usize;
        for bytes in messages(random, right) {
            for space in [r.min(300), r.min(300) + 1, 300, r.min(300).saturating_sub(1), 0] {
                cases.push(Case { asked: b'P', number: r, space: space as u16, bytes: bytes.clone() });
            }
        }
        for n in [0, 1, right.saturating_sub(1), right + 1, WORD - 1, WORD, WORD + 1] {
            cases.push(Case { asked: b'P', number: r, space: 70, bytes: random.bytes(n) });
        }
    }
}

/// Words that are clean, with 0 to 5 bytes altered, and words of wrong lengths.
fn words(random: &mut Random, cases: &mut Vec<Case>) {
    for r in roots() {
        for altered in 0..=5 {
            for _ in 0..4 {
                let parity = r.min(64) as usize;
                let mut bytes = random.bytes(WORD - parity);
                bytes.extend(parity::make(parity as u64, &bytes, 64).unwrap());
                for _ in 0..altered {
                    let at = random.below(WORD);
                    bytes[at] ^= 1 + random.below(255) as u8;
                }
                cases.push(Case { asked: b'W', number: r, space: 0, bytes });
            }
        }
        for n in [0, 1, 254, 256, 300] {
            cases.push(Case { asked: b'W', number: r, space: 0, bytes: vec![0; n] });
        }
        cases.push(Case { asked: b'W', number: r, space: 0, bytes: vec![0; WORD] });
        cases.push(Case { asked: b'W', number: r, space: 0, bytes: random.bytes(WORD) });
    }
}

/// Words that are clean, with 0 to h + 3 bytes altered for every R, words of wrong lengths, and words at random.
fn repairs(random: &mut Random, cases: &mut Vec<Case>) {
    for r in 0..=64 {
        for places in 0..=r / 2 + 3 {
            for _ in 0..2 {
                let (_, bytes) = altered(random, r, places);
                cases.push(Case { asked: b'Y', number: r as u64, space: WORD as u16, bytes });
            }
        }
    }
    for r in roots() {
        for n in [0, 1, 254, 256, 300] {
            cases.push(Case { asked: b'Y', number: r, space: n, bytes: random.bytes(n as usize) });
        }
        for bytes in [vec![0; WORD], vec![0xFF; WORD], random.bytes(WORD)] {
            cases.push(Case { asked: b'Y', number: r, space: WORD as u16, bytes });
        }
    }
}

/// Words for bench/repair.
pub fn altered_words(r: usize, places: usize, n: usize) -> Vec<Case> {
    let mut random = Random::new(1);
    (0..n).map(|_| Case { asked: b'Y', number: r as u64, space: WORD as u16, bytes: altered(&mut random, r, places).1 }).collect()
}

/// Bytes handed to a side of the interleaver in pieces of any length, now and then with an output that is too short by one: what is refused is
/// handed in again. Then the state.
fn in_turns(random: &mut Random, asked: u8, depth: u64, bytes: &[u8], sides: &mut Sides, cases: &mut Vec<Case>) {
    let mut at = 0;
    while at < bytes.len() {
        let most = [2, 300, 20000][random.below(3)].min(bytes.len() - at + 1);
        let piece = &bytes[at..at + random.below(most)];
        let space = (piece.len() + random.below(4)).saturating_sub(1);
        let case = Case { asked, number: depth, space: space as u16, bytes: piece.to_vec() };
        if case.turn(sides, &mut vec![0; space]) < refusal(0) {
            at += piece.len();
        }
        cases.push(case);
    }
    cases.push(Case { asked: b'V', number: (asked == b'J') as u64, space: CELLS as u16 + 1, bytes: vec![] });
}

/// Every depth from fresh: two passes and more, the closing push, and what came out taken in; then places as they should be and not, and depths
/// that change.
fn matrices(random: &mut Random, cases: &mut Vec<Case>) {
    for depth in 0..=64 {
        cases.push(Case { asked: b'N', number: 0, space: 0, bytes: vec![] });
        let mut sides = Sides::new();
        let bytes = random_length(random, 600 + 5 * 255 * depth as usize);
        in_turns(random, b'I', depth, &bytes, &mut sides, cases);
        let zeros = (255 * depth as usize).max(256) - 1;
        for space in [zeros - 1, zeros] {
            cases.push(Case { asked: b'Z', number: depth, space: space as u16, bytes: vec![] });
        }
        let mut sender = Sender::new();
        let mut sent = sender.push(depth, &bytes, bytes.len()).unwrap();
        sent.extend(sender.close(depth, zeros).unwrap());
        in_turns(random, b'J', depth, &sent, &mut sides, cases);
        let noise = random_length(random, 255 * depth as usize);
        in_turns(random, b'J', depth, &noise, &mut sides, cases);
    }
    for _ in 0..400 {
        let depth = any_depth(random);
        let whole = 255 * depth.min(70);
        let place = [0, whole.saturating_sub(1), whole, whole + 1, random.below(17000) as u64, CELLS as u64 - 1, CELLS as u64, u64::MAX][random.below(8)];
        cases.push(Case { asked: b'X', number: place, space: 0, bytes: vec![random.below(2) as u8] });
        for asked in [b'I', b'J', b'I', b'J'] {
            let depth = if random.below(3) == 0 { any_depth(random) } else { depth };
            let bytes = random_length(random, 40);
            let space = (bytes.len() + random.below(4)).saturating_sub(1);
            cases.push(Case { asked, number: depth, space: space as u16, bytes });
        }
        cases.push(Case { asked: b'Z', number: depth, space: (whole as u16).saturating_sub(random.below(3) as u16), bytes: vec![] });
    }
    for number in [0, 1] {
        cases.push(Case { asked: b'V', number, space: CELLS as u16 + 1, bytes: vec![] });
    }
}

/// Up to n random bytes more than half of n.
fn random_length(random: &mut Random, n: usize) -> Vec<u8> {
    let n = n / 2 + random.below(n / 2 + 1);
    random.bytes(n)
}

fn any_depth(random: &mut Random) -> u64 {
    [0, 1, 2, 3, 63, 64, 65, 66, 1 << 32, u64::MAX / 255 + 1, u64::MAX, random.below(65) as u64][random.below(12)]
}

/// Ports at the edges of their classes.
pub const PORTS: [u16; 21] = [
    0x0000, 0x0400, 0x0401, 0x50FF, 0x5100, 0x5101, 0x5200, 0x5201, 0x5207, 0x5208, 0x52FF, 0x5300, 0x7CFF, 0x7D00, 0x7E7D, 0x7EFF, 0x7F00,
    0xFEFF, 0xFF00, 0xFFFE, 0xFFFF,
];

/// Payloads: at the limits, full of escapes, and random ones.
pub fn payloads(random: &mut Random) -> Vec<Vec<u8>> {
    let mut all = vec![vec![], vec![0x41], vec![0x7E], vec![0x7D], vec![0x7D, 0x5E], vec![0; 8191], vec![0; 8192], vec![0; 8193]];
    all.extend([vec![0x7E; 4096], vec![0x7E; 4097], vec![0x7D; 4095], [vec![0x7D; 4095], vec![0; 2]].concat(), vec![0x7E; 9000]]);
    for _ in 0..12 {
        let n = random.below(400);
        all.push(random.bytes(n));
        all.push((0..n).map(|_| [0x7D, 0x7E, 0x5D, 0x5E, random.byte()][random.below(5)]).collect());
    }
    all
}

fn header(port: u16, sequence: u16) -> u64 {
    port as u64 | (sequence as u64) << 16
}

fn packets(random: &mut Random, cases: &mut Vec<Case>) {
    for number in (0..65536).step_by(13).chain(PORTS.map(u64::from)) {
        cases.push(Case { asked: b'C', number, space: 0, bytes: vec![] });
    }
    for space in [0, 1, 2, 50] {
        cases.push(Case { asked: b'B', number: 0, space, bytes: vec![] });
    }
    for bytes in payloads(random) {
        for port in [0x5100, 0x7D00, 0x7E7D, random.next() as u16] {
            let sequence = [0, 0x7D7E, random.next() as u16][random.below(3)];
            let number = header(port, sequence);
            let n = packet::escaped_packet(port, sequence, &bytes, usize::MAX).map_or(30, |b| b.len());
            for space in [n, n - 1, n + 1, n + 9, 0] {
                cases.push(Case { asked: b'K', number, space: space as u16, bytes: bytes.clone() });
            }
            for (space, at) in [(n + 5, 5u64), (n + 4, 5), (n, 0), (3, 4), (3, 0xFFFFFFFF), (n + 40, 17)] {
                cases.push(Case { asked: b'A', number: number | at << 32, space: space as u16, bytes: bytes.clone() });
            }
        }
    }
}

/// Raw bytes of frames in both formats: right ones, damaged ones, every refusal.
pub fn raws(random: &mut Random) -> Vec<Vec<u8>> {
    let mut all = vec![];
    for payload in payloads(random) {
        for port in [0x5100, 0x7D80, random.next() as u16] {
            let packet = Packet::new(port, random.next() as u16, &payload);
            let keyed = key_cases::with_key(random, packet.clone());
            all.extend([Packet { format: 0x27, ..packet.clone() }.raw(), Packet { format: 0x26, ..packet.clone() }.raw()]);
            for mut raw in [packet.raw(), keyed.raw()] {
                all.push(raw.clone());
                let at = random.below(raw.len());
                raw[at] ^= 1 << random.below(8);
                all.push(raw.clone());
                raw.push(0x7D);
                all.push(raw.clone());
                raw.truncate(random.below(raw.len()));
                all.push(raw);
            }
        }
    }
    for n in [1, 7, 8, RAW_LIMIT - 1, RAW_LIMIT, RAW_LIMIT + 1, 9000] {
        all.push(vec![0x21; n]);
        all.push(vec![0x7D; n]);
        all.push([vec![0x7D, 0x21], vec![0x41; n], vec![0x7D]].concat());
        all.push(random.bytes(n).into_iter().map(|b| if b == 0x7E { 0x7F } else { b }).collect());
    }
    all
}

/// Closed frames, of raw counts one off and beyond their limit, in receive buffers that are long enough and not.
pub fn frames_of(raws: &[Vec<u8>], cases: &mut Vec<Case>) {
    for bytes in raws {
        let n = bytes.len();
        let long = n.max(RAW_LIMIT);
        for (raw, space) in [(n, long), (n + 1, long + 7), (n - n.min(1), long), (n, n.min(RAW_LIMIT - 1)), (RAW_LIMIT + 1, long), (RAW_LIMIT + 2, n)] {
            cases.push(Case { asked: b'Q', number: raw as u64, space: space as u16, bytes: bytes.clone() });
        }
    }
}

/// Streams of frames and stray bytes, whole and cut, from a fresh state and from any other.
fn streams(random: &mut Random, cases: &mut Vec<Case>) {
    let raws = raws(random);
    for i in 0..2500 {
        let mut bytes = vec![];
        for _ in 0..random.below(6) {
            match random.below(8) {
                0 => bytes.extend({
                    let n = random.below(30);
                    random.bytes(n)
                }),
                1 => bytes.push(0x7D),
                2 => bytes.extend([0x7E, 0x7E]),
                _ => bytes.extend(&raws[random.below(raws.len())]),
            }
            bytes.push(0x7E);
        }
        if random.below(3) == 0 {
            bytes.truncate(random.below(bytes.len() + 1));
        }
        bytes.truncate(60000);
        let seed = if random.below(3) == 0 { 0 } else { 1 + random.next() % 0x7FFFFFFE };
        let first = if seed == 0 { bytes.len() } else { random.below(300) };
        let raw = [0, 0, 0, 1, 7, RAW_LIMIT - 1, RAW_LIMIT, RAW_LIMIT + 1, RAW_LIMIT + 2, random.below(RAW_LIMIT + 95)][random.below(10)];
        let stored = if random.below(12) == 0 { random.below(RAW_LIMIT + 95) } else { raw.min(RAW_LIMIT) };
        let flagged = random.below(2) == 1;
        let broken = any_place(random, raw);
        let space = if i % 40 == 0 { RAW_LIMIT - 1 } else { RAW_LIMIT + random.below(3) * 50 };
        let reader = if i % 2 == 0 { Reader::new() } else { Reader { waits: !flagged, raw, stored, broken } };
        cases.push(stream_case(&reader, first, seed, space, &bytes));
    }
}

/// A stream to be read: the state, the length of the first piece, how the rest is cut, the receive buffer's length and the bytes.
pub fn stream_case(reader: &Reader, first: usize, seed: u64, space: usize, stream: &[u8]) -> Case {
    let mut bytes = Vec::new();
    bytes.extend((reader.broken as u16).to_le_bytes());
    bytes.extend((first as u16).to_le_bytes());
    bytes.extend(stream);
    Case { asked: b'S', number: seed | reader_number(reader), space: space as u16, bytes }
}

/// A remembered place: mostly none, else at, before or beyond the raw count, at its limit, or beyond it.
pub fn any_place(random: &mut Random, raw: usize) -> usize {
    let some = [1, raw, raw + 1, raw.saturating_sub(1), RAW_LIMIT - 2, RAW_LIMIT - 1, RAW_LIMIT, 65535, random.below(RAW_LIMIT)];
    if random.below(2) == 0 { 0 } else { some[random.below(some.len())] }
}

/// Escapes that break: every beginning of some frames, cut at every place; then frames at the raw limit with the fault at their end, cut
/// around it. What is remembered is told where the frame is still open, and what is answered where it is closed.
fn broken_escapes(cases: &mut Vec<Case>) {
    for raw in [
        &[0x41, 0x7D, 0x21, 0x7D, 0x22][..],
        &[0x7D, 0x5E, 0x7D, 0x7D, 0x5E, 0x41],
        &[0x7D, 0x5D, 0x5D, 0x7D, 0x5E, 0x00],
        &[0x41, 0x7D, 0x7D],
        &[0x7D, 0x41, 0x7D],
        &[0x7D, 0x7D, 0x7D, 0x7D],
        &[0x5E, 0x5D, 0x41],
    ] {
        let bytes = [&[FLAG], raw, &[FLAG, 0x7D], raw, &[FLAG]].concat();
        for end in 0..=bytes.len() {
            for first in 0..=end {
                cases.push(stream_case(&Reader::new(), first, 0, RAW_LIMIT, &bytes[..end]));
            }
        }
    }
    for n in [RAW_LIMIT - 1, RAW_LIMIT, RAW_LIMIT + 1, RAW_LIMIT + 2] {
        for fault in [[0x7D, 0x21], [0x7D, 0x7D], [0x7D, 0x5E], [0x41, 0x7D]] {
            let frame = [&[FLAG][..], &vec![0x41; n - 2], &fault, &[FLAG]].concat();
            for end in [n, n + 1, n + 2] {
                for first in n - 3..=end {
                    cases.push(stream_case(&Reader::new(), first, 0, RAW_LIMIT, &frame[..end]));
                }
            }
        }
    }
}
