//! Captures by calls: a reader that is handed pieces and lent a store, single calls that write, and cases for the proved code.
//! crates/cases_capture/src/reading.rt has the form of a case and of its answer.

use crate::capture::{header, packed, record, unpacked, Refusal};
use crate::capture_cases;
use crate::cases::{self, Case, Random};
use crate::key_cases;
use crate::packet::{Delivery, Fault, Frame, Packet};
use crate::stream;

/// The longest packet, format byte to last payload byte: a key of 32 bytes, and 8,192.
const LONGEST: usize = 3 + 32 + 4 + 8192;

/// Where a reader stands. What it has of a head or of a record stands at the start of the store, as far as there is room.
#[derive(Clone, Copy)]
enum Reader {
    Header(usize),
    Head(usize),
    Record { size: usize, done: usize },
    Behind(u8),
}

impl Reader {
    fn within_limits(self) -> bool {
        match self {
            Reader::Header(n) => n < 24,
            Reader::Head(n) => n < 16,
            Reader::Record { size, done } => done < size,
            Reader::Behind(fault) => (60..=62).contains(&fault),
        }
    }

    fn byte(&mut self, store: &mut [u8], byte: u8) -> Option<Frame> {
        let (next, answer) = match *self {
            Reader::Header(n) if header()[n] != byte => fault(60),
            Reader::Header(23) => (Reader::Head(0), None),
            Reader::Header(n) => (Reader::Header(n + 1), None),
            Reader::Head(n) => {
                store[n] = byte;
                if n < 15 { (Reader::Head(n + 1), None) } else { behind_head(&store[8..16]) }
            }
            Reader::Record { size, done } => {
                if let Some(place) = store.get_mut(done) {
                    *place = byte;
                }
                if done + 1 < size { (Reader::Record { size, done: done + 1 }, None) } else { behind_record(size, store) }
            }
            Reader::Behind(fault) => (Reader::Behind(fault), None),
        };
        *self = next;
        answer
    }

    /// One call: its answer (none: more wanted) and the bytes taken, or the number of a call refusal.
    fn call(&mut self, store: &mut [u8], piece: &[u8]) -> Result<(Option<Frame>, usize), u8> {
        if !self.within_limits() {
            return Err(10);
        }
        if store.len() < LONGEST {
            return Err(11);
        }
        Ok(stream::taken(piece, |byte| self.byte(store, byte)))
    }

    /// What the end of the file says; none: it is whole.
    fn end(self) -> Option<u8> {
        match self {
            _ if !self.within_limits() => Some(10),
            Reader::Header(_) => Some(60),
            Reader::Head(0) => None,
            Reader::Behind(fault) => Some(fault),
            _ => Some(61),
        }
    }

    fn numbers(self) -> [u64; 3] {
        let (kind, first, second) = match self {
            Reader::Header(n) => (0, n, 0),
            Reader::Head(n) => (1, n, 0),
            Reader::Record { size, done } => (2, size, done),
            Reader::Behind(fault) => (3, fault as usize, 0),
        };
        [kind, first as u64, second as u64]
    }

    fn of([kind, first, second]: [u64; 3]) -> Self {
        match kind {
            0 => Reader::Header(first as usize),
            1 => Reader::Head(first as usize),
            2 => Reader::Record { size: first as usize, done: second as usize },
            _ => Reader::Behind(first as u8),
        }
    }
}

fn fault(number: u8) -> (Reader, Option<Frame>) {
    (Reader::Behind(number), Some(Err(Fault::Number(number))))
}

/// Behind a whole head, by its two lengths.
fn behind_head(lengths: &[u8]) -> (Reader, Option<Frame>) {
    let (included, original) = lengths.split_at(4);
    match u32::from_le_bytes(included.try_into().unwrap()) as usize {
        _ if included != original => fault(61),
        0 => fault(62),
        size => (Reader::Record { size, done: 0 }, None),
    }
}

/// Behind a whole record.
fn behind_record(size: usize, store: &[u8]) -> (Reader, Option<Frame>) {
    let Some(packet) = Some(size).filter(|n| *n <= LONGEST).and_then(|n| unpacked(&store[..n])) else { return fault(62) };
    let Packet { format, key_number, port, sequence, .. } = packet;
    let delivery = Delivery { format, key_number, key_length: packet.key.len(), port, sequence, payload_length: packet.payload.len() };
    (Reader::Head(0), Some(Ok(delivery)))
}

/// All bytes of a delivered packet where they stand in the store, or none where that is too short.
pub fn all_bytes(delivery: Delivery, store: &[u8]) -> &[u8] {
    let key = if delivery.key_length == 0 { 0 } else { 2 + delivery.key_length };
    store.get(..1 + key + 2 + 2 + delivery.payload_length).unwrap_or(&[])
}

/// What stands before the first record, in an output of this length.
pub fn begun(space: usize) -> Result<Vec<u8>, u8> {
    if space < 24 { Err(23) } else { Ok(header()) }
}

/// A record with this number, or the number of a refusal.
pub fn entered(number: u32, bytes: &[u8], space: usize) -> Result<Vec<u8>, u8> {
    unpacked(bytes).ok_or(62)?;
    let record = record([number, 0], [bytes.len() as u32; 2], bytes);
    if space < record.len() { Err(23) } else { Ok(record) }
}

/// A capture read in pieces, the store lent; what is told of it.
pub fn capture_in_pieces(number: u64, bytes: &[u8], store: &mut [u8]) -> Vec<u8> {
    let four = |i: usize| u32::from_le_bytes(bytes[i..i + 4].try_into().unwrap()) as u64;
    let mut reader = Reader::of([bytes[0] as u64, four(1), four(5)]);
    let capture = &bytes[11..];
    let first = u16::from_le_bytes([bytes[9], bytes[10]]) as usize;
    let (mut at, mut end, mut seed) = (0, first.min(capture.len()), number & 0x7FFFFFFF);
    let mut told = Vec::new();
    loop {
        let result = reader.call(store, &capture[at..end]);
        let taken = result.map_or(0, |(_, taken)| taken);
        at += taken;
        cases::push_all(&mut told, &[taken as u64, result.map_or_else(cases::refusal, |(answer, _)| answer.map_or(0, cases::frame_number))]);
        match result {
            Err(_) => break,
            Ok((Some(Ok(delivery)), _)) => {
                cases::push_delivered(&mut told, &delivery, store);
                told.extend(all_bytes(delivery, store));
            }
            Ok((Some(Err(_)), _)) => {}
            Ok((None, _)) if end == capture.len() => break,
            Ok((None, _)) => {
                let (length, next) = stream::piece_length(seed, capture.len() - at);
                (end, seed) = (at + length, next);
            }
        }
    }
    cases::push_all(&mut told, &reader.numbers());
    cases::push_all(&mut told, &[reader.end().map_or(0, cases::refusal)]);
    told
}

/// The packets of a whole capture and its refusal, read in pieces as the seed says: the same as without calls.
pub fn imported_by_calls(capture: &[u8], mut seed: u64) -> (Vec<Packet>, Option<Refusal>) {
    let (mut reader, mut store, mut packets) = (Reader::Header(0), vec![0; LONGEST], Vec::new());
    let (mut at, mut end) = (0, 0);
    while at < capture.len() {
        let (answer, taken) = reader.call(&mut store, &capture[at..end]).expect("a store that passes");
        at += taken;
        match answer {
            Some(Ok(delivery)) => packets.push(delivery.packet(&store)),
            Some(Err(_)) => break,
            None => {
                let (length, next) = stream::piece_length(seed, capture.len() - at);
                (end, seed) = (at + length, next);
            }
        }
    }
    let record = packets.len();
    (packets, reader.end().map(|number| Refusal { number, record: Some(record).filter(|_| number != 60) }))
}

// ---- cases

/// A capture to be read: the state, the length of the first piece, how the rest is cut, the store's length and the bytes.
fn read(reader: Reader, first: usize, seed: u64, space: usize, capture: &[u8]) -> Case {
    let [kind, a, b] = reader.numbers();
    let mut bytes = vec![kind as u8];
    bytes.extend((a as u32).to_le_bytes());
    bytes.extend((b as u32).to_le_bytes());
    bytes.extend((first as u16).to_le_bytes());
    bytes.extend(capture);
    Case { asked: b'r', number: seed, space: space as u16, bytes }
}

pub fn all(random: &mut Random, seed: u64, cases: &mut Vec<Case>) {
    for (name, capture) in capture_cases::all(seed).iter().filter(|(_, capture)| capture.len() < 65_000) {
        let store = [LONGEST, LONGEST, LONGEST + 1, 9000][random.below(4)];
        let first = random.below(capture.len() + 1);
        cases.push(read(Reader::Header(0), capture.len(), 0, store, capture));
        cases.push(read(Reader::Header(0), first, 1 + random.next() % 0x7FFFFFFE, LONGEST, capture));
        if name.starts_with("two-first-7") {
            (0..capture.len()).for_each(|first| cases.push(read(Reader::Header(0), first, 0, LONGEST, capture)));
        }
    }
    states(random, cases);
    written(random, cases);
    let mut parts = Vec::new();
    key_cases::handed_out(random, &mut parts);
    cases.extend(parts.into_iter().filter(|case| case.asked == b'D').map(|case| Case { asked: b'd', ..case }));
}

/// Any state, at its limits and beyond them, with any store, handed bytes that go on from there and others.
fn states(random: &mut Random, cases: &mut Vec<Case>) {
    let mut readers: Vec<Reader> = (0..=26).map(Reader::Header).chain((0..=18).map(Reader::Head)).collect();
    readers.extend([0, 3, 59, 60, 61, 62, 63, 255].map(Reader::Behind));
    readers.extend([Reader::Header(u32::MAX as usize), Reader::Head(u32::MAX as usize)]);
    for size in [0, 1, 5, 6, 39, 40, LONGEST - 1, LONGEST, LONGEST + 1, LONGEST + 2, 65_536, u32::MAX as usize - 1, u32::MAX as usize] {
        let dones = [0, 1, 5, size / 2, size.saturating_sub(7), size.saturating_sub(1), size, size + 1, LONGEST - 1, LONGEST, LONGEST + 1];
        readers.extend(dones.map(|done| Reader::Record { size, done: done.min(u32::MAX as usize) }));
    }
    let record = record([7, 0], [6; 2], &packed(&Packet::new(0x5100, 0, b"A")));
    for reader in readers {
        let behind = match reader {
            Reader::Header(n) => [&header()[n.min(24)..], &record].concat(),
            Reader::Head(n) => [&record[n.min(16)..], &record].concat(),
            _ => [&random.bytes(7)[..], &record].concat(),
        };
        for space in [LONGEST, LONGEST + 40] {
            let first = random.below(behind.len() + 1);
            cases.push(read(reader, first, random.next() % 0x7FFFFFFF, space, &behind));
            cases.push(read(reader, 0, 0, space, &record));
        }
        for space in [0, 16, LONGEST - 1] {
            cases.push(read(reader, behind.len(), 0, space, &behind));
        }
    }
}

/// Headers, and records of what the sender accepts and of what it does not, in outputs of every kind.
fn written(random: &mut Random, cases: &mut Vec<Case>) {
    for space in [0, 1, 23, 24, 25, 60] {
        cases.push(Case { asked: b'f', number: 0, space, bytes: vec![] });
    }
    for bytes in capture_cases::entries(random) {
        for number in [0, 1, 255, 256, 65_535, 65_536, 0x7E7D_0102, u32::MAX as u64, random.next() % (1 << 32)] {
            let n = bytes.len() + 16;
            for space in [n, n - 1, n + 1, random.below(n), n + 50] {
                cases.push(Case { asked: b'e', number, space: space as u16, bytes: bytes.clone() });
            }
        }
    }
}
