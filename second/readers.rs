//! Two optimized readers of the plain stream, to be timed beside the proved one (time.rs): a plain one, which looks for a flag byte by byte and
//! takes a byte of the check at a time by a table of 256; and a tuned one, which looks for a flag by eight bytes at once and takes eight bytes of
//! the check at a time by eight such tables. Else they are the same: runs are copied, escapes undone in their place. Both judge frames as the
//! paper does.

use crate::fcs;
use crate::packet::{self, Delivery, Fault, Frame, ESCAPE, FLAG, FORMAT, PAYLOAD_LIMIT, RAW_LIMIT, RESTRICTED};

/// How bytes are searched, and how the check is taken.
pub trait Way {
    fn find(bytes: &[u8], byte: u8) -> Option<usize>;
    fn check(bytes: &[u8]) -> u16;
}

pub struct Plain;
pub struct Tuned;

/// What k + 1 bytes of check make of the lowest one of them, for each k.
static TABLES: [[u16; 256]; 8] = tables();

const fn tables() -> [[u16; 256]; 8] {
    let mut tables = [fcs::table(); 8];
    let mut at = 256;
    while at < 8 * 256 {
        let before = tables[at / 256 - 1][at % 256];
        tables[at / 256][at % 256] = before >> 8 ^ tables[0][before as usize & 255];
        at += 1;
    }
    tables
}

impl Way for Plain {
    fn find(bytes: &[u8], byte: u8) -> Option<usize> {
        bytes.iter().position(|b| *b == byte)
    }

    fn check(bytes: &[u8]) -> u16 {
        fcs::check(bytes)
    }
}

impl Way for Tuned {
    fn find(bytes: &[u8], byte: u8) -> Option<usize> {
        const LOW: u64 = 0x0101010101010101;
        let mut chunks = bytes.chunks_exact(16);
        let mut at = 0;
        for chunk in &mut chunks {
            let zero = |part: &[u8]| {
                let x = u64::from_le_bytes(part.try_into().unwrap()) ^ byte as u64 * LOW;
                x.wrapping_sub(LOW) & !x & LOW << 7
            };
            let (first, second) = (zero(&chunk[..8]), zero(&chunk[8..]));
            if first | second != 0 {
                let within = if first != 0 { first.trailing_zeros() } else { 64 + second.trailing_zeros() };
                return Some(at + within as usize / 8);
            }
            at += 16;
        }
        chunks.remainder().iter().position(|b| *b == byte).map(|n| at + n)
    }

    fn check(bytes: &[u8]) -> u16 {
        let mut chunks = bytes.chunks_exact(8);
        let mut register = 0xFFFFu16;
        for chunk in &mut chunks {
            let [low, high] = register.to_le_bytes();
            register = TABLES[7][(chunk[0] ^ low) as usize]
                ^ TABLES[6][(chunk[1] ^ high) as usize]
                ^ TABLES[5][chunk[2] as usize]
                ^ TABLES[4][chunk[3] as usize]
                ^ TABLES[3][chunk[4] as usize]
                ^ TABLES[2][chunk[5] as usize]
                ^ TABLES[1][chunk[6] as usize]
                ^ TABLES[0][chunk[7] as usize];
        }
        !fcs::register_after(register, chunks.remainder())
    }
}

pub struct Reader<W> {
    waits: bool,
    raw: usize,
    buffer: Box<[u8; RAW_LIMIT]>,
    way: std::marker::PhantomData<W>,
}

impl<W: Way> Reader<W> {
    pub fn new() -> Self {
        Reader { waits: true, raw: 0, buffer: Box::new([0; RAW_LIMIT]), way: std::marker::PhantomData }
    }

    /// One piece: each answer is told, with the buffer that holds the payload.
    pub fn read(&mut self, mut piece: &[u8], mut told: impl FnMut(Frame, &[u8])) {
        while let Some(n) = W::find(piece, FLAG) {
            self.keep(&piece[..n]);
            piece = &piece[n + 1..];
            if !self.waits && self.raw > 0 {
                told(self.closed(), &self.buffer[..]);
            }
            (self.waits, self.raw) = (false, 0);
        }
        self.keep(piece);
    }

    fn keep(&mut self, run: &[u8]) {
        if self.waits {
            return;
        }
        let n = run.len().min(RAW_LIMIT.saturating_sub(self.raw));
        if n > 0 {
            self.buffer[self.raw..self.raw + n].copy_from_slice(&run[..n]);
        }
        self.raw += run.len();
    }

    fn closed(&mut self) -> Frame {
        if self.raw > RAW_LIMIT {
            return Err(Fault::Number(1));
        }
        if self.buffer[self.raw - 1] == ESCAPE {
            return Err(Fault::Number(2));
        }
        let n = self.undo()?;
        judge::<W>(&self.buffer[..n])
    }

    /// Escapes undone from the buffer's start, once it is sure that none is broken; how many bytes are left.
    fn undo(&mut self) -> Result<usize, Fault> {
        let raw = &mut self.buffer[..self.raw];
        let Some(first) = W::find(raw, ESCAPE) else { return Ok(raw.len()) };
        let mut at = first;
        while let Some(n) = W::find(&raw[at..], ESCAPE) {
            if !matches!(raw[at + n + 1], 0x5E | 0x5D) {
                return Err(Fault::BrokenEscape(at + n + 1));
            }
            at += n + 2;
        }
        let (mut from, mut to) = (first, first);
        while from < raw.len() {
            let run = W::find(&raw[from..], ESCAPE).unwrap_or(raw.len() - from);
            raw.copy_within(from..from + run, to);
            (from, to) = (from + run, to + run);
            if from < raw.len() {
                raw[to] = raw[from + 1] ^ 0x20;
                (from, to) = (from + 2, to + 1);
            }
        }
        Ok(to)
    }
}

fn judge<W: Way>(bytes: &[u8]) -> Frame {
    if bytes.len() < 8 {
        return Err(Fault::Number(4));
    }
    let (covered, check) = bytes.split_at(bytes.len() - 2);
    if W::check(covered).to_le_bytes() != check {
        return Err(Fault::Number(5));
    }
    let length_byte = covered[1] as usize;
    let (key_number, key_length, behind) = match covered[0] {
        FORMAT => (0, 0, 1),
        RESTRICTED if !(2..=32).contains(&length_byte) || covered.len() < length_byte + 8 => return Err(Fault::Number(12)),
        RESTRICTED => (covered[2], length_byte, 3 + length_byte),
        _ => return Err(Fault::Number(6)),
    };
    let pair = |i: usize| u16::from_le_bytes([covered[i], covered[i + 1]]);
    if packet::class_letter(pair(behind)).is_none() {
        return Err(Fault::Number(7));
    }
    let payload = &covered[behind + 4..];
    // what cannot be too long is not counted
    if 2 * payload.len() > PAYLOAD_LIMIT && payload.len() + payload.iter().filter(|b| matches!(b, 0x7D | 0x7E)).count() > PAYLOAD_LIMIT {
        return Err(Fault::Number(8));
    }
    let (format, port, sequence) = (covered[0], pair(behind), pair(behind + 2));
    Ok(Delivery { format, key_number, key_length, port, sequence, payload_length: payload.len() })
}
