//! Packets of both formats: contents, escapes, what comes of a closed frame, one packet escaped, classes of ports.

use crate::fcs;

pub const FLAG: u8 = 0x7E;
pub const ESCAPE: u8 = 0x7D;
pub const RAW_LIMIT: usize = 8272;
pub const PAYLOAD_LIMIT: usize = 8192;
pub const FORMAT: u8 = 0x21;
/// The format of packets for subscribers.
pub const RESTRICTED: u8 = 0x26;
const KEY_LENGTHS: std::ops::RangeInclusive<usize> = 2..=32;

/// The packet record; in format 0x21 key number and key are zero and empty.
#[derive(Clone, Debug, PartialEq)]
pub struct Packet {
    pub format: u8,
    pub key_number: u8,
    pub key: Vec<u8>,
    pub port: u16,
    pub sequence: u16,
    pub payload: Vec<u8>,
}

/// A delivered packet, without the bytes of key and payload.
#[derive(Clone, Copy, Debug, PartialEq)]
pub struct Delivery {
    pub format: u8,
    pub key_number: u8,
    pub key_length: usize,
    pub port: u16,
    pub sequence: u16,
    pub payload_length: usize,
}

impl Delivery {
    /// The key, where it stands in the receive buffer.
    pub fn key<'a>(&self, buffer: &'a [u8]) -> &'a [u8] {
        handed_out(buffer, 3, self.key_length)
    }

    /// The payload likewise: behind format, port and sequence, and what a key takes with its length and its number.
    pub fn payload<'a>(&self, buffer: &'a [u8]) -> &'a [u8] {
        let taken_by_key = if self.key_length == 0 { 0 } else { 2 + self.key_length };
        handed_out(buffer, 1 + taken_by_key + 2 + 2, self.payload_length)
    }

    /// The whole packet, its bytes taken out of the buffer.
    pub fn packet(&self, buffer: &[u8]) -> Packet {
        let (key, payload) = (self.key(buffer).to_vec(), self.payload(buffer).to_vec());
        Packet { format: self.format, key_number: self.key_number, key, port: self.port, sequence: self.sequence, payload }
    }
}

/// A part of the buffer behind so many bytes, or an empty one where the buffer is too short to hold it.
fn handed_out(buffer: &[u8], before: usize, length: usize) -> &[u8] {
    buffer.get(before..).and_then(|behind| behind.get(..length)).unwrap_or(&[])
}

/// Why a frame is refused: a number of the paper; with 3, which raw byte broke an escape, counted from 0 behind the opening flag.
#[derive(Clone, Copy, Debug, PartialEq)]
pub enum Fault {
    Number(u8),
    BrokenEscape(usize),
}

impl Fault {
    pub fn number(self) -> u8 {
        match self {
            Fault::Number(n) => n,
            Fault::BrokenEscape(_) => 3,
        }
    }
}

impl From<u8> for Fault {
    fn from(n: u8) -> Self {
        Fault::Number(n)
    }
}

/// What comes of a closed frame.
pub type Frame = Result<Delivery, Fault>;

/// The letter of a port's class; none where the port may not be used.
pub fn class_letter(port: u16) -> Option<u8> {
    const RANGES: [(u8, u16, u16); 9] = [
        (b'S', 0x0000, 0x0400),
        (b'S', 0x5101, 0x5200),
        (b'S', 0x5208, 0x52FF),
        (b'S', 0xFF00, 0xFFFF),
        (b'A', 0x0401, 0x50FF),
        (b'M', 0x5100, 0x5100),
        (b'D', 0x5201, 0x5207),
        (b'F', 0x5300, 0x7CFF),
        (b'F', 0x7F00, 0xFEFF),
    ];
    RANGES.iter().find(|(_, from, to)| (*from..=*to).contains(&port)).map(|range| range.0)
}

pub fn escape(bytes: &[u8]) -> Vec<u8> {
    bytes
        .iter()
        .flat_map(|b| match b {
            0x7E => vec![0x7D, 0x5E],
            0x7D => vec![0x7D, 0x5D],
            _ => vec![*b],
        })
        .collect()
}

/// Escapes undone, or refusal 2 or 3.
fn unescape(raw: &[u8]) -> Result<Vec<u8>, Fault> {
    if raw.last() == Some(&ESCAPE) {
        return Err(Fault::Number(2));
    }
    let mut bytes = Vec::new();
    let mut raw = raw.iter().enumerate();
    while let Some((_, b)) = raw.next() {
        bytes.push(match b {
            0x7D => match raw.next().expect("the last byte is no 7D") {
                (_, 0x5E) => 0x7E,
                (_, 0x5D) => 0x7D,
                (place, _) => return Err(Fault::BrokenEscape(place)),
            },
            _ => *b,
        });
    }
    Ok(bytes)
}

/// The packet of these contents, or the number of a frame refusal.
fn in_contents(bytes: &[u8]) -> Result<Delivery, u8> {
    let n = bytes.len();
    if n < 8 {
        return Err(4);
    }
    let pair = |i: usize| u16::from_le_bytes([bytes[i], bytes[i + 1]]);
    if fcs::check(&bytes[..n - 2]) != pair(n - 2) {
        return Err(5);
    }
    let (format, length_byte) = (bytes[0], bytes[1] as usize);
    let (key_number, key_length, behind) = match format {
        FORMAT => (0, 0, 1),
        RESTRICTED if !KEY_LENGTHS.contains(&length_byte) || n - 3 < length_byte + 7 => return Err(12),
        RESTRICTED => (bytes[2], length_byte, 3 + length_byte),
        _ => return Err(6),
    };
    if class_letter(pair(behind)).is_none() {
        return Err(7);
    }
    if escape(&bytes[behind + 4..n - 2]).len() > PAYLOAD_LIMIT {
        return Err(8);
    }
    Ok(Delivery { format, key_number, key_length, port: pair(behind), sequence: pair(behind + 2), payload_length: n - 2 - (behind + 4) })
}

/// A closing flag: a frame of so many raw bytes stands at the start of the receive buffer, and its escapes are undone there.
pub fn closing_flag(buffer: &mut [u8], raw: usize) -> Frame {
    if raw > RAW_LIMIT {
        return Err(Fault::Number(1));
    }
    let there = raw.min(buffer.len());
    let bytes = unescape(&buffer[..there])?;
    buffer[..bytes.len()].copy_from_slice(&bytes);
    Ok(in_contents(&bytes)?)
}

/// The same as a call of its own, with the refusals of every receiving call before it.
pub fn frame_call(buffer: &mut [u8], raw: usize) -> Frame {
    if raw > RAW_LIMIT + 1 {
        return Err(Fault::Number(10));
    }
    if buffer.len() < RAW_LIMIT {
        return Err(Fault::Number(11));
    }
    closing_flag(buffer, raw)
}

impl Packet {
    /// One of format 0x21.
    pub fn new(port: u16, sequence: u16, payload: &[u8]) -> Self {
        Packet { format: FORMAT, key_number: 0, key: vec![], port, sequence, payload: payload.to_vec() }
    }

    /// The same packet with a key, in format 0x26.
    pub fn restricted(self, key_number: u8, key: &[u8]) -> Self {
        Packet { format: RESTRICTED, key_number, key: key.to_vec(), ..self }
    }

    /// The contents, check included; those of a format other than the two are as those of 0x21.
    pub fn contents(&self) -> Vec<u8> {
        let mut bytes = vec![self.format];
        if self.format == RESTRICTED {
            bytes.extend([self.key.len() as u8, self.key_number]);
            bytes.extend(&self.key);
        }
        bytes.extend(self.port.to_le_bytes());
        bytes.extend(self.sequence.to_le_bytes());
        bytes.extend(&self.payload);
        bytes.extend(fcs::check(&bytes).to_le_bytes());
        bytes
    }

    /// The escaped contents: the raw bytes of its frame.
    pub fn raw(&self) -> Vec<u8> {
        escape(&self.contents())
    }

    /// Whether format, key number and key go together.
    fn has_right_key(&self) -> bool {
        match self.format {
            FORMAT => self.key_number == 0 && self.key.is_empty(),
            RESTRICTED => KEY_LENGTHS.contains(&self.key.len()),
            _ => false,
        }
    }

    /// The escaped contents and one flag, or the number of a refusal.
    pub fn escaped(&self, space: usize) -> Result<Vec<u8>, u8> {
        if self.payload.is_empty() {
            return Err(20);
        }
        if escape(&self.payload).len() > PAYLOAD_LIMIT {
            return Err(21);
        }
        if class_letter(self.port).is_none() {
            return Err(22);
        }
        if !self.has_right_key() {
            return Err(24);
        }
        let mut bytes = self.raw();
        bytes.push(FLAG);
        if bytes.len() > space {
            return Err(23);
        }
        Ok(bytes)
    }
}

/// A packet of format 0x21: its contents ..
pub fn contents(port: u16, sequence: u16, payload: &[u8]) -> Vec<u8> {
    Packet::new(port, sequence, payload).contents()
}

/// .. and, escaped, one flag behind them, or the number of a refusal.
pub fn escaped_packet(port: u16, sequence: u16, payload: &[u8], space: usize) -> Result<Vec<u8>, u8> {
    Packet::new(port, sequence, payload).escaped(space)
}
