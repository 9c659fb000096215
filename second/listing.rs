//! The listing of a recording, as the paper's section "The listing program" has it. It reads in runs and not byte by byte, checks
//! words by a table and copies a frame only where it is cut, so that bench/listing can measure the proved program by it.

use crate::channel::{BLOCK, MARKER, MESSAGE, ROOTS};
use crate::fcs;
use crate::packet::{self, Delivery, Fault, Frame, ESCAPE, FLAG, FORMAT, PAYLOAD_LIMIT, RAW_LIMIT, RESTRICTED};
use crate::parity::{self, WORD};
use crate::repair;
use std::io::{ErrorKind, Read, Write};

/// The stream may not pass so many bytes.
pub const STREAM_LIMIT: u64 = 4_294_967_295;
const RECORD_MARK: [u8; 2] = [0xF5, 0x5F];
const CHUNK: usize = 65_536;

/// Reads a recording and prints its listing.
pub struct Scribe {
    /// What the first byte said.
    opportunistic: Option<bool>,
    /// What was read of the next record's mark and length, together four bytes.
    prefix: Vec<u8>,
    /// Stream bytes that the record still has.
    ahead: usize,
    /// The next byte was wrong: nothing from there on counts.
    broken: bool,
    offset: u64,
    stream_bytes: u64,
    blocks: Blocks,
    frames: Frames,
    page: Page,
}

impl Scribe {
    pub fn new() -> Self {
        Scribe::starting_at(0, 0)
    }

    /// The same where so many bytes, and stream bytes, count as read.
    pub fn starting_at(offset: u64, stream_bytes: u64) -> Self {
        Scribe {
            opportunistic: None,
            prefix: Vec::with_capacity(4),
            ahead: 0,
            broken: false,
            offset,
            stream_bytes,
            blocks: Blocks { locked: false, last_four: 0, behind_marker: Vec::with_capacity(BLOCK) },
            frames: Frames { waits: true, raw: Vec::with_capacity(RAW_LIMIT + 1), unescaped: Vec::with_capacity(RAW_LIMIT) },
            page: Page { lines: Vec::with_capacity(2 * CHUNK), totals: [0; 4] },
        }
    }

    /// Reads further bytes of the recording, and prints the lines of their answers.
    pub fn consume(&mut self, mut bytes: &[u8]) {
        while !bytes.is_empty() && !self.broken {
            let taken = if self.ahead > 0 { self.consume_stream(bytes) } else { self.consume_other(bytes[0]) as usize };
            self.broken = taken == 0;
            self.offset += taken as u64;
            bytes = &bytes[taken..];
        }
    }

    /// A byte outside of the stream; whether it is as described.
    fn consume_other(&mut self, byte: u8) -> bool {
        if self.opportunistic.is_none() {
            self.opportunistic = [(0x50, false), (0x4F, true)].into_iter().find(|known| known.0 == byte).map(|known| known.1);
            return self.opportunistic.is_some();
        }
        if RECORD_MARK.get(self.prefix.len()).is_some_and(|right| *right != byte) {
            return false;
        }
        self.prefix.push(byte);
        if let [_, _, low, high] = self.prefix[..] {
            self.ahead = u16::from_le_bytes([low, high]) as usize;
            self.prefix.clear();
        }
        true
    }

    /// As many stream bytes as lie there; none where the stream would pass its limit.
    fn consume_stream(&mut self, bytes: &[u8]) -> usize {
        let n = (STREAM_LIMIT - self.stream_bytes).min(bytes.len().min(self.ahead) as u64) as usize;
        self.ahead -= n;
        self.stream_bytes += n as u64;
        if self.opportunistic == Some(true) {
            self.blocks.consume(&bytes[..n], &mut self.frames, &mut self.page);
        } else {
            self.frames.consume(&bytes[..n], &mut self.page);
        }
        n
    }

    /// The lines printed since they were last asked for.
    pub fn lines(&mut self) -> Vec<u8> {
        std::mem::take(&mut self.page.lines)
    }

    /// Prints the last line.
    pub fn end(&mut self) {
        let last = self.last_line(self.page.totals);
        self.page.lines.extend(last);
    }

    /// The last line, with these totals.
    pub fn last_line(&self, totals: [u64; 4]) -> Vec<u8> {
        let mut page = Page::default();
        if self.ending() == WELL {
            page.print_line(b'E', &[&[self.stream_bytes], &totals[..]].concat(), b"");
        } else {
            page.print_line(b'X', &[self.offset], b"");
        }
        page.lines
    }

    /// Whether the offset can count so many bytes more.
    pub fn can_count(&self, more: usize) -> bool {
        self.offset.checked_add(more as u64).is_some()
    }

    /// How the recording ends, in words.
    pub fn ending(&self) -> &'static str {
        match (self.opportunistic, self.ahead, self.prefix.len(), self.broken) {
            (None, _, _, true) => "unknown first byte",
            (None, _, _, false) => "empty input",
            (_, 1.., _, true) => "stream limit",
            (_, 1.., _, false) => "end inside a record",
            (_, _, 0, true) => "wrong first byte of a mark",
            (_, _, 0, false) => WELL,
            (_, _, 1, true) => "wrong second byte of a mark",
            (_, _, 1, false) => "end inside a mark",
            (_, _, 2, _) => "end before a length",
            _ => "end inside a length",
        }
    }
}

const WELL: &str = "well";

/// The lines of a listing, and the totals that its last line has: packets, frame refusals, damaged blocks, lost locks.
#[derive(Default)]
pub struct Page {
    pub lines: Vec<u8>,
    pub totals: [u64; 4],
}

impl Page {
    pub fn frame(&mut self, result: Frame) {
        match result {
            Ok(Delivery { port, sequence, payload_length, .. }) => {
                self.totals[0] += 1;
                let letter = packet::class_letter(port).expect("a port that may be used");
                self.print_line(b'P', &[port as u64, sequence as u64, payload_length as u64], &[b' ', letter]);
            }
            Err(fault) => {
                self.totals[1] += 1;
                match fault {
                    Fault::Number(n) => self.print_line(b'R', &[n as u64], b""),
                    Fault::BrokenEscape(place) => self.print_line(b'R', &[3, place as u64], b""),
                }
            }
        }
    }

    pub fn block(&mut self, repaired: Option<usize>) {
        match repaired {
            Some(places) => self.print_line(b'B', &[places as u64], b""),
            None => {
                self.totals[2] += 1;
                self.print_line(b'B', &[], b" X");
            }
        }
    }

    pub fn lock_lost(&mut self) {
        self.totals[3] += 1;
        self.print_line(b'L', &[], b"");
    }

    /// A letter, numbers in decimal, and what stands behind them.
    pub fn print_line(&mut self, letter: u8, numbers: &[u64], rest: &[u8]) {
        self.lines.push(letter);
        for number in numbers {
            let mut decimal = [b' '; 21];
            let (mut at, mut n) = (20, *number);
            decimal[at] = b'0' + (n % 10) as u8;
            while n > 9 {
                n /= 10;
                at -= 1;
                decimal[at] = b'0' + (n % 10) as u8;
            }
            self.lines.extend(&decimal[at - 1..]);
        }
        self.lines.extend(rest);
        self.lines.push(b'\n');
    }
}

/// The opportunistic channel: hunting, the last four bytes; locked, what was read behind the marker, up to a word and four bytes.
struct Blocks {
    locked: bool,
    last_four: u32,
    behind_marker: Vec<u8>,
}

impl Blocks {
    fn consume(&mut self, mut bytes: &[u8], frames: &mut Frames, page: &mut Page) {
        while !bytes.is_empty() {
            let taken = if self.locked { self.consume_locked(bytes, frames, page) } else { self.consume_hunting(bytes) };
            bytes = &bytes[taken..];
        }
    }

    fn consume_hunting(&mut self, bytes: &[u8]) -> usize {
        for (i, byte) in bytes.iter().enumerate() {
            self.last_four = self.last_four << 8 | *byte as u32;
            if self.last_four == u32::from_be_bytes(MARKER) {
                self.locked = true;
                return i + 1;
            }
        }
        bytes.len()
    }

    /// A word and the four bytes behind it, read where they lie when they lie there whole.
    fn consume_locked(&mut self, bytes: &[u8], frames: &mut Frames, page: &mut Page) -> usize {
        if self.behind_marker.is_empty() && bytes.len() >= BLOCK {
            read_word(&bytes[..WORD], frames, page);
            self.compare_marker(bytes[WORD..BLOCK].try_into().expect("four bytes"), frames, page);
            return BLOCK;
        }
        let had = self.behind_marker.len();
        let wanted = if had < WORD { WORD } else { BLOCK };
        let taken = bytes.len().min(wanted - had);
        self.behind_marker.extend(&bytes[..taken]);
        match had + taken {
            WORD => read_word(&self.behind_marker, frames, page),
            BLOCK => {
                let four = self.behind_marker[WORD..].try_into().expect("four bytes");
                self.behind_marker.clear();
                self.compare_marker(four, frames, page);
            }
            _ => {}
        }
        taken
    }

    fn compare_marker(&mut self, four: [u8; 4], frames: &mut Frames, page: &mut Page) {
        if four != MARKER {
            self.locked = false;
            self.last_four = u32::from_be_bytes(four);
            frames.waits = true;
            frames.raw.clear();
            page.lock_lost();
        }
    }
}

/// A whole word: the block's line, then those of its message bytes. Only a word that is not clean is copied, to be repaired.
fn read_word(word: &[u8], frames: &mut Frames, page: &mut Page) {
    if clean(word) {
        page.block(Some(0));
        return frames.consume(&word[..MESSAGE], page);
    }
    let mut word = word.to_vec();
    page.block(repair::repair(ROOTS, &mut word).expect("32 roots, 255 bytes"));
    frames.consume(&word[..MESSAGE], page);
}

/// The generator's 32 coefficients below its leading one, times each byte; the highest stands in the low byte of the first number.
static MULTIPLES: [[u64; 4]; 256] = multiples();

const fn multiples() -> [[u64; 4]; 256] {
    let mut coefficients = [0u8; ROOTS as usize + 1];
    coefficients[0] = 1;
    let mut root = 1;
    let mut j = 0;
    while j < ROOTS as usize {
        root = parity::times(root, 2);
        let mut i = j + 1;
        while i > 0 {
            coefficients[i] ^= parity::times(root, coefficients[i - 1]);
            i -= 1;
        }
        j += 1;
    }
    let mut multiples = [[0u64; 4]; 256];
    let mut at = 0;
    while at < 256 * 32 {
        let (b, i) = (at / 32, at % 32);
        multiples[b][i / 8] |= (parity::times(b as u8, coefficients[i + 1]) as u64) << (i % 8 * 8);
        at += 1;
    }
    multiples
}

/// A word is clean when the generator divides it: long division, the remainder in four numbers, leaves nothing.
pub fn clean(word: &[u8]) -> bool {
    let mut remainder = [0u64; 4];
    for byte in word {
        let [a, b, c, d] = remainder;
        let multiple = &MULTIPLES[a as u8 as usize];
        remainder = [
            (a >> 8 | b << 56) ^ multiple[0],
            (b >> 8 | c << 56) ^ multiple[1],
            (c >> 8 | d << 56) ^ multiple[2],
            (d >> 8 | (*byte as u64) << 56) ^ multiple[3],
        ];
    }
    remainder == [0; 4]
}

/// The frame reader: the raw bytes behind the last flag, one more than allowed at most, and space to undo escapes.
struct Frames {
    waits: bool,
    raw: Vec<u8>,
    unescaped: Vec<u8>,
}

impl Frames {
    fn consume(&mut self, mut bytes: &[u8], page: &mut Page) {
        while let Some(n) = bytes.iter().position(|b| *b == FLAG) {
            let run = &bytes[..n];
            bytes = &bytes[n + 1..];
            if self.waits {
                self.waits = false;
            } else if !self.raw.is_empty() {
                self.add_raw(run);
                page.frame(delivery(&self.raw, &mut self.unescaped));
                self.raw.clear();
            } else if n > 0 {
                page.frame(delivery(run, &mut self.unescaped));
            }
        }
        if !self.waits {
            self.add_raw(bytes);
        }
    }

    fn add_raw(&mut self, run: &[u8]) {
        let space = RAW_LIMIT + 1 - self.raw.len();
        self.raw.extend(&run[..run.len().min(space)]);
    }
}

/// What comes of a frame's raw bytes: a packet, or the first refusal that applies. A frame without escapes is its own contents.
pub fn delivery(raw: &[u8], unescaped: &mut Vec<u8>) -> Frame {
    if raw.len() > RAW_LIMIT {
        return Err(Fault::Number(1));
    }
    if raw.last() == Some(&ESCAPE) {
        return Err(Fault::Number(2));
    }
    if !raw.contains(&ESCAPE) {
        return Ok(delivery_of_contents(raw)?);
    }
    unescaped.clear();
    let mut rest = raw;
    while let Some(n) = rest.iter().position(|b| *b == ESCAPE) {
        unescaped.extend(&rest[..n]);
        unescaped.push(match rest[n + 1] {
            0x5E => 0x7E,
            0x5D => 0x7D,
            _ => return Err(Fault::BrokenEscape(raw.len() - rest.len() + n + 1)),
        });
        rest = &rest[n + 2..];
    }
    unescaped.extend(rest);
    Ok(delivery_of_contents(unescaped)?)
}

fn delivery_of_contents(bytes: &[u8]) -> Result<Delivery, u8> {
    if bytes.len() < 8 {
        return Err(4);
    }
    let (covered, check) = bytes.split_at(bytes.len() - 2);
    if fcs::check(covered).to_le_bytes() != check {
        return Err(5);
    }
    let (key_number, key_length, rest) = match *covered {
        [FORMAT, ref rest @ ..] => (0, 0, rest),
        [RESTRICTED, length @ 2..=32, number, ref rest @ ..] => (number, length as usize, rest.get(length as usize..).unwrap_or(&[])),
        [RESTRICTED, ..] => return Err(12),
        _ => return Err(6),
    };
    // in format 0x21 a byte of payload at least stands here
    let [a, b, c, d, ref payload @ ..] = *rest else { return Err(12) };
    if payload.is_empty() {
        return Err(12);
    }
    let (port, sequence) = (u16::from_le_bytes([a, b]), u16::from_le_bytes([c, d]));
    if packet::class_letter(port).is_none() {
        return Err(7);
    }
    if payload.len() + payload.iter().filter(|b| matches!(b, 0x7D | 0x7E)).count() > PAYLOAD_LIMIT {
        return Err(8);
    }
    Ok(Delivery { format: covered[0], key_number, key_length, port, sequence, payload_length: payload.len() })
}

/// The listing of a whole recording.
pub fn listing(recording: &[u8]) -> Vec<u8> {
    let mut scribe = Scribe::new();
    scribe.consume(recording);
    scribe.end();
    scribe.lines()
}

/// Lists standard input on standard output, a chunk at a time.
pub fn list_input() -> std::io::Result<()> {
    let (mut from, mut to) = (std::io::stdin().lock(), std::io::stdout().lock());
    let mut scribe = Scribe::new();
    let mut chunk = vec![0; CHUNK];
    loop {
        match from.read(&mut chunk) {
            Ok(0) => break,
            Ok(n) => scribe.consume(&chunk[..n]),
            Err(e) if e.kind() == ErrorKind::Interrupted => continue,
            Err(e) => return Err(e),
        }
        if scribe.page.lines.len() >= CHUNK {
            to.write_all(&scribe.page.lines)?;
            scribe.page.lines.clear();
        }
    }
    scribe.end();
    to.write_all(&scribe.page.lines)
}
