//! The plain stream's reader, byte by byte, as the paper has it.

use crate::packet::{self, Frame, ESCAPE, FLAG, RAW_LIMIT};

#[derive(Clone)]
pub struct Reader {
    /// No flag was met yet, or none since lock was lost.
    pub waits: bool,
    pub raw: usize,
    pub stored: usize,
    /// Which of the stored bytes broke an escape first; 0: none has (before the first byte there is no 7D).
    pub broken: usize,
}

impl Reader {
    pub fn new() -> Self {
        Reader { waits: true, raw: 0, stored: 0, broken: 0 }
    }

    /// Whether no count is beyond its limit.
    pub fn within_limits(&self) -> bool {
        self.stored == self.raw.min(RAW_LIMIT) && self.raw <= RAW_LIMIT + 1 && self.broken < RAW_LIMIT
    }

    /// Takes one byte; an answer where it closes a frame.
    pub fn byte(&mut self, buffer: &mut [u8], byte: u8) -> Option<Frame> {
        if byte == FLAG {
            let closes = !self.waits && self.raw > 0;
            let raw = self.raw;
            *self = Reader { waits: false, raw: 0, stored: 0, broken: 0 };
            return closes.then(|| packet::closing_flag(buffer, raw));
        }
        if !self.waits {
            if self.raw < RAW_LIMIT {
                buffer[self.raw] = byte;
                let escaped = self.raw > 0 && buffer[self.raw - 1] == ESCAPE;
                if self.broken == 0 && escaped && !matches!(byte, 0x5E | 0x5D) {
                    self.broken = self.raw;
                }
            }
            self.raw = (self.raw + 1).min(RAW_LIMIT + 1);
            self.stored = self.raw.min(RAW_LIMIT);
        }
        None
    }

    /// One call: its answer (none: more wanted) and the bytes taken, or the number of a call refusal.
    pub fn call(&mut self, buffer: &mut [u8], piece: &[u8]) -> Result<(Option<Frame>, usize), u8> {
        if !self.within_limits() {
            return Err(10);
        }
        if buffer.len() < RAW_LIMIT {
            return Err(11);
        }
        Ok(taken(piece, |byte| self.byte(buffer, byte)))
    }
}

/// How a stream is cut (crates/cases_stream, crates/cases_channel and crates/cases_listing have the same): the length of the next piece, and the next seed.
pub fn piece_length(seed: u64, left: usize) -> (usize, u64) {
    if seed == 0 {
        return (left, 0);
    }
    let random = seed % 0x80000000 * 1103515245 % 0x80000000 / 8;
    let length = match random / 256 % 8 {
        0 | 1 => 0,
        2 | 3 => 1,
        _ => (random / 2048 % 300) as usize,
    };
    (length.min(left), seed % 0x80000000 * 69069 % 0x80000000 + 1)
}

/// What a call makes of a piece: its first answer (none: more wanted), and the bytes taken for it.
pub fn taken<T>(piece: &[u8], mut reads: impl FnMut(u8) -> Option<T>) -> (Option<T>, usize) {
    for (i, byte) in piece.iter().enumerate() {
        let answer = reads(*byte);
        if answer.is_some() {
            return (answer, i + 1);
        }
    }
    (None, piece.len())
}
