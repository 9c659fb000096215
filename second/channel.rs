//! The opportunistic channel, sender and receiver, byte by byte, as the paper has it.

use crate::packet::{Frame, FLAG, RAW_LIMIT};
use crate::parity::{self, WORD};
use crate::repair;
use crate::stream::{taken, Reader};

pub const MARKER: [u8; 4] = [0x7D, 0x3A, 0xE2, 0x42];
pub const ROOTS: u64 = 32;
pub const MESSAGE: usize = WORD - ROOTS as usize;
pub const BLOCK: usize = 4 + WORD;

/// A block: marker, message and parity, or the number of a refusal.
pub fn marked_block(message: &[u8], space: usize) -> Result<Vec<u8>, u8> {
    let parity = parity::make(ROOTS, message, 64)?;
    let block = [&MARKER[..], message, &parity[..]].concat();
    if space < block.len() { Err(23) } else { Ok(block) }
}

/// A whole stream in blocks, or the number of a refusal.
pub fn in_blocks(stream: &[u8], space: usize) -> Result<Vec<u8>, u8> {
    let mut filled = stream.to_vec();
    while filled.len() % MESSAGE != 0 {
        filled.push(FLAG);
    }
    let mut blocks = Vec::new();
    for message in filled.chunks(MESSAGE) {
        blocks.extend(marked_block(message, BLOCK)?);
    }
    if space < blocks.len() { Err(23) } else { Ok(blocks) }
}

#[derive(Clone, Copy)]
pub enum Answer {
    Frame(Frame),
    /// A whole word: in how many places it was repaired, 0 of a clean one; none: it is beyond repair.
    Block(Option<usize>),
    LockLost,
}

pub struct Receiver {
    pub locked: bool,
    /// The last four bytes outside of words, the latest last.
    pub hunted: [u8; 4],
    /// How much of a word is there, of its message is handed on, and of the marker behind it is read.
    pub word_bytes: usize,
    pub message_bytes: usize,
    pub marker_bytes: usize,
    pub reader: Reader,
}

impl Receiver {
    pub fn new() -> Self {
        Receiver { locked: false, hunted: [0; 4], word_bytes: 0, message_bytes: 0, marker_bytes: 0, reader: Reader::new() }
    }

    /// The number with which a call is refused.
    fn refusal(&self, buffer: &[u8], word: &[u8]) -> Option<u8> {
        if !self.reader.within_limits() || self.word_bytes > WORD || self.marker_bytes > 3 || self.message_bytes > MESSAGE {
            return Some(10);
        }
        (buffer.len() < RAW_LIMIT || word.len() < WORD).then_some(11)
    }

    /// Reads what is left of a whole word's message, up to the first answer.
    fn rest_of_message(&mut self, buffer: &mut [u8], word: &[u8]) -> Option<Answer> {
        while self.locked && self.word_bytes == WORD && self.message_bytes < MESSAGE {
            self.message_bytes += 1;
            if let Some(result) = self.reader.byte(buffer, word[self.message_bytes - 1]) {
                return Some(Answer::Frame(result));
            }
        }
        None
    }

    /// Takes one byte while no message is left to read. A whole word is repaired in its buffer, where that can be done.
    fn byte(&mut self, word: &mut [u8], byte: u8) -> Option<Answer> {
        if self.locked && self.word_bytes < WORD {
            word[self.word_bytes] = byte;
            self.word_bytes += 1;
            if self.word_bytes < WORD {
                return None;
            }
            (self.message_bytes, self.marker_bytes) = (0, 0);
            return Some(Answer::Block(repair::repair(ROOTS, &mut word[..WORD]).expect("32 roots, 255 bytes")));
        }
        self.hunted = [self.hunted[1], self.hunted[2], self.hunted[3], byte];
        if self.locked {
            self.marker_bytes += 1;
            if self.marker_bytes < 4 {
                return None;
            }
        }
        let matches = self.hunted == MARKER;
        let lost = self.locked && !matches;
        if matches || lost {
            self.locked = matches;
            (self.word_bytes, self.message_bytes, self.marker_bytes) = (0, 0, 0);
        }
        if lost {
            self.reader = Reader::new();
            return Some(Answer::LockLost);
        }
        None
    }

    /// One call: its answer (none: more wanted) and the bytes taken, or the number of a call refusal.
    pub fn call(&mut self, buffer: &mut [u8], word: &mut [u8], piece: &[u8]) -> Result<(Option<Answer>, usize), u8> {
        if let Some(n) = self.refusal(buffer, word) {
            return Err(n);
        }
        let owed = self.rest_of_message(buffer, word);
        if owed.is_some() {
            return Ok((owed, 0));
        }
        Ok(taken(piece, |byte| self.byte(word, byte)))
    }
}
