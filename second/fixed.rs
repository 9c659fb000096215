//! Fixed sub-channels (request W7): the sender, whole or group by group, and the receiver of one to four. A call takes bytes by stretches:
//! a stretch ends where a word is whole, where a group is, or with a byte of a marker; a stretch of a group goes through the interleaver as
//! one.

use crate::channel::{Answer, MARKER};
use crate::interleaver::{self, Sender};
use crate::listing::Page;
use crate::packet::{FLAG, RAW_LIMIT};
use crate::parity::{self, WORD};
use crate::repair;
use crate::stream::Reader;
use std::io::{Read, Write};

/// Words behind a marker, and their bytes.
pub const FOUR: usize = 4;
pub const GROUP: usize = FOUR * WORD;

fn message_bytes(r: u64) -> usize {
    WORD - r as usize
}

/// Refusals 30 and 32.
fn settings(r: u64, depth: u64) -> Result<(), u8> {
    if r > 64 {
        return Err(30);
    }
    if depth > 64 { Err(32) } else { Ok(()) }
}

/// A message of up to 255 - R bytes, filled with flags, and its parity.
fn word(r: u64, message: &[u8]) -> Vec<u8> {
    let mut word = message.to_vec();
    word.resize(message_bytes(r), FLAG);
    word.extend(parity::make(r, &word, 64).expect("a message as long as it should be"));
    word
}

/// The words of a stream: its messages, the closing push, and those that complete the last group.
pub fn words(r: u64, depth: u64, stream: &[u8]) -> Vec<Vec<u8>> {
    let mut words: Vec<Vec<u8>> = stream.chunks(message_bytes(r)).map(|message| word(r, message)).collect();
    let closing = if depth < 2 { 0 } else { depth as usize };
    let of_flags = word(r, &[]);
    words.resize((words.len() + closing).next_multiple_of(FOUR), of_flags);
    words
}

/// How many groups a stream of so many bytes has.
pub fn group_count(r: u64, depth: u64, length: u64) -> Result<u64, u8> {
    settings(r, depth)?;
    let closing = if depth < 2 { 0 } else { depth as u128 };
    let words = (length as u128).div_ceil(message_bytes(r) as u128) + closing;
    Ok(words.div_ceil(FOUR as u128) as u64)
}

/// Words as they are sent: interleaved, and the marker before every four.
pub fn marked(depth: u64, words: &[Vec<u8>]) -> Vec<u8> {
    let bytes = words.concat();
    let turned = Sender::new().push(depth, &bytes, bytes.len()).expect("a depth that was looked at");
    turned.chunks(GROUP).flat_map(|group| [&MARKER[..], group].concat()).collect()
}

/// A whole stream as it is sent, or the number of a refusal.
pub fn in_groups(r: u64, depth: u64, stream: &[u8], space: usize) -> Result<Vec<u8>, u8> {
    settings(r, depth)?;
    let groups = marked(depth, &words(r, depth, stream));
    if space < groups.len() { Err(23) } else { Ok(groups) }
}

/// The next group of a stream, with the interleaver as it stands: the bytes taken and the group, or the number of a refusal.
pub fn next_group(sender: &mut Sender, r: u64, depth: u64, stream: &[u8], space: usize) -> Result<(usize, Vec<u8>), u8> {
    if interleaver::has_cells(depth, sender.place) == Err(10) {
        return Err(10);
    }
    settings(r, depth)?;
    if space < MARKER.len() + GROUP {
        return Err(23);
    }
    let m = message_bytes(r);
    let taken = stream.len().min(FOUR * m);
    let mut bytes = stream[..taken].to_vec();
    bytes.resize(FOUR * m, FLAG);
    let group: Vec<u8> = bytes.chunks(m).flat_map(|message| word(r, message)).collect();
    Ok((taken, [&MARKER[..], &sender.push(depth, &group, GROUP)?].concat()))
}

/// What is told of one sub-channel, and how its receiver stands.
#[derive(Clone)]
pub struct SubChannel {
    pub told: bool,
    pub r: u64,
    pub depth: u64,
    pub locked: bool,
    /// Lock was lost: nothing is given until it is told again.
    pub lost: bool,
    /// The last four bytes outside of groups, the latest last.
    pub hunted: [u8; 4],
    /// Bytes of the group and of the marker behind it; what is there of a word, and what is handed on of its message.
    pub group_bytes: usize,
    pub marker_bytes: usize,
    pub word_bytes: usize,
    pub message_bytes: usize,
    pub reader: Reader,
    pub back: interleaver::Receiver,
}

impl SubChannel {
    pub fn new(told: bool, r: u64, depth: u64) -> Self {
        SubChannel {
            told,
            r,
            depth,
            locked: false,
            lost: false,
            hunted: [0; 4],
            group_bytes: 0,
            marker_bytes: 0,
            word_bytes: 0,
            message_bytes: 0,
            reader: Reader::new(),
            back: interleaver::Receiver::new(),
        }
    }

    /// Whether no count is beyond its limit, nor a setting, nor the place among the cells.
    pub fn within_limits(&self) -> bool {
        settings(self.r, self.depth).is_ok()
            && self.reader.within_limits()
            && self.group_bytes <= GROUP
            && self.marker_bytes < MARKER.len()
            && self.word_bytes <= WORD
            && self.message_bytes <= message_bytes(self.r)
            && interleaver::has_cells(self.depth, self.back.place).is_ok()
    }

    /// Reads what is left of a whole word's message, up to the first answer.
    fn rest_of_message(&mut self, buffer: &mut [u8], word: &[u8]) -> Option<Answer> {
        if self.lost || !self.locked || self.word_bytes < WORD {
            return None;
        }
        let mut answer = None;
        while answer.is_none() && self.message_bytes < message_bytes(self.r) {
            answer = self.reader.byte(buffer, word[self.message_bytes]);
            self.message_bytes += 1;
        }
        answer.map(Answer::Frame)
    }

    /// Takes a stretch of the bytes: how many, and the answer at its end.
    fn stretch(&mut self, word: &mut [u8], bytes: &[u8]) -> (usize, Option<Answer>) {
        match (self.lost, self.locked, self.group_bytes < GROUP) {
            (true, _, _) => (bytes.len(), None),
            (_, false, _) => (self.hunt(bytes), None),
            (_, _, true) => self.group_stretch(word, bytes),
            _ => (1, self.marker_byte(bytes[0])),
        }
    }

    fn hear_last(&mut self, byte: u8) {
        self.hunted = [self.hunted[1], self.hunted[2], self.hunted[3], byte];
    }

    fn no_counts(&mut self) {
        (self.group_bytes, self.marker_bytes, self.word_bytes, self.message_bytes) = (0, 0, 0, 0);
    }

    fn hunt(&mut self, bytes: &[u8]) -> usize {
        for (i, byte) in bytes.iter().enumerate() {
            self.hear_last(*byte);
            if self.hunted == MARKER {
                self.locked = true;
                self.no_counts();
                return i + 1;
            }
        }
        bytes.len()
    }

    /// Bytes of a group, up to the one with which a word is whole: the first N - 1 ever bring nothing, each other one a byte.
    fn group_stretch(&mut self, word: &mut [u8], bytes: &[u8]) -> (usize, Option<Answer>) {
        let silent = if self.depth < 2 || self.back.again { 0 } else { 255 * self.depth as usize - 1 - self.back.place as usize };
        let there = self.word_bytes % WORD;
        let taken = bytes.len().min(GROUP - self.group_bytes).min(silent + WORD - there);
        let brought = self.back.pull(self.depth, &bytes[..taken], taken).expect("limits that were looked at");
        self.group_bytes += taken;
        if brought.is_empty() {
            return (taken, None);
        }
        word[there..there + brought.len()].copy_from_slice(&brought);
        (self.word_bytes, self.message_bytes) = (there + brought.len(), 0);
        let whole = self.word_bytes == WORD;
        (taken, whole.then(|| Answer::Block(repair::repair(self.r, &mut word[..WORD]).expect("a word"))))
    }

    fn marker_byte(&mut self, byte: u8) -> Option<Answer> {
        self.hear_last(byte);
        self.marker_bytes += 1;
        if self.marker_bytes < MARKER.len() {
            return None;
        }
        (self.group_bytes, self.marker_bytes) = (0, 0);
        if self.hunted == MARKER {
            return None;
        }
        self.no_counts();
        (self.locked, self.lost, self.reader) = (false, true, Reader::new());
        Some(Answer::LockLost)
    }

    /// One call behind 10 and 42: its answer (none: more wanted) and the bytes taken, or refusal 11.
    fn call(&mut self, buffer: &mut [u8], word: &mut [u8], piece: &[u8]) -> Result<(Option<Answer>, usize), u8> {
        if buffer.len() < RAW_LIMIT || word.len() < WORD {
            return Err(11);
        }
        let owed = self.rest_of_message(buffer, word);
        let (mut answer, mut at) = (owed, 0);
        while answer.is_none() && at < piece.len() {
            let (taken, told) = self.stretch(word, &piece[at..]);
            (answer, at) = (told, at + taken);
        }
        Ok((answer, at))
    }
}

/// The sender of one to four: what each is told, R and depth; nothing before it is configured. A file of cases may set any.
#[derive(Clone, Default)]
pub struct Senders {
    pub told: [bool; 4],
    pub settings: [(u64, u64); 4],
}

impl Senders {
    fn within_limits(&self) -> bool {
        self.settings.iter().all(|(r, depth)| settings(*r, *depth).is_ok())
    }

    pub fn configure(&mut self, number: usize, r: u64, depth: u64) -> Result<(), u8> {
        if !self.within_limits() {
            return Err(10);
        }
        let place = self.settings.get_mut(number).ok_or(42)?;
        settings(r, depth)?;
        (*place, self.told[number]) = ((r, depth), true);
        Ok(())
    }

    pub fn send(&self, number: usize, stream: &[u8], space: usize) -> Result<Vec<u8>, u8> {
        if !self.within_limits() {
            return Err(10);
        }
        match self.told.get(number) {
            Some(true) => in_groups(self.settings[number].0, self.settings[number].1, stream, space),
            _ => Err(42),
        }
    }
}

/// The receiver of one to four.
pub struct Receiver {
    pub subs: [SubChannel; 4],
}

impl Receiver {
    pub fn new() -> Self {
        Receiver { subs: [(); 4].map(|_| SubChannel::new(false, 0, 0)) }
    }

    fn within_limits(&self) -> bool {
        self.subs.iter().all(SubChannel::within_limits)
    }

    pub fn configure(&mut self, number: usize, r: u64, depth: u64) -> Result<(), u8> {
        if !self.within_limits() {
            return Err(10);
        }
        let sub = self.subs.get_mut(number).ok_or(42)?;
        settings(r, depth)?;
        *sub = SubChannel::new(true, r, depth);
        Ok(())
    }

    pub fn call(&mut self, number: usize, buffer: &mut [u8], word: &mut [u8], piece: &[u8]) -> Result<(Option<Answer>, usize), u8> {
        if !self.within_limits() {
            return Err(10);
        }
        match self.subs.get_mut(number) {
            Some(sub) if sub.told => sub.call(buffer, word, piece),
            _ => Err(42),
        }
    }
}

/// Standard input as a stream on a sub-channel, to standard output.
pub fn send_input(r: u64, depth: u64) {
    let mut stream = Vec::new();
    std::io::stdin().read_to_end(&mut stream).expect("standard input");
    let groups = in_groups(r, depth, &stream, usize::MAX).expect("settings that were looked at");
    std::io::stdout().write_all(&groups).expect("standard output");
}

/// What a sub-channel makes of received bytes, in pieces of this length: a line for each answer, and at the end the totals.
pub fn listing(r: u64, depth: u64, bytes: &[u8], length: usize) -> Vec<u8> {
    let mut receiver = Receiver::new();
    receiver.configure(0, r, depth).expect("settings that were looked at");
    let (mut buffer, mut word, mut page) = (vec![0; RAW_LIMIT], vec![0; WORD], Page::default());
    for mut piece in bytes.chunks(length) {
        loop {
            let (answer, taken) = receiver.call(0, &mut buffer, &mut word, piece).expect("buffers that pass");
            piece = &piece[taken..];
            match answer {
                None => break,
                Some(Answer::Frame(result)) => page.frame(result),
                Some(Answer::Block(repaired)) => page.block(repaired),
                Some(Answer::LockLost) => page.lock_lost(),
            }
        }
    }
    let numbers = [&[bytes.len() as u64], &page.totals[..]].concat();
    page.print_line(b'E', &numbers, b"");
    page.lines
}

/// Lists standard input on standard output.
pub fn list_input(r: u64, depth: u64) {
    let mut bytes = Vec::new();
    std::io::stdin().read_to_end(&mut bytes).expect("standard input");
    std::io::stdout().write_all(&listing(r, depth, &bytes, 4096)).expect("standard output");
}
