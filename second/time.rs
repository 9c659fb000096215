//! Times of words with 32 parity bytes: made, checked and repaired. bench/words builds the second program once more with the proved code
//! (--cfg proved) and libfec (--cfg fec) linked to it; all then take the same words in turns, and have to answer alike. bench/rack does so with the
//! rack's archive (--cfg rack): words made and checked, and plain streams read beside two other readers (readers.rs).
#![allow(unexpected_cfgs)]

use crate::cases::Random;
#[cfg(rack)]
use crate::packet::Delivery;
use crate::packet::{Frame, Packet, FLAG};
use crate::readers::{Plain, Reader, Tuned};
use crate::{parity, repair};

const R: usize = 32;
const WORD: usize = parity::WORD;
/// So many words before the next program has its turn.
const TURN: usize = 1000;

type Word = [u8; WORD];
/// The number of places changed, where the word is not beyond repair, and the word that is left.
type Mended = (Option<usize>, Word);

/// A program's name, and its three functions.
struct Way {
    name: &'static str,
    make: fn(&[u8]) -> [u8; R],
    check: fn(&Word) -> bool,
    repair: fn(&Word) -> Mended,
}

const SECOND: Way = Way {
    name: "second",
    make: |message| parity::make(R as u64, message, R).unwrap().try_into().unwrap(),
    check: |word| parity::check(R as u64, word).unwrap(),
    repair: |word| {
        let mut left = *word;
        (repair::repair(R as u64, &mut left).unwrap(), left)
    },
};

/// An optimized program for this one job, one word a call. A clean word turned round as a ring stays clean: so what eight bytes are worth can be put
/// into the 32 places behind them, and also into the 32 before. From the message's middle one way goes down to the last byte, one up to the first,
/// eight bytes a turn; neither waits for the other, and both end in the parity's places. Parity is the sum of the two. Its repair is the second
/// program's.
pub mod eights {
    use super::{parity, Way, Word, R, SECOND, WORD};
    use std::sync::LazyLock;

    const MESSAGE: usize = WORD - R;
    const TURNS: usize = MESSAGE.div_ceil(16);
    /// This byte is in a number of both ways.
    const MIDDLE: usize = MESSAGE - 8 * TURNS;

    /// Four numbers, the first byte highest.
    type Lanes = [u64; 4];
    /// Where two vectors of 16 bytes can be read.
    #[derive(Clone, Copy)]
    #[repr(align(32))]
    struct Row(Lanes);
    /// For each five bits of a number, the lowest first, 32 rows.
    type Table = [[Row; 32]; 13];

    /// Of the message's first eight bytes, and of its last. Made once.
    static TABLES: LazyLock<[Table; 2]> = LazyLock::new(|| [0, MESSAGE - 8].map(table));

    /// The parity of messages in which only a number at this place is not zero.
    fn table(at: usize) -> Table {
        let row = |number: u64| {
            let mut message = [0; MESSAGE];
            message[at..at + 8].copy_from_slice(&number.to_be_bytes());
            let parity = parity::make(R as u64, &message, R).unwrap();
            Row([0, 8, 16, 24].map(|lane| number_at(&parity, lane)))
        };
        std::array::from_fn(|group| std::array::from_fn(|bits| row((bits as u64) << (5 * group))))
    }

    #[inline(always)]
    fn number_at(bytes: &[u8], at: usize) -> u64 {
        u64::from_be_bytes(bytes[at..at + 8].try_into().unwrap())
    }

    #[inline(always)]
    fn plus(a: Lanes, b: Lanes) -> Lanes {
        [a[0] ^ b[0], a[1] ^ b[1], a[2] ^ b[2], a[3] ^ b[3]]
    }

    /// A number has gone: its rows are added to the lanes that stay.
    #[inline(always)]
    fn turned(table: &Table, lanes: Lanes, number: u64) -> Lanes {
        table.iter().enumerate().fold(lanes, |sum, (group, rows)| plus(sum, rows[(number >> (5 * group) & 31) as usize].0))
    }

    pub fn made(message: &[u8]) -> [u8; R] {
        let message: &[u8; MESSAGE] = message.try_into().unwrap();
        let [first, last] = &*TABLES;
        // the middle byte goes down; on the way up it meets itself, and is gone
        let (mut down, mut up) = ([0; 4], [0, 0, 0, message[MIDDLE] as u64]);
        for i in 0..TURNS {
            let ([a, b, c, d], [e, f, g, h]) = (down, up);
            down = turned(last, [b, c, d, 0], a ^ number_at(message, MIDDLE + 8 * i));
            up = turned(first, [0, e, f, g], h ^ number_at(message, MIDDLE - 7 - 8 * i));
        }
        let mut out = [0; R];
        for (bytes, lane) in out.chunks_mut(8).zip(plus(down, up)) {
            bytes.copy_from_slice(&lane.to_be_bytes());
        }
        out
    }

    pub fn clean(word: &Word) -> bool {
        made(&word[..MESSAGE]) == word[MESSAGE..]
    }

    /// The same from the first byte down alone, behind a zero: each turn waits for the one before it.
    pub fn made_down(message: &[u8]) -> [u8; R] {
        let message: &[u8; MESSAGE] = message.try_into().unwrap();
        let last = &TABLES[1];
        let mut lanes = turned(last, [0; 4], number_at(message, 0) >> 8);
        for i in 1..2 * TURNS {
            let [a, b, c, d] = lanes;
            lanes = turned(last, [b, c, d, 0], a ^ number_at(message, 8 * i - 1));
        }
        let mut out = [0; R];
        for (bytes, lane) in out.chunks_mut(8).zip(lanes) {
            bytes.copy_from_slice(&lane.to_be_bytes());
        }
        out
    }

    pub fn clean_down(word: &Word) -> bool {
        made_down(&word[..MESSAGE]) == word[MESSAGE..]
    }

    pub(super) const WAY: Way = Way { name: "eights", make: made, check: clean, repair: SECOND.repair };
    pub(super) const DOWN: Way = Way { name: "down", make: made_down, check: clean_down, repair: SECOND.repair };
}

#[cfg(any(proved, rack))]
mod proved {
    use super::{Mended, Way, Word, R, WORD};

    // A slice is a pointer and a length.
    extern "C" {
        #[cfg_attr(rack, link_name = "aas_parity_make")]
        fn timed_make(r: usize, message: *const u8, length: usize, out: *mut u8, room: usize) -> usize;
        #[cfg_attr(rack, link_name = "aas_word_check")]
        fn timed_check(r: usize, word: *const u8, length: usize) -> usize;
        #[cfg_attr(rack, link_name = "aas_word_repair")]
        fn timed_repair(r: usize, word: *mut u8, length: usize) -> usize;
    }

    fn mended(word: &Word) -> Mended {
        let mut left = *word;
        let n = unsafe { timed_repair(R, left.as_mut_ptr(), WORD) };
        let places = if cfg!(rack) { if n == 0 { Some(0) } else { n.checked_sub(256) } } else { (n < 100).then_some(n) };
        (places, left)
    }

    pub const WAY: Way = Way {
        name: "proved",
        make: |message| {
            let mut out = [0; R];
            assert_eq!(unsafe { timed_make(R, message.as_ptr(), message.len(), out.as_mut_ptr(), R) }, 0);
            out
        },
        check: |word| unsafe { timed_check(R, word.as_ptr(), WORD) == 0 },
        repair: mended,
    };
}

#[cfg(fec)]
mod fec {
    use super::{Mended, Way, Word, R};
    use std::ffi::c_void;
    use std::sync::OnceLock;

    extern "C" {
        fn init_rs_char(bits: i32, polynomial: i32, first: i32, step: i32, roots: i32, pad: i32) -> *mut c_void;
        fn encode_rs_char(code: *mut c_void, message: *const u8, out: *mut u8);
        fn decode_rs_char(code: *mut c_void, word: *mut u8, erased: *mut i32, count: i32) -> i32;
    }

    /// Its tables, made once.
    fn code() -> *mut c_void {
        static CODE: OnceLock<usize> = OnceLock::new();
        *CODE.get_or_init(|| unsafe { init_rs_char(8, 0x11D, 1, 1, R as i32, 0) } as usize) as *mut c_void
    }

    fn mended(word: &Word) -> Mended {
        let mut left = *word;
        let n = unsafe { decode_rs_char(code(), left.as_mut_ptr(), std::ptr::null_mut(), 0) };
        (usize::try_from(n).ok(), left)
    }

    /// It has no check of its own: a clean word is one in which nothing is to be repaired.
    pub const WAY: Way = Way {
        name: "libfec",
        make: |message| {
            let mut out = [0; R];
            unsafe { encode_rs_char(code(), message.as_ptr(), out.as_mut_ptr()) };
            out
        },
        check: |word| mended(word).0 == Some(0),
        repair: mended,
    };
}

fn ways() -> Vec<Way> {
    vec![
        #[cfg(any(proved, rack))]
        proved::WAY,
        eights::WAY,
        eights::DOWN,
        #[cfg(not(rack))]
        SECOND,
        #[cfg(fec)]
        fec::WAY,
    ]
}

/// The processor's time of this thread, in seconds.
fn clock() -> f64 {
    extern "C" {
        fn clock_gettime(clock: i32, time: *mut [i64; 2]) -> i32;
    }
    const THREAD: i32 = 3;
    let mut time = [0; 2];
    assert_eq!(unsafe { clock_gettime(THREAD, &mut time) }, 0);
    time[0] as f64 + time[1] as f64 / 1e9
}

fn race<A: PartialEq>(job: &str, words: &[Word], run: impl Fn(&Way, &Word) -> A) {
    let ways = ways();
    // tables that a program makes once are made before its time begins
    ways.iter().for_each(|way| drop(run(way, &words[0])));
    let mut took = vec![0.0; ways.len()];
    for turn in words.chunks(TURN) {
        let mut first = None;
        for (way, took) in ways.iter().zip(&mut took) {
            let began = clock();
            let answers: Vec<A> = turn.iter().map(|word| run(way, word)).collect();
            *took += clock() - began;
            match &first {
                None => first = Some(answers),
                Some(first) => assert!(answers == *first, "{job}: {} answers otherwise", way.name),
            }
        }
    }
    let each: Vec<String> = ways.iter().zip(&took).map(|(way, t)| format!("{} {:.2} ({t:.2} s)", way.name, t * 1e6 / words.len() as f64)).collect();
    println!("{job}, {} words, microseconds a word (seconds in all): {}", words.len(), each.join(", "));
    // what the first of them takes beside the others
    let ratios: Vec<String> = ways.iter().zip(&took).skip(1).map(|(way, t)| format!("{:.2} times {}", took[0] / t, way.name)).collect();
    println!("    {}: {}", ways[0].name, ratios.join(", "));
}

fn words(n: usize, places: usize) -> Vec<Word> {
    let mut random = Random::new(places as u64 + 1);
    (0..n).map(|_| repair::altered(&mut random, R, places).1.try_into().unwrap()).collect()
}

/// Of so many words to be made and checked, and so many of each kind to be repaired.
pub fn run(many: usize, each: usize) {
    let clean = words(many, 0);
    race("making", &clean, |way, word| (way.make)(&word[..WORD - R]));
    race("checking", &clean, |way, word| (way.check)(word));
    for places in [0, 1, 2, 8, 16, 17, 60] {
        race(&format!("repair, {places} places altered"), &words(each, places), |way, word| (way.repair)(word));
    }
}

/// What a reader tells: how many packets, and a sum of their numbers and of what stands at both ends of their payloads; how many refusals.
#[derive(Default, Debug, PartialEq)]
struct Heard {
    packets: usize,
    sum: u64,
    refused: usize,
}

impl Heard {
    fn tell(&mut self, frame: Frame, buffer: &[u8]) {
        match frame {
            Ok(packet) => {
                let payload = packet.payload(buffer);
                let ends = payload[0] as u64 + 256 * payload[payload.len() - 1] as u64;
                self.packets += 1;
                self.sum = self.sum.wrapping_mul(31) + packet.port as u64 + ((packet.sequence as u64) << 16) + (payload.len() as u64) * ends;
            }
            Err(_) => self.refused += 1,
        }
    }
}

/// The proved reader, called from outside as C would call it.
#[cfg(rack)]
struct Called {
    state: [u64; 12],
    recv: Vec<u8>,
}

#[cfg(rack)]
impl Called {
    fn read(&mut self, piece: &[u8], mut told: impl FnMut(Frame, &[u8])) {
        extern "C" {
            fn aas_stream_read(state: *mut [u64; 12], recv: *mut u8, room: usize, piece: *const u8, length: usize) -> usize;
        }
        let mut at = 0;
        loop {
            let left = &piece[at..];
            let n = unsafe { aas_stream_read(&mut self.state, self.recv.as_mut_ptr(), self.recv.len(), left.as_ptr(), left.len()) };
            at += self.state[0] as usize;
            match n {
                0 => return,
                256 => told(Ok(delivered(&self.state)), &self.recv),
                _ => told(Err((n as u8).into()), &self.recv),
            }
        }
    }
}

#[cfg(rack)]
fn delivered(state: &[u64; 12]) -> Delivery {
    let [_, format, key_number, key_length, port, sequence, payload_length, ..] = *state;
    Delivery {
        format: format as u8,
        key_number: key_number as u8,
        key_length: key_length as usize,
        port: port as u16,
        sequence: sequence as u16,
        payload_length: payload_length as usize,
    }
}

/// A plain stream of so many bytes at least, of random packets with payloads of these lengths.
fn plain_stream(bytes: usize, from: usize, to: usize) -> Vec<u8> {
    let mut random = Random::new(from as u64);
    let mut stream = vec![FLAG];
    let mut sequence = 0u16;
    while stream.len() < bytes {
        let n = from + random.below(to - from + 1);
        let payload = random.bytes(n);
        stream.extend(Packet::new(0x1401 + sequence % 16, sequence, &payload).raw());
        stream.push(FLAG);
        sequence = sequence.wrapping_add(1);
    }
    stream
}

/// A stream read in pieces of one length, by each reader in turns of 1 MiB.
fn race_readers(name: &str, stream: &[u8], cut: usize) {
    #[cfg(rack)]
    let mut called = Called { state: [0; 12], recv: vec![0; crate::packet::RAW_LIMIT] };
    let (mut plain, mut tuned) = (Reader::<Plain>::new(), Reader::<Tuned>::new());
    let mut heard: [Heard; 3] = Default::default();
    let mut took = [0.0; 3];
    for turn in stream.chunks(1 << 20) {
        for who in 0..3 {
            let heard = &mut heard[who];
            let began = clock();
            for piece in turn.chunks(cut) {
                match who {
                    0 => plain.read(piece, |frame, buffer| heard.tell(frame, buffer)),
                    1 => tuned.read(piece, |frame, buffer| heard.tell(frame, buffer)),
                    #[cfg(rack)]
                    _ => called.read(piece, |frame, buffer| heard.tell(frame, buffer)),
                    #[cfg(not(rack))]
                    _ => {}
                }
            }
            took[who] += clock() - began;
        }
    }
    assert!(heard[0].packets > 0 && heard[0].refused == 0 && heard[0] == heard[1], "{name}: the Rust readers answer otherwise");
    assert!(!cfg!(rack) || heard[0] == heard[2], "{name}: the proved reader answers otherwise");
    println!("reading, {name}, pieces of {cut}, {} packets in {} bytes, seconds: proved {:.3}, plain {:.3}, tuned {:.3}", heard[0].packets, stream.len(), took[2], took[0], took[1]);
    println!("    proved: {:.2} times plain, {:.2} times tuned", took[2] / took[0], took[2] / took[1]);
}

/// The rack's three jobs, of so many MiB each.
pub fn rack(mib: usize) {
    let bytes = mib << 20;
    let clean = words(bytes / WORD, 0);
    race("making", &clean, |way, word| (way.make)(&word[..WORD - R]));
    race("checking", &clean, |way, word| (way.check)(word));
    for (name, from, to) in [("payloads of 20 to 400 bytes", 20, 400), ("payloads of 4,000 to 8,000 bytes", 4000, 8000)] {
        let stream = plain_stream(bytes, from, to);
        for cut in [WORD, 4096] {
            race_readers(name, &stream, cut);
        }
    }
}
