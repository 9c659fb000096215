//! Cases for fixed sub-channels, and the second program's own held to the request. crates/cases_four/src/main.rt has what is asked of a receiver
//! of four, which is carried over from case to case with its buffers; crates/cases_interleaver/src/main.rt what is asked of a sender.

use crate::cases::{self, Case, Random};
use crate::channel::{Answer, MARKER};
use crate::channel_cases::{self, alter};
use crate::fixed::{self, Receiver, Senders, SubChannel, FOUR, GROUP};
use crate::interleaver::{Sender, CELLS};
use crate::packet::{Packet, FLAG, RAW_LIMIT};
use crate::parity::WORD;
use crate::stream::Reader;

/// What a file of cases carries over.
pub struct Carried {
    receiver: Receiver,
    /// Each sub-channel's two buffers.
    buffers: [Vec<u8>; 4],
    words: [Vec<u8>; 4],
}

impl Carried {
    pub fn new() -> Self {
        let lent = |n: usize| [(); 4].map(|_| vec![0xA5; n]);
        Carried { receiver: Receiver::new(), buffers: lent(RAW_LIMIT), words: lent(WORD) }
    }

    /// What the second program answers to a case, the output aside.
    pub fn reply(&mut self, case: &Case, out: &mut [u8]) -> Vec<u8> {
        let [a, b, c, _] = [0, 16, 32, 48].map(|shift| case.number >> shift & 0xFFFF);
        let mut told = Vec::new();
        match case.asked {
            b'n' => *self = Carried::new(),
            b'c' => cases::push_all(&mut told, &[self.receiver.configure(a as usize, b, c).map_or_else(cases::refusal, |_| 0)]),
            b'h' => self.hear(a as usize, b as usize, c as usize, &case.bytes, &mut told),
            b'x' => self.receiver.subs[a as usize] = sub_in(&self.receiver.subs[a as usize], &case.bytes),
            b'v' => self.view(a as usize, out, &mut told),
            _ => {}
        }
        told
    }

    /// A piece handed in until more is wanted, or a call is refused.
    fn hear(&mut self, number: usize, room: usize, long: usize, piece: &[u8], told: &mut Vec<u8>) {
        let lent = number.min(3);
        let (mut at, mut go) = (0, true);
        while go {
            let (buffer, word) = (&mut self.buffers[lent][..room], &mut self.words[lent][..long]);
            let result = self.receiver.call(number, buffer, word, &piece[at..]);
            let taken = result.map_or(0, |(_, taken)| taken);
            at += taken;
            cases::push_all(told, &[taken as u64, result.map_or_else(cases::refusal, |(answer, _)| answer.map_or(0, channel_cases::answer_number))]);
            if let Ok((Some(Answer::Frame(Ok(packet))), _)) = result {
                cases::push_delivered(told, &packet, buffer);
            }
            go = matches!(result, Ok((Some(_), _)));
        }
    }

    /// The numbers of a sub-channel, its two buffers, and its cells in the output.
    fn view(&self, number: usize, out: &mut [u8], told: &mut Vec<u8>) {
        let s = &self.receiver.subs[number];
        cases::push_all(told, &[s.told as u64, s.r, s.depth, s.locked as u64, s.lost as u64]);
        cases::push_all(told, &s.hunted.map(u64::from));
        let counts = [s.group_bytes, s.marker_bytes, s.word_bytes, s.message_bytes];
        let reader = [!s.reader.waits as usize, s.reader.raw, s.reader.stored, s.reader.broken];
        cases::push_all(told, &[counts, reader].concat().iter().map(|n| *n as u64).collect::<Vec<_>>());
        cases::push_all(told, &[s.back.again as u64, s.back.place]);
        told.extend(&self.buffers[number]);
        told.extend(&self.words[number]);
        cases::lay(&s.back.cells, out);
    }
}

/// What a sender answers, with the interleaver as it stands: the bytes taken of a stream for the next group, and its length; the length of a
/// stream as sent; how many groups one has.
pub fn sender_reply(case: &Case, sender: &mut Sender, out: &mut [u8]) -> Vec<u8> {
    let [r, depth] = [0, 16].map(|shift| case.number >> shift & 0xFFFF);
    let mut told = Vec::new();
    match case.asked {
        b's' => cases::push_all(&mut told, &[cases::answer_in(fixed::in_groups(r, depth, &case.bytes, out.len()), out)]),
        b'g' => {
            let result = fixed::next_group(sender, r, depth, &case.bytes, out.len());
            cases::push_all(&mut told, &[result.as_ref().map_or(0, |(taken, _)| *taken as u64)]);
            cases::push_all(&mut told, &[cases::answer_in(result.map(|(_, group)| group), out)]);
        }
        _ => {
            let length = u64::from_le_bytes(case.bytes[..8].try_into().unwrap());
            cases::push_all(&mut told, &[fixed::group_count(r, depth, length).unwrap_or_else(cases::refusal)]);
        }
    }
    told
}

/// What the sender of four answers: its settings behind configuring, and the answer; or the length of a stream as sent.
pub fn four_reply(case: &Case, out: &mut [u8]) -> Vec<u8> {
    let [number, r, depth] = [0, 16, 32].map(|shift| case.number >> shift & 0xFFFF);
    let (mut told, mut senders) = (Vec::new(), senders_in(&case.bytes));
    if case.asked == b'w' {
        cases::push_all(&mut told, &[cases::answer_in(senders.send(number as usize, &case.bytes[24..], out.len()), out)]);
        return told;
    }
    let result = senders.configure(number as usize, r, depth);
    for (told_one, (r, depth)) in senders.told.into_iter().zip(senders.settings) {
        cases::push_all(&mut told, &[told_one as u64, r, depth]);
    }
    cases::push_all(&mut told, &[result.map_or_else(cases::refusal, |_| 0)]);
    told
}

/// The sender of four whose settings a case has before its other bytes, and the same the other way round.
fn senders_in(bytes: &[u8]) -> Senders {
    let pair = |i: usize| u16::from_le_bytes([bytes[2 * i], bytes[2 * i + 1]]) as u64;
    Senders { told: [0, 3, 6, 9].map(|i| pair(i) == 1), settings: [0, 3, 6, 9].map(|i| (pair(i + 1), pair(i + 2))) }
}

fn senders_bytes(senders: &Senders) -> Vec<u8> {
    let numbers = (0..4).flat_map(|i| [senders.told[i] as u64, senders.settings[i].0, senders.settings[i].1]);
    numbers.flat_map(|n| (n as u16).to_le_bytes()).collect()
}

/// A sub-channel with the numbers that a case tells; its cells stay.
fn sub_in(old: &SubChannel, bytes: &[u8]) -> SubChannel {
    let pair = |i: usize| u16::from_le_bytes([bytes[2 * i], bytes[2 * i + 1]]) as usize;
    let mut back = old.back.clone();
    (back.again, back.place) = (pair(15) == 1, pair(16) as u64);
    SubChannel {
        told: pair(0) == 1,
        r: pair(1) as u64,
        depth: pair(2) as u64,
        locked: pair(3) == 1,
        lost: pair(4) == 1,
        hunted: [bytes[10], bytes[11], bytes[12], bytes[13]],
        group_bytes: pair(7),
        marker_bytes: pair(8),
        word_bytes: pair(9),
        message_bytes: pair(10),
        reader: Reader { waits: pair(11) == 0, raw: pair(12), stored: pair(13), broken: pair(14) },
        back,
    }
}

/// The same the other way round.
fn sub_bytes(s: &SubChannel) -> Vec<u8> {
    let mut numbers = vec![s.told as usize, s.r as usize, s.depth as usize, s.locked as usize, s.lost as usize];
    numbers.extend([u16::from_le_bytes([s.hunted[0], s.hunted[1]]), u16::from_le_bytes([s.hunted[2], s.hunted[3]])].map(usize::from));
    numbers.extend([s.group_bytes, s.marker_bytes, s.word_bytes, s.message_bytes]);
    numbers.extend([!s.reader.waits as usize, s.reader.raw, s.reader.stored, s.reader.broken]);
    numbers.extend([s.back.again as usize, s.back.place as usize]);
    numbers.into_iter().flat_map(|n| (n as u16).to_le_bytes()).collect()
}

const PARITIES: [u64; 7] = [0, 1, 2, 16, 32, 63, 64];
const DEPTHS: [u64; 6] = [0, 1, 2, 3, 7, 64];

/// A case of a call with up to three numbers of 16 bits.
fn asked(letter: u8, numbers: [usize; 3], space: usize, bytes: Vec<u8>) -> Case {
    let number = numbers.iter().rev().fold(0, |n, k| n << 16 | *k as u64);
    Case { asked: letter, number, space: space as u16, bytes }
}

fn configured(number: usize, r: u64, depth: u64) -> Case {
    asked(b'c', [number, r as usize, depth as usize], 0, vec![])
}

fn heard(number: usize, piece: &[u8]) -> Case {
    asked(b'h', [number, RAW_LIMIT, WORD], 0, piece.to_vec())
}

fn viewed(number: usize, cells: bool) -> Case {
    asked(b'v', [number, 0, 0], if cells { CELLS } else { 0 }, vec![])
}

fn anew() -> Case {
    asked(b'n', [0, 0, 0], 0, vec![])
}

pub fn all(random: &mut Random, cases: &mut Vec<Case>) {
    senders(random, cases);
    groups(random, cases);
    for _ in 0..12 {
        four(random, cases);
    }
    for r in PARITIES {
        for depth in DEPTHS {
            let times = if depth == 64 { 1 } else { 6 };
            for i in 0..times {
                let kind = if depth == 64 { random.below(6) } else { i };
                alone(random, r, depth, kind, cases);
            }
        }
    }
    for _ in 0..20 {
        mixed(random, cases);
    }
    for _ in 0..200 {
        states(random, cases);
    }
    refused(random, cases);
}

/// Streams at the edges of messages and groups, and outputs as they should be and one off.
fn senders(random: &mut Random, cases: &mut Vec<Case>) {
    for r in PARITIES {
        let m = WORD - r as usize;
        for depth in DEPTHS {
            for n in [0, 1, m - 1, m, m + 1, 4 * m - 1, 4 * m, 4 * m + 1, 5 * m + 7] {
                let result = fixed::group_count(r, depth, n as u64).unwrap() as usize * 1024;
                let few = if depth == 64 { 1 + random.below(2) } else { 3 };
                for space in [result, result.saturating_sub(1), result + 9].into_iter().take(few) {
                    cases.push(asked(b's', [r as usize, depth as usize, 0], space, channel_cases::packets(random, n.max(1))[..n].to_vec()));
                }
                let length = [n as u64, random.next(), u64::MAX][random.below(3)];
                cases.push(asked(b'q', [r as usize, depth as usize, 0], 0, length.to_le_bytes().to_vec()));
            }
        }
    }
    for (r, depth) in [(65, 2), (65535, 65), (64, 65), (0, 65535), (65, 0)] {
        cases.push(asked(b's', [r, depth, 0], 3000, vec![FLAG; 300]));
        cases.push(asked(b'q', [r, depth, 0], 0, vec![1; 8]));
    }
}

/// Streams group by group, with what is taken handed in again where it was refused; then groups from any place.
fn groups(random: &mut Random, cases: &mut Vec<Case>) {
    for depth in DEPTHS {
        let r = PARITIES[random.below(7)] as usize;
        cases.push(asked(b'N', [0; 3], 0, vec![]));
        let n = random.below(6000);
        let stream = channel_cases::packets(random, n + 1);
        let four = FOUR * (WORD - r);
        for g in 0..fixed::group_count(r as u64, depth, stream.len() as u64).unwrap() as usize {
            let rest = &stream[stream.len().min(g * four)..];
            if random.below(4) == 0 {
                cases.push(asked(b'g', [r, depth as usize, 0], 1023, rest.to_vec()));
            }
            cases.push(asked(b'g', [r, depth as usize, 0], 1024 + random.below(3), rest[..rest.len().min(four + random.below(9))].to_vec()));
        }
        cases.push(asked(b'V', [0; 3], CELLS + 1, vec![]));
    }
    for i in 0..120 {
        let depth: usize = [0, 1, 2, 3, 63, 64, 65, 66, 65535][random.below(9)];
        let place = [0, 255 * depth.min(70), (255 * depth.min(70)).saturating_sub(1), random.below(17000), CELLS, 1 << 40][random.below(6)];
        cases.push(Case { asked: b'X', number: place as u64, space: 0, bytes: vec![0] });
        let (n, r) = (random.below(1200), [0, 32, 64, 65, 65535][random.below(5)]);
        cases.push(asked(b'g', [r, depth, 0], 1022 + random.below(4), random.bytes(n)));
        if i % 20 == 0 {
            cases.push(asked(b'V', [0; 3], CELLS + 1, vec![]));
        }
    }
    cases.push(asked(b'V', [0; 3], CELLS + 1, vec![]));
}

/// The sender of four from the start: configured, also again and wrongly, and streams sent on each in between, with outputs as they should be and
/// one off; then with settings that 10 refuses.
fn four(random: &mut Random, cases: &mut Vec<Case>) {
    let mut senders = Senders::default();
    for turn in 0..16 {
        if turn == 13 {
            let far = [(65, 0), (0, 65), (65535, 64), (64, 65535)][random.below(4)];
            (senders.told[random.below(4)], senders.settings[random.below(4)]) = (random.below(2) == 0, far);
        }
        let number = [turn % 4, 4, 65535][[0, 0, 0, 1, 2][random.below(5)]];
        let r = [PARITIES[random.below(7)], PARITIES[random.below(7)], 65, 65535][random.below(4)];
        let depth = [DEPTHS[random.below(5)], DEPTHS[random.below(6)], 65, 65535][random.below(4)];
        cases.push(asked(b'p', [number, r as usize, depth as usize], 0, senders_bytes(&senders)));
        let _ = senders.configure(number, r, depth);
        for number in [0, 1, 2, 3, 4 + random.below(2) * 65531] {
            let n = random.below(1200);
            let stream = channel_cases::packets(random, n + 1);
            let right = senders.send(number, &stream, usize::MAX).map_or(9, |bytes| bytes.len());
            let space = [right, right.saturating_sub(1), right + 5][random.below(3)];
            cases.push(asked(b'w', [number, 0, 0], space, [senders_bytes(&senders), stream].concat()));
        }
    }
}

/// Words altered, before they are interleaved, within half of R and beyond it.
fn sent(random: &mut Random, r: u64, depth: u64, n: usize, kind: usize) -> Vec<u8> {
    let stream = channel_cases::packets(random, n);
    let mut words = fixed::words(r, depth, &stream);
    let half = r as usize / 2;
    for word in words.iter_mut() {
        let within = [half, random.below(half + 1)][random.below(2)];
        match (kind, random.below(4)) {
            (1, 0) => alter(random, word, within),
            (2, 0) => alter(random, word, half + 1),
            _ => {}
        }
    }
    fixed::marked(depth, &words)
}

/// What one sub-channel may receive: as sent, damaged within and beyond repair, with bytes altered behind the interleaver, with stray bytes in
/// front, with a marker wrong, cut short, with bytes too many.
fn received(random: &mut Random, r: u64, depth: u64, kind: usize) -> Vec<u8> {
    let n = 1 + random.below(1400);
    let mut bytes = sent(random, r, depth, n, kind);
    let (some, at) = (random.below(60), random.below(bytes.len().max(1)));
    let last = bytes.len().saturating_sub(1024);
    match kind {
        3 => alter(random, &mut bytes[4..], some),
        4 => bytes[last + random.below(4)] ^= 1 + random.below(255) as u8,
        5 => drop(bytes.splice(at..at, random.bytes(3))),
        _ => {}
    }
    if kind == 3 {
        bytes.truncate(bytes.len() - some);
    }
    [channel_cases::stray(random), bytes].concat()
}

/// Cuts bytes into pieces.
fn pieces(random: &mut Random, bytes: &[u8], depth: u64) -> Vec<Vec<u8>> {
    let (mut at, mut pieces) = (0, Vec::new());
    let most = if depth == 64 { [700, 3000] } else { [3, 900] };
    while at < bytes.len() {
        let most = most[random.below(2)];
        let n = random.below(most + 1).min(bytes.len() - at);
        pieces.push(bytes[at..at + n].to_vec());
        at += n;
    }
    pieces
}

/// One sub-channel alone, and then told again.
fn alone(random: &mut Random, r: u64, depth: u64, kind: usize, cases: &mut Vec<Case>) {
    let number = random.below(4);
    cases.push(anew());
    cases.push(configured(number, r, depth));
    let bytes = received(random, r, depth, kind);
    let whole = random.below(3) == 0;
    let cut = if whole { vec![bytes] } else { pieces(random, &bytes, depth) };
    cases.extend(cut.iter().map(|piece| heard(number, piece)));
    cases.push(viewed(number, kind == 0));
    if depth < 8 && kind > 3 {
        let bytes = received(random, 16, 2, 0);
        cases.push(configured(number, 16, 2));
        cases.extend(pieces(random, &bytes, depth).iter().map(|piece| heard(number, piece)));
        cases.push(viewed(number, false));
    }
}

/// Several sub-channels, their pieces mixed; one or two of them not configured, or told again in between.
fn mixed(random: &mut Random, cases: &mut Vec<Case>) {
    cases.push(anew());
    let mut left: Vec<Vec<Vec<u8>>> = Vec::new();
    for number in 0..4 {
        let (r, depth) = (PARITIES[random.below(7)], DEPTHS[random.below(5)]);
        if random.below(5) > 0 {
            cases.push(configured(number, r, depth));
        }
        let kind = random.below(6);
        let bytes = received(random, r, depth, kind);
        left.push(pieces(random, &bytes, 64));
    }
    while left.iter().any(|pieces| !pieces.is_empty()) {
        let number = random.below(4);
        if !left[number].is_empty() {
            cases.push(heard(number, &left[number].remove(0)));
        }
        if random.below(40) == 0 {
            cases.push(configured(random.below(5), PARITIES[random.below(7)] + random.below(2) as u64, DEPTHS[random.below(6)] + random.below(2) as u64));
        }
    }
    cases.extend((0..4).map(|number| viewed(number, false)));
}

/// One of some counts, now and then one beyond the limit.
fn count(random: &mut Random, within: &[usize], beyond: &[usize]) -> usize {
    let from = if random.below(14) == 0 { beyond } else { within };
    from[random.below(from.len())]
}

/// A sub-channel in any state: counts at and beyond their limits, also such as no run reaches.
fn any(random: &mut Random) -> SubChannel {
    let mut s = SubChannel::new(random.below(10) > 0, 0, 0);
    s.r = count(random, &[0, 1, 2, 16, 32, 63, 64], &[65, 255, 256, 65535]) as u64;
    s.depth = count(random, &[0, 1, 2, 3, 7, 64], &[65, 65535]) as u64;
    (s.locked, s.lost) = (random.below(4) > 0, random.below(8) == 0);
    s.hunted = [0x7D, 0x3A, 0xE2, [0x42, random.byte()][random.below(2)]];
    let part = random.below(GROUP);
    s.group_bytes = count(random, &[0, 1, 254, 255, 1018, GROUP - 1, GROUP, GROUP, GROUP, part], &[GROUP + 1, 65535]);
    s.marker_bytes = count(random, &[0, 1, 2, 3], &[4, 5, 65535]);
    s.hunted.rotate_left(if random.below(2) == 0 { s.marker_bytes % 4 } else { random.below(4) });
    let (part, m) = (random.below(WORD), WORD - s.r.min(64) as usize);
    s.word_bytes = count(random, &[0, 1, WORD - 2, WORD - 1, WORD, WORD, WORD, part], &[WORD + 1, 65535]);
    s.message_bytes = count(random, &[0, 1, m - 1, m, m, m / 2], &[m + 1, 256, 65535]);
    let raw = [0, 0, 1, 7, RAW_LIMIT - 1, RAW_LIMIT, RAW_LIMIT + 1, RAW_LIMIT + 2, random.below(RAW_LIMIT + 95)][random.below(9)];
    let stored = if random.below(20) == 0 { random.below(8300) } else { raw.min(RAW_LIMIT) };
    s.reader = Reader { waits: random.below(2) == 0, raw, stored, broken: 0 };
    if random.below(3) == 0 {
        s.reader.broken = count(random, &[1, 7, RAW_LIMIT - 1], &[RAW_LIMIT, 65535]);
    }
    s.back.again = random.below(2) == 0;
    let n = 255 * s.depth.min(64).max(2) as usize;
    s.back.place = count(random, &[0, 1, n - 2, n - 1], &[n, n + 1, 65535]) as u64;
    s
}

/// Any state of one sub-channel beside others as they stand, and pieces to hear: of the rest of a marker and of a stream.
fn states(random: &mut Random, cases: &mut Vec<Case>) {
    cases.push(anew());
    let (number, s) = (random.below(4), any(random));
    let (r, depth) = (s.r.min(64), s.depth.min(7));
    let bytes = sent(random, r, depth, 700, 0);
    cases.push(configured(number, r, depth));
    if random.below(2) == 0 {
        cases.push(heard(number, &bytes));
    }
    let from = [s.marker_bytes.min(4), random.below(5), random.below(bytes.len())][random.below(3)];
    let end = from + random.below(bytes.len() - from + 1);
    cases.push(asked(b'x', [number, 0, 0], 0, sub_bytes(&s)));
    cases.push(heard(if random.below(6) == 0 { random.below(5) } else { number }, &bytes[from..end]));
    cases.push(configured(random.below(5), r, [depth, 65][random.below(2)]));
    cases.push(heard(number, &bytes[..end]));
    cases.push(viewed(number, random.below(20) == 0));
}

/// Refusals in their order: 10, 42, 30, 32 on configuring, 10, 42, 11 on hearing; buffers as they should be and one off.
fn refused(random: &mut Random, cases: &mut Vec<Case>) {
    for unsound in [false, true] {
        for number in [0, 3, 4, 65535] {
            for (r, depth) in [(64, 64), (65, 64), (64, 65), (65, 65)] {
                cases.push(anew());
                if unsound {
                    let mut s = any(random);
                    (s.depth, s.back.place) = (2, 510);
                    cases.push(asked(b'x', [random.below(4), 0, 0], 0, sub_bytes(&s)));
                }
                cases.push(configured(number, r, depth));
                cases.push(heard(number, &MARKER));
                for (room, long) in [(RAW_LIMIT, WORD - 1), (RAW_LIMIT - 1, WORD), (0, 0), (RAW_LIMIT, WORD)] {
                    cases.push(asked(b'h', [number, room, long], 0, vec![FLAG; 20]));
                }
            }
        }
    }
}

/// Streams for bin/fixed, into a folder: plain, as sent, and damaged; their names tell R and the depth.
pub fn write_streams(dir: &str, seed: u64) {
    let mut random = Random::new(seed);
    for (i, r) in PARITIES.into_iter().enumerate() {
        for (j, depth) in DEPTHS.into_iter().enumerate() {
            let m = WORD - r as usize;
            let n = [0, 1, 4 * m, 4 * m - 1, 9000, 20000 + random.below(500)][(i + j) % 6];
            let (stream, few) = (channel_cases::packets(&mut random, n.max(1))[..n].to_vec(), r as usize / 2);
            let mut words = fixed::words(r, depth, &stream);
            words.iter_mut().for_each(|word| {
                let places = random.below(few + 2);
                alter(&mut random, word, places);
            });
            let mut damaged = fixed::marked(depth, &words);
            if i % 3 == 2 && !damaged.is_empty() {
                let at = damaged.len() - 1024;
                damaged[at] ^= 1;
            }
            for (kind, bytes) in [("stream", &stream), ("sent", &fixed::marked(depth, &fixed::words(r, depth, &stream))), ("damaged", &damaged)] {
                std::fs::write(format!("{dir}/{r}-{depth}.{kind}"), bytes).expect(dir);
            }
        }
    }
}

/// So many MiB of a sub-channel's bytes as received without a fault, for bench/fixed: the words of packets with payloads of this length, over and
/// over.
pub fn steady(r: u64, depth: u64, payload: usize, mib: usize) -> Vec<u8> {
    let mut stream = vec![FLAG];
    for sequence in 0..200 {
        stream.extend(Packet::new(0x5100, sequence, &vec![0x41; payload]).escaped(usize::MAX).unwrap());
    }
    let words = fixed::words(r, 0, &stream);
    let many: Vec<Vec<u8>> = words.iter().cycle().take((mib << 20) / 1024 * FOUR).cloned().collect();
    fixed::marked(depth, &many)
}

/// Holds the second program to the request: how many settings were tried.
pub fn test(random: &mut Random) -> usize {
    (0..=64).for_each(|r| assert!(fixed::words(r, 2, &[]).iter().all(|word| *word == [FLAG; WORD]), "a word of flags is 255 flags"));
    let mut tried = 0;
    for r in PARITIES {
        for depth in DEPTHS {
            whole(random, r, depth);
            tried += 1;
        }
    }
    order();
    tried
}

/// A stream there and back: what it looks like, by cells that are written and read one after the other; its packets and clean blocks; the same
/// group by group, damaged within half of R, and cut in every way; lock lost once, and then nothing.
fn whole(random: &mut Random, r: u64, depth: u64) {
    let (mut stream, mut packets) = (vec![FLAG], String::new());
    for _ in 0..12 {
        let n = 1 + random.below(150);
        let packet = Packet::new(0x5100, random.next() as u16, &random.bytes(n));
        stream.extend(packet.escaped(usize::MAX).unwrap());
        packets += &format!("P 20736 {} {n} M\n", packet.sequence);
    }
    let bytes = fixed::in_groups(r, depth, &stream, usize::MAX).unwrap();
    assert_eq!(bytes.len(), 1024 * fixed::group_count(r, depth, stream.len() as u64).unwrap() as usize);
    let n = 255 * depth as usize;
    let words: Vec<u8> = fixed::words(r, depth, &stream).concat();
    let mut cells = vec![0; n];
    for (t, byte) in words.iter().enumerate() {
        let expected = if depth < 2 { *byte } else {
            cells[t % n] = *byte;
            cells[255 * ((t - 254 * (t / 255)) % depth as usize) + 53 * t % 255]
        };
        assert_eq!(bytes[t + 4 + 4 * (t / GROUP)], expected);
    }
    assert!(bytes.chunks(1024).all(|group| group.starts_with(&MARKER)));
    let (mut sender, mut at, mut grouped) = (Sender::new(), 0, Vec::new());
    while grouped.len() < bytes.len() {
        let (taken, group) = fixed::next_group(&mut sender, r, depth, &stream[at..], 1024).unwrap();
        (at, grouped) = (at + taken, [grouped, group].concat());
    }
    assert!(grouped == bytes && at == stream.len());
    let closing = if depth < 2 { 0 } else { depth as usize };
    let blocks = words.len() / WORD - closing;
    let told = |lines: &str, letter: char| lines.lines().filter(|line| line.starts_with(letter)).map(|line| format!("{line}\n")).collect::<String>();
    for length in [bytes.len(), 1, 255, 1 + random.below(2000)] {
        let length = if depth == 64 { length.max(200) } else { length };
        let lines = String::from_utf8(fixed::listing(r, depth, &bytes, length)).unwrap();
        assert_eq!(told(&lines, 'P'), packets);
        assert_eq!(told(&lines, 'B'), "B 0\n".repeat(blocks));
        assert!(lines.ends_with(&format!("E {} 12 0 0 0\n", bytes.len())));
    }
    let mut damaged = fixed::words(r, depth, &stream);
    damaged.iter_mut().for_each(|word| alter(random, word, r as usize / 2));
    let mended = String::from_utf8(fixed::listing(r, depth, &fixed::marked(depth, &damaged), 5000)).unwrap();
    assert_eq!(told(&mended, 'P'), packets);
    assert_eq!(told(&mended, 'B'), format!("B {}\n", r / 2).repeat(blocks));
    let lost = [&bytes[..], &[0; 4], &bytes[..]].concat();
    let lines = String::from_utf8(fixed::listing(r, depth, &lost, 999)).unwrap();
    assert!(lines.ends_with(&format!("L\nE {} 12 0 0 1\n", lost.len())));
}

/// The refusals in their order, and what they leave.
fn order() {
    let mut receiver = Receiver::new();
    let (mut buffer, mut word) = (vec![0; RAW_LIMIT], vec![0; WORD]);
    let told = |result: Result<(), u8>| result.err();
    assert_eq!([(4, 65, 65), (3, 65, 65), (3, 64, 65), (3, 64, 64)].map(|(k, r, d)| told(receiver.configure(k, r, d))), [Some(42), Some(30), Some(32), None]);
    for (number, long, refusal) in [(4, WORD, Some(42)), (2, 0, Some(42)), (3, WORD - 1, Some(11)), (3, WORD, None)] {
        assert_eq!(receiver.call(number, &mut buffer, &mut word[..long], &MARKER).err(), refusal);
    }
    assert!(receiver.subs[3].locked);
    receiver.subs[1].group_bytes = GROUP + 1;
    assert_eq!(receiver.call(9, &mut [], &mut word, &[]).err(), Some(10));
    assert_eq!(told(receiver.configure(9, 65, 65)), Some(10));
    let mut senders = Senders::default();
    assert_eq!([(4, 65, 65), (3, 65, 65), (3, 64, 65), (3, 64, 64)].map(|(k, r, d)| told(senders.configure(k, r, d))), [Some(42), Some(30), Some(32), None]);
    assert_eq!([4, 2, 3].map(|k| senders.send(k, &[], 0).err()), [Some(42), Some(42), Some(23)]);
    senders.settings[1].1 = 65;
    assert_eq!((senders.send(9, &[], 0).err(), told(senders.configure(9, 65, 65))), (Some(10), Some(10)));
    assert_eq!(fixed::in_groups(65, 65, &[], 0).err(), Some(30));
    assert_eq!(fixed::in_groups(64, 65, &[], 0).err(), Some(32));
    assert_eq!(fixed::in_groups(64, 64, &[], 0).err(), Some(23));
    assert_eq!(fixed::in_groups(64, 1, &[], 0), Ok(vec![]));
    let mut beyond = Sender { place: 510, ..Sender::new() };
    assert_eq!([(65, 2), (65, 66), (64, 66)].map(|(r, d)| fixed::next_group(&mut beyond, r, d, &[], 0).err()), [Some(10), Some(30), Some(32)]);
    assert_eq!(fixed::next_group(&mut beyond, 64, 3, &[], 1023).err(), Some(23));
}
