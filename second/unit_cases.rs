//! Cases of Layer 2 units: every row of table 5-4 and its edges, every mix of content and every sequence, every refusal on both sides, outputs that are
//! too short or longer than the result, units cut short or altered. crates/cases_unit/src/main.rt has the form of a case.

use crate::cases::{Case, Random};
use crate::units::{self, MOST, SEQUENCES};

/// Delimiters: any bytes, one that runs into itself, zeros, and two that zeros before them could complete.
const DELIMITERS: [[u8; 5]; 5] = [[0x4A, 0x91, 0x00, 0xFF, 0x7E], [0x55, 0x55, 0x55, 0x55, 0x55], [0; 5], [0, 0, 0, 0, 1], [0, 0, 1, 0, 0]];

/// What the second program answers to a case that writes.
pub fn written(length: u64, bytes: &[u8], space: usize) -> Result<Vec<u8>, u8> {
    let pair = |i: usize| u16::from_le_bytes([bytes[i], bytes[i + 1]]) as usize;
    let (audio, behind) = bytes[9..].split_at(pair(5));
    let (opportunistic, fixed) = behind.split_at(pair(7));
    units::write(length, &five(bytes), [audio, opportunistic, fixed], space)
}

/// .. to one that reads: the parts, one behind the other.
pub fn read(length: u64, bytes: &[u8], space: usize) -> Result<Vec<u8>, u8> {
    let told = |i: usize| u64::from_le_bytes(bytes[i..i + 8].try_into().unwrap());
    units::read(length, &five(bytes), told(5), told(13), &bytes[21..], space).map(|parts| parts.concat())
}

fn five(bytes: &[u8]) -> [u8; 5] {
    bytes[..5].try_into().unwrap()
}

fn writing(length: u64, delimiter: &[u8; 5], parts: [&[u8]; 3], space: usize) -> Case {
    let [audio, opportunistic, fixed] = parts;
    let lengths = [audio, opportunistic].map(|part| (part.len() as u16).to_le_bytes()).concat();
    Case { asked: b'U', number: length, space: space as u16, bytes: [delimiter, &lengths[..], audio, opportunistic, fixed].concat() }
}

fn reading(length: u64, delimiter: &[u8; 5], audio: u64, fixed: u64, unit: &[u8], space: usize) -> Case {
    let told = [audio, fixed].map(u64::to_le_bytes).concat();
    Case { asked: b'u', number: length, space: space as u16, bytes: [delimiter, &told[..], unit].concat() }
}

/// The edges of table 5-4 and of the limit, lengths of stations, and some of each row.
fn lengths(random: &mut Random) -> Vec<u64> {
    let mut all: Vec<u64> = (143..=145).chain(288..=304).chain(71_992..=72_008).chain(146_175..=146_177).collect();
    all.extend((152..=168).chain(305..=320));
    all.extend([0, 1, 7, 8, 23, 24, 119, 120, 121, 136, 3750, 4608, 24_000, 30_000, MOST + 8, 1 << 32, u64::MAX - 7, u64::MAX]);
    for row in 0..8 {
        all.extend([8 * (40 + random.below(900)) as u64 + row, 72_000 + 8 * random.below(9271) as u64 + row]);
    }
    all
}

/// Short units, which are quick, get more of them.
pub fn all(seed: u64) -> Vec<Case> {
    let (mut random, mut cases) = (Random::new(seed), vec![]);
    for length in lengths(&mut random) {
        match units::room(length) {
            None => unfit(&mut random, length, &mut cases),
            Some(room) => {
                for _ in 0..if length < 1000 { 4 } else { 1 } {
                    mixes(&mut random, length, room, &mut cases);
                    sequences(&mut random, length, room, &mut cases);
                    alterations(&mut random, length, room, &mut cases);
                    searches(&mut random, length, room, &mut cases);
                }
            }
        }
    }
    cases
}

/// Lengths that no unit has: 50, whatever the parts are.
fn unfit(random: &mut Random, length: u64, cases: &mut Vec<Case>) {
    for [audio, opportunistic, fixed] in [[0, 0, 0], [3, 2, 1], [0, 4, 0]] {
        let parts = [audio, opportunistic, fixed].map(|n| random.bytes(n));
        let space = random.below(40);
        cases.push(writing(length, &DELIMITERS[0], [&parts[0], &parts[1], &parts[2]], space));
        let unit = random.bytes(18_272 + 8);
        cases.push(reading(length, &DELIMITERS[0], audio as u64, fixed as u64, &unit, space));
    }
}

/// Parts of these lengths, any bytes.
fn parts(random: &mut Random, lengths: [usize; 3]) -> [Vec<u8>; 3] {
    lengths.map(|n| random.bytes(n))
}

/// Every mix, those without a sequence too: with a gap, without one, and a byte too long; outputs of the unit's length, a byte less, and more.
fn mixes(random: &mut Random, length: u64, room: usize, cases: &mut Vec<Case>) {
    let lent = length.div_ceil(8) as usize;
    for mix in 0..8 {
        let [audio, opportunistic, fixed] = [1, 2, 4].map(|bit| mix & bit != 0);
        for (i, gap) in [0, 1 + random.below(room / 3), 0].into_iter().enumerate() {
            let marked = if opportunistic { 5 } else { 0 };
            let Some(left) = room.checked_sub(gap + marked) else { continue };
            let mut lengths = shares(random, left + (i == 2) as usize, [audio, opportunistic, fixed]);
            if i == 2 && random.below(3) == 0 {
                lengths[random.below(3)] += 20_000;
            }
            let delimiter = &DELIMITERS[random.below(5)];
            let [a, o, f] = parts(random, lengths);
            let space = [lent, lent, lent + 1 + random.below(20), lent - 1, 0][random.below(5)];
            cases.push(writing(length, delimiter, [&a, &o, &f], space));
            if let Ok(unit) = units::write(length, delimiter, [&a, &o, &f], usize::MAX) {
                there_and_back(random, length, delimiter, [a.len(), o.len(), f.len()], &unit, cases);
            }
        }
    }
}

/// So many bytes among the parts that are there: one at least for each, where there are as many.
fn shares(random: &mut Random, left: usize, there: [bool; 3]) -> [usize; 3] {
    let mut lengths = there.map(|there| there as usize);
    let mut more = left.saturating_sub(lengths.iter().sum());
    for i in 0..3 {
        let last = there[i + 1..].iter().all(|there| !there);
        let share = if last { more } else { random.below(more + 1) };
        if there[i] {
            lengths[i] += share;
            more -= share;
        }
    }
    lengths
}

/// A unit read with outputs that hold the parts, are a byte too short, or longer; with bytes behind it; and cut short.
fn there_and_back(random: &mut Random, length: u64, delimiter: &[u8; 5], [a, o, f]: [usize; 3], unit: &[u8], cases: &mut Vec<Case>) {
    let (n, told) = (a + o + f, (a as u64, f as u64));
    let space = [n, n, n + 1 + random.below(20), n - 1, 0][random.below(5)];
    cases.push(reading(length, delimiter, told.0, told.1, unit, space));
    match random.below(4) {
        0 => cases.push(reading(length, delimiter, told.0, told.1, &[unit, &random.bytes(9)].concat(), n)),
        1 => cases.push(reading(length, delimiter, told.0, told.1, &unit[..unit.len() - 1], n)),
        2 => cases.push(reading(length, &DELIMITERS[random.below(5)], told.0, told.1, unit, n)),
        _ => {}
    }
}

/// Every sequence, reserved ones too, before told lengths of every kind.
fn sequences(random: &mut Random, length: u64, room: usize, cases: &mut Vec<Case>) {
    let payload = random.bytes(room);
    for (i, (text, _, _)) in SEQUENCES.into_iter().enumerate() {
        let unit = units::composed(length, text, &payload);
        let (a, f) = (1 + random.below(room / 3) as u64, 1 + random.below(room / 3) as u64);
        let all = [(a, f), (a, 0), (0, f), (0, 0)];
        for (audio, fixed) in [all[i % 4], all[random.below(4)]] {
            let delimiter = payload[a as usize + random.below(room - (a + f) as usize - 4)..][..5].try_into().unwrap();
            cases.push(reading(length, &delimiter, audio, fixed, &unit, room));
        }
    }
    let unit = units::composed(length, SEQUENCES[[2, 3][random.below(2)]].0, &payload);
    let room = room as u64;
    let edges = [(room - 1, 1), (1, room - 1), (room, 1), (1, room), (u64::MAX, 1), (1, u64::MAX), (u64::MAX, u64::MAX), (room - 6, 1)];
    for _ in 0..4 {
        let (audio, fixed) = edges[random.below(8)];
        cases.push(reading(length, &DELIMITERS[0], audio, fixed, &unit, 18_272));
    }
}

/// A unit of all three parts with bits turned over: those that are ignored, a header bit, any bits.
fn alterations(random: &mut Random, length: u64, room: usize, cases: &mut Vec<Case>) {
    let gap = random.below(2);
    let lengths = shares(random, room - 5 - gap, [true; 3]);
    let [a, o, f] = parts(random, lengths);
    let unit = units::write(length, &DELIMITERS[0], [&a, &o, &f], usize::MAX).unwrap();
    let used = units::looked_at(length, unit.len());
    let turned = |places: &[usize]| {
        let mut other = unit.clone();
        places.iter().for_each(|at| other[at / 8] ^= 128 >> (at % 8));
        reading(length, &DELIMITERS[0], a.len() as u64, f.len() as u64, &other, room)
    };
    let ignored: Vec<usize> = (0..used.len()).filter(|at| !used[*at]).collect();
    cases.push(turned(&ignored));
    let header = units::header_places(length).unwrap();
    cases.push(turned(&[header[0]]));
    cases.push(turned(&[header[header.len() - 1]]));
    cases.push(turned(&[header[random.below(header.len())]]));
    for _ in 0..3 {
        let any: Vec<usize> = (0..1 + random.below(4)).map(|_| random.below(length as usize)).collect();
        cases.push(turned(&any));
    }
}

/// Payloads in which the delimiter stands in several places: in the audio, across its end, behind it, at the fixed part and across its start, or nowhere.
fn searches(random: &mut Random, length: u64, room: usize, cases: &mut Vec<Case>) {
    for (i, delimiter) in DELIMITERS.into_iter().enumerate() {
        let (audio, fixed) = (1 + random.below(room / 3), if i % 2 == 0 { 0 } else { 1 + random.below(room / 3) });
        let end = room - fixed;
        let text = SEQUENCES[if fixed == 0 { 1 } else { 3 }].0;
        let some = audio + random.below(end - audio);
        let places = [0, audio.saturating_sub(random.below(5)), audio, end - 5, end - 6, end - random.below(5), some];
        for at in [places[random.below(7)], places[random.below(7)]] {
            let mut payload = if random.below(2) == 0 { vec![0; room] } else { random.bytes(room) };
            for at in [at, some, room] {
                let at = at.min(room - 5);
                payload[at..at + 5].copy_from_slice(&delimiter);
                if random.below(2) == 0 {
                    break;
                }
            }
            cases.push(reading(length, &delimiter, audio as u64, fixed as u64, &units::composed(length, text, &payload), room));
        }
    }
}

/// How many cases that write, and that read, had each answer: 0 where bytes were written, else a refusal.
pub fn answers(seed: u64) -> [[usize; 55]; 2] {
    let mut counts = [[0; 55]; 2];
    for case in all(seed) {
        let (side, answer): (usize, fn(u64, &[u8], usize) -> Result<Vec<u8>, u8>) = if case.asked == b'U' { (0, written) } else { (1, read) };
        counts[side][answer(case.number, &case.bytes, case.space as usize).map_or_else(usize::from, |_| 0)] += 1;
    }
    counts
}
