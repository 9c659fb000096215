//! Request W1, which bids did we miss: a table of ports by signed distances, the lines of a recording, and cases for the proved calls.

use crate::cases::Random;
use crate::listing;
use crate::listing_cases::{recorded, PLAIN};
use crate::packet::{self, FLAG};
use std::collections::HashSet;
use std::ops::RangeInclusive;

pub const MOST: usize = 16;

#[derive(Clone, Copy, PartialEq, Debug)]
pub struct Place {
    held: bool,
    port: u16,
    last: u16,
}

pub const FREE: Place = Place { held: false, port: 0, last: 0 };

#[derive(PartialEq, Debug)]
pub enum Verdict {
    First,
    Distance(i16),
}

impl Verdict {
    fn words(&self) -> String {
        match self {
            Verdict::First => "first".to_string(),
            Verdict::Distance(0) => "repeated".to_string(),
            Verdict::Distance(1) => "in order".to_string(),
            Verdict::Distance(distance) if *distance < 0 => "late".to_string(),
            Verdict::Distance(distance) => format!("missing {}", distance - 1),
        }
    }

    /// As the driver of the proved calls tells it.
    fn number(&self) -> u32 {
        match self {
            Verdict::First => 0,
            Verdict::Distance(1) => 1,
            Verdict::Distance(0) => 2,
            Verdict::Distance(distance) if *distance < 0 => 3,
            Verdict::Distance(distance) => 0x1_0000 + (*distance as u32 - 1),
        }
    }
}

fn held(table: &[Place]) -> impl Iterator<Item = &Place> {
    table.iter().filter(|place| place.held)
}

/// 43: too many places, or one port twice.
fn measure(table: &[Place]) -> Result<(), u8> {
    let ports: HashSet<u16> = held(table).map(|place| place.port).collect();
    if table.len() > MOST || ports.len() < held(table).count() {
        return Err(43);
    }
    Ok(())
}

fn find(table: &mut [Place], port: u16) -> Option<&mut Place> {
    table.iter_mut().find(|place| place.held && place.port == port)
}

pub fn note(table: &mut [Place], port: u16, sequence: u16) -> Result<Verdict, u8> {
    measure(table)?;
    if let Some(place) = find(table, port) {
        // 16 bits of the difference, read with their sign, are the distance around 65,536
        let distance = sequence.wrapping_sub(place.last) as i16;
        if distance > 0 {
            place.last = sequence;
        }
        return Ok(Verdict::Distance(distance));
    }
    let free = table.iter_mut().find(|place| !place.held).ok_or(40)?;
    *free = Place { held: true, port, last: sequence };
    Ok(Verdict::First)
}

pub fn forget(table: &mut [Place], port: u16) -> Result<(), u8> {
    measure(table)?;
    find(table, port).ok_or(41)?.held = false;
    Ok(())
}

/// `A-B`: the ports from A to B.
pub fn between(text: &str) -> Option<RangeInclusive<u16>> {
    let (first, last) = text.split_once('-')?;
    Some(first.parse().ok()?..=last.parse().ok()?)
}

/// Every port.
pub const EVERY: RangeInclusive<u16> = 0..=u16::MAX;

/// The lines of a recording's packets, taken from its listing; and the line that says where it is no whole recording.
pub fn missed(recording: &[u8]) -> (String, Option<String>) {
    missed_of(recording, &EVERY)
}

/// The same of these ports alone: the table never hears of the others.
fn missed_of(recording: &[u8], ports: &RangeInclusive<u16>) -> (String, Option<String>) {
    let listing = String::from_utf8(listing::listing(recording)).unwrap();
    let mut table = [FREE; MOST];
    let mut lines = String::new();
    for line in listing.lines() {
        let words: Vec<&str> = line.split(' ').collect();
        if let ["P", port, sequence, ..] = words[..] {
            if !ports.contains(&port.parse().unwrap()) {
                continue;
            }
            let told = match note(&mut table, port.parse().unwrap(), sequence.parse().unwrap()) {
                Ok(verdict) => verdict.words(),
                Err(number) => format!("refused {number}"),
            };
            lines += &format!("{port} {sequence} {told}\n");
        }
    }
    (lines, listing.lines().last().filter(|line| line.starts_with('X')).map(str::to_string))
}

/// `second missed [--ports A-B]`: the recording on standard input.
pub fn show_missed(ports: RangeInclusive<u16>) -> i32 {
    let mut bytes = Vec::new();
    std::io::Read::read_to_end(&mut std::io::stdin(), &mut bytes).expect("standard input");
    let (lines, wrong) = missed_of(&bytes, &ports);
    print!("{lines}");
    if let Some(wrong) = &wrong {
        eprintln!("missed: no whole recording: {wrong}");
    }
    wrong.is_some() as i32
}

/// `second numbered FILE [SEED]`: a recording of packets for 18 ports, more than the table has places, with distances of every kind.
pub fn write_numbered(path: &str, seed: u64) {
    let mut random = Random::new(seed);
    let mut last = [0u16; 18];
    let mut stream = vec![FLAG];
    for i in 0..600 {
        let port = if i < 2 * last.len() { i / 2 } else { random.below(last.len()) };
        let distance = [1, 1, 1, 1, 0, 2, 3, 100, 32_767, 32_768, 65_535, 65_500][random.below(12)];
        last[port] = last[port].wrapping_add(distance);
        stream.extend(packet::escaped_packet(0x1400 + port as u16, last[port], b"bid", usize::MAX).unwrap());
    }
    std::fs::write(path, recorded(PLAIN, &stream, || 500)).expect(path);
}

// ---- cases for the proved calls on a table by value (crates/cases_ports has their form)
pub struct Case {
    asked: u8,
    port: u16,
    sequence: u16,
    table: [Place; MOST],
}

impl Case {
    fn write(&self, to: &mut Vec<u8>) {
        to.push(self.asked);
        to.extend(self.port.to_le_bytes());
        to.extend(self.sequence.to_le_bytes());
        write_table(&self.table, to);
    }

    /// The number that is told of a call, and the table then.
    fn answer(&self, to: &mut Vec<u8>) {
        let mut table = self.table;
        let told = match self.asked {
            b'N' => note(&mut table, self.port, self.sequence).map(|verdict| verdict.number()),
            _ => forget(&mut table, self.port).map(|()| 0),
        };
        to.extend(told.unwrap_or_else(|number| 0x100_0000 + number as u32).to_le_bytes());
        write_table(&table, to);
    }
}

fn write_table(table: &[Place], to: &mut Vec<u8>) {
    for place in table {
        to.push(place.held as u8);
        to.extend(place.port.to_le_bytes());
        to.extend(place.last.to_le_bytes());
    }
}

/// `second ports CASES ANSWERS [SEED]`: writes both.
pub fn write_cases(asked: &str, told: &str, seed: u64) {
    let (mut asks, mut answers) = (Vec::new(), Vec::new());
    let all = cases(seed);
    for case in &all {
        case.write(&mut asks);
        case.answer(&mut answers);
    }
    std::fs::write(asked, asks).expect(asked);
    std::fs::write(told, answers).expect(told);
    println!("{} calls on tables of ports", all.len());
}

/// Both calls.
fn asks(port: u16, sequence: u16, table: [Place; MOST], cases: &mut Vec<Case>) {
    cases.extend(b"NF".iter().map(|asked| Case { asked: *asked, port, sequence, table }));
}

fn cases(seed: u64) -> Vec<Case> {
    let mut random = Random::new(seed);
    let mut cases = Vec::new();
    distances(&mut cases);
    // free, full, with one place free
    let full: [Place; MOST] = std::array::from_fn(|i| Place { held: true, port: 0x1400 + i as u16, last: i as u16 });
    let mut tables = vec![[FREE; MOST], full];
    for i in 0..MOST {
        let mut table = full;
        table[i].held = false;
        tables.push(table);
    }
    // one port at two places: held at both, at the first and at the second alone
    for (first, second) in [(true, true), (true, false), (false, true)] {
        let mut table = full;
        table[0] = Place { held: first, port: 0x5100, last: 7 };
        table[MOST - 1] = Place { held: second, port: 0x5100, last: 9 };
        tables.push(table);
    }
    for _ in 0..200 {
        tables.push(std::array::from_fn(|_| any(&mut random)));
    }
    for table in tables {
        for port in [0x1400, 0x1408, 0x140F, 0x5100, 0xFFFF] {
            asks(port, 8, table, &mut cases);
        }
    }
    cases
}

/// Distances around 0, 1, 2, 32,767, 32,768 and 65,535, from last numbers at both ends and in the middle.
fn distances(cases: &mut Vec<Case>) {
    for last in [0u16, 1, 411, 32_767, 32_768, 40_000, 65_535] {
        for distance in [0u16, 1, 2, 3, 100, 32_766, 32_767, 32_768, 32_769, 65_534, 65_535] {
            let mut table = [FREE; MOST];
            table[3] = Place { held: true, port: 0x5100, last };
            asks(0x5100, last.wrapping_add(distance), table, cases);
        }
    }
}

/// A place with one of twelve ports, held or not.
fn any(random: &mut Random) -> Place {
    Place { held: random.below(3) > 0, port: 0x13FE + 2 * random.below(12) as u16, last: random.below(20) as u16 }
}

/// The request's sentences, one by one.
pub fn test() {
    let told = |last: u16, new: u16| {
        let mut table = [Place { held: true, port: 9, last }];
        let words = note(&mut table, 9, new).unwrap().words();
        (words, table[0].last)
    };
    for (last, new, words, then) in [
        (5, 6, "in order", 6),
        (65_535, 0, "in order", 0),
        (5, 5, "repeated", 5),
        (5, 7, "missing 1", 7),
        (65_535, 2, "missing 2", 2),
        (0, 32_767, "missing 32766", 32_767),
        (0, 32_768, "late", 0),
        (5, 4, "late", 5),
        (0, 65_535, "late", 0),
    ] {
        assert_eq!(told(last, new), (words.to_string(), then), "{last} {new}");
    }
    let mut table = [FREE; MOST];
    for port in 0..MOST as u16 {
        assert_eq!(note(&mut table, port, 1), Ok(Verdict::First));
    }
    assert_eq!(note(&mut table, 99, 1), Err(40));
    assert_eq!(forget(&mut table, 99), Err(41));
    assert_eq!(forget(&mut table, 7), Ok(()));
    assert_eq!(note(&mut table, 99, 1), Ok(Verdict::First));
    assert_eq!(table[7], Place { held: true, port: 99, last: 1 });
    table[8].port = 99;
    assert_eq!((note(&mut table, 50, 1), forget(&mut table, 50)), (Err(43), Err(43)));
    assert_eq!((note(&mut [FREE; 17], 50, 1), forget(&mut [FREE; 17], 50)), (Err(43), Err(43)));
    assert_eq!((note(&mut [], 50, 1), forget(&mut [], 50)), (Err(40), Err(41)));
}
