//! Layer 2 units (request W10) from source document 003, as lists of bits: the header's places are taken first ("logically placed first, before the
//! rest of the PDU is constructed"), and the payload's bits go one by one to the places that are left.
//!
//!   second unit write LENGTH DELIMITER AUDIO OPPORTUNISTIC FIXED
//!                            the unit of these files (- for none) on standard output
//!   second unit read LENGTH DELIMITER AUDIO-LENGTH FIXED-LENGTH UNIT AUDIO OPPORTUNISTIC FIXED
//!                            a unit's parts into files (- for nowhere)
//!   second unit room LENGTH  how many payload bytes a unit has

use crate::cases::Random;
use std::io::Write;

/// The longest unit.
pub const MOST: u64 = 146_176;

/// Table 5-3: the binary sequence, its hexadecimal equivalent, and whether there is MPS/SPS, fixed data, opportunistic data; none where reserved.
pub const SEQUENCES: [(&str, u32, Option<[bool; 3]>); 8] = [
    ("001110001101100011010011", 0x38D8D3, Some([true, false, false])),
    ("110011100011011000110100", 0xCE3634, Some([true, false, true])),
    ("111000110110001101001100", 0xE3634C, Some([true, true, false])),
    ("100011011000110100110011", 0x8D8D33, Some([true, true, true])),
    ("001101100011010011001110", 0x3634CE, Some([false, true, false])),
    ("100011010011001110001101", 0x8D338D, None),
    ("110110001101001100111000", 0xD8D338, None),
    ("011000110100110011100011", 0x634CE3, None),
];

/// Table 5-4 as printed: N start, N offset, header length. Divisions of whole numbers here go towards zero, as INT does.
fn spread(length: u64) -> (i128, i128, usize) {
    let l = length as i128;
    // INT(L/8 - 14), of eighths
    let whole = (l - 14 * 8) / 8;
    match (l < 72000, l % 8) {
        (true, 0) => (120, (l - 120) / 24 - 1, 24),
        (true, 7) => (120, whole / 23 * 8 - 1, 23),
        (true, _) => (120, whole / 22 * 8 - 1, 22),
        (false, 0) => (l - 30000, 1247, 24),
        (false, 7) => (8 * (l / 8) - 29999, 1303, 23),
        (false, _) => (8 * (l / 8) - 29999, 1359, 22),
    }
}

/// Where the header bits stand; none where the length is above the limit or the spacing below zero.
pub fn header_places(length: u64) -> Option<Vec<usize>> {
    let (start, offset, bits) = spread(length);
    if length > MOST || offset < 0 {
        return None;
    }
    let mut places = vec![start as usize];
    while places.len() < bits {
        places.push(places[places.len() - 1] + offset as usize + 1);
    }
    Some(places)
}

/// The places of the payload's bits: those that the header leaves, as far as they are whole bytes.
fn payload_places(length: u64, header: &[usize]) -> Vec<usize> {
    let mut free = vec![true; length as usize];
    header.iter().for_each(|at| free[*at] = false);
    let mut places: Vec<usize> = (0..free.len()).filter(|at| free[*at]).collect();
    places.truncate(places.len() / 8 * 8);
    places
}

/// How many payload bytes there are.
pub fn room(length: u64) -> Option<usize> {
    header_places(length).map(|header| payload_places(length, &header).len() / 8)
}

/// Bit 0 is the high bit of the first byte.
fn bits_of(bytes: &[u8]) -> Vec<bool> {
    bytes.iter().flat_map(|b| (0..8).rev().map(move |i| b >> i & 1 == 1)).collect()
}

fn bytes_of(bits: &[bool]) -> Vec<u8> {
    bits.chunks(8).map(|eight| (0..8).map(|i| (eight.get(i) == Some(&true)) as u8 * (128 >> i)).sum()).collect()
}

/// A header and a payload as a unit; what is not written is zero.
pub fn composed(length: u64, sequence: &str, payload: &[u8]) -> Vec<u8> {
    let header = header_places(length).expect("a length that passes");
    let mut bits = vec![false; length as usize];
    header.iter().zip(sequence.chars()).for_each(|(at, h)| bits[*at] = h == '1');
    payload_places(length, &header).iter().zip(bits_of(payload)).for_each(|(at, bit)| bits[*at] = bit);
    bytes_of(&bits)
}

/// The place of the first delimiter that lies whole between the audio and the fixed part.
fn found(payload: &[u8], audio: usize, fixed: usize, delimiter: &[u8; 5]) -> Option<usize> {
    payload[audio..payload.len() - fixed].windows(5).position(|five| five == delimiter).map(|at| audio + at)
}

pub fn write(length: u64, delimiter: &[u8; 5], parts: [&[u8]; 3], space: usize) -> Result<Vec<u8>, u8> {
    let [audio, opportunistic, fixed] = parts;
    let room = room(length).ok_or(50)?;
    let mix = [!audio.is_empty(), !fixed.is_empty(), !opportunistic.is_empty()];
    let (sequence, ..) = SEQUENCES.iter().find(|(_, _, content)| *content == Some(mix)).ok_or(51)?;
    let marked = if opportunistic.is_empty() { vec![] } else { [delimiter, opportunistic].concat() };
    let gap = room.checked_sub(audio.len() + marked.len() + fixed.len()).ok_or(53)?;
    let payload = [audio, &vec![0; gap], &marked, fixed].concat();
    if !marked.is_empty() && found(&payload, audio.len(), fixed.len(), delimiter) != Some(audio.len() + gap) {
        return Err(54);
    }
    let unit = composed(length, sequence, &payload);
    if space < unit.len() { Err(23) } else { Ok(unit) }
}

/// The three parts.
pub fn read(length: u64, delimiter: &[u8; 5], audio: u64, fixed: u64, unit: &[u8], space: usize) -> Result<[Vec<u8>; 3], u8> {
    let header = header_places(length).ok_or(50)?;
    if (unit.len() as u64) < length.div_ceil(8) {
        return Err(50);
    }
    let bits = bits_of(unit);
    let named = |text: &str| header.iter().zip(text.chars()).all(|(at, h)| bits[*at] == (h == '1'));
    let [has_audio, has_fixed, announced] = SEQUENCES.iter().find(|(text, ..)| named(text)).and_then(|(_, _, content)| *content).ok_or(52)?;
    let picked: Vec<bool> = payload_places(length, &header).iter().map(|at| bits[*at]).collect();
    let payload = bytes_of(&picked);
    if has_audio != (audio > 0) || has_fixed != (fixed > 0) || audio as u128 + fixed as u128 > payload.len() as u128 {
        return Err(53);
    }
    let (audio, end) = (audio as usize, payload.len() - fixed as usize);
    let mut opportunistic = vec![];
    if announced {
        let at = found(&payload, audio, fixed as usize, delimiter).ok_or(54)?;
        opportunistic.extend(&payload[at + 5..end]);
        if opportunistic.is_empty() {
            return Err(54);
        }
    }
    if space < audio + opportunistic.len() + fixed as usize {
        return Err(23);
    }
    Ok([payload[..audio].to_vec(), opportunistic, payload[end..].to_vec()])
}

/// Which bits of the bytes lent a reader looks at: the header's and the payload's.
pub fn looked_at(length: u64, bytes: usize) -> Vec<bool> {
    let header = header_places(length).expect("a length that passes");
    let mut used = vec![false; 8 * bytes];
    payload_places(length, &header).iter().chain(&header).for_each(|at| used[*at] = true);
    used
}

/// The command; the status is 1 where it refuses, or a file cannot be read or written.
pub fn run(words: &[&str]) -> i32 {
    let done = match *words {
        ["write", length, delimiter, audio, opportunistic, fixed] => told(length).zip(five(delimiter)).map(|(length, delimiter)| {
            let [audio, opportunistic, fixed] = [audio, opportunistic, fixed].map(contents);
            write(length, &delimiter, [&audio, &opportunistic, &fixed], usize::MAX).map(|unit| put("/dev/stdout", &unit))
        }),
        ["read", length, delimiter, audio, fixed, unit, ref parts @ ..] if parts.len() == 3 => told(length).zip(five(delimiter)).and_then(|(length, delimiter)| {
            let (audio, fixed) = told(audio).zip(told(fixed))?;
            let result = read(length, &delimiter, audio, fixed, &contents(unit), usize::MAX);
            Some(result.map(|bytes| parts.iter().zip(&bytes).for_each(|(name, part)| put(name, part))))
        }),
        ["room", length] => told(length).map(|length| room(length).ok_or(50).map(|n| println!("{n}"))),
        _ => None,
    };
    match done {
        None => {
            eprintln!("usage: second unit write LENGTH DELIMITER AUDIO OPPORTUNISTIC FIXED | room LENGTH");
            eprintln!("  | read LENGTH DELIMITER AUDIO-LENGTH FIXED-LENGTH UNIT AUDIO OPPORTUNISTIC FIXED");
            2
        }
        Some(Err(n)) => {
            eprintln!("{}", crate::words::refused(n));
            1
        }
        Some(Ok(())) => 0,
    }
}

fn told(text: &str) -> Option<u64> {
    text.bytes().all(|b| b.is_ascii_digit()).then(|| text.parse().unwrap_or(u64::MAX)).filter(|_| !text.is_empty())
}

fn five(text: &str) -> Option<[u8; 5]> {
    crate::unhex(text)?.try_into().ok()
}

fn contents(name: &str) -> Vec<u8> {
    if name == "-" { vec![] } else { std::fs::read(name).expect(name) }
}

fn put(name: &str, bytes: &[u8]) {
    match name {
        "-" => {}
        "/dev/stdout" => std::io::stdout().write_all(bytes).expect(name),
        _ => std::fs::write(name, bytes).expect(name),
    }
}

/// Holds this file to the tables as printed and to what the request says; how many units went there and back.
pub fn test(random: &mut Random) -> usize {
    sequences();
    lengths();
    worked();
    let mut units = 0;
    for length in (144..400).chain(3750..3760).chain(71_990..72_010).filter(|l| room(*l).is_some()) {
        units += there_and_back(random, length);
    }
    units
}

/// "one of eight cyclic permutations .. of a 24-bit sequence"; each is told by its first 22 bits.
fn sequences() {
    let rotated: Vec<String> = (0..24).map(|i| SEQUENCES[0].0[i..].to_string() + &SEQUENCES[0].0[..i]).collect();
    for (i, (text, hex, _)) in SEQUENCES.iter().enumerate() {
        assert_eq!(u32::from_str_radix(text, 2), Ok(*hex));
        assert!(text.len() == 24 && rotated.iter().any(|r| r == text));
        assert!(SEQUENCES[..i].iter().all(|other| other.0[..22] != text[..22]));
    }
}

/// Every length to behind the limit: which pass, and that header, payload and excess bits make the unit.
fn lengths() {
    for length in 0..=MOST + 100 {
        let least = [144, 289, 289, 289, 289, 289, 289, 303][length as usize % 8];
        let (start, offset, bits) = spread(length);
        assert_eq!(length <= MOST && offset >= 0, length <= MOST && length >= least, "{length}");
        if offset >= 0 {
            assert!(start + (bits as i128 - 1) * (offset + 1) < length as i128, "{length}");
        }
    }
    for length in [144, 152, 289, 290, 291, 292, 293, 294, 303, 3750, 4608, 71_999, 72_000, 72_001, 72_007, 146_175, MOST] {
        let header = header_places(length).unwrap();
        let excess = [0, 3, 4, 5, 6, 7, 0, 0][length as usize % 8];
        assert_eq!(header.len() + 8 * room(length).unwrap() + excess, length as usize);
    }
    let ends = |length| header_places(length).map(|places| (places[0], places[1], places[places.len() - 1]));
    assert_eq!(ends(144), Some((120, 121, 143)));
    assert_eq!(ends(289), Some((120, 128, 288)));
    assert_eq!(ends(303), Some((120, 128, 296)));
    assert_eq!(ends(4608), Some((120, 307, 4421)));
    assert_eq!(ends(72_000), Some((42_000, 43_248, 70_704)));
    assert_eq!(ends(72_007), Some((42_001, 43_305, 70_689)));
    assert_eq!(ends(72_001), Some((42_001, 43_361, 70_561)));
    assert_eq!(ends(MOST), Some((116_176, 117_424, 144_880)));
    assert_eq!([143, 286, 295, MOST + 1, u64::MAX].map(header_places), [None, None, None, None, None]);
}

/// The shortest unit, by hand, and each refusal.
fn worked() {
    let (ddl, all) = ([1, 2, 3, 4, 5], usize::MAX);
    let unit = write(144, &ddl, [&[0xA0], &[7], &[9, 8]], all).unwrap();
    assert_eq!(unit, [0xA0, 0, 0, 0, 0, 0, 0, 1, 2, 3, 4, 5, 7, 9, 8, 0x8D, 0x8D, 0x33]);
    assert_eq!(read(144, &ddl, 1, 2, &unit, 4), Ok([vec![0xA0], vec![7], vec![9, 8]]));
    assert_eq!(write(143, &ddl, [&[], &[], &[]], 0), Err(50));
    assert_eq!(write(144, &ddl, [&[], &[7], &[9; 99]], 0), Err(51));
    assert_eq!(write(144, &ddl, [&[], &[], &[]], 0), Err(51));
    assert_eq!(write(144, &[0; 5], [&[1; 9], &[7; 2], &[]], 0), Err(53));
    assert_eq!(write(144, &[0; 5], [&[1; 8], &[7], &[]], 0), Err(54));
    assert_eq!(write(144, &[0; 5], [&[1; 9], &[7], &[]], 17), Err(23));
    assert!(write(144, &[0; 5], [&[1; 9], &[7], &[]], 18).is_ok());
    assert!(write(144, &[0; 5], [&[1; 8], &[], &[7]], 18).is_ok());
    assert_eq!(read(144, &ddl, 1, 2, &unit[..17], 0), Err(50));
    assert_eq!(read(144, &ddl, 0, 0, &[0; 18], 0), Err(52));
    assert_eq!([(0, 2), (1, 0), (14, 2), (1, u64::MAX)].map(|(audio, fixed)| read(144, &ddl, audio, fixed, &unit, 0)), [const { Err(53) }; 4]);
    assert_eq!([(8, 2), (7, 3), (13, 2), (9, 1)].map(|(audio, fixed)| read(144, &ddl, audio, fixed, &unit, 0)), [const { Err(54) }; 4]);
    assert_eq!(read(144, &ddl, 1, 2, &unit, 3), Err(23));
}

/// Every mix, read back; and with bits turned over that are ignored.
fn there_and_back(random: &mut Random, length: u64) -> usize {
    let (room, ddl) = (room(length).unwrap(), [0x55, 0, 0, 0, 0x55]);
    let mut units = 0;
    for (_, _, mix) in SEQUENCES {
        let Some([audio, fixed, opportunistic]) = mix else { continue };
        let left = room - if opportunistic { 5 } else { 0 };
        let parts = [audio, opportunistic, fixed].map(|there| random_part(random, there, left / 3));
        let mut unit = write(length, &ddl, [&parts[0], &parts[1], &parts[2]], usize::MAX).unwrap();
        let used = looked_at(length, unit.len());
        for (at, _) in used.iter().enumerate().filter(|(_, used)| !**used) {
            assert_eq!(unit[at / 8] >> (7 - at % 8) & 1, 0);
            unit[at / 8] |= ((random.below(2)) as u8) << (7 - at % 8);
        }
        assert_eq!(read(length, &ddl, parts[0].len() as u64, parts[2].len() as u64, &unit, usize::MAX), Ok(parts));
        units += 1;
    }
    units
}

/// One to `most` bytes, or none.
pub fn random_part(random: &mut Random, there: bool, most: usize) -> Vec<u8> {
    let n = if there { 1 + random.below(most) } else { 0 };
    random.bytes(n)
}
