//! Request W11, packets into the network viewer: the delivered packets of a recording as a capture, and a capture's packets sent again.
//!
//!   second capture           the recording on standard input as a capture
//!   second replay            the capture on standard input as a recording of the plain stream
//!   second captures DIR [SEED]
//!                            captures to be replayed, good and damaged, into a folder (capture_cases.rs)
//!   second viewed            what the viewer should show of the capture on standard input, a line for each record
//!
//! All of it works on whole files: a stream is cut at its flags and at its markers, and a capture's records are cut out of it.

use crate::board::apart;
use crate::capture_calls::imported_by_calls;
use crate::capture_cases;
use crate::cases::Random;
use crate::channel::{BLOCK, MARKER, MESSAGE, ROOTS};
use crate::listing::{self, STREAM_LIMIT};
use crate::listing_cases::{any, recorded, small, OPPORTUNISTIC, PAPER, PLAIN};
use crate::packet::{self, Packet, FLAG, FORMAT, PAYLOAD_LIMIT, RESTRICTED};
use crate::words::{refused, words};
use crate::{hex, repair};
use std::io::{Read, Write};

/// Little end first, microseconds; version 2.4; zone and accuracy; snapshot length; link type.
pub fn header() -> Vec<u8> {
    let words = |numbers: &[u32]| numbers.iter().flat_map(|n| n.to_le_bytes()).collect::<Vec<u8>>();
    [words(&[0xA1B2_C3D4]), vec![2, 0, 4, 0], words(&[0, 0, 65_535, 147])].concat()
}

/// A record: seconds, microseconds, how many bytes are there, how many there were, and the bytes.
pub fn record(times: [u32; 2], lengths: [u32; 2], bytes: &[u8]) -> Vec<u8> {
    let numbers = [times, lengths].concat();
    numbers.iter().flat_map(|n| n.to_le_bytes()).chain(bytes.iter().copied()).collect()
}

/// A packet from its format byte to its last payload byte: its contents without the check.
pub fn packed(packet: &Packet) -> Vec<u8> {
    let mut bytes = packet.contents();
    bytes.truncate(bytes.len() - 2);
    bytes
}

/// The capture of packets.
pub fn captured(packets: &[Packet]) -> Vec<u8> {
    let mut bytes = header();
    for (number, packet) in packets.iter().enumerate() {
        let held = packed(packet);
        bytes.extend(record([number as u32, 0], [held.len() as u32; 2], &held));
    }
    bytes
}

// ---- a recording's packets

/// The packets that a recording delivers; and the offset of what is wrong with it.
pub fn delivered(recording: &[u8]) -> (Vec<Packet>, Option<usize>) {
    let (places, wrong) = apart(recording, STREAM_LIMIT);
    let stream: Vec<u8> = places.iter().map(|place| recording[*place]).collect();
    let streams = if recording.first() == Some(&OPPORTUNISTIC) { locked(&stream) } else { vec![stream] };
    (streams.iter().flat_map(|stream| between_flags(stream)).collect(), wrong)
}

/// The packets of a plain stream: what stands before its first flag and behind its last one is no frame.
fn between_flags(stream: &[u8]) -> Vec<Packet> {
    let parts: Vec<&[u8]> = stream.split(|b| *b == FLAG).collect();
    let frames = parts.iter().skip(1).take(parts.len().saturating_sub(2)).filter(|raw| !raw.is_empty());
    frames
        .filter_map(|raw| {
            let mut buffer = raw.to_vec();
            packet::closing_flag(&mut buffer, raw.len()).ok().map(|delivery| delivery.packet(&buffer))
        })
        .collect()
}

/// The message bytes of the opportunistic channel, a stream for each time that it was locked.
fn locked(mut bytes: &[u8]) -> Vec<Vec<u8>> {
    let mut streams = Vec::new();
    while let Some(at) = bytes.windows(4).position(|four| four == MARKER) {
        let marked = bytes[at..].chunks(BLOCK).take_while(|block| block.starts_with(&MARKER));
        streams.push(marked.clone().filter(|block| block.len() == BLOCK).flat_map(|block| message(&block[4..])).collect());
        // where lock is lost, a marker may begin among the four bytes that are none
        bytes = &bytes[at + marked.map(<[u8]>::len).sum::<usize>()..];
    }
    streams
}

/// The message of a word, repaired where that can be done.
fn message(word: &[u8]) -> Vec<u8> {
    let mut word = word.to_vec();
    repair::repair(ROOTS, &mut word).expect("32 roots, 255 bytes");
    word[..MESSAGE].to_vec()
}

// ---- a capture's packets

/// Why a capture is refused, and at which record; 60 has none.
#[derive(Clone, Copy, Debug, PartialEq)]
pub struct Refusal {
    pub number: u8,
    pub record: Option<usize>,
}

/// The packets of a capture up to the first fault, and the fault.
pub fn imported(capture: &[u8]) -> (Vec<Packet>, Option<Refusal>) {
    let mut packets = Vec::new();
    if !capture.starts_with(&header()) {
        return (packets, Some(Refusal { number: 60, record: None }));
    }
    let mut rest = &capture[24..];
    while !rest.is_empty() {
        let record = Some(packets.len());
        let refused = |number| Some(Refusal { number, record });
        let Some((bytes, behind)) = whole_record(rest) else { return (packets, refused(61)) };
        let Some(packet) = unpacked(bytes) else { return (packets, refused(62)) };
        packets.push(packet);
        rest = behind;
    }
    (packets, None)
}

/// A record's bytes and what stands behind them, where it is whole and its two lengths are equal.
fn whole_record(bytes: &[u8]) -> Option<(&[u8], &[u8])> {
    let length = |at: usize| Some(u32::from_le_bytes(bytes.get(at..at + 4)?.try_into().ok()?) as usize);
    let (included, original) = (length(8)?, length(12)?);
    let held = bytes[16..].get(..included).filter(|_| included == original)?;
    Some((held, &bytes[16 + included..]))
}

/// The packet that is packed into these bytes; none where the sender would refuse it.
pub fn unpacked(bytes: &[u8]) -> Option<Packet> {
    let (key_number, key, rest) = match *bytes {
        [RESTRICTED, length, number, ref rest @ ..] if rest.len() >= length as usize => (number, &rest[..length as usize], &rest[length as usize..]),
        [_, ref rest @ ..] => (0, &[][..], rest),
        [] => return None,
    };
    let [a, b, c, d, ref payload @ ..] = *rest else { return None };
    let plain = Packet::new(u16::from_le_bytes([a, b]), u16::from_le_bytes([c, d]), payload);
    let packet = Packet { format: bytes[0], key_number, key: key.to_vec(), ..plain };
    packet.escaped(usize::MAX).ok().map(|_| packet)
}

/// A recording of the plain stream of packets: the first flag, then a record for each packet.
pub fn recording(packets: &[Packet]) -> Vec<u8> {
    let mut records = vec![vec![FLAG]];
    records.extend(packets.iter().map(|packet| packet.escaped(usize::MAX).expect("a packet that was accepted")));
    let mut sizes = records.iter().map(Vec::len);
    recorded(PLAIN, &records.concat(), || sizes.next().unwrap())
}

// ---- as programs

fn input() -> Vec<u8> {
    let mut bytes = Vec::new();
    std::io::stdin().read_to_end(&mut bytes).expect("standard input");
    bytes
}

fn output(bytes: &[u8]) {
    std::io::stdout().write_all(bytes).expect("standard output");
}

/// `second capture`: the status is 1 where the recording breaks off.
pub fn export() -> i32 {
    let (packets, wrong) = delivered(&input());
    output(&captured(&packets));
    if let Some(offset) = wrong {
        eprintln!("capture: no whole recording: X {offset}");
    }
    wrong.is_some() as i32
}

/// `second replay`: the status is 1 where the capture is refused.
pub fn replay() -> i32 {
    let (packets, refusal) = imported(&input());
    output(&recording(&packets));
    match refusal {
        Some(Refusal { number, record: Some(record) }) => eprintln!("replay: refused {number} at record {record}: {}", words(number)),
        Some(Refusal { number, .. }) => eprintln!("replay: {}", refused(number)),
        None => {}
    }
    refusal.is_some() as i32
}

// ---- in the viewer

/// `second viewed`: of a capture with whole records, the fields of each one as viewer/tirunqesh.lua shows them, tabs between: time, length
/// twice, format, the key's length, number and bytes, port, class, sequence, the payload's length and bytes, text, and why it is no packet.
pub fn view() {
    let capture = input();
    let mut rest = &capture[24..];
    while let Some((bytes, behind)) = whole_record(rest) {
        let time = |at: usize| u32::from_le_bytes(rest[at..at + 4].try_into().unwrap());
        let length = bytes.len();
        println!("{}.{:06}000\t{length}\t{length}\t{}", time(0), time(4), shown(bytes).join("\t"));
        rest = behind;
    }
}

/// The fields behind the length, as far as they can be read.
fn shown(bytes: &[u8]) -> Vec<String> {
    let mut all = vec![String::new(); 11];
    if let Some(why) = show(bytes, &mut all) {
        all[10] = format!("No packet: {why}. Replay refuses it with 62");
    }
    all
}

/// Fills them in, up to the first that is not there; and what is wrong first.
fn show(bytes: &[u8], all: &mut [String]) -> Option<&'static str> {
    let Some((format, mut rest)) = bytes.split_first() else { return Some("the record is empty") };
    all[0] = format!("0x{format:02x}");
    if *format == RESTRICTED {
        let [length, number, ref behind @ ..] = *rest else { return Some("it ends before its key") };
        (all[1], all[2]) = (length.to_string(), number.to_string());
        if !(2..=32).contains(&length) {
            return Some("the key length is outside 2 to 32");
        }
        if behind.len() < length as usize {
            return Some("it ends inside its key");
        }
        all[3] = hex(&behind[..length as usize]);
        rest = &behind[length as usize..];
    } else if *format != FORMAT {
        return Some("the format is neither 0x21 nor 0x26");
    }
    let [a, b, c, d, ref payload @ ..] = *rest else { return Some("it ends before its payload") };
    let port = u16::from_le_bytes([a, b]);
    let letter = packet::class_letter(port);
    all[4] = format!("0x{port:04x}");
    all[5] = letter.map_or(String::new(), |letter| (letter as char).to_string());
    all[6] = u16::from_le_bytes([c, d]).to_string();
    if !payload.is_empty() {
        (all[7], all[8]) = (payload.len().to_string(), hex(payload));
        if payload.iter().all(|b| (b' '..=b'~').contains(b)) {
            all[9] = String::from_utf8(payload.to_vec()).unwrap();
        }
    }
    let long = packet::escape(payload).len() > PAYLOAD_LIMIT;
    let faults = [(letter.is_none(), "the port may not be used"), (payload.is_empty(), "the payload is empty"), (long, TOO_LONG)];
    faults.iter().find(|fault| fault.0).map(|fault| fault.1)
}

const TOO_LONG: &str = "the payload is above 8,192 bytes as escaped";

// ---- held to the request

fn refusal(capture: &[u8]) -> Option<(u8, Option<usize>)> {
    imported(capture).1.map(|refusal| (refusal.number, refusal.record))
}

/// The request's sentences, one by one; how many recordings were exported, and captures imported.
pub fn test(seed: u64) -> [usize; 2] {
    let random = &mut Random::new(seed);
    by_hand();
    lengths();
    let mut recordings: Vec<Vec<u8>> = small(seed).into_iter().map(|(_, recording)| recording).collect();
    recordings.extend((0..400).map(|kind| any(random, kind)));
    recordings.iter().for_each(|recording| exported(random, recording));
    let captures = capture_cases::all(seed);
    for (name, capture) in &captures {
        held(name, capture);
        assert_eq!(imported_by_calls(capture, 1 + random.next() % 1000), imported(capture), "{name}");
    }
    [recordings.len(), captures.len()]
}

/// The paper's case as a capture, byte by byte; the first 24 bytes, none of which may differ or be missing; and the order of 61 and 62.
fn by_hand() {
    let first = [0xD4, 0xC3, 0xB2, 0xA1, 2, 0, 4, 0, 0, 0, 0, 0, 0, 0, 0, 0, 0xFF, 0xFF, 0, 0, 147, 0, 0, 0];
    let behind = [0, 0, 0, 0, 0, 0, 0, 0, 6, 0, 0, 0, 6, 0, 0, 0, 0x21, 0x00, 0x51, 0x00, 0x00, 0x41];
    let capture = [&first[..], &behind].concat();
    let packet = Packet::new(0x5100, 0, b"A");
    assert_eq!(captured(&delivered(&PAPER).0), capture);
    assert_eq!(imported(&capture), (vec![packet.clone()], None));
    assert_eq!(recording(&[packet]), [&[0x50, 0xF5, 0x5F, 1, 0, 0x7E, 0xF5, 0x5F, 9, 0, 0x21, 0, 0x51, 0], &PAPER[14..]].concat());
    for n in 0..24 {
        let mut altered = capture.clone();
        altered[n] ^= 1;
        assert_eq!([refusal(&capture[..n]), refusal(&altered)], [Some((60, None)); 2]);
    }
    assert_eq!(refusal(&first), None);
    let [bad, cut] = [[&behind[..16], &[0x27, 0, 0x51, 0, 0, 0x41]].concat(), behind[..21].to_vec()];
    for (records, right) in [
        (vec![&behind[..], &behind], None),
        (vec![&behind[..], &bad, &cut], Some((62, Some(1)))),
        (vec![&behind[..], &behind, &cut], Some((61, Some(2)))),
        (vec![&bad[..21]], Some((61, Some(0)))),
        (vec![&behind[..1]], Some((61, Some(0)))),
    ] {
        assert_eq!(refusal(&[&first[..], &records.concat()].concat()), right);
    }
}

/// Records of these lengths, there and not.
fn lengths() {
    let packet = |n: u32| [&packed(&Packet::new(0x5100, 0, b""))[..], &vec![0x41; n.saturating_sub(5) as usize]].concat();
    for (length, right) in [(0, Some(62)), (5, Some(62)), (6, None), (8197, None), (8198, Some(62)), (65_535, Some(62)), (65_536, Some(62))] {
        let bytes = &packet(length)[..length as usize];
        let number = |lengths, bytes| refusal(&[header(), record([7, 8], lengths, bytes)].concat()).map(|refusal| refusal.0);
        assert_eq!(number([length; 2], bytes), right);
        assert_eq!(number([length, length + 1], bytes), Some(61));
        assert_eq!(number([length + 1; 2], bytes), Some(61));
        assert_eq!(number([u32::MAX; 2], bytes), Some(61));
    }
}

/// A recording's capture: its packets are those of the listing's lines, it imports again whatever its times, and its replay is listed the same.
fn exported(random: &mut Random, recording_in: &[u8]) {
    let packet_lines = |recording: &[u8]| {
        let listing = String::from_utf8(listing::listing(recording)).unwrap();
        listing.lines().filter(|line| line.starts_with('P')).map(str::to_string).collect::<Vec<_>>()
    };
    let (packets, wrong) = delivered(recording_in);
    let last = String::from_utf8(listing::listing(recording_in)).unwrap().lines().last().unwrap().to_string();
    assert_eq!(wrong.map(|offset| format!("X {offset}")), Some(last).filter(|line| line.starts_with('X')));
    assert_eq!(imported(&captured(&packets)), (packets.clone(), None));
    let mut other = header();
    for bytes in packets.iter().map(packed) {
        other.extend(record([random.next() as u32, random.next() as u32], [bytes.len() as u32; 2], &bytes));
    }
    assert_eq!(imported(&other).0, packets);
    assert_eq!(packet_lines(&recording(&packets)), packet_lines(recording_in));
}

/// A capture of whatever kind: what is imported is captured in the same bytes, times aside, up to the fault.
fn held(name: &str, capture: &[u8]) {
    let (packets, refusal) = imported(capture);
    let again = captured(&packets);
    if refusal.is_some_and(|refusal| refusal.number == 60) {
        return assert!(packets.is_empty() && !capture.starts_with(&header()), "{name}");
    }
    let mut without_times = capture[..again.len()].to_vec();
    let mut at = 24;
    for (number, packet) in packets.iter().enumerate() {
        without_times.splice(at..at + 8, [(number as u32).to_le_bytes(), [0; 4]].concat());
        at += 16 + packed(packet).len();
    }
    assert!(without_times == again && refusal.is_some() == (again.len() < capture.len()), "{name}");
}
