//! The second program held to the paper: its numbers, case, edges and slips, one by one. And where a thing is done here in two ways, the
//! quick one of listing.rs or time.rs and a plain one, both do the same.

use crate::cases::{self, Random};
use crate::channel::{self, Answer, Receiver, BLOCK, MESSAGE, ROOTS};
use crate::channel_cases::alter;
use crate::interleaver::{self, Receiver as Back, Sender};
use crate::listing::Scribe;
use crate::listing_cases::{any, recorded, small, OPPORTUNISTIC, PAPER, PLAIN};
use crate::key_cases::{self, checked, told_length, with_check, with_key};
use crate::packet::{self, Fault, Packet, ESCAPE, FLAG, FORMAT, RAW_LIMIT, RESTRICTED};
use crate::parity::{self, WORD};
use crate::stream::{self, Reader};
use crate::time::eights;
use crate::{board, capture, fcs, fixed_cases, listing, noise, ports, repair, sheet, unit_cases, units};

pub fn run(seed: u64) {
    let mut random = Random::new(seed);
    numbers();
    edges();
    keys();
    longest_frames();
    places();
    slips();
    println!("the paper's numbers, its case, edges and slips: held");
    ports::test();
    println!("request W1's distances and tables: held");
    println!("request W13's sheet: {} cases held", sheet::test());
    println!("source document 003's tables: held, and {} units there and back", units::test(&mut Random::new(seed)));
    let [written, read] = unit_cases::answers(seed);
    assert!([0, 50, 51, 53, 54, 23].iter().all(|number| written[*number] >= 10), "{written:?}");
    assert!([0, 50, 52, 53, 54, 23].iter().all(|number| read[*number] >= 10), "{read:?}");
    println!("the board's lines: held, and of {} recordings line by line by their listings", board::test(&mut Random::new(seed)));
    println!("noise on the way, and what is counted of it: held, with {} settings", noise::test(seed));
    let [recordings, captures] = capture::test(seed);
    println!("request W11's captures: held, of {recordings} recordings and {captures} captures");
    checks(&mut random);
    elements();
    matrices(&mut random);
    println!("check, products, classes and matrices by their definitions: held");
    let words = words(&mut random);
    let frames = frames(&mut random);
    let listings = listings(&mut random, seed);
    println!("{words} words, {frames} frames and {listings} recordings read in two ways: the same");
    println!("{} packets sent, altered on the way and delivered: the same", deliveries(&mut random));
    println!("fixed sub-channels with {} settings, sent and heard in two ways: the same", fixed_cases::test(&mut Random::new(seed)));
    let [words, clean, repaired, beyond] = repairs(&mut random);
    println!("{words} words to be repaired: {clean} clean, {repaired} repaired, {beyond} beyond repair");
}

/// The listing of one record with this stream, without its last line.
fn lines_for(letter: u8, stream: &[u8]) -> String {
    let recording = recorded(letter, stream, || stream.len());
    let lines = both_listings(&recording);
    lines[..lines.trim_end().rfind('\n').map_or(0, |end| end + 1)].to_string()
}

/// The paper's numbers (a) to (m), and the listing program's case.
fn numbers() {
    assert_eq!(fcs::check(&[]), 0x0000, "(a)");
    assert_eq!(fcs::check(&[0x00]), 0xF078, "(b)");
    assert_eq!(fcs::check(&[0xFF]), 0xFF00, "(c)");
    assert_eq!(packet::contents(0x5100, 0, &[0x41]), [0x21, 0x00, 0x51, 0x00, 0x00, 0x41, 0xE4, 0xEC], "(d)");
    assert_eq!(lines_for(PLAIN, &[0x7E, 0x7E]), "", "(e)");
    assert_eq!(lines_for(PLAIN, &[0x7E, 0x00, 0x7E]), "R 4\n", "(f)");
    assert_eq!(lines_for(PLAIN, &[0x7E, 0x21, 0x7D, 0x7E]), "R 2\n", "(g)");
    assert_eq!(lines_for(PLAIN, &[0x7E, 0x7D, 0x21, 0x7E]), "R 3 1\n", "(h), and the place");
    assert_eq!(parity::times(0x80, 2), 0x1D, "(i)");
    assert_eq!(parity::times(2, 0x8E), 1, "(j)");
    let ending_in_one = |n: usize| [vec![0; n - 1], vec![1]].concat();
    assert_eq!(parity::make(1, &ending_in_one(254), 1), Ok(vec![0x02]), "(k)");
    assert_eq!(parity::make(2, &ending_in_one(253), 2), Ok(vec![0x06, 0x08]), "(l)");
    assert_eq!([0, 1, 2, 254, 255, 256].map(|t| interleaver::cell(2, t)), [0, 308, 106, 202, 255, 53], "(m)");
    assert_eq!(Sender::new().push(2, &[7, 9], 2), Ok(vec![7, 0]), "at depth 2, output 1 is zero");
    assert_eq!(both_listings(&PAPER), "P 20736 0 1 M\nE 10 1 0 0 0\n");
    assert_eq!(both_listings(&[]), "X 0\n");
}

fn sent(payload: &[u8]) -> Result<(), u8> {
    packet::escaped_packet(0x5100, 0, payload, usize::MAX).map(|_| ())
}

fn read(raw: &[u8]) -> Result<usize, u8> {
    both_deliveries(raw).map(|packet| packet.payload_length).map_err(Fault::number)
}

/// The place that refusal 3 tells.
fn broken_at(raw: &[u8]) -> Option<usize> {
    match both_deliveries(raw) {
        Err(Fault::BrokenEscape(place)) => Some(place),
        _ => None,
    }
}

/// The place that a reader has remembered behind these raw bytes, read in two pieces.
fn remembered(raw: &[u8], first: usize) -> usize {
    let (mut reader, mut buffer) = (Reader::new(), vec![0; RAW_LIMIT]);
    let bytes = [&[FLAG][..], raw].concat();
    for piece in [&bytes[..first], &bytes[first..]] {
        reader.call(&mut buffer, piece).expect("a buffer that passes");
    }
    reader.broken
}

/// Where an escape breaks: the first wrong byte counts, a second 7D is one, 2 comes before 3, and past the limit no byte is looked at.
fn places() {
    assert_eq!(broken_at(&[0x41, 0x7D, 0x21, 0x7D, 0x22]), Some(2));
    assert_eq!(broken_at(&[0x7D, 0x5E, 0x7D, 0x7D, 0x5E]), Some(3));
    assert_eq!(broken_at(&[0x7D, 0x21, 0x7D]), None);
    for first in 0..=4 {
        assert_eq!(remembered(&[0x7D, 0x21, 0x7D], first), 1);
        assert_eq!(remembered(&[0x7D, 0x5D, 0x7D], first), 0);
        assert_eq!(remembered(&[0x7D, 0x7D, 0x5E], first), 1);
    }
    for (n, place) in [(RAW_LIMIT - 1, Some(RAW_LIMIT - 2)), (RAW_LIMIT, Some(RAW_LIMIT - 1)), (RAW_LIMIT + 1, None)] {
        let raw = [&vec![0x41; n - 2][..], &[0x7D, 0x21]].concat();
        assert_eq!(broken_at(&raw), place);
        assert_eq!([remembered(&raw, n), remembered(&raw, 0)], [place.unwrap_or(0); 2]);
    }
    assert!(Reader { broken: RAW_LIMIT - 1, ..Reader::new() }.within_limits());
    assert!(!Reader { broken: RAW_LIMIT, ..Reader::new() }.within_limits());
}

/// The edges that the paper names, sending and reading.
fn edges() {
    for (payload, passes) in [(vec![0; 8192], true), (vec![0; 8193], false), (vec![0x7E; 4096], true), (vec![0x7E; 4097], false)] {
        let raw = packet::escape(&packet::contents(0x5100, 0, &payload));
        assert_eq!(sent(&payload), if passes { Ok(()) } else { Err(21) });
        assert_eq!(read(&raw), if passes { Ok(payload.len()) } else { Err(8) });
    }
    assert_eq!(sent(&[]), Err(20));
    assert_eq!(read(&[0x41; 8272]), Err(5));
    assert_eq!(read(&[0x41; 8273]), Err(1));
    for b in (0..=255).filter(|b| *b != FLAG) {
        assert_eq!(read(&[ESCAPE, b, 0x21]), if b == 0x5E || b == 0x5D { Err(4) } else { Err(3) });
    }
    for (port, passes) in [(0x7CFF, true), (0x7D00, false), (0x7EFF, false), (0x7F00, true)] {
        assert_eq!(packet::escaped_packet(port, 0, &[0], 99).err(), if passes { None } else { Some(22) });
        assert_eq!(read(&packet::escape(&packet::contents(port, 0, &[0]))), if passes { Ok(1) } else { Err(7) });
    }
    assert_eq!(parity::make(64, &[0; 191], 64), Ok(vec![0; 64]));
    assert_eq!(parity::make(65, &[0; 190], 65), Err(30));
    for (depth, place, told) in
        [(64, 16319, None), (64, 16320, Some(10)), (65, 16574, Some(32)), (65, 16575, Some(10)), (2, 509, None), (2, 510, Some(10)), (1, 16320, None)]
    {
        assert_eq!(Sender { place, ..Sender::new() }.push(depth, &[1], 1).err(), told);
        assert_eq!(Back { place, ..Back::new() }.pull(depth, &[1], 1).err(), told);
        assert_eq!(Sender { place, ..Sender::new() }.push(depth, &[1], 0).err(), told.or(Some(23)));
    }
    assert_eq!(near_stream_limit(&[0x50, 0xF5, 0x5F, 3, 0, 0x7E, 0x00, 0x7E]), b"R 4\nE 4294967295 0 1 0 0\n");
    assert_eq!(near_stream_limit(&[0x50, 0xF5, 0x5F, 5, 0, 0x7E, 0x00, 0x7E, 0x00, 0x7E]), b"R 4\nX 8\n");
}

/// Format 0x26: a packet written by hand, every length of a key on writing and on reading, and 12 and 24 in their order.
fn keys() {
    let hand = Packet::new(0x1234, 0x0102, b"A").restricted(0x07, &[0xAA, 0xBB]);
    assert_eq!(hand.contents(), [0x26, 0x02, 0x07, 0xAA, 0xBB, 0x34, 0x12, 0x02, 0x01, 0x41, 0x8E, 0x3F]);
    let mut buffer = hand.contents();
    let delivered = packet::closing_flag(&mut buffer, 12).unwrap();
    assert_eq!((delivered.packet(&buffer), delivered.key(&buffer), delivered.payload(&buffer)), (hand.clone(), &[0xAA, 0xBB][..], &b"A"[..]));
    assert_eq!([delivered.key(&buffer[..4]), delivered.payload(&buffer[..9])], [&[][..]; 2]);
    for length in 0..=300 {
        let packet = hand.clone().restricted(0x7E, &vec![0x7D; length]);
        let passes = (2..=32).contains(&length);
        assert_eq!(packet.escaped(999).err(), if passes { None } else { Some(24) });
        assert_eq!(Packet { format: FORMAT, key_number: 0, ..packet.clone() }.escaped(999).err(), if length == 0 { None } else { Some(24) });
        if length < 256 {
            assert_eq!(read(&packet.raw()), if passes { Ok(1) } else { Err(12) });
            for behind in 5..9 {
                let contents = told_length(length as u8, 9, &vec![0x14; length + behind - 2]);
                let told = if passes && behind > 6 { Ok(behind - 6) } else { Err(12) };
                assert_eq!(read(&packet::escape(&contents)), told);
            }
        }
    }
    for format in (0..=255).filter(|format| ![FORMAT, RESTRICTED].contains(format)) {
        assert_eq!(Packet { format, key_number: 0, key: vec![], ..hand.clone() }.escaped(99), Err(24));
        assert_eq!(Packet { format, ..hand.clone() }.escaped(99), Err(24));
        assert_eq!(read(&Packet { format, ..hand.clone() }.raw()), Err(6));
    }
    for (key_number, format, passes) in [(0, FORMAT, true), (1, FORMAT, false), (255, FORMAT, false), (0, RESTRICTED, true), (255, RESTRICTED, true)] {
        let key = if format == FORMAT { vec![] } else { hand.key.clone() };
        assert_eq!(Packet { format, key_number, key, ..hand.clone() }.escaped(99).err(), if passes { None } else { Some(24) });
    }
    orders(&hand);
}

/// One fault after the other taken away from a packet: what is told is the first that is left.
fn orders(hand: &Packet) {
    let wrong = Packet { key: vec![1], port: 0x7D00, payload: vec![], ..hand.clone() };
    let long = Packet { payload: vec![0x41; 8193], ..wrong.clone() };
    let barred = Packet { payload: vec![0x41], ..wrong.clone() };
    let keyless = Packet { port: 0x5100, ..barred.clone() };
    assert_eq!([&wrong, &long, &barred, &keyless, hand].map(|packet| packet.escaped(0)), [Err(20), Err(21), Err(22), Err(24), Err(23)]);
    // reading: check, format, key, port, payload
    let mut all = [&[0x27, 33, 9][..], &[0x14; 32], &[0x7E; 2], &[0x41; 2 + 8193]].concat();
    assert_eq!(read(&packet::escape(&[&all[..], &[0, 0]].concat())), Err(5));
    for (at, right, number) in [(0, 0x27, 6), (0, 0x26, 12), (1, 32, 7)] {
        all[at] = right;
        assert_eq!(read(&packet::escape(&checked(all.clone()))), Err(number));
    }
    all[36] = 0x14;
    assert_eq!(read(&packet::escape(&checked(all.clone()))), Err(8));
    all.pop();
    assert_eq!(read(&packet::escape(&checked(all))), Ok(8192));
}

/// The greatest frames: 8,271 raw bytes are delivered in format 0x26 and 8,204 in 0x21; a byte more only where the port is barred.
fn longest_frames() {
    for payload in [vec![0x41; 8192], [vec![0x7E; 4095], vec![0x41; 2]].concat()] {
        for (port, barred) in [(0x507D, 0), (0x7D7D, 1)] {
            let told = if barred == 0 { Ok(payload.len()) } else { Err(7) };
            let keyed = key_cases::longest(port, &payload).raw();
            assert_eq!((keyed.len(), read(&keyed)), (8271 + barred, told));
            let plain = with_check(Packet::new(port, 0x7E7D, &payload), [0x7D, 0x7D]).raw();
            assert_eq!((plain.len(), read(&plain)), (8204 + barred, told));
        }
    }
    // in format 0x21 only a payload that is too long has more than 8,205 raw bytes, and is told so up to 8,272
    for (n, number) in [(8206, 8), (8271, 8), (8272, 8), (8273, 1)] {
        let raw = Packet::new(0x5100, 0, &vec![0x41; n - 7]).raw();
        assert_eq!((raw.len(), read(&raw)), (n, Err(number)));
    }
}

/// The listing where the stream may have three bytes more.
fn near_stream_limit(recording: &[u8]) -> Vec<u8> {
    let mut scribe = Scribe::starting_at(0, 4_294_967_292);
    scribe.consume(recording);
    scribe.end();
    scribe.lines()
}

/// What the paper's last section warns of, as far as nothing above has it.
fn slips() {
    let packet = packet::escaped_packet(0x5100, 7, b"bid", 99).unwrap();
    let flagged = [&[FLAG][..], &packet].concat();
    // 7D hides no flag
    assert_eq!(lines_for(PLAIN, &[&[FLAG, 0x7D], &flagged[..]].concat()), "R 2\nP 20736 7 3 M\n");
    // the four bytes at the lost lock begin a marker
    let block = channel::in_blocks(&flagged, BLOCK).unwrap();
    let late = [&block[..], &[0x00], &block].concat();
    assert_eq!(lines_for(OPPORTUNISTIC, &late), "B 0\nP 20736 7 3 M\nL\nB 0\nP 20736 7 3 M\n");
    // a packet that is open when lock is lost
    let (before, behind) = packet.split_at(4);
    let first = channel::in_blocks(&[&[FLAG; MESSAGE - 4], before].concat(), BLOCK).unwrap();
    let second = channel::in_blocks(&[behind, &flagged].concat(), BLOCK).unwrap();
    assert_eq!(lines_for(OPPORTUNISTIC, &[&first[..], &second].concat()), "B 0\nB 0\nP 20736 7 3 M\nP 20736 7 3 M\n");
    assert_eq!(lines_for(OPPORTUNISTIC, &[&first[..], &[0; 4], &second].concat()), "B 0\nL\nB 0\nP 20736 7 3 M\n");
    // depth 1 passes bytes unchanged
    let bytes: Vec<u8> = (0..255).collect();
    assert_eq!(Sender::new().push(1, &bytes, 255), Ok(bytes));
}

/// The check bit by bit, as the paper has it.
fn checks(random: &mut Random) {
    for n in 0..300 {
        let bytes = random.bytes(n);
        let mut register = 0xFFFFu16;
        for bit in bytes.iter().flat_map(|b| (0..8).map(move |i| (b >> i & 1) as u16)) {
            register = register >> 1 ^ if (register ^ bit) & 1 == 1 { 0x8408 } else { 0 };
        }
        assert_eq!(fcs::check(&bytes), !register);
    }
}

/// Products by the exponents of alpha, whose first 255 powers are all elements but zero; and how many ports a class has.
fn elements() {
    let powers: Vec<u8> = (0..255).map(parity::power).collect();
    assert!((1..=255).all(|a| powers.contains(&a)));
    for i in 0..255 {
        assert_eq!([parity::times(0, powers[i]), parity::times(powers[i], 0)], [0, 0]);
        for j in 0..255 {
            assert_eq!(parity::times(powers[i], powers[j]), powers[(i + j) % 255]);
        }
    }
    let ports = |letter: Option<u8>| (0..=0xFFFF).filter(|port| packet::class_letter(*port) == letter).count();
    let counts = [Some(b'S'), Some(b'A'), Some(b'M'), Some(b'D'), Some(b'F'), None].map(ports);
    assert_eq!(counts, [0x401 + 0x100 + 0xF8 + 0x100, 0x50FF - 0x400, 1, 7, 0x2A00 + 0x8000, 0x200]);
}

/// Every depth with cells that are written and read one after the other, and back: all but the last N - 1 bytes, and with the closing push all.
fn matrices(random: &mut Random) {
    for depth in 2..=64usize {
        let n = 255 * depth;
        let input = random.bytes(2 * n + 77);
        let mut sender = Sender::new();
        let mut output = sender.push(depth as u64, &input, input.len()).unwrap();
        let mut rows = vec![[0; 255]; depth];
        for (t, byte) in input.iter().enumerate() {
            rows[t % n / 255][t % 255] = *byte;
            let (column, row) = (53 * t % 255, (t - 254 * (t / 255)) % depth);
            assert_eq!(output[t], rows[row][column]);
        }
        assert_eq!(Back::new().pull(depth as u64, &output, input.len()).unwrap(), input[..n + 78]);
        output.extend(sender.close(depth as u64, n - 1).unwrap());
        assert_eq!(Back::new().pull(depth as u64, &output, input.len()), Ok(input));
    }
}

/// Whether a word is clean, by two divisions and at its roots: words as sent, altered, in each place too, at random, and with a root less or more.
/// And the parity of their messages.
fn words(random: &mut Random) -> usize {
    let mut all = Vec::new();
    for places in 0..=40 {
        all.extend((0..4).map(|_| repair::altered(random, ROOTS as usize, places).1));
    }
    for roots in [0, 31, 33, 64] {
        all.extend((0..20).map(|_| repair::altered(random, roots, 0).1));
    }
    for at in 0..WORD {
        let mut word = all[0].clone();
        word[at] ^= 1 << (at % 8);
        all.push(word);
    }
    for word in &all {
        let message = &word[..MESSAGE];
        let clean = parity::check(ROOTS, word).unwrap();
        let whole = word[..].try_into().unwrap();
        assert_eq!([listing::clean(word), eights::clean(whole), eights::clean_down(whole)], [clean; 3]);
        let made = parity::make(ROOTS, message, WORD - MESSAGE);
        assert_eq!([Ok(eights::made(message).to_vec()), Ok(eights::made_down(message).to_vec())], [made.clone(), made]);
    }
    all.len()
}

/// What comes of a frame, by both ways.
fn both_deliveries(raw: &[u8]) -> packet::Frame {
    let quick = listing::delivery(raw, &mut Vec::new());
    assert_eq!(quick, packet::closing_flag(&mut raw.to_vec(), raw.len()));
    quick
}

/// Frames as sent, damaged, too long and at random: every refusal and a delivery are among them.
fn frames(random: &mut Random) -> usize {
    let mut given = [0; 13];
    for mut raw in cases::raws(random) {
        for _ in 0..3 {
            if !raw.is_empty() {
                given[both_deliveries(&raw).map_or_else(Fault::number, |_| 0) as usize] += 1;
                let at = random.below(raw.len());
                raw[at] ^= 1 << random.below(8);
            }
        }
    }
    assert!([0, 1, 2, 3, 4, 5, 6, 7, 8, 12].iter().all(|number| given[*number] > 0));
    given.iter().sum()
}

/// A listing, by both ways.
fn both_listings(recording: &[u8]) -> String {
    let quick = String::from_utf8(listing::listing(recording)).unwrap();
    assert_eq!(quick, Plain::listing(recording));
    quick
}

fn listings(random: &mut Random, seed: u64) -> usize {
    let mut all: Vec<Vec<u8>> = small(seed).into_iter().map(|(_, recording)| recording).collect();
    all.extend((0..800).map(|kind| any(random, kind)));
    all.iter().for_each(|recording| drop(both_listings(recording)));
    all.len()
}

/// The plain way to a listing: records cut out of the whole recording, the readers of stream.rs and channel.rs called with each, their
/// answers put into words.
struct Plain {
    opportunistic: bool,
    receiver: Receiver,
    reader: Reader,
    buffer: Vec<u8>,
    word: Vec<u8>,
    lines: Vec<String>,
}

impl Plain {
    fn new(opportunistic: bool) -> Self {
        let (buffer, word) = (vec![0; RAW_LIMIT], vec![0; WORD]);
        Plain { opportunistic, receiver: Receiver::new(), reader: Reader::new(), buffer, word, lines: Vec::new() }
    }

    fn listing(recording: &[u8]) -> String {
        let mut plain = Plain::new(recording.first() == Some(&0x4F));
        let last = match plain.records(recording) {
            Err(offset) => format!("X {offset}"),
            Ok(bytes) => {
                let [p, r, b, l] = ["P", "R", "B X", "L"].map(|start| plain.lines.iter().filter(|line| line.starts_with(start)).count());
                format!("E {bytes} {p} {r} {b} {l}")
            }
        };
        plain.lines.push(last);
        plain.lines.iter().map(|line| format!("{line}\n")).collect()
    }

    /// The stream bytes of all records, or the offset of a wrong byte or an early end.
    fn records(&mut self, recording: &[u8]) -> Result<usize, usize> {
        if !matches!(recording.first(), Some(0x50 | 0x4F)) {
            return Err(0);
        }
        let (mut at, mut stream_bytes) = (1, 0);
        while at < recording.len() {
            for (i, right) in [0xF5, 0x5F].iter().enumerate() {
                if recording.get(at + i) != Some(right) {
                    return Err(at + i);
                }
            }
            let two = recording.get(at + 2..at + 4).ok_or(recording.len())?;
            let length = two[0] as usize + 256 * two[1] as usize;
            let end = at + 4 + length;
            self.piece(&recording[at + 4..end.min(recording.len())]);
            if end > recording.len() {
                return Err(recording.len());
            }
            (at, stream_bytes) = (end, stream_bytes + length);
        }
        Ok(stream_bytes)
    }

    fn piece(&mut self, mut piece: &[u8]) {
        loop {
            let result = match self.opportunistic {
                true => self.receiver.call(&mut self.buffer, &mut self.word, piece),
                false => self.reader.call(&mut self.buffer, piece).map(|(answer, taken)| (answer.map(Answer::Frame), taken)),
            };
            let (answer, taken) = result.expect("buffers that pass");
            piece = &piece[taken..];
            self.lines.push(match answer {
                None => return assert!(piece.is_empty()),
                Some(Answer::Block(None)) => "B X".to_string(),
                Some(Answer::Block(Some(places))) => format!("B {places}"),
                Some(Answer::LockLost) => "L".to_string(),
                Some(Answer::Frame(Err(Fault::Number(n)))) => format!("R {n}"),
                Some(Answer::Frame(Err(Fault::BrokenEscape(place)))) => format!("R 3 {place}"),
                Some(Answer::Frame(Ok(p))) => {
                    let letter = packet::class_letter(p.port).unwrap() as char;
                    format!("P {} {} {} {letter}", p.port, p.sequence, p.payload_length)
                }
            });
        }
    }
}

/// Packets of both formats sent in blocks, up to sixteen bytes of each word altered, read in odd pieces: just what was sent is delivered.
fn deliveries(random: &mut Random) -> usize {
    let mut packets = Vec::new();
    let mut stream = vec![FLAG];
    while packets.len() < 200 {
        let n = 1 + random.below(300);
        let mut packet = Packet::new(random.next() as u16, random.next() as u16, &random.bytes(n));
        if random.below(2) == 0 {
            packet = with_key(random, packet);
        }
        if let Ok(bytes) = packet.escaped(usize::MAX) {
            stream.extend(bytes);
            packets.push(packet);
        }
    }
    let mut blocks = channel::in_blocks(&stream, usize::MAX).unwrap();
    for block in blocks.chunks_mut(BLOCK) {
        let places = random.below(17);
        alter(random, &mut block[4..], places);
    }
    assert_eq!(delivered(&blocks, 1 + random.next() % 1000), packets);
    packets.len()
}

fn delivered(blocks: &[u8], mut seed: u64) -> Vec<Packet> {
    let (mut receiver, mut buffer, mut word) = (Receiver::new(), vec![0; RAW_LIMIT], vec![0; WORD]);
    let (mut at, mut end, mut packets) = (0, 0, Vec::new());
    loop {
        let (answer, taken) = receiver.call(&mut buffer, &mut word, &blocks[at..end]).expect("buffers that pass");
        at += taken;
        match answer {
            Some(Answer::Frame(Ok(p))) => packets.push(p.packet(&buffer)),
            Some(_) => {}
            None if end == blocks.len() => return packets,
            None => {
                let (length, next) = stream::piece_length(seed, blocks.len() - at);
                (end, seed) = (at + length, next);
            }
        }
    }
}

/// Holds repair to what is asked of it, for every R and 0 to h + 3 altered bytes: the words, and how many had each answer.
fn repairs(random: &mut Random) -> [usize; 4] {
    let mut counts = [0; 4];
    for r in 0..=64 {
        for places in 0..=r / 2 + 3 {
            for _ in 0..3 {
                let (clean, came) = repair::altered(random, r, places);
                counts[0] += 1;
                counts[repaired(r, places, &clean, &came)] += 1;
            }
        }
    }
    counts
}

/// One word that was clean before it was altered: 1 it is clean, 2 repaired, 3 beyond repair.
fn repaired(r: usize, places: usize, clean: &[u8], came: &[u8]) -> usize {
    let mut word = came.to_vec();
    let told = repair::repair(r as u64, &mut word).unwrap();
    let is_clean = |word: &[u8]| parity::check(r as u64, word).unwrap();
    if places <= r / 2 {
        assert!(told == Some(places) && word == clean);
    } else if places <= r {
        assert!(told != Some(0));
    }
    match told {
        Some(0) => {
            assert!(is_clean(came) && word == came);
            1
        }
        Some(n) => {
            assert!(n <= r / 2 && repair::differing(came, &word) == n && is_clean(&word));
            2
        }
        None => {
            assert!(word == came && !is_clean(came));
            // of a few roots: no single byte, tried in every place, makes clean what was given up
            assert!(r < 2 || r > 6 || !repair::one_byte_off(r, came));
            3
        }
    }
}
