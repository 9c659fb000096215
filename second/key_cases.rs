//! Cases for packets of both formats: written and appended, closed frames with keys as they should be and not, key and payload handed out,
//! and frames at the raw limit.

use crate::cases::{self, Case, Random, PORTS};
use crate::fcs;
use crate::packet::{self, Delivery, Packet, FLAG, FORMAT, PAYLOAD_LIMIT, RAW_LIMIT, RESTRICTED};
use crate::stream::Reader;

/// Format bytes: the two, their neighbours, flag and escape, and others.
const FORMATS: [u8; 11] = [0x21, 0x26, 0x00, 0x20, 0x22, 0x25, 0x27, 0x7D, 0x7E, 0xA6, 0xFF];

/// Key lengths on writing beyond a byte: taken for a byte they would be 0, 1, 2, 32, 33 and 2.
const LONG_KEYS: [usize; 6] = [256, 257, 258, 288, 289, 514];

/// Bytes of a key: random ones, or such as are escaped.
fn key(random: &mut Random, length: usize) -> Vec<u8> {
    match random.below(4) {
        0 => vec![0x7D; length],
        1 => vec![0x7E; length],
        2 => (0..length).map(|_| [0x7D, 0x7E, 0x5D, 0x5E, 0x00][random.below(5)]).collect(),
        _ => random.bytes(length),
    }
}

/// The same packet for subscribers, with any key that may be sent.
pub fn with_key(random: &mut Random, packet: Packet) -> Packet {
    let length = [2, 32, 2 + random.below(31), 2 + random.below(31)][random.below(4)];
    let number = [0x00, 0x7D, 0x7E, 0xFF, random.byte(), random.byte()][random.below(6)];
    let key = key(random, length);
    packet.restricted(number, &key)
}

/// Contents with these bytes in front of the check.
pub fn checked(mut bytes: Vec<u8>) -> Vec<u8> {
    bytes.extend(fcs::check(&bytes).to_le_bytes());
    bytes
}

/// Contents of format 0x26 whose length byte says what it likes: key number, then these bytes, then the check.
pub fn told_length(length: u8, number: u8, behind: &[u8]) -> Vec<u8> {
    checked([&[RESTRICTED, length, number][..], behind].concat())
}

/// A packet written into an output of this length.
fn written(packet: &Packet, space: usize) -> Case {
    Case { asked: b'k', ..appended(packet, 0, space) }
}

/// The same appended at a place.
fn appended(packet: &Packet, at: u32, space: usize) -> Case {
    let number = packet.port as u64 | (packet.sequence as u64) << 16 | (at as u64) << 32;
    let [low, high] = (packet.key.len() as u16).to_le_bytes();
    let bytes = [&[packet.format, packet.key_number, low, high][..], &packet.key, &packet.payload].concat();
    Case { asked: b'a', number, space: space as u16, bytes }
}

/// The packet of such a case.
pub fn packet_in(number: u64, bytes: &[u8]) -> Packet {
    let (key, payload) = bytes[4..].split_at(u16::from_le_bytes([bytes[2], bytes[3]]) as usize);
    Packet { format: bytes[0], key_number: bytes[1], key: key.to_vec(), ..Packet::new(number as u16, (number >> 16) as u16, payload) }
}

/// What is told in the number of a case that asks for a part: key length, format, payload length.
pub fn delivery_in(number: u64) -> Delivery {
    let (key_length, format) = (number as u8 as usize, (number >> 8) as u8);
    Delivery { format, key_number: 0, key_length, port: 0, sequence: 0, payload_length: (number >> 16) as usize }
}

pub fn all(random: &mut Random, cases: &mut Vec<Case>) {
    keys_written(random, cases);
    formats_written(random, cases);
    orders_written(random, cases);
    payloads_written(random, cases);
    handed_out(random, cases);
    for raw in [lengths_read(random), orders_read(random)].concat() {
        cases.push(Case { asked: b'Q', number: raw.len() as u64, space: RAW_LIMIT as u16, bytes: raw });
    }
    let limit = at_the_limit(random);
    cases::frames_of(&limit, cases);
    limit.iter().for_each(|raw| at_the_limit_in_pieces(random, raw, cases));
}

/// Every length of a key, in format 0x26 and where none may stand.
fn keys_written(random: &mut Random, cases: &mut Vec<Case>) {
    for length in (0..=255).chain(LONG_KEYS) {
        for format in [RESTRICTED, RESTRICTED, FORMAT] {
            let mut packet = Packet::new(0x5100, 0x7D7E, b"~bid}").restricted(random.byte(), &key(random, length));
            packet.format = format;
            let n = packet.raw().len() + 1;
            for space in [n, n - 1, n + 5] {
                cases.push(written(&packet, space));
                cases.push(appended(&packet, 3, space + 3));
            }
        }
    }
}

/// Every format byte and every key number, with a key and without.
fn formats_written(random: &mut Random, cases: &mut Vec<Case>) {
    for byte in 0..=255 {
        for key_length in [0, 1, 2, 33] {
            let packet = Packet::new(0x1401, random.next() as u16, b"bid").restricted(0, &key(random, key_length));
            cases.push(written(&Packet { format: byte, ..packet.clone() }, 100));
            for format in [FORMAT, RESTRICTED] {
                cases.push(written(&Packet { format, key_number: byte, ..packet.clone() }, 100));
            }
        }
    }
}

/// All that can be wrong with a packet, together: 20, 21, 22, 24 and 23 in their order.
fn orders_written(random: &mut Random, cases: &mut Vec<Case>) {
    for payload in [&b""[..], b"bid", &[0x41; PAYLOAD_LIMIT + 1], &[0x7E; 4096]] {
        for port in [0x5100, 0x7D00, 0x7EFF] {
            for (format, key_number, key_length) in
                [(FORMAT, 0, 0), (FORMAT, 0, 2), (FORMAT, 1, 0), (RESTRICTED, 7, 1), (RESTRICTED, 7, 2), (RESTRICTED, 7, 33), (0x7E, 0, 0), (0x27, 7, 2)]
            {
                let packet = Packet { format, key_number, key: key(random, key_length), ..Packet::new(port, 5, payload) };
                let n = packet.raw().len() + 1;
                for space in [0, n - 1, n] {
                    cases.push(written(&packet, space));
                    cases.push(appended(&packet, 2, space));
                }
            }
        }
    }
}

/// Payloads at their limits and full of escapes, with keys: the limit stays, and the key does not count.
fn payloads_written(random: &mut Random, cases: &mut Vec<Case>) {
    for payload in cases::payloads(random) {
        for port in [0x5100, PORTS[random.below(PORTS.len())]] {
            let packet = Packet::new(port, [0, 0x7D7E, 0x7E7D][random.below(3)], &payload);
            let packet = with_key(random, packet);
            let n = packet.raw().len() + 1;
            for space in [n, n - 1, n + 1, n + 9] {
                cases.push(written(&packet, space));
            }
            for (at, space) in [(5, n + 5), (5, n + 4), (0, n), (4, 3), (0xFFFFFFFF, 3), (17, n + 40)] {
                cases.push(appended(&packet, at, space));
            }
        }
    }
}

/// Key and payload handed out of buffers long enough and too short, also with key lengths that no answer tells.
pub fn handed_out(random: &mut Random, cases: &mut Vec<Case>) {
    for key_length in [0, 1, 2, 3, 7, 31, 32, 33, 254, 255] {
        let opening = 7 + key_length;
        let lengths = [0, 1, 2, 3, 4, 5, 6, 7, 9, key_length + 2, key_length + 3, opening - 1, opening, opening + 1, opening + 40, RAW_LIMIT];
        for n in lengths {
            let bytes = random.bytes(n);
            for payload_length in [0, 1, 2, 40, n.saturating_sub(opening), n.saturating_sub(opening) + 1, n.saturating_sub(5), n, 1 << 47] {
                let format = FORMATS[random.below(4)];
                let number = key_length as u64 | (format as u64) << 8 | (payload_length as u64) << 16;
                for (asked, space) in [(b'D', payload_length.min(50)), (b'H', key_length + 1)] {
                    cases.push(Case { asked, number, space: space as u16, bytes: bytes.clone() });
                }
            }
        }
    }
}

/// Every length byte in format 0x26, with six, seven and eight bytes behind the key and many; and contents of 8 to 12 bytes. In half of
/// them the check differs, or any port is barred.
fn lengths_read(random: &mut Random) -> Vec<Vec<u8>> {
    let mut all = Vec::new();
    for length in 0..=255 {
        for behind in [length as usize + 4, length as usize + 5, length as usize + 6, 300] {
            let mut bytes = random.bytes(behind);
            if let Some(high) = bytes.get_mut(length as usize + 1) {
                *high = 0x14;
            }
            all.push(told_length(length, random.byte(), &bytes));
            all.push(told_length(length, random.byte(), &vec![0x7E; behind]));
        }
        for n in 8..=12 {
            let contents = told_length(length, random.byte(), &random.bytes(n - 5));
            let mut altered = contents.clone();
            altered[random.below(n)] ^= 1 << random.below(8);
            all.extend([contents, altered]);
        }
    }
    all.iter().map(|contents| packet::escape(contents)).collect()
}

/// 5, 6, 12, 7 and 8 in their order: check, format, key, port and length of the payload, each right and wrong.
fn orders_read(random: &mut Random) -> Vec<Vec<u8>> {
    let mut all = Vec::new();
    for format in FORMATS {
        for length in [1, 2, 32, 33, 0x7E] {
            for port in [0x5100u16, 0x7D00] {
                for payload in [1, PAYLOAD_LIMIT, PAYLOAD_LIMIT + 1] {
                    // where the key is too long for a frame, as many of its bytes as there is space for
                    let key = key(random, if length > 33 { 20 } else { length as usize });
                    let rest = [&key[..], &port.to_le_bytes(), &[7, 0], &vec![0x41; payload]].concat();
                    let bytes = if format == FORMAT { rest[key.len()..].to_vec() } else { [&[length, 9][..], &rest].concat() };
                    let contents = checked([&[format][..], &bytes].concat());
                    let mut altered = contents.clone();
                    altered[1 + random.below(contents.len() - 1)] ^= 0x10;
                    all.extend([contents, altered]);
                }
            }
        }
    }
    all.iter().map(|contents| packet::escape(contents)).collect()
}

/// A packet with the last two bytes of its payload changed so that the check has the bytes that are asked for.
pub fn with_check(mut packet: Packet, check: [u8; 2]) -> Packet {
    let contents = packet.contents();
    let (covered, at) = (contents.len() - 2, packet.payload.len() - 2);
    let register = fcs::register_after(0xFFFF, &contents[..covered - 2]);
    let pairs = (0..=0xFFFFu16).map(u16::to_le_bytes).filter(|pair| packet::escape(pair).len() == 2);
    let right = |pair: &[u8; 2]| (!fcs::register_after(register, pair)).to_le_bytes() == check;
    let last = pairs.into_iter().find(right).expect("every check has two bytes before it");
    packet.payload[at..].copy_from_slice(&last);
    packet
}

/// A packet of format 0x26 with all escaped that can be: 8,272 raw bytes where the port's high byte is escaped too, else 8,271.
pub fn longest(port: u16, payload: &[u8]) -> Packet {
    with_check(Packet::new(port, 0x7E7D, payload).restricted(0x7D, &[0x7E; 32]), [0x7E, 0x7D])
}

/// Frames around the old raw limit and the new one, in both formats: deliveries, long payloads, barred ports, wrong checks.
fn at_the_limit(random: &mut Random) -> Vec<Vec<u8>> {
    let mut all = Vec::new();
    for payload in [vec![0x41; PAYLOAD_LIMIT], [vec![0x7E; 4095], vec![0x41; 2]].concat()] {
        for port in [0x507D, 0x7D7E] {
            all.push(longest(port, &payload).raw());
            all.push(with_check(Packet::new(port, 0x7D7E, &payload), [0x7D, 0x7E]).raw());
        }
    }
    for n in (8203..=8208).chain(RAW_LIMIT - 3..=RAW_LIMIT + 3) {
        for format in [FORMAT, RESTRICTED, 0x27] {
            // zeros, port 0; a key of 32 bytes in format 0x26
            let mut bytes = vec![0; n - 2];
            (bytes[0], bytes[1]) = (format, if format == RESTRICTED { 32 } else { 0 });
            let mut raw = checked(bytes);
            // a check that is escaped makes a frame longer: another payload has another check
            while packet::escape(&raw).len() > n {
                raw.truncate(n - 2);
                raw[n - 3] += 1;
                raw = checked(raw);
            }
            let mut altered = raw.clone();
            altered[40 + random.below(8000)] ^= 1;
            all.extend([raw, altered]);
        }
    }
    all
}

/// The same in a stream, another frame behind it, cut anywhere; and read from a state near the end of the frame.
fn at_the_limit_in_pieces(random: &mut Random, raw: &[u8], cases: &mut Vec<Case>) {
    let bytes = [&[FLAG][..], raw, &[FLAG], &Packet::new(0x1401, 3, b"next").restricted(1, b"key").raw(), &[FLAG]].concat();
    let seed = 1 + random.next() % 0x7FFFFFFE;
    cases.push(cases::stream_case(&Reader::new(), bytes.len(), 0, RAW_LIMIT, &bytes));
    cases.push(cases::stream_case(&Reader::new(), raw.len() + random.below(3), 0, RAW_LIMIT, &bytes));
    cases.push(cases::stream_case(&Reader::new(), random.below(300), seed, RAW_LIMIT + 9, &bytes));
    for left in [1, 2, 100] {
        let read = raw.len() - left;
        let reader = Reader { waits: false, raw: read.min(RAW_LIMIT + 1), stored: read.min(RAW_LIMIT), broken: 0 };
        cases.push(cases::stream_case(&reader, random.below(left + 2), seed, RAW_LIMIT, &bytes[1 + read..]));
    }
}
