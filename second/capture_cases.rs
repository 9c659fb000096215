//! Captures to be replayed, good and damaged: a fault in every place, lengths of every kind, a byte altered anywhere, other times.
//!
//!   second captures DIR [SEED]   into a folder, by name; viewed-*.pcap are for the viewer too, their records whole

use crate::capture::{captured, header, packed, record};
use crate::cases::{Random, PORTS};
use crate::key_cases::{longest, with_key};
use crate::listing_cases::Named;
use crate::packet::{Packet, FORMAT, RESTRICTED};

pub fn write(dir: &str, seed: u64) {
    for (name, bytes) in all(seed) {
        std::fs::write(format!("{dir}/{name}.pcap"), bytes).expect(dir);
    }
}

pub fn all(seed: u64) -> Vec<Named> {
    let random = &mut Random::new(seed);
    let mut all = Vec::new();
    good(random, &mut all);
    headers(&mut all);
    anywhere(random, &mut all);
    lengths(&mut all);
    no_packets(random, &mut all);
    for n in 0..40 {
        all.push((format!("drawn-{n:02}"), drawn(random, n)));
    }
    all
}

/// A packet of either format that the sender accepts.
fn any_packet(random: &mut Random, most: usize) -> Packet {
    let n = 1 + random.below(most);
    let payload = if random.below(3) == 0 { (0..n).map(|_| [0x7D, 0x7E, 0x21][random.below(3)]).collect() } else { random.bytes(n) };
    let packet = Packet::new(0x5100 + random.below(512) as u16, random.next() as u16, &payload);
    if random.below(2) == 0 { with_key(random, packet) } else { packet }
}

fn any_packets(random: &mut Random, count: usize) -> Vec<Packet> {
    (0..count).map(|_| any_packet(random, 60)).collect()
}

/// A record of these bytes, its time some packet's number.
fn whole(bytes: &[u8]) -> Vec<u8> {
    record([7, 0], [bytes.len() as u32; 2], bytes)
}

/// None, few and many packets, ports at the edges of their classes, the longest packets, and times of every kind.
fn good(random: &mut Random, all: &mut Vec<Named>) {
    let bid = |port: &u16| Packet::new(*port, 0x7D7E, b"06:30 CORN \\ 4.31 ~ \"BASIS\" -18");
    let ports: Vec<Packet> = PORTS.iter().filter(|port| !(0x7D00..=0x7EFF).contains(*port)).map(bid).collect();
    let keyed = ports.iter().enumerate().map(|(i, packet)| packet.clone().restricted(i as u8, &[0x7E; 32][..2 + i])).collect::<Vec<_>>();
    let plain = |payload: &[u8]| Packet::new(0x507D, 0x7E7D, payload);
    let long = [vec![0x41; 8192], vec![0x7E; 4096]].map(|payload| [plain(&payload), longest(0x507D, &payload)]).concat();
    let many = any_packets(random, 300);
    for (name, packets) in [("none", vec![]), ("one", any_packets(random, 1)), ("ports", ports), ("keys", keyed), ("longest", long), ("many", many)] {
        all.push((format!("viewed-{name}"), captured(&packets)));
    }
    let mut other = header();
    for i in 0..20 {
        let (bytes, times) = (packed(&any_packet(random, 60)), [random.next() as u32, random.next() as u32]);
        other.extend(record([[0, u32::MAX], [u32::MAX, 0], times][i % 3], [bytes.len() as u32; 2], &bytes));
    }
    all.push(("times".to_string(), other));
}

/// What other programs write in the first 24 bytes, and each of these cut off or altered.
fn headers(all: &mut Vec<Named>) {
    let one = captured(&[Packet::new(0x5100, 0, b"A")]);
    for n in 0..24 {
        let mut altered = one.clone();
        altered[n] ^= 0x10;
        all.push((format!("header-first-{n:02}"), one[..n].to_vec()));
        all.push((format!("header-wrong-{n:02}"), altered));
    }
    let big: Vec<u8> = one[..24].chunks(4).flat_map(|word| word.iter().rev().copied().collect::<Vec<_>>()).collect();
    for (name, at, bytes) in [
        ("big-end-first", 0, &big[..]),
        ("nanoseconds", 0, &[0x4D, 0x3C, 0xB2, 0xA1]),
        ("version", 6, &[3]),
        ("snapshot", 16, &[0, 0, 4, 0]),
        ("ethernet", 20, &[1]),
        ("next-generation", 0, &[0x0A, 0x0D, 0x0D, 0x0A]),
    ] {
        let mut altered = one.clone();
        altered.splice(at..at + bytes.len(), bytes.iter().copied());
        all.push((format!("header-{name}"), altered));
    }
}

/// Two records cut off at each byte, and each of their bytes altered.
fn anywhere(random: &mut Random, all: &mut Vec<Named>) {
    let capture = captured(&[Packet::new(0x1401, 88, b"4.31"), Packet::new(0x1402, 51, b"~}").restricted(7, b"key")]);
    for n in 24..capture.len() {
        let mut altered = capture.clone();
        altered[n] ^= 1 + random.below(255) as u8;
        all.push((format!("two-first-{n:02}"), capture[..n].to_vec()));
        all.push((format!("two-wrong-{n:02}"), altered));
    }
}

/// Records of many lengths: there, a byte short, not there at all, a byte long; and lengths that differ in one byte.
fn lengths(all: &mut Vec<Named>) {
    let before = captured(&[Packet::new(0x5100, 0, b"A")]);
    let plain = packed(&Packet::new(0x5100, 0, &[0x41; 65_536]));
    let keyed = packed(&Packet::new(0x5100, 0, &[0x41; 65_536]).restricted(7, &[0x7E; 32]));
    let mut viewed = header();
    for (format, bytes) in [("plain", plain), ("keyed", keyed)] {
        for n in [0usize, 1, 5, 6, 38, 39, 40, 8197, 8198, 8231, 8232, 65_535, 65_536] {
            let held = &bytes[..n];
            let length = n as u32;
            viewed.extend(whole(held));
            all.push((format!("length-{format}-{n:05}"), [&before[..], &whole(held), &before[24..]].concat()));
            if n > 0 && n % 5 == 1 || n == 65_535 {
                all.push((format!("length-{format}-{n:05}-short"), [&before[..], &record([1, 0], [length + 1; 2], held)].concat()));
                all.push((format!("length-{format}-{n:05}-none"), [&before[..], &record([1, 0], [length; 2], b"")].concat()));
            }
        }
    }
    all.push(("viewed-lengths".to_string(), viewed));
    for byte in 0..8 {
        let mut unequal = [&before[..], &before[24..]].concat();
        unequal[before.len() + 8 + byte] ^= 0x80;
        all.push((format!("length-unequal-{byte}"), unequal));
    }
    for length in [0x8000_0000, u32::MAX] {
        all.push((format!("length-{length}"), [&before[..], &record([1, 0], [length; 2], &before[40..])].concat()));
    }
}

/// What the sender would refuse, first, in the middle and last.
fn no_packets(random: &mut Random, all: &mut Vec<Named>) {
    let bad = refused();
    for (name, bytes) in &bad {
        let packets = any_packets(random, 3);
        let (before, behind) = packets.split_at(random.below(4));
        all.push((format!("bad-{name}"), [captured(before), whole(bytes), captured(behind)[24..].to_vec()].concat()));
    }
    all.push(("viewed-bad".to_string(), [header(), bad.iter().flat_map(|(_, bytes)| whole(bytes)).collect()].concat()));
}

/// The bytes of a record that the sender would refuse, by name.
fn refused() -> Vec<Named> {
    let bid = |port| Packet::new(port, 5, b"bid");
    let mut bad = Vec::new();
    for port in [0x7D00, 0x7E7D, 0x7EFF] {
        bad.push((format!("port-{port:04x}"), packed(&bid(port))));
        bad.push((format!("port-keyed-{port:04x}"), packed(&bid(port).restricted(7, b"key"))));
    }
    for format in [0x00, 0x20, 0x22, 0x25, 0x27, 0x7E, 0xFF] {
        bad.push((format!("format-{format:02x}"), packed(&Packet { format, ..bid(0x5100) })));
    }
    for length in [0, 1, 33, 255] {
        bad.push((format!("key-{length:03}"), packed(&bid(0x5100).restricted(7, &vec![0x41; length]))));
    }
    let of = |format: u8, n: usize| (0..n).map(|i| if i == 0 { format } else { 0x02 }).collect::<Vec<u8>>();
    bad.extend((0..=5).map(|n| (format!("short-{n}"), of(FORMAT, n))));
    bad.extend((1..=9).map(|n| (format!("short-keyed-{n}"), of(RESTRICTED, n))));
    bad.push(("empty".to_string(), packed(&Packet::new(0x5100, 0, b""))));
    bad.push(("above".to_string(), packed(&Packet::new(0x5100, 0, &[0x7E; 4097]))));
    bad.push(("above-keyed".to_string(), packed(&longest(0x507D, &[0x41; 8193]))));
    bad
}

/// Bytes of records: what the sender accepts, both formats, up to the longest, and what it refuses.
pub fn entries(random: &mut Random) -> Vec<Vec<u8>> {
    let mut packets = any_packets(random, 40);
    for payload in [vec![0x41; 8192], vec![0x7E; 4096]] {
        packets.extend([Packet::new(0x507D, 0x7E7D, &payload), longest(0x507D, &payload)]);
    }
    packets.iter().map(packed).chain(refused().into_iter().map(|(_, bytes)| bytes)).collect()
}

/// A capture with bytes altered, put in, taken out, or cut off.
fn drawn(random: &mut Random, kind: usize) -> Vec<u8> {
    let count = 1 + random.below(6);
    let mut bytes = captured(&any_packets(random, count));
    for _ in 0..1 + random.below(2) {
        let at = 24 + random.below(bytes.len() - 24);
        match kind % 4 {
            0 => bytes[at] ^= 1 << random.below(8),
            1 => bytes.insert(at, random.byte()),
            2 => drop(bytes.remove(at)),
            _ => bytes.truncate(at + 1),
        }
    }
    bytes
}
