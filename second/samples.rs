//! The recordings of samples/: a morning of bids on the opportunistic channel, the same morning damaged on the way, the same with some bids
//! for subscribers only, the same in the plain stream with two escapes broken, a morning with bids that were never sent, and a recording that
//! breaks off. And the morning as it comes from the air, a bare stream.

use crate::board;
use crate::capture;
use crate::channel::{self, BLOCK, MARKER};
use crate::listing;
use crate::listing_cases::{recorded, OPPORTUNISTIC, PLAIN};
use crate::packet::{self, Packet, FLAG};
use crate::ports;

/// Port, sequence and text: bids on ports for applications, between them the station's own packets.
const MORNING: [(u16, u16, &str); 13] = [
    (0x5100, 411, "Farm hour with the opening bids"),
    (0x1401, 88, "06:30 CORN US 2 YELLOW 4.31 1/4 DEC BASIS -18 YARD 6"),
    (0x1402, 51, "06:30 SOYBEANS US 1 YELLOW 10.04 1/2 NOV BASIS -32 YARD 6"),
    (0x1403, 19, "06:31 WHEAT HRS 14.0 PROTEIN 6.12 DEC BASIS -41 YARD 6"),
    (0x5201, 7, "Second programme: weather by county"),
    (0x1401, 89, "06:45 CORN US 2 YELLOW 4.32 DEC BASIS -18 YARD 6"),
    (0x1401, 90, "06:45 CORN US 2 YELLOW 4.27 3/4 DEC BASIS -22 YARD 9 ~ MOISTURE 15.5 MOST"),
    (0x1402, 52, "06:50 SOYBEANS US 1 YELLOW 10.06 1/4 NOV BASIS -32 YARD 6"),
    (0x0400, 1203, "clock 06:50:00"),
    (0x1404, 4, "06:52 OATS US 2 HEAVY 3.58 DEC BASIS -25 YARD 6 {FULL AT 40 LOADS}"),
    (0x1403, 20, "06:55 WHEAT HRS 14.0 PROTEIN 6.10 1/2 DEC BASIS -41 YARD 6"),
    (0x5300, 0, "trial of a later service"),
    (0x1401, 91, "07:00 CORN US 2 YELLOW 4.33 1/2 DEC BASIS -17 YARD 6"),
];

fn stream() -> Vec<u8> {
    stream_of(&MORNING)
}

/// The corn bids 89 and 90 are never sent, the second bid for soybeans is sent twice, and the first for wheat behind the second.
fn missed() -> Vec<u8> {
    let mut bids = MORNING.to_vec();
    bids.retain(|bid| !matches!((bid.0, bid.1), (0x1401, 89) | (0x1401, 90)));
    let at = |bids: &[(u16, u16, &str)], port, sequence| bids.iter().position(|bid| (bid.0, bid.1) == (port, sequence)).unwrap();
    let again = at(&bids, 0x1402, 52);
    bids.insert(again, bids[again]);
    let early = bids.remove(at(&bids, 0x1403, 19));
    bids.insert(at(&bids, 0x1403, 20) + 1, early);
    stream_of(&bids)
}

fn stream_of(bids: &[(u16, u16, &str)]) -> Vec<u8> {
    let mut bytes = vec![FLAG];
    for &(port, sequence, text) in bids {
        bytes.extend(packet::escaped_packet(port, sequence, text.as_bytes(), usize::MAX).unwrap());
    }
    bytes
}

/// The keys of a month, each with its number: of the least length, of the greatest, full of escapes, and one between.
const KEYS: [(u8, &[u8]); 4] = [(7, &[0xAA, 0xBB]), (8, b"SUBSCRIBERS OF YARD 6 AND YARD 9"), (0x7E, &[0x7D, 0x7E, 0x7D, 0x7E]), (0, b"OATS AND RYE")];

/// The same morning; what stands on ports 0x1401 to 0x1404 is for subscribers, each port with a key of its own. The bid on the last of these
/// comes twice, at first from a sender that keeps a single byte of the key.
fn restricted_stream() -> Vec<u8> {
    let mut bytes = vec![FLAG];
    for (port, sequence, text) in MORNING {
        let mut packet = Packet::new(port, sequence, text.as_bytes());
        if let Some((number, key)) = KEYS.get(port.wrapping_sub(0x1401) as usize) {
            packet = packet.restricted(*number, key);
            if *number == 0 {
                bytes.extend([&packet.clone().restricted(0, &key[..1]).raw()[..], &[FLAG]].concat());
            }
        }
        bytes.extend(packet.escaped(usize::MAX).unwrap());
    }
    bytes
}

/// Each recording by name.
fn all() -> [(&'static str, Vec<u8>); 6] {
    let clean = channel::in_blocks(&stream(), usize::MAX).unwrap();
    let mut damaged = clean.clone();
    // twenty bytes around the first price, beyond repair; two digits of the last price, repaired; a marker that is lost
    damaged[4 + 60..4 + 80].iter_mut().for_each(|b| *b ^= 0x80);
    damaged[3 * BLOCK + 4 + 27] ^= 0x02;
    damaged[3 * BLOCK + 4 + 29] ^= 0x07;
    damaged.drain(BLOCK..BLOCK + 4);
    // the byte behind 7D, in the bid with ~ and in the bid with braces
    let mut escapes = stream();
    for escaped in [[0x7D, 0x5E], [0x7D, 0x5D]] {
        let at = escapes.windows(2).position(|pair| pair == escaped).unwrap();
        escapes[at + 1] ^= 0x01;
    }
    let mut malformed = recorded(PLAIN, &stream(), || 250);
    malformed[1 + 2 * 254 + 1] = 0x00;
    [
        ("morning", recorded(OPPORTUNISTIC, &clean, || 96)),
        ("morning-damaged", recorded(OPPORTUNISTIC, &damaged, || 96)),
        ("morning-restricted", recorded(OPPORTUNISTIC, &channel::in_blocks(&restricted_stream(), usize::MAX).unwrap(), || 96)),
        ("morning-escapes", recorded(PLAIN, &escapes, || 250)),
        ("morning-missed", recorded(OPPORTUNISTIC, &channel::in_blocks(&missed(), usize::MAX).unwrap(), || 96)),
        ("malformed", malformed),
    ]
}

/// The morning's blocks from the air: stray bytes before them that almost are a marker, and sixteen bytes of each word altered.
fn from_the_air() -> Vec<u8> {
    let mut blocks = channel::in_blocks(&stream(), usize::MAX).unwrap();
    for (i, block) in blocks.chunks_mut(BLOCK).enumerate() {
        block[4..].iter_mut().skip(7 * i + 2).step_by(14).take(16).for_each(|b| *b ^= 0xFF);
    }
    [b"stray", &MARKER[..3], &blocks].concat()
}

/// Writes the recordings, each with its listing, the bids that it misses, what the board shows and its capture; and the stream.
pub fn write(dir: &str) -> std::io::Result<()> {
    let air = from_the_air();
    std::fs::write(format!("{dir}/morning-air.stream"), &air)?;
    std::fs::write(format!("{dir}/morning-air.board"), board::of_stream(&air, false))?;
    for (name, bytes) in all() {
        std::fs::write(format!("{dir}/{name}.rec"), &bytes)?;
        std::fs::write(format!("{dir}/{name}.listing"), listing::listing(&bytes))?;
        std::fs::write(format!("{dir}/{name}.missed"), ports::missed(&bytes).0)?;
        std::fs::write(format!("{dir}/{name}.board"), board::of_recording(&bytes, false))?;
        std::fs::write(format!("{dir}/{name}.pcap"), capture::captured(&capture::delivered(&bytes).0))?;
    }
    Ok(())
}
