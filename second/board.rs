//! The board, what the manager reads: the text of a stream or of a recording, line by line.
//!
//!   second board [--recording|--stream] [--blocks] [--ports=A-B]
//!                              the text of standard input: the bare opportunistic stream, or a recording; clean and repaired blocks too;
//!                              of packets those of the ports from A to B alone
//!   second feed FIFO TEXT STREAM
//!                              the stream's bytes, one by one, into the FIFO; the file TEXT must have all lines of the bytes so far before
//!                              the next one is sent, and none of a later byte
//!
//! The lines, each number decimal:
//!
//!   PORT SEQUENCE TEXT                    a packet: a bid
//!   ! missing PORT N                      so many are missing before the packet whose line follows
//!   ! unwatched PORT                      its port finds no place in the table; the packet's line follows
//!   ! late PORT SEQUENCE TEXT             an older one: no bid
//!   ! repeated PORT SEQUENCE TEXT         the last one again: no bid
//!   ! restricted PORT SEQUENCE KEYNUMBER  a packet for subscribers, in place of its own line
//!   ! frame refused N                     and of a broken escape `! frame refused 3 PLACE`
//!   ! block beyond repair, ! lock lost
//!   ! block clean, ! block repaired N     where they are asked for
//!   ! wrong at OFFSET                     the last line of a recording that is none, or breaks off

use crate::board_cases::{self, payload, recordings};
use crate::cases::Random;
use crate::channel::{self, Answer, Receiver, BLOCK, MARKER, MESSAGE};
use crate::channel_cases::alter;
use crate::listing::{self, STREAM_LIMIT};
use crate::listing_cases::{any, recorded, OPPORTUNISTIC, PAPER, PLAIN};
use crate::packet::{self, Fault, Packet, FLAG, RAW_LIMIT, RESTRICTED};
use crate::parity::WORD;
use crate::ports::{self, Place, Verdict, FREE, MOST};
use crate::stream::Reader;
use std::io::{Read, Write};
use std::ops::RangeInclusive;
use std::time::{Duration, Instant};

/// The ports whose packets are noted and shown.
pub type Watched = RangeInclusive<u16>;
pub const EVERY: Watched = 0..=u16::MAX;

enum Ear {
    Channel(Receiver),
    Plain(Reader),
}

pub struct Board {
    blocks_too: bool,
    watched: Watched,
    ear: Ear,
    buffer: Vec<u8>,
    word: Vec<u8>,
    table: [Place; MOST],
    pub text: String,
}

impl Board {
    pub fn new(opportunistic: bool, blocks_too: bool) -> Self {
        let ear = if opportunistic { Ear::Channel(Receiver::new()) } else { Ear::Plain(Reader::new()) };
        Board { blocks_too, watched: EVERY, ear, buffer: vec![0; RAW_LIMIT], word: vec![0; WORD], table: [FREE; MOST], text: String::new() }
    }

    /// The same of these ports alone.
    pub fn watching(self, watched: Watched) -> Self {
        Board { watched, ..self }
    }

    /// Further bytes of the stream.
    pub fn hear(&mut self, mut piece: &[u8]) {
        while let Some(taken) = self.next(piece) {
            piece = &piece[taken..];
        }
    }

    /// A plain stream breaks off here: what is open is dropped, and the ports' numbers stay.
    pub fn drop_frame(&mut self) {
        self.ear = Ear::Plain(Reader::new());
    }

    /// The lines of the next answer, and how many bytes it took; none: all of them are taken, and there is none.
    pub fn next(&mut self, piece: &[u8]) -> Option<usize> {
        let heard = match &mut self.ear {
            Ear::Channel(receiver) => receiver.call(&mut self.buffer, &mut self.word, piece),
            Ear::Plain(reader) => reader.call(&mut self.buffer, piece).map(|(frame, taken)| (frame.map(Answer::Frame), taken)),
        };
        let (answer, taken) = heard.expect("buffers that pass");
        answer.map(|answer| {
            self.answer(answer);
            taken
        })
    }

    fn line(&mut self, line: &str) {
        self.text.push_str(line);
        self.text.push('\n');
    }

    fn answer(&mut self, answer: Answer) {
        match answer {
            Answer::Frame(Ok(delivery)) => self.packet(&delivery.packet(&self.buffer)),
            Answer::Frame(Err(Fault::Number(n))) => self.line(&format!("! frame refused {n}")),
            Answer::Frame(Err(Fault::BrokenEscape(place))) => self.line(&format!("! frame refused 3 {place}")),
            Answer::Block(None) => self.line("! block beyond repair"),
            Answer::Block(Some(_)) if !self.blocks_too => {}
            Answer::Block(Some(0)) => self.line("! block clean"),
            Answer::Block(Some(places)) => self.line(&format!("! block repaired {places}")),
            Answer::LockLost => self.line("! lock lost"),
        }
    }

    fn packet(&mut self, packet: &Packet) {
        let Packet { port, sequence, .. } = packet;
        if !self.watched.contains(port) {
            return;
        }
        let verdict = ports::note(&mut self.table, *port, *sequence);
        match verdict {
            Ok(Verdict::Distance(distance @ 2..)) => self.line(&format!("! missing {port} {}", distance - 1)),
            Err(_) => self.line(&format!("! unwatched {port}")),
            _ => {}
        }
        if packet.format == RESTRICTED {
            return self.line(&format!("! restricted {port} {sequence} {}", packet.key_number));
        }
        let mark = match verdict {
            Ok(Verdict::Distance(0)) => "! repeated ",
            Ok(Verdict::Distance(..=-1)) => "! late ",
            _ => "",
        };
        self.line(&format!("{mark}{port} {sequence} {}", shown(&packet.payload)));
    }
}

/// Where a recording's stream bytes stand, of at most so many; and the offset of what is wrong, of the first byte or of the records behind it.
pub fn apart(recording: &[u8], most: u64) -> (Vec<usize>, Option<usize>) {
    let mut places = Vec::new();
    if !matches!(recording.first(), Some(&OPPORTUNISTIC | &PLAIN)) {
        return (places, Some(0));
    }
    let mut at = 1;
    while at < recording.len() {
        let head = &recording[at..recording.len().min(at + 4)];
        if let Some(wrong) = head.iter().zip([0xF5, 0x5F]).position(|(is, right)| *is != right) {
            return (places, Some(at + wrong));
        }
        let [_, _, low, high] = *head else { return (places, Some(recording.len())) };
        let length = u16::from_le_bytes([low, high]) as usize;
        let there = length.min(recording.len() - at - 4).min(most as usize - places.len());
        places.extend(at + 4..at + 4 + there);
        at += 4 + there;
        if there < length {
            return (places, Some(at));
        }
    }
    (places, None)
}

/// A payload as it is shown: what is printable as it is, a backslash twice, any other byte by its number.
pub fn shown(payload: &[u8]) -> String {
    let byte = |b: &u8| match b {
        b'\\' => "\\\\".to_string(),
        b' '..=b'~' => (*b as char).to_string(),
        _ => format!("\\x{b:02X}"),
    };
    payload.iter().map(byte).collect()
}

/// The text of a bare stream.
pub fn of_stream(stream: &[u8], blocks_too: bool) -> String {
    stream_watched(stream, blocks_too, EVERY)
}

fn stream_watched(stream: &[u8], blocks_too: bool, watched: Watched) -> String {
    let mut board = Board::new(true, blocks_too).watching(watched);
    board.hear(stream);
    board.text
}

/// The text of a recording.
pub fn of_recording(recording: &[u8], blocks_too: bool) -> String {
    near_limit(recording, blocks_too, EVERY, STREAM_LIMIT)
}

/// The same of these ports, where the stream may have so many bytes.
fn near_limit(recording: &[u8], blocks_too: bool, watched: Watched, most: u64) -> String {
    let mut board = Board::new(recording.first() == Some(&OPPORTUNISTIC), blocks_too).watching(watched);
    let (places, wrong) = apart(recording, most);
    board.hear(&places.iter().map(|place| recording[*place]).collect::<Vec<_>>());
    board.text + &last_line(wrong, 0)
}

/// Behind a recording where something is wrong, so many bytes counted before it.
pub fn last_line(wrong: Option<usize>, before: u64) -> String {
    wrong.map_or(String::new(), |offset| format!("! wrong at {}\n", before + offset as u64))
}

/// `--ports=A-B`
fn ports_of(word: &str) -> Option<Watched> {
    let (first, last) = word.strip_prefix("--ports=")?.split_once('-')?;
    Some(first.parse().ok()?..=last.parse().ok()?)
}

pub fn are_options(words: &[&str]) -> bool {
    words.iter().all(|word| ["--recording", "--stream", "--blocks"].contains(word) || ports_of(word).is_some())
}

/// `second board ..`; of two flags for the input the last one counts.
pub fn show(options: &[&str]) -> std::io::Result<()> {
    let blocks_too = options.contains(&"--blocks");
    let recording = options.iter().rfind(|option| ["--recording", "--stream"].contains(option)) == Some(&"--recording");
    let watched = options.iter().find_map(|option| ports_of(option)).unwrap_or(EVERY);
    let mut bytes = Vec::new();
    std::io::stdin().read_to_end(&mut bytes)?;
    let text = if recording { near_limit(&bytes, blocks_too, watched, STREAM_LIMIT) } else { stream_watched(&bytes, blocks_too, watched) };
    std::io::stdout().write_all(text.as_bytes())
}

// ---- live

/// How long a line may take, the proving before the first one aside.
const PATIENCE: Duration = Duration::from_secs(60);

/// `second feed ..`: the status is 1 where the file TEXT has something else than the lines of the bytes that were sent.
pub fn feed(fifo: &str, text: &str, stream: &str) -> i32 {
    let bytes = std::fs::read(stream).expect(stream);
    let mut to = std::fs::OpenOptions::new().write(true).open(fifo).expect(fifo);
    let mut board = Board::new(true, false);
    let mut lines_at = Vec::new();
    for (i, byte) in bytes.iter().enumerate() {
        let before = board.text.len();
        to.write_all(&[*byte]).expect(fifo);
        board.hear(&[*byte]);
        if board.text.len() > before {
            lines_at.push(i + 1);
        }
        if !comes(text, &board.text) {
            println!("behind byte {} of {stream} the board's text should be\n{}and it is\n{}", i + 1, board.text, std::fs::read_to_string(text).unwrap());
            return 1;
        }
    }
    println!("{} bytes one by one, {} lines, there with bytes {lines_at:?}", bytes.len(), board.text.lines().count());
    0
}

/// Whether a file comes to hold just this text.
fn comes(file: &str, text: &str) -> bool {
    let began = Instant::now();
    loop {
        let there = std::fs::read_to_string(file).expect(file);
        if there == text {
            return true;
        }
        if !text.starts_with(&there) || began.elapsed() > PATIENCE {
            return false;
        }
        std::thread::sleep(Duration::from_millis(2));
    }
}

// ---- held to the request

/// The lines of one recording: the plain stream of these frames, and the opportunistic channel with these blocks.
fn lines_of(letter: u8, stream: &[u8]) -> String {
    of_recording(&recorded(letter, stream, || stream.len()), true)
}

fn escaped(port: u16, sequence: u16, payload: &[u8]) -> Vec<u8> {
    packet::escaped_packet(port, sequence, payload, usize::MAX).unwrap()
}

fn restricted(port: u16, sequence: u16, key_number: u8) -> Vec<u8> {
    Packet::new(port, sequence, b"bid").restricted(key_number, b"key").escaped(usize::MAX).unwrap()
}

/// The table of lines, one by one.
fn lines() {
    let flagged = |frames: &[Vec<u8>]| [&[FLAG][..], &frames.concat()].concat();
    for (frames, right) in [
        (vec![escaped(1401, 5, b"CORN 4.31 1/4")], "1401 5 CORN 4.31 1/4\n"),
        (vec![escaped(1, 65_535, b"a"), escaped(1, 0, b"b")], "1 65535 a\n1 0 b\n"),
        (vec![escaped(1, 5, b"a"), escaped(1, 8, b"b"), escaped(1, 7, b"c"), escaped(1, 9, b"d")], "1 5 a\n! missing 1 2\n1 8 b\n! late 1 7 c\n1 9 d\n"),
        (vec![escaped(1, 5, b"a"), escaped(1, 5, b"b"), escaped(1, 6, b"c")], "1 5 a\n! repeated 1 5 b\n1 6 c\n"),
        (vec![escaped(1, 5, b"a"), restricted(1, 6, 7), escaped(1, 7, b"c")], "1 5 a\n! restricted 1 6 7\n1 7 c\n"),
        (vec![restricted(1, 5, 0), restricted(1, 8, 255)], "! restricted 1 5 0\n! missing 1 2\n! restricted 1 8 255\n"),
        (vec![escaped(1, 5, b"a"), restricted(1, 5, 7), restricted(1, 4, 7)], "1 5 a\n! restricted 1 5 7\n! restricted 1 4 7\n"),
        (vec![vec![0x00, FLAG], vec![0x21, 0x7D, FLAG], vec![0x41, 0x7D, 0x21, FLAG]], "! frame refused 4\n! frame refused 2\n! frame refused 3 2\n"),
        (vec![escaped(9, 9, b"\\x41\\ \x00\x1F \x7E\x7D\x7F\xE9\n")], "9 9 \\\\x41\\\\ \\x00\\x1F ~}\\x7F\\xE9\\x0A\n"),
    ] {
        assert_eq!(lines_of(PLAIN, &flagged(&frames)), right);
    }
    let ports: Vec<Vec<u8>> = (0..17).map(|port| escaped(port, 1, b"a")).chain([escaped(3, 3, b"b"), restricted(16, 0, 7)]).collect();
    let text = lines_of(PLAIN, &flagged(&ports));
    assert!(text.ends_with("15 1 a\n! unwatched 16\n16 1 a\n! missing 3 1\n3 3 b\n! unwatched 16\n! restricted 16 0 7\n"));
}

/// Those of blocks, and of recordings that end where they should not.
fn blocks() {
    let mut random = Random::new(1);
    let clean = channel::in_blocks(&[&[FLAG][..], &escaped(1, 5, b"a")].concat(), BLOCK).unwrap();
    let altered = |random: &mut Random, places: usize| {
        let mut block = clean.clone();
        alter(random, &mut block[4 + MESSAGE..], places);
        block
    };
    for (places, told) in [(0, "! block clean\n"), (1, "! block repaired 1\n"), (16, "! block repaired 16\n"), (17, "! block beyond repair\n")] {
        let (block, bid) = (altered(&mut random, places), "1 5 a\n");
        let right = told.to_string() + bid;
        assert_eq!(lines_of(OPPORTUNISTIC, &block), right);
        assert_eq!(of_stream(&[&b"O"[..], &block].concat(), true), right);
        assert_eq!(of_stream(&block, false), if places > 16 { &right } else { bid });
    }
    // a lost lock leaves the table as it is
    let lost = [&clean[..], &[0; 4], &channel::in_blocks(&[&[FLAG][..], &escaped(1, 7, b"b")].concat(), BLOCK).unwrap()].concat();
    assert_eq!(of_stream(&lost, false), "1 5 a\n! lock lost\n! missing 1 1\n1 7 b\n");
    // before the last byte of a word nothing of it is told
    let mut board = Board::new(true, true);
    board.hear(&clean[..BLOCK - 1]);
    assert_eq!(board.text, "");
    board.hear(&clean[BLOCK - 1..]);
    assert_eq!(board.text, "! block clean\n1 5 a\n");
    assert_eq!(of_recording(&PAPER, false), "20736 0 A\n");
    assert_eq!(of_recording(&PAPER[..18], false), "! wrong at 18\n");
    assert_eq!([&[][..], &MARKER, &[PLAIN]].map(|bytes| of_recording(bytes, false)), ["! wrong at 0\n", "! wrong at 0\n", ""]);
    let short = [PLAIN, 0xF5, 0x5F, 5, 0, FLAG, 0x00, FLAG, 0x00, FLAG];
    assert_eq!(near_limit(&short, false, EVERY, 3), "! frame refused 4\n! wrong at 8\n");
    assert_eq!(near_limit(&short, false, EVERY, 5), "! frame refused 4\n! frame refused 4\n");
}

/// Of some ports alone: what is shown is what is shown of a stream in which no other packet was sent, whatever else stands in it.
fn watched(random: &mut Random) {
    for _ in 0..200 {
        let ports: Vec<u16> = (0..1 + random.below(20)).map(|_| 1000 + random.below(30) as u16).collect();
        let (first, last) = (1000 + random.below(30) as u16, 1000 + random.below(30) as u16);
        let mut frames = vec![vec![FLAG], vec![0x00, FLAG]];
        let mut inside = frames.clone();
        for _ in 0..60 {
            let (port, sequence) = (ports[random.below(ports.len())], random.below(6) as u16);
            let frame = match random.below(8) {
                0 => vec![0x41, 0x7D, 0x21, FLAG],
                1 => restricted(port, sequence, 7),
                _ => escaped(port, sequence, b"bid"),
            };
            if frame[0] == 0x41 || first <= port && port <= last {
                inside.push(frame.clone());
            }
            frames.push(frame);
        }
        let recording = |frames: &[Vec<u8>]| recorded(PLAIN, &frames.concat(), || 50);
        assert_eq!(near_limit(&recording(&frames), true, first..=last, STREAM_LIMIT), of_recording(&recording(&inside), true));
        let blocks = |frames: &[Vec<u8>]| channel::in_blocks(&frames.concat(), usize::MAX).unwrap();
        assert_eq!(stream_watched(&blocks(&frames), false, first..=last), of_stream(&blocks(&inside), false));
    }
}

/// The payload of a text.
fn undone(text: &str) -> Vec<u8> {
    let mut bytes = Vec::new();
    let mut rest = text.as_bytes();
    while let [first, ref behind @ ..] = *rest {
        let (byte, taken) = match (first, behind) {
            (b'\\', [b'\\', ..]) => (b'\\', 2),
            (b'\\', [b'x', ..]) => (u8::from_str_radix(&text[text.len() - rest.len() + 2..][..2], 16).unwrap(), 4),
            _ => (first, 1),
        };
        assert!(first == byte || taken == 4);
        bytes.push(byte);
        rest = &rest[taken..];
    }
    bytes
}

/// The text of a recording held to its listing, line by line, and to what is told of the packets' numbers.
fn held_to_listing(recording: &[u8]) {
    let text = of_recording(recording, true);
    let listing = String::from_utf8(listing::listing(recording)).unwrap();
    let verdicts = ports::missed(recording).0;
    let (mut lines, mut verdicts) = (text.lines(), verdicts.lines());
    for line in listing.lines() {
        let words: Vec<&str> = line.split(' ').collect();
        let right = match words[..] {
            ["B", "0"] => "! block clean".to_string(),
            ["B", "X"] => "! block beyond repair".to_string(),
            ["B", n] => format!("! block repaired {n}"),
            ["L"] => "! lock lost".to_string(),
            ["R", ref numbers @ ..] => format!("! frame refused {}", numbers.join(" ")),
            ["X", offset] => format!("! wrong at {offset}"),
            ["P", port, sequence, length, _] => {
                let verdict: Vec<&str> = verdicts.next().unwrap().split(' ').skip(2).collect();
                match verdict[..] {
                    ["missing", n] => assert_eq!(lines.next(), Some(format!("! missing {port} {n}").as_str())),
                    ["refused", "40"] => assert_eq!(lines.next(), Some(format!("! unwatched {port}").as_str())),
                    _ => {}
                }
                let mark = if matches!(verdict[0], "late" | "repeated") { format!("! {} ", verdict[0]) } else { String::new() };
                let own = lines.next().unwrap();
                let text = own.strip_prefix(&format!("{mark}{port} {sequence} "));
                assert!(text.map_or(own.starts_with(&format!("! restricted {port} {sequence} ")), |text| undone(text).len().to_string() == length));
                continue;
            }
            _ => continue,
        };
        assert_eq!(lines.next(), Some(right.as_str()));
    }
    assert_eq!(lines.next(), None);
}

/// The request's lines; every payload can be had back from its text; many recordings held to their listings.
pub fn test(random: &mut Random) -> usize {
    lines();
    blocks();
    watched(random);
    let all: Vec<u8> = (0..=255).collect();
    assert_eq!(undone(&shown(&all)), all);
    for n in 0..300 {
        let payload = payload(random, n % board_cases::TEXTS);
        let text = shown(&payload);
        assert!(undone(&text) == payload && text.bytes().all(|b| (b' '..=b'~').contains(&b)));
    }
    let mut all: Vec<Vec<u8>> = recordings(random).into_iter().map(|(_, bytes)| bytes).collect();
    all.extend((0..300).map(|kind| any(random, kind)));
    all.iter().for_each(|recording| held_to_listing(recording));
    all.len()
}
