//! The office's sender, and the day that bin/day shows: bids sent, heard, heard with damage, and what a framed board would show.
//!
//!   second bids send               lines of bids in, the marked stream out; lines that are not sent are named on standard error, and warned of others
//!   second bids files DIR [SEED]   files of bids to be sent, into a folder
//!   second bids record SEED        a recording of the stream on standard input, in pieces as the seed has them
//!   second bids flag N | price N | parity N | marker N
//!                                  the stream on standard input, damaged: 7D for the byte before the flag behind packet N, a higher
//!                                  digit in the price of packet N, half of the parity of block N, or marker N spoilt
//!   second bids seen FILE          of the board's lines on standard input: which bids of the file they show
//!   second bids framed FILE        of the stream on standard input: which ones a framed board would show

use crate::board;
use crate::cases::Random;
use crate::channel::{self, BLOCK, MARKER, MESSAGE};
use crate::fcs;
use crate::packet::{self, FLAG};
use crate::ports::MOST;
use crate::words::refused;
use std::io::{Read, Write};

pub fn run(words: &[&str]) -> i32 {
    let mut input = Vec::new();
    if matches!(words, ["send"] | ["record" | "flag" | "marker" | "parity" | "price" | "seen" | "framed", _]) {
        std::io::stdin().read_to_end(&mut input).expect("standard input");
    }
    match *words {
        ["send"] => {
            let (stream, named) = sent(&input);
            output(&stream);
            eprint!("{named}");
        }
        ["files", dir] => write_files(dir, 1),
        ["files", dir, seed] => write_files(dir, seed.parse().expect("a seed")),
        ["record", seed] => output(&recorded(&input, seed.parse().expect("a seed"))),
        ["flag", n] => output(&spoil_flag(input, n.parse().expect("a number"))),
        ["marker", n] => output(&spoil_marker(input, n.parse().expect("a number"))),
        ["parity", n] => output(&spoil_parity(input, n.parse().expect("a number"))),
        ["price", n] => output(&spoil_price(input, n.parse().expect("a number"))),
        ["seen", file] => println!("{}", seen("The manager sees", file, &bid_lines(&input))),
        ["framed", file] => println!("{}", seen("A framed board:", file, &framed(&input))),
        _ => return 2,
    }
    0
}

fn output(bytes: &[u8]) {
    std::io::stdout().write_all(bytes).expect("standard output");
}

// One to five digits, at most 65,535.
fn number(word: &[u8]) -> Option<u16> {
    if word.len() > 5 || !word.iter().all(u8::is_ascii_digit) {
        return None;
    }
    std::str::from_utf8(word).ok()?.parse().ok()
}

/// A line: port, sequence and text, or none where it is no bid.
pub fn bid(line: &[u8]) -> Option<(u16, u16, &[u8])> {
    let mut parts = line.splitn(3, |b| *b == b' ');
    let port = number(parts.next()?)?;
    let sequence = number(parts.next()?)?;
    Some((port, sequence, parts.next().unwrap_or(&[])))
}

/// The lines of an input; what stands behind the last line feed is a line too, where it is not empty.
pub fn lines(input: &[u8]) -> Vec<&[u8]> {
    let mut lines: Vec<&[u8]> = input.split(|b| *b == b'\n').collect();
    if lines.last().is_some_and(|l| l.is_empty()) {
        lines.pop();
    }
    lines
}

/// The marked stream of the lines that are accepted, the names of those that are not, and warnings of what the yards will make of the others.
pub fn sent(input: &[u8]) -> (Vec<u8>, String) {
    let mut stream = vec![FLAG];
    let mut said = Vec::new();
    let mut desk = Desk { numbers: Vec::new(), full: false, returned: false };
    for (at, line) in lines(input).into_iter().enumerate() {
        let mut say = |what: String| said.push(format!("line {}: {what}\n", at + 1));
        match bid(line) {
            None => say(no_bid(at, line).to_string()),
            Some((port, sequence, text)) => match packet::escaped_packet(port, sequence, text, usize::MAX) {
                Ok(bytes) => {
                    stream.extend(bytes);
                    desk.warnings(port, sequence, text).into_iter().for_each(|what| say(format!("warning: {what}")));
                }
                Err(n) => say(refused(n)),
            },
        }
    }
    (channel::in_blocks(&stream, usize::MAX).expect("any space"), said.concat())
}

fn no_bid(at: usize, line: &[u8]) -> &'static str {
    let marks: [&[u8]; 3] = ["\u{FEFF}".as_bytes(), &[0xFF, 0xFE], &[0xFE, 0xFF]];
    if at == 0 && marks.iter().any(|mark| line.starts_with(mark)) {
        return "no bid: the file begins with a byte order mark: save it as plain text";
    }
    "no bid: a bid is PORT SEQUENCE TEXT: two numbers up to 65535, one space behind each"
}

// What was sent so far: the highest number of each port that a board watches; and what was said once.
struct Desk {
    numbers: Vec<(u16, u16)>,
    full: bool,
    returned: bool,
}

impl Desk {
    fn warnings(&mut self, port: u16, sequence: u16, text: &[u8]) -> Vec<String> {
        let mut all: Vec<String> = self.number_warning(port, sequence).into_iter().collect();
        let body = text.strip_suffix(b"\r").unwrap_or(text);
        if let Some(at) = body.iter().position(odd) {
            let bytes: Vec<u8> = body[at..].iter().copied().take(4).take_while(odd).collect();
            all.push(format!("not plain ASCII: the yards see {}", board::shown(&bytes)));
        }
        if body.len() < text.len() && !std::mem::replace(&mut self.returned, true) {
            all.push("a carriage return ends the text, as in a file from Windows: the yards see \\x0D; not said of the lines behind it".to_string());
        }
        all
    }

    fn number_warning(&mut self, port: u16, sequence: u16) -> Option<String> {
        let Some((_, last)) = self.numbers.iter_mut().find(|(p, _)| *p == port) else { return self.first_of(port, sequence) };
        let had = format!("port {port} had number {last} before");
        match sequence.wrapping_sub(*last) as i16 {
            1 => *last = sequence,
            0 => return Some(format!("repeated: {had}; the yards will not take it for a new bid")),
            distance if distance < 0 => return Some(format!("late: {had}; the yards will not quote from it")),
            distance => {
                *last = sequence;
                return Some(format!("a gap: {had}; the yards will be told: missing {}", distance - 1));
            }
        }
        None
    }

    fn first_of(&mut self, port: u16, sequence: u16) -> Option<String> {
        if self.numbers.len() == MOST {
            let first = !std::mem::replace(&mut self.full, true);
            return first.then(|| format!("port {port} is the seventeenth: a board watches 16, and of others cannot tell what is late or missing"));
        }
        self.numbers.push((port, sequence));
        (packet::class_letter(port) != Some(b'A')).then(|| format!("port {port} is none for applications: take one from 1025 to 20735"))
    }
}

// A byte that a board shows by its number.
fn odd(byte: &u8) -> bool {
    !matches!(byte, b' '..=b'~')
}

// ---- files of bids

fn text(random: &mut Random, n: usize) -> Vec<u8> {
    (0..n)
        .map(|_| match random.below(8) {
            0 => 0x7D,
            1 => 0x7E,
            2 => b' ',
            3 => random.byte(),
            _ => b'0' + random.below(10) as u8,
        })
        .map(|b| if b == b'\n' { b'.' } else { b })
        .collect()
}

// A text of so many bytes as escaped, or one less.
fn long_text(random: &mut Random, escaped: usize) -> Vec<u8> {
    let mut bytes = Vec::new();
    let mut left = escaped;
    while left > 0 {
        let double = left > 1 && random.below(3) == 0;
        bytes.push(if double { 0x7D + random.below(2) as u8 } else { b'a' });
        left -= 1 + double as usize;
    }
    bytes
}

fn line(random: &mut Random) -> Vec<u8> {
    let edges = ["31999", "32000", "32255", "32511", "32512", "0", "00000", "00021", "65535", "65536", "99999", "000001", "-1", "+5", "", "7x", "1e3"];
    let word = |random: &mut Random| match random.below(4) {
        0 => edges[random.below(edges.len())].to_string(),
        _ => random.below(65536).to_string(),
    };
    let (port, sequence) = (word(random), word(random));
    let front = format!("{port} {sequence} ").into_bytes();
    match random.below(40) {
        0 => Vec::new(),
        1 => port.into_bytes(),
        2 => format!("{port} {sequence}").into_bytes(),
        3 => front,
        4 => [&b" "[..], &front, b"x"].concat(),
        5 => text(random, 30),
        6 => {
            let most = 8190 + random.below(6);
            let long = long_text(random, most);
            [&front[..], &long].concat()
        }
        7 => {
            let most = 8193 + random.below(70000);
            [&front[..], &text(random, most)].concat()
        }
        _ => {
            let length = 1 + random.below(90);
            [&front[..], &text(random, length)].concat()
        }
    }
}

// Lines as an office types them, on few ports or some more than a board watches, their numbers up by one or not; some end as on Windows.
fn busy(random: &mut Random) -> Vec<u8> {
    let ports = 1 + random.below(20) as u16;
    let mut numbers = vec![random.next() as u16; 20];
    let mut lines = Vec::new();
    for _ in 0..random.below(60) {
        let at = random.below(ports as usize);
        numbers[at] = numbers[at].wrapping_add([1, 1, 1, 1, 0, 2, 900, 32_767, 32_768, 65_535][random.below(10)]);
        let port = [1201, 20_735 - 3, 1020][random.below(8).saturating_sub(5)] + at as u16;
        let texts = [&b"CORN 4.12"[..], b"OATS \\ {~}", b"WHEAT 6\xC2\xBD", b"R\xC3\xB6\xE2\x82\xAC\xC3\xA9", b"RYE\t3.10\x7F"];
        let bytes = texts[random.below(9).saturating_sub(4)];
        let end: &[u8] = if random.below(12) == 0 { b"\r\n" } else { b"\n" };
        lines.extend([format!("{port} {} ", numbers[at]).as_bytes(), bytes, end].concat());
    }
    lines
}

fn write_files(dir: &str, seed: u64) {
    let mut random = Random::new(seed);
    std::fs::create_dir_all(dir).expect(dir);
    let mut files = vec![Vec::new(), b"\n".to_vec(), b"20736 0 A".to_vec(), b"20736 0 A\n".to_vec()];
    // streams of 222 to 225 bytes, and of two messages: what is filled with flags
    for n in [204, 205, 206, 207, 427, 428, 429, 430] {
        files.push([b"1 2 ".to_vec(), vec![b'x'; n], b"\n".to_vec()].concat());
    }
    for _ in 0..60 {
        let count = random.below(60);
        let mut file = (0..count).map(|_| line(&mut random)).collect::<Vec<_>>().join(&b'\n');
        if random.below(3) > 0 {
            file.push(b'\n');
        }
        files.push(file);
    }
    for mark in [&b""[..], b"", b"", b"", b"\xEF\xBB\xBF", b"\xFF\xFE", b"\xFE\xFF", b"\xEF\xBB"] {
        files.extend((0..2).map(|_| [mark, &busy(&mut random)].concat()));
    }
    for (at, file) in files.iter().enumerate() {
        std::fs::write(format!("{dir}/{at:03}.bids"), file).expect(dir);
    }
}

// ---- a day

// A recording; seed 0: one piece, else pieces of odd lengths.
fn recorded(stream: &[u8], seed: u64) -> Vec<u8> {
    let mut random = Random::new(seed);
    let mut rest = stream;
    let mut bytes = vec![0x4F];
    while !rest.is_empty() {
        let n = if seed == 0 { 60000 } else { 2 * random.below(60) + 1 }.min(rest.len());
        bytes.extend([0xF5, 0x5F, (n % 256) as u8, (n / 256) as u8]);
        bytes.extend(&rest[..n]);
        rest = &rest[n..];
    }
    bytes
}

// Where message byte i stands in the marked stream.
fn message_at(i: usize) -> usize {
    i / MESSAGE * BLOCK + MARKER.len() + i % MESSAGE
}

// Where flag n stands among the message bytes; the first is flag 0.
fn flag(stream: &[u8], n: usize) -> usize {
    let count = stream.len() / BLOCK * MESSAGE;
    (0..count).filter(|i| stream[message_at(*i)] == FLAG).nth(n).expect("so many flags")
}

// The byte before the flag behind packet n becomes 7D.
fn spoil_flag(mut stream: Vec<u8>, n: usize) -> Vec<u8> {
    let at = flag(&stream, n) - 1;
    stream[message_at(at)] = 0x7D;
    stream
}

// The digit before the point in packet n is one higher.
fn spoil_price(mut stream: Vec<u8>, n: usize) -> Vec<u8> {
    let point = (flag(&stream, n - 1)..flag(&stream, n)).find(|i| stream[message_at(*i)] == b'.').expect("a price");
    stream[message_at(point - 1)] += 1;
    stream
}

// Sixteen parity bytes of block n (the first is block 0) are altered: with one damaged byte more it is beyond repair.
fn spoil_parity(mut stream: Vec<u8>, n: usize) -> Vec<u8> {
    let end = (n + 1) * BLOCK;
    stream[end - 16..end].iter_mut().for_each(|b| *b ^= 0x55);
    stream
}

// Marker n (the first is marker 0) loses a byte's worth.
fn spoil_marker(mut stream: Vec<u8>, n: usize) -> Vec<u8> {
    stream[n * BLOCK + 1] ^= 0x10;
    stream
}

/// A bid as the board shows it.
pub fn line_of(port: u16, sequence: u16, text: &[u8]) -> String {
    format!("{port} {sequence} {}", board::shown(text))
}

/// The bids among the board's lines.
pub fn bid_lines(text: &[u8]) -> Vec<String> {
    String::from_utf8_lossy(text).lines().filter(|line| !line.starts_with('!')).map(str::to_string).collect()
}

/// Where the words stand that a board hears, run by run: each lasts as long as lock does.
pub fn locked(stream: &[u8]) -> Vec<Vec<usize>> {
    let is_block = |at: usize| at + BLOCK <= stream.len() && stream[at..at + 4] == MARKER;
    let (mut runs, mut at) = (Vec::new(), 0);
    while at + BLOCK <= stream.len() {
        let words: Vec<usize> = (at..).step_by(BLOCK).take_while(|at| is_block(*at)).map(|at| at + MARKER.len()).collect();
        at += if words.is_empty() { 1 } else { words.len() * BLOCK };
        runs.extend(Some(words).filter(|words| !words.is_empty()));
    }
    runs
}

/// The message bytes of words, as they came.
pub fn message_bytes(stream: &[u8], words: &[usize]) -> Vec<u8> {
    words.iter().flat_map(|at| &stream[*at..at + MESSAGE]).copied().collect()
}

// What a framed board shows: it locks as ours does, and 7D hides whatever byte follows it, a flag too.
fn framed(stream: &[u8]) -> Vec<String> {
    locked(stream).iter().flat_map(|run| unframed(&message_bytes(stream, run), true)).collect()
}

/// What such a board shows of message bytes; one that does not look at the check shows all that came between two flags.
pub fn unframed(bytes: &[u8], checks: bool) -> Vec<String> {
    let mut shown = Vec::new();
    let mut frame: Option<Vec<u8>> = None;
    let mut hidden = false;
    for byte in bytes {
        if hidden {
            hidden = false;
            frame.iter_mut().for_each(|f| f.push(byte ^ 0x20));
        } else if *byte == FLAG {
            let contents = frame.replace(Vec::new()).unwrap_or_default();
            if contents.len() > 7 && (!checks || fcs::check(&contents[..contents.len() - 2]).to_le_bytes() == contents[contents.len() - 2..]) {
                let number = |i: usize| u16::from_le_bytes([contents[i], contents[i + 1]]);
                shown.push(line_of(number(1), number(3), &contents[5..contents.len() - 2]));
            }
        } else if *byte == 0x7D {
            hidden = true;
        } else {
            frame.iter_mut().for_each(|f| f.push(*byte));
        }
    }
    shown
}

// Which of the bids that were sent are shown, by port and sequence number.
fn seen(who: &str, file: &str, shown: &[String]) -> String {
    let input = std::fs::read(file).expect(file);
    let all: Vec<String> = lines(&input)
        .into_iter()
        .filter_map(bid)
        .filter(|(port, sequence, text)| packet::escaped_packet(*port, *sequence, text, usize::MAX).is_ok())
        .map(|(port, sequence, text)| line_of(port, sequence, text))
        .collect();
    let name = |line: &String| line.split(' ').take(2).collect::<Vec<_>>().join(" ");
    let missing: Vec<String> = all.iter().filter(|line| !shown.contains(line)).map(name).collect();
    let wrong = shown.iter().filter(|line| !all.contains(line)).count();
    let lost = match missing.split_last() {
        None => "none is lost".to_string(),
        Some((one, [])) => format!("bid {one} is lost"),
        Some((last, others)) => format!("bids {} and {last} are lost", others.join(", ")),
    };
    let none = if wrong == 0 { "none".to_string() } else { wrong.to_string() };
    format!("{who:17} {} of {} bids; {lost}; {none} wrong.", shown.len() - wrong, all.len())
}
