//! What a weak signal costs: a day of bids is drawn, its bytes are altered on their way, and what boards show of them is counted (bench/noise).
//!
//!   second noise day LINES [SEED]  lines of bids, drawn
//!   second noise settings          kinds of noise with their rates, a line each
//!   second noise air KIND N SEED   the stream on standard input as it comes in: about one byte in N is hit
//!   second noise count KIND N SEED BIDS SENT CAME TEXT
//!                                  of a day's bids, their stream, what came in and the lines that a board shows of it, blocks too: the
//!                                  setting's counts, a line. The status is 1 where a guarantee is broken or the second program's board
//!                                  shows something else, 3 where a wrong bid passed its check
//!
//! Which bytes were altered is known: the same noise is made once more from its seed. The boards beside ours are models: both lock as ours does
//! and undo RFC 1662's escapes, 7D hiding whatever byte follows it; the straight-copy board shows all that comes between two flags, the
//! framed board what also passes the check. "As they came" is our board with words read without repair.

use crate::bids::{self, bid, bid_lines, line_of, lines, locked, message_bytes, unframed};
use crate::board::{self, Board};
use crate::cases::Random;
use crate::channel::{BLOCK, MARKER, MESSAGE, ROOTS};
use crate::packet;
use crate::parity::WORD;
use crate::repair::differing;
use std::collections::HashMap;
use std::io::{Read, Write};

/// So many altered bytes of a word are put right.
const MENDED: usize = ROOTS as usize / 2;

#[derive(Clone, Copy)]
enum Kind {
    /// Bytes by themselves; those of words alone, or those of markers too.
    Bytes { markers: bool },
    /// So many bytes one behind the other, each of them altered.
    Bursts(usize),
    /// Bytes lost, and bytes put in.
    Slips,
}

/// Kinds by name, each with the rates at which it is tried.
const SETTINGS: [(&str, Kind, &[usize]); 6] = [
    ("bytes", Kind::Bytes { markers: true }, &[10_000, 1000, 300, 100, 50, 30, 20, 16, 12, 8]),
    ("words", Kind::Bytes { markers: false }, &[10_000, 1000, 300, 100, 50, 30, 20, 16, 12, 8]),
    ("slips", Kind::Slips, &[100_000, 10_000, 1000, 250, 100]),
    ("bursts-4", Kind::Bursts(4), &[10_000, 1000, 300, 100, 30, 8]),
    ("bursts-16", Kind::Bursts(16), &[10_000, 1000, 300, 100, 30, 8]),
    ("bursts-64", Kind::Bursts(64), &[10_000, 1000, 300, 100, 30, 8]),
];

pub fn run(words: &[&str]) -> i32 {
    let number = |text: &str| text.parse::<usize>().ok();
    let setting = |kind: &str, n: &str, seed: &str| Some((kind_named(kind)?, number(n).filter(|n| *n >= 2)?, number(seed)? as u64));
    match *words {
        ["day", count] => number(count).map(|count| output(&Day::new(1).lines(count))),
        ["day", count, seed] => number(count).zip(number(seed)).map(|(count, seed)| output(&Day::new(seed as u64).lines(count))),
        ["settings"] => {
            SETTINGS.iter().for_each(|(name, _, rates)| rates.iter().for_each(|n| println!("{name} {n}")));
            Some(())
        }
        ["air", kind, n, seed] => setting(kind, n, seed).map(|(kind, n, seed)| {
            let mut bytes = Vec::new();
            std::io::stdin().read_to_end(&mut bytes).expect("standard input");
            output(&Air::new(kind, n, &mut drawn(seed), &bytes).bytes);
        }),
        ["count", kind, n, seed, bids, sent, came, text] => match setting(kind, n, seed) {
            Some(setting) => return count(&format!("{kind} {n}"), setting, [bids, sent, came, text].map(|file| std::fs::read(file).expect(file))),
            None => None,
        },
        _ => None,
    }
    .map_or(2, |()| 0)
}

fn output(bytes: &[u8]) {
    std::io::stdout().write_all(bytes).expect("standard output");
}

fn kind_named(name: &str) -> Option<Kind> {
    SETTINGS.iter().find(|setting| setting.0 == name).map(|setting| setting.1)
}

/// Small seeds begin alike: the first numbers are left out.
pub fn drawn(seed: u64) -> Random {
    let mut random = Random::new(seed);
    random.bytes(100);
    random
}

// ---- a day

/// Bids on eight ports, each port's numbers rising by one.
pub struct Day {
    random: Random,
    next: [u16; 8],
}

impl Day {
    pub fn new(seed: u64) -> Self {
        let mut random = drawn(seed);
        let next = std::array::from_fn(|_| random.next() as u16);
        Day { random, next }
    }

    fn line(&mut self) -> String {
        let port = self.random.below(self.next.len());
        let sequence = self.next[port];
        self.next[port] = sequence.wrapping_add(1);
        format!("{} {sequence} {}\n", 1201 + port, self.text(port))
    }

    /// A price, or now and then a remark, with bytes that are escaped.
    fn text(&mut self, port: usize) -> String {
        const GRAINS: [&str; 8] = ["CORN 2YEL", "SOYBEANS 1YEL", "WHEAT 2SRW", "OATS 2WHT", "SORGHUM 2YEL", "WHEAT HRS 14.0", "BARLEY 2", "CANOLA 1"];
        let mut pick = |n: usize| self.random.below(n);
        let month = ["DEC", "MAR", "MAY", "JUL", "SEP", "NOV"][pick(6)];
        match pick(20) {
            0 => format!("TRUCKS HOLD UNTIL {:02}:{:02} {{MOISTURE ~{}.{}}}", 6 + pick(12), pick(60), 12 + pick(6), pick(10)),
            1 => format!("{} {month} NO BID", GRAINS[port]),
            _ => format!("{} {month} {}.{:02}{} ELEVATOR {}", GRAINS[port], 3 + pick(9), pick(100), ["00", "25", "50", "75"][pick(4)], 1 + pick(40)),
        }
    }

    pub fn lines(&mut self, count: usize) -> Vec<u8> {
        (0..count).map(|_| self.line()).collect::<String>().into_bytes()
    }
}

// ---- on the way

/// What comes in: each byte, and which of the sent ones it was; none: it was put in.
struct Air {
    bytes: Vec<u8>,
    from: Vec<Option<usize>>,
}

impl Air {
    fn new(kind: Kind, n: usize, random: &mut Random, sent: &[u8]) -> Self {
        let mut air = Air { bytes: Vec::new(), from: Vec::new() };
        let mut left = 0;
        for (i, byte) in sent.iter().enumerate() {
            let altered = match kind {
                Kind::Bytes { markers } => (markers || i % BLOCK >= MARKER.len()) && random.below(n) == 0,
                Kind::Bursts(length) => {
                    // of length · n bytes those of one burst are altered, on the whole
                    if left == 0 && random.below(length * (n - 1) + 1) == 0 {
                        left = length;
                    }
                    let within = left > 0;
                    left -= within as usize;
                    within
                }
                Kind::Slips if random.below(n) == 0 => {
                    if random.below(2) == 0 {
                        continue;
                    }
                    air.push(random.byte(), None);
                    false
                }
                Kind::Slips => false,
            };
            let other = if altered { 1 + random.below(255) as u8 } else { 0 };
            air.push(byte ^ other, Some(i));
        }
        air
    }

    fn push(&mut self, byte: u8, from: Option<usize>) {
        self.bytes.push(byte);
        self.from.push(from);
    }

    /// How many bytes were altered, lost and put in.
    fn hit(&self, sent: &[u8]) -> usize {
        let kept = self.from.iter().zip(&self.bytes).filter(|(from, byte)| from.is_some_and(|i| sent[i] == **byte)).count();
        let put_in = self.from.iter().filter(|from| from.is_none()).count();
        sent.len() - kept + put_in
    }
}

/// Noise of a drawn kind and rate, for a soak.
pub fn any(random: &mut Random, sent: &[u8]) -> Vec<u8> {
    let (_, kind, rates) = SETTINGS[random.below(SETTINGS.len())];
    let n = rates[random.below(rates.len())];
    Air::new(kind, n, random, sent).bytes
}

// ---- what is known of it

/// A word that a board hears: of which block (none: no block begins there), where it stands, how many of its bytes are others than were sent.
struct Heard {
    block: Option<usize>,
    at: usize,
    altered: usize,
}

fn heard(sent: &[u8], air: &Air) -> Vec<Heard> {
    let word = |at: usize| {
        let block = air.from[at - 1].filter(|i| i % BLOCK == MARKER.len() - 1).map(|i| i / BLOCK);
        let altered = block.map_or(WORD, |b| differing(&air.bytes[at..at + WORD], &sent[b * BLOCK + MARKER.len()..]));
        Heard { block, at, altered }
    };
    locked(&air.bytes).concat().into_iter().map(word).collect()
}

/// A bid that was sent: its line on a board, and where the flags before and behind it stand among the message bytes.
struct Bid {
    line: String,
    opens: usize,
    closes: usize,
}

fn bids_in(day: &[u8]) -> Vec<Bid> {
    let mut opens = 0;
    let sent = |line: &[u8]| {
        let (port, sequence, text) = bid(line).expect("a bid");
        let closes = opens + packet::escaped_packet(port, sequence, text, usize::MAX).expect("a bid that is sent").len();
        Bid { line: line_of(port, sequence, text), opens: std::mem::replace(&mut opens, closes), closes }
    };
    lines(day).into_iter().map(sent).collect()
}

/// What befell the words that a bid touches, those of both flags among them.
#[derive(Clone, Copy, PartialEq)]
enum Fate {
    /// One of them was not heard, or lock was lost between them.
    Unlocked,
    /// One of them has more altered bytes than are put right.
    Beyond,
    Mended,
}

struct Known {
    fate: Fate,
    /// In lock, and each of its bytes behind the opening flag came as it was sent.
    whole: bool,
}

fn known(bid: &Bid, sent: &[u8], air: &Air, by_block: &[Option<&Heard>]) -> Known {
    let words: Option<Vec<&Heard>> = (bid.opens / MESSAGE..=bid.closes / MESSAGE).map(|block| by_block[block]).collect();
    let Some(words) = words.filter(|words| words.windows(2).all(|pair| pair[1].at == pair[0].at + BLOCK)) else {
        return Known { fate: Fate::Unlocked, whole: false };
    };
    let fate = if words.iter().all(|word| word.altered <= MENDED) { Fate::Mended } else { Fate::Beyond };
    let came = |i: usize| by_block[i / MESSAGE].map(|word| air.bytes[word.at + i % MESSAGE]);
    let whole = (bid.opens + 1..=bid.closes).all(|i| came(i) == Some(sent[i / MESSAGE * BLOCK + MARKER.len() + i % MESSAGE]));
    Known { fate, whole }
}

// ---- what boards show

/// Our board's lines where no word is repaired.
fn as_came(stream: &[u8]) -> Vec<String> {
    let mut board = Board::new(false, false);
    for run in locked(stream) {
        board.drop_frame();
        board.hear(&message_bytes(stream, &run));
    }
    bid_lines(board.text.as_bytes())
}

fn model(stream: &[u8], checks: bool) -> Vec<String> {
    locked(stream).iter().flat_map(|run| unframed(&message_bytes(stream, run), checks)).collect()
}

/// Bids by their lines.
type Places<'a> = HashMap<&'a str, usize>;

/// Of each bid, whether it is among the lines shown; and how many lines are none, or one that was shown already.
fn shown_of(places: &Places, shown: &[String]) -> (Vec<bool>, usize) {
    let mut right = vec![false; places.len()];
    let wrong = shown.iter().filter(|line| places.get(line.as_str()).is_none_or(|bid| std::mem::replace(&mut right[*bid], true))).count();
    (right, wrong)
}

/// Bids shown right, lost, shown wrong, and swallowed by the one before: lost, though they came whole.
fn counts(places: &Places, all: &[Known], shown: &[String]) -> [usize; 4] {
    let (right, wrong) = shown_of(places, shown);
    let rights = right.iter().filter(|right| **right).count();
    let swallowed = right.iter().zip(all).filter(|(right, known)| !**right && known.whole).count();
    [rights, right.len() - rights, wrong, swallowed]
}

/// What our board tells of the words that it heard, one by one, and in which of them each wrong bid ends.
fn told<'a>(text: &'a str, places: &Places) -> (Vec<&'a str>, Vec<usize>) {
    let (mut blocks, mut wrong) = (Vec::new(), Vec::new());
    for line in text.lines() {
        match line.strip_prefix("! block ") {
            Some(told) => blocks.push(told),
            None if !line.starts_with('!') && !places.contains_key(line) => wrong.push(blocks.len() - 1),
            None => {}
        }
    }
    (blocks, wrong)
}

/// Whether this is told of a word as it should be; one with more altered bytes may come out as anything but unaltered.
fn is_told(word: &Heard, told: &str) -> bool {
    match word.altered {
        0 => told == "clean",
        n @ 1..=MENDED => told == format!("repaired {n}"),
        n => told != "clean" || n > ROOTS as usize,
    }
}

/// A day as it came in, with all that is known of it.
struct Run<'a> {
    bids: &'a [Bid],
    places: Places<'a>,
    sent: &'a [u8],
    air: &'a Air,
    heard: Vec<Heard>,
    known: Vec<Known>,
}

impl<'a> Run<'a> {
    fn new(bids: &'a [Bid], sent: &'a [u8], air: &'a Air) -> Self {
        let places: Places = bids.iter().enumerate().map(|(i, bid)| (bid.line.as_str(), i)).collect();
        assert_eq!(places.len(), bids.len(), "a bid was drawn twice");
        let heard = heard(sent, air);
        let mut by_block = vec![None; sent.len() / BLOCK];
        heard.iter().for_each(|word| word.block.into_iter().for_each(|block| by_block[block] = Some(word)));
        let known = bids.iter().map(|bid| known(bid, sent, air, &by_block)).collect();
        Run { bids, places, sent, air, heard, known }
    }

    /// The counts of the straight-copy board, of the framed one, of ours without repair, and of ours, whose text this is.
    fn boards(&self, text: &str) -> [[usize; 4]; 4] {
        let came = &self.air.bytes;
        let shown = [model(came, false), model(came, true), as_came(came), bid_lines(text.as_bytes())];
        shown.map(|shown| counts(&self.places, &self.known, &shown))
    }

    /// What does not hold of our board's text; and how many wrong bids passed their check, in words beyond repair.
    fn judge(&self, text: &str) -> (Vec<&'static str>, usize) {
        let (blocks, wrong) = told(text, &self.places);
        let (right, _) = shown_of(&self.places, &bid_lines(text.as_bytes()));
        // a wrong bid may have begun in the word before, and not further back: each message has a flag
        let damaged = |word: usize| self.heard[word.saturating_sub(1)..=word].iter().any(|word| word.altered > MENDED);
        let holds = [
            (board::of_stream(&self.air.bytes, true) == text, "the second program's board shows something else"),
            (
                blocks.len() == self.heard.len() && self.heard.iter().zip(&blocks).all(|(word, told)| is_told(word, told)),
                "how many bytes of a block were altered is told wrong",
            ),
            (
                self.known.iter().zip(&right).all(|(known, right)| known.fate != Fate::Mended || *right),
                "a bid is lost that touches neither a word beyond repair nor a lost lock",
            ),
            (wrong.iter().all(|word| damaged(*word)), "a wrong bid is shown, of words that were put right"),
        ];
        (holds.into_iter().filter(|(holds, _)| !holds).map(|(_, what)| what).collect(), wrong.len())
    }

    /// What was sent and hit: bids, bytes, bytes altered, lost and put in, blocks, words heard, the most altered bytes of one, those beyond repair,
    /// those of them that our board took for another word, locks lost, bids that touch a lost lock, others that touch a word beyond repair, frames
    /// that our board's check refused.
    fn numbers(&self, text: &str) -> [usize; 12] {
        let Run { bids, sent, air, heard, known, .. } = self;
        let most = heard.iter().filter(|word| word.block.is_some()).map(|word| word.altered).max().unwrap_or(0);
        let beyond = |word: &Heard| word.altered > MENDED;
        let (blocks, _) = told(text, &self.places);
        let mistaken = heard.iter().zip(blocks).filter(|(word, told)| beyond(word) && *told != "beyond repair").count();
        let beyond = heard.iter().filter(|word| beyond(word)).count();
        let such = |fate: Fate| known.iter().filter(|known| known.fate == fate).count();
        let lines = |line: &str| text.lines().filter(|other| *other == line).count();
        let (locks, refused) = (lines("! lock lost"), lines("! frame refused 5"));
        let (unlocked, touching) = (such(Fate::Unlocked), such(Fate::Beyond));
        [bids.len(), sent.len(), air.hit(sent), sent.len() / BLOCK, heard.len(), most, beyond, mistaken, locks, unlocked, touching, refused]
    }
}

fn count(name: &str, (kind, n, seed): (Kind, usize, u64), [day, sent, came, text]: [Vec<u8>; 4]) -> i32 {
    let air = Air::new(kind, n, &mut drawn(seed), &sent);
    assert!(air.bytes == came, "{name}: this is not the noise of that seed");
    let text = String::from_utf8(text).expect("the board's lines");
    let bids = bids_in(&day);
    let run = Run::new(&bids, &sent, &air);
    let numbers = [&run.numbers(&text)[..], &run.boards(&text).concat()].concat();
    println!("{name} {}", numbers.iter().map(usize::to_string).collect::<Vec<_>>().join(" "));
    let (broken, wrong) = run.judge(&text);
    broken.iter().for_each(|what| eprintln!("{name}: {what}"));
    if wrong > 0 {
        eprintln!("{name}: wrong bids that passed the check of 16 bits: {wrong}");
    }
    match (broken.is_empty(), wrong) {
        (false, _) => 1,
        (true, 0) => 0,
        (true, _) => 3,
    }
}

// ---- held to what is known without counting

/// The counts of all boards where these bytes of a day's stream are altered, each by itself; nothing may be broken.
fn counts_where(day: &[u8], altered: &[(usize, u8)]) -> [[usize; 4]; 4] {
    let sent = bids::sent(day).0;
    let mut bytes = sent.clone();
    altered.iter().for_each(|(at, byte)| bytes[*at] = *byte);
    let air = Air { from: (0..bytes.len()).map(Some).collect(), bytes };
    let (bids, text) = (bids_in(day), board::of_stream(&air.bytes, true));
    let run = Run::new(&bids, &sent, &air);
    assert_eq!(run.judge(&text), (vec![], 0));
    run.boards(&text)
}

/// One damage after the other, and what each board makes of it: right, lost, wrong, swallowed.
fn damages(day: &[u8]) {
    let bids = bids_in(day);
    let n = bids.len();
    let place = |i: usize| i / MESSAGE * BLOCK + MARKER.len() + i % MESSAGE;
    let all = [n, 0, 0, 0];
    assert_eq!(counts_where(day, &[]), [all; 4]);
    // a price, a flag, 7D before a flag
    let text = (place(bids[3].opens + 9), b'#');
    assert_eq!(counts_where(day, &[text]), [[n - 1, 1, 1, 0], [n - 1, 1, 0, 0], [n - 1, 1, 0, 0], all]);
    let flag = (place(bids[3].closes), b'#');
    assert_eq!(counts_where(day, &[flag]), [[n - 2, 2, 1, 1], [n - 2, 2, 0, 1], [n - 2, 2, 0, 1], all]);
    let hides = (place(bids[3].closes - 1), 0x7D);
    assert_eq!(counts_where(day, &[hides]), [[n - 2, 2, 1, 1], [n - 2, 2, 0, 1], [n - 1, 1, 0, 0], all]);
    // the same with sixteen bytes of that word's parity, and with fifteen
    let (block, sent) = (bids[3].closes / MESSAGE, bids::sent(day).0);
    let parity = |count: usize| (0..count).map(|i| (block + 1) * BLOCK - 1 - i).map(|at| (at, sent[at] ^ 1)).collect::<Vec<_>>();
    assert_eq!(counts_where(day, &[&[hides][..], &parity(16)].concat())[3], [n - 1, 1, 0, 0]);
    assert_eq!(counts_where(day, &[&[flag][..], &parity(16)].concat())[3], [n - 2, 2, 0, 1]);
    assert_eq!(counts_where(day, &[&[flag][..], &parity(15)].concat())[3], all);
    // a marker: what lies in its block, and what reaches into it
    let gone = bids.iter().filter(|bid| (bid.opens / MESSAGE..=bid.closes / MESSAGE).contains(&1)).count();
    assert_eq!(counts_where(day, &[(BLOCK, 0)]), [[n - gone, gone, 0, 0]; 4]);
}

/// Noise hits as many bytes as it should, bursts are whole, and markers are spared where they should be.
fn rates(random: &mut Random) {
    let sent = random.bytes(400 * BLOCK);
    for (name, kind, rates) in SETTINGS {
        let n = rates[rates.len() - 1];
        let air = Air::new(kind, n, random, &sent);
        let came = &air.bytes;
        let hit = air.hit(&sent) as f64 * n as f64 / sent.len() as f64;
        assert!((0.8..1.2).contains(&hit), "{name}: {hit}");
        let altered: Vec<bool> = air.from.iter().zip(came).map(|(from, byte)| from.is_some_and(|i| sent[i] != *byte)).collect();
        match kind {
            Kind::Bytes { markers } => assert_eq!((0..sent.len()).any(|i| altered[i] && i % BLOCK < MARKER.len()), markers),
            Kind::Bursts(length) => assert!(altered.split(|altered| !altered).rev().skip(1).all(|burst| burst.len() % length == 0)),
            Kind::Slips => assert!(!altered.contains(&true) && air.from.iter().flatten().is_sorted()),
        }
    }
}

/// Single damages; rates; and where every word is beyond repair, the board without repair shows what ours does.
pub fn test(seed: u64) -> usize {
    let mut random = drawn(seed);
    rates(&mut random);
    let day = Day::new(seed).lines(60);
    damages(&day);
    let (bids, sent) = (bids_in(&day), bids::sent(&day).0);
    for (_, kind, rates) in SETTINGS {
        for n in rates {
            let mut air = Air::new(kind, *n, &mut random, &sent);
            let text = board::of_stream(&air.bytes, true);
            assert_eq!(Run::new(&bids, &sent, &air).judge(&text).0, Vec::<&str>::new());
            let words = locked(&air.bytes).concat();
            words.iter().for_each(|at| air.bytes[at + MESSAGE..at + WORD].iter_mut().for_each(|byte| *byte ^= 0x55));
            assert_eq!(as_came(&air.bytes), bid_lines(board::of_stream(&air.bytes, false).as_bytes()));
        }
    }
    SETTINGS.iter().map(|setting| setting.2.len()).sum()
}
