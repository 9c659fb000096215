//! Repair of words by the textbook: Berlekamp-Massey for the locator, a search for its roots, Forney's formula for the bytes.
//! A polynomial is its coefficients, the lowest first.

use crate::cases::Random;
use crate::parity::{self, power, times, WORD};

fn reciprocal(a: u8) -> u8 {
    (1..=255).find(|&b| times(a, b) == 1).expect("an element but zero")
}

fn evaluate(p: &[u8], x: u8) -> u8 {
    p.iter().rev().fold(0, |v, &c| times(v, x) ^ c)
}

/// The values at the roots, by sums of powers.
fn syndromes(r: usize, word: &[u8]) -> Vec<u8> {
    let powers: Vec<u8> = (0..255).map(power).collect();
    (1..=r).map(|j| (0..WORD).fold(0, |s, i| s ^ times(word[i], powers[j * (WORD - 1 - i) % 255]))).collect()
}

/// The shortest register that runs through the syndromes: its polynomial and its length.
fn register(s: &[u8]) -> (Vec<u8>, usize) {
    let (mut c, mut b) = (vec![1u8], vec![1u8]);
    let (mut length, mut since, mut last) = (0, 1, 1u8);
    for n in 0..s.len() {
        let d = (1..c.len().min(length + 1)).fold(s[n], |d, i| d ^ times(c[i], s[n - i]));
        if d == 0 {
            since += 1;
            continue;
        }
        let before = c.clone();
        let factor = times(d, reciprocal(last));
        c.resize(c.len().max(b.len() + since), 0);
        for (i, &x) in b.iter().enumerate() {
            c[i + since] ^= times(factor, x);
        }
        if 2 * length <= n {
            length = n + 1 - length;
            b = before;
            last = d;
            since = 1;
        } else {
            since += 1;
        }
    }
    (c, length)
}

/// The word with its altered bytes put right, where the register tells them.
fn corrected(r: usize, word: &[u8]) -> Option<Vec<u8>> {
    let s = syndromes(r, word);
    let (lambda, length) = register(&s);
    if length > r / 2 {
        return None;
    }
    let mut omega = vec![0u8; length];
    for (i, x) in omega.iter_mut().enumerate() {
        *x = (0..=i).fold(0, |t, k| t ^ times(s[i - k], *lambda.get(k).unwrap_or(&0)));
    }
    let derivative: Vec<u8> = (1..lambda.len()).map(|i| if i % 2 == 1 { lambda[i] } else { 0 }).collect();
    let (mut out, mut roots) = (word.to_vec(), 0);
    for (i, byte) in out.iter_mut().enumerate() {
        let x = power((255 - (WORD - 1 - i) as u64) % 255);
        if evaluate(&lambda, x) == 0 {
            roots += 1;
            let down = evaluate(&derivative, x);
            if down == 0 {
                return None;
            }
            *byte ^= times(evaluate(&omega, x), reciprocal(down));
        }
    }
    (roots == length).then_some(out)
}

/// Repairs a word in its place: in how many places, 0 of a clean word; none: it is beyond repair, and left as it came. Or the number of a
/// refusal.
pub fn repair(r: u64, word: &mut [u8]) -> Result<Option<usize>, u8> {
    if parity::check(r, word)? {
        return Ok(Some(0));
    }
    let Some(out) = corrected(r as usize, word) else {
        return Ok(None);
    };
    let changed = differing(word, &out);
    if changed > r as usize / 2 || !parity::check(r, &out)? {
        return Ok(None);
    }
    word.copy_from_slice(&out);
    Ok(Some(changed))
}

pub fn differing(a: &[u8], b: &[u8]) -> usize {
    a.iter().zip(b).filter(|(x, y)| x != y).count()
}

/// A clean word with bytes altered in so many places.
pub fn altered(random: &mut Random, r: usize, places: usize) -> (Vec<u8>, Vec<u8>) {
    let mut clean = random.bytes(WORD - r);
    clean.extend(parity::make(r as u64, &clean, r).unwrap());
    let mut word = clean.clone();
    while differing(&clean, &word) < places {
        let at = random.below(WORD);
        word[at] = random.byte();
    }
    (clean, word)
}

/// Whether one changed byte makes a word clean, by trying all.
pub fn one_byte_off(r: usize, word: &[u8]) -> bool {
    let s = syndromes(r, word);
    (0..WORD).any(|i| {
        let points: Vec<u8> = (1..=r).map(|j| power((j * (WORD - 1 - i) % 255) as u64)).collect();
        (1..=255u8).any(|e| (0..r).all(|j| s[j] == times(e, points[j])))
    })
}
