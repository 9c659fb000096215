//! Parity words: the parity by a shift register, the check by sums of powers.

pub const WORD: usize = 255;

/// The product of two elements: the bits of the plain product, reduced from the top.
pub const fn times(a: u8, b: u8) -> u8 {
    let mut p = 0u16;
    let mut i = 0;
    while i < 8 {
        if b >> i & 1 == 1 {
            p ^= (a as u16) << i;
        }
        i += 1;
    }
    while i > 0 {
        i -= 1;
        if p >> (i + 8) & 1 == 1 {
            p ^= 0x11D << i;
        }
    }
    p as u8
}

/// Alpha to the power e.
pub fn power(e: u64) -> u8 {
    (0..e % 255).fold(1, |p, _| times(p, 2))
}

/// The generator for r roots, the constant term first, without its leading 1.
fn generator(r: usize) -> Vec<u8> {
    let mut g = vec![1u8];
    for j in 1..=r {
        let a = power(j as u64);
        let mut next = vec![0u8; g.len() + 1];
        for (i, c) in g.iter().enumerate() {
            next[i + 1] ^= c;
            next[i] ^= times(a, *c);
        }
        g = next;
    }
    g.truncate(r);
    g
}

/// The parity of a message, or the number of a refusal.
pub fn make(r: u64, message: &[u8], space: usize) -> Result<Vec<u8>, u8> {
    if r > 64 {
        return Err(30);
    }
    let r = r as usize;
    if message.len() != WORD - r {
        return Err(31);
    }
    if space < r {
        return Err(23);
    }
    let g = generator(r);
    let mut register = vec![0u8; r];
    for b in message {
        if r == 0 {
            break;
        }
        let feedback = b ^ register[r - 1];
        for i in (0..r).rev() {
            let below = if i == 0 { 0 } else { register[i - 1] };
            register[i] = below ^ times(feedback, g[i]);
        }
    }
    register.reverse();
    Ok(register)
}

/// Whether a word is clean, or the number of a refusal.
pub fn check(r: u64, word: &[u8]) -> Result<bool, u8> {
    if r > 64 {
        return Err(30);
    }
    if word.len() != WORD {
        return Err(31);
    }
    let powers: Vec<u8> = (0..255).map(power).collect();
    Ok((1..=r as usize).all(|j| {
        let value = (0..WORD).fold(0, |s, i| s ^ times(word[i], powers[j * (WORD - 1 - i) % 255]));
        value == 0
    }))
}
