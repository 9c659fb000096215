//! The check of RFC 1662, by the table of its appendix C.2, which is computed here.

static TABLE: [u16; 256] = table();

pub const fn table() -> [u16; 256] {
    let mut t = [0u16; 256];
    let mut b = 0;
    while b < 256 {
        let mut r = b as u16;
        let mut bit = 0;
        while bit < 8 {
            r = if r & 1 == 1 { (r >> 1) ^ 0x8408 } else { r >> 1 };
            bit += 1;
        }
        t[b] = r;
        b += 1;
    }
    t
}

/// The register after further bytes.
pub fn register_after(register: u16, bytes: &[u8]) -> u16 {
    bytes.iter().fold(register, |r, b| (r >> 8) ^ TABLE[((r ^ *b as u16) & 0xFF) as usize])
}

/// The check of bytes.
pub fn check(bytes: &[u8]) -> u16 {
    !register_after(0xFFFF, bytes)
}
