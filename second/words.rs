//! Refusals in words, as the programs say them on standard error; docs/REFUSALS.md has the numbers.

/// `refused N: WORDS`.
pub fn refused(number: u8) -> String {
    format!("refused {number}: {}", words(number))
}

/// Why a call is refused.
pub fn words(number: u8) -> &'static str {
    match number {
        20 => "there is no text",
        21 => "the text is above 8,192 bytes, } and ~ counted twice",
        22 => "ports 32000 to 32511 may not be used",
        40 => "a seventeenth port",
        44 => "a number would pass 18,446,744,073,709,551,615",
        50 => "no unit has this length, or fewer bytes of it are there",
        51 => "no header sequence is for this mix of content",
        52 => "the header matches no sequence",
        53 => "the parts do not fit into the unit, or a length told does not fit its header",
        54 => "the delimiter is not found, or zeros before it would pass for it",
        60 => "the first 24 bytes are not those of a capture of ours",
        61 => "the record is cut short, or its two lengths differ",
        62 => "the record is no packet that would be sent",
        _ => panic!("the second program is not refused with {number}"),
    }
}
