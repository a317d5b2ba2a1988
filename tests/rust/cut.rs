//! Where bytes that hold no whole record are cut. 000 has one error for it; 01 and 02 have three numbers, and one of them carries a row. The
//! rule is written here apart from the port, over a table of its own, whose names and ends are those of 01's table under "The record".

/// The fifteen fields by their rows, each with its end; it starts where the one before it ends.
pub const FIELDS: [(&str, usize); 15] = [
    ("size", 4),
    ("imsi", 8),
    ("locale", 12),
    ("screen_type", 16),
    ("generic_purpose_field", 20),
    ("screen_size", 24),
    ("version", 28),
    ("screen_config", 32),
    ("screen_size_dp", 36),
    ("locale_script", 40),
    ("locale_variant", 48),
    ("screen_config_2", 52),
    ("locale_script_was_computed", 53),
    ("locale_numbering_system", 61),
    ("end_padding", 64),
];

/// Where each of them ends.
pub const ENDS: [usize; FIELDS.len()] = {
    let (mut ends, mut row) = ([0; FIELDS.len()], 0);
    while row < FIELDS.len() {
        ends[row] = FIELDS[row].1;
        row += 1;
    }
    ends
};

/// How many bytes every record takes at the least.
const LEAST: usize = 16;

/// A refusal: its number, and what it carries beside it, 0 where that is nothing.
#[derive(Clone, Copy, Debug, PartialEq)]
pub struct Refused {
    pub number: u32,
    pub carried: u64,
}

impl Refused {
    /// A refusal that carries nothing.
    pub const fn with(number: u32) -> Refused {
        Refused { number, carried: 0 }
    }
}

/// The size that bytes declare, where there are four of them.
fn declared(bytes: &[u8]) -> Option<u64> {
    let [a, b, c, d] = *bytes.first_chunk()?;
    Some([d, c, b, a].iter().fold(0, |size, byte| size * 256 + u64::from(*byte)))
}

/// Why bytes hold no whole record at their front, or nothing where they do: 1 where there are fewer than sixteen; 2 with the row of the
/// first field that the declared size holds and that ends past the bytes; 8 where there is no such field, and still bytes are lacking.
pub fn refused(bytes: &[u8]) -> Option<Refused> {
    let there = bytes.len();
    let size = declared(bytes).filter(|_| there >= LEAST);
    let Some(size) = size else { return Some(Refused::with(1)) };
    if size <= there as u64 {
        return None;
    }
    Some(match ENDS.iter().position(|end| *end as u64 <= size && *end > there) {
        Some(row) => Refused { number: 2, carried: row as u64 },
        None => Refused::with(8),
    })
}
