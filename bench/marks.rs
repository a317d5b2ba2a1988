//! The marks of a record as one writes them by hand in Rust: each field is held to the age, to the record's size and to zero, which gives its mark, and
//! the fourteen marks become letters, or a word from which letters are made. 000 has no marks; the port's calls count beside these.

/// The fields after size, each from its start to its end.
const FIELDS: [(usize, usize); 14] = [
    (4, 8),
    (8, 12),
    (12, 16),
    (16, 20),
    (20, 24),
    (24, 28),
    (28, 32),
    (32, 36),
    (36, 40),
    (40, 48),
    (48, 52),
    (52, 53),
    (53, 61),
    (61, 64),
];

/// How many bytes every record takes at the least: the fields that end there are never absent.
const LEAST: usize = 16;

/// Why there are no marks, or no letters of a word.
#[derive(Clone, Copy)]
pub enum Refusal {
    NotAnAge,
    TooFewBytes,
    FieldCut(usize),
    UndecodedCut,
    TopBits,
}

/// What a field says.
#[derive(Clone, Copy)]
enum Mark {
    Absent,
    Blank,
    Filled,
    Unknown,
}

impl Mark {
    fn letter(self) -> u8 {
        match self {
            Mark::Absent => b'A',
            Mark::Blank => b'B',
            Mark::Filled => b'F',
            Mark::Unknown => b'U',
        }
    }
}

/// The size that the record at the front of some bytes declares, where it is whole.
fn whole(bytes: &[u8]) -> Result<usize, Refusal> {
    let Some(&[a, b, c, d]) = bytes.first_chunk().filter(|_| bytes.len() >= LEAST) else {
        return Err(Refusal::TooFewBytes);
    };
    let size = u32::from_le_bytes([a, b, c, d]) as usize;
    if size <= bytes.len() {
        return Ok(size);
    }
    Err(match FIELDS.iter().position(|(_, end)| (bytes.len() + 1..=size).contains(end)) {
        Some(at) => Refusal::FieldCut(at + 1),
        None => Refusal::UndecodedCut,
    })
}

/// The marks of the record at the front of some bytes for a reader of an age; drawn into both callers, so that neither pays for the array of marks.
#[inline(always)]
fn marks(bytes: &[u8], age: u32) -> Result<[Mark; 14], Refusal> {
    if !matches!(age, 16 | 20 | 24 | 28 | 32 | 36 | 40 | 48 | 52 | 53 | 61 | 64) {
        return Err(Refusal::NotAnAge);
    }
    let size = whole(bytes)?;
    Ok(std::array::from_fn(|at| {
        let (start, end) = FIELDS[at];
        if end > age as usize {
            Mark::Unknown
        } else if end > size.max(LEAST) {
            Mark::Absent
        } else if bytes[start..end].iter().all(|byte| *byte == 0) {
            Mark::Blank
        } else {
            Mark::Filled
        }
    }))
}

/// The marks as letters.
pub fn letters(bytes: &[u8], age: u32) -> Result<[u8; 14], Refusal> {
    Ok(marks(bytes, age)?.map(Mark::letter))
}

/// The marks in one word, two bits to each, the first lowest.
pub fn word(bytes: &[u8], age: u32) -> Result<u32, Refusal> {
    Ok(marks(bytes, age)?.iter().rev().fold(0, |word, mark| word << 2 | *mark as u32))
}

/// The letters of a word.
pub fn of_word(word: u32) -> Result<[u8; 14], Refusal> {
    if word >> 28 != 0 {
        return Err(Refusal::TopBits);
    }
    Ok(std::array::from_fn(|at| b"ABFU"[(word >> (2 * at) & 3) as usize]))
}
