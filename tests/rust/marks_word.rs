//! The marks of a record in one word, and the letters of such a word. 000 has no marks; the rule is written here by 01's sentence on marks and
//! by 02's K8, apart from the port and from the letters of listed.rs: it goes by the fields' widths and by a word's bits. It is held to
//! what is worked out by hand.
use crate::cut::Refused;

/// How many bytes each field after size has, in field order; the first begins at byte 4.
const WIDTHS: [usize; 14] = [4, 4, 4, 4, 4, 4, 4, 4, 4, 8, 4, 1, 8, 3];

/// Bytes that aren't zero, each with its offset.
type Filled = &'static [(usize, u8)];

/// Worked out by hand: the size of a record and its bytes that aren't zero, an age, the word, and its letters.
#[rustfmt::skip]
const BY_HAND: [(usize, Filled, usize, u32, &[u8; 14]); 20] = [
    // the least record, blank, and one that is filled, at the ends of the ages and at 52
    (0, &[], 16, 0x0fff_ffd5, b"BBBUUUUUUUUUUU"),
    (0, &[], 20, 0x0fff_ff15, b"BBBAUUUUUUUUUU"),
    (0, &[], 64, 0x0000_0015, b"BBBAAAAAAAAAAA"),
    (16, &[(4, 54), (11, 83), (14, 240)], 16, 0x0fff_ffea, b"FFFUUUUUUUUUUU"),
    (16, &[(4, 54), (11, 83), (14, 240)], 52, 0x0fc0_002a, b"FFFAAAAAAAAUUU"),
    (16, &[(4, 54), (11, 83), (14, 240)], 64, 0x0000_002a, b"FFFAAAAAAAAAAA"),
    // a size that ends in a field doesn't hold it, and one byte more may
    (19, &[(18, 1)], 64, 0x0000_0015, b"BBBAAAAAAAAAAA"),
    (20, &[(18, 1)], 64, 0x0000_0095, b"BBBFAAAAAAAAAA"),
    (47, &[(46, 1)], 48, 0x0ff1_5555, b"BBBBBBBBBAUUUU"),
    (48, &[(46, 1)], 48, 0x0ff9_5555, b"BBBBBBBBBFUUUU"),
    (48, &[(46, 1)], 40, 0x0ffd_5555, b"BBBBBBBBBUUUUU"),
    (60, &[(53, 1)], 61, 0x0c55_5555, b"BBBBBBBBBBBBAU"),
    (61, &[(53, 1)], 61, 0x0e55_5555, b"BBBBBBBBBBBBFU"),
    // every field, by its first byte and by its last, and bytes of none
    (64, &[(4, 1), (8, 1), (12, 1), (16, 1), (20, 1), (24, 1), (28, 1)], 64, 0x0555_6aaa, b"FFFFFFFBBBBBBB"),
    (64, &[(7, 1), (11, 1), (15, 1), (19, 1), (23, 1), (27, 1), (31, 1)], 64, 0x0555_6aaa, b"FFFFFFFBBBBBBB"),
    (64, &[(32, 1), (36, 1), (40, 1), (48, 1), (52, 1), (53, 1), (61, 1)], 64, 0x0aaa_9555, b"BBBBBBBFFFFFFF"),
    (64, &[(35, 1), (39, 1), (47, 1), (51, 1), (52, 1), (60, 1), (63, 1)], 64, 0x0aaa_9555, b"BBBBBBBFFFFFFF"),
    (64, &[(4, 1), (24, 1), (52, 128), (63, 1)], 53, 0x0f95_5956, b"FBBBBFBBBBBFUU"),
    (72, &[(64, 1), (71, 1)], 64, 0x0555_5555, b"BBBBBBBBBBBBBB"),
    (72, &[(36, 1), (71, 1)], 61, 0x0d56_5555, b"BBBBBBBBFBBBBU"),
];

/// The word of a whole record, of which all bytes are given and no other, for a reader of an age. Each field has two bits, imsi the lowest: 3
/// where it ends past the age; else 0 where the record ends before it does; else 1 where its bytes are all zero; else 2.
pub fn word(whole: &[u8], age: usize) -> u32 {
    let (mut word, mut start) = (0, 4);
    for (at, width) in WIDTHS.iter().enumerate() {
        let end = start + width;
        let mark = match whole.get(start..end) {
            _ if end > age => 3,
            None => 0,
            Some(field) if field.iter().all(|byte| *byte == 0) => 1,
            Some(_) => 2,
        };
        word |= mark << (2 * at);
        start = end;
    }
    word
}

/// The letters of a word, those of the lowest bits first; 12 where a bit from 28 up is set.
pub fn letters(word: u32) -> Result<[u8; 14], Refused> {
    let set = |bit: usize| word >> bit & 1 == 1;
    if (28..32).any(set) {
        return Err(Refused::with(12));
    }
    Ok(std::array::from_fn(|at| match (set(2 * at + 1), set(2 * at)) {
        (false, false) => b'A',
        (false, true) => b'B',
        (true, false) => b'F',
        (true, true) => b'U',
    }))
}

/// Holds the rule to what is worked out by hand.
pub fn held() {
    for (size, filled, age, expected, said) in BY_HAND {
        let mut bytes = vec![0; size.max(16)];
        bytes[0] = size as u8;
        filled.iter().for_each(|(at, byte)| bytes[*at] = *byte);
        assert_eq!(word(&bytes, age), expected, "the word of {bytes:x?} at {age}");
        assert_eq!(letters(expected), Ok(*said), "the letters of {expected:#x}");
    }
    for top in [0x1000_0000, 0x2000_0000, 0x4000_0000, 0x8000_0000, 0x1fff_ffff, 0xf000_0015, 0xffff_ffff] {
        assert_eq!(letters(top), Err(Refused::with(12)), "{top:#x}");
    }
}
