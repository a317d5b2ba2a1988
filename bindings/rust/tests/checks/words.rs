//! The checks of the marks in one word. Every word and every letter is worked out by hand from K8: `A` 0, `B` 1, `F` 2, `U` 3, imsi in the
//! two lowest bits. So a digit of a word has two marks: 5 is B B, 6 is F B, 9 is B F, a is F F, d is B U; the last digit's marks come first.

use super::{record, spelled, RUN};
use res_table_config::{marks, marks_letters, marks_word, Refusal, AGES};

/// At each of the twelve ages, the words of a blank record of 64 bytes and of one of 16.
const BLANKS: [(u32, u32); 12] = [
    (0x0fff_ffd5, 0x0fff_ffd5),
    (0x0fff_ff55, 0x0fff_ff15),
    (0x0fff_fd55, 0x0fff_fc15),
    (0x0fff_f555, 0x0fff_f015),
    (0x0fff_d555, 0x0fff_c015),
    (0x0fff_5555, 0x0fff_0015),
    (0x0ffd_5555, 0x0ffc_0015),
    (0x0ff5_5555, 0x0ff0_0015),
    (0x0fd5_5555, 0x0fc0_0015),
    (0x0f55_5555, 0x0f00_0015),
    (0x0d55_5555, 0x0c00_0015),
    (0x0555_5555, 0x0000_0015),
];

/// Words and their letters.
const LETTERS: [(u32, &[u8; 14]); 13] = [
    (0, b"AAAAAAAAAAAAAA"),
    (0x0555_5555, b"BBBBBBBBBBBBBB"),
    (0x0aaa_aaaa, b"FFFFFFFFFFFFFF"),
    (0x0fff_ffff, b"UUUUUUUUUUUUUU"),
    (1, b"BAAAAAAAAAAAAA"),
    (2, b"FAAAAAAAAAAAAA"),
    (4, b"ABAAAAAAAAAAAA"),
    (0x0400_0000, b"AAAAAAAAAAAAAB"),
    (0x0800_0000, b"AAAAAAAAAAAAAF"),
    (0x0fc0_002a, b"FFFAAAAAAAAUUU"),
    (0x0fd6_5559, b"BFBBBBBBFBBUUU"),
    (0x04e4_e4e4, b"ABFUABFUABFUAB"),
    (0x0b1b_1b1b, b"UFBAUFBAUFBAUF"),
];

/// The word of a record, with the letters that `marks` gives and those of the word.
fn held(bytes: &[u8], age: u32, word: u32, letters: &[u8; 14]) {
    assert_eq!(marks_word(bytes, age), Ok(word), "at {age}");
    assert_eq!(marks(bytes, age), Ok(*letters), "at {age}");
    assert_eq!(marks_letters(word), Ok(*letters), "{word:#x}");
}

pub fn of_records() {
    held(RUN, 52, 0x0fc0_002a, b"FFFAAAAAAAAUUU");
    held(RUN, 64, 0x0000_002a, b"FFFAAAAAAAAAAA");
    held(&record(36, 32, 100), 64, 0x0000_9555, b"BBBBBBBFAAAAAA");
    held(&record(36, 32, 100), 32, 0x0fff_d555, b"BBBBBBBUUUUUUU");
    // a size of 44 doesn't hold the variant
    held(&record(44, 43, 1), 64, 0x0001_5555, b"BBBBBBBBBAAAAA");
    // a record that is held back has marks, and the byte that holds this one back is of no field
    held(&record(65, 64, 1), 64, 0x0555_5555, b"BBBBBBBBBBBBBB");
    let numbered = spelled(b"sr\0\0", b"Latn", &[0; 8], b"\0\0\0\0\0\0\0\x01");
    held(&numbered, 52, 0x0fd6_5559, b"BFBBBBBBFBBUUU");
    held(&numbered, 61, 0x0e56_5559, b"BFBBBBBBFBBBFU");
    held(&numbered, 64, 0x0656_5559, b"BFBBBBBBFBBBFB");
    for (age, (long, short)) in AGES.into_iter().zip(BLANKS) {
        assert_eq!(marks_word(&record(64, 4, 0), age), Ok(long), "at {age}");
        assert_eq!(marks_word(&record(16, 4, 0), age), Ok(short), "at {age}");
        assert_eq!(marks_word(&record(16, 4, 0)[..16], age), Ok(short), "at {age}");
    }
}

pub fn refused() {
    let wide = record(36, 32, 100);
    assert_eq!(marks_word(&[], 65), Err(Refusal::NotAnAge));
    assert_eq!(marks_word(&wide[..35], u32::MAX), Err(Refusal::NotAnAge));
    assert_eq!(marks_word(&wide, 256 + 64), Err(Refusal::NotAnAge));
    assert_eq!(marks_word(&[], 64), Err(Refusal::TooFewBytes));
    assert_eq!(marks_word(&wide[..15], 16), Err(Refusal::TooFewBytes));
    assert_eq!(marks_word(&wide[..35], 16), Err(Refusal::FieldCut(8)));
    assert_eq!(marks_word(&record(65, 64, 1)[..64], 64), Err(Refusal::UndecodedCut));
}

pub fn letters() {
    for (word, letters) in LETTERS {
        assert_eq!(marks_letters(word), Ok(*letters), "{word:#x}");
        for bit in 28..32 {
            assert_eq!(marks_letters(word | 1 << bit), Err(Refusal::TopBits), "{word:#x}, bit {bit}");
        }
    }
    assert_eq!(marks_letters(u32::MAX), Err(Refusal::TopBits));
}
