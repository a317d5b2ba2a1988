//! How many replacements the texts of 000 have. 000 doesn't say: counted are the errors that `std::str::from_utf8` finds in the bytes of
//! each subtag that it writes.
use crate::subject::{reach, ResTableConfig};

/// The character that stands for a replacement, and for itself where a record has it.
const SIGN: &str = "\u{fffd}";

/// How many maximal ill-formed subparts some bytes have.
pub fn in_bytes(bytes: &[u8]) -> usize {
    let (mut rest, mut count) = (bytes, 0);
    while let Err(error) = std::str::from_utf8(rest) {
        count += 1;
        // one that the end cuts short is the last
        rest = error.error_len().map_or(&[], |length| &rest[error.valid_up_to() + length..]);
    }
    count
}

/// The sum of what is counted in each subtag that 000 writes of a record, in the bytes that it writes them from.
fn summed(record: &ResTableConfig, count: fn(&[u8]) -> usize) -> usize {
    let [a, b, c, d] = record.locale.to_le_bytes();
    if a == 0 {
        return 0;
    }
    let (language, region) = (reach::language_bytes([a, b]), reach::region_bytes([c, d]));
    let (script, variant, numbering) = (&record.locale_script, &record.locale_variant, &record.locale_numbering_system);
    let subtags: [(bool, &[u8]); 5] = [
        (true, &language),
        (script[0] != 0 && !record.locale_script_was_computed, script),
        (c != 0, &region),
        (variant[0] != 0, variant),
        (numbering[0] != 0, numbering),
    ];
    subtags.iter().filter(|(there, _)| *there).map(|(_, bytes)| count(bytes)).sum()
}

/// How many replacements the text of a record has.
pub fn in_record(record: &ResTableConfig) -> usize {
    summed(record, in_bytes)
}

/// How often some bytes have the sign themselves. Its first byte stands in no other character behind the first.
fn stored(bytes: &[u8]) -> usize {
    bytes.windows(SIGN.len()).filter(|bytes| *bytes == SIGN.as_bytes()).count()
}

/// Holds a count to a text of 000: each sign there is a replacement, or one of those that its bytes have themselves.
fn held(count: usize, stored: usize, text: &str) -> usize {
    assert_eq!(count + stored, text.matches(SIGN).count(), "000 made another number of replacements in {text:?}");
    count
}

/// How many replacements a subtag of 000 has, held to its text.
pub fn held_in_subtag(bytes: &[u8], text: &str) -> usize {
    held(in_bytes(bytes), stored(bytes), text)
}

/// How many replacements a text of a record has, held to the text.
pub fn held_in_record(record: &ResTableConfig, text: &str) -> usize {
    held(in_record(record), summed(record, stored), text)
}
