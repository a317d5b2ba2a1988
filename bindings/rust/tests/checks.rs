//! The checks of the crate, as one program: it says each check's name as it begins, and a check that fails ends it by a panic.
//!
//! `main` is C's: the kit's emulator can't bear Rust's own start-up, nor libtest.
#![no_main]

#[path = "../examples/arsc.rs"]
mod arsc;
#[path = "checks/indexes.rs"]
mod indexes;
#[path = "../examples/list.rs"]
mod list;
#[path = "checks/types.rs"]
mod types;
#[path = "checks/words.rs"]
mod words;

use res_table_config::{aged_text, find, marks, marks_word, named, order, replaced, take, text, Refusal};
use res_table_config::{AGES, DEFAULT_AGE, FIELDS, MARKS, NAMED_SIZE, TEXT_MOST};
use std::cmp::Ordering;

/// 01's listing: a phone's record, a blank one, and three bytes that are none.
const RUN: &[u8; 35] = b"\x10\0\0\0\x36\x01\0\0enUS\x01\0\xf0\0\0\0\0\0\0\0\0\0\0\0\0\0\0\0\0\0\x01\x02\x03";
const GUARD: u8 = 0xa5;

/// A record of these bytes: its size, and one byte at an offset.
fn record(size: u8, at: usize, byte: u8) -> [u8; 80] {
    let mut bytes = [0; 80];
    (bytes[0], bytes[at]) = (size, byte);
    bytes
}

/// What a call that writes gives for a buffer of some length, which it must leave alone behind the text, and whole at a refusal.
fn written(cap: usize, call: impl Fn(&mut [u8]) -> Result<Vec<u8>, Refusal>) -> Result<Vec<u8>, Refusal> {
    let mut out = [GUARD; 400];
    let got = call(&mut out[..cap]);
    let behind = got.as_ref().map_or(0, Vec::len);
    assert_eq!(out[..behind], *got.as_deref().unwrap_or_default());
    assert!(out[behind..].iter().all(|byte| *byte == GUARD));
    got
}

fn plain(bytes: &[u8], cap: usize) -> Result<Vec<u8>, Refusal> {
    written(cap, |out| text(bytes, out).map(<[u8]>::to_vec))
}

fn aged(bytes: &[u8], age: u32, cap: usize) -> Result<Vec<u8>, Refusal> {
    written(cap, |out| aged_text(bytes, age, out).map(<[u8]>::to_vec))
}

fn takes() {
    assert_eq!(take(&[]), Err(Refusal::TooFewBytes));
    assert_eq!(take(&[0; 15]), Err(Refusal::TooFewBytes));
    assert_eq!(take(&[0; 16]), Ok(16));
    assert_eq!(take(&record(17, 4, 0)[..16]), Err(Refusal::UndecodedCut));
    assert_eq!(take(&record(17, 4, 0)[..17]), Ok(17));
    assert_eq!(take(&[255; 80]), Err(Refusal::UndecodedCut));
    assert_eq!(take(&[255; 63]), Err(Refusal::FieldCut(14)));
}

fn texts() {
    assert_eq!(plain(RUN, TEXT_MOST), Ok(b"mcc310-en-rUS-port-hdpi".to_vec()));
    assert_eq!(plain(RUN, 23), Ok(b"mcc310-en-rUS-port-hdpi".to_vec()));
    assert_eq!(plain(RUN, 22), Err(Refusal::ShortBuffer));
    assert_eq!(plain(&[0; 16], 0), Ok(vec![]));
    assert_eq!(plain(&[0; 15], TEXT_MOST), Err(Refusal::TooFewBytes));
    assert_eq!(plain(&record(17, 4, 0)[..16], 0), Err(Refusal::UndecodedCut));
    assert_eq!(plain(&record(65, 64, 1), TEXT_MOST), Ok(vec![]));
}

fn aged_texts() {
    let wide = record(36, 32, 100);
    assert_eq!(aged(&wide, 36, TEXT_MOST), Ok(b"w100dp".to_vec()));
    assert_eq!(aged(&wide, 36, 5), Err(Refusal::ShortBuffer));
    assert_eq!(aged(&wide, 32, 0), Err(Refusal::HeldBack));
    assert_eq!(aged(&wide[..35], 32, 0), Err(Refusal::FieldCut(8)));
    assert_eq!(aged(&[], 33, 0), Err(Refusal::NotAnAge));
    assert_eq!(aged(&record(65, 64, 1), 64, TEXT_MOST), Err(Refusal::HeldBack));
}

/// A record of 64 bytes with a locale: language and region, script, variant, numbering system.
fn spelled(letters: &[u8; 4], script: &[u8; 4], variant: &[u8; 8], numbering: &[u8; 8]) -> [u8; 80] {
    let mut bytes = record(64, 4, 0);
    bytes[8..12].copy_from_slice(letters);
    bytes[36..40].copy_from_slice(script);
    bytes[40..48].copy_from_slice(variant);
    bytes[53..61].copy_from_slice(numbering);
    bytes
}

fn all_replaced() {
    let damaged = spelled(b"\xff\xff\x01\x80", &[255; 4], &[255; 8], &[255; 8]);
    assert_eq!(replaced(&damaged, 64), Ok(24));
    assert_eq!(replaced(&damaged, 61), Ok(24));
    assert_eq!(replaced(&damaged, 53), Err(Refusal::HeldBack));
    assert_eq!(replaced(&damaged[..63], 53), Err(Refusal::FieldCut(14)));
    assert_eq!(replaced(&damaged[..15], 53), Err(Refusal::TooFewBytes));
    assert_eq!(replaced(&damaged[..15], 54), Err(Refusal::NotAnAge));
    assert_eq!(replaced(&damaged[..63], 54), Err(Refusal::NotAnAge));
    let mut computed = damaged;
    computed[52] = 1;
    assert_eq!(replaced(&computed, 64), Ok(20));
    assert_eq!(replaced(&spelled(b"\0\xff\x01\x80", &[255; 4], &[255; 8], &[255; 8]), 64), Ok(0));
    assert_eq!(replaced(&spelled(b"\xff\xff\0\0", &[0; 4], &[0; 8], &[0; 8]), 16), Ok(3));
    assert_eq!(replaced(&spelled(b"en\0\0", &[0; 4], b"\xef\xbf\xbd\0\0\0\0\0", &[0; 8]), 64), Ok(0));
    assert_eq!(replaced(&spelled(b"en\0\0", &[0; 4], b"\xe2\x82\0A\0\0\0\0", &[0; 8]), 64), Ok(1));
    assert_eq!(replaced(RUN, 64), Ok(0));
}

fn all_marks() {
    assert_eq!(marks(RUN, 64), Ok(*b"FFFAAAAAAAAAAA"));
    assert_eq!(marks(&record(36, 32, 100), 32), Ok(*b"BBBBBBBUUUUUUU"));
    assert_eq!(marks(&[], u32::MAX), Err(Refusal::NotAnAge));
    assert_eq!(marks(&[], 64), Err(Refusal::TooFewBytes));
    assert_eq!(MARKS, 14);
}

fn orders() {
    let (mcc, mnc) = (record(16, 4, 255), record(20, 6, 1));
    assert_eq!(order(&mcc, &mnc), Ok(Ordering::Less));
    assert_eq!(order(&mnc, &mcc), Ok(Ordering::Greater));
    assert_eq!(order(&[0; 16], &record(17, 4, 0)), Ok(Ordering::Equal));
    assert_eq!(order(&record(17, 4, 0)[..16], &[0; 15]), Err(Refusal::UndecodedCut));
    assert_eq!(order(&[0; 15], &record(17, 4, 0)[..16]), Err(Refusal::TooFewBytes));
    assert_eq!(order(&mcc, &[]), Err(Refusal::TooFewBytes));
}

/// Names that are taken, and bytes of their records that aren't zero, by offset.
const NAMES: [(&str, &[(usize, u8)]); 9] = [
    ("", &[]),
    ("mcc310-en-rUS-port-hdpi", &[(4, 54), (5, 1), (8, b'e'), (9, b'n'), (10, b'U'), (11, b'S'), (12, 1), (14, 240)]),
    ("mcc65535-mnc1", &[(4, 255), (5, 255), (6, 1)]),
    ("es-r419", &[(8, b'e'), (9, b's'), (10, 0xa4), (11, 0x24)]),
    ("car-night", &[(29, 0x23)]),
    ("sw600dp-w1dp-h65535dp", &[(30, 88), (31, 2), (32, 1), (34, 255), (35, 255)]),
    ("161dpi", &[(14, 161)]),
    ("0x65535-v0.1", &[(22, 255), (23, 255), (26, 1)]),
    ("v33", &[(24, 33)]),
];

/// Names that are refused, and the offset of the first part that ends none.
const NO_NAMES: [(&str, usize); 13] = [
    ("-en", 1),
    ("en-", 3),
    ("en--port", 3),
    ("hdpi-port", 5),
    ("port-port", 5),
    ("en-port-rUS", 8),
    ("b+en", 0),
    ("en-rus", 3),
    ("mcc01", 0),
    ("mnc65536", 0),
    ("0x0", 0),
    ("v0", 0),
    ("caf\u{e9}", 0),
];

fn names() {
    for (name, filled) in NAMES {
        let mut record = [0; NAMED_SIZE];
        record[0] = 64;
        for (at, byte) in filled {
            record[*at] = *byte;
        }
        assert_eq!(named(name.as_bytes()), Ok(record), "{name}");
        assert_eq!(plain(&record, TEXT_MOST), Ok(name.as_bytes().to_vec()));
    }
    for (name, at) in NO_NAMES {
        assert_eq!(named(name.as_bytes()), Err(Refusal::NotAName(at)), "{name}");
    }
    assert_eq!(named(&[b'-'; 70000]), Err(Refusal::NotAName(1)));
}

/// Records that aren't whole, worked out by hand from 01's table: a size, how many bytes there are, and the refusal.
const CUTS: [(u8, usize, Refusal); 23] = [
    (17, 16, Refusal::UndecodedCut),
    (19, 16, Refusal::UndecodedCut),
    (20, 16, Refusal::FieldCut(4)),
    (20, 19, Refusal::FieldCut(4)),
    (64, 16, Refusal::FieldCut(4)),
    (23, 20, Refusal::UndecodedCut),
    (255, 20, Refusal::FieldCut(5)),
    (28, 24, Refusal::FieldCut(6)),
    (32, 31, Refusal::FieldCut(7)),
    (36, 32, Refusal::FieldCut(8)),
    (40, 39, Refusal::FieldCut(9)),
    (47, 40, Refusal::UndecodedCut),
    (48, 40, Refusal::FieldCut(10)),
    (64, 40, Refusal::FieldCut(10)),
    (64, 47, Refusal::FieldCut(10)),
    (52, 48, Refusal::FieldCut(11)),
    (53, 52, Refusal::FieldCut(12)),
    (61, 53, Refusal::FieldCut(13)),
    (60, 53, Refusal::UndecodedCut),
    (64, 61, Refusal::FieldCut(14)),
    (65, 63, Refusal::FieldCut(14)),
    (65, 64, Refusal::UndecodedCut),
    (255, 79, Refusal::UndecodedCut),
];

fn cuts() {
    for (size, length, why) in CUTS {
        let bytes = &record(size, length - 1, 1)[..length];
        assert_eq!(take(bytes), Err(why));
        assert_eq!(plain(bytes, 0), Err(why));
        assert_eq!(order(bytes, &[0; 15]), Err(why));
        assert_eq!(order(bytes, &record(20, 4, 0)[..17]), Err(why));
        assert_eq!(order(&[0; 16], bytes), Err(why));
        assert_eq!(order(&[0; 15], bytes), Err(Refusal::TooFewBytes));
        assert_eq!(find(&[], bytes), Err(why));
        for age in [16, 20, 24, 28, 32, 36, 40, 48, 52, 53, 61, 64] {
            assert_eq!(aged(bytes, age, 0), Err(why));
            assert_eq!(replaced(bytes, age), Err(why));
            assert_eq!(marks(bytes, age), Err(why));
            assert_eq!(marks_word(bytes, age), Err(why));
        }
        assert_eq!(marks(bytes, 63), Err(Refusal::NotAnAge));
        assert_eq!(marks_word(bytes, 63), Err(Refusal::NotAnAge));
    }
}

fn refusals() {
    let all = [
        Refusal::TooFewBytes,
        Refusal::FieldCut(4),
        Refusal::NotAnAge,
        Refusal::HeldBack,
        Refusal::ShortBuffer,
        Refusal::UnreadField,
        Refusal::TooMuchInput,
        Refusal::UndecodedCut,
        Refusal::WrongType,
        Refusal::WrongSizes,
        Refusal::NotAName(5),
        Refusal::TopBits,
    ];
    assert_eq!(all.map(Refusal::number), [1, 2, 3, 4, 5, 6, 7, 8, 9, 10, 11, 12]);
    let why: Box<dyn std::error::Error> = Refusal::HeldBack.into();
    assert_eq!(why.to_string(), "held back: a byte past the age isn't zero");
    assert_eq!(Refusal::FieldCut(10).to_string(), "cut inside field 10, locale_variant");
    assert_eq!(Refusal::FieldCut(15).to_string(), "cut inside field 15, which no record has");
    assert_eq!(Refusal::UndecodedCut.to_string(), "no field is cut: only undecoded bytes are lacking");
    assert_eq!(Refusal::NotAName(5).to_string(), "not a directory name: the part at 5 ends none");
    assert_eq!(Refusal::TopBits.to_string(), "a bit from 28 up is set in the word of marks");
    assert_eq!((FIELDS[0], FIELDS[8], FIELDS[14]), ("size", "screen_size_dp", "end_padding"));
}

fn lists() {
    let phone = "0 0 16 mcc310-en-rUS-port-hdpi\n1 16 16 \n";
    assert_eq!(list::lines(RUN, None), format!("{phone}stopped at 32: {}\n", Refusal::TooFewBytes));
    assert_eq!(list::lines(&RUN[..32], Some(16)), format!("{phone}stopped at 32\n"));
    let held = list::lines(&record(36, 32, 100)[..36], Some(32));
    assert_eq!(held, "0 0 36 (held back: a byte past the age isn't zero)\nstopped at 36\n");
    assert_eq!(list::lines(&[], None), "stopped at 0\n");
    // a numbering system: 52 doesn't know it, and holds the record back
    let numbered = &spelled(b"ar\0\0", &[0; 4], &[0; 8], b"latn\0\0\0\0")[..64];
    assert_eq!(list::lines(numbered, Some(64)), "0 0 64 b+ar+u+nu+latn\nstopped at 64\n");
    let held = list::lines(numbered, Some(DEFAULT_AGE));
    assert_eq!(held, "0 0 64 (held back: a byte past the age isn't zero)\nstopped at 64\n");
    let cut = list::lines(&record(64, 4, 0)[..40], None);
    assert_eq!(cut, "stopped at 0: cut inside field 10, locale_variant\n");
}

/// Of all numbers to 200, and some that are an age in their lower bits, the twelve are ages.
fn ages() {
    let numbers = (0..=200).chain([256 + 64, 65536 + 52, u32::MAX]);
    for number in numbers {
        let refused = replaced(&[0; 16], number) == Err(Refusal::NotAnAge);
        assert_eq!(refused, !AGES.contains(&number), "{number}");
    }
    assert_eq!((AGES.len(), DEFAULT_AGE), (12, 52));
    assert_eq!(marks(RUN, DEFAULT_AGE), Ok(*b"FFFAAAAAAAAUUU"));
}

const CHECKS: [(&str, fn()); 23] = [
    ("ages", ages),
    ("take", takes),
    ("text", texts),
    ("aged text", aged_texts),
    ("replaced", all_replaced),
    ("marks", all_marks),
    ("words", words::of_records),
    ("refused words", words::refused),
    ("letters", words::letters),
    ("order", orders),
    ("index", indexes::of_runs),
    ("1,024 records", indexes::most),
    ("a long run", indexes::long_run),
    ("find", indexes::found),
    ("refused find", indexes::refused),
    ("names", names),
    ("cut", cuts),
    ("refusals", refusals),
    ("list", lists),
    ("types", types::types),
    ("refused types", types::refused_types),
    ("tables", types::tables),
    ("no tables", types::no_tables),
];

#[unsafe(no_mangle)]
pub extern "C" fn main() -> i32 {
    for (name, check) in CHECKS {
        println!("checks: {name}");
        check();
    }
    println!("checks: {} passed", CHECKS.len());
    0
}
