//! The benchmark's program: 000 and the port in one process, each call made as often as the caller says.
//!
//!   cost list              the name of each case, a line each
//!   cost same              status 0 where port and Rust answer alike in every case
//!   cost SIDE CASE N       makes the case's call N times; SIDE is port or rust
//!
//! `main` is C's: the kit's emulator can't bear Rust's own start-up.
#![no_main]

mod marks;
mod named;
#[path = "../tests/rust/shim.rs"]
mod shim;
#[path = "../tests/rust/subject.rs"]
mod subject;

use std::ffi::{c_char, CStr};
use std::hint::black_box;
use subject::{reach, ResTableConfig};

unsafe extern "C" {
    fn probe_blank(bytes: *const u8, len: usize) -> bool;
    fn probe_text(bytes: *const u8, len: usize, out: *mut u8, room: usize) -> usize;
    fn probe_order(a: *const u8, a_len: usize, b: *const u8, b_len: usize) -> u32;
    fn res_table_config_marks(bytes: *const u8, len: usize, age: u32, out: *mut u8, cap: usize) -> u64;
    fn res_table_config_marks_word(bytes: *const u8, len: usize, age: u32) -> u64;
    fn res_table_config_marks_letters(word: u32, out: *mut u8, cap: usize) -> u64;
    fn res_table_config_named(name: *const u8, len: usize, out: *mut u8, cap: usize) -> u64;
}

/// A record of 64 bytes: what stands at which offset, and zero elsewhere.
type Parts = &'static [(usize, &'static [u8])];

const BLANK: Parts = &[(0, &[64])];
const SHORT: Parts = &[(0, &[64]), (8, b"en")];
const MIDDLE: Parts = &[(0, &[64]), (4, &[54, 1, 4, 0]), (8, b"enUS"), (12, &[1, 1, 224, 1]), (24, &[33])];
const LONGEST: Parts = &[
    (0, &[64, 0, 0, 0, 255, 255, 255, 255, 255, 255, 1, 128, 255, 255, 253, 255]),
    (16, &[255, 255, 13, 3, 255, 255, 255, 255, 255, 255, 255, 255, 82, 63, 255, 255]),
    (32, &[255; 16]),
    (48, &[1, 9, 0, 0, 0, 255, 255, 255, 255, 255, 255, 255, 255]),
];

/// mcc310-en-rUS-port-hdpi, a record of 16 bytes; the zeros behind it aren't its own.
const LEAST: Parts = &[(0, &[16]), (4, &[54, 1]), (8, b"enUS"), (12, &[1, 0, 240])];

/// The age at which the marks are asked for.
const AGE: u32 = 64;

/// What is called. The first three go from a record's bytes, so a parse counts in all of them, on both sides alike.
#[derive(Clone, Copy)]
enum Call {
    /// Parsing, and the record held against the one that holds nothing, so that every field is looked at.
    Parse,
    /// Parsing and text: the Rust's `String`, made and let go, beside the port's lent buffer.
    Text,
    /// Two parses and the order of their records; the second has 1 in the byte at this offset.
    Order(usize),
    /// The record's text as the name of a directory, read into the record: by hand in Rust, which gives its bytes, beside the port's lent buffer.
    Name,
    /// The marks of as many bytes as the record takes: by hand in Rust, which gives the letters, beside the port's lent buffer.
    Marks,
    /// The same marks in one word.
    Word,
    /// The letters of that word: a Rust array beside the port's lent buffer.
    Letters,
}

/// Each case: its name, its call, and the record.
const CASES: [(&str, Call, Parts); 16] = [
    ("parse", Call::Parse, BLANK),
    ("text-short", Call::Text, SHORT),
    ("text-middle", Call::Text, MIDDLE),
    ("text-longest", Call::Text, LONGEST),
    ("order-early", Call::Order(7), MIDDLE),
    ("order-late", Call::Order(63), MIDDLE),
    ("name", Call::Name, MIDDLE),
    ("marks-16", Call::Marks, LEAST),
    ("marks-middle", Call::Marks, MIDDLE),
    ("marks-longest", Call::Marks, LONGEST),
    ("word-16", Call::Word, LEAST),
    ("word-middle", Call::Word, MIDDLE),
    ("word-longest", Call::Word, LONGEST),
    ("letters-16", Call::Letters, LEAST),
    ("letters-middle", Call::Letters, MIDDLE),
    ("letters-longest", Call::Letters, LONGEST),
];

/// The bytes of a case's record, and those of its second one.
fn bytes_of(call: Call, parts: Parts) -> ([u8; 64], [u8; 64]) {
    let mut bytes = [0; 64];
    for (at, part) in parts {
        bytes[*at..*at + part.len()].copy_from_slice(part);
    }
    let mut second = bytes;
    if let Call::Order(at) = call {
        second[at] = 1;
    }
    (bytes, second)
}

/// As many of the bytes as the record takes.
fn own(bytes: &[u8; 64]) -> &[u8] {
    &bytes[..bytes[0].into()]
}

/// The word of the marks whose letters are asked for.
fn word(bytes: &[u8; 64]) -> u32 {
    marks::word(own(bytes), AGE).unwrap_or(0)
}

/// 000's parse of 64 bytes.
fn parse(bytes: &[u8; 64]) -> ResTableConfig {
    reach::parse(&mut &bytes[..]).expect("a whole record")
}

/// What the port's calls answer.
fn port_blank(a: &[u8; 64]) -> bool {
    unsafe { probe_blank(a.as_ptr(), 64) }
}

fn port_text(a: &[u8; 64], out: &mut [u8; 344]) -> usize {
    unsafe { probe_text(a.as_ptr(), 64, out.as_mut_ptr(), 344) }
}

fn port_order(a: &[u8; 64], b: &[u8; 64]) -> u32 {
    unsafe { probe_order(a.as_ptr(), 64, b.as_ptr(), 64) }
}

fn port_named(name: &[u8], out: &mut [u8; 64]) -> u64 {
    unsafe { res_table_config_named(name.as_ptr(), name.len(), out.as_mut_ptr(), 64) }
}

fn port_marks(bytes: &[u8], age: u32, out: &mut [u8; 14]) -> u64 {
    unsafe { res_table_config_marks(bytes.as_ptr(), bytes.len(), age, out.as_mut_ptr(), 14) }
}

fn port_word(bytes: &[u8], age: u32) -> u64 {
    unsafe { res_table_config_marks_word(bytes.as_ptr(), bytes.len(), age) }
}

fn port_letters(word: u32, out: &mut [u8; 14]) -> u64 {
    unsafe { res_table_config_marks_letters(word, out.as_mut_ptr(), 14) }
}

/// Makes a call n times, and has the compiler believe that somebody looks at what it gives.
fn times<A>(n: usize, mut call: impl FnMut() -> A) {
    for _ in 0..n {
        black_box(&call());
    }
}

/// Makes the Rust's call n times. It may be drawn into the loop, which the port's can't be.
fn rust_times(call: Call, parts: Parts, n: usize) {
    let (a, b) = bytes_of(call, parts);
    let blank = parse(&bytes_of(Call::Parse, BLANK).0);
    let (name, word) = (parse(&a).as_string(), word(&a));
    match call {
        Call::Parse => times(n, || parse(black_box(&a)) == blank),
        Call::Text => times(n, || parse(black_box(&a)).as_string()),
        Call::Order(_) => times(n, || parse(black_box(&a)).cmp(&parse(black_box(&b)))),
        Call::Name => times(n, || named::read(black_box(name.as_bytes()))),
        Call::Marks => times(n, || marks::letters(black_box(own(&a)), black_box(AGE))),
        Call::Word => times(n, || marks::word(black_box(own(&a)), black_box(AGE))),
        Call::Letters => times(n, || marks::of_word(black_box(word))),
    }
}

/// Makes the port's call n times.
fn port_times(call: Call, parts: Parts, n: usize) {
    let (a, b) = bytes_of(call, parts);
    let (mut out, mut record, mut letters) = ([0u8; 344], [0u8; 64], [0u8; 14]);
    let (name, word) = (parse(&a).as_string(), word(&a));
    match call {
        Call::Parse => times(n, || port_blank(black_box(&a))),
        Call::Text => times(n, || port_text(black_box(&a), black_box(&mut out))),
        Call::Order(_) => times(n, || port_order(black_box(&a), black_box(&b))),
        Call::Name => times(n, || port_named(black_box(name.as_bytes()), black_box(&mut record))),
        Call::Marks => times(n, || port_marks(black_box(own(&a)), black_box(AGE), black_box(&mut letters))),
        Call::Word => times(n, || port_word(black_box(own(&a)), black_box(AGE))),
        Call::Letters => times(n, || port_letters(black_box(word), black_box(&mut letters))),
    }
}

/// Whether port and Rust read a name alike: the record, or 11 and the offset where it isn't one.
fn same_named(name: &[u8]) -> bool {
    let mut out = [0; 64];
    let answer = port_named(name, &mut out);
    match named::read(name) {
        Ok(record) => answer == 64 && out == record,
        Err(at) => answer == 11 << 32 | at as u64 && out == [0; 64],
    }
}

/// A refusal of the marks as the port packs it.
fn packed(why: marks::Refusal) -> u64 {
    match why {
        marks::Refusal::TooFewBytes => 1 << 32,
        marks::Refusal::FieldCut(row) => 2 << 32 | row as u64,
        marks::Refusal::NotAnAge => 3 << 32,
        marks::Refusal::UndecodedCut => 8 << 32,
        marks::Refusal::TopBits => 12 << 32,
    }
}

/// Whether what the port answers, with what it wrote, is what the Rust gives: letters, or why there are none.
fn same_letters(answer: u64, out: [u8; 14], given: Result<[u8; 14], marks::Refusal>) -> bool {
    match given {
        Ok(letters) => answer == 14 && out == letters,
        Err(why) => answer == packed(why) && out == [0; 14],
    }
}

/// Whether port and Rust give the same marks of a record at every number up to 70, the ages among them, and of every front of its bytes: the letters, the
/// word and its letters, or why there are none.
fn same_marks(bytes: &[u8; 64]) -> bool {
    let alike = |front: &[u8], age| {
        let (mut out, mut of_word) = ([0; 14], [0; 14]);
        let (answer, word) = (port_marks(front, age, &mut out), port_word(front, age));
        same_letters(answer, out, marks::letters(front, age))
            && word == marks::word(front, age).map_or_else(packed, u64::from)
            && same_letters(port_letters(word as u32, &mut of_word), of_word, marks::of_word(word as u32))
    };
    (0..=64).all(|length| (0..=70).all(|age| alike(&bytes[..length], age)))
}

/// Whether they give the same letters of words that have one bit, every bit from 28 up among them.
fn same_bits() -> bool {
    (0..32).map(|bit| 1 << bit).all(|word| {
        let mut out = [0; 14];
        same_letters(port_letters(word, &mut out), out, marks::of_word(word))
    })
}

/// Whether port and Rust answer a case alike: whether it is blank, its text, the order both ways, the text read as a name, and its marks.
fn same(call: Call, parts: Parts) -> bool {
    let (a, b) = bytes_of(call, parts);
    let blank = parse(&bytes_of(Call::Parse, BLANK).0);
    let mut out = [0u8; 344];
    let written = port_text(&a, &mut out);
    let order = |x, y| parse(x).cmp(&parse(y)) as i32 + 1;
    port_blank(&a) == (parse(&a) == blank)
        && out[..written] == *parse(&a).as_string().as_bytes()
        && port_order(&a, &b) as i32 == order(&a, &b)
        && port_order(&b, &a) as i32 == order(&b, &a)
        && same_named(parse(&a).as_string().as_bytes())
        && same_marks(&a)
}

/// Does what the words say; 2 where they say nothing known, 1 where port and Rust differ.
fn run(words: &[&str]) -> i32 {
    match words {
        ["list"] => CASES.iter().for_each(|(name, _, _)| println!("{name}")),
        ["same"] => return (!same_bits() || CASES.iter().any(|(_, call, parts)| !same(*call, parts))) as i32,
        [side, name, n] => {
            let (Some((_, call, parts)), Ok(n)) = (CASES.iter().find(|case| case.0 == *name), n.parse()) else { return 2 };
            match *side {
                "port" => port_times(*call, parts, n),
                "rust" => rust_times(*call, parts, n),
                _ => return 2,
            }
        }
        _ => return 2,
    }
    0
}

#[unsafe(no_mangle)]
pub extern "C" fn main(count: i32, words: *const *const c_char) -> i32 {
    let words: Vec<&str> =
        (1..count as usize).map(|i| unsafe { CStr::from_ptr(*words.add(i)) }.to_str().unwrap_or("")).collect();
    run(&words)
}
