//! The checks of the functions on type chunks.

use super::{arsc, record, written, RUN};
use res_table_config::{type_aged_text, type_head, type_marks, type_take, Head, Refusal, DEFAULT_AGE};

/// A chunk of any type: its type, header size and chunk size, and what stands behind them, up to the chunk size.
fn chunk(kind: u16, header: u16, size: u32, behind: &[u8]) -> Vec<u8> {
    let mut bytes = [&kind.to_le_bytes()[..], &header.to_le_bytes(), &size.to_le_bytes(), behind].concat();
    bytes.resize(bytes.len().max(size as usize), 0xee);
    bytes
}

/// A type chunk with these sizes and a record; id, flags, entry count and entries start are those of HEAD.
fn type_chunk(header: u16, size: u32, record: &[u8]) -> Vec<u8> {
    chunk(0x0201, header, size, &[b"\x07\x01\xee\xee\x04\x03\x02\x01\xc0\xd0\xe0\xf0", record].concat())
}

const HEAD: Head = Head { id: 7, flags: 1, entry_count: 0x0102_0304, entries_start: 0xf0e0_d0c0 };

fn text_of_type(bytes: &[u8], age: u32, cap: usize) -> Result<Vec<u8>, Refusal> {
    written(cap, |out| type_aged_text(bytes, age, out).map(<[u8]>::to_vec))
}

pub fn types() {
    let phone = b"mcc310-en-rUS-port-hdpi".to_vec();
    for (header, size) in [(36, 36), (36, 90), (90, 90)] {
        let bytes = [type_chunk(header, size, &RUN[..16]), vec![0xee; 9]].concat();
        assert_eq!(type_take(&bytes), Ok(size as usize));
        assert_eq!(type_head(&bytes), Ok(HEAD));
        assert_eq!(type_marks(&bytes, 64), Ok(*b"FFFAAAAAAAAAAA"));
        assert_eq!(text_of_type(&bytes, 16, 23), Ok(phone.clone()));
        assert_eq!(text_of_type(&bytes, 64, 22), Err(Refusal::ShortBuffer));
        assert_eq!(text_of_type(&bytes, 65, 0), Err(Refusal::NotAnAge));
        assert_eq!(type_marks(&bytes, 0), Err(Refusal::NotAnAge));
    }
    let wide = type_chunk(60, 80, &record(36, 32, 100)[..36]);
    assert_eq!(text_of_type(&wide, 36, 6), Ok(b"w100dp".to_vec()));
    assert_eq!(text_of_type(&wide, 32, 0), Err(Refusal::HeldBack));
}

/// Type chunks that are refused, worked out by hand: how many bytes of one there are, its type, its sizes, its record's size, and why.
const REFUSED: [(usize, u16, u16, u32, u8, Refusal); 16] = [
    (0, 0x0201, 36, 36, 16, Refusal::TooFewBytes),
    (19, 0, 0, 0, 16, Refusal::TooFewBytes),
    (20, 0x0200, 0, 0, 16, Refusal::WrongType),
    (100, 0x0102, 36, 36, 16, Refusal::WrongType),
    (20, 0x0201, 36, 36, 16, Refusal::WrongSizes),
    (100, 0x0201, 19, 36, 16, Refusal::WrongSizes),
    (100, 0x0201, 37, 36, 64, Refusal::WrongSizes),
    (100, 0x0201, 36, 101, 64, Refusal::WrongSizes),
    (100, 0x0201, 20, u32::MAX, 16, Refusal::WrongSizes),
    (100, 0x0201, 20, 20, 16, Refusal::TooFewBytes),
    (100, 0x0201, 35, 100, 64, Refusal::TooFewBytes),
    (100, 0x0201, 36, 100, 64, Refusal::FieldCut(4)),
    (100, 0x0201, 60, 60, 64, Refusal::FieldCut(10)),
    (100, 0x0201, 83, 100, 65, Refusal::FieldCut(14)),
    (100, 0x0201, 84, 100, 65, Refusal::UndecodedCut),
    (100, 0x0201, 36, 36, 17, Refusal::UndecodedCut),
];

pub fn refused_types() {
    for (length, kind, header, size, of_record, why) in REFUSED {
        let mut bytes = type_chunk(header, size.min(100), &record(of_record, 4, 1));
        bytes[..2].copy_from_slice(&kind.to_le_bytes());
        bytes[4..8].copy_from_slice(&size.to_le_bytes());
        let bytes = &bytes[..length];
        assert_eq!(type_take(bytes), Err(why));
        assert_eq!(type_head(bytes), Err(why));
        for age in [16, 20, 24, 28, 32, 36, 40, 48, 52, 53, 61, 64] {
            assert_eq!(text_of_type(bytes, age, 0), Err(why));
            assert_eq!(type_marks(bytes, age), Err(why));
        }
        assert_eq!(text_of_type(bytes, 63, 0), Err(Refusal::NotAnAge));
        assert_eq!(type_marks(bytes, 63), Err(Refusal::NotAnAge));
    }
}

/// A table of one package that holds these chunks, behind a chunk of strings in each.
fn table(chunks: &[Vec<u8>]) -> Vec<u8> {
    let strings = chunk(0x0001, 8, 12, b"\x01\x02\x24\0");
    let inside = [&strings[..], &chunks.concat()].concat();
    let package = chunk(0x0200, 12, 12 + inside.len() as u32, &[b"\x01\0\0\0", &inside[..]].concat());
    let inside = [strings, package].concat();
    chunk(0x0002, 12, 12 + inside.len() as u32, &[b"\x01\0\0\0", &inside[..]].concat())
}

pub fn tables() {
    let blank = type_chunk(40, 44, &[0; 16]);
    let damaged = type_chunk(36, 36, b"\x10\0\0\0\0\0\0\0s\xff\0\0\0\0\0\0");
    let mut whole = table(&[
        chunk(0x0202, 16, 20, &[7; 12]),
        type_chunk(36, 48, &RUN[..16]),
        type_chunk(85, 85, &record(65, 64, 1)[..65]),
        blank,
        damaged,
        type_chunk(60, 60, &record(64, 4, 0)[..40]),
        type_chunk(19, 120, &RUN[..16]),
    ]);
    let expected = "68 7 16909060 mcc310-en-rUS-port-hdpi
116 7 16909060 (held back: a byte past the age isn't zero)
201 7 16909060 %-
245 7 16909060 s%EF%BF%BD
281 - - (cut inside field 10, locale_variant)
341 - - (the chunk's header size or chunk size can't be)
";
    assert_eq!(arsc::lines(&whole, 64), (expected.to_string(), Ok(())));
    // an age that knows less holds back what another shows
    let computed = table(&[type_chunk(84, 84, &record(64, 52, 1)[..64])]);
    assert_eq!(arsc::lines(&computed, 64).0, "48 7 16909060 %-\n");
    assert_eq!(arsc::lines(&computed, DEFAULT_AGE).0, "48 7 16909060 (held back: a byte past the age isn't zero)\n");
    // what stands behind the table isn't looked at
    whole.extend([1, 2, 3]);
    assert_eq!(arsc::lines(&whole, 64), (expected.to_string(), Ok(())));
}

/// Files that are no table: the list ends with a message, and the first lines stand.
pub fn no_tables() {
    let said = |file: &[u8]| arsc::lines(file, 64).1.expect_err("no table");
    assert_eq!(said(&[]), "at 0: fewer than the 8 bytes that every chunk begins with");
    assert_eq!(said(&chunk(0x0003, 8, 8, &[])), "at 0: a chunk of type 0x0003 and not a table, 0x0002");
    let whole = table(&[type_chunk(36, 36, &RUN[..16])]);
    for length in 8..whole.len() {
        let sizes = format!("header size 12 and chunk size {}", whole.len());
        assert_eq!(
            said(&whole[..length]),
            format!("at 0: a chunk of type 0x0002 with {sizes}, where {length} bytes are")
        );
    }
    let (list, ended) = arsc::lines(&table(&[type_chunk(36, 36, &RUN[..16]), vec![1, 2, 0, 0, 0, 0, 0, 0]]), 64);
    assert_eq!(list, "48 7 16909060 mcc310-en-rUS-port-hdpi\n");
    let sizes = "header size 0 and chunk size 0";
    assert_eq!(ended, Err(format!("at 84: a chunk of type 0x0201 with {sizes}, where 8 bytes are")));
    let (_, ended) = arsc::lines(&table(&[type_chunk(36, 36, &RUN[..16]), vec![1, 2, 8]]), 64);
    assert_eq!(ended, Err("at 84: fewer than the 8 bytes that every chunk begins with".into()));
}
