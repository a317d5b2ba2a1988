//! The index of a run, and finding a record in entries. 000 has no index; the rule is written here by 01's table and by 02's K9, apart from the port
//! and from 000's parse: it goes by the fields' widths, lays every record's key beside its offset, and sorts them. It is held to what is worked out by
//! hand.
use crate::cut::{refused, Refused};

/// How many bytes a key and an entry have, and how many entries an index has at the most.
pub const KEY: usize = 60;
pub const ENTRY: usize = 76;
pub const MOST: usize = 1024;

/// How the bytes of a field stand in a key.
#[derive(Clone, Copy)]
enum Laid {
    /// The byte that weighs most first.
    Word,
    AsStored,
    /// 1 where the byte isn't zero.
    YesOrNo,
}
use Laid::{AsStored, Word, YesOrNo};

/// The fields after size, in field order: how many bytes each has, and how they are laid; the first begins at byte 4.
const LAID: [(usize, Laid); 14] = [
    (4, Word),
    (4, Word),
    (4, Word),
    (4, Word),
    (4, Word),
    (4, Word),
    (4, Word),
    (4, Word),
    (4, AsStored),
    (8, AsStored),
    (4, Word),
    (1, YesOrNo),
    (8, AsStored),
    (3, AsStored),
];

/// How many of them are read whatever the size is.
const ALWAYS: usize = 3;

/// The size that the record at the front of some bytes declares.
fn size(bytes: &[u8]) -> usize {
    usize::from(bytes[0]) | usize::from(bytes[1]) << 8 | usize::from(bytes[2]) << 16 | usize::from(bytes[3]) << 24
}

/// The key of the record at the front of some bytes, which is whole. A field that ends past the size is zero, but for the first three.
pub fn key(bytes: &[u8]) -> [u8; KEY] {
    let (mut key, mut start) = ([0; KEY], 4);
    for (row, (width, laid)) in LAID.into_iter().enumerate() {
        let end = start + width;
        // the key has the fields as a record of 64 bytes has them behind its size
        let place = &mut key[start - 4..end - 4];
        if row < ALWAYS || end <= size(bytes) {
            place.copy_from_slice(&bytes[start..end]);
        }
        match laid {
            Word => place.reverse(),
            AsStored => {}
            YesOrNo => place[0] = u8::from(place[0] != 0),
        }
        start = end;
    }
    key
}

/// The records of the run at the front of some bytes, each with its key and its offset, up to the first that isn't whole.
fn keyed(bytes: &[u8]) -> Vec<([u8; KEY], usize)> {
    let (mut at, mut keyed) = (0, vec![]);
    while refused(&bytes[at..]).is_none() {
        keyed.push((key(&bytes[at..]), at));
        at += size(&bytes[at..]).max(16);
    }
    keyed
}

/// An entry.
fn entry(key: &[u8; KEY], offset: usize, count: usize) -> Vec<u8> {
    [&key[..], &(offset as u64).to_le_bytes(), &(count as u64).to_le_bytes()].concat()
}

/// The entries of the run at the front of some bytes: those of equal keys stand together once they are sorted, by their offsets. 5 where there
/// are too many.
pub fn index(bytes: &[u8]) -> Result<Vec<u8>, Refused> {
    let mut keyed = keyed(bytes);
    keyed.sort();
    let groups: Vec<_> = keyed.chunk_by(|a, b| a.0 == b.0).collect();
    if groups.len() > MOST {
        return Err(Refused::with(5));
    }
    Ok(groups.into_iter().flat_map(|alike| entry(&alike[0].0, alike[0].1, alike.len())).collect())
}

/// 0, or 1 + the place of the first whole entry that has the key of the record at the front of some bytes; or why no record stands there.
pub fn find(entries: &[u8], bytes: &[u8]) -> Result<usize, Refused> {
    match refused(bytes) {
        Some(why) => Err(why),
        None => Ok(entries.chunks_exact(ENTRY).position(|entry| entry.starts_with(&key(bytes))).map_or(0, |at| at + 1)),
    }
}

/// A record: its size, and bytes that aren't zero, by their offsets.
type Record = (usize, &'static [(usize, u8)]);

/// An entry: the bytes of its key that aren't zero, by their places there, its offset and its count.
type Entry = (&'static [(usize, u8)], usize, usize);

/// The records of a run, and its index, worked out by hand.
#[rustfmt::skip]
const BY_HAND: [(&[Record], &[Entry]); 6] = [
    (&[], &[]),
    // sizes don't count, nor bytes that no field holds: all of these are blank
    (&[(0, &[]), (16, &[]), (19, &[(16, 1), (18, 1)]), (47, &[(40, 1), (46, 1)]), (65, &[(64, 1)]), (60, &[(53, 1)])], &[(&[], 0, 6)]),
    // a word is turned round and weighs by its last byte; the records rise the other way than they stand
    (&[(16, &[(7, 1)]), (16, &[(6, 255)]), (16, &[(6, 1), (4, 9)]), (16, &[(4, 255)]), (16, &[(6, 255)])],
     &[(&[(3, 255)], 48, 1), (&[(1, 1), (3, 9)], 32, 1), (&[(1, 255)], 16, 2), (&[(0, 1)], 0, 1)]),
    // an array weighs by its first byte
    (&[(64, &[(36, 1)]), (64, &[(39, 255)]), (64, &[(53, 1)]), (64, &[(60, 255)]), (64, &[(61, 1)]), (64, &[(63, 255)])],
     &[(&[(59, 255)], 320, 1), (&[(57, 1)], 256, 1), (&[(56, 255)], 192, 1), (&[(49, 1)], 128, 1), (&[(35, 255)], 64, 1), (&[(32, 1)], 0, 1)]),
    // every yes is the same, and no comes before it
    (&[(53, &[(52, 255)]), (64, &[(52, 1)]), (53, &[(52, 128)]), (64, &[])], &[(&[], 170, 1), (&[(48, 1)], 0, 3)]),
    // the first byte of each field, and the last, at the least size that holds it: the word behind the variant is turned round too
    (&[(52, &[(4, 1), (11, 2), (12, 3), (19, 4), (20, 5), (27, 6), (28, 7), (35, 8), (36, 9), (47, 10), (48, 11)]),
       (51, &[(4, 1), (11, 2), (12, 3), (19, 4), (20, 5), (27, 6), (28, 7), (35, 8), (36, 9), (47, 10), (48, 11)])],
     &[(&[(3, 1), (4, 2), (11, 3), (12, 4), (19, 5), (20, 6), (27, 7), (28, 8), (32, 9), (43, 10)], 52, 1),
       (&[(3, 1), (4, 2), (11, 3), (12, 4), (19, 5), (20, 6), (27, 7), (28, 8), (32, 9), (43, 10), (47, 11)], 0, 1)]),
];

/// So many zeros but for some bytes.
fn filled(length: usize, bytes: &[(usize, u8)]) -> Vec<u8> {
    let mut filled = vec![0; length];
    bytes.iter().for_each(|(at, byte)| filled[*at] = *byte);
    filled
}

/// Holds the rule to what is worked out by hand: the index of each run, also with bytes behind it that are no record, and finding each entry.
pub fn held() {
    for (records, entries) in BY_HAND {
        let record = |(size, bytes): &Record| {
            let mut record = filled((*size).max(16), bytes);
            record[0] = *size as u8;
            record
        };
        let run: Vec<u8> = records.iter().flat_map(record).collect();
        let by_hand = |(key, offset, count): &Entry| {
            [filled(KEY, key), offset.to_le_bytes().to_vec(), count.to_le_bytes().to_vec()].concat()
        };
        let expected: Vec<u8> = entries.iter().flat_map(by_hand).collect();
        assert_eq!(index(&run), Ok(expected.clone()), "the index of {run:x?}");
        assert_eq!(
            index(&[&run[..], &[17; 16]].concat()),
            Ok(expected.clone()),
            "the index of {run:x?} and a cut record"
        );
        for (place, (_, offset, _)) in entries.iter().enumerate() {
            assert_eq!(find(&expected, &run[*offset..]), Ok(place + 1), "the record at {offset} of {run:x?}");
            assert_eq!(find(&expected[..place * ENTRY + ENTRY - 1], &run[*offset..]), Ok(0), "without its entry");
            assert_eq!(find(&[&expected[..], &expected].concat(), &run[*offset..]), Ok(place + 1), "doubled");
        }
    }
    let distinct = |count: usize| {
        (0..count).flat_map(|at| [[0; 4], (at as u32).to_le_bytes(), [0; 4], [0; 4]].concat()).collect::<Vec<_>>()
    };
    assert_eq!(index(&distinct(MOST)).map(|entries| entries.len()), Ok(MOST * ENTRY));
    assert_eq!(index(&distinct(MOST + 1)), Err(Refused::with(5)));
    assert_eq!(find(&[], &[17; 16]), Err(Refused { number: 2, carried: 4 }));
}
