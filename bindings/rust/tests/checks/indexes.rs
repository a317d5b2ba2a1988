//! The checks of the index of a run. Keys, offsets and counts are worked out by hand from K9: in a key the bytes of a word are turned round, those of
//! an array stay, and the computed byte is 1 or 0.

use super::{record, spelled, written, RUN};
use res_table_config::{entries, find, index, Entry, Refusal, ENTRY_BYTES, INDEX_MOST, KEY_BYTES};

/// An entry: the bytes of its key that aren't zero, by their places there, its offset and its count.
fn entry(filled: &[(usize, u8)], offset: u64, count: u64) -> Entry {
    let mut key = [0; KEY_BYTES];
    filled.iter().for_each(|(at, byte)| key[*at] = *byte);
    Entry { key, offset, count }
}

/// The records of a run: a phone's, a blank one, a Serbian one in Latin script whose computed byte is 255, the same with 1 and in 70 bytes, the blank
/// one in 44 bytes with half a variant, mnc1, and the phone's again.
fn run() -> Vec<Vec<u8>> {
    let mut serbian = spelled(b"sr\0\0", b"Latn", b"\0\0\0\0\0\0\0\x07", b"digits\0\x09");
    (serbian[48], serbian[52], serbian[61], serbian[63]) = (5, 255, 1, 2);
    let mut longer = serbian;
    (longer[0], longer[52], longer[69]) = (70, 1, 3);
    vec![
        RUN[..16].to_vec(),
        RUN[16..32].to_vec(),
        serbian[..64].to_vec(),
        longer[..70].to_vec(),
        record(44, 43, 1)[..44].to_vec(),
        record(28, 6, 1)[..28].to_vec(),
        RUN[..16].to_vec(),
    ]
}

/// Its entries: the blank one, the Serbian one, the phone's, and mnc1, whose number is above that of mcc310.
fn expected() -> [Entry; 4] {
    let mut serbian = entry(&[(6, b'r'), (7, b's'), (43, 7), (47, 5), (48, 1), (56, 9), (57, 1), (59, 2)], 32, 2);
    serbian.key[32..36].copy_from_slice(b"Latn");
    serbian.key[49..55].copy_from_slice(b"digits");
    let phone = [(2, 1), (3, 54), (4, b'S'), (5, b'U'), (6, b'n'), (7, b'e'), (9, 240), (11, 1)];
    [entry(&[], 16, 2), serbian, entry(&phone, 0, 2), entry(&[(1, 1)], 210, 1)]
}

/// The bytes of entries.
fn laid(entries: &[Entry]) -> Vec<u8> {
    let bytes = |entry: &Entry| [&entry.key[..], &entry.offset.to_le_bytes(), &entry.count.to_le_bytes()].concat();
    entries.iter().flat_map(bytes).collect()
}

fn indexed(bytes: &[u8], cap: usize) -> Result<Vec<u8>, Refusal> {
    written(cap, |out| index(bytes, out).map(<[u8]>::to_vec))
}

pub fn of_runs() {
    let (run, expected) = (run().concat(), expected());
    assert_eq!((KEY_BYTES, ENTRY_BYTES, INDEX_MOST), (60, 76, 1024));
    for cap in [304, 305, 400] {
        assert_eq!(indexed(&run, cap), Ok(laid(&expected)), "{cap}");
    }
    for cap in 0..304 {
        assert_eq!(indexed(&run, cap), Err(Refusal::ShortBuffer), "{cap}");
    }
    assert_eq!(entries(&laid(&expected)).collect::<Vec<_>>(), expected);
    assert!(entries(&laid(&expected)).rev().eq(expected.into_iter().rev()));
    assert_eq!((entries(&[0; 75]).len(), entries(&[0; 151]).len(), entries(&[0; 152]).len()), (0, 1, 2));
    // behind the last whole record: too few bytes, and a cut record
    assert_eq!(indexed(&[&run[..], &[0; 15]].concat(), 400), Ok(laid(&expected)));
    assert_eq!(indexed(&[&run[..], &record(64, 4, 1)[..63]].concat(), 400), Ok(laid(&expected)));
    assert_eq!(indexed(&run[..47], 400), Ok(laid(&[entry(&[], 16, 1), Entry { count: 1, ..expected[2] }])));
    for none in [&[][..], &[0; 15], &[255; 80]] {
        assert_eq!(indexed(none, 0), Ok(vec![]));
        assert_eq!(indexed(none, 400), Ok(vec![]));
    }
}

/// So many distinct records of 16 bytes, which fall.
fn falling(count: u32) -> Vec<u8> {
    (0..count).rev().flat_map(|imsi| [[0; 4], imsi.to_le_bytes(), [0; 4], [0; 4]].concat()).collect()
}

pub fn most() {
    let mut out = vec![0xa5; ENTRY_BYTES * (INDEX_MOST + 1)];
    let all = falling(1024);
    let twice = [&all[..], &all].concat();
    let of_place = |place: usize| {
        let imsi = (place as u32).to_be_bytes();
        entry(&[(2, imsi[2]), (3, imsi[3])], 16 * (1023 - place as u64), 2)
    };
    let expected: Vec<_> = (0..1024).map(of_place).collect();
    assert_eq!(index(&twice, &mut out[..ENTRY_BYTES * INDEX_MOST]), Ok(&laid(&expected)[..]));
    assert_eq!(find(&out, &all), Ok(Some(1023)));
    assert!(out[ENTRY_BYTES * INDEX_MOST..].iter().all(|byte| *byte == 0xa5));
    out.fill(0xa5);
    assert_eq!(index(&twice, &mut out[..ENTRY_BYTES * INDEX_MOST - 1]), Err(Refusal::ShortBuffer));
    assert_eq!(index(&falling(1025), &mut out), Err(Refusal::ShortBuffer));
    assert!(out.iter().all(|byte| *byte == 0xa5));
}

/// Offsets and counts that take more than two bytes and more than one.
pub fn long_run() {
    let run = [&[0; 16 * 5000][..], &RUN[..16]].concat();
    let phone = Entry { offset: 80_000, count: 1, ..expected()[2] };
    let expected = [entry(&[], 0, 5000), phone];
    assert_eq!(indexed(&run, 2 * ENTRY_BYTES), Ok(laid(&expected)));
    assert!(entries(&laid(&expected)).eq(expected));
}

pub fn found() {
    let bytes = laid(&expected());
    for (record, place) in run().into_iter().zip([2, 0, 1, 1, 0, 3, 2]) {
        assert_eq!(find(&bytes, &record), Ok(Some(place)));
        assert_eq!(find(&bytes, &[&record[..], &[0xff; 9]].concat()), Ok(Some(place)));
        assert_eq!(find(&[&bytes[..], &bytes].concat(), &record), Ok(Some(place)));
        assert_eq!(find(&bytes[..ENTRY_BYTES * (place + 1)], &record), Ok(Some(place)));
        assert_eq!(find(&bytes[..ENTRY_BYTES * (place + 1) - 1], &record), Ok(None));
    }
    assert_eq!(find(&bytes, &record(16, 4, 1)), Ok(None));
    assert_eq!(find(&[], &[0; 16]), Ok(None));
    // any bytes: the key of a blank record is zeros, whatever stands behind it and before
    let zeros = [&[1; ENTRY_BYTES][..], &[0; KEY_BYTES], &[255; 16], &[0; 75]].concat();
    assert_eq!(find(&zeros, &[0; 16]), Ok(Some(1)));
    assert_eq!(find(&zeros[ENTRY_BYTES + 1..], &[0; 16]), Ok(None));
}

pub fn refused() {
    let bytes = laid(&expected());
    for entries in [&bytes[..], &[]] {
        assert_eq!(find(entries, &[]), Err(Refusal::TooFewBytes));
        assert_eq!(find(entries, &[0; 15]), Err(Refusal::TooFewBytes));
        assert_eq!(find(entries, &record(64, 4, 0)[..40]), Err(Refusal::FieldCut(10)));
        assert_eq!(find(entries, &record(28, 4, 0)[..27]), Err(Refusal::FieldCut(6)));
        assert_eq!(find(entries, &record(65, 64, 1)[..64]), Err(Refusal::UndecodedCut));
    }
}
