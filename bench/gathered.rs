//! The index of a run as one writes it by hand in Rust over 000's records: a map in the order of records, which then is written as entries. 000 has no
//! index; the port's calls count beside these.
use crate::subject::{reach, ResTableConfig};
use std::collections::BTreeMap;

/// How many bytes a key and an entry have, and how many entries an index has at the most.
pub const KEY: usize = 60;
pub const ENTRY: usize = 76;
pub const MOST: usize = 1024;

/// The key of a record.
fn key(record: &ResTableConfig) -> [u8; KEY] {
    let mut key = [0; KEY];
    let words = [
        record.imsi,
        record.locale,
        record.screen_type,
        record.generic_purpose_field,
        record.screen_size,
        record.version,
        record.screen_config,
        record.screen_size_dp,
    ];
    for (place, word) in key.chunks_exact_mut(4).zip(words) {
        place.copy_from_slice(&word.to_be_bytes());
    }
    key[32..36].copy_from_slice(&record.locale_script);
    key[36..44].copy_from_slice(&record.locale_variant);
    key[44..48].copy_from_slice(&record.screen_config_2.to_be_bytes());
    key[48] = record.locale_script_was_computed.into();
    key[49..57].copy_from_slice(&record.locale_numbering_system);
    key[57..60].copy_from_slice(&record.end_padding);
    key
}

/// Writes the index of the run that begins at the front of some bytes, and gives how many entries it has; nothing where they don't fit, or where
/// there are too many.
pub fn index(bytes: &[u8], out: &mut [u8]) -> Option<usize> {
    let mut held: BTreeMap<ResTableConfig, (usize, u64)> = BTreeMap::new();
    let (mut rest, mut at) = (bytes, 0);
    while let Some(record) = reach::parse(&mut rest) {
        held.entry(record).or_insert((at, 0)).1 += 1;
        at = bytes.len() - rest.len();
    }
    if held.len() > MOST || out.len() < ENTRY * held.len() {
        return None;
    }
    for (entry, (record, (offset, count))) in out.chunks_exact_mut(ENTRY).zip(&held) {
        entry[..KEY].copy_from_slice(&key(record));
        entry[KEY..KEY + 8].copy_from_slice(&(*offset as u64).to_le_bytes());
        entry[KEY + 8..].copy_from_slice(&count.to_le_bytes());
    }
    Some(held.len())
}

/// The place of the first entry that has the key of the record at the front of some bytes; nothing where none has. The record is whole.
pub fn find(entries: &[u8], mut bytes: &[u8]) -> Option<usize> {
    let key = key(&reach::parse(&mut bytes)?);
    entries.chunks_exact(ENTRY).position(|entry| entry[..KEY] == key)
}
