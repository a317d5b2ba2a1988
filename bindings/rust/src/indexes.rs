//! The index of a run: its distinct records, each with where it occurs first and how often.

use crate::{face, told, Refusal};

/// How many bytes a key has: the fourteen fields after a record's size, laid so that keys compare as their records do.
pub const KEY_BYTES: usize = 60;

/// How many bytes an entry has: a key, and eight each for the offset and the count.
pub const ENTRY_BYTES: usize = 76;

/// How many entries an index has at the most. With room for as many, [`index`] refuses only where more records are distinct.
pub const INDEX_MOST: usize = 1024;

/// An entry of an index.
#[derive(Clone, Copy, Debug, PartialEq, Eq, Hash)]
pub struct Entry {
    /// The fields after the size in the order of [`FIELDS`](crate::FIELDS): words as big-endian bytes, `locale_script_was_computed` as 1 or 0, the
    /// others as they are stored, and those that the record is too short to have as zeros. Keys compare as [`order`](crate::order) says of
    /// their records, and equal keys mean `Equal`.
    pub key: [u8; KEY_BYTES],
    /// Where in the run the record occurs first.
    pub offset: u64,
    /// How often it occurs there.
    pub count: u64,
}

impl Entry {
    /// The entry that some bytes are, zero where they lack.
    fn of(bytes: &[u8]) -> Entry {
        let mut rest = bytes.iter().copied();
        let key = std::array::from_fn(|_| rest.next().unwrap_or(0));
        let mut number = || u64::from_le_bytes(std::array::from_fn(|_| rest.next().unwrap_or(0)));
        Entry { key, offset: number(), count: number() }
    }
}

/// Writes the index of the run that begins at the front of `bytes` to the front of `out`, and gives it: an entry of [`ENTRY_BYTES`] for each distinct
/// record, in rising order; [`entries`] reads them. Two records are alike where [`order`](crate::order) says `Equal`.
///
/// A run is records end to end. It stops at its exact end, or at the first record that isn't whole: [`take`](crate::take), called for each record, says
/// where and why. An empty run has no entries, nor have bytes that begin with no whole record.
///
/// Refuses with [`Refusal::ShortBuffer`], where the entries don't fit `out`, and where there are more than [`INDEX_MOST`].
///
/// ```
/// use res_table_config::{entries, index, Refusal, ENTRY_BYTES, INDEX_MOST};
/// let (swedish, blank) = (*b"\x10\0\0\0\0\0\0\0sv\0\0\0\0\0\0", [0; 16]);
/// let run = [swedish, blank, swedish].concat();
/// let mut out = [0; ENTRY_BYTES * INDEX_MOST];
/// let index = index(&run, &mut out)?;
/// let found: Vec<_> = entries(index).map(|entry| (entry.offset, entry.count)).collect();
/// assert_eq!(found, [(16, 1), (0, 2)]);
/// # Ok::<(), Refusal>(())
/// ```
pub fn index<'a>(bytes: &[u8], out: &'a mut [u8]) -> Result<&'a [u8], Refusal> {
    // SAFETY: pointers and lengths are those of two slices that live through the call; out is borrowed alone.
    let answer = unsafe { face::res_table_config_index(bytes.as_ptr(), bytes.len(), out.as_mut_ptr(), out.len()) };
    told(answer).map(|count| &out[..count * ENTRY_BYTES])
}

/// The entries that some bytes are, in order; what stands behind the last whole one is none.
///
/// ```
/// use res_table_config::{entries, ENTRY_BYTES};
/// let bytes = [1; 2 * ENTRY_BYTES + 75];
/// assert_eq!(entries(&bytes).len(), 2);
/// assert!(entries(&bytes).all(|entry| entry.count == 0x0101_0101_0101_0101));
/// ```
pub fn entries(bytes: &[u8]) -> impl ExactSizeIterator<Item = Entry> + DoubleEndedIterator + '_ {
    bytes.chunks_exact(ENTRY_BYTES).map(Entry::of)
}

/// Finds the record at the front of `record` in the bytes of entries: the place of the first that has its key, counted from 0, if one has. In the
/// [`index`] of a run one has exactly where an `Equal` record is in the run. `entries` may be any bytes, also such as no run gives.
///
/// Refuses as [`take`](crate::take) does.
///
/// ```
/// use res_table_config::{find, index, Refusal, ENTRY_BYTES};
/// let (swedish, blank) = (*b"\x10\0\0\0\0\0\0\0sv\0\0\0\0\0\0", [0; 16]);
/// let mut out = [0; 2 * ENTRY_BYTES];
/// let entries = index(&[swedish, blank].concat(), &mut out)?;
/// assert_eq!(find(entries, &swedish), Ok(Some(1)));
/// assert_eq!(find(entries, b"\x10\0\0\0\0\0\0\0en\0\0\0\0\0\0"), Ok(None));
/// assert_eq!(find(entries, &swedish[..15]), Err(Refusal::TooFewBytes));
/// # Ok::<(), Refusal>(())
/// ```
pub fn find(entries: &[u8], record: &[u8]) -> Result<Option<usize>, Refusal> {
    // SAFETY: pointers and lengths are those of two slices that live through the call.
    let answer = unsafe { face::res_table_config_find(entries.as_ptr(), entries.len(), record.as_ptr(), record.len()) };
    told(answer).map(|amount| amount.checked_sub(1))
}
