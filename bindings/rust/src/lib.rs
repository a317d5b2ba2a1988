//! Android's resource configuration records, the directory names that stand for them, and the type chunks of a resource table that hold
//! them, over the proved crate `res_table_config` (`include/res_table_config.h` is its C face).
//!
//! Fifteen functions: seven on records, [`marks_letters`] on words of marks, [`index`] and [`find`] on the index of a run, [`named`] on names and
//! four, which begin with `type_`, on type chunks; beside them [`entries`] reads what an index holds. Each takes every input: what it can't do it
//! refuses with a [`Refusal`], and a refusal writes nothing. Ages are plain numbers; twelve of them are [`AGES`].
//!
//! ```
//! let record = *b"\x10\0\0\0\x36\x01\0\0enUS\x01\0\xf0\0";
//! let mut out = [0; res_table_config::TEXT_MOST];
//! let text = res_table_config::text(&record, &mut out)?;
//! assert_eq!(text, b"mcc310-en-rUS-port-hdpi");
//! # Ok::<(), res_table_config::Refusal>(())
//! ```

mod indexes;
mod refusal;

pub use indexes::{entries, find, index, Entry, ENTRY_BYTES, INDEX_MOST, KEY_BYTES};
pub use refusal::Refusal;
use std::cmp::Ordering;

/// The twelve ages: the numbers of bytes up to which a reader may know a record.
pub const AGES: [u32; 12] = [16, 20, 24, 28, 32, 36, 40, 48, 52, 53, 61, 64];

/// The age that a listing takes where none is named: most reporters' tablets know a record up to there. The functions of this crate
/// always take an age.
pub const DEFAULT_AGE: u32 = 52;

/// How many bytes the longest text has: with as much room, [`text`], [`aged_text`] and [`type_aged_text`] never refuse with
/// [`Refusal::ShortBuffer`].
pub const TEXT_MOST: usize = 344;

/// How many marks a record has: one for each field after its size.
pub const MARKS: usize = 14;

/// How many bytes the record has that [`named`] gives.
pub const NAMED_SIZE: usize = 64;

/// The names of a record's fields, in the order of their offsets. A field's place here is its row, which [`Refusal::FieldCut`]
/// carries.
pub const FIELDS: [&str; 15] = [
    "size",
    "imsi",
    "locale",
    "screen_type",
    "generic_purpose_field",
    "screen_size",
    "version",
    "screen_config",
    "screen_size_dp",
    "locale_script",
    "locale_variant",
    "screen_config_2",
    "locale_script_was_computed",
    "locale_numbering_system",
    "end_padding",
];

mod face {
    unsafe extern "C" {
        pub fn res_table_config_take(bytes: *const u8, len: usize) -> u64;
        pub fn res_table_config_text(bytes: *const u8, len: usize, out: *mut u8, cap: usize) -> u64;
        pub fn res_table_config_aged_text(bytes: *const u8, len: usize, age: u32, out: *mut u8, cap: usize) -> u64;
        pub fn res_table_config_replaced(bytes: *const u8, len: usize, age: u32) -> u64;
        pub fn res_table_config_marks(bytes: *const u8, len: usize, age: u32, out: *mut u8, cap: usize) -> u64;
        pub fn res_table_config_marks_word(bytes: *const u8, len: usize, age: u32) -> u64;
        pub fn res_table_config_marks_letters(word: u32, out: *mut u8, cap: usize) -> u64;
        pub fn res_table_config_order(a: *const u8, a_len: usize, b: *const u8, b_len: usize) -> u64;
        pub fn res_table_config_index(bytes: *const u8, len: usize, out: *mut u8, cap: usize) -> u64;
        pub fn res_table_config_find(entries: *const u8, entries_len: usize, bytes: *const u8, len: usize) -> u64;
        pub fn res_table_config_named(name: *const u8, len: usize, out: *mut u8, cap: usize) -> u64;
        pub fn res_table_type_take(bytes: *const u8, len: usize) -> u64;
        pub fn res_table_type_head(bytes: *const u8, len: usize, out: *mut u8, cap: usize) -> u64;
        pub fn res_table_type_aged_text(bytes: *const u8, len: usize, age: u32, out: *mut u8, cap: usize) -> u64;
        pub fn res_table_type_marks(bytes: *const u8, len: usize, age: u32, out: *mut u8, cap: usize) -> u64;
    }
}

/// An answer of the C face: in the upper half a refusal's number, or 0; in the lower half what the refusal carries, or the amount.
fn told(answer: u64) -> Result<usize, Refusal> {
    let low = (answer & 0xffff_ffff) as usize;
    match (answer >> 32) as u32 {
        0 => Ok(low),
        number => Err(Refusal::of(number, low)),
    }
}

/// How many bytes the record at the front of `bytes` takes: its size, 16 at the least.
///
/// Refuses with [`Refusal::TooFewBytes`], and with [`Refusal::FieldCut`] or [`Refusal::UndecodedCut`] where it isn't whole.
///
/// ```
/// use res_table_config::{take, Refusal};
/// let mut record = [0; 65];
/// assert_eq!(take(&record), Ok(16));
/// assert_eq!(take(&record[..15]), Err(Refusal::TooFewBytes));
/// record[0] = 65;
/// assert_eq!(take(&record[..40]), Err(Refusal::FieldCut(10)));
/// assert_eq!(take(&record[..64]), Err(Refusal::UndecodedCut));
/// ```
pub fn take(bytes: &[u8]) -> Result<usize, Refusal> {
    // SAFETY: pointer and length are those of a slice that lives through the call.
    told(unsafe { face::res_table_config_take(bytes.as_ptr(), bytes.len()) })
}

/// Writes the text of the record at the front of `bytes` to the front of `out`, and gives it.
///
/// Refuses as [`take`] does, then with [`Refusal::ShortBuffer`].
///
/// ```
/// use res_table_config::{text, Refusal};
/// let record = *b"\x10\0\0\0\0\0\0\0sv\0\0\0\0\0\0";
/// assert_eq!(text(&record, &mut [0; 2]), Ok(&b"sv"[..]));
/// assert_eq!(text(&record, &mut [0; 1]), Err(Refusal::ShortBuffer));
/// ```
pub fn text<'a>(bytes: &[u8], out: &'a mut [u8]) -> Result<&'a [u8], Refusal> {
    // SAFETY: pointers and lengths are those of two slices that live through the call; out is borrowed alone.
    let answer = unsafe { face::res_table_config_text(bytes.as_ptr(), bytes.len(), out.as_mut_ptr(), out.len()) };
    told(answer).map(|written| &out[..written])
}

/// Writes the text of the record at the front of `bytes` for a reader of an age to the front of `out`, and gives it.
///
/// Refuses with [`Refusal::NotAnAge`], then as [`take`] does, then with [`Refusal::HeldBack`] and [`Refusal::ShortBuffer`].
///
/// ```
/// use res_table_config::{aged_text, Refusal, TEXT_MOST};
/// let mut record = [0; 36];
/// (record[0], record[32]) = (36, 100);
/// assert_eq!(aged_text(&record, 36, &mut [0; TEXT_MOST]), Ok(&b"w100dp"[..]));
/// assert_eq!(aged_text(&record, 32, &mut [0; TEXT_MOST]), Err(Refusal::HeldBack));
/// ```
pub fn aged_text<'a>(bytes: &[u8], age: u32, out: &'a mut [u8]) -> Result<&'a [u8], Refusal> {
    // SAFETY: as for text.
    let answer =
        unsafe { face::res_table_config_aged_text(bytes.as_ptr(), bytes.len(), age, out.as_mut_ptr(), out.len()) };
    told(answer).map(|written| &out[..written])
}

/// How many replacements the text has that [`aged_text`] writes: how often U+FFFD stands in it for bytes that are no UTF-8. One that
/// the record itself has isn't counted.
///
/// Refuses with [`Refusal::NotAnAge`], then as [`take`] does, then with [`Refusal::HeldBack`].
///
/// ```
/// use res_table_config::{replaced, Refusal};
/// let mut record = *b"\x10\0\0\0\0\0\0\0s\xff\0\0\0\0\0\0";
/// assert_eq!(replaced(&record, 64), Ok(1));
/// record[9] = b'v';
/// assert_eq!(replaced(&record, 64), Ok(0));
/// assert_eq!(replaced(&record, 65), Err(Refusal::NotAnAge));
/// ```
pub fn replaced(bytes: &[u8], age: u32) -> Result<usize, Refusal> {
    // SAFETY: as for take.
    told(unsafe { face::res_table_config_replaced(bytes.as_ptr(), bytes.len(), age) })
}

/// The marks of the record at the front of `bytes` for a reader of an age, a letter for each field after its size: `U` past the
/// age, `A` absent from the record, `B` blank, `F` filled.
///
/// Refuses with [`Refusal::NotAnAge`], then as [`take`] does.
///
/// ```
/// use res_table_config::{marks, Refusal};
/// assert_eq!(marks(&[0; 16], 20), Ok(*b"BBBAUUUUUUUUUU"));
/// assert_eq!(marks(&[0; 16], 17), Err(Refusal::NotAnAge));
/// ```
pub fn marks(bytes: &[u8], age: u32) -> Result<[u8; MARKS], Refusal> {
    let mut letters = [0; MARKS];
    // SAFETY: as for text; the array is the call's own.
    told(unsafe { face::res_table_config_marks(bytes.as_ptr(), bytes.len(), age, letters.as_mut_ptr(), MARKS) })?;
    Ok(letters)
}

/// The marks that [`marks`] gives, in one word: two bits to each field after the size, bits 0 and 1 to `imsi` and so on in the order of
/// [`FIELDS`]. `A` is 0, `B` 1, `F` 2 and `U` 3. The fourteen fields take bits 0 to 27, and those from 28 up are zero.
///
/// Refuses with [`Refusal::NotAnAge`], then as [`take`] does.
///
/// ```
/// use res_table_config::{marks_word, Refusal};
/// let record = *b"\x10\0\0\0\0\0\0\0sv\0\0\0\0\0\0";
/// let word = marks_word(&record, 64)?;
/// assert_eq!(word, 0b01_10_01); // imsi is blank, locale filled, screen_type blank, and all others are absent
/// let locale = word >> 2 & 3;
/// assert_eq!(locale, 2);
/// assert_eq!(marks_word(&record, 17), Err(Refusal::NotAnAge));
/// # Ok::<(), Refusal>(())
/// ```
pub fn marks_word(bytes: &[u8], age: u32) -> Result<u32, Refusal> {
    // SAFETY: as for take.
    let answer = unsafe { face::res_table_config_marks_word(bytes.as_ptr(), bytes.len(), age) };
    told(answer).map(|word| word as u32)
}

/// The letters of the marks in a word that [`marks_word`] gives: those that [`marks`] gives of the same record at the same age. Every word
/// below 2^28 has letters, also one that is of no record.
///
/// Refuses with [`Refusal::TopBits`].
///
/// ```
/// use res_table_config::{marks_letters, Refusal};
/// assert_eq!(marks_letters(0b01_10_01), Ok(*b"BFBAAAAAAAAAAA"));
/// assert_eq!(marks_letters(0x0fff_ffff), Ok([b'U'; 14]));
/// assert_eq!(marks_letters(0x1000_0000), Err(Refusal::TopBits));
/// ```
pub fn marks_letters(word: u32) -> Result<[u8; MARKS], Refusal> {
    let mut letters = [0; MARKS];
    // SAFETY: pointer and length are those of an array that is the call's own.
    told(unsafe { face::res_table_config_marks_letters(word, letters.as_mut_ptr(), MARKS) })?;
    Ok(letters)
}

/// How the record at the front of `a` stands to the one at the front of `b`, by every field but the size.
///
/// Refuses as [`take`] does of `a`, then of `b`.
///
/// ```
/// use res_table_config::order;
/// use std::cmp::Ordering;
/// let record = *b"\x10\0\0\0\0\0\0\0sv\0\0\0\0\0\0";
/// assert_eq!(order(&[0; 16], &record), Ok(Ordering::Less));
/// ```
pub fn order(a: &[u8], b: &[u8]) -> Result<Ordering, Refusal> {
    // SAFETY: pointers and lengths are those of two slices that live through the call.
    let answer = unsafe { face::res_table_config_order(a.as_ptr(), a.len(), b.as_ptr(), b.len()) };
    told(answer).map(|amount| amount.cmp(&1))
}

/// The record for which a directory name stands, as its bytes: its size is 64, everything that isn't named is zero, and its [`text`] is
/// the name again.
///
/// A name has no resource type in front. It is parts joined by single `-`, in the order of a record's text and at most one of each kind;
/// the empty name has none. Parts are the words of texts that carry no `=`, and these, in which no number has a leading zero:
///
/// | part | what it is |
/// |---|---|
/// | `mcc`N, `mnc`N, `sw`N`dp`, `w`N`dp`, `h`N`dp` | N from 1 to 65535 |
/// | `en`, `fil` | a language: two or three small letters, but not `car`, which is a UI type |
/// | `rUS`, `r419` | right behind a language, a region: `r` and two capitals or three digits |
/// | N`dpi` | N from 1 to 65535, where no word stands for that density |
/// | N`x`M | each from 0 to 65535, not both 0 |
/// | `v`N, `v`N`.`M | N from 0 to 65535, M from 1 to 65535; `v0` only with a minor version |
///
/// Refuses with [`Refusal::NotAName`].
///
/// ```
/// use res_table_config::{named, text, Refusal, TEXT_MOST};
/// let record = named(b"en-rUS-port-hdpi")?;
/// assert_eq!(record[..16], *b"\x40\0\0\0\0\0\0\0enUS\x01\0\xf0\0");
/// assert_eq!(text(&record, &mut [0; TEXT_MOST]), Ok(&b"en-rUS-port-hdpi"[..]));
/// assert_eq!(named(b"en-hdpi-port"), Err(Refusal::NotAName(8)));
/// # Ok::<(), Refusal>(())
/// ```
pub fn named(name: &[u8]) -> Result<[u8; NAMED_SIZE], Refusal> {
    let mut record = [0; NAMED_SIZE];
    // SAFETY: as for text; the array is the call's own.
    told(unsafe { face::res_table_config_named(name.as_ptr(), name.len(), record.as_mut_ptr(), NAMED_SIZE) })?;
    Ok(record)
}

/// What the head of a type chunk says, as it is stored.
#[derive(Clone, Copy, Debug, PartialEq, Eq, Hash)]
pub struct Head {
    /// The type's number in its package.
    pub id: u8,
    /// The flags: 1 for entries that are stored sparsely, for example.
    pub flags: u8,
    /// How many entries there are.
    pub entry_count: u32,
    /// The offset in the chunk where they start. No call of this crate looks there.
    pub entries_start: u32,
}

/// How many bytes the type chunk at the front of `bytes` takes: its chunk size. The next chunk begins there.
///
/// Refuses with [`Refusal::TooFewBytes`], [`Refusal::WrongType`] and [`Refusal::WrongSizes`], then as [`take`] does of the record that begins at
/// byte 20 and has to lie within the header.
///
/// ```
/// use res_table_config::{type_take, Refusal};
/// let mut chunk = *b"\x01\x02\x24\0\x28\0\0\0\x07\0\0\0\x01\0\0\0\x24\0\0\0\x10\0\0\0\0\0\0\0sv\0\0\0\0\0\0\xff\xff\xff\xff";
/// assert_eq!(type_take(&chunk), Ok(40));
/// assert_eq!(type_take(&chunk[..39]), Err(Refusal::WrongSizes));
/// chunk[0] = 2;
/// assert_eq!(type_take(&chunk), Err(Refusal::WrongType));
/// ```
pub fn type_take(bytes: &[u8]) -> Result<usize, Refusal> {
    // SAFETY: as for take.
    told(unsafe { face::res_table_type_take(bytes.as_ptr(), bytes.len()) })
}

/// What the head of the type chunk at the front of `bytes` says.
///
/// Refuses as [`type_take`] does.
///
/// ```
/// let chunk = *b"\x01\x02\x24\0\x24\0\0\0\x07\0\0\0\x05\0\0\0\x24\0\0\0\x10\0\0\0\0\0\0\0sv\0\0\0\0\0\0";
/// let head = res_table_config::type_head(&chunk)?;
/// assert_eq!((head.id, head.flags, head.entry_count, head.entries_start), (7, 0, 5, 36));
/// # Ok::<(), res_table_config::Refusal>(())
/// ```
pub fn type_head(bytes: &[u8]) -> Result<Head, Refusal> {
    let mut head = [0; 10];
    // SAFETY: as for text; the array is the call's own.
    told(unsafe { face::res_table_type_head(bytes.as_ptr(), bytes.len(), head.as_mut_ptr(), head.len()) })?;
    let [id, flags, a, b, c, d, e, f, g, h] = head;
    let (entry_count, entries_start) = (u32::from_le_bytes([a, b, c, d]), u32::from_le_bytes([e, f, g, h]));
    Ok(Head { id, flags, entry_count, entries_start })
}

/// Writes the text of the record in the type chunk at the front of `bytes`, for a reader of an age, to the front of `out`, and gives it.
///
/// Refuses with [`Refusal::NotAnAge`], then as [`type_take`] does, then with [`Refusal::HeldBack`] and [`Refusal::ShortBuffer`]. Bytes of the
/// header behind the record never hold back.
///
/// ```
/// use res_table_config::{type_aged_text, TEXT_MOST};
/// let chunk = *b"\x01\x02\x24\0\x24\0\0\0\x07\0\0\0\x05\0\0\0\x24\0\0\0\x10\0\0\0\0\0\0\0sv\0\0\0\0\0\0";
/// assert_eq!(type_aged_text(&chunk, 64, &mut [0; TEXT_MOST]), Ok(&b"sv"[..]));
/// ```
pub fn type_aged_text<'a>(bytes: &[u8], age: u32, out: &'a mut [u8]) -> Result<&'a [u8], Refusal> {
    // SAFETY: as for text.
    let answer =
        unsafe { face::res_table_type_aged_text(bytes.as_ptr(), bytes.len(), age, out.as_mut_ptr(), out.len()) };
    told(answer).map(|written| &out[..written])
}

/// The marks of the record in the type chunk at the front of `bytes` for a reader of an age, as [`marks`] gives them of a record.
///
/// Refuses with [`Refusal::NotAnAge`], then as [`type_take`] does.
///
/// ```
/// use res_table_config::type_marks;
/// let chunk = *b"\x01\x02\x24\0\x24\0\0\0\x07\0\0\0\x05\0\0\0\x24\0\0\0\x10\0\0\0\0\0\0\0sv\0\0\0\0\0\0";
/// assert_eq!(type_marks(&chunk, 20), Ok(*b"BFBAUUUUUUUUUU"));
/// ```
pub fn type_marks(bytes: &[u8], age: u32) -> Result<[u8; MARKS], Refusal> {
    let mut letters = [0; MARKS];
    // SAFETY: as for marks.
    told(unsafe { face::res_table_type_marks(bytes.as_ptr(), bytes.len(), age, letters.as_mut_ptr(), MARKS) })?;
    Ok(letters)
}
