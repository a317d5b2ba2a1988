//! What the count of replacements is asked about: subtags that are damaged, that hold the sign of a replacement themselves, and that aren't
//! written.
use crate::listed::taken;
use crate::payloads::{declare, many, one, Maker};
use crate::questions::Random;
use crate::replaced::in_record;
use crate::spellings::{empty, ground, COMPUTED, SUBTAGGED};

/// Records with such a locale.
pub const SPOILT: &[Maker] = &[counted_by_hand, well_formed, damaged];

/// Such bytes for a subtag.
pub const PIECES: &[Maker] = &[pieces];

/// A locale: language with region, script, variant, whether the script was computed, numbering system.
type Locale = (&'static [u8; 4], &'static [u8; 4], &'static [u8], u8, &'static [u8]);

/// No script, and bytes that are each replaced.
const NO_SCRIPT: &[u8; 4] = &[0; 4];
const BAD: &[u8; 8] = &[0xff; 8];

/// Locales, each with the number of its replacements, counted by hand.
#[rustfmt::skip]
const BY_HAND: [(Locale, usize); 26] = [
    ((b"enUS", b"Latn", b"posix", 0, b"arab"), 0),
    ((b"e\xffUS", NO_SCRIPT, b"", 0, b""), 1),
    ((b"\xff\xff\0\0", NO_SCRIPT, b"", 0, b""), 3),
    // a region is two bytes, of which the first is ASCII, or three letters that are
    ((b"en\x01\x80", NO_SCRIPT, b"", 0, b""), 1),
    ((b"en\xff\xff", NO_SCRIPT, b"", 0, b""), 0),
    // the most, the same with a computed script, and with no language
    ((b"\xff\xff\x01\x80", b"\xff\xff\xff\xff", BAD, 0, BAD), 24),
    ((b"\xff\xff\x01\x80", b"\xff\xff\xff\xff", BAD, 1, BAD), 20),
    ((b"\0\xff\x01\x80", b"\xff\xff\xff\xff", BAD, 0, BAD), 0),
    // what doesn't begin isn't written
    ((b"en\0\x80", NO_SCRIPT, b"", 0, b""), 0),
    ((b"en\0\0", b"\0\xff\xff\xff", b"", 0, b""), 0),
    ((b"en\0\0", NO_SCRIPT, b"\0\xff", 0, b"\0\xff"), 0),
    ((b"en\0\0", b"\0\xff\xff\xff", b"\xff", 0, b"\0\xff"), 1),
    // a character cut by a NUL, by the end, and in two by a field's end
    ((b"en\0\0", b"\xe2\x82\0A", b"", 0, b""), 1),
    ((b"en\0\0", NO_SCRIPT, b"\xe2\x82\0A", 0, b""), 1),
    ((b"en\0\0", NO_SCRIPT, b"\xf0\x90\x8d\x88A\xf0\x90\x8d", 0, b""), 1),
    ((b"en\0\0", b"AA\xe2\x82", b"\xac", 0, b""), 2),
    ((b"en\0\0", b"AA\xef\xbf", b"\xbd", 0, b""), 2),
    // the sign itself, alone and beside what is replaced
    ((b"en\0\0", NO_SCRIPT, b"\xef\xbf\xbd", 0, b""), 0),
    ((b"en\0\0", b"\xef\xbf\xbd\xff", b"", 0, b""), 1),
    ((b"en\0\0", NO_SCRIPT, b"\xef\xbf\xbd\xef\xbf\xbd\xef\xbf", 0, b""), 1),
    ((b"\xff\xff\0\0", b"\xef\xbf\xbdA", b"\xef\xbf\xbd", 0, b"A\xef\xbf\xbd\x80\xef\xbf\xbd"), 4),
    // two that are too long, a surrogate, one that is too high, and what no character begins with
    ((b"en\0\0", NO_SCRIPT, b"\xc0\xaf", 0, b""), 2),
    ((b"en\0\0", NO_SCRIPT, b"\xe0\x80\xaf", 0, b""), 3),
    ((b"en\0\0", NO_SCRIPT, b"\xed\xa0\x80", 0, b""), 3),
    ((b"en\0\0", NO_SCRIPT, b"", 0, b"A\xf4\x90\x80\x80"), 4),
    ((b"en\0\0", NO_SCRIPT, b"A\xbf\xf5\xfe", 0, b""), 3),
];

/// What subtags are joined of: characters of each length, the sign among them, and what is replaced, some of it the front of a character.
const WHOLE: [&[u8]; 7] =
    [b"\0", b"A", "é".as_bytes(), "€".as_bytes(), "\u{fffd}".as_bytes(), "\u{fffd}".as_bytes(), "𐍈".as_bytes()];
const BROKEN: [&[u8]; 9] = [
    b"\xef\xbf",
    b"\xef",
    b"\xbd",
    b"\xff",
    b"\xe2\x82",
    b"\xf0\x90\x8d",
    b"\xc0\x80",
    b"\xed\xa0\x80",
    b"\xf4\x90\x80\x80",
];

/// Languages and regions: those that files have, and then those that are damaged or don't begin.
const LANGUAGES: [[u8; 2]; 7] = [*b"en", *b"sr", [0xad, 0x05], [b'e', 0xef], [0xff, 0xff], [0x80, 0x1f], [0, 0xff]];
const REGIONS: [[u8; 2]; 7] = [[0, 0], *b"US", [0xa4, 0x24], [b'U', 0xef], [1, 0x80], [0x7f, 0xff], [0, 0x80]];
const OF_FILES: usize = 3;

/// Sizes that hold none, some and all of the subtags.
const SIZES: [usize; 10] = [16, 39, 40, 44, 48, 53, 60, 61, 64, 72];

/// The locales that are counted by hand, each in a record of 64 bytes that says nothing else. The oracle's own count is held to theirs.
pub fn counted_by_hand(_: &mut Random) -> Vec<Vec<u8>> {
    let record = |(locale, count): (Locale, usize)| {
        let mut bytes = empty();
        let (letters, script, variant, computed, numbering) = locale;
        bytes[8..12].copy_from_slice(letters);
        for (part, word) in SUBTAGGED.into_iter().zip([&script[..], variant, numbering]) {
            bytes[part.start..part.start + word.len()].copy_from_slice(word);
        }
        bytes[COMPUTED] = computed;
        let (record, _) = taken(&bytes).expect("a whole record");
        assert_eq!(in_record(&record), count, "the oracle counts another number of replacements in {bytes:x?}");
        bytes
    };
    BY_HAND.map(record).to_vec()
}

/// So many bytes of characters, with NULs for the rest.
fn characters(random: &mut Random, length: usize) -> Vec<u8> {
    let (mut bytes, mut next) = (Vec::new(), one(random, &WHOLE));
    while bytes.len() + next.len() <= length {
        bytes.extend(next);
        next = one(random, &WHOLE);
    }
    bytes.resize(length, 0);
    bytes
}

/// So many bytes of characters and of what is replaced; the last may be cut.
fn mixture(random: &mut Random, length: usize) -> Vec<u8> {
    let mut bytes = Vec::new();
    while bytes.len() < length {
        bytes.extend(if random.below(2) == 0 { one(random, &WHOLE) } else { one(random, &BROKEN) });
    }
    bytes.truncate(length);
    bytes
}

/// A record with one of so many languages and regions, and what a function makes for script, variant and numbering system, which may
/// not begin; its size may not hold them.
fn spelled(random: &mut Random, letters: usize, subtag: fn(&mut Random, usize) -> Vec<u8>) -> Vec<u8> {
    let mut bytes = ground(random);
    bytes[8..10].copy_from_slice(&one(random, &LANGUAGES[..letters]));
    bytes[10..12].copy_from_slice(&one(random, &REGIONS[..letters]));
    for part in SUBTAGGED {
        bytes[part.clone()].copy_from_slice(&subtag(random, part.len()));
        if random.below(6) == 0 {
            bytes[part.start] = 0;
        }
    }
    bytes[COMPUTED] = one(random, &[0, 0, 0, 1, 255]);
    let size = if random.below(2) == 0 { 64 } else { one(random, &SIZES) };
    bytes.resize(size, 0);
    declare(&mut bytes, size);
    bytes
}

/// Records with nothing to replace, of which many have the sign.
fn well_formed(random: &mut Random) -> Vec<Vec<u8>> {
    many(5_000, random, |random| spelled(random, OF_FILES, characters))
}

/// Records with damaged subtags.
fn damaged(random: &mut Random) -> Vec<Vec<u8>> {
    many(10_000, random, |random| spelled(random, LANGUAGES.len(), mixture))
}

/// Up to 40 bytes of characters, and of characters and what is replaced.
fn pieces(random: &mut Random) -> Vec<Vec<u8>> {
    many(6_000, random, |random| {
        let length = random.below(41);
        one(random, &[characters, mixture])(random, length)
    })
}
