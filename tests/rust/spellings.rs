//! What the questions on texts are asked about: every value that a text says, and bytes that may or may not be UTF-8.
use crate::listed::MOST;
use crate::payloads::{declare, declared, many, one, usual, Maker};
use crate::questions::Random;
use std::ops::Range;

/// Records, by what each of their bytes says.
pub const PLACES: &[Maker] = &[densities, values, of_every_size];

/// Records, by their network code.
pub const CODES: &[Maker] = &[codes];

/// Records, by how their locale is spelled.
pub const SPELLED: &[Maker] = &[ill_spelled, computed, looking_real, locales];

/// Every two bytes.
pub const PAIRS: &[Maker] = &[every_pair];

/// Bytes for a subtag.
pub const SUBTAGS: &[Maker] = &[sequences, short, trailing, random_bytes, long];

/// A record with the longest text of all, 344 bytes.
pub const LONGEST: [u8; 64] = [
    0x40, 0x00, 0x00, 0x00, 0xff, 0xff, 0xff, 0xff, 0xff, 0xff, 0x01, 0x80, 0xff, 0xff, 0xfd, 0xff, 0xff, 0xff, 0x0d,
    0x03, 0xff, 0xff, 0xff, 0xff, 0xff, 0xff, 0xff, 0xff, 0x52, 0x3f, 0xff, 0xff, 0xff, 0xff, 0xff, 0xff, 0xff, 0xff,
    0xff, 0xff, 0xff, 0xff, 0xff, 0xff, 0xff, 0xff, 0xff, 0xff, 0x01, 0x09, 0x00, 0x00, 0x00, 0xff, 0xff, 0xff, 0xff,
    0xff, 0xff, 0xff, 0xff, 0x00, 0x00, 0x00,
];

/// Two bytes that the fixed list asks about: `en`, `sr`, `fil` and `419` packed, `US`, none, and the ends of what is packed.
pub const TOLD_PAIRS: [[u8; 2]; 16] = [
    *b"en",
    *b"sr",
    packed(b"fil", b'a'),
    *b"US",
    packed(b"419", b'0'),
    [0x00, 0x00],
    [0x00, b'n'],
    [b'e', 0x00],
    [0x01, 0xff],
    [0x7f, 0x7f],
    [0x7f, 0x80],
    [0x7f, 0xff],
    [0x80, 0x00],
    [0x80, 0xff],
    [0xff, 0x00],
    [0xff, 0xff],
];

/// The classes of bytes that may begin a sequence, from the first to the last: ASCII, continuations, the two that are never
/// there, those of two bytes, of three, of four, and what is past all of them.
const LEADS: [(u8, u8); 12] = [
    (0x01, 0x7f),
    (0x80, 0xbf),
    (0xc0, 0xc1),
    (0xc2, 0xdf),
    (0xe0, 0xe0),
    (0xe1, 0xec),
    (0xed, 0xed),
    (0xee, 0xef),
    (0xf0, 0xf0),
    (0xf1, 0xf3),
    (0xf4, 0xf4),
    (0xf5, 0xff),
];

/// A byte of each class that may follow.
const FOLLOWERS: [u8; 13] = [0x00, 0x41, 0x7f, 0x80, 0x8f, 0x90, 0x9f, 0xa0, 0xbf, 0xc2, 0xe2, 0xf0, 0xff];

/// Network codes that the fixed lists ask about: none, the first, and the last two, of which the very last stands for 0.
const TOLD_CODES: [u16; 4] = [0, 1, 0xfffe, 0xffff];

/// Where the network code stands.
const MNC: usize = 6;

/// Where script, variant and numbering system lie.
pub const SUBTAGGED: [Range<usize>; 3] = [36..40, 40..48, 53..61];

/// Where it stands whether the script was computed.
pub const COMPUTED: usize = 52;

/// Three letters packed in two bytes.
const fn packed(word: &[u8; 3], base: u8) -> [u8; 2] {
    let (first, second, third) = (word[0] - base, word[1] - base, word[2] - base);
    [0x80 | third << 2 | second >> 3, second << 5 | first]
}

/// A record of 64 bytes that says nothing.
pub fn empty() -> Vec<u8> {
    let mut bytes = vec![0; 64];
    declare(&mut bytes, 64);
    bytes
}

/// A record of 64 bytes that says something in each of its places.
fn full() -> Vec<u8> {
    let mut bytes = LONGEST.to_vec();
    bytes[4..12].copy_from_slice(b"\x36\x01\x04\x00enUS");
    bytes[36..48].copy_from_slice(b"Latnposix\0\0\0");
    bytes[53..61].copy_from_slice(b"arab\0\0\0\0");
    bytes
}

/// A record that says nothing, everything, or anything.
pub fn ground(random: &mut Random) -> Vec<u8> {
    match random.below(3) {
        0 => empty(),
        1 => full(),
        _ => declared(random, 64, 64),
    }
}

/// Lays bytes over a record from an offset on, as far as the part reaches.
fn lay(bytes: &mut [u8], part: Range<usize>, at: usize, word: &[u8]) {
    for (byte, new) in bytes[part].iter_mut().skip(at).zip(word) {
        *byte = *new;
    }
}

/// Every number of two bytes at an offset, each in a record of its own.
fn halves(random: &mut Random, at: usize) -> Vec<Vec<u8>> {
    (0..=u16::MAX)
        .map(|half| {
            let mut bytes = ground(random);
            bytes[at..at + 2].copy_from_slice(&half.to_le_bytes());
            bytes
        })
        .collect()
}

/// Every density, once.
fn densities(random: &mut Random) -> Vec<Vec<u8>> {
    halves(random, 14)
}

/// Every network code, once.
fn codes(random: &mut Random) -> Vec<Vec<u8>> {
    halves(random, MNC)
}

/// Records that the fixed lists ask about: that of the longest text, and some that say a network code alone.
pub fn told() -> Vec<Vec<u8>> {
    let coded = |code: u16| {
        let mut bytes = empty();
        bytes[MNC..MNC + 2].copy_from_slice(&code.to_le_bytes());
        bytes
    };
    [vec![LONGEST.to_vec()], TOLD_CODES.map(coded).to_vec()].concat()
}

/// Every value of every byte behind size: alone, in a record that says everything, and among random bytes.
fn values(random: &mut Random) -> Vec<Vec<u8>> {
    let values = (4..64).flat_map(|at| (0..=255).map(move |value| (at, value)));
    values
        .flat_map(|(at, value)| {
            [empty(), full(), declared(random, 64, 64)].map(|mut bytes| {
                bytes[at] = value;
                bytes
            })
        })
        .collect()
}

/// The front of a record that says everything, at every size to 80.
fn of_every_size(_: &mut Random) -> Vec<Vec<u8>> {
    (0..=80)
        .map(|size: usize| {
            let mut bytes = full();
            bytes.resize(size.max(16), 0xff);
            declare(&mut bytes, size);
            bytes
        })
        .collect()
}

/// Records as files have them.
fn looking_real(random: &mut Random) -> Vec<Vec<u8>> {
    many(20_000, random, real)
}

/// A record as files have them.
pub fn real(random: &mut Random) -> Vec<u8> {
    let mut bytes = empty();
    if random.below(8) == 0 {
        bytes[4..8].copy_from_slice(&one(random, &[[0x36, 1, 0, 0], [0x36, 1, 4, 0], [0xd0, 0, 0xff, 0xff]]));
    }
    name_locale(random, &mut bytes);
    for (at, values) in NAMED {
        if random.below(4) == 0 {
            bytes[*at] = one(random, values);
        }
    }
    for at in [30, 32, 34] {
        if random.below(4) == 0 {
            let dp: u16 = one(random, &[320, 360, 411, 480, 600, 720, 820, 1280]);
            bytes[at..at + 2].copy_from_slice(&dp.to_le_bytes());
        }
    }
    let density: u16 = one(random, &[0, 0, 0, 120, 160, 213, 240, 280, 320, 420, 480, 560, 640, 0xfffe, 0xffff]);
    bytes[14..16].copy_from_slice(&density.to_le_bytes());
    bytes[24] = one(random, &[0, 0, 4, 13, 17, 21, 26, 33]);
    bytes[26] = one(random, &[0, 0, 0, 0, 1]);
    let size = one(random, &[28, 32, 36, 48, 52, 56, 64, 64]);
    bytes.truncate(size);
    declare(&mut bytes, size);
    bytes
}

/// Bytes of a record that have names, with numbers that are named there, and some that aren't.
const NAMED: &[(usize, &[u8])] = &[
    (12, &[1, 2, 3, 4]),
    (13, &[1, 2, 3, 4]),
    (16, &[1, 2, 3, 4]),
    (17, &[1, 2, 3, 4, 5]),
    (18, &[1, 2, 3, 4, 8, 5, 10]),
    (19, &[1, 2, 3]),
    (28, &[0x01, 0x02, 0x03, 0x04, 0x10, 0x20, 0x40, 0x80, 0x51, 0x62, 0xa3]),
    (29, &[0x01, 0x02, 0x03, 0x04, 0x05, 0x06, 0x07, 0x10, 0x20, 0x13, 0x24, 0x30]),
    (48, &[1, 2]),
    (49, &[1, 2, 4, 8, 5, 10]),
];

/// Lays the locale that a file might have over a record.
fn name_locale(random: &mut Random, bytes: &mut [u8]) {
    let languages = [[0, 0], *b"en", *b"sr", *b"zh", packed(b"fil", b'a'), packed(b"haw", b'a')];
    bytes[8..10].copy_from_slice(&one(random, &languages));
    let regions = [[0, 0], *b"US", *b"RS", *b"TW", packed(b"419", b'0'), packed(b"001", b'0')];
    bytes[10..12].copy_from_slice(&one(random, &regions));
    let words: [&[&[u8]]; 3] =
        [&[b"Latn", b"Cyrl", b"Hant"], &[b"posix", b"1996", b"valencia"], &[b"arab", b"mymrshan"]];
    for (part, words) in SUBTAGGED.into_iter().zip(words) {
        if random.below(3) == 0 {
            lay(bytes, part, 0, one(random, words));
        }
    }
    bytes[COMPUTED] = one(random, &[0, 0, 0, 1]);
}

/// Records with script, variant and numbering system each there, empty, or begun by a NUL, and the script computed or not.
fn computed(random: &mut Random) -> Vec<Vec<u8>> {
    many(6_000, random, |random| {
        let mut bytes = ground(random);
        bytes[8] = one(random, &[0, b'e', b'e', 0xad]);
        bytes[10] = one(random, &[0, b'U', 0xa4]);
        for part in SUBTAGGED {
            match random.below(3) {
                0 => bytes[part].fill(0),
                1 => bytes[part.start] = 0,
                _ => bytes[part.start] |= 1,
            }
        }
        bytes[COMPUTED] = one(random, &[0, 0, 1, 1, 2, 128, 255]);
        bytes
    })
}

/// Records of the sizes that files have, with any bytes for a locale.
fn locales(random: &mut Random) -> Vec<Vec<u8>> {
    many(10_000, random, usual)
}

/// Every two bytes, once.
fn every_pair(_: &mut Random) -> Vec<Vec<u8>> {
    (0..=u16::MAX).map(|pair| pair.to_le_bytes().to_vec()).collect()
}

/// A byte of a class: its first, its last, or any.
fn lead(random: &mut Random, (first, last): (u8, u8)) -> u8 {
    match random.below(3) {
        0 => first,
        1 => last,
        _ => first + random.below(usize::from(last - first) + 1) as u8,
    }
}

/// A byte of any class.
fn any_class(random: &mut Random) -> u8 {
    if random.below(2) == 0 {
        let class = one(random, &LEADS);
        lead(random, class)
    } else {
        one(random, &FOLLOWERS)
    }
}

/// A byte of each class that may begin a sequence with none to three of each class behind it.
fn sequences(random: &mut Random) -> Vec<Vec<u8>> {
    let mut made = Vec::new();
    for class in LEADS {
        let mut behind = vec![Vec::new()];
        for _ in 0..4 {
            made.extend(behind.iter().map(|word| [&[lead(random, class)], &word[..]].concat()));
            behind = behind.iter().flat_map(|word| FOLLOWERS.map(|last| [&word[..], &[last]].concat())).collect();
        }
    }
    made
}

/// Records with a sequence in each of script, variant and numbering system, in the last two at any offset, so that it may be
/// cut by the end.
fn ill_spelled(random: &mut Random) -> Vec<Vec<u8>> {
    let words = sequences(random);
    let with = |word: Vec<u8>| {
        let mut bytes = ground(random);
        name_locale(random, &mut bytes);
        bytes[8] |= 1;
        bytes[COMPUTED] = u8::from(random.below(8) == 0);
        for part in SUBTAGGED {
            bytes[part.clone()].fill(one(random, &[0x00, 0x41, 0x80, 0xf1]));
            let at = if part.len() == 4 { 0 } else { one(random, &[0, 0, 1, 2, 3, 4, 5, 6, 7]) };
            lay(&mut bytes, part, at, &word);
        }
        bytes
    };
    words.into_iter().map(with).collect()
}

/// Up to nine bytes of any classes.
fn short(random: &mut Random) -> Vec<Vec<u8>> {
    (0..=9).flat_map(|length| [length; 3_000]).map(|length| (0..length).map(|_| any_class(random)).collect()).collect()
}

/// Bytes of any classes with NULs among them and behind them.
fn trailing(random: &mut Random) -> Vec<Vec<u8>> {
    many(3_000, random, |random| {
        let mut bytes = Vec::new();
        for _ in 0..random.below(4) {
            bytes.extend((0..random.below(5)).map(|_| any_class(random)).collect::<Vec<_>>());
            bytes.resize(bytes.len() + random.below(4), 0);
        }
        bytes
    })
}

/// Up to 200 random bytes.
fn random_bytes(random: &mut Random) -> Vec<Vec<u8>> {
    many(3_000, random, |random| {
        let length = random.below(201);
        random.bytes(length)
    })
}

/// Up to 65,536 bytes: of one value, of one sequence, of any classes, and random; each as it is, and with NULs for its end. The
/// sequences are a character of each length, one that is cut, and one that is too high; the last may be cut by the end.
fn long(random: &mut Random) -> Vec<Vec<u8>> {
    let repeated: [&[u8]; 7] = [b"\x00", b"A", b"\x80", b"\xf1", "Aé€𐍈".as_bytes(), b"\xe2\x82", b"\xf4\x90\x80\x80"];
    let mut made = Vec::new();
    for length in [4096, 4096 + random.below(MOST - 4096), MOST - 1, MOST] {
        let cycled = repeated.iter().map(|word| word.iter().copied().cycle().take(length).collect());
        let mut words: Vec<Vec<u8>> = cycled.collect();
        words.extend(many(3, random, |random| (0..MOST).map(|_| any_class(random)).collect()));
        words.extend(many(3, random, |random| random.bytes(MOST)));
        for mut word in words {
            word.truncate(length);
            made.push(word.clone());
            let any = random.below(length);
            let end = one(random, &[0, 1, length / 2, length - 1, any]);
            word[end..].fill(0);
            made.push(word);
        }
    }
    made
}
