//! What the questions on names of directories are asked about: names worked out by hand, every short one, every number in some places and corners in the
//! others, words and what is next to them, places in pairs and in threes, random names and what one byte makes of them, the texts that 000 gives to
//! records, and long ones.
use crate::corners::{ACCEPTED, REFUSED};
use crate::grammar::{named, words, PLACES};
use crate::listed::taken;
use crate::payloads::{one, usual, Maker};
use crate::questions::Random;
use crate::spellings::{empty, real};

/// The sorts, each with its name.
pub const SORTS: [(&str, Maker); 10] = [
    ("by hand", by_hand),
    ("to two bytes", short),
    ("locales", locales),
    ("every number", every_number),
    ("number corners", number_corners),
    ("words", next_to_words),
    ("pairs and threes", few_places),
    ("random, one byte", random_names),
    ("of records", of_records),
    ("long", long),
];

/// How many bytes a record of a name has.
pub const RECORD: usize = 64;

/// The place of languages, and the number that stands for a region, which is a part of its own.
const LANGUAGE: usize = 2;
const REGION: usize = PLACES.len();

/// The places that have a number: what stands before and behind it.
const NUMBERED: [(usize, &str, &str); 10] = [
    (0, "mcc", ""),
    (1, "mnc", ""),
    (5, "sw", "dp"),
    (6, "w", "dp"),
    (7, "h", "dp"),
    (16, "", "dpi"),
    (22, "", "x5"),
    (22, "5x", ""),
    (23, "v", ""),
    (23, "v5.", ""),
];

/// Numbers at the ends of what a place takes and of what two, four and eight bytes hold, and beside them.
#[rustfmt::skip]
const CORNERS: [u128; 46] = [
    0, 1, 2, 9, 10, 11, 99, 100, 119, 120, 121, 159, 160, 161, 213, 240, 255, 256, 319, 320, 480, 639, 640, 641, 999, 1000, 9999, 10000, 32767,
    32768, 65533, 65534, 65535, 65536, 65537, 65656, 99999, 100000, 131071, 1 << 32, (1 << 32) + 1, (1 << 32) + 65535, 1 << 63, 1 << 64,
    (1 << 64) + 1, u128::MAX,
];

/// Names by hand, to which the grammar itself is held.
fn by_hand(_: &mut Random) -> Vec<Vec<u8>> {
    for (name, parts) in ACCEPTED {
        let mut record = [0; RECORD];
        record[0] = 64;
        for (at, bytes) in *parts {
            record[*at..*at + bytes.len()].copy_from_slice(bytes);
        }
        assert_eq!(named(name.as_bytes()), Ok(record), "by hand: {name}");
    }
    for (name, at) in REFUSED {
        assert_eq!(named(name.as_bytes()), Err(*at), "by hand: {name}");
    }
    let names = ACCEPTED.iter().map(|(name, _)| name).chain(REFUSED.iter().map(|(name, _)| name));
    names.map(|name| name.as_bytes().to_vec()).collect()
}

/// Every name of up to two bytes.
fn short(_: &mut Random) -> Vec<Vec<u8>> {
    let two = (0..=u16::MAX).map(|pair| pair.to_le_bytes().to_vec());
    [vec![vec![]], (0..=255).map(|byte| vec![byte]).collect(), two.collect()].concat()
}

/// Every language of two and of three letters, every region of two and of three, and some that are neither.
fn locales(random: &mut Random) -> Vec<Vec<u8>> {
    let rows = |from: u8, count: u8| (0..count).map(move |at| from + at);
    let twos = |from, count| rows(from, count).flat_map(move |a| rows(from, count).map(move |b| vec![a, b]));
    let threes = |from, count| {
        twos(from, count).flat_map(move |two: Vec<u8>| rows(from, count).map(move |c| [&two[..], &[c]].concat()))
    };
    let behind = |language: &str, region: Vec<u8>| [language.as_bytes(), b"-r", &region].concat();
    let mut names: Vec<Vec<u8>> = twos(b'a', 26).chain(threes(b'a', 26)).collect();
    names.extend(
        twos(b'A', 26)
            .chain(threes(b'0', 10))
            .flat_map(|region| ["en", "haw"].map(|word| behind(word, region.clone()))),
    );
    names.extend(twos(b'0', 10).chain(twos(b'a', 26)).chain(threes(b'A', 26)).map(|region| behind("en", region)));
    for _ in 0..5_000 {
        let mut letter = || one(random, b"aezAEZ059`{@[/:r\0\xff");
        let language: Vec<u8> = (0..3).map(|_| letter()).collect();
        let region: Vec<u8> = (0..4).map(|_| letter()).collect();
        names.extend([behind("de", region[..2].to_vec()), behind("de", region[..3].to_vec()), behind("de", region)]);
        names.push(language);
    }
    names
}

/// In two places every number to 70,000, without and with a zero in front.
fn every_number(_: &mut Random) -> Vec<Vec<u8>> {
    let names =
        (0..=70_000).flat_map(|n| [format!("mcc{n}"), format!("mcc0{n}"), format!("{n}dpi"), format!("0{n}dpi")]);
    names.map(String::into_bytes).collect()
}

/// What is put in front of a number, and behind it.
const IN_FRONT: [&str; 9] = ["", "0", "00", "+", "-", " ", "5x", "v", "0x"];
const BEHIND: [&str; 8] = ["0", " ", ".", ".0", ".5", "x5", "e1", "_"];

/// What stands in a number's stead.
const NO_NUMBER: [&str; 8] = ["", "a", "/", ":", "1a", "a1", "1/2", "1:2"];

/// Pixel sizes and versions, and what is nearly one.
#[rustfmt::skip]
const TWO_NUMBERS: [&str; 22] = [
    "0x0", "0x1", "1x0", "00x0", "0x00", "0x", "x0", "x", "65535x65535", "65536x0", "0x65536", "v0", "v0.0", "v0.1", "v00.1", "v0.01", "v0.65535",
    "v0.65536", "v1.", "v.1", "v1.1.1", "v.",
];

/// In each place that has a number the corners, each with other bytes around it, and what is none.
fn number_corners(_: &mut Random) -> Vec<Vec<u8>> {
    let mut names = TWO_NUMBERS.map(String::from).to_vec();
    for (_, before, behind) in NUMBERED {
        names.extend(NO_NUMBER.map(|word| format!("{before}{word}{behind}")));
        for n in CORNERS {
            names.extend(IN_FRONT.map(|front| format!("{before}{front}{n}{behind}")));
            names.extend(BEHIND.map(|end| format!("{before}{n}{end}{behind}")));
        }
    }
    names.into_iter().map(String::into_bytes).collect()
}

/// The words of all places.
fn all_words() -> Vec<&'static str> {
    PLACES.iter().flat_map(words).collect()
}

/// What stands in front of a '=' where 000 has no word for a number.
#[rustfmt::skip]
const UNNAMED: [&str; 13] = [
    "layoutDir", "screenLayoutSize", "screenLayoutLong", "screenRound", "wideColorGamut", "hdr", "orientation", "uiModeType", "uiModeNight", "touchscreen",
    "keyboard", "inputFlagsNavHidden", "navigation",
];

/// Each word, alone and with each byte changed to each, dropped and doubled, cut at each end and with a byte more; and what 000 writes with a '='.
fn next_to_words(random: &mut Random) -> Vec<Vec<u8>> {
    let unnamed = UNNAMED.iter().flat_map(|kind| [0, 1, 4, 48, 255].map(|n| format!("{kind}={n}")));
    let mut names: Vec<Vec<u8>> = unnamed.map(String::into_bytes).collect();
    for word in all_words().into_iter().map(str::as_bytes) {
        for at in 0..word.len() {
            names.extend((0..=255).map(|byte| [&word[..at], &[byte], &word[at + 1..]].concat()));
            names.extend([dropped(word, at), doubled(word, at), word[..at].to_vec(), word[at..].to_vec()]);
        }
        names.extend((0..=255).flat_map(|byte| [[word, &[byte]].concat(), [&[byte], word].concat()]));
        names.extend([word.to_ascii_uppercase(), [word, word].concat(), [word, b"-", word].concat()]);
        let other = one(random, &all_words()).as_bytes();
        names.extend([[word, other].concat(), [word, b"_", other].concat(), [word, b"--", other].concat()]);
    }
    names
}

/// A number from 1 to 65535, often at an end.
fn number(random: &mut Random) -> usize {
    let (few, any) = (1 + random.below(2000), 1 + random.below(65535));
    one(random, &[few, few, any, any, 1, 10, 320, 480, 9999, 10000, 65534, 65535])
}

/// So many characters, each one of a row.
fn letters(random: &mut Random, first: u8, count: usize, length: usize) -> String {
    (0..length).map(|_| char::from(first + random.below(count) as u8)).collect()
}

/// A part of a place, or a region. Some are none: a density that has a word is given by its number.
fn part(random: &mut Random, place: usize) -> String {
    let (n, m, either) = (number(random), number(random), random.below(2));
    match (place, either) {
        (LANGUAGE, _) => letters(random, b'a', 26, 2 + either),
        (REGION, 0) => format!("r{}", letters(random, b'0', 10, 3)),
        (REGION, _) => format!("r{}", letters(random, b'A', 26, 2)),
        (22, _) => one(random, &[[n, m], [n, m], [0, m], [n, 0]]).map(|side| side.to_string()).join("x"),
        (23, 0) => format!("v{n}"),
        (23, _) => format!("v{}.{m}", one(random, &[0, n])),
        (16, 0) => one(random, &words(&PLACES[16])).into(),
        _ => match NUMBERED.iter().find(|row| row.0 == place) {
            Some((_, before, behind)) => format!("{before}{n}{behind}"),
            None => one(random, &words(&PLACES[place])).into(),
        },
    }
}

/// Each two words or other parts in both orders, each with itself too; and each three places.
fn few_places(random: &mut Random) -> Vec<Vec<u8>> {
    let more = [
        "mcc1", "mnc65535", "en", "fil", "en-rUS", "haw-r419", "rGB", "r001", "sw1dp", "w320dp", "h65535dp", "161dpi",
        "0x1", "7x0", "v1", "v0.1",
    ];
    let parts = [all_words(), more.to_vec()].concat();
    let mut names: Vec<String> = parts.iter().flat_map(|a| parts.iter().map(move |b| format!("{a}-{b}"))).collect();
    let all = 0..=REGION;
    for a in all.clone() {
        for b in all.clone() {
            names.extend((0..8).map(|_| format!("{}-{}", part(random, a), part(random, b))));
            names.extend(all.clone().map(|c| format!("{}-{}-{}", part(random, a), part(random, b), part(random, c))));
        }
    }
    names.into_iter().map(String::into_bytes).collect()
}

/// A name of up to 25 parts: of places in their order, a region behind its language; one in three of any places in any order.
fn any_name(random: &mut Random) -> Vec<u8> {
    let count = random.below(REGION + 2);
    let mut places: Vec<usize> = (0..=REGION).collect();
    while places.len() > count {
        places.swap_remove(random.below(places.len()));
    }
    match random.below(3) {
        0 if count > 0 => places = (0..count).map(|_| random.below(REGION + 1)).collect(),
        _ => places.sort_by_key(|place| if *place == REGION { 2 * LANGUAGE + 1 } else { 2 * place }),
    }
    if random.below(4) > 0 && !places.contains(&LANGUAGE) {
        places.retain(|place| *place != REGION);
    }
    let parts: Vec<String> = places.into_iter().map(|place| part(random, place)).collect();
    parts.join("-").into_bytes()
}

/// Some bytes without the one at an offset.
fn dropped(bytes: &[u8], at: usize) -> Vec<u8> {
    [&bytes[..at], &bytes[at + 1..]].concat()
}

/// Some bytes with the one at an offset twice.
fn doubled(bytes: &[u8], at: usize) -> Vec<u8> {
    [&bytes[..=at], &bytes[at..]].concat()
}

/// Some bytes with the one at an offset changed: to one that parts have, to one that is a bit away, or to any.
fn changed(random: &mut Random, bytes: &[u8], at: usize) -> Vec<u8> {
    let mut other = bytes.to_vec();
    while other == bytes {
        other[at] = match random.below(4) {
            0 | 1 => one(random, b"-019arzAx."),
            2 => bytes[at] ^ 1 << random.below(8),
            _ => random.next() as u8,
        };
    }
    other
}

/// Random names, each also with one byte changed, dropped and doubled.
fn random_names(random: &mut Random) -> Vec<Vec<u8>> {
    let mut names = vec![];
    for _ in 0..70_000 {
        let name = any_name(random);
        if !name.is_empty() {
            let [change, drop, double] = [(); 3].map(|()| random.below(name.len()));
            names.extend([changed(random, &name, change), dropped(&name, drop), doubled(&name, double)]);
        }
        names.push(name);
    }
    names
}

/// Where a record holds kinds, and the numbers there to which 000 gives words: each with one of them, or none.
#[rustfmt::skip]
const KINDS: [(usize, &[u8]); 15] = [
    (12, &[1, 2, 3]), (13, &[1, 2, 3]), (16, &[1, 2, 3]), (17, &[1, 2, 3, 4]), (18, &[1, 2, 3]), (18, &[4, 8]), (19, &[1, 2, 3]), (28, &[1, 2, 3, 4]),
    (28, &[0x10, 0x20]), (28, &[0x40, 0x80]), (29, &[2, 3, 4, 5, 6, 7]), (29, &[0x10, 0x20]), (48, &[1, 2]), (49, &[1, 2]), (49, &[4, 8]),
];

/// A record of 64 bytes that says only what a name can say.
fn sayable(random: &mut Random) -> Vec<u8> {
    let (mut bytes, often) = (empty(), 1 + random.below(4));
    for (at, numbers) in KINDS {
        bytes[at] |= if random.below(4) < often { one(random, numbers) } else { 0 };
    }
    for at in [4, 6, 14, 20, 22, 24, 26, 30, 32, 34] {
        let number = if random.below(4) < often { number(random) as u16 } else { 0 };
        bytes[at..at + 2].copy_from_slice(&number.to_le_bytes());
    }
    let languages = [*b"en", *b"zz", [0xad, 0x05], [0x80, 0x00], [0xe7, 0x39], [0xd8, 0x07]];
    let regions = [[0, 0], *b"US", *b"AZ", [0x84, 0x00], [0xa4, 0x24], [0x80, 0x00], [0xa5, 0x29]];
    if random.below(4) < often {
        bytes[8..10].copy_from_slice(&one(random, &languages));
        bytes[10..12].copy_from_slice(&one(random, &regions));
    }
    bytes
}

/// Whether a name can say what 000's text of a record says: it has no `b+` form and no '=', and the UI type isn't Normal, which has no words.
fn can_say(bytes: &[u8], text: &str) -> bool {
    let normal = bytes.get(29).is_some_and(|mode| mode & 15 == 1) && bytes[0] >= 32;
    !text.contains("b+") && !text.contains('=') && !normal
}

/// The texts that 000 gives to records. Of one that says only what a name can, the text names that very record; of a record as files have them, the
/// text is a name where a name can say it. So the grammar itself is held to 000. Of any other the text may be a name or not.
fn of_records(random: &mut Random) -> Vec<Vec<u8>> {
    let text_of = |bytes: &[u8]| taken(bytes).expect("a whole record").0.as_string();
    let mut names = vec![];
    for _ in 0..40_000 {
        let (said, file, other) = (sayable(random), real(random), usual(random));
        let text = text_of(&said);
        assert_eq!(named(text.as_bytes()).map(Vec::from), Ok(said), "000's text of a record names another: {text}");
        let of_file = text_of(&file);
        let named_so = named(of_file.as_bytes()).map(|record| text_of(&record));
        assert!(
            !can_say(&file, &of_file) || named_so.as_ref() == Ok(&of_file),
            "000's text is no name of it: {of_file}"
        );
        names.extend([text, of_file, text_of(&other)].map(String::into_bytes));
    }
    names
}

/// Names of up to 65,536 bytes and more: a name with a part that never ends, one part over and over, nothing but dashes, a number of many digits.
fn long(random: &mut Random) -> Vec<Vec<u8>> {
    let mut names = vec![];
    for length in [1_000, 65_535, 65_536, 65_537, 200_000] {
        let full = |word: &[u8]| word.iter().copied().cycle().take(length).collect::<Vec<u8>>();
        let bodies = [&b"-"[..], b"0", b"9", b"a", b"en-", b"-en", b"port-", b"\0", b"mcc1-mnc1-"].map(full);
        for front in [any_name(random), b"mcc".to_vec(), b"v".to_vec(), b"v1.".to_vec(), b"en-r".to_vec(), vec![]] {
            names.extend(bodies.iter().map(|body| [&front[..], body].concat()));
            names.extend(bodies.iter().map(|body| [&front[..], b"-", body].concat()));
        }
    }
    names
}
