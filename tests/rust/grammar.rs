//! The names of resource directories: the rule of 02's K5 written apart from the port, as one regular expression over a table of the places. A
//! name that matches gives the record that its parts say; of any other the first part is found that ends no name.
use crate::pattern::Pattern;
use std::sync::OnceLock;

/// What a group that is kept puts into the record, each in two bytes from an offset on, the one that weighs least first.
pub enum Put {
    /// A number.
    Number(usize),
    /// The number of a word; a byte may hold the numbers of several places.
    Word(usize, &'static [(&'static str, u16)]),
    /// Two characters as they are, or three packed by how far each is from a base.
    Letters(usize, u8),
}

/// A place: its parts, in which `<n>` is a number from 1 to 65535 and `<w>` one of the words; and what its groups put.
pub type Place = (&'static str, &'static [Put]);

/// A number from 1 to 65535 without a zero in front.
const NUMBER: &str = "(?:[1-9][0-9]{0,3}|[1-5][0-9]{4}|6[0-4][0-9]{3}|65[0-4][0-9]{2}|655[0-2][0-9]|6553[0-5])";

/// The places in their order.
#[rustfmt::skip]
pub const PLACES: [Place; 24] = [
    ("mcc(<n>)", &[Put::Number(4)]),
    ("mnc(<n>)", &[Put::Number(6)]),
    ("(?!car(?:-|$))([a-z]{2,3})(?:-r([A-Z]{2}|[0-9]{3}))?", &[Put::Letters(8, b'a'), Put::Letters(10, b'0')]),
    ("(<w>)", &[Put::Word(19, &[("neuter", 1), ("feminine", 2), ("masculine", 3)])]),
    ("(<w>)", &[Put::Word(28, &[("ldltr", 0x40), ("ldrtl", 0x80)])]),
    ("sw(<n>)dp", &[Put::Number(30)]),
    ("w(<n>)dp", &[Put::Number(32)]),
    ("h(<n>)dp", &[Put::Number(34)]),
    ("(<w>)", &[Put::Word(28, &[("small", 1), ("normal", 2), ("large", 3), ("xlarge", 4)])]),
    ("(<w>)", &[Put::Word(28, &[("notlong", 0x10), ("long", 0x20)])]),
    ("(<w>)", &[Put::Word(48, &[("notround", 1), ("round", 2)])]),
    ("(<w>)", &[Put::Word(49, &[("nowidecg", 1), ("widecg", 2)])]),
    ("(<w>)", &[Put::Word(49, &[("lowdr", 4), ("highdr", 8)])]),
    ("(<w>)", &[Put::Word(12, &[("port", 1), ("land", 2), ("square", 3)])]),
    ("(<w>)", &[Put::Word(29, &[("desk", 2), ("car", 3), ("television", 4), ("appliance", 5), ("watch", 6), ("vrheadset", 7)])]),
    ("(<w>)", &[Put::Word(29, &[("notnight", 0x10), ("night", 0x20)])]),
    ("(?:(<w>)|(?!(?:0|120|160|213|240|320|480|640|65534|65535)dpi)(<n>)dpi)", &[
        Put::Word(14, &[("ldpi", 120), ("mdpi", 160), ("tvdpi", 213), ("hdpi", 240), ("xhdpi", 320), ("xxhdpi", 480), ("xxxhdpi", 640),
            ("anydpi", 65534), ("nodpi", 65535)]),
        Put::Number(14),
    ]),
    ("(<w>)", &[Put::Word(13, &[("notouch", 1), ("stylus", 2), ("finger", 3)])]),
    ("(<w>)", &[Put::Word(18, &[("keysexposed", 1), ("keyshidden", 2), ("keyssoft", 3)])]),
    ("(<w>)", &[Put::Word(16, &[("nokeys", 1), ("qwerty", 2), ("12key", 3)])]),
    ("(<w>)", &[Put::Word(18, &[("navexposed", 4), ("navhidden", 8)])]),
    ("(<w>)", &[Put::Word(17, &[("nonav", 1), ("dpad", 2), ("trackball", 3), ("wheel", 4)])]),
    ("(?!0x0(?:-|$))(0|<n>)x(0|<n>)", &[Put::Number(20), Put::Number(22)]),
    ("v(?!0(?:-|$))(0|<n>)(?:.(<n>))?", &[Put::Number(24), Put::Number(26)]),
];

/// The words of a place.
pub fn words(place: &Place) -> Vec<&'static str> {
    let of_put = |put: &Put| match put {
        Put::Word(_, words) => words.iter().map(|(word, _)| *word).collect(),
        _ => vec![],
    };
    place.1.iter().flat_map(of_put).collect()
}

/// The regular expression of a name with a dash in front of each part: the places in their order, each there or not.
fn expression() -> String {
    let optional = |place: &Place| {
        let part = place.0.replace("<n>", NUMBER).replace("<w>", &words(place).join("|"));
        format!("(?:-{part})?")
    };
    PLACES.iter().map(optional).collect::<String>() + "$"
}

/// What the groups keep of a name that the grammar has, as they are; nothing where it hasn't the name.
fn matched(name: &[u8]) -> Option<Vec<Option<Vec<u8>>>> {
    static PATTERN: OnceLock<Pattern> = OnceLock::new();
    let pattern = PATTERN.get_or_init(|| Pattern::new(&expression()));
    let dashed = if name.is_empty() { vec![] } else { [b"-", name].concat() };
    let kept = pattern.whole(&dashed)?;
    Some(kept.into_iter().map(|place| place.map(|(from, to)| dashed[from..to].to_vec())).collect())
}

/// The two bytes that a group puts.
fn two_bytes(put: &Put, said: &[u8]) -> [u8; 2] {
    match (put, said) {
        (Put::Number(_), digits) => {
            let number = digits.iter().fold(0, |number, digit| number * 10 + u16::from(digit - b'0'));
            number.to_le_bytes()
        }
        (Put::Word(_, words), said) => {
            let (_, number) = words.iter().find(|(word, _)| word.as_bytes() == said).expect("one of the words matched");
            number.to_le_bytes()
        }
        (Put::Letters(..), [first, second]) => [*first, *second],
        (Put::Letters(_, base), three) => {
            // fifteen bits under a one, the third in front
            let bits = three.iter().rev().fold(1, |bits: u16, letter| bits << 5 | u16::from(letter - base));
            bits.to_be_bytes()
        }
    }
}

/// The record of what the groups keep: size 64, and nothing else but what is said.
fn record(kept: &[Option<Vec<u8>>]) -> [u8; 64] {
    let mut record = [0; 64];
    record[0] = 64;
    let puts = PLACES.iter().flat_map(|(_, puts)| *puts);
    for (put, said) in puts.zip(kept).filter_map(|(put, said)| Some((put, said.as_deref()?))) {
        let (Put::Number(at) | Put::Word(at, _) | Put::Letters(at, _)) = put;
        let [low, high] = two_bytes(put, said);
        record[*at] |= low;
        record[*at + 1] |= high;
    }
    record
}

/// The record of a name; or, where the grammar hasn't the name, where the first part begins that ends none. A part ends the name up to its last byte.
pub fn named(name: &[u8]) -> Result<[u8; 64], usize> {
    if let Some(kept) = matched(name) {
        return Ok(record(&kept));
    }
    let mut begin = 0;
    for part in name.split(|byte| *byte == b'-') {
        let end = begin + part.len();
        if matched(&name[..end]).is_none() {
            return Err(begin);
        }
        begin = end + 1;
    }
    unreachable!("the last part ends the name itself")
}
