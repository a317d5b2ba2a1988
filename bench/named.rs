//! A reader of directory names as one writes it by hand in Rust: the name is split at its dashes, each part says a place and a value, and the values make
//! the words of the record. It takes bytes, as the port's does, which the benchmark counts beside it.

/// The words of a record that a name can say; all others are zero.
#[derive(Default)]
struct Config {
    imsi: u32,
    locale: [u8; 4],
    screen_type: u32,
    input: u32,
    screen_size: u32,
    version: u32,
    screen_config: u32,
    screen_size_dp: u32,
    screen_config_2: u32,
}

/// The places of a name, in their order.
#[derive(Clone, Copy, PartialEq, PartialOrd)]
enum Place {
    Start,
    Mcc,
    Mnc,
    Language,
    Region,
    Gender,
    LayoutDir,
    SmallestWidth,
    WidthDp,
    HeightDp,
    Size,
    Long,
    Round,
    WideGamut,
    Hdr,
    Orientation,
    UiType,
    Night,
    Density,
    Touch,
    KeysHidden,
    Keyboard,
    NavHidden,
    Navigation,
    PixelSize,
    Version,
}

/// A number without a sign and without zeros in front.
fn number(digits: &[u8]) -> Option<u16> {
    match digits {
        [b'0'] => Some(0),
        [b'1'..=b'9', ..] => digits.iter().try_fold(0u16, |n, digit| match digit {
            b'0'..=b'9' => n.checked_mul(10)?.checked_add(u16::from(digit - b'0')),
            _ => None,
        }),
        _ => None,
    }
}

/// A number above 0.
fn positive(digits: &[u8]) -> Option<u32> {
    number(digits).filter(|n| *n > 0).map(u32::from)
}

/// Three characters in fifteen bits under a one, the third in front.
fn packed(three: [u8; 3], base: u8) -> [u8; 2] {
    let [first, second, third] = three.map(|letter| u16::from(letter - base));
    (0x8000 | third << 10 | second << 5 | first).to_be_bytes()
}

/// The two bytes of a language of two or three small letters.
fn language(part: &[u8]) -> Option<[u8; 2]> {
    match *part {
        [a @ b'a'..=b'z', b @ b'a'..=b'z'] => Some([a, b]),
        [a @ b'a'..=b'z', b @ b'a'..=b'z', c @ b'a'..=b'z'] => Some(packed([a, b, c], b'a')),
        _ => None,
    }
}

/// The two bytes of a region: `r` and two capitals or three digits.
fn region(part: &[u8]) -> Option<[u8; 2]> {
    match *part.strip_prefix(b"r")? {
        [a @ b'A'..=b'Z', b @ b'A'..=b'Z'] => Some([a, b]),
        [a @ b'0'..=b'9', b @ b'0'..=b'9', c @ b'0'..=b'9'] => Some(packed([a, b, c], b'0')),
        _ => None,
    }
}

/// The place of a word, and its value there.
#[rustfmt::skip]
fn word(part: &[u8]) -> Option<(Place, u32)> {
    Some(match part {
        b"neuter" => (Place::Gender, 1), b"feminine" => (Place::Gender, 2), b"masculine" => (Place::Gender, 3),
        b"ldltr" => (Place::LayoutDir, 0x40), b"ldrtl" => (Place::LayoutDir, 0x80),
        b"small" => (Place::Size, 1), b"normal" => (Place::Size, 2), b"large" => (Place::Size, 3), b"xlarge" => (Place::Size, 4),
        b"notlong" => (Place::Long, 0x10), b"long" => (Place::Long, 0x20),
        b"notround" => (Place::Round, 1), b"round" => (Place::Round, 2),
        b"nowidecg" => (Place::WideGamut, 1), b"widecg" => (Place::WideGamut, 2),
        b"lowdr" => (Place::Hdr, 4), b"highdr" => (Place::Hdr, 8),
        b"port" => (Place::Orientation, 1), b"land" => (Place::Orientation, 2), b"square" => (Place::Orientation, 3),
        b"desk" => (Place::UiType, 2), b"car" => (Place::UiType, 3), b"television" => (Place::UiType, 4),
        b"appliance" => (Place::UiType, 5), b"watch" => (Place::UiType, 6), b"vrheadset" => (Place::UiType, 7),
        b"notnight" => (Place::Night, 0x10), b"night" => (Place::Night, 0x20),
        b"ldpi" => (Place::Density, 120), b"mdpi" => (Place::Density, 160), b"tvdpi" => (Place::Density, 213), b"hdpi" => (Place::Density, 240), b"xhdpi" => (Place::Density, 320),
        b"xxhdpi" => (Place::Density, 480), b"xxxhdpi" => (Place::Density, 640), b"anydpi" => (Place::Density, 0xfffe), b"nodpi" => (Place::Density, 0xffff),
        b"notouch" => (Place::Touch, 1), b"stylus" => (Place::Touch, 2), b"finger" => (Place::Touch, 3),
        b"keysexposed" => (Place::KeysHidden, 1), b"keyshidden" => (Place::KeysHidden, 2), b"keyssoft" => (Place::KeysHidden, 3),
        b"nokeys" => (Place::Keyboard, 1), b"qwerty" => (Place::Keyboard, 2), b"12key" => (Place::Keyboard, 3),
        b"navexposed" => (Place::NavHidden, 4), b"navhidden" => (Place::NavHidden, 8),
        b"nonav" => (Place::Navigation, 1), b"dpad" => (Place::Navigation, 2),
        b"trackball" => (Place::Navigation, 3), b"wheel" => (Place::Navigation, 4),
        _ => return None,
    })
}

/// A density by its number, which has no word.
fn density(digits: &[u8]) -> Option<u32> {
    positive(digits).filter(|n| !matches!(n, 120 | 160 | 213 | 240 | 320 | 480 | 640 | 0xfffe | 0xffff))
}

/// What stands before the first of a byte, and what behind it.
fn split_once(part: &[u8], byte: u8) -> Option<(&[u8], &[u8])> {
    let at = part.iter().position(|b| *b == byte)?;
    Some((&part[..at], &part[at + 1..]))
}

/// A width and a height in pixels, not both 0.
fn pixels(part: &[u8]) -> Option<u32> {
    let (width, height) = split_once(part, b'x')?;
    let size = u32::from(number(width)?) | u32::from(number(height)?) << 16;
    (size != 0).then_some(size)
}

/// A version, perhaps with a minor one, not 0.
fn version(part: &[u8]) -> Option<u32> {
    let version = match split_once(part, b'.') {
        Some((major, minor)) => u32::from(number(major)?) | positive(minor)? << 16,
        None => u32::from(number(part)?),
    };
    (version != 0).then_some(version)
}

/// The place of a part, and its value there.
fn part_of(part: &[u8]) -> Option<(Place, u32)> {
    if let Some(found) = word(part) {
        return Some(found);
    }
    if let Some(bytes) = language(part) {
        return Some((Place::Language, u32::from(u16::from_le_bytes(bytes))));
    }
    if let Some(bytes) = region(part) {
        return Some((Place::Region, u32::from(u16::from_le_bytes(bytes))));
    }
    if let Some(digits) = part.strip_prefix(b"mcc") {
        return Some((Place::Mcc, positive(digits)?));
    }
    if let Some(digits) = part.strip_prefix(b"mnc") {
        return Some((Place::Mnc, positive(digits)?));
    }
    if let Some(rest) = part.strip_prefix(b"v") {
        return Some((Place::Version, version(rest)?));
    }
    if let Some(digits) = part.strip_suffix(b"dpi") {
        return Some((Place::Density, density(digits)?));
    }
    if let Some(front) = part.strip_suffix(b"dp") {
        if let Some(digits) = front.strip_prefix(b"sw") {
            return Some((Place::SmallestWidth, positive(digits)?));
        }
        if let Some(digits) = front.strip_prefix(b"w") {
            return Some((Place::WidthDp, positive(digits)?));
        }
        return Some((Place::HeightDp, positive(front.strip_prefix(b"h")?)?));
    }
    Some((Place::PixelSize, pixels(part)?))
}

impl Config {
    /// Puts the value of a place.
    fn put(&mut self, place: Place, value: u32) {
        match place {
            Place::Start => {}
            Place::Mcc => self.imsi |= value,
            Place::Mnc => self.imsi |= value << 16,
            Place::Language => self.locale[..2].copy_from_slice(&(value as u16).to_le_bytes()),
            Place::Region => self.locale[2..].copy_from_slice(&(value as u16).to_le_bytes()),
            Place::Orientation => self.screen_type |= value,
            Place::Touch => self.screen_type |= value << 8,
            Place::Density => self.screen_type |= value << 16,
            Place::Keyboard => self.input |= value,
            Place::Navigation => self.input |= value << 8,
            Place::KeysHidden | Place::NavHidden => self.input |= value << 16,
            Place::Gender => self.input |= value << 24,
            Place::PixelSize => self.screen_size = value,
            Place::Version => self.version = value,
            Place::LayoutDir | Place::Size | Place::Long => self.screen_config |= value,
            Place::UiType | Place::Night => self.screen_config |= value << 8,
            Place::SmallestWidth => self.screen_config |= value << 16,
            Place::WidthDp => self.screen_size_dp |= value,
            Place::HeightDp => self.screen_size_dp |= value << 16,
            Place::Round => self.screen_config_2 |= value,
            Place::WideGamut | Place::Hdr => self.screen_config_2 |= value << 8,
        }
    }

    /// The 64 bytes of the record.
    fn bytes(&self) -> [u8; 64] {
        let mut bytes = [0; 64];
        let words = [
            (0, 64),
            (4, self.imsi),
            (8, u32::from_le_bytes(self.locale)),
            (12, self.screen_type),
            (16, self.input),
            (20, self.screen_size),
            (24, self.version),
            (28, self.screen_config),
            (32, self.screen_size_dp),
            (48, self.screen_config_2),
        ];
        for (at, word) in words {
            bytes[at..at + 4].copy_from_slice(&word.to_le_bytes());
        }
        bytes
    }
}

/// The record of a name, or the offset of the first part that ends none.
pub fn read(name: &[u8]) -> Result<[u8; 64], usize> {
    let mut config = Config::default();
    if name.is_empty() {
        return Ok(config.bytes());
    }
    let (mut last, mut at) = (Place::Start, 0);
    for part in name.split(|byte| *byte == b'-') {
        // an empty part in front ends the empty name
        if part.is_empty() {
            return Err(at.max(1));
        }
        let (place, value) = part_of(part).ok_or(at)?;
        if place <= last || place == Place::Region && last != Place::Language {
            return Err(at);
        }
        config.put(place, value);
        last = place;
        at += part.len() + 1;
    }
    Ok(config.bytes())
}
