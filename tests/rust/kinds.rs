//! The questions on 000's flags and on its sixteen kinds.
use crate::questions::Asked;
use crate::sheets::SHEET;
use crate::subject::*;

/// The kinds of question of this file, and the one on sheets. A payload is a number of two bytes, or of one where a row of the
/// flags is asked; a sheet's is a record.
pub const ASKED: &[Asked] = &[
    kind!(0, u8, GrammaticalGender: Neuter, Feminine, Masculine, Any),
    kind!(1, u8, LayoutDir: Ltr, Rtl, Any(v)),
    kind!(2, u8, ScreenSize: Small, Normal, Large, XLarge, Any(v)),
    kind!(3, u8, ScreenLong: No, Yes, Any(v)),
    kind!(4, u8, ScreenRound: No, Yes, Any(v)),
    kind!(5, u8, WideColorGamut: No, Yes, Any(v)),
    kind!(6, u8, Hdr: No, Yes, Any(v)),
    kind!(7, u8, Orientation: Any, Port, Land, Square, Unknown(v)),
    kind!(8, u8, UIMode: Any, Normal, Desk, Car, Television, Appliance, Watch, VRHeadset, Unknown(v)),
    kind!(9, u8, UIModeNight: Any, No, Yes, Unknown(v)),
    kind!(10, u16, Density: Default, Low, Medium, TV, High, XHigh, XXHigh, XXXHigh, Any, None, Unknown(v)),
    kind!(11, u8, Touchscreen: Any, NoTouch, Stylus, Finger, Unknown(v)),
    kind!(12, u8, KeysHidden: Any, No, Yes, Soft, Unknown),
    kind!(13, u8, Keyboard: Any, NoKeys, Qwerty, Key12, Unknown(v)),
    kind!(14, u8, NavHidden: Any, No, Yes, Unknown(v)),
    kind!(15, u8, Navigation: Any, NoNav, Dpad, Trackball, Wheel, Unknown(v)),
    Asked {
        tag: 16,
        name: "ResTableConfigFlags",
        full: |_| rows(),
        fixed: rows,
        answer: |row| {
            let flag = ResTableConfigFlags::FLAGS.get(usize::from(row[0]));
            flag.map_or(0, ResTableConfigFlags::bits).to_le_bytes().to_vec()
        },
        replacements_at: None,
    },
    Asked {
        tag: 17,
        name: "Density there and back",
        full: |_| every(u16::MAX),
        fixed: u16::few,
        answer: |n| u16::from(Density::from(number(n))).to_le_bytes().to_vec(),
        replacements_at: None,
    },
    SHEET,
];

/// What 000 makes of a number for one of the sixteen, counted from 0: the case with what it holds, and the words.
pub fn kind_of(at: usize, number: u16) -> (Vec<u8>, String) {
    let mut case = (ASKED[at].answer)(&number.to_le_bytes());
    let words = case.split_off(3);
    (case, String::from_utf8(words).expect("words are UTF-8"))
}

/// A row for one of the sixteen, its cases in their order of declaration: the answer is the case, what it holds or 0, the words.
macro_rules! kind {
    ($tag:literal, $number:ident, $kind:ident: $($case:ident $(($held:ident))?),+) => {
        Asked {
            tag: $tag,
            name: stringify!($kind),
            full: |_| every($number::MAX.into()),
            fixed: $number::few,
            answer: |n| {
                enum Place { $($case),+ }
                let kind = $kind::from(number(n) as $number);
                let (case, held) = match kind {
                    $($kind::$case $(($held))? => (Place::$case as u8, 0u16 $(+ u16::from($held))?),)+
                };
                let mut answer = vec![case];
                answer.extend(held.to_le_bytes());
                answer.extend(kind.to_string().bytes());
                answer
            },
            replacements_at: None,
        }
    };
}
use kind;

/// The numbers of a type that the fixed list asks about.
trait Few {
    const FEW: &'static [u16];

    fn few() -> Vec<Vec<u8>> {
        Self::FEW.iter().map(|n| n.to_le_bytes().to_vec()).collect()
    }
}

/// Of a byte: what the kinds name, and some between.
impl Few for u8 {
    const FEW: &'static [u16] = &[0, 1, 2, 3, 4, 5, 6, 7, 8, 12, 15, 16, 32, 48, 64, 119, 128, 192, 214, 255];
}

/// Of a density: what 000 names with its neighbours, and each number of digits.
impl Few for u16 {
    const FEW: &'static [u16] = &[
        0, 1, 9, 10, 99, 100, 119, 120, 121, 159, 160, 161, 212, 213, 214, 239, 240, 241, 255, 256, 319, 320, 321, 479,
        480, 481, 639, 640, 641, 999, 1000, 9999, 10000, 32767, 32768, 60000, 65532, 65533, 65534, 65535,
    ];
}

/// Every number up to the last.
fn every(last: u16) -> Vec<Vec<u8>> {
    (0..=last).map(|n| n.to_le_bytes().to_vec()).collect()
}

/// Every row of the flags, and one past the last.
fn rows() -> Vec<Vec<u8>> {
    (0..=20).map(|row| vec![row]).collect()
}

/// The number that a payload holds.
fn number(payload: &[u8]) -> u16 {
    u16::from_le_bytes([payload[0], payload[1]])
}
