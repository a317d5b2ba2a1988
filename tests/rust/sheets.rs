//! The question on sheets. 000 has none: the numbers are those of its accessors, the kinds what it makes of them; the network code
//! goes by document 02, K6, and the said bits by a table of this file, which is held to 000's text.
use crate::kinds::kind_of;
use crate::payloads::{all_of, few_of, RECORDS};
use crate::questions::Asked;
use crate::records::answered;
use crate::scale::expected::whole;
use crate::spellings::{told, CODES, PLACES, SPELLED};
use crate::subject::{reach, ResTableConfig};

/// The row of the question.
pub const SHEET: Asked = Asked {
    tag: 18,
    name: "sheet",
    full: |random| [PLACES, CODES, SPELLED, RECORDS].map(|makers| all_of(makers, random)).concat(),
    fixed: || [told(), few_of(PLACES, 40), few_of(SPELLED, 10), few_of(RECORDS, 8)].concat(),
    answer: |bytes| answered(whole(bytes).map(|(record, _)| sheet(&record))),
    replacements_at: None,
};

/// When the place of each kind is said: what its mask leaves of its number, in units of the mask's lowest bit, is from 1 to its
/// last.
const SAID: [(u16, u16); 16] = [
    (0x03, 3),
    (0xc0, 2),
    (0x0f, 4),
    (0x30, 2),
    (0x03, 2),
    (0x03, 2),
    (0x0c, 2),
    (0xff, 255),
    (0x0f, 15),
    (0x30, 3),
    (0xffff, 65535),
    (0xff, 255),
    (0x03, 3),
    (0xff, 255),
    (0x0c, 3),
    (0xff, 255),
];

/// The numbers of the sixteen kinds, in the order of their places.
fn numbers(r: &ResTableConfig) -> [u16; 16] {
    let (orientation, touchscreen, density) = r.get_orientation_touchscreen_density();
    let (keyboard, navigation, flags) = r.get_keyboard_navigation_input_flags();
    let (layout, mode, _) = r.get_screen_layout_ui_smallest_width();
    let (layout_2, color) = r.get_screen_layout_2_color_mode();
    let gender = r.get_grammatical_inflection();
    let front = [gender, layout, layout, layout, layout_2, color, color, orientation, mode, mode].map(u16::from);
    let back = [touchscreen, flags, keyboard, flags, navigation].map(u16::from);
    [&front[..], &[density], &back].concat().try_into().expect("sixteen numbers")
}

/// A place of a text: whether it is said, and its words.
type Place = (bool, String);

/// The place of a number that is said where it isn't 0.
fn plain(number: u16, words: String) -> Place {
    (number != 0, words)
}

/// The twenty-four places, in 01's order.
fn places(r: &ResTableConfig) -> Vec<Place> {
    let numbers = numbers(r);
    let kind = |at: usize| {
        let (mask, last) = SAID[at];
        let said = (1..=last).contains(&((numbers[at] & mask) >> mask.trailing_zeros()));
        (said, kind_of(at, numbers[at]).1)
    };
    let ((mcc, mnc), (width, height)) = (r.get_mcc_mnc(), r.get_screen_width_height_dp());
    let (_, _, smallest) = r.get_screen_layout_ui_smallest_width();
    let mut locale = String::new();
    reach::append_dir_locale(r, &mut locale);
    let mut places = vec![plain(mcc, format!("mcc{mcc}")), plain(mnc, format!("mnc{mnc}"))];
    places.extend([(r.locale.to_le_bytes()[0] != 0, locale), kind(0), kind(1)]);
    places.extend([plain(smallest, format!("sw{smallest}dp")), plain(width, format!("w{width}dp"))]);
    places.push(plain(height, format!("h{height}dp")));
    places.extend((2..16).map(kind));
    let ((side, other), (sdk, minor)) = (r.get_screen_width_height(), r.get_sdk_minor_version());
    let point = if minor == 0 { String::new() } else { format!(".{minor}") };
    places.extend([(r.screen_size != 0, format!("{side}x{other}")), (r.version != 0, format!("v{sdk}{point}"))]);
    places
}

/// The text that the said places make.
fn text(places: &[Place]) -> String {
    let mut text = String::new();
    for (_, words) in places.iter().filter(|place| place.0) {
        if !text.is_empty() {
            text.push('-');
        }
        text += words;
    }
    text
}

/// The network code of a stored number: none of 0, and of any other what 65535 leaves of it, so that 65535 itself states a code
/// of zero, as Android's `ACONFIGURATION_MNC_ZERO` does.
fn network_code(mnc: u16) -> Option<u16> {
    (mnc != 0).then_some(mnc % 0xffff)
}

/// The plain numbers, the case of each kind with what it holds, and the said bits, the first place lowest. The network code is
/// 0 where it is silent, else 1, and its number.
fn sheet(r: &ResTableConfig) -> Vec<u8> {
    let places = places(r);
    assert_eq!(text(&places), r.as_string(), "the said places make another text than 000's");
    let ((mcc, mnc), (width_dp, height_dp)) = (r.get_mcc_mnc(), r.get_screen_width_height_dp());
    let ((width, height), (sdk, minor)) = (r.get_screen_width_height(), r.get_sdk_minor_version());
    let (_, _, smallest) = r.get_screen_layout_ui_smallest_width();
    let code = network_code(mnc);
    let mut answer = mcc.to_le_bytes().to_vec();
    answer.push(code.is_some().into());
    for number in [code.unwrap_or(0), smallest, width_dp, height_dp, width, height, sdk, minor] {
        answer.extend(number.to_le_bytes());
    }
    for (at, number) in numbers(r).into_iter().enumerate() {
        answer.extend(kind_of(at, number).0);
    }
    let said: u32 = places.iter().enumerate().map(|(at, place)| u32::from(place.0) << at).sum();
    answer.extend(said.to_le_bytes());
    answer
}
