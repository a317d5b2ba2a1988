//! The questions on records: reading, the accessors, a new density, equality and order, and what the writer gives back.
use crate::cut::Refused;
use crate::payloads::{
    all_of, declared, few_of, many, one, parts, sizes_at_lengths, usual, Maker, ACCESSED, DENSITIES, ENDS, PAIRS,
    RECORDS,
};
use crate::questions::{Asked, Random};
use crate::runs::{HELD_BACK, MARKS_AT, READ_AT, SOUGHT, STEP_AT, TEXT_AT, WALK};
use crate::scale::expected::{age, whole};
use crate::scale::inputs::any_age;
use crate::subject::*;
use std::cmp::Ordering;

/// The kinds of question of this file, and those on an offset of a run. Bytes that hold no whole record are answered by `refused`, but where
/// an answer begins with what the call tells.
pub const ASKED: &[Asked] = &[
    Asked {
        tag: 32,
        name: "parse",
        full: |random| all_of(RECORDS, random),
        fixed: || few_of(RECORDS, 14),
        answer: |bytes| parsed(whole(bytes), 64),
        replacements_at: None,
    },
    Asked {
        tag: 33,
        name: "accessors",
        full: |random| all_of(ACCESSED, random),
        fixed: || few_of(ACCESSED, 16),
        answer: |bytes| answered(whole(bytes).map(|(record, _)| accessed(&record))),
        replacements_at: None,
    },
    Asked {
        tag: 34,
        name: "set_density",
        full: |random| all_of(DENSITIES, random),
        fixed: || few_of(DENSITIES, 20),
        answer: |payload| {
            let (density, bytes) = payload.split_at(2);
            let density = Density::from(u16::from_le_bytes([density[0], density[1]]));
            answered(whole(bytes).map(|(mut record, _)| {
                record.set_density(density);
                fields(&record)
            }))
        },
        replacements_at: None,
    },
    Asked {
        tag: 35,
        name: "eq and cmp",
        full: |random| all_of(PAIRS, random),
        fixed: || few_of(PAIRS, 13),
        answer: |payload| {
            let (first, second) = parts(payload);
            answered(whole(first).and_then(|(a, _)| Ok(compared(&a, &whole(second)?.0))))
        },
        replacements_at: None,
    },
    Asked {
        tag: 36,
        name: "written back",
        full: |random| all_of(RECORDS, random),
        fixed: || few_of(RECORDS, 4),
        answer: |bytes| answered(whole(bytes).map(|(record, _)| written(&record))),
        replacements_at: None,
    },
    STEP_AT,
    READ_AT,
    SOUGHT,
    HELD_BACK,
    TEXT_AT,
    MARKS_AT,
    Asked {
        tag: 43,
        name: "take",
        full: |random| all_of(RECORDS, random),
        fixed: || few_of(RECORDS, 14),
        answer: |bytes| told(whole(bytes).map(|(_, amount)| amount)),
        replacements_at: None,
    },
    Asked {
        tag: 44,
        name: "parse_aged",
        full: |random| all_of(AGED, random),
        fixed: || few_of(AGED, 28),
        answer: |payload| {
            let (number, bytes) = payload.split_first_chunk().expect("four bytes");
            let age = age(u32::from_le_bytes(*number));
            parsed(age.and_then(|_| whole(bytes)), age.unwrap_or(0))
        },
        replacements_at: None,
    },
    WALK,
];

/// An age in four bytes, then a record.
const AGED: &[Maker] = &[every_size_at_every_age, records_at_ages];

/// Every size at every length, where both are small at every age, else at one.
fn every_size_at_every_age(random: &mut Random) -> Vec<Vec<u8>> {
    let asked = at_every_age(random);
    asked
        .into_iter()
        .map(|(age, size, length)| [&age.to_le_bytes()[..], &declared(random, size, length)].concat())
        .collect()
}

/// Each age with each size and length that is asked about where both are to 130, else one of the ages.
pub fn at_every_age(random: &mut Random) -> Vec<(u32, usize, usize)> {
    let [small, others @ ..] = sizes_at_lengths().map(|(_, pairs)| pairs);
    let ages = || ENDS[3..].iter().map(|age| *age as u32);
    let mut asked: Vec<_> =
        small.into_iter().flat_map(|(size, length)| ages().map(move |age| (age, size, length))).collect();
    asked.extend(others.concat().into_iter().map(|(size, length)| (one(random, &ENDS[3..]) as u32, size, length)));
    asked
}

/// Whole records, at ages and at numbers that are none.
fn records_at_ages(random: &mut Random) -> Vec<Vec<u8>> {
    many(12_000, random, |random| [&any_age(random).to_le_bytes()[..], &usual(random)].concat())
}

/// What a refused answer begins with, where it doesn't begin with what the call tells.
const REFUSED: u8 = 0xff;

/// An answer, or the refusal: its number in four bytes, and what it carries in eight.
pub fn answered(answer: Result<Vec<u8>, Refused>) -> Vec<u8> {
    answer.unwrap_or_else(|why| [&[REFUSED], &why.number.to_le_bytes()[..], &why.carried.to_le_bytes()].concat())
}

/// What a call tells: the number in four bytes, the amount in eight, and in eight what a refusal carries.
pub fn told(answer: Result<usize, Refused>) -> Vec<u8> {
    let (why, amount) = answer.map_or_else(|why| (why, 0), |amount| (Refused::with(0), amount as u64));
    [&why.number.to_le_bytes()[..], &amount.to_le_bytes(), &why.carried.to_le_bytes()].concat()
}

/// What parsing tells, and the fields that end within an age; the others are zero, and all are where it is refused. An age is the end of a
/// field, so that what a reader of that age doesn't know are the bytes from there on.
fn parsed(found: Result<(ResTableConfig, usize), Refused>, age: usize) -> Vec<u8> {
    let mut known = found.as_ref().map_or(vec![], |(record, _)| fields(record)[..age].to_vec());
    known.resize(64, 0);
    [told(found.map(|(_, amount)| amount)), known].concat()
}

/// The fifteen fields in their order, 64 bytes: words little-endian, arrays as they are, yes as 1.
pub fn fields(r: &ResTableConfig) -> Vec<u8> {
    let mut bytes = Vec::new();
    let first = [r.size, r.imsi, r.locale, r.screen_type, r.generic_purpose_field, r.screen_size, r.version];
    for word in first.into_iter().chain([r.screen_config, r.screen_size_dp]) {
        bytes.extend(word.to_le_bytes());
    }
    bytes.extend(r.locale_script);
    bytes.extend(r.locale_variant);
    bytes.extend(r.screen_config_2.to_le_bytes());
    bytes.push(r.locale_script_was_computed.into());
    bytes.extend(r.locale_numbering_system);
    bytes.extend(r.end_padding);
    bytes
}

/// What every accessor gives, in 000's order, each number little-endian at its width.
fn accessed(r: &ResTableConfig) -> Vec<u8> {
    let mut answer = Vec::new();
    macro_rules! put {
        ($method:ident: $($number:ident),+) => {
            #[allow(unused_parens)]
            let ($($number),+) = r.$method();
            $(answer.extend($number.to_le_bytes());)+
        };
    }
    put!(get_mcc_mnc: mcc, mnc);
    put!(get_orientation_touchscreen_density: orientation, touchscreen, density);
    put!(get_keyboard_navigation_input_flags: keyboard, navigation, input_flags);
    put!(get_input: input);
    put!(get_grammatical_inflection: inflection);
    put!(get_screen_width_height: width, height);
    put!(get_sdk_minor_version: sdk, minor);
    put!(get_screen_layout_ui_smallest_width: layout, ui_mode, smallest);
    put!(get_screen_width_height_dp: width_dp, height_dp);
    put!(get_screen_layout_2_color_mode: layout_2, color_mode);
    answer
}

/// Whether two records are equal, their order, and their order the other way round: 0 less, 1 equal, 2 greater.
fn compared(a: &ResTableConfig, b: &ResTableConfig) -> Vec<u8> {
    let number = |order| match order {
        Ordering::Less => 0,
        Ordering::Equal => 1,
        Ordering::Greater => 2,
    };
    vec![(a == b).into(), number(a.cmp(b)), number(b.cmp(a))]
}

/// What 01's writer writes for a record: T bytes, zero but for the fields that are read at the record's own size.
pub fn written(record: &ResTableConfig) -> Vec<u8> {
    let (fields, length) = (fields(record), 16.max(record.size as usize));
    let mut bytes = vec![0; length];
    let mut start = 0;
    for end in ENDS.into_iter().take_while(|end| *end <= length) {
        bytes[start..end].copy_from_slice(&fields[start..end]);
        start = end;
    }
    bytes
}
