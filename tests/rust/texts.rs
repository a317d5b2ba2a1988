//! The questions on texts: of a record, of its locale, of a language, of a region and of a subtag.
use crate::payloads::{all_of, few_of, RECORDS};
use crate::questions::Asked;
use crate::records::answered;
use crate::replaced::{held_in_record, held_in_subtag};
use crate::scale::expected::whole;
use crate::spellings::{told, CODES, PAIRS, PLACES, SPELLED, SUBTAGS, TOLD_PAIRS};
use crate::spoilt::{PIECES, SPOILT};
use crate::subject::{reach, ResTableConfig};

/// The kinds of question of this file. Bytes that hold no whole record are answered by the refusal of `answered`, the others by `text`.
pub const ASKED: &[Asked] = &[
    Asked {
        tag: 48,
        name: "as_string",
        full: |random| [PLACES, CODES, SPELLED, SPOILT, RECORDS].map(|makers| all_of(makers, random)).concat(),
        fixed: || {
            let few = [few_of(PLACES, 35), few_of(SPELLED, 20), few_of(SPOILT, 26), few_of(RECORDS, 12)];
            [told(), few.concat()].concat()
        },
        answer: |bytes| answered(whole(bytes).map(|(record, _)| of_record(&record, record.as_string()))),
        replacements_at: REPLACEMENTS_AT,
    },
    Asked {
        tag: 49,
        name: "append_dir_locale",
        full: |random| [SPELLED, SPOILT].map(|makers| all_of(makers, random)).concat(),
        fixed: || [few_of(SPELLED, 20), few_of(SPOILT, 26)].concat(),
        answer: |bytes| {
            answered(whole(bytes).map(|(record, _)| {
                let mut text = String::new();
                reach::append_dir_locale(&record, &mut text);
                of_record(&record, text)
            }))
        },
        replacements_at: REPLACEMENTS_AT,
    },
    Asked {
        tag: 50,
        name: "unpack_language",
        full: |random| all_of(PAIRS, random),
        fixed: || [TOLD_PAIRS.map(Vec::from).to_vec(), few_of(PAIRS, 30)].concat(),
        answer: |pair| {
            let pair = [pair[0], pair[1]];
            of_bytes(&reach::language_bytes(pair), reach::unpack_language(pair))
        },
        replacements_at: REPLACEMENTS_AT,
    },
    Asked {
        tag: 51,
        name: "unpack_region",
        full: |random| all_of(PAIRS, random),
        fixed: || [TOLD_PAIRS.map(Vec::from).to_vec(), few_of(PAIRS, 30)].concat(),
        answer: |pair| {
            let pair = [pair[0], pair[1]];
            of_bytes(&reach::region_bytes(pair), reach::unpack_region(pair))
        },
        replacements_at: REPLACEMENTS_AT,
    },
    Asked {
        tag: 52,
        name: "subtag",
        full: |random| [SUBTAGS, PIECES].map(|makers| all_of(makers, random)).concat(),
        fixed: || [few_of(SUBTAGS, 20), few_of(PIECES, 20)].concat(),
        answer: |bytes| of_bytes(bytes, reach::subtag(bytes)),
        replacements_at: REPLACEMENTS_AT,
    },
];

/// Where an answer has the replacements.
const REPLACEMENTS_AT: Option<usize> = Some(1);

/// The answer that gives a text: 0, its replacements in eight bytes, the text.
fn text(replacements: usize, text: String) -> Vec<u8> {
    [&[0], &(replacements as u64).to_le_bytes()[..], text.as_bytes()].concat()
}

/// The answer on a text of a record.
fn of_record(record: &ResTableConfig, said: String) -> Vec<u8> {
    text(held_in_record(record, &said), said)
}

/// The answer on the subtag that some bytes make.
fn of_bytes(bytes: &[u8], said: String) -> Vec<u8> {
    text(held_in_subtag(bytes, &said), said)
}
