//! The questions on an offset of a run: the step there, the run reader, text, marks, and whether a record is held back. 000 has
//! neither runs nor ages: the answers are 01's rules over what it parses and says.
use crate::cut::Refused;
use crate::listed::{held_back, stop, NOT_GIVEN};
use crate::payloads::{all_of, declare, declared, few_of, many, one, record, sizes_at_lengths, Maker, ENDS, RECORDS};
use crate::questions::{Asked, Random};
use crate::records::{at_every_age, fields, told};
use crate::replaced::in_record;
use crate::scale::expected::{age, wanted, whole};
use crate::scale::inputs::{any_age, cursor, long_run, room, run};
use crate::scale::Call;
use crate::spellings::{PLACES, SPELLED};
use crate::spoilt::{counted_by_hand, SPOILT};

/// A row of this file: an answer to what is asked at an offset, by which makers, and where it has the replacements of a text.
macro_rules! at_a_place {
    ($tag:literal, $name:literal, $makers:expr, $answer:expr, $replacements_at:expr) => {
        Asked {
            tag: $tag,
            name: $name,
            full: |random| all_of($makers, random),
            fixed: || few_of($makers, 28),
            answer: |payload| {
                let answer: fn(AtOffset) -> Vec<u8> = $answer;
                answer(AtOffset::read(payload))
            },
            replacements_at: $replacements_at,
        }
    };
}

/// The rows of the questions.
pub const STEP_AT: Asked = at_a_place!(37, "step_at", AT_AGES, |at| stepped(&at, at.age), None);
pub const READ_AT: Asked = at_a_place!(38, "read_at", AT_AGES, |at| stepped(&at, at.age), None);
pub const SOUGHT: Asked = at_a_place!(39, "RunReader::new, moved", AT_OFFSETS, |at| stepped(&at, NOT_GIVEN), None);
pub const HELD_BACK: Asked = at_a_place!(40, "held_back", AT_AGES, held, None);
pub const TEXT_AT: Asked = at_a_place!(41, "text_at", AT_AGES, |at| wrote(at, Call::AgedText), Some(20));
pub const MARKS_AT: Asked = at_a_place!(42, "marks_at", AT_AGES, |at| wrote(at, Call::Marks), None);
pub const WALK: Asked = at_a_place!(45, "walk", AT_OFFSETS, walked, None);

/// What the questions are asked about whose call takes no age.
const AT_OFFSETS: &[Maker] = &[everywhere, one_late, in_runs, of_records, spoilt, in_long_runs, cut_at_an_age];

/// What the others are asked about.
const AT_AGES: &[Maker] = &[everywhere, one_late, in_runs, of_records, spoilt, in_long_runs, cut_at_every_age];

/// What a payload holds: an age, an offset, the bytes that are lent, and the run.
struct AtOffset<'a> {
    age: u32,
    offset: u64,
    lent: &'a [u8],
    run: &'a [u8],
}

impl AtOffset<'_> {
    /// What a payload holds.
    fn read(payload: &[u8]) -> AtOffset<'_> {
        let number = |at: usize| u32::from_le_bytes(payload[at..at + 4].try_into().expect("four bytes"));
        let (lent, run) = payload[16..].split_at(number(12) as usize);
        AtOffset { age: number(0), offset: u64::from(number(8)) << 32 | u64::from(number(4)), lent, run }
    }

    /// The payload that holds it.
    fn payload(&self) -> Vec<u8> {
        let lent = u32::try_from(self.lent.len()).expect("a length fits four bytes");
        let numbers = [&self.age.to_le_bytes()[..], &self.offset.to_le_bytes(), &lent.to_le_bytes()];
        [&numbers.concat(), self.lent, self.run].concat()
    }

    /// The bytes from the offset on, none where it is past them.
    fn rest(&self) -> &[u8] {
        self.run.get(self.offset as usize..).unwrap_or(&[])
    }
}

/// A payload at an offset, with as many bytes lent as its text or its marks may ask for.
fn at_offset(random: &mut Random, age: u32, offset: u64, run: &[u8]) -> Vec<u8> {
    let call = one(random, &[Call::AgedText, Call::Marks]);
    let mut asked = AtOffset { age, offset, lent: &[], run };
    let (_, count) = room(random, &wanted(call, age, 0, 0, asked.rest()));
    let lent = random.bytes(count);
    asked.lent = &lent;
    asked.payload()
}

/// Short runs at every offset to past their end, at every age and at numbers that are none.
fn everywhere(random: &mut Random) -> Vec<Vec<u8>> {
    let mut tail = record(random, 72);
    tail[64..].fill(0);
    let runs = [
        vec![],
        [vec![0; 16], vec![1, 2, 3]].concat(),
        [declared(random, 20, 20), record(random, 44), vec![0; 16]].concat(),
        [tail, declared(random, 65, 65)].concat(),
    ];
    let ages: Vec<u32> = ENDS[3..].iter().map(|end| *end as u32).chain([0, 44, 65, u32::MAX]).collect();
    let mut made = Vec::new();
    for run in &runs {
        for offset in 0..run.len() as u64 + 18 {
            made.extend(ages.iter().map(|age| at_offset(random, *age, offset, run)));
        }
    }
    made
}

/// A record with one byte that isn't zero, right before each age, at it, right behind it, and the record's last.
fn one_late(random: &mut Random) -> Vec<Vec<u8>> {
    let offsets = ENDS[3..].iter().flat_map(|age| [age - 1, *age, age + 1, 71].map(|at| (*age, at)));
    offsets
        .map(|(age, at)| {
            let mut bytes = vec![0; 72];
            declare(&mut bytes, 72);
            bytes[at] = 1 + random.below(255) as u8;
            at_offset(random, age as u32, 16, &[vec![0; 16], bytes].concat())
        })
        .collect()
}

/// A payload at some offset and some age.
fn anywhere(random: &mut Random, run: &[u8]) -> Vec<u8> {
    let (age, (_, offset)) = (any_age(random), cursor(random, run));
    at_offset(random, age, offset, run)
}

/// Offsets of runs of up to 24 records.
fn in_runs(random: &mut Random) -> Vec<Vec<u8>> {
    many(12_000, random, |random| {
        let bytes = run(random);
        anywhere(random, &bytes)
    })
}

/// Records of every other sort, each by itself.
fn of_records(random: &mut Random) -> Vec<Vec<u8>> {
    let pool = [PLACES, SPELLED, RECORDS].map(|makers| all_of(makers, random)).concat();
    (0..8_000)
        .map(|_| {
            let bytes = &pool[random.below(pool.len())];
            anywhere(random, bytes)
        })
        .collect()
}

/// Spoilt locales behind a blank record: those that are counted by hand at every age, and others, every other one at 64.
fn spoilt(random: &mut Random) -> Vec<Vec<u8>> {
    let mut asked = Vec::new();
    for bytes in counted_by_hand(random) {
        asked.extend(ENDS[3..].iter().map(|age| (*age as u32, bytes.clone())));
    }
    let pool = all_of(SPOILT, random);
    for _ in 0..4_000 {
        let age = if random.below(2) == 0 { 64 } else { any_age(random) };
        asked.push((age, pool[random.below(pool.len())].clone()));
    }
    asked.into_iter().map(|(age, bytes)| at_offset(random, age, 16, &[vec![0; 16], bytes].concat())).collect()
}

/// Bytes that declare a size, by themselves or behind a blank record, with few bytes lent or none.
fn cut_at(random: &mut Random, age: u32, size: usize, length: usize) -> Vec<u8> {
    let (lent, offset) = (random.below(16), 16 * random.below(2));
    let run = [vec![0; offset], declared(random, size, length)].concat();
    AtOffset { age, offset: offset as u64, lent: &vec![7; lent], run: &run }.payload()
}

/// Every size at every length, where both are small at every age, else at one.
fn cut_at_every_age(random: &mut Random) -> Vec<Vec<u8>> {
    at_every_age(random).into_iter().map(|(age, size, length)| cut_at(random, age, size, length)).collect()
}

/// Every size at every length, each at one of the ages.
fn cut_at_an_age(random: &mut Random) -> Vec<Vec<u8>> {
    let pairs = sizes_at_lengths().into_iter().flat_map(|(_, pairs)| pairs);
    pairs
        .map(|(size, length)| {
            let age = one(random, &ENDS[3..]) as u32;
            cut_at(random, age, size, length)
        })
        .collect()
}

/// Offsets of runs of up to 65,536 bytes.
fn in_long_runs(random: &mut Random) -> Vec<Vec<u8>> {
    many(60, random, |random| {
        let bytes = long_run(random);
        anywhere(random, &bytes)
    })
}

/// The step at an offset for a reader of an age: whether a record is found, where the next step goes on, and what the reader gives
/// of the record. An age is the end of a field, so that what the reader doesn't know are the bytes from there on.
fn stepped(at: &AtOffset, number: u32) -> Vec<u8> {
    let found = age(number).and_then(|age| match at.offset.cmp(&(at.run.len() as u64)) {
        std::cmp::Ordering::Equal => Ok(None),
        _ => whole(at.rest()).map(|(record, amount)| Some((fields(&record)[..age].to_vec(), amount))),
    });
    let (told, amount, mut known) = match found {
        Ok(Some((known, amount))) => (told(Ok(1)), amount, known),
        Ok(None) => (told(Ok(0)), 0, vec![]),
        Err(why) => (told(Err(why)), 0, vec![]),
    };
    known.resize(64, 0);
    [told, (at.offset + amount as u64).to_le_bytes().to_vec(), known].concat()
}

/// Whether the record at an offset is held back.
fn held(at: AtOffset) -> Vec<u8> {
    told(age(at.age).and_then(|age| Ok(held_back(&at.rest()[..whole(at.rest())?.1], age).into())))
}

/// Why the run from an offset on stops, where, and how many records it has.
fn walked(at: AtOffset) -> Vec<u8> {
    let (mut end, mut records) = (at.offset as usize, 0u64);
    while let Ok((_, amount)) = whole(at.run.get(end..).unwrap_or(&[])) {
        end += amount;
        records += 1;
    }
    let why = Some(stop(at.run, end)).filter(|why| why.number > 0);
    [told(why.map_or(Ok(0), Err)), (end as u64).to_le_bytes().to_vec(), records.to_le_bytes().to_vec()].concat()
}

/// What a call that writes tells, how many replacements its text has, and the lent bytes as it leaves them. Marks have none, nor has a call
/// that is refused made any.
fn wrote(at: AtOffset, call: Call) -> Vec<u8> {
    let (mut left, mut replacements) = (at.lent.to_vec(), 0);
    let told = match wanted(call, at.age, 0, 0, at.rest()) {
        Ok(bytes) if bytes.len() <= left.len() => {
            left[..bytes.len()].copy_from_slice(&bytes);
            if call == Call::AgedText {
                replacements = whole(at.rest()).map_or(0, |(record, _)| in_record(&record)) as u64;
            }
            told(Ok(bytes.len()))
        }
        Ok(_) => told(Err(Refused::with(5))),
        Err(why) => told(Err(why)),
    };
    [told, replacements.to_le_bytes().to_vec(), left].concat()
}
