//! Questions that are made: a sort of input, one of its calls, and a cursor, an age, a size and a room that go with it.
use super::chunks::of_chunks;
use super::expected::{wanted, writes, Wanted};
use super::indexes::entries_of;
use super::{Call, Question, Source};
use crate::listed::{taken, MOST};
use crate::payloads::{
    all_of, around_ends, broken, damaged, every_size, many, not_there, one, parts, record, tails, usual, whole, Maker,
    ENDS, PAIRS,
};
use crate::questions::Random;
use crate::spellings::{real, PLACES, SPELLED};
use crate::spoilt::{counted_by_hand, SPOILT};

/// How many bytes are lent beside what is to be written.
#[derive(Clone, Copy, PartialEq)]
pub enum Room {
    NotLent,
    Nothing,
    OneShort,
    Exact,
    Longer,
    Large,
}

/// Their names, in the same order.
pub const ROOMS: [&str; 6] = ["no buffer", "nothing", "one short", "exact", "longer", "large"];

/// The calls that inputs of any sort go to, those whose answer says most more often.
const GO_TO: [Call; 24] = [
    Call::Take,
    Call::Text,
    Call::Text,
    Call::Text,
    Call::AgedText,
    Call::AgedText,
    Call::AgedText,
    Call::Replaced,
    Call::Replaced,
    Call::Replaced,
    Call::Marks,
    Call::MarksWord,
    Call::Order,
    Call::Index,
    Call::Find,
    Call::FirstLine,
    Call::Line,
    Call::Line,
    Call::Next,
    Call::Walk,
    Call::Records,
    Call::Write,
    Call::Row,
    Call::RecordLine,
];

/// Rooms that are large: at the longest text, at the longest line of a listing and of any record, and far past them.
const LARGE: [usize; 8] = [344, 345, 1069, 1103, 1104, 1105, 2048, 4096];

/// Ages that are none.
pub const NO_AGES: [u32; 18] =
    [0, 1, 4, 8, 12, 15, 17, 33, 42, 44, 56, 63, 65, 128, 256 + 64, 65536 + 16, 1 << 31, u32::MAX];

/// What inputs are taken for.
#[derive(Clone, Copy)]
pub enum For {
    /// Every call; an order takes two.
    Every,
    /// The order of the two records that each holds.
    Pairs,
    /// The lines of a listing.
    Lines,
}

/// A sort of input: its name, how many of a thousand questions it has, what it is for, and what makes it.
pub struct Sort {
    pub name: &'static str,
    weight: usize,
    pub taken_for: For,
    pub make: Maker,
}

/// The sorts.
pub static SORTS: [Sort; 13] = [
    Sort { name: "whole", weight: 130, taken_for: For::Every, make: whole },
    Sort { name: "damaged", weight: 130, taken_for: For::Every, make: damaged },
    Sort { name: "every size", weight: 80, taken_for: For::Every, make: every_size },
    Sort { name: "at field ends", weight: 60, taken_for: For::Every, make: around_ends },
    Sort { name: "to 65,536 bytes", weight: 10, taken_for: For::Every, make: tails },
    Sort { name: "cut short", weight: 20, taken_for: For::Every, make: not_there },
    Sort { name: "every value", weight: 120, taken_for: For::Every, make: |random| all_of(PLACES, random) },
    Sort { name: "spellings", weight: 120, taken_for: For::Every, make: |random| all_of(SPELLED, random) },
    Sort { name: "spoilt", weight: 80, taken_for: For::Every, make: spoilt },
    Sort { name: "pairs", weight: 75, taken_for: For::Pairs, make: |random| all_of(PAIRS, random) },
    Sort { name: "runs", weight: 160, taken_for: For::Every, make: |random| many(20_000, random, run) },
    Sort { name: "runs to 65,536", weight: 10, taken_for: For::Every, make: |random| many(400, random, long_run) },
    Sort { name: "past 65,536", weight: 5, taken_for: For::Lines, make: too_much },
];

/// Spoilt locales, those that are counted by hand a hundred times each, so that each goes to every call at many ages.
fn spoilt(random: &mut Random) -> Vec<Vec<u8>> {
    let by_hand: Vec<_> = (0..100).flat_map(|_| counted_by_hand(random)).collect();
    [by_hand, all_of(SPOILT, random)].concat()
}

/// A record as a run has it: whole but for one in twelve.
fn of_run(random: &mut Random) -> Vec<u8> {
    match random.below(12) {
        0 => broken(random),
        1 | 2 => {
            let size = random.below(81);
            record(random, size)
        }
        3..=6 => usual(random),
        _ => real(random),
    }
}

/// A run of up to 24 records, one in four of them cut.
pub fn run(random: &mut Random) -> Vec<u8> {
    let mut bytes: Vec<u8> = (0..random.below(25)).flat_map(|_| of_run(random)).collect();
    if random.below(4) == 0 {
        bytes.truncate(random.below(bytes.len() + 1));
    }
    bytes
}

/// So many bytes of records that are whole but for the last.
fn run_of(random: &mut Random, length: usize) -> Vec<u8> {
    let zeros = random.below(8) == 0;
    let mut bytes = Vec::new();
    while bytes.len() < length {
        bytes.extend(if zeros { vec![0; 16] } else { real(random) });
    }
    bytes.truncate(length);
    bytes
}

/// A run of up to 65,536 bytes; one in four has just as many.
pub fn long_run(random: &mut Random) -> Vec<u8> {
    let any = 1024 + random.below(MOST - 1024);
    let length = one(random, &[any, any, MOST - 1, MOST]);
    run_of(random, length)
}

/// More bytes than a listing takes.
fn too_much(random: &mut Random) -> Vec<Vec<u8>> {
    many(100, random, |random| {
        let any = MOST + 1 + random.below(1000);
        let length = one(random, &[MOST + 1, MOST + 1, MOST + 16, any, any, 2 * MOST]);
        run_of(random, length)
    })
}

/// Questions made by a seed: of each sort the inputs that wait to be taken.
pub struct Made {
    random: Random,
    waiting: Vec<Vec<Vec<u8>>>,
}

impl Made {
    pub fn new(seed: u64) -> Made {
        Made { random: Random(seed), waiting: SORTS.iter().map(|_| Vec::new()).collect() }
    }

    /// An input of a sort, each that was made once before more are made.
    fn input(&mut self, sort: usize, make: Maker) -> Vec<u8> {
        let waiting = &mut self.waiting[sort];
        if waiting.is_empty() {
            *waiting = make(&mut self.random);
        }
        waiting.swap_remove(self.random.below(waiting.len()))
    }
}

impl Source for Made {
    fn sorts(&self) -> Vec<&'static str> {
        SORTS.iter().map(|sort| sort.name).collect()
    }

    fn next(&mut self) -> Option<Question> {
        let (mut at, mut left) = (0, self.random.below(SORTS.iter().map(|sort| sort.weight).sum()));
        while left >= SORTS[at].weight {
            left -= SORTS[at].weight;
            at += 1;
        }
        let sort = &SORTS[at];
        let first = self.input(at, sort.make);
        Some(match sort.taken_for {
            For::Pairs => {
                let (a, b) = parts(&first);
                question(&mut self.random, at, Call::Order, a.to_vec(), b.to_vec())
            }
            For::Lines => {
                let call = one(&mut self.random, &[Call::FirstLine, Call::Line, Call::Next]);
                question(&mut self.random, at, call, first, vec![])
            }
            For::Every => {
                let call = one(&mut self.random, &GO_TO);
                let second = match call {
                    Call::Order => self.input(at, sort.make),
                    Call::Find => {
                        let other = self.input(at, sort.make);
                        entries_of(&mut self.random, &[&other, &first])
                    }
                    _ => vec![],
                };
                question(&mut self.random, at, call, first, second)
            }
        })
    }
}

/// A call of some bytes, with what goes with it.
pub fn question(random: &mut Random, sort: usize, call: Call, first: Vec<u8>, second: Vec<u8>) -> Question {
    let number = match call {
        Call::Write => size(random, &first),
        Call::MarksLetters => any_word(random),
        _ => any_age(random),
    };
    let (index, offset) = match call {
        Call::Line | Call::Next | Call::Walk | Call::Row | Call::Records | Call::RecordLine => cursor(random, &first),
        // at the front, but for one in four
        call if of_chunks(call) && random.below(4) == 0 => cursor(random, &first),
        _ => (0, 0),
    };
    lent(random, Question { index, offset, second, ..bare(sort, call, number, first) })
}

/// A call of some bytes at their front, with nothing lent.
pub fn bare(sort: usize, call: Call, number: u32, first: Vec<u8>) -> Question {
    let (second, wanted) = (vec![], Ok(vec![]));
    Question { call, number, index: 0, offset: 0, first, second, lent: 0, room: Room::NotLent, sort, wanted }
}

/// A question with what it is to write, and with bytes lent where it writes.
pub fn lent(random: &mut Random, question: Question) -> Question {
    let wanted = wanted(question.call, question.number, question.index, question.offset, &question.first);
    let (room, lent) = if writes(question.call) { room(random, &wanted) } else { (Room::NotLent, 0) };
    Question { wanted, room, lent, ..question }
}

/// An age, and one in six times another number.
pub fn any_age(random: &mut Random) -> u32 {
    match random.below(12) {
        0 => one(random, &NO_AGES),
        1 => random.next() as u32,
        2..=4 => 64,
        _ => one(random, &ENDS[3..]) as u32,
    }
}

/// A word of marks, and one in four times one that may have a bit from 28 up.
fn any_word(random: &mut Random) -> u32 {
    match random.below(8) {
        0 => 1 << (28 + random.below(4)),
        1 => random.next() as u32,
        _ => random.next() as u32 >> 4,
    }
}

/// A size for the writer: the record's own, one at or beside a field's end, or any.
fn size(random: &mut Random, bytes: &[u8]) -> u32 {
    let own = bytes.get(..4).map_or(0, |size| u32::from_le_bytes([size[0], size[1], size[2], size[3]]));
    match random.below(64) {
        0..=23 => own,
        24..=43 => (one(random, &ENDS) + random.below(3)) as u32 - 1,
        44..=53 => random.below(81) as u32,
        54..=62 => 64 + random.below(300) as u32,
        _ => one(random, &[4096, 65535, 65536, 65537, 1 << 31, u32::MAX]),
    }
}

/// A record's index and offset in a run: mostly one that a listing has, else any offset, one past the bytes, or one of no listing.
pub fn cursor(random: &mut Random, bytes: &[u8]) -> (u64, u64) {
    match random.below(16) {
        0..=9 => {
            let (mut index, mut offset) = (0, 0);
            let most = if random.below(3) == 0 { 0 } else { random.below(bytes.len() / 16 + 2) };
            while index < most {
                let Some((_, amount)) = taken(&bytes[offset..]) else { break };
                (index, offset) = (index + 1, offset + amount);
            }
            (index as u64, offset as u64)
        }
        10..=12 => {
            let offset = random.below(bytes.len() + 1);
            (random.below(offset + 1) as u64, offset as u64)
        }
        13 => (random.below(bytes.len() + 1) as u64, (bytes.len() + random.below(100)) as u64),
        14 => (1 + random.below(bytes.len() + 1) as u64, 0),
        _ => one(random, &[(0, 1 << 32), (7, u64::MAX), (u64::MAX, u64::MAX), (u64::MAX, 0), (1 << 40, 1 << 63)]),
    }
}

/// What is lent for a call that is to write something.
pub fn room(random: &mut Random, wanted: &Wanted) -> (Room, usize) {
    let length = match wanted {
        Ok(bytes) => bytes.len(),
        Err(_) => one(random, &[1, 14, 16, 60, 344]),
    };
    match random.below(20) {
        0 => (Room::Nothing, 0),
        1..=6 if length > 0 => (Room::OneShort, length - 1),
        7..=10 => (Room::Longer, length + 1 + random.below(40)),
        11..=13 => (Room::Large, one(random, &LARGE).max(length + 41)),
        _ => (Room::Exact, length),
    }
}
