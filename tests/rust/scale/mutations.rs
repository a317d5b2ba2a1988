//! Questions on mutations of records as files have them: each that is mutated goes to every call, to those on chunks in a chunk around it, and to the one on
//! names as its text. The one on words of marks takes no bytes, and has a word of its own; the one that finds a record is lent entries of it and of others.
use super::chunks::around;
use super::indexes::entries_of;
use super::inputs::question;
use super::{Call, Question, Source, CALLS};
use crate::listed::{taken, MOST};
use crate::payloads::{declare, one, ENDS};
use crate::questions::Random;
use crate::spellings::real;

/// Changes some bytes; the others are at hand.
type Mutation = fn(&mut Random, &mut Vec<u8>, &[Vec<u8>]);

/// The mutations with their names.
const MUTATIONS: [(&str, Mutation); 8] = [
    ("bit flip", flip),
    ("byte set", set),
    ("field copy", copy_field),
    ("size edit", edit_size),
    ("truncation", truncate),
    ("insertion", insert),
    ("concatenation", append),
    ("repetition", repeat),
];

/// How many records there are to mutate, and the longest that is kept for more.
const KEPT: usize = 4096;
const KEPT_LENGTH: usize = 1024;

/// An offset in some bytes, or behind them where there are none.
fn offset(random: &mut Random, bytes: &[u8]) -> usize {
    random.below(bytes.len().max(1))
}

/// Turns one bit.
fn flip(random: &mut Random, bytes: &mut Vec<u8>, _: &[Vec<u8>]) {
    let (at, bit) = (offset(random, bytes), random.below(8));
    if let Some(byte) = bytes.get_mut(at) {
        *byte ^= 1 << bit;
    }
}

/// Sets one byte to a number at an end.
fn set(random: &mut Random, bytes: &mut Vec<u8>, _: &[Vec<u8>]) {
    let (at, value) = (offset(random, bytes), one(random, &[0, 1, 0x7f, 0x80, 0xff]));
    if let Some(byte) = bytes.get_mut(at) {
        *byte = value;
    }
}

/// Takes a field from another.
fn copy_field(random: &mut Random, bytes: &mut Vec<u8>, others: &[Vec<u8>]) {
    let (other, at) = (&others[random.below(others.len())], 1 + random.below(14));
    let field = ENDS[at - 1]..ENDS[at];
    if let (Some(to), Some(from)) = (bytes.get_mut(field.clone()), other.get(field)) {
        to.copy_from_slice(from);
    }
}

/// Declares another size: about as many bytes as there are, one at or beside a field's end, or any.
fn edit_size(random: &mut Random, bytes: &mut Vec<u8>, _: &[Vec<u8>]) {
    let size = match random.below(8) {
        0..=3 => (bytes.len() + random.below(3)).saturating_sub(1),
        4 | 5 => one(random, &ENDS) + random.below(3) - 1,
        6 => random.below(MOST + 1),
        _ => random.next() as u32 as usize,
    };
    declare(bytes, size);
}

/// Cuts the end off.
fn truncate(random: &mut Random, bytes: &mut Vec<u8>, _: &[Vec<u8>]) {
    let length = random.below(bytes.len() + 1);
    bytes.truncate(length);
}

/// Puts bytes in between, zero or any.
fn insert(random: &mut Random, bytes: &mut Vec<u8>, _: &[Vec<u8>]) {
    let (at, count) = (random.below(bytes.len() + 1), 1 + random.below(16));
    let new = if random.below(2) == 0 { vec![0; count] } else { random.bytes(count) };
    bytes.splice(at..at, new);
}

/// Puts another behind.
fn append(random: &mut Random, bytes: &mut Vec<u8>, others: &[Vec<u8>]) {
    bytes.extend(&others[random.below(others.len())]);
}

/// Puts the same behind again: up to eight times, and one in 64 times to about 65,536 bytes.
fn repeat(random: &mut Random, bytes: &mut Vec<u8>, _: &[Vec<u8>]) {
    if bytes.is_empty() {
        return;
    }
    let times = 1 + random.below(8);
    let length = if random.below(64) == 0 { MOST - 40 + random.below(80) } else { bytes.len() * times };
    *bytes = bytes.iter().copied().cycle().take(length.min(2 * MOST)).collect();
}

/// What stands to be mutated; and the last that was, with what it came of, its last mutation, and how many calls it has gone to.
pub struct Mutated {
    random: Random,
    kept: Vec<Vec<u8>>,
    bytes: Vec<u8>,
    came_of: Vec<u8>,
    sort: usize,
    calls: usize,
}

impl Mutated {
    pub fn new(seed: u64) -> Mutated {
        let mut random = Random(seed);
        let kept = (0..KEPT).map(|_| real(&mut random)).collect();
        Mutated { random, kept, bytes: vec![], came_of: vec![], sort: 0, calls: CALLS.len() }
    }

    /// Mutates one of those that are kept, one to four times. In its stead what comes of it may be kept, or a new record.
    fn mutate(&mut self) {
        let random = &mut self.random;
        let at = random.below(KEPT);
        self.came_of.clone_from(&self.kept[at]);
        let mut bytes = self.kept[at].clone();
        for _ in 0..=random.below(4) {
            self.sort = random.below(MUTATIONS.len());
            MUTATIONS[self.sort].1(random, &mut bytes, &self.kept);
        }
        match random.below(8) {
            0 => self.kept[at] = real(random),
            1 | 2 if bytes.len() <= KEPT_LENGTH => self.kept[at] = bytes.clone(),
            _ => (),
        }
        self.bytes = bytes;
    }

    /// A chunk around the last that was mutated, itself mutated one in four times.
    fn in_chunk(&mut self) -> Vec<u8> {
        let (longer, behind) = (self.random.below(3), self.random.below(3));
        let mut bytes = around(&mut self.random, &self.bytes, longer, behind);
        if self.random.below(4) == 0 {
            let mutation = one(&mut self.random, &[flip, set, truncate, insert]);
            mutation(&mut self.random, &mut bytes, &self.kept);
        }
        bytes
    }

    /// The text that 000 gives to the record that was mutated, itself mutated one in four times; what isn't whole is its own text.
    fn text(&mut self) -> Vec<u8> {
        let text = taken(&self.bytes).map(|(record, _)| record.as_string().into_bytes());
        let mut text = text.unwrap_or_else(|| self.bytes.clone());
        if self.random.below(4) == 0 {
            let mutation = one(&mut self.random, &[flip, set, truncate, insert, append]);
            mutation(&mut self.random, &mut text, &self.kept);
        }
        text
    }
}

impl Source for Mutated {
    fn sorts(&self) -> Vec<&'static str> {
        MUTATIONS.map(|(name, _)| name).to_vec()
    }

    fn next(&mut self) -> Option<Question> {
        if self.calls == CALLS.len() {
            self.mutate();
            self.calls = 0;
        }
        let call = CALLS[self.calls].0;
        self.calls += 1;
        let second = match call {
            Call::Order if self.random.below(2) == 0 => self.came_of.clone(),
            Call::Order => self.kept[self.random.below(KEPT)].clone(),
            Call::Find => {
                let kept = &self.kept[self.random.below(KEPT)];
                entries_of(&mut self.random, &[kept, &self.came_of, &self.bytes])
            }
            _ => vec![],
        };
        let first = match call {
            Call::Named => self.text(),
            Call::MarksLetters => vec![],
            call if (call as usize) < Call::TypeTake as usize => self.bytes.clone(),
            _ => self.in_chunk(),
        };
        Some(question(&mut self.random, self.sort, call, first, second))
    }
}
