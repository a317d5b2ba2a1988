//! Questions on marks, as letters and in one word. Every input of every sort of inputs.rs is taken for a run, but for a pair, which is two: each record
//! up to where the run stops is asked about at every age, and what stands there at one. Behind them come words by themselves.
use super::chunks::records;
use super::expected::{wanted, word_of, writes, Wanted};
use super::inputs::{any_age, bare, For, Room, NO_AGES, SORTS};
use super::{Call, Question, Source};
use crate::marks_word::held;
use crate::payloads::{one, parts, ENDS};
use crate::questions::Random;
use std::collections::HashSet;
use std::vec::IntoIter;

/// How many bytes behind a record stand in a question on it.
const BEHIND: usize = 16;

/// How many words there are of either random sort.
const COUNT: usize = 100_000;

/// Makes the words of a sort.
type Maker = fn(&mut Random) -> Vec<u32>;

/// The sorts of words, each with its name and whether it is asked about with every room.
const WORDS: [(&str, bool, Maker); 3] = [
    ("words below 2^28", false, |random| (0..COUNT).map(|_| random.next() as u32 >> 4).collect()),
    ("words below 2^32", false, |random| (0..COUNT).map(|_| random.next() as u32).collect()),
    ("bits 28 to 31", true, top_bits),
];

/// What may be lent for fourteen letters: too little, and enough.
const SHORT: [(Room, usize); 2] = [(Room::Nothing, 0), (Room::OneShort, 13)];
const ENOUGH: [(Room, usize); 3] = [(Room::Exact, 14), (Room::Longer, 15), (Room::Large, 4096)];

/// What is lent for a question: room enough, and one in eight times too little as well; for one that is refused any. Nothing where the call doesn't
/// write.
fn rooms(random: &mut Random, call: Call, wanted: &Wanted) -> Vec<(Room, usize)> {
    match wanted {
        _ if !writes(call) => vec![(Room::NotLent, 0)],
        Err(_) => vec![one(random, &[SHORT[0], SHORT[1], ENOUGH[0], ENOUGH[1], ENOUGH[2]])],
        Ok(_) if random.below(8) == 0 => vec![one(random, &SHORT), one(random, &ENOUGH)],
        Ok(_) => vec![one(random, &ENOUGH)],
    }
}

/// Each bit from 28 to 31 alone, with each bit below 28, with all of these, and with any.
fn top_bits(random: &mut Random) -> Vec<u32> {
    let mut words = vec![];
    for top in (28..32).map(|bit| 1 << bit) {
        words.extend([top, top | 0x0fff_ffff]);
        words.extend((0..28).map(|bit| top | 1 << bit));
        words.extend((0..100).map(|_| top | random.next() as u32 >> 4));
    }
    words
}

/// The records of a run, each with what stands right behind it, and once where it stands again behind itself; and what stands where the run stops, if
/// that is anything or there is no record.
fn fronts(run: &[u8]) -> (Vec<&[u8]>, Option<&[u8]>) {
    let records = records(run);
    let end = records.last().map_or(0, |(offset, record)| offset + record.len());
    let rest = Some(&run[end..]).filter(|rest| !rest.is_empty() || records.is_empty());
    let front = |(offset, record): (usize, &[u8])| &run[offset..run.len().min(offset + record.len() + BEHIND)];
    let mut fronts: Vec<_> = records.into_iter().map(front).collect();
    fronts.dedup();
    (fronts, rest)
}

/// How many sorts were begun, the inputs or the words of the last that wait to be asked about, the words of records whose letters were asked for, and
/// the questions of the last input or word.
pub struct Marks {
    random: Random,
    sorts: usize,
    inputs: IntoIter<Vec<u8>>,
    words: IntoIter<u32>,
    known: HashSet<u32>,
    questions: Vec<Question>,
}

impl Marks {
    pub fn new(seed: u64) -> Marks {
        held();
        let (inputs, words) = (vec![].into_iter(), vec![].into_iter());
        Marks { random: Random(seed), sorts: 0, inputs, words, known: HashSet::new(), questions: vec![] }
    }

    /// Asks about the next input or word, or begins the next sort; nothing behind the last.
    fn ask(&mut self) -> Option<()> {
        if let Some(input) = self.inputs.next() {
            self.ask_input(&input);
        } else if let Some(word) = self.words.next() {
            self.put(Call::MarksLetters, word, &[]);
        } else {
            match SORTS.get(self.sorts) {
                Some(sort) => self.inputs = (sort.make)(&mut self.random).into_iter(),
                None => self.words = (WORDS.get(self.sorts - SORTS.len())?.2)(&mut self.random).into_iter(),
            }
            self.sorts += 1;
        }
        Some(())
    }

    /// Asks about some bytes at an age, or about a word.
    fn put(&mut self, call: Call, number: u32, bytes: &[u8]) {
        let (sort, wanted) = (self.sorts - 1, wanted(call, number, 0, 0, bytes));
        let rooms = match sort.checked_sub(SORTS.len()) {
            Some(of_words) if WORDS[of_words].1 => [&SHORT[..], &ENOUGH].concat(),
            _ => rooms(&mut self.random, call, &wanted),
        };
        self.questions.extend(rooms.into_iter().map(|(room, lent)| Question {
            room,
            lent,
            wanted: wanted.clone(),
            ..bare(sort, call, number, bytes.to_vec())
        }));
    }

    /// Asks for the marks of each record of an input, and of what stands where it stops, in both forms.
    fn ask_input(&mut self, input: &[u8]) {
        let runs = match SORTS[self.sorts - 1].taken_for {
            For::Pairs => <[_; 2]>::from(parts(input)).to_vec(),
            For::Every | For::Lines => vec![input],
        };
        for (records, rest) in runs.into_iter().map(fronts) {
            records.into_iter().for_each(|bytes| self.ask_record(bytes));
            if let Some(bytes) = rest {
                let number = any_age(&mut self.random);
                self.put(Call::Marks, number, bytes);
                self.put(Call::MarksWord, number, bytes);
            }
        }
    }

    /// Asks for the marks of a record at every age, for the letters of each word that wasn't there before, and for the word at a number that is no age.
    fn ask_record(&mut self, bytes: &[u8]) {
        for age in ENDS[3..].iter().map(|age| *age as u32) {
            self.put(Call::Marks, age, bytes);
            self.put(Call::MarksWord, age, bytes);
            let word = word_of(bytes, age).expect("the record is whole");
            if self.known.insert(word) {
                self.put(Call::MarksLetters, word, &[]);
            }
        }
        let number = one(&mut self.random, &NO_AGES);
        self.put(Call::MarksWord, number, bytes);
    }
}

impl Source for Marks {
    fn sorts(&self) -> Vec<&'static str> {
        SORTS.iter().map(|sort| sort.name).chain(WORDS.map(|(name, ..)| name)).collect()
    }

    fn numbers(&self) -> &'static [usize] {
        &[0, 1, 2, 3, 5, 8, 12]
    }

    fn texts(&self) -> bool {
        false
    }

    fn next(&mut self) -> Option<Question> {
        while self.questions.is_empty() {
            self.ask()?;
        }
        self.questions.pop()
    }
}
