//! Questions on records that are cut: each size at each length goes to every call, at every age where the call takes one.
use super::inputs::{bare, lent};
use super::{Call, Question, Source};
use crate::indexed::index;
use crate::payloads::{declare, declared, sizes_at_lengths, ENDS};
use crate::questions::Random;

/// The calls that take an age.
const AGED: [Call; 7] =
    [Call::AgedText, Call::Replaced, Call::Marks, Call::MarksWord, Call::Line, Call::Next, Call::RecordLine];

/// The calls on a run.
const RUNS: [Call; 3] = [Call::Walk, Call::Row, Call::Records];

/// Sizes with lengths that wait to be asked about, each with its sort, and the questions of the last.
pub struct Cuts {
    random: Random,
    sorts: Vec<&'static str>,
    pairs: Vec<(usize, (usize, usize))>,
    questions: Vec<Question>,
}

impl Cuts {
    pub fn new(seed: u64) -> Cuts {
        let (sorts, pairs): (Vec<_>, Vec<_>) = sizes_at_lengths().into_iter().unzip();
        let sorted =
            pairs.into_iter().enumerate().flat_map(|(sort, pairs)| pairs.into_iter().map(move |pair| (sort, pair)));
        Cuts { random: Random(seed), sorts, pairs: sorted.rev().collect(), questions: vec![] }
    }

    /// Every question on some bytes: by themselves, as one of two records, and in a run behind a blank record.
    fn ask(&mut self, sort: usize, bytes: &[u8]) {
        let whole = declared(&mut self.random, 64, 64);
        let mut cut = declared(&mut self.random, 64, 64);
        cut.truncate(self.random.below(64));
        let run = [&[0; 16], bytes].concat();
        let plain = |call: Call| bare(sort, call, 64, bytes.to_vec());
        let order = |first: &[u8], second: &[u8]| Question {
            second: second.to_vec(),
            ..bare(sort, Call::Order, 64, first.to_vec())
        };
        let find = |entries: Vec<u8>| Question { second: entries, ..plain(Call::Find) };
        let mut asked = vec![plain(Call::Take), plain(Call::Text), plain(Call::Write), plain(Call::Index)];
        asked.extend([find(vec![]), find(index(&run).unwrap_or_default())]);
        asked.extend([order(bytes, &whole), order(&whole, bytes), order(bytes, &cut), order(&cut, bytes)]);
        for age in &ENDS[3..] {
            asked.extend(AGED.map(|call| bare(sort, call, *age as u32, bytes.to_vec())));
        }
        asked.extend(RUNS.map(plain));
        asked.extend(RUNS.map(|call| bare(sort, call, 64, run.clone())));
        asked.push(bare(sort, Call::Index, 64, run.clone()));
        let line = Question { index: 1, offset: 16, ..bare(sort, Call::Line, 64, run) };
        asked.push(line);
        let random = &mut self.random;
        self.questions = asked.into_iter().map(|question| lent(random, question)).collect();
    }
}

impl Source for Cuts {
    fn sorts(&self) -> Vec<&'static str> {
        self.sorts.clone()
    }

    fn numbers(&self) -> &'static [usize] {
        &[0, 1, 2, 8]
    }

    fn next(&mut self) -> Option<Question> {
        if self.questions.is_empty() {
            let (sort, (size, length)) = self.pairs.pop()?;
            let mut bytes = declared(&mut self.random, size, length);
            if self.random.below(2) == 0 {
                bytes.fill(0);
                declare(&mut bytes, size);
            }
            self.ask(sort, &bytes);
        }
        self.questions.pop()
    }
}
