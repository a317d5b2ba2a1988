//! Questions on names of directories.
use super::expected::wanted;
use super::inputs::{bare, Room};
use super::{Call, Question, Source};
use crate::names::{RECORD, SORTS};
use crate::payloads::one;
use crate::questions::Random;

/// The sort at hand, its names that wait to be asked about, and the questions of the last.
pub struct Names {
    random: Random,
    sorts: usize,
    names: std::vec::IntoIter<Vec<u8>>,
    questions: Vec<Question>,
}

impl Names {
    pub fn new(seed: u64) -> Names {
        Names { random: Random(seed), sorts: 0, names: vec![].into_iter(), questions: vec![] }
    }

    /// The next name; none behind those of the last sort.
    fn name(&mut self) -> Option<Vec<u8>> {
        loop {
            if let Some(name) = self.names.next() {
                return Some(name);
            }
            let (_, make) = SORTS.get(self.sorts)?;
            self.names = make(&mut self.random).into_iter();
            self.sorts += 1;
        }
    }

    /// A question on a name with room for its record, and one in four times another with too little; on a name that is refused, with any room.
    fn ask(&mut self, name: Vec<u8>) {
        let random = &mut self.random;
        let wanted = wanted(Call::Named, 0, 0, 0, &name);
        let short = [(Room::Nothing, 0), (Room::OneShort, RECORD - 1)];
        let more = RECORD + 1 + random.below(40);
        let enough = [(Room::Exact, RECORD), (Room::Longer, more), (Room::Large, 4096)];
        let rooms = match wanted {
            Err(_) => vec![one(random, &[short[0], short[1], enough[0], enough[1], enough[2]])],
            Ok(_) if random.below(4) == 0 => vec![one(random, &enough), one(random, &short)],
            Ok(_) => vec![one(random, &enough)],
        };
        let sort = self.sorts - 1;
        let asked =
            |(room, lent)| Question { room, lent, wanted: wanted.clone(), ..bare(sort, Call::Named, 0, name.clone()) };
        self.questions = rooms.into_iter().map(asked).collect();
    }
}

impl Source for Names {
    fn sorts(&self) -> Vec<&'static str> {
        SORTS.map(|(name, _)| name).to_vec()
    }

    fn numbers(&self) -> &'static [usize] {
        &[0, 5, 11]
    }

    fn texts(&self) -> bool {
        false
    }

    fn next(&mut self) -> Option<Question> {
        if self.questions.is_empty() {
            let name = self.name()?;
            self.ask(name);
        }
        self.questions.pop()
    }
}
