//! Questions on the index of a run, and on finding records in entries: in those of the index, and in bytes that no run gives.
use super::chunks::records;
use super::expected::{wanted, whole, Wanted};
use super::inputs::{bare, long_run, run, Room};
use super::{Call, Question, Source};
use crate::indexed::{find, held, index, ENTRY, MOST};
use crate::payloads::{broken, declare, declared, one, record, usual, ENDS};
use crate::questions::Random;
use crate::spellings::real;

/// Makes a run that ends exactly.
type Maker = fn(&mut Random) -> Vec<u8>;

/// The sorts of runs, each with its name, how many there are of it, and what makes one. All of them are 20,000.
const RUNS: [(&str, usize, Maker); 10] = [
    ("no record", 400, |_| vec![]),
    ("any records", 5_000, run),
    ("of a few", 4_000, of_few),
    ("all alike", 2_500, alike),
    ("all distinct", 2_500, |random| {
        let count = random.below(40);
        distinct(random, count, count)
    }),
    ("one byte apart", 5_500, apart),
    ("to 65,536 bytes", 10, long_run),
    ("1,023 distinct", 30, |random| at_most(random, MOST - 1)),
    ("1,024 distinct", 30, |random| at_most(random, MOST)),
    ("1,025 distinct", 30, |random| at_most(random, MOST + 1)),
];

/// Changes entries.
type Garble = fn(&mut Random, &mut Vec<u8>);

/// In what records are looked for, each with its name: entries as they are, and entries that no run gives.
const ENTRIES: [(&str, Garble); 8] = [
    ("in an index", |_, _| {}),
    ("cut inside an entry", |random, entries| {
        entries.truncate(entries.len().saturating_sub(1 + random.below(ENTRY - 1)))
    }),
    ("bytes behind them", |random, entries| {
        let behind = 1 + random.below(ENTRY - 1);
        entries.extend(random.bytes(behind));
    }),
    // one in 64 times more others than an index has
    ("behind others", |random, entries| {
        let others = if random.below(64) == 0 { MOST + random.below(100) } else { 1 + random.below(8) };
        entries.splice(..0, random.bytes(ENTRY * others));
    }),
    ("doubled", |_, entries| entries.extend_from_within(..)),
    ("in any order", |random, entries| {
        let order = shuffled(random, entries.len() / ENTRY);
        *entries = order.iter().flat_map(|at| entries[at * ENTRY..(at + 1) * ENTRY].to_vec()).collect();
    }),
    ("bytes changed", |random, entries| {
        for _ in 0..entries.len().div_ceil(ENTRY) {
            let at = random.below(entries.len());
            entries[at] = random.next() as u8;
        }
    }),
    ("shifted", |random, entries| {
        let front = 1 + random.below(ENTRY - 1);
        entries.splice(..0, random.bytes(front));
    }),
];

/// The numbers below a count, in any order.
fn shuffled(random: &mut Random, count: usize) -> Vec<usize> {
    let mut numbers: Vec<_> = (0..count).collect();
    (1..count).rev().for_each(|at| numbers.swap(at, random.below(at + 1)));
    numbers
}

/// Another record that is Equal to a whole one: fields that it doesn't hold are zero, a yes is any yes, its size is any that holds all that isn't
/// zero, and where it ends in a field or behind all of them the bytes are any.
fn equal(random: &mut Random, whole: &[u8]) -> Vec<u8> {
    let size = u32::from_le_bytes([whole[0], whole[1], whole[2], whole[3]]) as usize;
    let known = ENDS.iter().rfind(|end| **end <= size.max(16)).copied().unwrap_or(16);
    let mut bytes = [&whole[..known], &[0; 64][known..]].concat();
    if bytes[52] != 0 {
        bytes[52] = 1 + random.below(255) as u8;
    }
    let filled = bytes.iter().skip(4).rposition(|byte| *byte != 0).map_or(4, |at| at + 5);
    let least = ENDS.iter().find(|end| **end >= filled).copied().filter(|end| *end > 16).unwrap_or(0);
    let size = match random.below(4) {
        0 => least,
        1 => 64 + random.below(24),
        _ => least + random.below(81 - least),
    };
    let known = ENDS.iter().rfind(|end| **end <= size.max(16)).copied().unwrap_or(16);
    bytes.truncate(known);
    bytes.extend(random.bytes(size.max(16) - known));
    declare(&mut bytes, size);
    bytes
}

/// A whole record: one as files have them, one of any fields, or one that is blank but for some bytes.
fn any_record(random: &mut Random) -> Vec<u8> {
    match random.below(4) {
        0 => real(random),
        1 => usual(random),
        2 => {
            let size = one(random, &[0, 15, 16, 28, 36, 48, 52, 53, 61, 64, 65, 90]);
            record(random, size)
        }
        _ => {
            let mut bytes = vec![0; 64];
            for _ in 0..random.below(3) {
                bytes[4 + random.below(60)] = one(random, &[1, 127, 128, 255]);
            }
            declare(&mut bytes, 64);
            bytes
        }
    }
}

/// Up to 40 records of up to six, each time Equal to one of them.
fn of_few(random: &mut Random) -> Vec<u8> {
    let few: Vec<_> = (0..=random.below(6)).map(|_| any_record(random)).collect();
    let one_of = |random: &mut Random| {
        let at = random.below(few.len());
        equal(random, &few[at])
    };
    (0..random.below(41)).flat_map(|_| one_of(random)).collect()
}

/// Up to 60 records, one and the same or each Equal to the first.
fn alike(random: &mut Random) -> Vec<u8> {
    let (first, same, count) = (any_record(random), random.below(2) == 0, 1 + random.below(60));
    (0..count).flat_map(|_| if same { first.clone() } else { equal(random, &first) }).collect()
}

/// Up to 40 records that are the first but for one byte.
fn apart(random: &mut Random) -> Vec<u8> {
    let first = record(random, 64);
    let one_apart = |random: &mut Random| {
        let mut bytes = first.clone();
        bytes[4 + random.below(60)] = one(random, &[0, 1, 127, 128, 255]);
        if random.below(4) == 0 {
            bytes = equal(random, &bytes);
        }
        bytes
    };
    (0..random.below(41)).flat_map(|_| one_apart(random)).collect()
}

/// So many distinct records in any order, which differ in two bytes of one field, and more that are Equal to one of them, up to a count.
fn distinct(random: &mut Random, distinct: usize, count: usize) -> Vec<u8> {
    let field = one(random, &[1, 2, 3, 4, 5, 6, 7, 8, 9, 10, 11, 13, 14]);
    let at = ENDS[field - 1] + random.below(ENDS[field] - ENDS[field - 1] - 1);
    let size = one(random, &[ENDS[field], ENDS[field], 64]);
    let first = record(random, size);
    let of = |nth: usize| {
        let mut bytes = first.clone();
        bytes[at..at + 2].copy_from_slice(&(nth as u16).to_le_bytes());
        bytes
    };
    let mut records: Vec<_> = shuffled(random, distinct).into_iter().map(of).collect();
    while records.len() < count {
        let (nth, at) = (random.below(distinct), random.below(records.len() + 1));
        records.insert(at, equal(random, &of(nth)));
    }
    let run = records.concat();
    assert!(index(&run).map_or(distinct > MOST, |entries| entries.len() == ENTRY * distinct), "{distinct}: {run:x?}");
    run
}

/// So many distinct records, and up to as many more.
fn at_most(random: &mut Random, count: usize) -> Vec<u8> {
    let more = one(random, &[0, 1, 300, count]);
    distinct(random, count, count + more)
}

/// What may stand behind a run: nothing, fewer bytes than a record has, or a record that is cut.
fn end(random: &mut Random) -> Vec<u8> {
    match random.below(4) {
        0 => vec![],
        1 => {
            let few = random.below(16);
            random.bytes(few)
        }
        _ => {
            let size = one(random, &[17, 20, 28, 40, 47, 52, 61, 64, 65, 200, 1 << 16, u32::MAX as usize]);
            let length = 16 + random.below(size.min(96) - 16);
            declared(random, size, length)
        }
    }
}

/// The bytes of a run up to where it stops.
fn whole_part(run: &[u8]) -> &[u8] {
    let end = records(run).last().map_or(0, |(offset, record)| offset + record.len());
    &run[..end]
}

/// Entries of the records of some runs: those of their index, and one in four times what no run gives.
pub fn entries_of(random: &mut Random, runs: &[&[u8]]) -> Vec<u8> {
    let joined: Vec<_> = runs.iter().map(|run| whole_part(run)).collect();
    let mut entries = index(&joined.concat()).unwrap_or_default();
    if random.below(4) == 0 {
        one(random, &ENTRIES).1(random, &mut entries);
    }
    entries
}

/// What is lent for an index: as many bytes as it has, more, one less, and sometimes none or far more; for one that is refused whatever is lent, none,
/// and room for the most entries and for more than these.
fn rooms(random: &mut Random, wanted: &Wanted) -> Vec<(Room, usize)> {
    let Ok(entries) = wanted else {
        let rooms = [(Room::Exact, MOST), (Room::Longer, MOST + 1), (Room::Large, MOST + 200)];
        return [vec![(Room::Nothing, 0)], rooms.map(|(room, count)| (room, ENTRY * count)).to_vec()].concat();
    };
    let mut rooms = vec![(Room::Exact, entries.len()), (Room::Longer, entries.len() + 1 + random.below(100))];
    rooms.extend(entries.len().checked_sub(1).map(|short| (Room::OneShort, short)));
    rooms.extend(Some((Room::Nothing, 0)).filter(|_| random.below(4) == 0));
    rooms.extend(Some((Room::Large, ENTRY * MOST + 100)).filter(|_| random.below(16) == 0));
    rooms
}

/// Records to look for: some of the run, or records that are Equal to these, with bytes behind them or without; and one that is a byte off one of
/// them, any other, one that is damaged, and what may stand behind a run.
fn sought(random: &mut Random, run: &[u8]) -> Vec<Vec<u8>> {
    let records = records(run);
    let mut sought = vec![any_record(random), broken(random), end(random)];
    for nth in 0..if records.len() > 1000 { 20 } else { 4 } {
        let Some((offset, record)) = records.get(random.below(records.len().max(1))) else { break };
        let mut bytes = match random.below(4) {
            0 => equal(random, record),
            1 => run[*offset..run.len().min(offset + record.len() + 16)].to_vec(),
            _ => record.to_vec(),
        };
        if nth == 0 {
            let at = 4 + random.below(bytes.len() - 4);
            bytes[at] ^= 1 << random.below(8);
        }
        sought.push(bytes);
    }
    sought
}

/// The sort of runs at hand, how many of it were made, and the questions of the last.
pub struct Indexes {
    random: Random,
    sort: usize,
    made: usize,
    questions: Vec<Question>,
}

impl Indexes {
    pub fn new(seed: u64) -> Indexes {
        held();
        Indexes { random: Random(seed), sort: 0, made: 0, questions: vec![] }
    }

    /// Asks about the next run, or begins the next sort; nothing behind the last.
    fn ask(&mut self) -> Option<()> {
        let (_, count, make) = RUNS.get(self.sort)?;
        if self.made == *count {
            (self.sort, self.made) = (self.sort + 1, 0);
            return Some(());
        }
        self.made += 1;
        let run = [make(&mut self.random), end(&mut self.random)].concat();
        let wanted = wanted(Call::Index, 0, 0, 0, &run);
        for (room, lent) in rooms(&mut self.random, &wanted) {
            let asked = bare(self.sort, Call::Index, 0, run.clone());
            self.questions.push(Question { room, lent, wanted: wanted.clone(), ..asked });
        }
        // where there are too many records, those of a part of the run are looked at
        let (run, entries) = match wanted {
            Ok(entries) => (&run[..], entries),
            Err(_) => (&run[..run.len() / 2], index(&run[..run.len() / 2]).unwrap_or_default()),
        };
        self.ask_finds(run, &entries);
        Some(())
    }

    /// Looks for records in the index of a run, where 000 must say which are in the run, and in entries that were changed.
    fn ask_finds(&mut self, run: &[u8], entries: &[u8]) {
        let in_run: Vec<_> = records(run).into_iter().flat_map(|(_, record)| whole(record)).collect();
        for bytes in sought(&mut self.random, run) {
            if let Ok((record, _)) = whole(&bytes) {
                let there = in_run.iter().any(|(other, _)| other.cmp(&record).is_eq());
                assert_eq!(find(entries, &bytes).is_ok_and(|amount| amount > 0), there, "{bytes:x?} in {run:x?}");
            }
            for garble in [0, 1 + self.random.below(ENTRIES.len() - 1)] {
                let mut second = entries.to_vec();
                ENTRIES[garble].1(&mut self.random, &mut second);
                self.questions.push(Question { second, ..bare(RUNS.len() + garble, Call::Find, 0, bytes.clone()) });
            }
        }
    }
}

impl Source for Indexes {
    fn sorts(&self) -> Vec<&'static str> {
        RUNS.iter().map(|(name, ..)| *name).chain(ENTRIES.iter().map(|(name, _)| *name)).collect()
    }

    fn numbers(&self) -> &'static [usize] {
        &[0, 1, 2, 5, 8]
    }

    fn texts(&self) -> bool {
        false
    }

    fn next(&mut self) -> Option<Question> {
        while self.questions.is_empty() {
            self.ask()?;
        }
        self.questions.pop()
    }
}
