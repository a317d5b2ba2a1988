//! Questions on type chunks: whole ones, damaged heads, headers that are longer than the record or cut it, runs of chunks, and runs of records that
//! are cut into chunks.
use super::expected::{wanted, whole};
use super::inputs::{any_age, bare, lent, run, NO_AGES};
use super::{Call, Question, Source};
use crate::chunk::{HEAD, TYPE};
use crate::payloads::{broken, declared, one, record, sizes_at_lengths, usual, ENDS};
use crate::questions::Random;
use crate::records::written;
use crate::spellings::{real, LONGEST};
use crate::spoilt::counted_by_hand;

/// The calls of a run of chunks, and those of a step there, which take an age.
const WALKS: [Call; 3] = [Call::ChunkStop, Call::ChunkEnd, Call::Chunks];
const STEPS: [Call; 4] = [Call::ChunkStep, Call::ChunkNext, Call::ChunkRead, Call::ChunkReadNext];

/// Whether a call is of a run of chunks.
pub fn of_chunks(call: Call) -> bool {
    WALKS.contains(&call) || STEPS.contains(&call)
}

/// The greatest header size.
const MOST: usize = 65_535;

/// How many runs of records are cut into chunks.
const RUNS: usize = 10_000;

/// Bytes with a chunk at an offset, or what isn't quite one.
type Input = (Vec<u8>, u64);

/// What makes the inputs of a sort.
type Maker = fn(&mut Random) -> Vec<Input>;

/// The sorts, each with its name and whether it is asked about at every age; else it is at one.
const SORTS: [(&str, bool, Maker); 9] = [
    ("whole", true, |random| front(random, 1_200, any_chunk)),
    ("longer header", true, |random| front(random, 800, longer)),
    ("type", false, types),
    ("header size", false, headers),
    ("chunk size", false, sizes),
    ("both sizes", false, both),
    ("cut by the header", false, cut),
    ("cut head", false, short),
    ("runs", false, runs),
];

/// The sort of runs of records that are cut into chunks, which stands behind them.
const IN_CHUNKS: &str = "records in chunks";

/// Lays a number over some bytes, the byte that weighs least first.
fn lay(bytes: &mut [u8], at: usize, width: usize, number: u64) {
    bytes[at..at + width].copy_from_slice(&number.to_le_bytes()[..width]);
}

/// So many bytes of which none is zero.
fn filled(random: &mut Random, count: usize) -> Vec<u8> {
    (0..count).map(|_| 1 + random.below(255) as u8).collect()
}

/// A chunk around a record, with so many bytes of the header behind the record and so many behind the header.
pub fn around(random: &mut Random, record: &[u8], longer: usize, behind: usize) -> Vec<u8> {
    let header = HEAD + record.len() + longer;
    let mut bytes = [random.bytes(HEAD), record.to_vec(), filled(random, longer + behind)].concat();
    bytes[..2].copy_from_slice(&TYPE);
    lay(&mut bytes, 2, 2, header as u64);
    lay(&mut bytes, 4, 4, (header + behind) as u64);
    bytes
}

/// A whole record of any sort.
fn any_record(random: &mut Random) -> Vec<u8> {
    match random.below(16) {
        0..=6 => real(random),
        7..=9 => usual(random),
        10..=13 => {
            let size = random.below(100);
            record(random, size)
        }
        14 => LONGEST.to_vec(),
        _ => {
            let spoilt = counted_by_hand(random);
            spoilt[random.below(spoilt.len())].clone()
        }
    }
}

/// A whole chunk.
fn any_chunk(random: &mut Random) -> Vec<u8> {
    let (record, longer, behind) =
        (any_record(random), one(random, &[0, 0, 0, 1, 4, 40]), one(random, &[0, 0, 1, 4, 60]));
    around(random, &record, longer, behind)
}

/// A chunk whose header is longer than its record, to the greatest header size.
fn longer(random: &mut Random) -> Vec<u8> {
    let record = any_record(random);
    let any = 1 + random.below(100);
    let most = if random.below(16) == 0 { MOST - HEAD - record.len() } else { any };
    let behind = random.below(8);
    around(random, &record, most, behind)
}

/// So many chunks, each at the front of its bytes, or behind another one, or with bytes behind it.
fn front(random: &mut Random, count: usize, make: fn(&mut Random) -> Vec<u8>) -> Vec<Input> {
    (0..count).map(|_| make(random)).collect::<Vec<_>>().into_iter().map(|bytes| placed(random, bytes)).collect()
}

/// Bytes at the front, mostly; or behind a whole chunk.
fn placed(random: &mut Random, bytes: Vec<u8>) -> Input {
    match random.below(8) {
        0 => {
            let before = any_chunk(random);
            let offset = before.len() as u64;
            ([before, bytes].concat(), offset)
        }
        1 => {
            let behind = random.below(30);
            ([bytes, random.bytes(behind)].concat(), 0)
        }
        _ => (bytes, 0),
    }
}

/// The header size and the chunk size of a chunk, and how many bytes of the header hold head and record.
fn sizes_of(bytes: &[u8]) -> [u64; 3] {
    let number =
        |at: usize, width: usize| bytes[at..at + width].iter().rev().fold(0, |sum, byte| sum << 8 | u64::from(*byte));
    [number(2, 2), number(4, 4), HEAD as u64 + number(20, 4).max(16)]
}

/// Types next to the right one, turned about, at the ends, and with each bit turned; every other one with sizes that can't be.
fn types(random: &mut Random) -> Vec<Input> {
    let near = [0x0200, 0x0202, 0x0102, 0, 1, 2, 0x0301, 0x0101, 0x7fff, 0x8000, 0xffff];
    let wrong: Vec<u64> = near.into_iter().chain((0..16).map(|bit| 0x0201 ^ 1 << bit)).collect();
    let mut made = Vec::new();
    for kind in wrong.iter().flat_map(|kind| [*kind; 60]) {
        let mut bytes = any_chunk(random);
        lay(&mut bytes, 0, 2, kind);
        match random.below(4) {
            0 => lay(&mut bytes, 2, 2, random.next() % 36),
            1 => lay(&mut bytes, 4, 4, random.next()),
            _ => (),
        }
        made.push(placed(random, bytes));
    }
    made
}

/// Each number that a header size may be near to.
fn header_corners(bytes: &[u8]) -> Vec<u64> {
    let [header, size, record] = sizes_of(bytes);
    let near =
        [20, 36, record, header, size, bytes.len() as u64].map(|number| [number - 1, number, number + 1]).concat();
    near.into_iter().chain([0, 1, 8, 255, 256, 0x7fff, 0x8000, 0xffff, header << 8 & 0xffff | header >> 8]).collect()
}

/// Each number that a chunk size may be near to.
fn size_corners(bytes: &[u8]) -> Vec<u64> {
    let [header, size, record] = sizes_of(bytes);
    let near = [20, record, header, size, bytes.len() as u64].map(|number| [number - 1, number, number + 1]).concat();
    let far = [1 << 16, 1 << 24, 1 << 31].map(|more| size + more);
    near.into_iter().chain(far).chain([0, 1, 8, 0xffff, 0x7fff_ffff, 0x8000_0000, 0xffff_ffff]).collect()
}

/// Header sizes at their corners.
fn headers(random: &mut Random) -> Vec<Input> {
    damaged(random, 120, |bytes| header_corners(bytes).into_iter().map(|header| (header, sizes_of(bytes)[1])).collect())
}

/// Chunk sizes at their corners.
fn sizes(random: &mut Random) -> Vec<Input> {
    damaged(random, 120, |bytes| size_corners(bytes).into_iter().map(|size| (sizes_of(bytes)[0], size)).collect())
}

/// Both at their corners.
fn both(random: &mut Random) -> Vec<Input> {
    damaged(random, 12, |bytes| {
        header_corners(bytes)
            .into_iter()
            .flat_map(|header| size_corners(bytes).into_iter().map(move |size| (header, size)))
            .collect()
    })
}

/// So many chunks, each with every pair of sizes.
fn damaged(random: &mut Random, count: usize, pairs: fn(&[u8]) -> Vec<(u64, u64)>) -> Vec<Input> {
    let mut made = Vec::new();
    for _ in 0..count {
        let chunk = any_chunk(random);
        for (header, size) in pairs(&chunk) {
            let mut bytes = chunk.clone();
            lay(&mut bytes, 2, 2, header);
            lay(&mut bytes, 4, 4, size);
            made.push(placed(random, bytes));
        }
    }
    made
}

/// Records that the header cuts or just holds: each size with each length, which the header has behind its head. What stands behind the header
/// goes on with the record.
fn cut(random: &mut Random) -> Vec<Input> {
    let [small @ .., _] = sizes_at_lengths().map(|(_, pairs)| pairs);
    let room = MOST - HEAD;
    let long = (room - 3..room + 4).flat_map(|size| (room - 3..=room).map(move |length| (size, length)));
    let pairs: Vec<_> = small.concat().into_iter().chain(long).collect();
    let mut made = Vec::new();
    for (size, length) in pairs {
        let behind = one(random, &[0, 1, 4, 140]);
        let record = declared(random, size, length + behind);
        let mut bytes = around(random, &record, 0, 0);
        lay(&mut bytes, 2, 2, (HEAD + length) as u64);
        made.push(placed(random, bytes));
    }
    made
}

/// Heads that aren't there whole, and those that just are: of the right type and of any, with any sizes.
fn short(random: &mut Random) -> Vec<Input> {
    let mut made = Vec::new();
    for length in (0..24).flat_map(|length| [length; 40]) {
        let mut bytes = any_chunk(random);
        match random.below(4) {
            0 => lay(&mut bytes, 0, 2, random.next()),
            1 => lay(&mut bytes, 2, 2, random.next() % 40),
            _ => (),
        }
        bytes.truncate(length);
        made.push((bytes, 0));
    }
    made
}

/// A chunk as a run has it: one in ten isn't whole.
fn of_run(random: &mut Random) -> Vec<u8> {
    let mut bytes = any_chunk(random);
    match random.below(40) {
        0 => lay(&mut bytes, 0, 2, random.next()),
        1 => lay(&mut bytes, 2, 2, random.next() % 100),
        2 => lay(&mut bytes, 4, 4, random.next() % 200),
        3 => {
            let record = broken(random);
            bytes = around(random, &record, 0, 0);
        }
        _ => (),
    }
    bytes
}

/// Runs of up to 16 chunks, one in four of them cut, each at an offset: mostly of a chunk, else any, at the end or past it.
fn runs(random: &mut Random) -> Vec<Input> {
    let mut made = Vec::new();
    for _ in 0..8_000 {
        let (mut bytes, mut offsets) = (vec![], vec![0]);
        for _ in 0..random.below(17) {
            bytes.extend(of_run(random));
            offsets.push(bytes.len() as u64);
        }
        if random.below(4) == 0 {
            bytes.truncate(random.below(bytes.len() + 1));
        }
        let (of_chunk, end) = (one(random, &offsets), bytes.len() as u64);
        let any = random.below(bytes.len() + 1) as u64;
        let past = one(random, &[end + 1, end + 20, end + 1000, 1 << 32, u64::MAX]);
        let offset = one(random, &[0, 0, 0, of_chunk, of_chunk, of_chunk, any, end, past]);
        made.push((bytes, offset));
    }
    made
}

/// Every question on an input at some ages: the calls of one chunk at its offset, and those of a run that begins there.
fn asked(sort: usize, (bytes, offset): Input, ages: &[u32]) -> Vec<Question> {
    let rest = bytes.get(offset as usize..).unwrap_or(&[]);
    let of_one = |call, age| bare(sort, call, age, rest.to_vec());
    let of_run = |call, age| Question { offset, ..bare(sort, call, age, bytes.clone()) };
    let mut asked = vec![of_one(Call::TypeTake, 64), of_one(Call::TypeHead, 64)];
    asked.extend(WALKS.map(|call| of_run(call, 64)));
    for age in ages {
        asked.extend([Call::TypeText, Call::TypeMarks].map(|call| of_one(call, *age)));
        asked.extend(STEPS.map(|call| of_run(call, *age)));
    }
    asked
}

/// The records of a run up to where it stops, each with its offset.
pub fn records(run: &[u8]) -> Vec<(usize, &[u8])> {
    let (mut offset, mut records) = (0, vec![]);
    while let Ok((_, amount)) = whole(&run[offset..]) {
        records.push((offset, &run[offset..offset + amount]));
        offset += amount;
    }
    records
}

/// Holds what is expected of a chunk to what is expected of the record that it was made of: its text, its marks, and the record itself.
fn held(record: &[u8], chunk: &[u8], age: u32) {
    for (of_record, of_chunk) in [(Call::AgedText, Call::TypeText), (Call::Marks, Call::TypeMarks)] {
        assert_eq!(wanted(of_record, age, 0, 0, record), wanted(of_chunk, age, 0, 0, chunk), "{chunk:x?} at {age}");
    }
    let mut aged = written(&whole(record).expect("a record of a run is whole").0);
    aged.iter_mut().skip(age as usize).for_each(|byte| *byte = 0);
    assert_eq!(wanted(Call::ChunkStep, age, 0, 0, chunk), Ok(aged), "{chunk:x?} at {age}");
}

/// The questions on a run of records and on the same records in chunks, each in a header of its own that is all of its chunk: how many there are,
/// where it ends; and of each its text, its marks and itself at an age. What is expected of the one is held to what is of the other.
fn in_chunks(random: &mut Random, sort: usize) -> Vec<Question> {
    let run = run(random);
    let records = records(&run);
    let end = records.last().map_or(0, |(offset, record)| offset + record.len());
    let chunks: Vec<_> = records.iter().map(|(_, record)| around(random, record, 0, 0)).collect();
    let (run, cut) = (&run[..end], chunks.concat());
    let mut asked = Vec::from([Call::Walk, Call::Records].map(|call| bare(sort, call, 64, run.to_vec())));
    asked.extend(WALKS.map(|call| bare(sort, call, 64, cut.clone())));
    let mut at = 0;
    for ((offset, _), chunk) in records.iter().zip(&chunks) {
        let age = one(random, &ENDS[3..]) as u32;
        let (of_run, of_cut) = (&run[*offset..], &cut[at..]);
        held(of_run, of_cut, age);
        asked.extend([Call::AgedText, Call::Marks].map(|call| bare(sort, call, age, of_run.to_vec())));
        asked.extend([Call::TypeText, Call::TypeMarks].map(|call| bare(sort, call, age, of_cut.to_vec())));
        let step = one(random, &[Call::ChunkStep, Call::ChunkRead]);
        asked.push(Question { offset: at as u64, ..bare(sort, step, age, cut.clone()) });
        at += chunk.len();
    }
    asked
}

/// The inputs of each sort that wait to be asked about, how many runs of records do, and the questions of the last.
pub struct Chunks {
    random: Random,
    inputs: Vec<(usize, Input)>,
    runs: usize,
    questions: Vec<Question>,
}

impl Chunks {
    pub fn new(seed: u64) -> Chunks {
        let mut random = Random(seed);
        let made = SORTS.iter().enumerate();
        let inputs = made
            .flat_map(|(sort, (_, _, make))| make(&mut random).into_iter().map(move |input| (sort, input)))
            .collect();
        Chunks { random, inputs, runs: RUNS, questions: vec![] }
    }

    /// The questions of the next input.
    fn asked(&mut self) -> Option<Vec<Question>> {
        let random = &mut self.random;
        if let Some((sort, input)) = self.inputs.pop() {
            let ages = match SORTS[sort].1 {
                true => ENDS[3..].iter().map(|age| *age as u32).chain([one(random, &NO_AGES)]).collect(),
                false => vec![any_age(random)],
            };
            return Some(asked(sort, input, &ages));
        }
        self.runs = self.runs.checked_sub(1)?;
        Some(in_chunks(random, SORTS.len()))
    }
}

impl Source for Chunks {
    fn sorts(&self) -> Vec<&'static str> {
        SORTS.iter().map(|(name, ..)| *name).chain([IN_CHUNKS]).collect()
    }

    fn numbers(&self) -> &'static [usize] {
        &[0, 1, 2, 3, 4, 5, 8, 9, 10]
    }

    fn next(&mut self) -> Option<Question> {
        while self.questions.is_empty() {
            let asked = self.asked()?;
            let random = &mut self.random;
            self.questions = asked.into_iter().map(|question| lent(random, question)).collect();
        }
        self.questions.pop()
    }
}
