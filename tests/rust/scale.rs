//! The comparison at scale. `ask` writes questions, the driver tests/c/scale.c makes the port's calls and writes what came of
//! them, and `check`, which makes the same questions again, holds every answer and every lent byte to 000 and to 01's rules.
mod chunks;
mod cuts;
pub mod expected;
mod indexes;
pub mod inputs;
mod marks;
mod mutations;
mod names;
mod tally;

use crate::hex;
use expected::{Outcome, Wanted};
use inputs::Room;
use std::io::{BufReader, BufWriter, ErrorKind, Read, Write};
use std::time::{Duration, Instant};
use tally::Tally;

/// The calls, in the order of the columns; the driver knows each by its number there.
#[derive(Clone, Copy, PartialEq)]
pub enum Call {
    Take,
    Text,
    AgedText,
    Replaced,
    Marks,
    MarksWord,
    MarksLetters,
    Order,
    Index,
    Find,
    FirstLine,
    Line,
    Next,
    Walk,
    Records,
    Write,
    Row,
    RecordLine,
    TypeTake,
    TypeHead,
    TypeText,
    TypeMarks,
    ChunkStop,
    ChunkEnd,
    Chunks,
    ChunkStep,
    ChunkNext,
    ChunkRead,
    ChunkReadNext,
    Named,
}

/// The calls with their names.
pub const CALLS: [(Call, &str); 30] = [
    (Call::Take, "take"),
    (Call::Text, "text"),
    (Call::AgedText, "aged text"),
    (Call::Replaced, "replaced"),
    (Call::Marks, "marks"),
    (Call::MarksWord, "marks word"),
    (Call::MarksLetters, "letters"),
    (Call::Order, "order"),
    (Call::Index, "index"),
    (Call::Find, "find"),
    (Call::FirstLine, "1st line"),
    (Call::Line, "line"),
    (Call::Next, "next"),
    (Call::Walk, "walk"),
    (Call::Records, "records"),
    (Call::Write, "write"),
    (Call::Row, "row"),
    (Call::RecordLine, "rec line"),
    (Call::TypeTake, "type take"),
    (Call::TypeHead, "type head"),
    (Call::TypeText, "type text"),
    (Call::TypeMarks, "type marks"),
    (Call::ChunkStop, "chunk stop"),
    (Call::ChunkEnd, "chunk end"),
    (Call::Chunks, "chunks"),
    (Call::ChunkStep, "chunk step"),
    (Call::ChunkNext, "step next"),
    (Call::ChunkRead, "chunk read"),
    (Call::ChunkReadNext, "read next"),
    (Call::Named, "named"),
];

/// A question: a call with what it is made with, and what it is to write.
pub struct Question {
    pub call: Call,
    /// The age, the writer's size, or a word of marks.
    pub number: u32,
    /// Where a listing is: the record's index and its offset. A run begins at the offset.
    pub index: u64,
    pub offset: u64,
    pub first: Vec<u8>,
    /// The second record of an order, or the entries in which the first is to be found.
    pub second: Vec<u8>,
    /// How many bytes are lent to write to, and how that was chosen.
    pub lent: usize,
    pub room: Room,
    /// What sort of input it is.
    pub sort: usize,
    pub wanted: Wanted,
}

/// Where questions come from, as a seed says: the same seed gives the same ones.
pub trait Source {
    /// The sorts of input, in the order of the rows.
    fn sorts(&self) -> Vec<&'static str>;

    /// The numbers to which its questions must come.
    fn numbers(&self) -> &'static [usize] {
        &[0, 1, 2, 3, 4, 5, 6, 7, 8]
    }

    /// Whether it asks for texts, of which some must have replacements.
    fn texts(&self) -> bool {
        true
    }

    /// The next question; none behind the last.
    fn next(&mut self) -> Option<Question>;
}

/// The tag of the frame behind the last question and of the one behind the last answer.
const END: u8 = 255;

impl Question {
    /// The question as it is sent.
    fn frame(&self) -> Vec<u8> {
        let lengths = [self.lent, self.first.len(), self.second.len()];
        [&header(self.call as u8, self.number, self.index, self.offset, lengths), &self.first[..], &self.second].concat()
    }

    /// What is said of the question where its answer is another.
    fn said(&self) -> String {
        let name = CALLS[self.call as usize].1;
        let numbers =
            format!("number {}, index {}, offset {}, {} bytes lent", self.number, self.index, self.offset, self.lent);
        let second = match self.call {
            Call::Order | Call::Find => format!("\n  second    {}", hex(&self.second)),
            _ => String::new(),
        };
        format!("{name}: {numbers}\n  first     {}{second}", hex(&self.first))
    }
}

/// The front of a question's frame.
fn header(tag: u8, number: u32, index: u64, offset: u64, lengths: [usize; 3]) -> Vec<u8> {
    let mut bytes = vec![tag];
    bytes.extend(number.to_le_bytes());
    bytes.extend(index.to_le_bytes());
    bytes.extend(offset.to_le_bytes());
    for length in lengths {
        bytes.extend(u32::try_from(length).expect("a length fits four bytes").to_le_bytes());
    }
    bytes
}

/// What the driver sends of a call: whether guards and inputs held, the answer, and the lent bytes up to the last that isn't
/// what it was.
struct Got {
    status: u8,
    answer: u64,
    front: Vec<u8>,
}

impl Got {
    /// The next of the driver's frames.
    fn read(from: &mut impl Read) -> Result<Got, String> {
        let cut = |e| format!("the answers end before the last question's: {e}");
        let mut header = [0; 13];
        from.read_exact(&mut header).map_err(cut)?;
        let (answer, length) = header[1..].split_at(8);
        let length = u32::from_le_bytes(length.try_into().expect("four bytes"));
        let mut front = vec![0; length as usize];
        from.read_exact(&mut front).map_err(cut)?;
        Ok(Got { status: header[0], answer: u64::from_le_bytes(answer.try_into().expect("eight bytes")), front })
    }

    /// Whether it is what is expected: the answer, each lent byte, and guards and inputs as they were.
    fn is(&self, outcome: &Outcome, lent: usize, at: u64) -> bool {
        let before = |offset: usize| 0xf5 + ((at + 64 + offset as u64) % 11) as u8;
        let asked = |offset: usize| outcome.wrote.get(offset).copied().unwrap_or(before(offset));
        let got = |offset: usize| self.front.get(offset).copied().unwrap_or(before(offset));
        let touched = self.front.len().max(outcome.wrote.len());
        self.status == 0
            && self.answer == outcome.answer
            && touched <= lent
            && (0..touched).all(|offset| asked(offset) == got(offset))
    }

    /// What is said of it where it isn't.
    fn said(&self) -> String {
        let what = [
            "a guard in front of the lent bytes changed",
            "a guard behind them changed",
            "an input or its guard changed",
        ];
        let broken = (0..3).filter(|bit| self.status >> bit & 1 == 1).map(|bit| format!(", {}", what[bit]));
        format!("{}{}, lent bytes {}", numbers(self.answer), broken.collect::<String>(), hex(&self.front))
    }
}

/// An answer in its two halves.
fn numbers(answer: u64) -> String {
    format!("{answer} (upper half {}, lower half {})", answer >> 32, answer as u32)
}

/// The source of a name.
fn source_of(name: &str, seed: &str) -> Result<Box<dyn Source>, String> {
    let seed = seed.parse().map_err(|_| format!("{seed} is no seed"))?;
    match name {
        "made" => Ok(Box::new(inputs::Made::new(seed))),
        "mutated" => Ok(Box::new(mutations::Mutated::new(seed))),
        "cut" => Ok(Box::new(cuts::Cuts::new(seed))),
        "chunk" => Ok(Box::new(chunks::Chunks::new(seed))),
        "name" => Ok(Box::new(names::Names::new(seed))),
        "mark" => Ok(Box::new(marks::Marks::new(seed))),
        "index" => Ok(Box::new(indexes::Indexes::new(seed))),
        _ => Err(format!("no questions are called {name}")),
    }
}

/// Writes questions: so many that are made, for so many seconds those that are mutated, or all on records that are cut, on chunks, on names, on
/// marks or on indexes.
pub fn ask(name: &str, seed: &str, limit: Option<&str>) -> Result<(), String> {
    let mut source = source_of(name, seed)?;
    let limit = limit.map_or(Ok(u64::MAX), str::parse).map_err(|e| format!("the limit: {e}"))?;
    let start = Instant::now();
    let ended = |count: u64| match name {
        "mutated" => count % 1024 == 0 && start.elapsed() >= Duration::from_secs(limit),
        _ => count == limit,
    };
    let mut out = BufWriter::with_capacity(1 << 18, std::io::stdout().lock());
    let mut count = 0;
    let mut write = || loop {
        let Some(question) = Some(count).filter(|count| !ended(*count)).and_then(|_| source.next()) else {
            out.write_all(&header(END, 0, count, 0, [0; 3]))?;
            return out.flush();
        };
        out.write_all(&question.frame())?;
        count += 1;
    };
    match write() {
        // the one behind the pipe says why
        Err(e) if e.kind() == ErrorKind::BrokenPipe => Ok(()),
        done => done.map_err(|e| e.to_string()),
    }
}

/// Holds the driver's answers of standard input to what is expected, and says how many there were of each class.
pub fn check(name: &str, seed: &str) -> Result<(), String> {
    let mut source = source_of(name, seed)?;
    let mut answers = BufReader::with_capacity(1 << 18, std::io::stdin().lock());
    let mut tally = Tally::new(source.sorts());
    loop {
        let got = Got::read(&mut answers)?;
        if got.status == END {
            return tally.ended(got.answer, source.numbers(), source.texts());
        }
        let question = source.next().ok_or("there are more answers than questions")?;
        let outcome = expected::outcome(&question);
        if !got.is(&outcome, question.lent, tally.count) {
            return Err(format!(
                "the answer to question {} differs\n  {}\n  expected  {}, bytes written {}\n  the port  {}",
                tally.count + 1,
                question.said(),
                numbers(outcome.answer),
                hex(&outcome.wrote),
                got.said()
            ));
        }
        tally.add(&question, &outcome);
    }
}
