//! What a question is, how questions are made, and how they are framed: tag, length in four bytes, payload.
use crate::{kinds, records, texts};

/// One kind of question: its tag, its name, its payloads in the full run and in the fixed list, how the Rust answers, and where an answer
/// that gives a text says in eight bytes how many replacements it has.
pub struct Asked {
    pub tag: u8,
    pub name: &'static str,
    pub full: fn(&mut Random) -> Vec<Vec<u8>>,
    pub fixed: fn() -> Vec<Vec<u8>>,
    pub answer: fn(&[u8]) -> Vec<u8>,
    pub replacements_at: Option<usize>,
}

/// The programs over the port that answer questions, and the kinds of question that each answers, a table to a file.
pub const TABLES: &[(&str, &[Asked])] =
    &[("test_replay", kinds::ASKED), ("test_replay_records", records::ASKED), ("test_replay_text", texts::ASKED)];

/// The kinds of question that a program answers.
pub fn answered_by(program: &str) -> Result<&'static [Asked], String> {
    let table = TABLES.iter().find(|table| table.0 == program);
    table.map(|table| table.1).ok_or(format!("no table is for the program {program}"))
}

/// A question: its kind and its payload.
pub struct Question {
    pub asked: &'static Asked,
    pub payload: Vec<u8>,
}

impl Question {
    /// The question as it is sent.
    pub fn frame(&self) -> Vec<u8> {
        let length = u32::try_from(self.payload.len()).expect("a payload fits four bytes");
        let mut bytes = vec![self.asked.tag];
        bytes.extend(length.to_le_bytes());
        bytes.extend(&self.payload);
        bytes
    }

    /// What the Rust answers.
    pub fn answer(&self) -> Vec<u8> {
        (self.asked.answer)(&self.payload)
    }
}

/// The questions of the full run, in an order that goes by the seed, so that no answer leans on the one before it.
pub fn full(table: &'static [Asked], seed: u64) -> Vec<Question> {
    let random = &mut Random(seed);
    let mut questions = Vec::new();
    for asked in table {
        questions.extend((asked.full)(random).into_iter().map(|payload| Question { asked, payload }));
    }
    for i in (1..questions.len()).rev() {
        questions.swap(i, random.below(i + 1));
    }
    questions
}

/// The questions of the fixed list, in the table's order.
pub fn fixed(table: &'static [Asked]) -> Vec<Question> {
    table.iter().flat_map(|asked| (asked.fixed)().into_iter().map(move |payload| Question { asked, payload })).collect()
}

/// The questions that framed bytes hold.
pub fn read(table: &'static [Asked], mut bytes: &[u8]) -> Result<Vec<Question>, String> {
    let mut questions = Vec::new();
    while let Some((header, rest)) = bytes.split_at_checked(5) {
        let asked = table
            .iter()
            .find(|asked| asked.tag == header[0])
            .ok_or(format!("no question has the tag {}", header[0]))?;
        let length = u32::from_le_bytes([header[1], header[2], header[3], header[4]]);
        let (payload, rest) = rest.split_at_checked(length as usize).ok_or("the last question is cut short")?;
        questions.push(Question { asked, payload: payload.to_vec() });
        bytes = rest;
    }
    if bytes.is_empty() {
        Ok(questions)
    } else {
        Err("the last question is cut short".into())
    }
}

/// Numbers that go by a seed (splitmix64).
pub struct Random(pub u64);

impl Random {
    /// The next number.
    pub fn next(&mut self) -> u64 {
        self.0 = self.0.wrapping_add(0x9e37_79b9_7f4a_7c15);
        let mut mixed = self.0;
        mixed = (mixed ^ (mixed >> 30)).wrapping_mul(0xbf58_476d_1ce4_e5b9);
        mixed = (mixed ^ (mixed >> 27)).wrapping_mul(0x94d0_49bb_1331_11eb);
        mixed ^ (mixed >> 31)
    }

    /// The next number, below a bound that is not 0.
    pub fn below(&mut self, bound: usize) -> usize {
        (self.next() % bound as u64) as usize
    }

    /// So many bytes.
    pub fn bytes(&mut self, count: usize) -> Vec<u8> {
        (0..count).map(|_| self.next() as u8).collect()
    }
}
