//! How many questions there were of each class.
use super::expected::{replacements, Outcome};
use super::{inputs::ROOMS, Question, CALLS};
use crate::cut::FIELDS;

/// What the numbers of 01 and 02 mean.
const NUMBERS: [&str; 13] = [
    "0 success",
    "1 too few bytes",
    "2 field cut",
    "3 not an age",
    "4 held back",
    "5 short buffer",
    "6 unread field",
    "7 too much input",
    "8 undecoded cut",
    "9 wrong type",
    "10 wrong sizes",
    "11 not a name",
    "12 top bits",
];

/// The first row that a cut field can have: the four before it are in the sixteen bytes without which there is no record.
const FIRST_CUT: usize = 4;

/// How many replacements a text has, each row with its least; 24 are the most.
const REPLACEMENTS: [(&str, usize); 4] = [("none", 0), ("1", 1), ("2 to 23", 2), ("24", 24)];

/// Counts by call: a row of them to each class.
struct Table {
    title: &'static str,
    rows: Vec<(&'static str, [u64; CALLS.len()])>,
}

impl Table {
    fn new(title: &'static str, names: &[&'static str]) -> Table {
        Table { title, rows: names.iter().map(|name| (*name, [0; CALLS.len()])).collect() }
    }

    /// Prints the columns of the table whose calls were made, with the sum of each row.
    fn print(&self, made: &[usize]) {
        let names: String = made.iter().map(|call| format!("{:>11}", CALLS[*call].1)).collect();
        println!("{:27}{names}{:>11}", self.title, "all");
        for (name, counts) in &self.rows {
            let counts_of: String = made.iter().map(|call| format!("{:>11}", counts[*call])).collect();
            println!("{name:27}{counts_of}{:>11}", counts.iter().sum::<u64>());
        }
    }
}

/// The questions so far: by sort of input, by what was lent, and by the number; those that came to 2, by the field's row; and those that
/// came to a text, by its replacements.
pub struct Tally {
    pub count: u64,
    sorts: Table,
    rooms: Table,
    numbers: Table,
    cut: Table,
    replacements: Table,
}

impl Tally {
    pub fn new(sorts: Vec<&'static str>) -> Tally {
        Tally {
            count: 0,
            sorts: Table::new("input", &sorts),
            rooms: Table::new("lent", &ROOMS),
            numbers: Table::new("number", &NUMBERS),
            cut: Table::new("cut field", &FIELDS.map(|(name, _)| name)[FIRST_CUT..]),
            replacements: Table::new("replacements", &REPLACEMENTS.map(|(name, _)| name)),
        }
    }

    /// Counts a question with what it came to.
    pub fn add(&mut self, question: &Question, outcome: &Outcome) {
        let call = question.call as usize;
        self.count += 1;
        self.sorts.rows[question.sort].1[call] += 1;
        self.rooms.rows[question.room as usize].1[call] += 1;
        self.numbers.rows[outcome.why.number as usize].1[call] += 1;
        if outcome.why.number == 2 {
            self.cut.rows[outcome.why.carried as usize - FIRST_CUT].1[call] += 1;
        }
        if let Some(count) = replacements(question, outcome) {
            let row = REPLACEMENTS.iter().rposition(|(_, least)| *least <= count).unwrap_or(0);
            self.replacements.rows[row].1[call] += 1;
        }
    }

    /// The calls that were made.
    fn made(&self) -> Vec<usize> {
        (0..CALLS.len()).filter(|call| self.numbers.rows.iter().any(|(_, counts)| counts[*call] > 0)).collect()
    }

    /// Prints what was counted. It fails where another number of questions was asked, and where one of some numbers has none; if 2 is among
    /// these, also where one of the fields has none; and if there are texts, where none has replacements.
    pub fn ended(&self, asked: u64, numbers: &[usize], texts: bool) -> Result<(), String> {
        if asked != self.count {
            return Err(format!("{asked} questions were asked and {} answered", self.count));
        }
        let made = self.made();
        let (cut, replacements) = (numbers.contains(&2).then_some(&self.cut), texts.then_some(&self.replacements));
        let tables = [&self.sorts, &self.rooms, &self.numbers].into_iter().chain(cut).chain(replacements);
        tables.for_each(|table| table.print(&made));
        let rows = numbers.iter().map(|number| &self.numbers.rows[*number]);
        let fields = cut.map_or(&[][..], |cut| &cut.rows);
        if let Some((missing, _)) = rows.chain(fields).find(|(_, counts)| counts.iter().sum::<u64>() == 0) {
            return Err(format!("no question came to {missing}"));
        }
        let replaced: u64 = self.replacements.rows[1..].iter().flat_map(|(_, counts)| counts).sum();
        if replaced == 0 && texts {
            return Err("no text has replacements".into());
        }
        let on_texts = if texts { format!(", {replaced} on texts with replacements") } else { String::new() };
        println!(
            "{} questions{on_texts}: every answer and every lent byte as expected, every guard and input as it was",
            self.count
        );
        Ok(())
    }
}
