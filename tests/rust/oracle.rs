//! The Rust side of the comparison: makes questions, answers them by 000, and compares the port's answers with its own.
mod chunk;
mod corners;
mod cut;
mod grammar;
mod indexed;
mod kinds;
mod listed;
mod listing;
mod marks_word;
mod names;
mod pattern;
mod payloads;
mod questions;
mod records;
mod replaced;
mod runs;
mod scale;
mod sheets;
mod shim;
mod spellings;
mod spoilt;
mod subject;
mod texts;

use questions::{answered_by, Asked, Question};
use std::io::{Read, Write};
use std::process::ExitCode;

/// What the words may be.
const USAGE: &str = "usage: oracle programs
       oracle make PROGRAM SEED
       oracle fixed PROGRAM
       oracle answer PROGRAM
       oracle compare PROGRAM QUESTIONS EXPECTED GOT
       oracle runs FOLDER COUNT SEED
       oracle listing AGE
       oracle ask made SEED COUNT
       oracle ask mutated SEED SECONDS
       oracle ask cut|chunk|name|mark|index SEED
       oracle check made|mutated|cut|chunk|name|mark|index SEED";

/// Does what the first word says; a failure is one message and status 1.
fn main() -> ExitCode {
    let words: Vec<String> = std::env::args().skip(1).collect();
    let words: Vec<&str> = words.iter().map(String::as_str).collect();
    let done = match words[..] {
        ["programs"] => programs(),
        ["make", program, seed] => make(program, seed),
        ["fixed", program] => answered_by(program).and_then(|table| write(&frames(&questions::fixed(table)))),
        ["answer", program] => answer(program),
        ["compare", program, questions, expected, got] => compare(program, questions, expected, got),
        ["listing", age] => number(age).and_then(|age| write(&listed(&input()?, age)?)),
        ["runs", folder, count, seed] => runs(folder, count, seed),
        ["ask", name @ ("cut" | "chunk" | "name" | "mark" | "index"), seed] => scale::ask(name, seed, None),
        ["ask", name, seed, limit] => scale::ask(name, seed, Some(limit)),
        ["check", name, seed] => scale::check(name, seed),
        _ => Err(USAGE.into()),
    };
    match done {
        Ok(()) => ExitCode::SUCCESS,
        Err(why) => {
            eprintln!("oracle: {why}");
            ExitCode::FAILURE
        }
    }
}

/// Writes the names of the programs over the port, a line to each.
fn programs() -> Result<(), String> {
    let names: String = questions::TABLES.iter().map(|(program, _)| format!("{program}\n")).collect();
    write(names.as_bytes())
}

/// Writes the questions that a program is asked in the full run.
fn make(program: &str, seed: &str) -> Result<(), String> {
    let seed = seed.parse().map_err(|_| format!("{seed} is no seed"))?;
    write(&frames(&questions::full(answered_by(program)?, seed)))
}

/// Writes runs to a folder, each as N.run, and beside it the listing by 01's rules at each of the twelve ages A as N.A, and the one where no
/// age is given as N.none.
fn runs(folder: &str, count: &str, seed: &str) -> Result<(), String> {
    let runs = listing::runs(&mut questions::Random(number(seed)?), number(count)? as usize);
    let file = |name: String, bytes: &[u8]| std::fs::write(format!("{folder}/{name}"), bytes).map_err(|e| format!("{name}: {e}"));
    for (at, run) in runs.iter().enumerate() {
        file(format!("{at}.run"), run)?;
        file(format!("{at}.none"), &listed(run, listed::NOT_GIVEN.into())?)?;
        for age in &cut::ENDS[3..] {
            file(format!("{at}.{age}"), &listed(run, *age as u64)?)?;
        }
    }
    Ok(())
}

/// The number that a word is.
fn number(word: &str) -> Result<u64, String> {
    word.parse().map_err(|_| format!("{word} is no number"))
}

/// The listing of some bytes by 01's rules at an age.
fn listed(bytes: &[u8], age: u64) -> Result<Vec<u8>, String> {
    listed::listing(bytes, age as usize).map_err(|e| e.to_string())
}

/// All of standard input.
fn input() -> Result<Vec<u8>, String> {
    let mut bytes = Vec::new();
    std::io::stdin().read_to_end(&mut bytes).map_err(|e| e.to_string())?;
    Ok(bytes)
}

/// Writes bytes to standard output.
fn write(bytes: &[u8]) -> Result<(), String> {
    std::io::stdout().write_all(bytes).map_err(|e| e.to_string())
}

/// The questions as they are sent.
fn frames(questions: &[Question]) -> Vec<u8> {
    questions.iter().flat_map(Question::frame).collect()
}

/// Lowercase hexadecimal digits, two to a byte.
fn hex(bytes: &[u8]) -> String {
    bytes.iter().map(|byte| format!("{byte:02x}")).collect()
}

/// Answers a program's questions of standard input, a line of hexadecimal digits to each.
fn answer(program: &str) -> Result<(), String> {
    let questions = questions::read(answered_by(program)?, &input()?)?;
    let lines: String = questions.iter().map(|question| hex(&question.answer()) + "\n").collect();
    write(lines.as_bytes())
}

/// Compares two files of answers to a program's questions, and says how many there are of each kind.
fn compare(program: &str, questions: &str, expected: &str, got: &str) -> Result<(), String> {
    let table = answered_by(program)?;
    let file = |path: &str| std::fs::read(path).map_err(|e| format!("{path}: {e}"));
    let questions = questions::read(table, &file(questions)?)?;
    let (expected, got) = (file(expected)?, file(got)?);
    let (mut rust, mut port) = (expected.split_inclusive(|b| *b == b'\n'), got.split_inclusive(|b| *b == b'\n'));
    for (at, question) in questions.iter().enumerate() {
        let (rust, port) = (rust.next(), port.next());
        if rust != port {
            return Err(format!(
                "the answers to question {} of {} differ\n  question  {}: {}\n  the Rust  {}\n  the port  {}",
                at + 1,
                questions.len(),
                question.asked.name,
                hex(&question.frame()),
                said(rust),
                said(port)
            ));
        }
    }
    if let (None, None) = (rust.next(), port.next()) {
        return counted(table, &questions, &expected);
    }
    Err(format!("there are more answers than the {} questions", questions.len()))
}

/// Says how many questions of each kind were answered alike and, of a kind that gives texts, how many of these have replacements: none is a
/// failure.
fn counted(table: &[Asked], questions: &[Question], answers: &[u8]) -> Result<(), String> {
    for asked in table {
        let answered = questions.iter().zip(answers.split(|b| *b == b'\n'));
        let of_kind = answered.filter(|(question, _)| question.asked.tag == asked.tag).map(|(_, answer)| answer);
        let (count, replaced) = (of_kind.clone().count(), of_kind.filter(|answer| replaced(asked, answer)).count());
        match asked.replacements_at {
            Some(_) if replaced == 0 => return Err(format!("{}: no text has a replacement", asked.name)),
            Some(_) => println!("{count:8} {}, {replaced} with replacements", asked.name),
            None => println!("{count:8} {}", asked.name),
        }
    }
    println!("{:8} questions, every answer the same byte for byte", questions.len());
    Ok(())
}

/// Whether an answer, in its digits, gives a text that has replacements.
fn replaced(asked: &Asked, answer: &[u8]) -> bool {
    let digits = asked.replacements_at.and_then(|at| answer.get(2 * at..2 * (at + 8)));
    digits.is_some_and(|digits| digits.iter().any(|digit| *digit != b'0'))
}

/// A line of answers as a message shows it.
fn said(line: Option<&[u8]>) -> String {
    line.map_or("(nothing: the answers end here)".into(), |line| format!("{:?}", String::from_utf8_lossy(line)))
}
