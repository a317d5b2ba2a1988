//! Lists the records of a file, end to end: index, offset, bytes taken, and the text or why it is refused. The text is that for a
//! reader of the age, 52 where none is given; with `plain` it is the plain text, of records that are held back too. The last line
//! has the offset where the list stopped, and why if bytes are left.
//!
//!   cargo run --example list FILE [AGE|plain]

use res_table_config::{aged_text, take, text, AGES, DEFAULT_AGE, TEXT_MOST};
use std::{env, fs, process};

/// The lines of a run of records for a reader of an age, or with the plain text.
pub fn lines(run: &[u8], age: Option<u32>) -> String {
    let mut list = String::new();
    let (mut index, mut offset) = (0, 0);
    while offset < run.len() {
        let bytes = &run[offset..];
        let taken = match take(bytes) {
            Ok(taken) => taken,
            Err(why) => return list + &format!("stopped at {offset}: {why}\n"),
        };
        let mut out = [0; TEXT_MOST];
        let shown = match age {
            Some(age) => aged_text(bytes, age, &mut out),
            None => text(bytes, &mut out),
        };
        match shown {
            Ok(text) => list += &format!("{index} {offset} {taken} {}\n", String::from_utf8_lossy(text)),
            Err(why) => list += &format!("{index} {offset} {taken} ({why})\n"),
        }
        index += 1;
        offset += taken;
    }
    list + &format!("stopped at {offset}\n")
}

#[allow(dead_code)]
fn main() {
    let words: Vec<String> = env::args().skip(1).collect();
    let given = match words.iter().map(String::as_str).collect::<Vec<_>>()[..] {
        [file] => Some((file, Some(DEFAULT_AGE))),
        [file, "plain"] => Some((file, None)),
        [file, word] => AGES.into_iter().find(|age| age.to_string() == word).map(|age| (file, Some(age))),
        _ => None,
    };
    let Some((file, age)) = given else {
        eprintln!("usage: list FILE [AGE|plain]\nThe ages are {AGES:?}.");
        process::exit(2);
    };
    match fs::read(file) {
        Ok(run) => print!("{}", lines(&run, age)),
        Err(why) => {
            eprintln!("list: {file}: {why}");
            process::exit(1);
        }
    }
}
