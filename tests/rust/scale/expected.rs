//! What each call is to answer: by 000 as far as it has an answer, and by 01's rules.
use super::{Call, Question};
use crate::chunk::{chunk, chunk_at};
use crate::cut::{self, Refused, ENDS};
use crate::grammar::named;
use crate::indexed::{self, ENTRY, KEY};
use crate::listed::{held_back, marks, put_age_line, put_record_line, put_stop_line, taken, MOST};
use crate::marks_word::{letters, word};
use crate::records::{fields, written};
use crate::replaced::{held_in_record, in_record};
use crate::subject::ResTableConfig;

/// What a call is to write, whatever it is lent, or a refusal before 5; nothing where it doesn't write.
pub type Wanted = Result<Vec<u8>, Refused>;

/// What a call comes to: 01's number with what it carries, the answer, and what it writes to the front of the lent bytes.
pub struct Outcome {
    pub why: Refused,
    pub answer: u64,
    pub wrote: Vec<u8>,
}

/// The most bytes that are ever lent.
const LENT_MOST: usize = 1 << 17;

/// The number of the cursor behind the last line.
const END: u64 = u64::MAX;

/// Why a line can't fail.
const TAKES: &str = "a Vec takes every byte";

/// Two numbers as one: the first in the upper half, and what the lower half holds of the second.
fn packed(high: u32, low: u64) -> u64 {
    u64::from(high) << 32 | low & 0xffff_ffff
}

/// A call that writes nothing, with a success's amount or a refusal.
fn told(answer: Result<u64, Refused>) -> Outcome {
    let (why, low) = match answer {
        Ok(amount) => (Refused::with(0), amount),
        Err(why) => (why, why.carried),
    };
    Outcome { why, answer: packed(why.number, low), wrote: vec![] }
}

/// The record at the front of some bytes and how many it takes, by 000; where 000 has an error, the number of 01 or 02, with its row.
/// That there is an error, 000 and the rule for the numbers must agree on.
pub fn whole(bytes: &[u8]) -> Result<(ResTableConfig, usize), Refused> {
    match (taken(bytes), cut::refused(bytes)) {
        (Some(whole), None) => Ok(whole),
        (None, Some(why)) => Err(why),
        (_, why) => panic!("000 and 01 differ on whether a record is whole: 01 says {why:?} of {bytes:x?}"),
    }
}

/// An age, or 3.
pub fn age(number: u32) -> Result<usize, Refused> {
    ENDS[3..].iter().copied().find(|end| *end == number as usize).ok_or(Refused::with(3))
}

/// 7 where a listing has too much input.
fn listed(bytes: &[u8]) -> Result<(), Refused> {
    if bytes.len() > MOST {
        Err(Refused::with(7))
    } else {
        Ok(())
    }
}

/// What a question's call is to write, with its refusals in 01's order.
pub fn wanted(call: Call, number: u32, index: u64, offset: u64, bytes: &[u8]) -> Wanted {
    match call {
        Call::Text => Ok(whole(bytes)?.0.as_string().into_bytes()),
        Call::AgedText => Ok(shown(bytes, number)?.as_string().into_bytes()),
        Call::Marks => {
            let (age, (record, amount)) = (age(number)?, whole(bytes)?);
            Ok(marks(&bytes[..amount], record.size as usize, age).to_vec())
        }
        Call::MarksLetters => letters(number).map(Vec::from),
        Call::Index => index_of(bytes),
        Call::FirstLine => listed(bytes).and(age(number)).map(first_line),
        Call::Line | Call::Next => listed(bytes).and(age(number)).map(|age| line(bytes, age, index, offset).0),
        Call::RecordLine => age(number).and_then(|age| record_line(bytes, age, index, offset)),
        Call::Write => rewritten(bytes, number),
        Call::TypeHead => Ok(chunk(bytes)?.shown.to_vec()),
        Call::TypeText => in_chunk(Call::AgedText, number, bytes),
        Call::TypeMarks => in_chunk(Call::Marks, number, bytes),
        Call::ChunkStep | Call::ChunkRead => Ok(stepped(bytes, offset, number).record),
        Call::Named => of_name(bytes),
        _ => Ok(vec![]),
    }
}

/// The record of a name, or 11 with the offset of a part. 000's text of the record must be the name again.
fn of_name(name: &[u8]) -> Wanted {
    let record = named(name).map_err(|at| Refused { number: 11, carried: at as u64 })?;
    let text = whole(&record)?.0.as_string();
    assert!(text.as_bytes() == name, "the rule's record of {:?} has the text {text}", String::from_utf8_lossy(name));
    Ok(record.to_vec())
}

/// Whether a call writes to lent bytes.
pub fn writes(call: Call) -> bool {
    match call {
        Call::Take | Call::Replaced | Call::MarksWord | Call::Order | Call::Find => false,
        Call::Walk | Call::Row | Call::Records => false,
        Call::TypeTake | Call::ChunkStop | Call::ChunkEnd | Call::Chunks => false,
        Call::ChunkNext | Call::ChunkReadNext => false,
        _ => true,
    }
}

/// The word of the marks of the record at the front of some bytes for a reader of an age. Its letters must be those of a listing.
pub fn word_of(bytes: &[u8], number: u32) -> Result<u32, Refused> {
    let (age, (record, amount)) = (age(number)?, whole(bytes)?);
    let whole = &bytes[..amount];
    let word = word(whole, age);
    assert_eq!(letters(word), Ok(marks(whole, record.size as usize, age)), "{word:#x} at {age}: {whole:x?}");
    Ok(word)
}

/// The index of a run. By 000 each record of the run must be Equal to the one at the offset of an entry, which is its first occurrence, as many as the
/// entry counts; and those at the offsets must rise.
fn index_of(run: &[u8]) -> Wanted {
    let index = indexed::index(run)?;
    let number = |bytes: &[u8]| u64::from_le_bytes(bytes.try_into().expect("eight bytes")) as usize;
    let numbers = |entry: &[u8]| (number(&entry[KEY..KEY + 8]), number(&entry[KEY + 8..]));
    let expected: Vec<_> = index.chunks_exact(ENTRY).map(numbers).collect();
    let first = |(offset, _): &(usize, usize)| whole(&run[*offset..]).expect("an entry has an occurrence").0;
    let firsts: Vec<_> = expected.iter().map(first).collect();
    assert!(firsts.windows(2).all(|two| two[0] < two[1]), "the entries of {run:x?} don't rise");
    let (mut at, mut found) = (0, vec![(usize::MAX, 0); firsts.len()]);
    while let Ok((record, amount)) = whole(&run[at..]) {
        let place = firsts.binary_search(&record).expect("each record has an entry");
        let (offset, count) = found[place];
        found[place] = (offset.min(at), count + 1);
        at += amount;
    }
    assert_eq!(found, expected, "the offsets and counts of {run:x?}");
    Ok(index)
}

/// What a call on a record is to write of the one in a chunk: an age that is none comes first, then what is wrong with the chunk.
fn in_chunk(call: Call, number: u32, bytes: &[u8]) -> Wanted {
    age(number)?;
    wanted(call, number, 0, 0, chunk(bytes)?.config)
}

/// A step at a chunk: 1 for one that stands there whole, 0 at the exact end, or why there is none; the offset where the next step goes on; and
/// what 01's writer makes of the record that is given.
struct Stepped {
    tells: Result<u64, Refused>,
    next: u64,
    record: Vec<u8>,
}

/// The step at an offset for a reader of an age. An age is the end of a field, so that what the reader doesn't know are the bytes from there on.
fn stepped(bytes: &[u8], offset: u64, number: u32) -> Stepped {
    let stays = |tells| Stepped { tells, next: offset, record: vec![0; 16] };
    let found = age(number).and_then(|age| Ok((age, chunk_at(bytes, offset as usize)?)));
    match found {
        Err(why) => stays(Err(why)),
        Ok((_, None)) => stays(Ok(0)),
        Ok((age, Some(chunk))) => {
            let mut record = written(&whole(chunk.config).expect("the record of a whole chunk is whole").0);
            record.iter_mut().skip(age).for_each(|byte| *byte = 0);
            Stepped { tells: Ok(1), next: offset + chunk.size as u64, record }
        }
    }
}

/// The record at the front of some bytes where a reader of an age is shown its text: what isn't held back is zero from the age on, so
/// that the plain text is the reader's.
fn shown(bytes: &[u8], number: u32) -> Result<ResTableConfig, Refused> {
    let (age, (record, amount)) = (age(number)?, whole(bytes)?);
    if held_back(&bytes[..amount], age) {
        Err(Refused::with(4))
    } else {
        Ok(record)
    }
}

/// The first line at an age.
fn first_line(age: usize) -> Vec<u8> {
    let mut line = vec![];
    put_age_line(&mut line, age).expect(TAKES);
    line
}

/// The line of the record at the front of some bytes as the one of an index at an offset, whatever these are: the record's own line
/// in a run that it begins, with these two numbers in front.
fn record_line(bytes: &[u8], age: usize, index: u64, offset: u64) -> Wanted {
    whole(bytes)?;
    let mut line = vec![];
    put_record_line(&mut line, bytes, age, 0, 0).expect(TAKES);
    let behind = line.strip_prefix(b"0 0 ").expect("index and offset begin the line");
    Ok([format!("{index} {offset} ").as_bytes(), behind].concat())
}

/// The line at a cursor, and the cursor behind it. A record's index is at most its offset, so there is no line where it isn't.
fn line(bytes: &[u8], age: usize, index: u64, offset: u64) -> (Vec<u8>, u64) {
    let mut line = vec![];
    if offset < index {
        return (line, END);
    }
    match put_record_line(&mut line, bytes, age, index as usize, offset as usize).expect(TAKES) {
        Some(amount) => (line, cursor(index + 1, offset + amount as u64)),
        None => {
            put_stop_line(&mut line, bytes, offset as usize).expect(TAKES);
            (line, END)
        }
    }
}

/// A cursor at a record.
fn cursor(index: u64, offset: u64) -> u64 {
    packed(index as u32, offset)
}

/// What the writer makes of the record at the front of some bytes with another size: 6 where a field that isn't read at that
/// size isn't zero; and what is longer than all that is lent is 5.
fn rewritten(bytes: &[u8], size: u32) -> Wanted {
    let (mut record, _) = whole(bytes)?;
    record.size = size;
    let fields = fields(&record);
    let unread = |at: &usize| ENDS[*at] > size as usize;
    if (4..15).filter(unread).any(|at| fields[ENDS[at - 1]..ENDS[at]].iter().any(|byte| *byte != 0)) {
        return Err(Refused::with(6));
    }
    if size as usize > LENT_MOST {
        return Err(Refused::with(5));
    }
    Ok(written(&record))
}

/// What a question's call comes to.
pub fn outcome(question: &Question) -> Outcome {
    let Question { call, index, offset, first, .. } = question;
    match call {
        Call::Take => told(whole(first).map(|(_, amount)| amount as u64)),
        Call::Replaced => {
            told(shown(first, question.number).map(|record| held_in_record(&record, &record.as_string()) as u64))
        }
        Call::MarksWord => told(word_of(first, question.number).map(u64::from)),
        Call::Order => {
            let order = whole(first).and_then(|(a, _)| Ok(a.cmp(&whole(&question.second)?.0)));
            told(order.map(|order| (order as i64 + 1) as u64))
        }
        Call::Index => {
            let Outcome { why, answer, wrote } = room_for(question);
            let count = (wrote.len() / ENTRY) as u64;
            Outcome { why, answer: if why.number == 0 { count } else { answer }, wrote }
        }
        Call::Find => told(indexed::find(&question.second, first).map(|amount| amount as u64)),
        Call::Walk | Call::Row | Call::Records => walked(question, record_at),
        Call::TypeTake => told(chunk(first).map(|chunk| chunk.size as u64)),
        Call::ChunkStop | Call::ChunkEnd | Call::Chunks => {
            walked(question, |bytes, offset| Ok(chunk_at(bytes, offset)?.map(|chunk| chunk.size)))
        }
        Call::ChunkStep | Call::ChunkRead => {
            Outcome { wrote: room_for(question).wrote, ..told(stepped(first, *offset, question.number).tells) }
        }
        Call::ChunkNext | Call::ChunkReadNext => {
            let stepped = stepped(first, *offset, question.number);
            Outcome { answer: stepped.next, ..told(stepped.tells) }
        }
        Call::Next => {
            let Outcome { why, wrote, .. } = room_for(question);
            let behind = || line(first, question.number as usize, *index, *offset).1;
            Outcome { why, answer: if why.number == 0 { behind() } else { cursor(*index, *offset) }, wrote }
        }
        _ => room_for(question),
    }
}

/// How many replacements the text has that a question's call wrote, by itself or in a line, or counted; nothing where there is no text.
pub fn replacements(question: &Question, outcome: &Outcome) -> Option<usize> {
    if outcome.why.number != 0 {
        return None;
    }
    match question.call {
        Call::Text | Call::AgedText => whole(&question.first).ok().map(|(record, _)| in_record(&record)),
        Call::TypeText => whole(chunk(&question.first).ok()?.config).ok().map(|(record, _)| in_record(&record)),
        Call::Replaced => Some(outcome.answer as usize),
        // a record's line alone has a sixth item
        Call::Line | Call::Next | Call::RecordLine => {
            std::str::from_utf8(&outcome.wrote).ok()?.split_whitespace().nth(5)?.parse().ok()
        }
        _ => None,
    }
}

/// What is wanted where there is room for it, else 5.
fn room_for(question: &Question) -> Outcome {
    match &question.wanted {
        Ok(bytes) if bytes.len() <= question.lent => Outcome { wrote: bytes.clone(), ..told(Ok(bytes.len() as u64)) },
        Ok(_) => told(Err(Refused::with(5))),
        Err(why) => told(Err(*why)),
    }
}

/// How many bytes the record at an offset takes; nothing at the exact end, else why none stands there whole.
fn record_at(bytes: &[u8], offset: usize) -> Result<Option<usize>, Refused> {
    match bytes.get(offset..) {
        Some([]) => Ok(None),
        rest => whole(rest.unwrap_or(&[])).map(|(_, amount)| Some(amount)),
    }
}

/// Where a run stops, under its number or by itself, the row that the stop carries, under its number or by itself, or how many stand in the run,
/// by what stands at an offset.
fn walked(question: &Question, at: impl Fn(&[u8], usize) -> Result<Option<usize>, Refused>) -> Outcome {
    let (mut end, mut count) = (question.offset as usize, 0);
    let why = loop {
        match at(&question.first, end) {
            Ok(Some(amount)) => (end, count) = (end + amount, count + 1),
            Ok(None) => break Refused::with(0),
            Err(why) => break why,
        }
    };
    let answer = match question.call {
        Call::Row => why.carried,
        Call::ChunkStop => packed(why.number, why.carried),
        Call::ChunkEnd => end as u64,
        Call::Records | Call::Chunks => count,
        _ => packed(why.number, end as u64),
    };
    Outcome { why, answer, wrote: vec![] }
}
