//! 01's listing of a run, line by line by 01's rules, over what 000 parses and says. The comparison takes it for what is right, and
//! the benchmark for what a listing costs in Rust.
use crate::cut::{refused, Refused, ENDS};
use crate::replaced;
use crate::subject::{reach, ResTableConfig};
use std::io::{Result, Write};

/// The age where none is given (02, K7).
pub const NOT_GIVEN: u32 = 52;

/// The most bytes that a listing takes.
pub const MOST: usize = 65_536;

/// The listing of some bytes at an age.
pub fn listing(bytes: &[u8], age: usize) -> Result<Vec<u8>> {
    let mut out = Vec::new();
    put_age_line(&mut out, age)?;
    if bytes.len() > MOST {
        writeln!(out, "stop 0 7")?;
        return Ok(out);
    }
    let (mut offset, mut index) = (0, 0);
    while let Some(amount) = put_record_line(&mut out, bytes, age, index, offset)? {
        offset += amount;
        index += 1;
    }
    put_stop_line(&mut out, bytes, offset)?;
    Ok(out)
}

/// Appends the first line.
pub fn put_age_line(out: &mut Vec<u8>, age: usize) -> Result<()> {
    writeln!(out, "age {age}")
}

/// Appends the line of the record that stands whole at an offset, and says how many bytes the record takes; nothing where none stands there.
pub fn put_record_line(out: &mut Vec<u8>, bytes: &[u8], age: usize, index: usize, offset: usize) -> Result<Option<usize>> {
    let Some(rest) = bytes.get(offset..) else { return Ok(None) };
    let Some((record, amount)) = taken(rest) else { return Ok(None) };
    let whole = &rest[..amount];
    write!(out, "{index} {offset} {} ", record.size)?;
    out.extend_from_slice(&marks(whole, record.size as usize, age));
    out.push(b' ');
    if held_back(whole, age) {
        writeln!(out, "%! 0")?;
    } else {
        put_escaped(out, &record.as_string())?;
        writeln!(out, " {}", replaced::in_record(&record))?;
    }
    Ok(Some(amount))
}

/// Appends the last line, of a run that stops at an offset: its number, and with 2 the row.
pub fn put_stop_line(out: &mut Vec<u8>, bytes: &[u8], offset: usize) -> Result<()> {
    match stop(bytes, offset) {
        Refused { number: 2, carried } => writeln!(out, "stop {offset} 2 {carried}"),
        Refused { number, .. } => writeln!(out, "stop {offset} {number}"),
    }
}

/// Why a run stops at an offset where no record stands whole: 0 at the exact end, and 1 past it.
pub fn stop(bytes: &[u8], offset: usize) -> Refused {
    if offset == bytes.len() {
        return Refused::with(0);
    }
    refused(bytes.get(offset..).unwrap_or(&[])).expect("no record stands whole there")
}

/// The record at the front of some bytes, and how many of them the Rust took for it.
pub fn taken(bytes: &[u8]) -> Option<(ResTableConfig, usize)> {
    let mut rest = bytes;
    let record = reach::parse(&mut rest)?;
    Some((record, bytes.len() - rest.len()))
}

/// Whether one of a whole record's bytes holds it back at an age.
pub fn held_back(whole: &[u8], age: usize) -> bool {
    whole.iter().skip(age).any(|byte| *byte != 0)
}

/// The marks of a whole record's fourteen fields after size.
pub fn marks(whole: &[u8], size: usize, age: usize) -> [u8; 14] {
    let mark = |at: usize| match ENDS[at] {
        end if end > age => b'U',
        end if at > 3 && end > size => b'A',
        end if whole[ENDS[at - 1]..end].iter().all(|byte| *byte == 0) => b'B',
        _ => b'F',
    };
    std::array::from_fn(|at| mark(at + 1))
}

/// Appends a text as a line shows it.
fn put_escaped(out: &mut Vec<u8>, text: &str) -> Result<()> {
    if text.is_empty() {
        out.extend_from_slice(b"%-");
    }
    for byte in text.bytes() {
        match byte {
            b'%' | ..=0x20 | 0x7f.. => write!(out, "%{byte:02X}")?,
            _ => out.push(byte),
        }
    }
    Ok(())
}
