//! Lists the type chunks of a `resources.arsc`: offset in the file, id, entry count, and the text of the configuration for a reader of
//! the age, 52 where none is given, or why it is refused. A text is escaped as in a listing: `%` and two digits for a byte that isn't
//! a printable ASCII character or is `%`, and `%-` where it is empty. Where a chunk's head is refused, `-` stands for id and count.
//!
//!   cargo run --example arsc FILE [AGE]
//!
//! The file is a table (type 0x0002) of packages (0x0200) of chunks. Table and packages are opened, and of their chunks the type chunks (0x0201)
//! are handed to the calls of the crate; nothing else is. Where a chunk has sizes that can't be, the list ends with a message, and the
//! status is 1.

use res_table_config::{type_aged_text, type_head, AGES, DEFAULT_AGE, TEXT_MOST};
use std::ffi::OsString;
use std::io::Write;
use std::{env, fs, io, process};

const TABLE: u16 = 0x0002;
const PACKAGE: u16 = 0x0200;
const TYPE: u16 = 0x0201;

/// A chunk of any type: where it begins, its type, where its header ends, and where it ends itself.
struct Chunk {
    offset: usize,
    kind: u16,
    inside: usize,
    end: usize,
}

/// The chunk at an offset of a file, which ends with what holds it, or before.
fn chunk_at(file: &[u8], offset: usize, end: usize) -> Result<Chunk, String> {
    let Some(&[a, b, c, d, e, f, g, h]) = file[offset..end].first_chunk() else {
        return Err(format!("at {offset}: fewer than the 8 bytes that every chunk begins with"));
    };
    let (kind, header) = (u16::from_le_bytes([a, b]), usize::from(u16::from_le_bytes([c, d])));
    let size = u32::from_le_bytes([e, f, g, h]) as usize;
    if header < 8 || size < header || end - offset < size {
        let sizes = format!("header size {header} and chunk size {size}");
        return Err(format!("at {offset}: a chunk of type {kind:#06x} with {sizes}, where {} bytes are", end - offset));
    }
    Ok(Chunk { offset, kind, inside: offset + header, end: offset + size })
}

/// Does something with each chunk behind the header of another.
fn each(file: &[u8], outer: Chunk, mut act: impl FnMut(Chunk) -> Result<(), String>) -> Result<(), String> {
    let mut offset = outer.inside;
    while offset < outer.end {
        let chunk = chunk_at(file, offset, outer.end)?;
        offset = chunk.end;
        act(chunk)?;
    }
    Ok(())
}

/// A text as a listing shows it.
fn shown(text: &[u8]) -> String {
    let escaped = |byte: &u8| match byte {
        b'%' | ..=0x20 | 0x7f.. => format!("%{byte:02X}"),
        _ => char::from(*byte).to_string(),
    };
    if text.is_empty() {
        "%-".into()
    } else {
        text.iter().map(escaped).collect()
    }
}

/// The line of a type chunk at an offset, for a reader of an age.
fn line(chunk: &[u8], offset: usize, age: u32) -> String {
    let head = match type_head(chunk) {
        Ok(head) => head,
        Err(why) => return format!("{offset} - - ({why})\n"),
    };
    let mut out = [0; TEXT_MOST];
    let text = type_aged_text(chunk, age, &mut out).map_or_else(|why| format!("({why})"), shown);
    format!("{offset} {} {} {text}\n", head.id, head.entry_count)
}

/// The lines of a table's type chunks for a reader of an age, and why there are no more where the table doesn't end there.
pub fn lines(file: &[u8], age: u32) -> (String, Result<(), String>) {
    let mut list = String::new();
    let table = match chunk_at(file, 0, file.len()) {
        Ok(table) if table.kind == TABLE => table,
        Ok(other) => {
            return (list, Err(format!("at 0: a chunk of type {:#06x} and not a table, {TABLE:#06x}", other.kind)))
        }
        Err(why) => return (list, Err(why)),
    };
    let ended = each(file, table, |package| match package.kind {
        PACKAGE => each(file, package, |chunk| {
            if chunk.kind == TYPE {
                list += &line(&file[chunk.offset..chunk.end], chunk.offset, age);
            }
            Ok(())
        }),
        _ => Ok(()),
    });
    (list, ended)
}

#[allow(dead_code)]
fn main() {
    let words: Vec<OsString> = env::args_os().skip(1).collect();
    let given = match &words[..] {
        [name] => Some((name, DEFAULT_AGE)),
        [name, word] => AGES.into_iter().find(|age| *word == *age.to_string()).map(|age| (name, age)),
        _ => None,
    };
    let Some((name, age)) = given else {
        eprintln!("usage: arsc FILE [AGE]\nThe ages are {AGES:?}.");
        process::exit(2);
    };
    let read = fs::read(name).map_err(|why| why.to_string());
    let listed = read.and_then(|file| {
        let (list, ended) = lines(&file, age);
        io::stdout().write_all(list.as_bytes()).map_err(|why| why.to_string()).and(ended)
    });
    if let Err(why) = listed {
        eprintln!("arsc: {}: {why}", name.to_string_lossy());
        process::exit(1);
    }
}
