//! The benchmark's program on indexes: a Rust over 000 and the port in one process, each call made as often as the caller says.
//!
//!   index list             the name of each case, and how many records its run has, or how many entries are looked at, a line each
//!   index same             status 0 where port and Rust write and answer alike
//!   index SIDE CASE N      makes the case's call N times; SIDE is port or rust
//!
//! `main` is C's: the kit's emulator can't bear Rust's own start-up.
#![no_main]

mod gathered;
#[path = "../tests/rust/shim.rs"]
mod shim;
#[path = "../tests/rust/subject.rs"]
mod subject;

use gathered::{ENTRY, KEY, MOST};
use std::ffi::{c_char, CStr};
use std::hint::black_box;

unsafe extern "C" {
    fn res_table_config_index(bytes: *const u8, len: usize, out: *mut u8, cap: usize) -> u64;
    fn res_table_config_find(entries: *const u8, entries_len: usize, bytes: *const u8, len: usize) -> u64;
}

/// How many records a run has.
const RECORDS: usize = 4096;

/// What is called.
#[derive(Clone, Copy, PartialEq)]
enum Call {
    /// The index of the run: a map, made and let go, beside the port's own room, and both write to a lent buffer.
    Index,
    /// Finding the record of the last entry.
    Find,
}

/// Each case: its name, its call, how many records of the run are distinct, and the size of each.
const CASES: [(&str, Call, usize, usize); 5] = [
    ("distinct-1024", Call::Index, MOST, 64),
    ("distinct-16", Call::Index, 16, 64),
    ("all-alike", Call::Index, 1, 64),
    ("1024-of-28-bytes", Call::Index, MOST, 28),
    ("find-last-of-1024", Call::Find, MOST, 64),
];

/// The record of a number, as packages have them: sixteen for each language, of four densities and four versions.
fn record(number: usize, size: usize) -> Vec<u8> {
    let (language, device) = (number / 16, number % 16);
    let mut bytes = vec![0; size];
    bytes[0] = size as u8;
    bytes[8..10].copy_from_slice(&[b'a' + (language % 26) as u8, b'a' + (language / 26) as u8]);
    bytes[14] = [0, 120, 160, 240][device % 4];
    bytes[24] = [0, 21, 26, 33][device / 4];
    bytes
}

/// A run of records of a size, so many of them distinct, each about as often as any other, in an order that is always the same.
fn run_of(distinct: usize, size: usize) -> Vec<u8> {
    let mut seed = 0x2545_f491_4f6c_dd1d_u64;
    let mut numbers: Vec<usize> = (0..RECORDS).map(|at| at % distinct).collect();
    for at in (1..RECORDS).rev() {
        // xorshift64
        seed ^= seed << 13;
        seed ^= seed >> 7;
        seed ^= seed << 17;
        numbers.swap(at, (seed % (at as u64 + 1)) as usize);
    }
    numbers.into_iter().flat_map(|number| record(number, size)).collect()
}

fn port_index(bytes: &[u8], out: &mut [u8]) -> u64 {
    unsafe { res_table_config_index(bytes.as_ptr(), bytes.len(), out.as_mut_ptr(), out.len()) }
}

fn port_find(entries: &[u8], bytes: &[u8]) -> u64 {
    unsafe { res_table_config_find(entries.as_ptr(), entries.len(), bytes.as_ptr(), bytes.len()) }
}

/// Makes a call n times, and has the compiler believe that somebody looks at what it gives.
fn times<A>(n: usize, mut call: impl FnMut() -> A) {
    for _ in 0..n {
        black_box(&call());
    }
}

/// What a case is made with: the run, room for its index, which holds the index already, and the record of its last entry.
fn made(distinct: usize, size: usize) -> (Vec<u8>, Vec<u8>, Vec<u8>) {
    let (run, mut out) = (run_of(distinct, size), vec![0; ENTRY * distinct]);
    gathered::index(&run, &mut out);
    let mut offset = [0; 8];
    offset.copy_from_slice(&out[ENTRY * (distinct - 1) + KEY..][..8]);
    let last = run[u64::from_le_bytes(offset) as usize..][..size].to_vec();
    (run, out, last)
}

/// Makes the Rust's call n times. It may be drawn into the loop, which the port's can't be.
fn rust_times(call: Call, distinct: usize, size: usize, n: usize) {
    let (run, mut out, last) = made(distinct, size);
    match call {
        Call::Index => times(n, || gathered::index(black_box(&run), black_box(&mut out))),
        Call::Find => times(n, || gathered::find(black_box(&out), black_box(&last))),
    }
}

/// Makes the port's call n times.
fn port_times(call: Call, distinct: usize, size: usize, n: usize) {
    let (run, mut out, last) = made(distinct, size);
    match call {
        Call::Index => times(n, || port_index(black_box(&run), black_box(&mut out))),
        Call::Find => times(n, || port_find(black_box(&out), black_box(&last))),
    }
}

/// Whether port and Rust write the same index of a run into so many bytes, or refuse it and write none.
fn same_index(run: &[u8], room: usize) -> bool {
    let (mut by_port, mut by_rust) = (vec![0xa5; room], vec![0xa5; room]);
    let answer = gathered::index(run, &mut by_rust).map_or(5 << 32, |count| count as u64);
    port_index(run, &mut by_port) == answer && by_port == by_rust
}

/// Whether they write the same of a run, of a part that ends inside a record, and of nothing, with room enough, just enough and a byte less; and find
/// each record of the run at the same place, the last entry's at the last, and one that isn't there nowhere.
fn same(distinct: usize, size: usize) -> bool {
    let (run, out, last) = made(distinct, size);
    let rooms = [0, out.len() - 1, out.len(), out.len() + 100];
    let alike =
        |record: &[u8]| port_find(&out, record) == gathered::find(&out, record).map_or(0, |place| place as u64 + 1);
    rooms
        .into_iter()
        .all(|room| [run.len(), run.len() - 1, size - 1, 0].iter().all(|end| same_index(&run[..*end], room)))
        && run.chunks_exact(size).all(alike)
        && gathered::find(&out, &last) == Some(distinct - 1)
        && alike(&record(distinct, size))
}

/// Does what the words say; 2 where they say nothing known, 1 where port and Rust differ.
fn run(words: &[&str]) -> i32 {
    match words {
        ["list"] => CASES.iter().for_each(|(name, call, distinct, _)| {
            println!("{name} {}", if *call == Call::Find { *distinct } else { RECORDS });
        }),
        ["same"] => {
            let too_many = run_of(MOST + 1, 64);
            let differ = CASES.iter().any(|(_, _, distinct, size)| !same(*distinct, *size));
            return (differ || !same_index(&too_many, ENTRY * (MOST + 1))) as i32;
        }
        [side, name, n] => {
            let (Some((_, call, distinct, size)), Ok(n)) = (CASES.iter().find(|case| case.0 == *name), n.parse())
            else {
                return 2;
            };
            match *side {
                "port" => port_times(*call, *distinct, *size, n),
                "rust" => rust_times(*call, *distinct, *size, n),
                _ => return 2,
            }
        }
        _ => return 2,
    }
    0
}

#[unsafe(no_mangle)]
pub extern "C" fn main(count: i32, words: *const *const c_char) -> i32 {
    let words: Vec<&str> =
        (1..count as usize).map(|i| unsafe { CStr::from_ptr(*words.add(i)) }.to_str().unwrap_or("")).collect();
    run(&words)
}
