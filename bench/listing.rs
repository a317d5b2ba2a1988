//! The benchmark's other listing: standard input listed at age 64 by 000 and 01's rules, as the program `listing` lists it.
//!
//! `main` is C's: the kit's emulator can't bear Rust's own start-up.
#![no_main]

#[path = "../tests/rust/cut.rs"]
mod cut;
#[path = "../tests/rust/listed.rs"]
#[allow(dead_code)]
mod listed;
#[path = "../tests/rust/replaced.rs"]
#[allow(dead_code)]
mod replaced;
#[path = "../tests/rust/shim.rs"]
mod shim;
#[path = "../tests/rust/subject.rs"]
mod subject;

use std::io::{stdin, stdout, Read, Result, Write};

/// Lists standard input.
fn run() -> Result<()> {
    let mut bytes = Vec::new();
    stdin().read_to_end(&mut bytes)?;
    stdout().write_all(&listed::listing(&bytes, 64)?)
}

#[unsafe(no_mangle)]
pub extern "C" fn main() -> i32 {
    run().is_err() as i32
}
