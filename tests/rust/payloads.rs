//! What the questions on records are asked about: makers of payloads, and what the full run and the fixed list take of them.
pub use crate::cut::ENDS;
use crate::questions::Random;
use std::ops::Range;

/// Makes payloads of one sort.
pub type Maker = fn(&mut Random) -> Vec<Vec<u8>>;

/// Records, whole and not.
pub const RECORDS: &[Maker] = &[every_size, around_ends, tails, not_there, whole, damaged];

/// Records for the accessors.
pub const ACCESSED: &[Maker] = &[every_byte, around_ends, whole, damaged];

/// A density in two bytes, then a record.
pub const DENSITIES: &[Maker] = &[every_density, densities_of_damaged];

/// The first one's length in four bytes, then two records.
pub const PAIRS: &[Maker] = &[
    alike,
    one_field,
    one_byte,
    two_fields,
    neighbours,
    orders_at_odds,
    other_computed,
    other_sizes,
    unrelated,
    halves_damaged,
];

/// Sizes that records have in files, and two more, 28 and 48.
const USUAL: [usize; 7] = [28, 32, 36, 48, 52, 56, 64];

/// Where the words behind size start.
const WORDS: [usize; 9] = [4, 8, 12, 16, 20, 24, 28, 32, 48];

/// The longest payload of the fixed list.
const SMALL: usize = 192;

/// All that the makers make.
pub fn all_of(makers: &[Maker], random: &mut Random) -> Vec<Vec<u8>> {
    makers.iter().flat_map(|make| make(random)).collect()
}

/// So many small ones of each maker, by a seed that stays the same.
pub fn few_of(makers: &[Maker], count: usize) -> Vec<Vec<u8>> {
    let random = &mut Random(1478);
    let mut few = Vec::new();
    for make in makers {
        let mut made: Vec<_> = make(random).into_iter().filter(|payload| payload.len() <= SMALL).collect();
        few.extend((0..count.min(made.len())).map(|_| made.swap_remove(random.below(made.len()))));
    }
    few
}

/// The two records that a payload of a pair holds.
pub fn parts(payload: &[u8]) -> (&[u8], &[u8]) {
    let (length, records) = payload.split_at(4);
    records.split_at(u32::from_le_bytes([length[0], length[1], length[2], length[3]]) as usize)
}

/// The payload that holds two records.
fn pair(first: &[u8], second: &[u8]) -> Vec<u8> {
    let length = u32::try_from(first.len()).expect("a record's length fits four bytes");
    [&length.to_le_bytes(), first, second].concat()
}

/// So many payloads of one sort.
pub fn many(count: usize, random: &mut Random, make: fn(&mut Random) -> Vec<u8>) -> Vec<Vec<u8>> {
    (0..count).map(|_| make(random)).collect()
}

/// One of some values.
pub fn one<T: Copy>(random: &mut Random, values: &[T]) -> T {
    values[random.below(values.len())]
}

/// Where one of the fields behind size lies.
fn field(random: &mut Random) -> Range<usize> {
    let at = 1 + random.below(14);
    ENDS[at - 1]..ENDS[at]
}

/// Random bytes that declare a size, as far as they reach.
pub fn declared(random: &mut Random, size: usize, length: usize) -> Vec<u8> {
    let mut bytes = random.bytes(length);
    declare(&mut bytes, size);
    bytes
}

/// Lays a size over the front of some bytes, as far as they reach.
pub fn declare(bytes: &mut [u8], size: usize) {
    for (byte, of_size) in bytes.iter_mut().zip((size as u32).to_le_bytes()) {
        *byte = of_size;
    }
}

/// A whole record with some of its fields blank.
pub fn record(random: &mut Random, size: usize) -> Vec<u8> {
    let mut bytes = declared(random, size, size.max(16));
    let blank = random.below(4);
    for at in 1..15 {
        if ENDS[at] <= bytes.len() && random.below(4) < blank {
            bytes[ENDS[at - 1]..ENDS[at]].fill(0);
        }
    }
    bytes
}

/// A whole record of a size that files have.
pub fn usual(random: &mut Random) -> Vec<u8> {
    let size = one(random, &USUAL);
    record(random, size)
}

/// The same bytes but for one part, which is made anew until it is another.
fn but_for(random: &mut Random, bytes: &[u8], part: Range<usize>) -> Vec<u8> {
    let mut other = bytes.to_vec();
    while other[part.clone()] == bytes[part.clone()] {
        other[part.clone()].copy_from_slice(&random.bytes(part.len()));
    }
    other
}

/// A record with one byte changed, cut, or with bytes behind it.
pub fn broken(random: &mut Random) -> Vec<u8> {
    let mut bytes = usual(random);
    match random.below(3) {
        0 => {
            let at = random.below(bytes.len());
            bytes = but_for(random, &bytes, at..at + 1);
        }
        1 => bytes.truncate(random.below(bytes.len())),
        _ => {
            let more = 1 + random.below(32);
            bytes.extend(random.bytes(more));
        }
    }
    bytes
}

/// Sizes with lengths, in sorts: every size to 130 at every length to 130, sizes around 65,536 and the last below 2^32 at these lengths
/// too, and such sizes at lengths around 65,536.
pub fn sizes_at_lengths() -> [(&'static str, Vec<(usize, usize)>); 4] {
    let few = |sizes: Range<usize>| sizes.flat_map(|size| (0..=130).map(move |length| (size, length))).collect();
    let long = (65_533..65_540).chain([(1 << 32) - 2, (1 << 32) - 1]);
    [
        ("size to 130", few(0..131)),
        ("size near 65,536", few(65_528..65_545)),
        ("size near 2^32", few((1 << 32) - 17..1 << 32)),
        ("length near 65,536", long.flat_map(|size| (65_533..65_540).map(move |length| (size, length))).collect()),
    ]
}

/// Each of these sizes at each of its lengths.
pub fn every_size(random: &mut Random) -> Vec<Vec<u8>> {
    let pairs = sizes_at_lengths().into_iter().flat_map(|(_, pairs)| pairs);
    pairs.map(|(size, length)| declared(random, size, length)).collect()
}

/// Sizes at each field's end and one to either side, with one byte too few, none, one and seven too many.
pub fn around_ends(random: &mut Random) -> Vec<Vec<u8>> {
    let sizes = ENDS.iter().flat_map(|end| end - 1..=end + 1);
    let pairs = sizes.flat_map(|size| [size - 1, size, size + 1, size + 7].map(|length| (size, length)));
    pairs.flat_map(|pair| [pair; 16]).map(|(size, length)| declared(random, size, length)).collect()
}

/// Sizes past 64 and to 65,536, their tails zero or random, with one byte too few, none, one and seven too many.
pub fn tails(random: &mut Random) -> Vec<Vec<u8>> {
    let mut made = Vec::new();
    for most in [160, 1024, 8192, 65536] {
        for row in 0..100 {
            let size = if row < 4 { most - row } else { 65 + random.below(most - 64) };
            let length = one(random, &[size - 1, size, size, size + 1, size + 7]);
            let mut bytes = declared(random, size, length);
            if random.below(2) == 0 {
                bytes[64..].fill(0);
            }
            made.push(bytes);
        }
    }
    made
}

/// Sizes that are far more than the bytes there are, among them those of which the low half is small.
pub fn not_there(random: &mut Random) -> Vec<Vec<u8>> {
    let sizes = [
        97,
        256,
        0x1_0000,
        0x1_0010,
        0x1_0040,
        0x100_0000,
        0x100_0040,
        0x7fff_ffff,
        0x8000_0000,
        0xffff_ffc0,
        0xffff_ffff,
    ];
    let pairs = sizes.into_iter().flat_map(|size| [4, 15, 16, 17, 52, 63, 64, 65, 96].map(|length| (size, length)));
    let mut made: Vec<_> = pairs.map(|(size, length)| declared(random, size, length)).collect();
    made.extend([0x1_0001, 0x8000_0010, 0xffff_ffff].map(|size| declared(random, size, 65536)));
    made
}

/// Whole records of the sizes that files have.
pub fn whole(random: &mut Random) -> Vec<Vec<u8>> {
    many(30_000, random, usual)
}

/// Damaged copies of records.
pub fn damaged(random: &mut Random) -> Vec<Vec<u8>> {
    many(30_000, random, broken)
}

/// Every value of every byte of the words, once.
fn every_byte(random: &mut Random) -> Vec<Vec<u8>> {
    let values =
        WORDS.into_iter().flat_map(|word| word..word + 4).flat_map(|at| (0..=255).map(move |value| (at, value)));
    values
        .map(|(at, value)| {
            let mut bytes = record(random, 64);
            bytes[at] = value;
            bytes
        })
        .collect()
}

/// Every density, once.
fn every_density(random: &mut Random) -> Vec<Vec<u8>> {
    (0..=u16::MAX).map(|density| [&density.to_le_bytes(), &usual(random)[..]].concat()).collect()
}

/// Densities for records that may not be whole.
fn densities_of_damaged(random: &mut Random) -> Vec<Vec<u8>> {
    many(2_000, random, |random| [random.bytes(2), broken(random)].concat())
}

/// Pairs that differ in nothing.
fn alike(random: &mut Random) -> Vec<Vec<u8>> {
    many(1_000, random, |random| {
        let bytes = usual(random);
        pair(&bytes, &bytes)
    })
}

/// Pairs that differ in one field.
fn one_field(random: &mut Random) -> Vec<Vec<u8>> {
    many(14_000, random, |random| {
        let (bytes, part) = (record(random, 64), field(random));
        pair(&bytes, &but_for(random, &bytes, part))
    })
}

/// Pairs that differ in one byte, which may be in an array.
fn one_byte(random: &mut Random) -> Vec<Vec<u8>> {
    let offsets = (4..64).flat_map(|at| [at; 200]);
    offsets
        .map(|at| {
            let bytes = record(random, 64);
            pair(&bytes, &but_for(random, &bytes, at..at + 1))
        })
        .collect()
}

/// Pairs that differ in two fields, which may speak for different orders.
fn two_fields(random: &mut Random) -> Vec<Vec<u8>> {
    many(10_000, random, |random| {
        let (bytes, one, two) = (record(random, 64), field(random), field(random));
        let other = but_for(random, &bytes, one);
        pair(&bytes, &but_for(random, &other, two))
    })
}

/// Pairs that differ in two neighbouring fields: by the one in front the first record is less, by the other it is more.
fn neighbours(random: &mut Random) -> Vec<Vec<u8>> {
    let fields = ENDS.windows(3).map(|ends| (ends[0]..ends[1], ends[1]..ends[2]));
    fields
        .map(|(front, behind)| {
            let mut bytes = record(random, 64);
            bytes[front.start..behind.end].fill(0);
            pair(&but_for(random, &bytes, behind), &but_for(random, &bytes, front))
        })
        .collect()
}

/// Pairs that differ in one word, which is less by number and more byte by byte.
fn orders_at_odds(random: &mut Random) -> Vec<Vec<u8>> {
    let offsets = WORDS.into_iter().flat_map(|at| [at; 200]);
    offsets
        .map(|at| {
            let mut less = record(random, 64);
            let mut more = but_for(random, &less, at..at + 4);
            while less[at..at + 4].iter().rev().ge(more[at..at + 4].iter().rev()) || less <= more {
                less = but_for(random, &less, at..at + 4);
                more = but_for(random, &more, at..at + 4);
            }
            pair(&less, &more)
        })
        .collect()
}

/// Pairs that differ in the computed byte, where all that isn't 0 is yes.
fn other_computed(random: &mut Random) -> Vec<Vec<u8>> {
    many(500, random, |random| {
        let mut bytes = record(random, 64);
        bytes[52] = one(random, &[0, 1, 1, 2, 255]);
        let mut other = bytes.clone();
        other[52] = one(random, &[0, 1, 2, 128]);
        pair(&bytes, &other)
    })
}

/// Pairs that differ in size: what only one of the two holds is zero there, or skipped, or counts.
fn other_sizes(random: &mut Random) -> Vec<Vec<u8>> {
    many(2_000, random, |random| {
        let (small, large) = (random.below(80), random.below(80));
        let mut bytes = declared(random, large, large.max(16));
        if random.below(4) > 0 && small.max(16) < bytes.len() {
            bytes[small.max(16)..].fill(0);
        }
        let mut other = bytes.clone();
        other.resize(small.max(16), 0);
        declare(&mut other, small);
        pair(&bytes, &other)
    })
}

/// Pairs that have nothing to do with each other.
fn unrelated(random: &mut Random) -> Vec<Vec<u8>> {
    many(5_000, random, |random| pair(&usual(random), &usual(random)))
}

/// Pairs of which the first, the second or both may not be whole.
fn halves_damaged(random: &mut Random) -> Vec<Vec<u8>> {
    many(3_000, random, |random| {
        let (first, second) = (broken(random), broken(random));
        match random.below(3) {
            0 => pair(&first, &usual(random)),
            1 => pair(&usual(random), &second),
            _ => pair(&first, &second),
        }
    })
}
