//! Runs to list.
use crate::listed::MOST;
use crate::payloads::{all_of, declared, record, usual, RECORDS};
use crate::questions::Random;
use crate::spellings::{LONGEST, PLACES, SPELLED};
use crate::spoilt::{counted_by_hand, SPOILT};

/// 01's example, the corners of a run, and runs of records whole and damaged.
pub fn runs(random: &mut Random, count: usize) -> Vec<Vec<u8>> {
    let example = [&[16, 0, 0, 0, 0x36, 1, 0, 0, b'e', b'n', b'U', b'S', 1, 0, 0xf0, 0], &[0; 16][..], &[1, 2, 3]].concat();
    let mut runs = vec![example, vec![], vec![7], vec![0; 15], vec![0; 16], LONGEST.to_vec(), vec![0; MOST], vec![0; MOST + 1]];
    for size in [0, 1, 15, 17, 63, 64, 65, MOST] {
        runs.push(declared(random, size, size.max(16)));
        runs.push(declared(random, size, size.max(16) + 5));
        runs.push(declared(random, size, size.max(16) - 1));
    }
    // one size at each length that is too short for it: cut in each field, then behind the last
    runs.extend((16..65).map(|length| declared(random, 65, length)));
    let tail = |size: usize, at: usize| {
        let mut bytes = record(&mut Random(1), size);
        bytes[64..].fill(0);
        bytes[at] = 1;
        bytes
    };
    runs.extend([tail(65, 64), tail(80, 79), [usual(random), tail(72, 70), usual(random)].concat()]);
    let mut pool = [all_of(PLACES, random), all_of(SPELLED, random), all_of(RECORDS, random)].concat();
    pool.retain(|bytes| bytes.len() < 200);
    let spoilt = all_of(SPOILT, random);
    runs.push(counted_by_hand(random).concat());
    runs.extend((0..count).map(|_| {
        let parts = 1 + random.below(24);
        let part = |_| match random.below(9) {
            0..=3 => usual(random),
            4 => spoilt[random.below(spoilt.len())].clone(),
            _ => pool[random.below(pool.len())].clone(),
        };
        (0..parts).flat_map(part).collect()
    }));
    let mut full: Vec<u8> = (0..4096).flat_map(|_| usual(random)).collect();
    full.truncate(MOST);
    runs.push(full.clone());
    runs.push([full, vec![0]].concat());
    runs
}
