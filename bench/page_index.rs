// The counterpart of bench/page_index.sh: the same work on std's BTreeSet, whose clone stands for a share.
use std::collections::BTreeSet;
use std::time::{Duration, Instant};

fn next(seed: u32) -> u32 {
    seed.wrapping_mul(1_664_525).wrapping_add(1_013_904_223)
}

fn each(spent: Duration, count: u32) -> u128 {
    spent.as_nanos() / u128::from(count)
}

fn main() {
    let count = 1_000_000u32;

    let start = Instant::now();
    let mut set = BTreeSet::new();
    let mut seed = 1;
    for _ in 0..count {
        seed = next(seed);
        set.insert(seed);
    }
    println!("random inserts       {} ns each", each(start.elapsed(), count));

    let start = Instant::now();
    let mut ascending = BTreeSet::new();
    for key in 0..count {
        ascending.insert(key);
    }
    println!("ascending inserts    {} ns each", each(start.elapsed(), count));

    let start = Instant::now();
    let mut found = 0u64;
    let mut seed = 1;
    for _ in 0..count {
        seed = next(seed);
        if set.contains(&(seed ^ (seed & 1))) {
            found += 1;
        }
    }
    println!("look-ups             {} ns each ({found} found)", each(start.elapsed(), count));

    let start = Instant::now();
    let keys: Vec<u32> = set.iter().copied().collect();
    let sum = keys.iter().fold(0u64, |sum, key| sum.wrapping_add(u64::from(*key)));
    println!("scan                 {} ns a key (sum {sum})", each(start.elapsed(), count));

    let rounds = 10u32;
    let start = Instant::now();
    let mut seed = 7;
    for _ in 0..rounds {
        let share = set.clone();
        for _ in 0..100 {
            seed = next(seed);
            if seed % 2 == 0 {
                set.insert(seed);
            } else {
                set.remove(&seed);
            }
        }
        drop(share);
    }
    let spent = each(start.elapsed(), rounds) / 1000;
    println!("clone, 100 changes   {spent} us a round ({} keys)", set.len());

    let start = Instant::now();
    let mut gone = 0u64;
    let mut seed = 1;
    for _ in 0..count {
        seed = next(seed);
        if set.remove(&seed) {
            gone += 1;
        }
    }
    println!("removes              {} ns each ({gone} gone)", each(start.elapsed(), count));
}
