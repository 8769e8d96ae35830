//! lookup SEED COUNT
//!
//! Gives lists of keys to the library's lookup, each with every key sought that may matter, and compares place and count with a
//! plain search: every strictly rising list of up to 4 keys below 12; then COUNT drawn lists of each kind. Ends with 1 where they differ.
use std::process::ExitCode;

use compare::ours;
use oracle::cases::Random;

/// What the library says where the key isn't there.
const ABSENT: usize = 255;

/// The bytes there are; no list that rises is longer.
const BYTES: usize = 256;

fn main() -> ExitCode {
    let words: Vec<u64> = std::env::args().skip(1).filter_map(|word| word.parse().ok()).collect();
    let [seed, count] = words[..] else {
        eprintln!("lookup SEED COUNT");
        return ExitCode::from(2);
    };
    println!("seed {seed}, {count} lists of each kind drawn");
    let random = &mut Random::new(seed);
    let mut drawn = |draw: fn(&mut Random) -> Vec<u8>| (0..count).map(|_| draw(random)).collect::<Vec<_>>();
    let differ = [
        told("rising, up to 4 keys below 12", &every_rising(4, 12), searched),
        told("rising, up to 32 keys", &drawn(|random| rising(random, 32)), searched),
        told("rising, up to 256 keys", &drawn(|random| rising(random, BYTES)), searched),
        told("in any order, up to 300 keys, by a search that ends early", &drawn(any), walked),
    ];
    if differ.iter().sum::<u64>() == 0 { ExitCode::SUCCESS } else { ExitCode::from(1) }
}

/// Every list with every key sought; how many answers differ. The first difference is shown.
fn told(name: &str, lists: &[Vec<u8>], expected: fn(&[u8], usize) -> usize) -> u64 {
    let (mut lookups, mut absent, mut differ) = (0, 0, 0);
    for keys in lists {
        for key in (0..=BYTES).chain([usize::MAX]) {
            let (is, was) = (ours::lookup(keys, key), expected(keys, key));
            if is != was && differ == 0 {
                eprintln!("{key} in {keys:?}: {is}, not {was}");
            }
            lookups += 1;
            absent += u64::from(was % 256 == ABSENT);
            differ += u64::from(is != was);
        }
    }
    println!("{:>9} lists {lookups:>10} lookups {absent:>10} absent {differ:>8} differ  {name}", lists.len());
    differ
}

/// All keys are looked at: where the key is, how many are below it, and whether there is one more.
fn searched(keys: &[u8], key: usize) -> usize {
    let below = keys.iter().filter(|&&here| usize::from(here) < key).count();
    let place = keys.iter().position(|&here| usize::from(here) == key);
    256 * (below + usize::from(below < keys.len())) + place.unwrap_or(ABSENT)
}

/// The first key that isn't below ends it, among the first 256.
fn walked(keys: &[u8], key: usize) -> usize {
    let keys = &keys[..keys.len().min(BYTES)];
    match keys.iter().position(|&here| key <= usize::from(here)) {
        Some(at) if usize::from(keys[at]) == key => 256 * (at + 1) + at,
        Some(at) => 256 * (at + 1) + ABSENT,
        None => 256 * keys.len() + ABSENT,
    }
}

/// Every strictly rising list of at most so many keys below a bound.
fn every_rising(most: usize, bound: u8) -> Vec<Vec<u8>> {
    let mut lists = vec![Vec::new()];
    let mut at = 0;
    while at < lists.len() {
        let list = lists[at].clone();
        if list.len() < most {
            for key in list.last().map_or(0, |last| last + 1)..bound {
                lists.push([&list[..], &[key]].concat());
            }
        }
        at += 1;
    }
    lists
}

/// A strictly rising list of at most so many keys: of all bytes or of the first few.
fn rising(random: &mut Random, most: usize) -> Vec<u8> {
    let wanted = random.below(most + 1);
    let bytes = if random.chance(50) { BYTES } else { wanted + random.below(BYTES + 1 - wanted) };
    let mut left = wanted;
    let mut keys = Vec::new();
    for byte in 0..bytes {
        // Each choice is as likely as another: `left` of the bytes that remain are taken.
        if random.below(bytes - byte) < left {
            keys.push(byte as u8);
            left -= 1;
        }
    }
    keys
}

/// Bytes in any order; some begin with a list that rises, so that the search goes far.
fn any(random: &mut Random) -> Vec<u8> {
    let mut keys = if random.chance(50) { rising(random, BYTES) } else { Vec::new() };
    let most = if random.chance(50) { 8 } else { 300 - keys.len() };
    (0..random.below(most + 1)).for_each(|_| keys.push(random.below(BYTES) as u8));
    keys.truncate(300);
    keys
}
