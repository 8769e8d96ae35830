//! Orders of so many keys, each exactly once (C-16).
use super::Random;

pub fn rising(count: usize) -> Vec<u8> {
    (0..count as u8).collect()
}

pub fn falling(count: usize) -> Vec<u8> {
    (0..count as u8).rev().collect()
}

/// The first key, the last, the second, the last but one, and so on.
pub fn both_ends(count: usize) -> Vec<u8> {
    (0..count).map(|at| if at % 2 == 0 { at / 2 } else { count - 1 - at / 2 }).map(|key| key as u8).collect()
}

/// From the middle outwards.
pub fn inside_out(count: usize) -> Vec<u8> {
    both_ends(count).into_iter().rev().collect()
}

pub fn shuffled(random: &mut Random, count: usize) -> Vec<u8> {
    (0..count).fold(Vec::new(), |mut order, key| {
        order.insert(random.below(key + 1), key as u8);
        order
    })
}
