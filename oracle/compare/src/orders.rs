//! Lent orders of keys (C-16): right ones, and each way in which one is wrong.
use oracle::cases::Random;
use oracle::cases::orders::{both_ends, falling, inside_out, rising, shuffled};

/// How an order was drawn, for the counts.
#[derive(Debug, Clone, Copy, PartialEq, Eq, PartialOrd, Ord)]
pub enum Kind {
    Rising,
    Falling,
    InsideOut,
    BothEnds,
    Shuffled,
    ShortByOne,
    Empty,
    KeyAgain,
    KeyMore,
    FarLonger,
    KeyTwice,
    KeyAbsent,
    NotEmpty,
    SeveralFaults,
}

/// One in eight is wrong.
pub fn draw(random: &mut Random, keys: usize) -> (Kind, Vec<u8>) {
    let kind = if random.below(8) == 0 { wrong_kind(random, keys) } else { right_kind(random) };
    (kind, of_kind(random, kind, keys))
}

fn right_kind(random: &mut Random) -> Kind {
    match random.below(20) {
        0..3 => Kind::Rising,
        3..6 => Kind::Falling,
        6..9 => Kind::InsideOut,
        9..12 => Kind::BothEnds,
        _ => Kind::Shuffled,
    }
}

/// The ways to be wrong for any keys, for those that there are, and for two or more.
pub const WRONG: [Kind; 8] = [
    Kind::KeyMore,
    Kind::FarLonger,
    Kind::ShortByOne,
    Kind::Empty,
    Kind::KeyAgain,
    Kind::KeyAbsent,
    Kind::SeveralFaults,
    Kind::KeyTwice,
];

fn wrong_kind(random: &mut Random, keys: usize) -> Kind {
    match keys {
        0 => Kind::NotEmpty,
        1 => WRONG[random.below(WRONG.len() - 1)],
        _ => WRONG[random.below(WRONG.len())],
    }
}

/// An order of this kind, which there must be for so many keys.
pub fn of_kind(random: &mut Random, kind: Kind, keys: usize) -> Vec<u8> {
    let mut order = shuffled(random, keys);
    match kind {
        Kind::Rising => return rising(keys),
        Kind::Falling => return falling(keys),
        Kind::InsideOut => return inside_out(keys),
        Kind::BothEnds => return both_ends(keys),
        Kind::Shuffled => {}
        Kind::ShortByOne => {
            order.remove(random.below(keys));
        }
        Kind::Empty => order.clear(),
        Kind::KeyAgain => insert(random, &mut order, |random| random.below(keys) as u8),
        Kind::KeyMore => insert(random, &mut order, |random| absent(random, keys)),
        Kind::FarLonger => lengthen(random, &mut order, keys),
        Kind::KeyTwice => repeat(random, &mut order),
        Kind::KeyAbsent => {
            let at = random.below(keys);
            order[at] = if random.chance(25) { wrapped(random, order[at]) } else { absent(random, keys) };
        }
        Kind::NotEmpty => order = vec![absent(random, keys); [1, 1, 2, 33, 256, 300][random.below(6)]],
        Kind::SeveralFaults => spoil(random, &mut order, keys),
    }
    order
}

/// A key that isn't there: just past them, or the last that a byte can tell.
fn absent(random: &mut Random, keys: usize) -> u8 {
    [keys as u8, keys as u8, keys as u8 + 1, 255][random.below(4)]
}

/// What a mask of 32 bits would take for this key.
fn wrapped(random: &mut Random, key: u8) -> u8 {
    key + [32, 64, 128, 224][random.below(4)]
}

/// Mostly at the end, else anywhere.
fn insert(random: &mut Random, order: &mut Vec<u8>, key: impl Fn(&mut Random) -> u8) {
    let at = if random.chance(60) { order.len() } else { random.below(order.len() + 1) };
    order.insert(at, key(random));
}

/// All keys, and then so many bytes that a count in one byte would be right, or 300 in all; of these or of any keys.
fn lengthen(random: &mut Random, order: &mut Vec<u8>, keys: usize) {
    let length = [256 + keys, 256 + keys, 300, 33 + keys][random.below(4)];
    let bound = if random.chance(50) { keys.max(1) } else { 256 };
    while order.len() < length {
        order.push(random.below(bound) as u8);
    }
}

/// One key in the place of another.
fn repeat(random: &mut Random, order: &mut [u8]) {
    let at = random.below(order.len());
    order[(at + 1 + random.below(order.len() - 1)) % order.len()] = order[at];
}

/// Too short or too long, with a key that isn't there and mostly one twice.
fn spoil(random: &mut Random, order: &mut Vec<u8>, keys: usize) {
    if random.chance(50) {
        order.pop();
    } else {
        order.extend([random.below(keys) as u8, random.below(256) as u8]);
    }
    if order.len() > 1 {
        repeat(random, order);
    }
    let at = random.below(order.len() + 1);
    match order.get_mut(at) {
        Some(key) => *key = absent(random, keys),
        None => order.push(absent(random, keys)),
    }
}
