//! Jobs with something wrong in them.
use super::superseding::{HEADER, is_superseding};
use super::{SHARES, of_kind};
use oracle::cases::{Job, Random};

/// Numbers that aren't finite or whose handling is often wrong.
const ODD: [u64; 12] = [
    0x7FF0_0000_0000_0000,
    0xFFF0_0000_0000_0000,
    0x7FF8_0000_0000_0000,
    0x7FF0_0000_0000_0001,
    0x8000_0000_0000_0000,
    0x0000_0000_0000_0001,
    0x800F_FFFF_FFFF_FFFF,
    0x0010_0000_0000_0000,
    0x7FEF_FFFF_FFFF_FFFF,
    0xFFEF_FFFF_FFFF_FFFF,
    0x0000_0000_0000_0000,
    0xBFF0_0000_0000_0000,
];

/// A job of another kind, damaged once or twice.
pub fn damaged(random: &mut Random) -> Job {
    let kinds = &SHARES[..SHARES.len() - 3];
    let (kind, _) = kinds[random.below(kinds.len())];
    let job = of_kind(random, kind);
    (0..1 + random.below(2)).fold(job, |job, _| once(random, job))
}

fn once(random: &mut Random, mut job: Job) -> Job {
    if job.records.is_empty() {
        return job;
    }
    let (at, other) = (random.below(job.records.len()), random.below(job.records.len()));
    match random.below(8) {
        0 => {
            let all = job.bytes().len();
            job.first(random.below(all + 1))
        }
        1 => {
            job.records.swap(at, other);
            job
        }
        2 => {
            job.records.insert(other, job.records[at].clone());
            job
        }
        3 => {
            job.records.remove(at);
            job
        }
        4 => name(random, job),
        _ => {
            spoil(random, &mut job.records[at]);
            job
        }
    }
}

/// A variable with any letter, also none that there is, and any size.
fn name(random: &mut Random, mut job: Job) -> Job {
    let letters = [0, 0x61, 0xD7FF, 0xD800, 0xDFFF, 0xE000, 0x10_FFFF, 0x11_0000, 0xFFFF_FFFF];
    let letter: u32 = letters[random.below(letters.len())];
    let index = [0, 1, 31, u32::MAX][random.below(4)];
    let size = [0, 1, 2, 6, 7, 255][random.below(6)];
    let record = [b"VA", &letter.to_le_bytes()[..], &index.to_le_bytes(), &[size]].concat();
    job.records.insert(random.below(job.records.len() + 1), record);
    job
}

/// A byte, a header's byte or a number of one record.
pub fn spoil(random: &mut Random, record: &mut Vec<u8>) {
    if record.is_empty() {
        return;
    }
    let at = random.below(record.len());
    // Where the factor's record begins.
    let own = if is_superseding(record) { HEADER.min(record.len()) } else { 0 };
    let observed = record[own..].starts_with(b"OB");
    match random.below(8) {
        7 => named(random, record),
        6 if record.len() > own + 4 && observed => record[own + 4] = [0, 1, 2, 3, 4, 255][random.below(6)],
        5 if record.len() > own + 6 && observed => {
            record[own + 5] = record[own + 6].wrapping_add(random.below(3) as u8)
        }
        0 => record[at] ^= 1 << random.below(8),
        1 => record[at] = random.below(256) as u8,
        2 => {
            record.remove(at);
        }
        3 => {
            let at = random.below(record.len().min(14));
            record[at] = record[at].wrapping_add([1, 255][random.below(2)]);
        }
        _ => {
            let numbers = record.len() / 8;
            if numbers > 0 {
                let from = record.len() - 8 * (1 + random.below(numbers));
                record[from..from + 8].copy_from_slice(&ODD[random.below(ODD.len())].to_le_bytes());
            }
        }
    }
}

/// Another number or another mark within; a superseding header more or less.
fn named(random: &mut Random, record: &mut Vec<u8>) {
    let number = [0, 1, 2, 5, 62, 63, 64, 255][random.below(8)];
    if !is_superseding(record) || record.len() < HEADER + 2 || random.chance(20) {
        record.splice(..0, [b'S', b'U', number]);
        return;
    }
    match random.below(3) {
        0 => record[2] = number,
        1 => record[HEADER..HEADER + 2].copy_from_slice([b"PR", b"OB", b"VA", b"SU", b"XX"][random.below(5)]),
        _ => {
            record.drain(..HEADER);
        }
    }
}
