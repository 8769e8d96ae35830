//! outputs SEED COUNT
//!
//! Writes all that the library gives for jobs 0 to COUNT - 1 of a seed, without an order and under a drawn one: texts, plans, answers and
//! stores, outside the domain of equality too. Built over the archives of two versions, `cmp` tells whether they give the same.
use std::io::{self, BufWriter, Write};
use std::process::ExitCode;

use compare::jobs;
use compare::ordered::draw;
use compare::ours::{self, MARGINALS, OUTPUT, TEXT};
use oracle::cases::Random;
use oracle::job::{self, FACTOR_STORE, MESSAGE_STORE};

/// What buffers and stores hold before a call.
const BYTE: u8 = 0xA5;
const NUMBER: f64 = -7.25;

fn main() -> ExitCode {
    let words: Vec<u64> = std::env::args().skip(1).filter_map(|word| word.parse().ok()).collect();
    let &[seed, count] = &words[..] else {
        eprintln!("outputs SEED COUNT");
        return ExitCode::from(2);
    };
    let out = &mut BufWriter::new(io::stdout().lock());
    let done = (0..count).try_for_each(|number| one(seed, number, out)).and_then(|()| out.flush());
    done.map_or(ExitCode::FAILURE, |()| ExitCode::SUCCESS)
}

fn one(seed: u64, number: u64, out: &mut impl Write) -> io::Result<()> {
    let bytes = jobs::draw(seed, number).1.bytes();
    let random = &mut Random::new(seed ^ !number);
    let keys = job::read(&bytes).graph.all.n_keys();
    let order = draw(random, keys).order;
    let rising: Vec<u8> = (0..keys as u8).collect();

    text(out, OUTPUT, |room| ours::solve(&bytes, room))?;
    let mut store = [NUMBER; FACTOR_STORE];
    ours::store(&bytes, &mut store);
    numbers(out, &store)?;
    let (mut messages, mut marginals) = ([NUMBER; MESSAGE_STORE], [NUMBER; MARGINALS]);
    ours::repeat(&bytes, 1, &mut messages, &mut marginals);
    numbers(out, &messages)?;
    numbers(out, &marginals)?;

    for order in [&rising, &order] {
        text(out, TEXT, |room| ours::ordered(&bytes, order, room))?;
        text(out, TEXT, |room| ours::ordered_plan(&bytes, order, room))?;
        // Once in stores that hold every run, once in stores of drawn lengths.
        for lengths in [[MESSAGE_STORE, MARGINALS], [random.below(400), random.below(MARGINALS)]] {
            let [mut messages, mut marginals] = lengths.map(|length| vec![NUMBER; length]);
            let answer = ours::ordered_run(&bytes, order, &mut messages, &mut marginals);
            out.write_all(&answer.to_le_bytes())?;
            numbers(out, &messages)?;
            numbers(out, &marginals)?;
        }
    }
    Ok(())
}

/// A text's length, the text, and a little of what lies behind it.
fn text(out: &mut impl Write, room: usize, lay: impl FnOnce(&mut [u8]) -> usize) -> io::Result<()> {
    let mut buffer = vec![BYTE; room];
    let length = lay(&mut buffer);
    out.write_all(&length.to_le_bytes())?;
    out.write_all(&buffer[..room.min(length.saturating_add(64))])
}

fn numbers(out: &mut impl Write, of: &[f64]) -> io::Result<()> {
    of.iter().try_for_each(|x| out.write_all(&x.to_bits().to_le_bytes()))
}
