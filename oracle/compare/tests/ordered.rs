//! The calls under a lent order (C-16): buffers, stores, what is refused, and the orders that are drawn.
use compare::orders::{Kind, WRONG, draw, of_kind};
use compare::ours::{self, TOO_LONG};
use oracle::cases::{Job, Random};
use oracle::order::keys;

/// P4 of document 01.
fn p4() -> Vec<u8> {
    let priors = (0..3).fold(Job::with(&[1, 1]), |job, _| job.prior(0, &[0.0], &[1.0]));
    priors.observation(&[0, 1], &[-1.0, 1.0], &[4.0], &[1.0]).bytes()
}

const TEXT: &str = "0 0000000000000000 3FD5555555555556\n1 4010000000000001 3FF5555555555556\n";

const PLAN: &str = "\
forward 0 step 1 content 3 kept 0 cleared 1
backward 0 step 1 content 0 3 2 1 kept 1 cleared 0
key 0 forward 0 backward originals 0 1 2 leaves 3 0 1 2 last
key 1 forward backward 0 originals leaves 0 3 2 1 last
";

const REFUSED: &str = "refused 21 1 0\n";

/// In every buffer up to twice as long as the text.
fn in_every_buffer(text: &str, call: impl Fn(&mut [u8]) -> usize) {
    for length in 0..2 * text.len() {
        let mut out = vec![0xA5; length];
        let answer = call(&mut out);
        let laid = if length < text.len() { "" } else { text };
        assert_eq!(answer, if length < text.len() { TOO_LONG } else { text.len() });
        assert_eq!(&out[..laid.len()], laid.as_bytes());
        assert!(out[laid.len()..].iter().all(|&byte| byte == 0xA5));
    }
}

#[test]
fn texts_stay_in_their_buffers() {
    in_every_buffer(TEXT, |out| ours::ordered(&p4(), &[1, 0], out));
    in_every_buffer(PLAN, |out| ours::ordered_plan(&p4(), &[1, 0], out));
    in_every_buffer(REFUSED, |out| ours::ordered(&p4(), &[1, 1], out));
    in_every_buffer(REFUSED, |out| ours::ordered_plan(&p4(), &[1, 1], out));
    in_every_buffer("refused 8 0 0\n", |out| ours::ordered(b"XX", &[1, 1], out));
    in_every_buffer("refused 8 0 0\n", |out| ours::ordered_plan(b"XX", &[1, 1], out));
    assert_eq!(ours::ordered(&[], &[], &mut []), 0);
    assert_eq!(ours::ordered_plan(&[], &[], &mut []), 0);
}

/// Each message takes 3 numbers, each marginal 2.
#[test]
fn a_run_in_stores_of_every_length() {
    let (figure, short, unlike) = (6 << 32, 1 << 24 | 14 << 16 | 1 << 8, 1 << 24 | 21 << 16 | 1 << 8);
    for messages in 0..8 {
        for marginals in 0..6 {
            let (mut first, mut second) = (vec![9.0; messages], vec![9.0; marginals]);
            assert_eq!(ours::ordered_run(&p4(), &[0], &mut first, &mut second), unlike);
            assert!(first.iter().chain(&second).all(|&x| x == 9.0));
            let answer = ours::ordered_run(&p4(), &[1, 0], &mut first, &mut second);
            if messages < 6 || marginals < 4 {
                assert_eq!(answer, figure | short);
                assert!(first.iter().chain(&second).all(|&x| x == 9.0));
            } else {
                assert_eq!(answer, figure);
                assert_eq!(first[..6], [-1.0, 0.0, 0.0, 1.0, 3.0, 0.75]);
                assert!(first[6..].iter().chain(&second[4..]).all(|&x| x == 9.0));
            }
        }
    }
}

/// The record's place stands in the answer, and nothing is written.
#[test]
fn a_job_refused_in_reading() {
    let (mut messages, mut marginals) = ([9.0; 8], [9.0; 8]);
    let answer = ours::ordered_run(&[p4(), b"XX".to_vec()].concat(), &[1, 1], &mut messages, &mut marginals);
    assert_eq!(answer, 1 << 24 | 8 << 16 | 6);
    assert!(messages.iter().chain(&marginals).all(|&x| x == 9.0));
}

/// The recorded cases of the program `ordered`.
#[test]
fn recorded_cases_print_as_recorded() {
    let folder = concat!(env!("CARGO_MANIFEST_DIR"), "/../../crates/ordered");
    let (input, output) =
        (std::fs::read(format!("{folder}/stdin")), std::fs::read_to_string(format!("{folder}/stdout")));
    let (input, output) = (input.unwrap(), output.unwrap());
    let (mut left, mut printed) = (&input[..], String::new());
    while !left.is_empty() {
        let (order, job) = (counted(&mut left), counted(&mut left));
        let answer = ours::ordered_run(job, order, &mut [0.0; 3072], &mut [0.0; ours::MARGINALS]);
        printed += &format!("figure {}\n", answer >> 32);
        for call in [ours::ordered, ours::ordered_plan] {
            let mut out = vec![0; ours::TEXT];
            let length = call(job, order, &mut out);
            printed += std::str::from_utf8(&out[..length]).unwrap();
        }
    }
    assert!(!printed.is_empty());
    assert_eq!(printed, output);
}

/// What stands behind a count of two bytes, the lower one first.
fn counted<'a>(left: &mut &'a [u8]) -> &'a [u8] {
    let count = u16::from_le_bytes([left[0], left[1]]) as usize;
    let (taken, rest) = left[2..].split_at(count);
    *left = rest;
    taken
}

#[test]
fn right_orders_are_accepted_and_wrong_ones_are_not() {
    let random = &mut Random::new(5);
    for count in 0..=32 {
        for kind in [Kind::Rising, Kind::Falling, Kind::InsideOut, Kind::BothEnds, Kind::Shuffled] {
            assert!(keys(&of_kind(random, kind, count), count).is_some(), "{kind:?} of {count}");
        }
        let wrong = match count {
            0 => &[Kind::NotEmpty][..],
            1 => &WRONG[..WRONG.len() - 1],
            _ => &WRONG,
        };
        for kind in (0..100).flat_map(|_| wrong) {
            let order = of_kind(random, *kind, count);
            assert_eq!(keys(&order, count), None, "{kind:?} of {count}: {order:?}");
        }
    }
}

#[test]
fn about_one_order_in_eight_is_wrong() {
    let random = &mut Random::new(6);
    let wrong = (0..8000).filter(|at| keys(&draw(random, at % 33).1, at % 33).is_none()).count();
    assert!((900..1100).contains(&wrong), "{wrong}");
}
