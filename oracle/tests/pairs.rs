//! P1 to P6, P8 and P9 of document 01, as bytes of a job.
use oracle::job;
use oracle::run::{self, expected, parts};
use oracle::solver::Slot;

/// A job from hexadecimal bytes.
fn bytes(text: &str) -> Vec<u8> {
    text.split_whitespace().map(|byte| u8::from_str_radix(byte, 16).unwrap()).collect()
}

const VARIABLE_0: &str = "56 41 61 00 00 00 00 00 00 00 01";
const VARIABLE_1: &str = "56 41 61 00 00 00 01 00 00 00 01";

fn job(parts: &[&str]) -> Vec<u8> {
    parts.iter().flat_map(|part| bytes(part)).collect()
}

fn prints(job: &[u8]) -> String {
    expected(job).unwrap()
}

#[test]
fn p1_no_variables_no_lines() {
    assert_eq!(prints(&[]), "");
}

#[test]
fn p2_one_variable_no_factor() {
    assert_eq!(prints(&bytes(VARIABLE_0)), "refused 16 3 0\n");
}

#[test]
fn p3_one_prior() {
    let prior = "50 52 00  00 00 00 00 00 00 00 40  00 00 00 00 00 00 10 40";
    assert_eq!(prints(&job(&[VARIABLE_0, prior])), "0 4000000000000000 4010000000000000\n");
}

/// Three priors on key 0, mean 0, variance 1; observation -1, 1 on keys 0 and 1, mean 4, variance 1.
fn p4() -> Vec<u8> {
    let prior = "50 52 00  00 00 00 00 00 00 00 00  00 00 00 00 00 00 F0 3F";
    let a = "4F 42 02 01 01 00 01  00 00 00 00 00 00 F0 BF  00 00 00 00 00 00 F0 3F";
    let observation = "00 00 00 00 00 00 10 40  00 00 00 00 00 00 F0 3F";
    job(&[VARIABLE_0, VARIABLE_1, prior, prior, prior, a, observation])
}

#[test]
fn p4_forward_message() {
    let graph = job::read(&p4()).graph;
    let run = run::run(&graph, &[0, 1]);
    let [message] = &run.forward[..] else { panic!("one message") };
    assert_eq!(message.step, 1);
    assert_eq!(message.content, [0, 3, 2, 1].map(Slot::Original));
    assert_eq!(parts(&message.factor), (&[1.0][..], &[3.0][..], &[0.75][..]));
}

#[test]
fn p5_backward_message() {
    let graph = job::read(&p4()).graph;
    let run = run::run(&graph, &[0, 1]);
    let [message] = &run.plan.backward[..] else { panic!("one message") };
    assert_eq!((message.step, &message.content[..]), (1, &[Slot::Original(3)][..]));
    assert_eq!((&message.work.kept[..], &message.work.cleared[..]), (&[0][..], &[1][..]));
}

#[test]
fn p6_gathering() {
    let graph = job::read(&p4()).graph;
    let run = run::run(&graph, &[0, 1]);
    let [first, second] = &run.plan.gathered[..] else { panic!("two keys") };
    assert_eq!((&first.forward[..], &first.backward[..], &first.originals[..]), (&[][..], &[0][..], &[0, 1, 2][..]));
    assert_eq!((first.work.given, first.work.dimension, first.work.in_z()), (4, 1, false));
    assert_eq!((&second.forward[..], &second.backward[..], &second.originals[..]), (&[0][..], &[][..], &[][..]));
}

/// Key 0: mean 0, variance 1/3. Key 1: 3 divided twice by the root of 0.75, one unit above 4 in the last place, and 4/3.
#[test]
fn p4_to_p6_printed() {
    let printed = "0 0000000000000000 3FD5555555555556\n1 4010000000000001 3FF5555555555556\n";
    assert_eq!(prints(&p4()), printed);
}

#[test]
fn p8_keys_repeated() {
    let observation = "4F 42 02 01 00 01 01";
    assert_eq!(prints(&job(&[VARIABLE_0, VARIABLE_1, observation])), "refused 3 0 2\n");
}

#[test]
fn p9_an_observation_without_keys_is_uncovered_at_every_key() {
    let keyless = bytes("4F 42 00 01 00  00 00 00 00 00 00 1C 40");
    let graph = job::read(&[p4(), keyless.clone()].concat()).graph;
    let run = run::run(&graph, &[0, 1]);
    assert!(run.plan.gathered.iter().all(|gathered| gathered.originals.contains(&4)));
    let [message] = &run.forward[..] else { panic!("one message") };
    assert!(!message.content.contains(&Slot::Original(4)));
    assert_eq!(run.plan.gathered[1].work.given, 2);
}
