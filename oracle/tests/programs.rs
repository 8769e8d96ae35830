//! The programs from outside: what they print and how they end.
use std::io::Write;
use std::process::{Command, Output, Stdio};

use oracle::cases::Job;

fn fed(program: &str, arguments: &[&str], job: &Job) -> Output {
    let mut command = Command::new(program);
    command.args(arguments).stdin(Stdio::piped()).stdout(Stdio::piped()).stderr(Stdio::piped());
    let mut child = command.spawn().unwrap();
    child.stdin.take().unwrap().write_all(&job.bytes()).unwrap();
    child.wait_with_output().unwrap()
}

fn text(bytes: &[u8]) -> &str {
    std::str::from_utf8(bytes).unwrap()
}

const EXPECTED: &str = env!("CARGO_BIN_EXE_strips_expected");
const DUMP: &str = env!("CARGO_BIN_EXE_dump");

fn outside() -> Job {
    Job::with(&[2, 2, 1]).unit_observation(&[0, 1, 2], &[1.0, 2.0, 3.0, 4.0, 5.0], &[0.0])
}

#[test]
fn a_job_in_the_domain() {
    let output = fed(EXPECTED, &[], &Job::with(&[1]).prior(0, &[2.0], &[4.0]));
    assert_eq!((output.status.code(), text(&output.stdout)), (Some(0), "0 4000000000000000 4010000000000000\n"));
    let output = fed(EXPECTED, &[], &Job::with(&[1]));
    assert_eq!((output.status.code(), text(&output.stdout)), (Some(0), "refused 16 3 0\n"));
}

#[test]
fn a_job_outside_the_domain_has_its_own_status_and_prints_nothing() {
    let output = fed(EXPECTED, &[], &outside());
    assert_eq!((output.status.code(), text(&output.stdout)), (Some(3), ""));
    assert!(text(&output.stderr).starts_with("outside the domain of equality at stage 1, key 2"));
}

#[test]
fn a_path_that_is_not_there() {
    let output = fed(EXPECTED, &["no-such-job"], &Job::new());
    assert_eq!((output.status.code(), text(&output.stdout)), (Some(2), ""));
}

#[test]
fn the_dump_follows_an_order() {
    let chain = Job::with(&[1, 1]).plain_prior(0, 1.0).unit_observation(&[0, 1], &[-1.0, 1.0], &[4.0]);
    let rising = fed(DUMP, &["-"], &chain);
    assert!(text(&rising.stdout).contains("forward 0: step 1, key 1\n  content original 0, original 1\n"));
    let falling = fed(DUMP, &["-", "1,0"], &chain);
    assert!(text(&falling.stdout).contains("forward 0: step 1, key 0\n  content original 1\n"));
    assert_eq!(fed(DUMP, &["-"], &outside()).status.code(), Some(3));
}

#[test]
fn the_dump_refuses_another_order() {
    let chain = || Job::with(&[1, 1]).plain_prior(0, 1.0);
    for order in ["0,0", "0", "0,1,2", "0,2", ""] {
        let output = fed(DUMP, &["-", order], &chain());
        assert_eq!(output.status.code(), Some(0));
        assert!(text(&output.stdout).ends_with("\nrefused 21 1 0\n"), "{order}");
    }
    // A record's refusal comes first.
    let refused = fed(DUMP, &["-", "0,0"], &chain().raw(b"XX"));
    assert!(text(&refused.stdout).ends_with("\nrefused 8 0 3\n"));
    for words in ["0;1", "0,256", "0,,1", "-1"] {
        assert_eq!(fed(DUMP, &["-", words], &chain()).status.code(), Some(2), "{words}");
    }
    assert!(text(&fed(DUMP, &["-", ""], &Job::new()).stdout).ends_with("\norder [], message store 0 numbers\n"));
}

#[test]
fn the_dump_tells_a_superseded_factor() {
    let job = Job::with(&[1]).plain_prior(0, 1.0).plain_prior(0, 2.0).superseding(0, |job| job.plain_prior(0, 4.0));
    let output = fed(DUMP, &[], &job);
    let shown = text(&output.stdout);
    assert!(shown.starts_with("sizes [1], factor store 6 numbers\noriginal 0: prior on 0, superseded\n"));
    assert!(shown.contains("original 1: prior on 0\n") && shown.contains("original 2: prior on 0\n"));
    assert!(shown.contains("key 0 gathers forward [], backward [], originals [1, 2]\n  leaves [1, 2]\n"));
}
