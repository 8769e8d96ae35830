//! The call for C where a buffer is short, exact or empty.
use compare::ours;
use oracle::cases::Job;

#[test]
fn a_short_buffer_is_left_as_it_was() {
    let job = Job::with(&[1]).prior(0, &[2.0], &[4.0]).bytes();
    let text = b"0 4000000000000000 4010000000000000\n";
    for length in 0..text.len() {
        let mut out = vec![0xA5; length];
        assert_eq!(ours::solve(&job, &mut out), usize::MAX);
        assert!(out.iter().all(|&byte| byte == 0xA5));
    }
    let mut out = vec![0; text.len()];
    assert_eq!(ours::solve(&job, &mut out), text.len());
    assert_eq!(out, text);
}

#[test]
fn an_empty_job_has_an_empty_text() {
    assert_eq!(ours::solve(&[], &mut []), 0);
}
