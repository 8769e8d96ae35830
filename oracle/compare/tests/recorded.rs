//! Every recorded case through the library.
use compare::outcome::printed;
use oracle::cases::read;

#[test]
fn recorded_cases_print_as_recorded() {
    let text = std::fs::read_to_string(concat!(env!("CARGO_MANIFEST_DIR"), "/../cases/cases.txt")).unwrap();
    let cases = read(&text).unwrap();
    assert!(!cases.is_empty());
    for case in cases {
        assert_eq!(String::from_utf8(printed(&case.job())).unwrap(), case.prints, "{}", case.name);
    }
}
