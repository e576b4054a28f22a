//! Programs that are wrong fail.

use super::*;

fn report(program: &str) -> (bool, String) {
    let options = Options {
        program: program.into(),
        seed: 1,
        feeds: 3,
        entries: 50,
        long: 100,
        named: vec!["no-such-directory".into()],
    };
    let mut out = Vec::new();
    let passed = run(&options, &mut out).unwrap();
    (passed, String::from_utf8(out).unwrap())
}

#[test]
fn programs_that_print_nothing_right_fail() {
    for program in ["no-such-program", "true", "yes"] {
        let (passed, report) = report(program);
        assert!(!passed, "{program}");
        for group in [
            "feeds in no-such-directory: 0 of 1, FAILED",
            "entries of odd lengths: 0 of 28, FAILED",
            "output before more input: 0 of 6, FAILED",
            "generated feeds: 0 of 3, FAILED",
        ] {
            assert!(report.contains(group), "{program}: {report}");
        }
        assert!(!report.contains("\nlong feed: 2 of 2"), "{report}");
    }
}
