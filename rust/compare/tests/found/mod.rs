//! What is printed of a side that is wrong.

use compare::sides::{second, Side};
use compare::{run, Sides};

/// What is printed when the side stands in the place of the second program,
/// and the second program in the place of the proved library.
pub fn found(wrong: Side) -> String {
    let sides = Sides {
        proved: &second,
        second: wrong,
    };
    run(&sides, 1, 1_000_000).expect_err("the fault is found")
}

/// What is printed when both sides are wrong in the same way.
pub fn found_in_both(wrong: Side) -> String {
    let sides = Sides {
        proved: wrong,
        second: wrong,
    };
    run(&sides, 1, 1_000_000).expect_err("the fault is found")
}

/// All the texts are printed, at most so many rows of bytes, and at the end
/// how the case comes again.
pub fn check(report: &str, most: usize, texts: &[&str]) {
    for text in texts {
        assert!(report.contains(text), "no {text:?} in\n{report}");
    }
    let numbered = |line: &&str| {
        line.get(..4)
            .is_some_and(|n| n.trim().parse::<u32>().is_ok())
    };
    let rows = report.lines().filter(numbered).count();
    assert!((1..=most).contains(&rows), "{rows} rows in\n{report}");
    let last = report.lines().last().unwrap_or("");
    assert!(last.contains("to repeat it: compare 1 "), "{report}");
}
