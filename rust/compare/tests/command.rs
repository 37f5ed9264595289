//! The command `compare`.

use std::process::{Command, Output};

fn compare(args: &[&str]) -> Output {
    let mut command = Command::new(env!("CARGO_BIN_EXE_compare"));
    command.args(args).output().expect("the command runs")
}

#[test]
fn the_last_line_tells_how_many_agree() {
    let output = compare(&["7", "3000"]);
    assert!(output.status.success());
    let text = String::from_utf8(output.stdout).unwrap();
    let last = text.lines().last().unwrap();
    let cases: u64 = last.strip_suffix(" cases agree").unwrap().parse().unwrap();
    assert!((3_000..3_020).contains(&cases));
    for row in ["requests ", "recalls ", "refused 21 ", "refused 22 "] {
        assert!(text.contains(&format!("\n{row}")), "{text}");
    }
    assert_eq!(compare(&["7", "3000"]).stdout, text.into_bytes());
}

/// Three to four calls on each pair, and nothing else.
#[test]
fn pairs_of_flows_alone_are_compared() {
    let output = compare(&["evenings", "7", "200", "12"]);
    assert!(output.status.success());
    let text = String::from_utf8(output.stdout).unwrap();
    let cases = text.lines().last().unwrap().strip_suffix(" cases agree");
    assert!((600..=800).contains(&cases.unwrap().parse().unwrap()));
    let compared = text.lines().find(|row| row.starts_with("compared "));
    let cells: Vec<&str> = compared.unwrap().split_whitespace().collect();
    assert_eq!(
        cells[1..11],
        ["0", "0", "0", "0", "0", "0", "0", "0", "0", "200"]
    );
    for row in ["refused 34 ", "new flow 1 "] {
        assert!(text.contains(&format!("\n{row}")), "{text}");
    }
    assert_eq!(
        compare(&["evenings", "7", "200", "12"]).stdout,
        text.into_bytes()
    );
}

#[test]
fn other_arguments_are_none() {
    for args in [
        &["7"][..],
        &["7", "x"],
        &["7", "-1"],
        &["1", "2", "3"],
        &["evenings"],
        &["evenings", "1", "2"],
        &["evenings", "1", "2", "0"],
        &["evenings", "1", "2", "1001"],
        &["mornings", "1", "2", "3"],
        &["1", "1", "2", "3"],
    ] {
        let output = compare(args);
        assert_eq!(output.status.code(), Some(2), "{args:?}");
        let usage = "usage: compare, compare SEED COUNT, or compare evenings SEED PAIRS MOST.\n";
        assert_eq!(output.stdout, usage.as_bytes());
    }
}
