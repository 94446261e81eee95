//! The program's command line and exit status.
#![forbid(unsafe_code)]

use std::process::{Command, Output};

fn compare(arguments: &[&str]) -> Output {
    let mut program = Command::new(env!("CARGO_BIN_EXE_compare"));
    program.args(arguments).output().expect("it runs")
}

fn last_line(output: &Output) -> String {
    let text = String::from_utf8_lossy(&output.stdout);
    text.lines().last().unwrap_or_default().to_string()
}

#[test]
fn a_seed_and_its_requests() {
    let output = compare(&["--seed", "7", "--requests", "5000"]);
    assert_eq!(output.status.code(), Some(0), "{}", last_line(&output));
    assert!(last_line(&output).starts_with("seed 7: "));
    assert!(last_line(&output).ends_with(" calls, no difference"));
    let again = compare(&["--requests", "5000", "--seed", "7"]);
    assert_eq!(output.stdout, again.stdout);
}

/// The fixed calls alone reach every answer.
#[test]
fn few_requests() {
    let output = compare(&["--requests", "0"]);
    assert_eq!(output.status.code(), Some(0), "{}", last_line(&output));
}

#[test]
fn help() {
    let output = compare(&["--help"]);
    assert_eq!(output.status.code(), Some(0));
    assert!(output.stdout.starts_with(b"usage: compare "));
}

#[test]
fn wrong_command_lines() {
    for arguments in [
        &["--seed"][..],
        &["--seed", "one"],
        &["--requests", "-1"],
        &["--requests", "18446744073709551616"],
        &["--soak", "--requests", "5"],
        &["--tour"],
        &["5"],
    ] {
        let output = compare(arguments);
        assert_eq!(output.status.code(), Some(2), "{arguments:?}");
        assert!(output.stdout.is_empty());
    }
}
