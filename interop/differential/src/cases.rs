//! The built case program, run on lines of its input.

use std::io::Write;
use std::process::{Command, Stdio};

use crate::programs::program;

const FILE: &str = "cases_main";

/// The bytes of the longest input that the program takes.
const MOST_BYTES: usize = 131_070;

/// What the program writes for these lines. It is run on as many of them at a time
/// as it takes.
pub fn answers(lines: &[String]) -> Vec<String> {
    let mut answers = Vec::new();
    let mut input = String::new();
    for line in lines {
        if input.len() + line.len() + 1 > MOST_BYTES {
            answers.extend(run(&input));
            input.clear();
        }
        input.push_str(line);
        input.push('\n');
    }
    answers.extend(run(&input));
    answers
}

/// Runs the program on an input: it prints nothing on standard error. Gives the
/// lines.
fn run(input: &str) -> Vec<String> {
    assert!(input.len() <= MOST_BYTES, "a line is too long");
    let mut command = Command::new(program(FILE));
    command.stdin(Stdio::piped()).stdout(Stdio::piped());
    command.stderr(Stdio::piped());
    let mut child = command.spawn().expect("the program runs");
    let mut stdin = child.stdin.take().expect("it is piped");
    // The program reads all of its input before it writes.
    stdin.write_all(input.as_bytes()).expect("it reads");
    drop(stdin);
    let output = child.wait_with_output().expect("the program ends");
    let said = String::from_utf8_lossy(&output.stderr);
    assert_eq!(said, "", "standard error is empty\n{input}");
    assert!(output.status.success(), "{}\n{input}", output.status);
    let text = String::from_utf8(output.stdout).expect("text");
    text.lines().map(String::from).collect()
}
