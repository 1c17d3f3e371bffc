//! Runs a program on a file.

use std::io::{Result, Write};
use std::process::{Command, Output, Stdio};

/// The file goes to standard input, the words are the arguments.
pub fn run(program: &str, words: &[String], file: &[u8]) -> Result<Output> {
    let mut command = Command::new(program);
    let piped = command.args(words).stdin(Stdio::piped());
    let piped = piped.stdout(Stdio::piped()).stderr(Stdio::piped());
    let mut child = piped.spawn()?;
    if let Some(mut pipe) = child.stdin.take() {
        // a program that has seen enough may close its input; its answer tells
        let _ = pipe.write_all(file);
    }
    child.wait_with_output()
}
