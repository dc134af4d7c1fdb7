//! The program `tagrun`, run as a process of its own.

use std::io::{self, Write};
use std::process::{Command, Stdio};

/// What the command prints for an input. It has to end well, too.
pub fn printed(words: &[String], input: &[u8]) -> io::Result<Vec<u8>> {
    let mut child = Command::new(&words[0])
        .args(&words[1..])
        .stdin(Stdio::piped())
        .stdout(Stdio::piped())
        .spawn()?;
    // The program reads before it prints, and the input is shorter than what a pipe holds.
    child.stdin.take().expect("piped").write_all(input)?;
    let output = child.wait_with_output()?;
    if !output.status.success() {
        return Err(io::Error::other(output.status.to_string()));
    }
    Ok(output.stdout)
}
