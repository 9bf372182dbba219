//! What a program prints for bytes on standard input.

use std::io::{self, ErrorKind, Write};
use std::process::{Command, Stdio};

/// The whole standard output. A program that is ended by a signal is an error,
/// whatever it printed; one that doesn't read its whole input isn't.
pub fn output(program: &str, input: &[u8]) -> io::Result<Vec<u8>> {
    let mut child = Command::new(program)
        .stdin(Stdio::piped())
        .stdout(Stdio::piped())
        .spawn()?;
    if let Some(mut standard_input) = child.stdin.take() {
        match standard_input.write_all(input) {
            Err(error) if error.kind() != ErrorKind::BrokenPipe => return Err(error),
            _ => {}
        }
    }
    let done = child.wait_with_output()?;
    match done.status.code() {
        Some(_) => Ok(done.stdout),
        None => Err(io::Error::other(format!("{program}: {}", done.status))),
    }
}
