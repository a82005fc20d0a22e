//! The proved program `exchange`, run as a process.

use std::io::Write;
use std::path::Path;
use std::process::{Command, Stdio};

/// Where the program stands, counted from the root of the repository.
const PLACE: &str = "target/bin/exchange";

/// Passes if the program is there.
pub fn is_there() -> Result<(), String> {
    match Path::new(PLACE).is_file() {
        true => Ok(()),
        false => Err(format!(
            "{PLACE} is missing: build it first, and run this from the root of the repository"
        )),
    }
}

/// What the program prints for this input. It may end before it has read all.
pub fn exchange(input: &[u8]) -> Result<String, String> {
    let told = |told: std::io::Error| format!("{PLACE}: {told}");
    let mut command = Command::new(PLACE);
    let piped = command.stdin(Stdio::piped()).stdout(Stdio::piped());
    let mut child = piped.spawn().map_err(told)?;
    let lent = child.stdin.take();
    let output = std::thread::scope(|scope| {
        scope.spawn(move || lent.map(|mut lent| lent.write_all(input)));
        child.wait_with_output()
    });
    let output = output.map_err(told)?;
    match output.status.success() {
        true => String::from_utf8(output.stdout).map_err(|_| format!("{PLACE} prints no text")),
        false => Err(format!("{PLACE} ended with {}", output.status)),
    }
}
