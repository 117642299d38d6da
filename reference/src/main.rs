//! Plays the run on standard input and prints it to standard output.

use std::io::{self, Read, Write};
use std::process::ExitCode;

fn main() -> ExitCode {
    let mut input = Vec::new();
    // One byte more than a run may have is enough to refuse it.
    let most = reference::MOST_BYTES as u64 + 1;
    let is_read = io::stdin().lock().take(most).read_to_end(&mut input).is_ok();
    let is_written = is_read && io::stdout().lock().write_all(&reference::play(&input)).is_ok();
    if is_written {
        ExitCode::SUCCESS
    } else {
        ExitCode::FAILURE
    }
}
