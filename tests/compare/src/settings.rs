//! What is set by environment variables.

use std::env;
use std::io::Write;

/// The number in an environment variable, or the default where it is not set.
pub fn number(name: &str, default: u64) -> u64 {
    match env::var(name) {
        Ok(text) => text.trim().parse().unwrap_or_else(|_| panic!("{name} must be a number, not {text:?}")),
        Err(_) => default,
    }
}

/// The text in an environment variable, empty where it is not set.
pub fn text(name: &str) -> String {
    env::var(name).unwrap_or_default()
}

/// Says something even where a passing test's prints are kept back.
pub fn say(text: &str) {
    // A report that cannot be written is no reason to fail.
    let _ = writeln!(std::io::stderr().lock(), "{text}");
}

/// Bytes as hexadecimal text.
pub fn hexadecimal(bytes: &[u8]) -> String {
    let pairs: Vec<String> = bytes.iter().map(|byte| format!("{byte:02X}")).collect();
    pairs.join(" ")
}
