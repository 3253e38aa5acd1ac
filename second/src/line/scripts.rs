//! Scripts of commands that bring a line to its limits.

use super::call::Call;
use super::LIMIT;

/// The calls of a script, commands parted by semicolons; a malformed command is the writer's fault.
pub fn calls(script: &str) -> Vec<Call> {
    let commands = script
        .split(';')
        .filter(|command| !command.trim().is_empty());
    commands
        .map(|command| Call::parse(command).unwrap_or_else(|| panic!("no command: {command}")))
        .collect()
}

/// Station 0 reads and writes as much as one transaction may, and is about to commit: 48 reads, 48 writes, on 24 pages.
pub fn largest_transaction(kinds: &str) -> String {
    let accesses: String = (0..LIMIT as u8)
        .map(|i| 4 * i)
        .map(|address| {
            format!("read 0 {address}; server 0; station 0; write 0 {address} {address}9; server 0; station 0; ")
        })
        .collect();
    format!("fresh {kinds}; begin 0; {accesses}")
}

/// One more behind that, read or written, where the page is cached and where it is not; and what was read and written before.
pub const BEYOND: &str =
    "read 0 1; read 0 255; write 0 1 7; write 0 255 7; read 0 4; write 0 4 8; read 0 4; ";

/// Station 0 has read what each of the seven others wants to write, and keeps their callbacks.
pub fn seven_kept() -> String {
    let reads: String = (1..8)
        .map(|other| format!("read 0 {}; server 0; station 0; ", 9 * other))
        .collect();
    let writes: String = (1..8)
        .map(|other| {
            format!(
                "begin {other}; write {other} {} 5; server {other}; station 0; server 0; ",
                9 * other
            )
        })
        .collect();
    format!("fresh 00000000; begin 0; {reads}{writes}")
}
