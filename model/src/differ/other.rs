//! The other program: a command that reads lines on its standard input and
//! writes lines on its standard output.

use std::io::{self, Read, Write};
use std::process::{Child, Command, Stdio};
use std::thread;

/// Starts the command with both its ends in our hands.
pub fn start(command: &[String]) -> io::Result<Child> {
    Command::new(&command[0])
        .args(&command[1..])
        .stdin(Stdio::piped())
        .stdout(Stdio::piped())
        .spawn()
}

/// Ends a child that was started here, whatever it is doing.
pub fn stop(child: &mut Child) {
    // A child that has already ended cannot be killed, and need not be.
    let _ = child.kill();
    let _ = child.wait();
}

/// Feeds a whole text to a fresh run and gives back its output, or as much of
/// it as the limit allows. Feeding goes on beside reading, so that neither side
/// can wait for the other.
pub fn run_once(command: &[String], text: &[u8], limit: usize) -> io::Result<Vec<u8>> {
    let mut child = start(command)?;
    let mut input = child.stdin.take().expect("the input is piped");
    let output = child.stdout.take().expect("the output is piped");
    let mut heard = Vec::new();
    let read = thread::scope(|scope| {
        // A program that stops reading early shows in its output.
        scope.spawn(move || input.write_all(text));
        let read = output.take(limit as u64).read_to_end(&mut heard);
        stop(&mut child);
        read
    });
    read.map(|_| heard)
}
