//! Reads recorded histories on standard input and prints the model's line for
//! each of their lines. With the word `bench` it is the bench program instead,
//! with the word `rescale` the program that reads inputs and nothing else, with
//! the word `historian` the one that writes records of readings and reads them.

use meter_model::bench::Bench;
use meter_model::historian::Historian;
use meter_model::lines::Replay;
use meter_model::rescale::Rescale;
use std::io::{self, BufRead, Write};
use std::process::ExitCode;

/// How much output is gathered before it is written.
const BLOCK: usize = 64 * 1024;

fn main() -> ExitCode {
    let words: Vec<String> = std::env::args().skip(1).collect();
    let words: Vec<&str> = words.iter().map(String::as_str).collect();
    let done = match words.as_slice() {
        [] => {
            let mut replay = Replay::new();
            each_line(|line, output| {
                replay.line(line, output);
            })
        }
        ["bench"] => {
            let mut bench = Bench::new();
            each_line(|line, output| bench.line(line, output))
        }
        ["rescale"] => {
            let mut rescale = Rescale::new();
            each_line(|line, output| rescale.line(line, output))
        }
        ["historian"] => {
            let historian = Historian::new();
            each_line(|line, output| {
                historian.line(line, output);
            })
        }
        _ => {
            eprintln!("usage: model [bench | rescale | historian] < history");
            return ExitCode::from(2);
        }
    };
    match done {
        Ok(()) => ExitCode::SUCCESS,
        Err(error) => {
            eprintln!("model: {error}");
            ExitCode::FAILURE
        }
    }
}

/// Feeds every line of standard input, without its LF, to `carry_out`, and
/// writes the output in blocks.
fn each_line(mut carry_out: impl FnMut(&[u8], &mut Vec<u8>)) -> io::Result<()> {
    let mut input = io::stdin().lock();
    let mut terminal = io::stdout().lock();
    let mut line = Vec::new();
    let mut output = Vec::new();
    while input.read_until(b'\n', &mut line)? > 0 {
        carry_out(line.strip_suffix(b"\n").unwrap_or(&line), &mut output);
        line.clear();
        if output.len() >= BLOCK {
            terminal.write_all(&output)?;
            output.clear();
        }
    }
    terminal.write_all(&output)?;
    terminal.flush()
}
