//! Holds a program that writes records for the historian and reads them back
//! against the model's.

use meter_model::differ::recording::{compare, Compared, Difference, Wanted};
use std::io;
use std::process::ExitCode;
use std::time::Instant;

const USAGE: &str = "\
usage: historied [OPTIONS] -- COMMAND [WORD ..]

Feeds lines to the command, which reads them on standard input and writes one
line for each on standard output, and compares every line with the model's. All
displays and marks are written with each number of places, and each record that
the command has printed is read back. Then come lines made from the seed.

  --seed N    the seed, 1 if not given
  --lines N   how many lines are made from the seed, 200000 if not given

Ends with 0 where no line differs, with 1 where one does, and with 2 where it
could not run.";

/// What was asked for.
struct Asked {
    wanted: Wanted,
    command: Vec<String>,
}

fn main() -> ExitCode {
    let Some(asked) = asked(std::env::args().skip(1)) else {
        eprintln!("{USAGE}");
        return ExitCode::from(2);
    };
    run(&asked).unwrap_or_else(|error| {
        eprintln!("historied: {error}");
        ExitCode::from(2)
    })
}

fn asked(mut words: impl Iterator<Item = String>) -> Option<Asked> {
    let mut wanted = Wanted {
        seed: 1,
        lines: 200_000,
    };
    loop {
        match words.next()?.as_str() {
            "--seed" => wanted.seed = words.next()?.parse().ok()?,
            "--lines" => wanted.lines = words.next()?.parse().ok()?,
            "--" => break,
            _ => return None,
        }
    }
    let command: Vec<String> = words.collect();
    (!command.is_empty()).then_some(Asked { wanted, command })
}

fn run(asked: &Asked) -> io::Result<ExitCode> {
    let start = Instant::now();
    let Compared { tally, difference } = compare(asked.wanted, &asked.command)?;
    println!("seed: {}", asked.wanted.seed);
    print!("{tally}");
    println!("time: {:.1} s", start.elapsed().as_secs_f64());
    match difference {
        None => {
            println!("no difference");
            Ok(ExitCode::SUCCESS)
        }
        Some(difference) => {
            show_difference(&difference, tally.lines());
            Ok(ExitCode::from(1))
        }
    }
}

fn show_difference(difference: &Difference, lines: u64) {
    println!("DIFFERENCE after {lines} lines, in {}", difference.part);
    println!("line:    {}", difference.line);
    println!("record:  {}", difference.record);
    println!("model:   {}", difference.model);
    println!("program: {}", difference.program);
}
