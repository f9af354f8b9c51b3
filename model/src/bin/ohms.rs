//! Holds a program that reads inputs against the model on every input of a
//! platinum sensor.

use meter_model::differ::ohms::{compare, Compared, Difference};
use std::io;
use std::process::ExitCode;
use std::time::Instant;

const USAGE: &str = "\
usage: ohms -- COMMAND [WORD ..]

Feeds a platinum meter's configuration and every input from 18000 to 391000 to
the command, which reads lines on standard input and writes one line for each on
standard output, and compares every reading with the model's; once with each
rounding step.

Ends with 0 where no reading differs, with 1 where one does, and with 2 where it
could not run.";

fn main() -> ExitCode {
    let Some(command) = command(std::env::args().skip(1)) else {
        eprintln!("{USAGE}");
        return ExitCode::from(2);
    };
    run(&command).unwrap_or_else(|error| {
        eprintln!("ohms: {error}");
        ExitCode::from(2)
    })
}

fn command(mut words: impl Iterator<Item = String>) -> Option<Vec<String>> {
    if words.next()? != "--" {
        return None;
    }
    let command: Vec<String> = words.collect();
    (!command.is_empty()).then_some(command)
}

fn run(command: &[String]) -> io::Result<ExitCode> {
    let start = Instant::now();
    let Compared { tally, difference } = compare(command)?;
    print!("{tally}");
    println!("time: {:.1} s", start.elapsed().as_secs_f64());
    match difference {
        None => {
            println!("no difference");
            Ok(ExitCode::SUCCESS)
        }
        Some(difference) => {
            show_difference(&difference, tally.readings());
            Ok(ExitCode::from(1))
        }
    }
}

fn show_difference(difference: &Difference, readings: u64) {
    println!(
        "DIFFERENCE after {readings} readings, with step {}",
        difference.step
    );
    println!("input:   {}", difference.line);
    println!("model:   {}", difference.model);
    println!("program: {}", difference.program);
}
