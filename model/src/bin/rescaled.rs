//! Holds a program that reads inputs against one that replays histories, and
//! both against the model.

use meter_model::differ::rescaling::{compare, Commands, Compared, Parting, Wanted};
use std::io;
use std::process::ExitCode;
use std::time::Instant;

const USAGE: &str = "\
usage: rescaled [OPTIONS] --rescale COMMAND [WORD ..] --replay COMMAND [WORD ..]

Makes random configurations and inputs, feeds them to both commands, which read
lines on standard input and write lines on standard output, and compares the
reading that each of them and the model give to every input. All words between
--rescale and --replay are the first command, all words behind --replay the
second. Some lines are no input, and go to the first command only.

  --seed N             the seed, 1 if not given
  --configurations N   how many configurations with points, and how many of
                       platinum meters, 20 if not given
  --inputs N           how many inputs for each, 10000 if not given

Ends with 0 where no reading differs, with 1 where one does, and with 2 where it
could not run.";

/// What was asked for.
struct Asked {
    wanted: Wanted,
    commands: Commands,
}

fn main() -> ExitCode {
    let Some(asked) = asked(std::env::args().skip(1)) else {
        eprintln!("{USAGE}");
        return ExitCode::from(2);
    };
    run(&asked).unwrap_or_else(|error| {
        eprintln!("rescaled: {error}");
        ExitCode::from(2)
    })
}

fn asked(mut words: impl Iterator<Item = String>) -> Option<Asked> {
    let mut wanted = Wanted {
        seed: 1,
        configurations: 20,
        inputs: 10_000,
    };
    loop {
        match words.next()?.as_str() {
            "--seed" => wanted.seed = words.next()?.parse().ok()?,
            "--configurations" => wanted.configurations = words.next()?.parse().ok()?,
            "--inputs" => wanted.inputs = words.next()?.parse().ok()?,
            "--rescale" => break,
            _ => return None,
        }
    }
    let commands = commands(words)?;
    Some(Asked { wanted, commands })
}

/// Both commands, from the words behind `--rescale`.
fn commands(mut words: impl Iterator<Item = String>) -> Option<Commands> {
    let rescale: Vec<String> = words
        .by_ref()
        .take_while(|word| word != "--replay")
        .collect();
    let replay: Vec<String> = words.collect();
    (!rescale.is_empty() && !replay.is_empty()).then_some(Commands { rescale, replay })
}

fn run(asked: &Asked) -> io::Result<ExitCode> {
    let start = Instant::now();
    let Compared { tally, parting } = compare(asked.wanted, &asked.commands)?;
    println!("seed: {}", asked.wanted.seed);
    print!("{tally}");
    println!("time: {:.1} s", start.elapsed().as_secs_f64());
    match parting {
        None => {
            println!("no difference");
            Ok(ExitCode::SUCCESS)
        }
        Some(parting) => {
            show_parting(&parting, tally.readings());
            Ok(ExitCode::from(1))
        }
    }
}

fn show_parting(parting: &Parting, readings: u64) {
    println!(
        "DIFFERENCE after {readings} readings, in configuration {}",
        parting.configuration
    );
    println!("{}", parting.first_line);
    let difference = &parting.difference;
    println!("input:   {}", difference.line);
    println!("model:   {}", difference.model);
    println!("rescale: {}", difference.rescale);
    println!("replay:  {}", difference.replay);
}
