//! Holds another program against the model on random histories.

use meter_model::differ::compare::{
    compare, events_in, shorten_difference, Compared, Difference, Parting,
};
use meter_model::differ::histories::{history, Wanted};
use std::io::{self, Write};
use std::process::ExitCode;
use std::time::Instant;

const USAGE: &str = "\
usage: differ [OPTIONS] -- COMMAND [WORD ..]
       differ [OPTIONS] --print

Makes random histories, feeds them to the model and to COMMAND, which reads
lines on standard input and writes lines on standard output, and compares
every line. With --print it writes the histories instead.

  --seed N        the seed, 1 if not given
  --events N      how many events at least, 1000000 if not given
  --format-only   no lines that are not of the format
  --save FILE     write a shortened history there as well

Ends with 0 where no line differs, with 1 where one does, and with 2 where it
could not run.";

/// What was asked for.
struct Asked {
    wanted: Wanted,
    events: u64,
    print: bool,
    save: Option<String>,
    command: Vec<String>,
}

fn main() -> ExitCode {
    let Some(asked) = asked(std::env::args().skip(1)) else {
        eprintln!("{USAGE}");
        return ExitCode::from(2);
    };
    let done = if asked.print {
        print_histories(&asked).map(|()| ExitCode::SUCCESS)
    } else {
        run(&asked)
    };
    done.unwrap_or_else(|error| {
        eprintln!("differ: {error}");
        ExitCode::from(2)
    })
}

fn asked(mut words: impl Iterator<Item = String>) -> Option<Asked> {
    let mut asked = Asked {
        wanted: Wanted {
            seed: 1,
            bad_lines: true,
        },
        events: 1_000_000,
        print: false,
        save: None,
        command: Vec::new(),
    };
    while let Some(word) = words.next() {
        match word.as_str() {
            "--seed" => asked.wanted.seed = words.next()?.parse().ok()?,
            "--events" => asked.events = words.next()?.parse().ok()?,
            "--format-only" => asked.wanted.bad_lines = false,
            "--print" => asked.print = true,
            "--save" => asked.save = Some(words.next()?),
            "--" => asked.command = words.by_ref().collect(),
            _ => return None,
        }
    }
    (asked.print == asked.command.is_empty()).then_some(asked)
}

/// Writes the histories that a run with these words would feed.
fn print_histories(asked: &Asked) -> io::Result<()> {
    let mut terminal = io::stdout().lock();
    let mut events = 0;
    let mut number = 0;
    while events < asked.events {
        let text = history(asked.wanted, number);
        terminal.write_all(&text)?;
        events += events_in(&text);
        number += 1;
    }
    terminal.flush()
}

fn run(asked: &Asked) -> io::Result<ExitCode> {
    let start = Instant::now();
    let Compared { tally, parting } = compare(asked.wanted, asked.events, &asked.command)?;
    println!("seed: {}", asked.wanted.seed);
    print!("{tally}");
    println!("time: {:.1} s", start.elapsed().as_secs_f64());
    match parting {
        None => {
            println!("no difference");
            Ok(ExitCode::SUCCESS)
        }
        Some(parting) => {
            show_difference(asked, parting)?;
            Ok(ExitCode::from(1))
        }
    }
}

fn show_difference(asked: &Asked, parting: Parting) -> io::Result<()> {
    println!(
        "DIFFERENCE after {} events, in history {}",
        parting.events, parting.history
    );
    match shorten_difference(asked.wanted, parting.history, &asked.command)? {
        None => println!("it does not come again when the histories are fed anew"),
        Some(shortened) => {
            print!("{shortened}");
            show_lines(&shortened.found);
            if let Some(file) = &asked.save {
                shortened.save(file)?;
            }
        }
    }
    Ok(())
}

/// Both sides' line.
fn show_lines(difference: &Difference) {
    println!("first differing line of output: {}", difference.line + 1);
    println!("model: {}", String::from_utf8_lossy(&difference.model));
    println!("other: {}", String::from_utf8_lossy(&difference.other));
}
