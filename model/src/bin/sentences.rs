//! Judges another program by the sentences that an extract may say, on random
//! histories.

use meter_model::sentences::check::{check, shorten_break, BreakMet, Checked};
use std::io;
use std::process::ExitCode;
use std::time::Instant;

const USAGE: &str = "\
usage: sentences [OPTIONS] -- COMMAND [WORD ..]

Makes random histories, feeds them to COMMAND, which reads lines on standard
input and writes lines on standard output, with looks and without them, and
judges the total, the alarms and the excursions that it shows by the history
alone.

  --seed N        the seed, 1 if not given
  --events N      how many events at least, 1000000 if not given
  --save FILE     write a shortened history there as well

Ends with 0 where every sentence holds, with 1 where one is broken, and with 2
where it could not run.";

/// What was asked for.
struct Asked {
    seed: u64,
    events: u64,
    save: Option<String>,
    command: Vec<String>,
}

fn main() -> ExitCode {
    let Some(asked) = asked(std::env::args().skip(1)) else {
        eprintln!("{USAGE}");
        return ExitCode::from(2);
    };
    run(&asked).unwrap_or_else(|error| {
        eprintln!("sentences: {error}");
        ExitCode::from(2)
    })
}

fn asked(mut words: impl Iterator<Item = String>) -> Option<Asked> {
    let mut asked = Asked {
        seed: 1,
        events: 1_000_000,
        save: None,
        command: Vec::new(),
    };
    while let Some(word) = words.next() {
        match word.as_str() {
            "--seed" => asked.seed = words.next()?.parse().ok()?,
            "--events" => asked.events = words.next()?.parse().ok()?,
            "--save" => asked.save = Some(words.next()?),
            "--" => asked.command = words.by_ref().collect(),
            _ => return None,
        }
    }
    (!asked.command.is_empty()).then_some(asked)
}

fn run(asked: &Asked) -> io::Result<ExitCode> {
    let start = Instant::now();
    let Checked { tally, break_met } = check(asked.seed, asked.events, &asked.command)?;
    println!("seed: {}", asked.seed);
    print!("{tally}");
    println!("time: {:.1} s", start.elapsed().as_secs_f64());
    match break_met {
        None => {
            println!("every sentence holds");
            Ok(ExitCode::SUCCESS)
        }
        Some(break_met) => {
            show_break(asked, break_met)?;
            Ok(ExitCode::from(1))
        }
    }
}

fn show_break(asked: &Asked, break_met: BreakMet) -> io::Result<()> {
    println!(
        "BROKEN after {} events, in history {}",
        break_met.events, break_met.history
    );
    match shorten_break(asked.seed, break_met, &asked.command)? {
        None => println!("it does not come again when the histories are fed anew"),
        Some(shortened) => {
            print!("{shortened}");
            for broken in &shortened.found {
                println!("{broken}");
            }
            if let Some(file) = &asked.save {
                shortened.save(file)?;
            }
        }
    }
    Ok(())
}
