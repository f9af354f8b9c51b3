//! Lines for the historian that are made from a seed: records to be read, readings
//! to be written, and lines that are nearly of the format.

use super::certain_records::certain_reads;
use super::odd_lines::{change, long_line, too_many_bytes, NO_LINES, ODD_LINES};
use super::random::Random;
use super::records::any_read;
use crate::config::{HIGHEST_DISPLAY, LOWEST_DISPLAY};

/// Lines of one run, as many as are wanted. If it is the first, those that none
/// may miss come first.
pub fn lines_for(mut random: Random, first: bool, wanted: usize) -> Vec<Vec<u8>> {
    let mut lines = match first {
        true => certain_lines(),
        false => Vec::new(),
    };
    lines.truncate(wanted);
    while lines.len() < wanted {
        lines.push(any_line(&mut random));
    }
    lines
}

fn certain_lines() -> Vec<Vec<u8>> {
    let mut lines = certain_reads();
    let listed = ODD_LINES.iter().chain(NO_LINES);
    lines.extend(listed.map(|line| line.as_bytes().to_vec()));
    lines.extend(too_many_bytes());
    lines
}

fn any_line(random: &mut Random) -> Vec<u8> {
    match random.weighted(&[68, 12, 10, 8, 2]) {
        0 => any_read(random),
        1 => any_write(random),
        2 => near_miss(random),
        3 => random.pick(NO_LINES).as_bytes().to_vec(),
        _ => long_line(random),
    }
}

/// A reading to be written, now and then one that the display cannot show or with
/// places that no input has.
fn any_write(random: &mut Random) -> Vec<u8> {
    let reading = match random.below(10) {
        0 => random.pick(&["OL", "UL", "--"]).to_string(),
        1 => {
            let limit = random.pick(&[LOWEST_DISPLAY, HIGHEST_DISPLAY]);
            let beside = limit + random.setting(-2, 2);
            written(random, beside)
        }
        2 => {
            let any = random.draw() as i32;
            written(random, any)
        }
        3 | 4 => {
            let small = random.setting(-20, 20);
            written(random, small)
        }
        _ => {
            let display = random.setting(LOWEST_DISPLAY, HIGHEST_DISPLAY);
            written(random, display)
        }
    };
    let places = match random.below(12) {
        0 => random.setting(-3, 7),
        _ => random.setting(0, 4),
    };
    let places = written(random, places);
    format!("W {reading} {places}").into_bytes()
}

/// The number, at times with zeros in front, up to ten digits and one more, or
/// with a minus before a 0.
fn written(random: &mut Random, value: i32) -> String {
    let width = if random.one_in(8) {
        random.below(12)
    } else {
        0
    };
    let minus = value < 0 || (value == 0 && random.one_in(4));
    let sign = if minus { "-" } else { "" };
    format!("{sign}{:0width$}", value.unsigned_abs())
}

/// A good line with a change or two, which at times is good again.
fn near_miss(random: &mut Random) -> Vec<u8> {
    let mut line = match random.below(2) {
        0 => any_read(random),
        _ => any_write(random),
    };
    for _ in 0..random.pick(&[1, 1, 1, 2]) {
        change(random, &mut line);
    }
    line
}

#[cfg(test)]
mod tests {
    use super::*;

    #[test]
    fn there_are_as_many_lines_as_were_asked_for() {
        for (first, wanted) in [(true, 10), (true, 20_000), (false, 500), (false, 0)] {
            let lines = lines_for(Random::for_history(1, 0), first, wanted);
            assert_eq!(lines.len(), wanted);
            for line in lines {
                assert!(!line.contains(&b'\n'));
            }
        }
        assert!(certain_lines().len() < 20_000);
    }
}
