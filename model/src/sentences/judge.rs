//! A history in its two forms, with looks and without, and the judgement of both.

use super::broken::{first_of_each, Broken};
use super::history::{kept_lines, take_apart, Entry};
use super::life::{lives, Life};
use super::tally::Tally;
use super::{alarms, excursions, grounds, lists, totals};
use crate::lines::lines_of;

/// A history, and the same without all that is not in its kept list.
pub struct Pair {
    pub looked: Form,
    pub bare: Form,
    /// For each line of the bare form the line of the other that it was.
    origins: Vec<usize>,
}

/// One of the two forms.
pub struct Form {
    pub text: Vec<u8>,
    entries: Vec<Entry>,
}

impl Form {
    fn new(text: Vec<u8>) -> Form {
        let entries = take_apart(&text);
        Form { text, entries }
    }

    pub fn lines(&self) -> usize {
        self.entries.len()
    }

    /// How many events are judged.
    fn events(&self) -> u64 {
        events_in(&self.entries)
    }

    /// How many of them there are up to and with a line.
    pub fn events_up_to(&self, line: usize) -> u64 {
        events_in(&self.entries[..=line])
    }
}

fn events_in(entries: &[Entry]) -> u64 {
    let is_event = |entry: &&Entry| matches!(entry, Entry::Event(_));
    entries.iter().filter(is_event).count() as u64
}

impl Pair {
    pub fn new(text: Vec<u8>) -> Pair {
        let looked = Form::new(text);
        let origins = kept_lines(&looked.entries);
        let lines: Vec<&[u8]> = lines_of(&looked.text).collect();
        let mut bare = Vec::new();
        for origin in &origins {
            bare.extend_from_slice(lines[*origin]);
            bare.push(b'\n');
        }
        Pair {
            looked,
            bare: Form::new(bare),
            origins,
        }
    }

    pub fn events(&self) -> u64 {
        self.looked.events() + self.bare.events()
    }

    /// Judges what was printed for each form: first each by itself, then both
    /// together. Gives the first break of each sentence, none where all hold.
    pub fn judge(&self, looked: &[u8], bare: &[u8], tally: &mut Tally) -> Vec<Broken> {
        tally.histories += 1;
        let mut found = Vec::new();
        let looked = judge_form(&self.looked, looked, &mut found, tally);
        let mut found_in_bare = Vec::new();
        let bare = judge_form(&self.bare, bare, &mut found_in_bare, tally);
        found.extend(found_in_bare.into_iter().map(|broken| self.traced(broken)));
        for (with, without) in looked.iter().zip(&bare) {
            found.extend(lists::compare(with, without, tally).err());
            found.extend(excursions::compare(with, without, tally).err());
        }
        first_of_each(found)
    }

    /// A break of the bare form, at the line that it had in the other.
    fn traced(&self, broken: Broken) -> Broken {
        Broken {
            line: self.origins[broken.line],
            without_looks: true,
            ..broken
        }
    }
}

/// Judges one form by itself and gives its lives, none where its lines cannot be
/// read.
fn judge_form(form: &Form, output: &[u8], found: &mut Vec<Broken>, tally: &mut Tally) -> Vec<Life> {
    match lives(&form.entries, output) {
        Err(broken) => {
            found.push(broken);
            Vec::new()
        }
        Ok(lives) => {
            for life in &lives {
                judge_life(life, found, tally);
            }
            lives
        }
    }
}

fn judge_life(life: &Life, found: &mut Vec<Broken>, tally: &mut Tally) {
    tally.count(life);
    found.extend(grounds::judge(life));
    found.extend(totals::judge(life, tally).err());
    found.extend(alarms::judge(life, tally));
    found.extend(excursions::judge(life).err());
}
