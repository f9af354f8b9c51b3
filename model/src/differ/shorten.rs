//! Shortening a history to one from which no single line can be removed
//! without what was found in it vanishing.

use crate::lines::lines_of;
use std::fmt;
use std::io;

/// More equal lines than this are shown as one line and their number.
const MOST_SHOWN: usize = 40;

/// What is wrong with a history that was run on its own.
pub trait Finding {
    /// The line, counted from 0, at which it shows.
    fn line(&self) -> usize;
}

/// A shortened history with what is wrong with it.
pub struct Shortened<Found> {
    pub lines: Vec<Vec<u8>>,
    pub found: Found,
    /// How often the other program was run to find it.
    pub runs: usize,
}

impl<Found> Shortened<Found> {
    /// Writes every line to the named file, ready to be fed again.
    pub fn save(&self, file: &str) -> io::Result<()> {
        std::fs::write(file, self.text())
    }

    fn text(&self) -> Vec<u8> {
        let mut text = self.lines.join(&b'\n');
        text.push(b'\n');
        text
    }
}

impl<Found> fmt::Display for Shortened<Found> {
    fn fmt(&self, out: &mut fmt::Formatter) -> fmt::Result {
        writeln!(
            out,
            "shortened to {} lines in {} runs; no single line can be left out:",
            self.lines.len(),
            self.runs
        )?;
        for Group { line, times } in groups_of(&self.text()) {
            let line = String::from_utf8_lossy(&line);
            if times > MOST_SHOWN {
                writeln!(out, "{line}   ({times} such lines)")?;
            } else {
                (0..times).try_for_each(|_| writeln!(out, "{line}"))?;
            }
        }
        Ok(())
    }
}

/// So many times over the same line. Removing any one of them gives the same
/// history, so the group needs one trial only.
#[derive(Clone, PartialEq, Eq, Debug)]
struct Group {
    line: Vec<u8>,
    times: usize,
}

/// The trials of one shortening.
struct Trials<Run> {
    run: Run,
    runs: usize,
}

/// How many histories around the one with the finding are tried at most, on
/// either side.
const WIDEST: u64 = 4096;

/// Finds a text that shows something when run on its own, and shortens it. None
/// where nothing comes again.
///
/// The history in which it was met is tried alone, and then with ever more of
/// its neighbours: those before it, for what an earlier one may have left
/// behind; those after it, since a program that dies takes with it the output
/// it had not yet written, which belongs to earlier lines.
pub fn shorten<Found: Finding>(
    history: impl Fn(u64) -> Vec<u8>,
    met_in: u64,
    run: impl FnMut(&[u8]) -> io::Result<Option<Found>>,
) -> io::Result<Option<Shortened<Found>>> {
    let mut trials = Trials { run, runs: 0 };
    let mut around = 0;
    while around <= WIDEST {
        let first = met_in.saturating_sub(around);
        let text: Vec<u8> = (first..=met_in + around).flat_map(&history).collect();
        let groups = groups_of(&text);
        if let Some(found) = trials.found(&groups)? {
            let groups = trials.cut_behind(groups, &found)?;
            return trials.shortest(groups).map(Some);
        }
        around = 2 * around + 1;
    }
    Ok(None)
}

/// Gathers equal lines that follow each other.
fn groups_of(text: &[u8]) -> Vec<Group> {
    let mut groups = Vec::new();
    for line in lines_of(text) {
        push(&mut groups, line.to_vec(), 1);
    }
    groups
}

fn push(groups: &mut Vec<Group>, line: Vec<u8>, times: usize) {
    match groups.last_mut() {
        Some(last) if last.line == line => last.times += times,
        _ => groups.push(Group { line, times }),
    }
}

/// The groups without those of a range; neighbours that are now equal join.
fn without(groups: &[Group], from: usize, to: usize) -> Vec<Group> {
    let mut left = Vec::new();
    for group in groups[..from].iter().chain(&groups[to..]) {
        push(&mut left, group.line.clone(), group.times);
    }
    left
}

fn with_fewer(groups: &[Group], index: usize, fewer: usize) -> Vec<Group> {
    let mut left = groups.to_vec();
    left[index].times -= fewer;
    left
}

fn lines_in(groups: &[Group]) -> Vec<Vec<u8>> {
    groups
        .iter()
        .flat_map(|group| std::iter::repeat_n(group.line.clone(), group.times))
        .collect()
}

fn text_of(groups: &[Group]) -> Vec<u8> {
    let mut text = Vec::new();
    for group in groups {
        for _ in 0..group.times {
            text.extend_from_slice(&group.line);
            text.push(b'\n');
        }
    }
    text
}

impl<Found, Run> Trials<Run>
where
    Found: Finding,
    Run: FnMut(&[u8]) -> io::Result<Option<Found>>,
{
    /// Runs a history of its own.
    fn found(&mut self, groups: &[Group]) -> io::Result<Option<Found>> {
        self.runs += 1;
        (self.run)(&text_of(groups))
    }

    /// Nothing behind the line where it shows is needed, unless that line was
    /// lost by a program that died of a later one.
    fn cut_behind(&mut self, groups: Vec<Group>, found: &Found) -> io::Result<Vec<Group>> {
        let mut left = Vec::new();
        for line in lines_in(&groups).into_iter().take(found.line() + 1) {
            push(&mut left, line, 1);
        }
        let still_shown = self.found(&left)?.is_some();
        Ok(if still_shown { left } else { groups })
    }

    /// Removes ever smaller blocks until a whole round of single lines removes
    /// nothing.
    fn shortest(&mut self, mut groups: Vec<Group>) -> io::Result<Shortened<Found>> {
        let mut size = groups.len().div_ceil(2);
        loop {
            let before = groups.clone();
            groups = self.remove_blocks(groups, size)?;
            groups = self.thin_out(groups)?;
            if size > 1 {
                size = size.div_ceil(2);
            } else if groups == before {
                break;
            }
        }
        let found = self
            .found(&groups)?
            .expect("only histories that show something are kept");
        Ok(Shortened {
            lines: lines_in(&groups),
            found,
            runs: self.runs,
        })
    }

    /// Tries to leave out each block of so many groups, from the end on.
    fn remove_blocks(&mut self, mut groups: Vec<Group>, size: usize) -> io::Result<Vec<Group>> {
        let mut to = groups.len();
        while to > 0 {
            let from = to.saturating_sub(size);
            let trial = without(&groups, from, to);
            if self.found(&trial)?.is_some() {
                groups = trial;
            }
            to = from.min(groups.len());
        }
        Ok(groups)
    }

    /// Tries to make each group of equal lines smaller, first by much and at
    /// last by one line.
    fn thin_out(&mut self, mut groups: Vec<Group>) -> io::Result<Vec<Group>> {
        for index in 0..groups.len() {
            let mut fewer = groups[index].times / 2;
            while fewer > 0 {
                let can_lose = groups[index].times > fewer;
                let trial = with_fewer(&groups, index, if can_lose { fewer } else { 0 });
                if can_lose && self.found(&trial)?.is_some() {
                    groups = trial;
                } else {
                    fewer /= 2;
                }
            }
        }
        Ok(groups)
    }
}
