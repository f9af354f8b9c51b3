//! What the sentences stand on: that the answers, readings and setpoints which a
//! program shows are those that document 01 gives to the history.

use super::broken::{Broken, Clause};
use super::history::Asked;
use super::life::Life;
use crate::lines::Shown;

/// The first answer, reading and setpoint that is not document 01's.
pub fn judge(life: &Life) -> Vec<Broken> {
    let answer = first_wrong(life, Clause::Answer, wrong_answer);
    let reading = first_wrong(life, Clause::Reading, wrong_reading);
    let setpoint = first_wrong(life, Clause::Setpoint, wrong_setpoint);
    [answer, reading, setpoint].into_iter().flatten().collect()
}

fn first_wrong(
    life: &Life,
    clause: Clause,
    wrong: fn(&Life, usize) -> Option<String>,
) -> Option<Broken> {
    life.events.iter().enumerate().find_map(|(place, told)| {
        let why = wrong(life, place)?;
        Some(Broken::new(clause, told.line, why))
    })
}

fn wrong_answer(life: &Life, place: usize) -> Option<String> {
    let told = &life.events[place];
    let (due, shown) = (told.asked.answers(), told.answer);
    (!due.contains(&shown)).then(|| format!("one of {due:?} is due, and {shown} was shown"))
}

fn wrong_reading(life: &Life, place: usize) -> Option<String> {
    let (due, shown) = (life.reading(place), life.events[place].shown.reading);
    (due != shown).then(|| {
        let (due, shown) = (Shown::from(due), Shown::from(shown));
        format!("{due} is due, and {shown} was shown")
    })
}

/// A setpoint is what it was, or what was written into it.
fn wrong_setpoint(life: &Life, place: usize) -> Option<String> {
    let told = &life.events[place];
    let mut due = life.before(place).setpoints;
    if let Asked::WriteSetpoint { alarm, value } = told.asked {
        due[alarm] = value;
    }
    let shown = told.shown.setpoints;
    (due != shown).then(|| format!("{due:?} are due, and {shown:?} were shown"))
}
