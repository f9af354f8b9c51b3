//! Sentences 2 and 3: at which events an alarm changes, and at which it does not.

use super::broken::{Broken, Clause};
use super::history::Asked;
use super::life::Life;
use super::tally::Tally;
use super::windows::whole_window;

/// The first event of each alarm behind which it is shown in another state than
/// the sentences give.
pub fn judge(life: &Life, tally: &mut Tally) -> Vec<Broken> {
    (0..4)
        .filter_map(|alarm| judge_alarm(life, alarm, tally).err())
        .collect()
}

fn judge_alarm(life: &Life, alarm: usize, tally: &mut Tally) -> Result<(), Broken> {
    let clause = if life.configuration.alarms[alarm].latched {
        Clause::Latched
    } else {
        Clause::Unlatched
    };
    for (place, told) in life.events.iter().enumerate() {
        let due = on_behind(life, alarm, place);
        if told.shown.alarms[alarm] != due {
            let (due, shown) = if due { ("on", "off") } else { ("off", "on") };
            let why = format!(
                "{due} is due for alarm {}, and {shown} was shown",
                alarm + 1
            );
            return Err(Broken::new(clause, told.line, why));
        }
        tally.alarms.count(life, alarm, place);
    }
    Ok(())
}

/// Whether the alarm is on behind an event, by what it was before it.
fn on_behind(life: &Life, alarm: usize, place: usize) -> bool {
    let was_on = life.before(place).alarms[alarm];
    match life.events[place].asked {
        Asked::Sample(_) => was_on != changes_at_sample(life, alarm, place),
        asked if asked.resets(alarm) => false,
        _ => was_on,
    }
}

fn changes_at_sample(life: &Life, alarm: usize, place: usize) -> bool {
    let latched = life.configuration.alarms[alarm].latched;
    let stays_on = latched && life.before(place).alarms[alarm];
    !stays_on && whole_window(life, alarm, place).is_some_and(|window| window.holds())
}
