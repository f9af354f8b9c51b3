//! Sentence 4: two histories with equal kept lists.

use super::broken::{Broken, Clause};
use super::life::{Life, Told};
use super::tally::Tally;

/// Holds what was shown behind each kept entry of one life against what was shown
/// behind the same entry of the other.
pub fn compare(looked: &Life, bare: &Life, tally: &mut Tally) -> Result<(), Broken> {
    let (one, other) = (kept(looked), kept(bare));
    assert_eq!(one.len(), other.len(), "the kept lists are equal");
    for (with, without) in one.iter().zip(&other) {
        if with.shown != without.shown {
            let why = format!("{}; without the looks {}", with.shown, without.shown);
            return Err(Broken::new(Clause::EqualLists, with.line, why));
        }
    }
    tally.lists.count(looked);
    Ok(())
}

fn kept(life: &Life) -> Vec<&Told> {
    life.events
        .iter()
        .filter(|told| told.asked.is_kept())
        .collect()
}
