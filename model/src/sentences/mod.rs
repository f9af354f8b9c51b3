//! What an extract may say, judged from the history alone (document 02, ticket
//! 9).
//!
//! A program is fed with recorded histories, and what it prints is held against
//! five sentences in which no inner counter stands:
//!
//! 1. The total, since its last reset or power-up and while it has not gone Over
//!    or Under, is the cut quotient of the contributions since then. What takes
//!    it past an end shows Over or Under, and so it stays until a reset.
//! 2. An unlatched alarm changes at a sample exactly when the condition of its
//!    state held at each of the last samples, as many as the delay counts, with
//!    no earlier change, reset or new setpoint since the first of them. At no
//!    other event does it change, but at a reset.
//! 3. A latched alarm goes off by a reset only, and on as an unlatched one does.
//! 4. Histories with equal kept lists change the same at the same kept entries.
//! 5. An excursion goes from the sample at which an alarm went on to the sample
//!    or reset at which it went off, and nobody who looks moves either end.
//!
//! Each sentence is taken literally. Every sample looks back over the samples
//! before it, and every total is summed from the events. The state and the
//! setpoint before an event are those that the program has shown behind the event
//! before it, so that nothing is kept here that a meter keeps.

pub mod alarm_tally;
pub mod alarms;
pub mod broken;
pub mod check;
pub mod excursions;
pub mod grounds;
pub mod history;
pub mod judge;
pub mod life;
pub mod lists;
pub mod looks;
pub mod state;
pub mod tally;
pub mod totals;
pub mod windows;
