//! The differential test: random histories by seed, fed to the model and to
//! another program, and compared line by line; and its smaller sisters, which
//! feed inputs to a program that reads them and does nothing else, some of them or
//! all of a platinum sensor's, and readings and records to one that writes and
//! reads them for the historian.

pub mod broken;
pub mod captures;
pub mod certain_records;
pub mod compare;
pub mod curve_tally;
pub mod floods;
pub mod historian_lines;
pub mod histories;
pub mod inputs;
pub mod limits;
pub mod odd_lines;
pub mod ohms;
pub mod other;
pub mod places;
pub mod random;
pub mod record_tally;
pub mod recording;
pub mod records;
pub mod rescaling;
pub mod resistances;
pub mod run_tally;
pub mod samples;
pub mod scale_tally;
pub mod scales;
pub mod script;
pub mod settings;
pub mod shorten;
pub mod source_tally;
pub mod status;
pub mod strings;
pub mod tally;
pub mod write_tally;
pub mod written;
