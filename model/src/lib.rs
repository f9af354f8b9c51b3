//! A model of the panel meter, written from document 01 and from three tickets
//! of document 02: ticket 2 changes what max and min take, ticket 5 what a number
//! past a limit sets, and ticket 3 has a platinum sensor read in the place of the
//! points. Ticket 10 changes no reading, and has only its program
//! `rescale` here. Ticket 9 changes nothing either, and has its sentences in
//! `sentences`, which judge a meter by its history. Ticket 12 hands readings on,
//! and has its record and its program `historian` here.
//!
//! Every module carries out one section of document 01 in the plainest way:
//! wide whole numbers, exact fractions and comparisons, and nothing kept that
//! can be worked out again. It shares no code with the core it is held against.
//!
//! Comments name the sentence that a function carries out by its section and
//! its number there, counted from 1 within the section or, in the section on
//! register strings, within the paragraph. Where no document is named, document
//! 01 is meant.

pub mod alarms;
pub mod analog;
pub mod answer;
pub mod bench;
pub mod binary32;
pub mod command;
pub mod config;
pub mod extremes;
pub mod fraction;
pub mod historian;
pub mod lines;
pub mod meter;
pub mod platinum;
pub mod reading;
pub mod receiver;
pub mod record;
pub mod reply;
pub mod rescale;
pub mod total;

pub mod differ;
pub mod sentences;
