//! Histories as the differential test makes them, with looks put in: reads,
//! refused strings, strings for other nodes, line ends and block prints. They stand
//! where no string is half received, so that they join no other string.

use super::history::{take_apart, Entry};
use crate::differ::histories::{history, Wanted};
use crate::differ::places::any_place;
use crate::differ::random::Random;
use crate::differ::script::Script;
use crate::differ::settings::good_settings;
use crate::differ::strings;
use crate::lines::lines_of;

/// A history of more lines than this is long, and has about so many looks, so that
/// it can be shortened in good time.
const LONG: usize = 1_000;
const LOOKS_AT_A_LONG_ONE: usize = 16;

/// Strings of bad form, without their address and end.
const BAD_FORMS: &[&[u8]] = &[
    b"", b"T", b"TK", b"ta", b"R", b"RA", b"RI", b"RB5", b"REE", b"rE", b"VE", b"VE-", b"VE5 ",
    b"VD5", b"VJ", b"VJ00", b"PA",
];

/// A history with looks. It depends on the seed and its number alone.
pub fn history_with_looks(seed: u64, number: u64) -> Vec<u8> {
    let wanted = Wanted {
        seed,
        bad_lines: true,
    };
    // The first of all begins before any power-up, and here every history may
    // come behind another one.
    let text = history(wanted, number + 1);
    with_looks(Random::for_history(!seed, number), &text)
}

fn with_looks(mut random: Random, text: &[u8]) -> Vec<u8> {
    let entries = take_apart(text);
    let settings = good_settings(&mut random);
    let mut script = Script::new(random, settings);
    let one_in = how_seldom(&mut script.random, entries.len());
    for (line, entry) in lines_of(text).zip(&entries) {
        script.line(&String::from_utf8_lossy(line));
        if let Entry::PowerUp(configuration, _) = entry {
            script.settings = (**configuration).clone();
        }
        if can_look_behind(entry) && script.random.one_in(one_in) {
            look(&mut script);
        }
    }
    script.into_text()
}

/// Once in how many places somebody looks.
fn how_seldom(random: &mut Random, lines: usize) -> usize {
    if lines > LONG {
        lines / LOOKS_AT_A_LONG_ONE
    } else {
        random.pick(&[2, 4, 10, 30])
    }
}

/// Whether a meter is started behind the line, and no string half received.
fn can_look_behind(entry: &Entry) -> bool {
    match entry {
        Entry::PowerUp(_, broken) => broken.is_none(),
        Entry::Event(heard) => !heard.half_received,
        Entry::Unheard | Entry::NotUnderstood => false,
    }
}

fn look(script: &mut Script) {
    if script.random.one_in(3) {
        script.place = any_place(&mut script.random, &script.settings);
    }
    match script.random.below(12) {
        0..=3 => {
            let register = script.random.pick(b"ABCDEFGHIJ");
            strings::own_string(script, &[b'T', register]);
        }
        4 => strings::own_string(script, b"P"),
        5 | 6 => script.key(6),
        7 | 8 => strings::for_another_node(script),
        9 => {
            let body = script.random.pick(BAD_FORMS);
            strings::own_string(script, body);
        }
        10 => strings::own_string(script, b"VE000000000000000000000000000000005"),
        _ => dropped_string(script),
    }
}

/// A string that would reset or set something, had it come to its end.
fn dropped_string(script: &mut Script) {
    let address = strings::own_address(script);
    script.bytes(&address);
    let body: &[u8] = script.random.pick(&[b"RB", b"RE", b"RG", b"VE5", b"VJ@"]);
    script.bytes(body);
    let end = script.random.pick(b"\r\n");
    script.byte(end);
}
