//! Records that no run may miss, each put together by hand.

use super::records::{
    bits_of, in_upper_case, Draft, Fault, BITS_OF_NO_DISPLAY, FAULTS, KINDS_OF_MARKS,
    KIND_OF_A_VALUE, MOST_BYTES, NO_DISPLAYS, SIGN, TELLING_DISPLAYS,
};
use crate::record::{MOST_PLACES, RECORD_LENGTH};

/// Telling bits with each number of places, in lower and in upper case; each kind,
/// each number of places, each filler, each length; and each two faults at once.
pub fn certain_reads() -> Vec<Vec<u8>> {
    let mut drafts = Vec::new();
    for places in 0..=MOST_PLACES {
        drafts.extend(telling_values(places));
        drafts.extend(telling_marks(places));
    }
    drafts.extend(every_byte_in_front());
    drafts.extend(every_length());
    drafts.extend(faults_together());
    let mut lines: Vec<Vec<u8>> = drafts.iter().map(Draft::line).collect();
    for draft in telling_values(MOST_PLACES) {
        lines.push(in_upper_case(draft.line(), |_| true));
        lines.push(in_upper_case(draft.line(), |place| place % 2 == 0));
        lines.push(in_upper_case(draft.line(), |place| place % 2 == 1));
    }
    lines
}

fn telling_values(places: u8) -> Vec<Draft> {
    let mut bits = BITS_OF_NO_DISPLAY.to_vec();
    for display in TELLING_DISPLAYS {
        let right = bits_of(display, places);
        bits.extend([right, right ^ SIGN, right.swap_bytes()]);
        bits.extend([right.wrapping_add(1), right.wrapping_sub(1)]);
        bits.extend((0..=MOST_PLACES).map(|other| bits_of(display, other)));
    }
    bits.extend(NO_DISPLAYS.map(|number| bits_of(number, places)));
    bits.extend((0..32).map(|place| bits_of(12_345, places) ^ (1 << place)));
    bits.into_iter()
        .map(|bits| Draft::of_bits(KIND_OF_A_VALUE, places, bits))
        .collect()
}

fn telling_marks(places: u8) -> Vec<Draft> {
    let mut bits = vec![0];
    bits.extend(BITS_OF_NO_DISPLAY);
    bits.extend((0..32).map(|place| 1 << place));
    bits.push(bits_of(5, places));
    let marks = KINDS_OF_MARKS.into_iter();
    marks
        .flat_map(|kind| bits.iter().map(move |bits| (kind, *bits)))
        .map(|(kind, bits)| Draft::of_bits(kind, places, bits))
        .collect()
}

/// Each value of each of the four bytes in front of the bits.
fn every_byte_in_front() -> Vec<Draft> {
    let mut drafts = Vec::new();
    for right in [Draft::of_display(5, 1), Draft::of_mark(3, 2)] {
        for byte in 0..=255 {
            let (mut kind, mut places) = (right.clone(), right.clone());
            let (mut third, mut fourth) = (right.clone(), right.clone());
            kind.kind = byte;
            places.places = byte;
            third.filler[0] = byte;
            fourth.filler[1] = byte;
            drafts.extend([kind, places, third, fourth]);
        }
    }
    drafts
}

/// Each length, of right records that are cut or filled up. One of them is nothing
/// but zeros.
fn every_length() -> Vec<Draft> {
    let mut drafts = Vec::new();
    for length in 0..=MOST_BYTES {
        for mut draft in [
            Draft::of_display(0, 0),
            Draft::of_display(-1_309, 3),
            Draft::of_mark(1, 4),
        ] {
            draft.length = length;
            drafts.push(draft);
        }
    }
    drafts
}

/// Each fault with each other, and all at once, one byte short and one too long.
fn faults_together() -> Vec<Draft> {
    let mut drafts = Vec::new();
    for right in [Draft::of_display(7, 4), Draft::of_mark(2, 0)] {
        for length in [RECORD_LENGTH - 1, RECORD_LENGTH + 1] {
            let mut all = right.clone();
            for first in FAULTS {
                plain_fault(&mut all, first, length);
                for second in FAULTS {
                    let mut two = right.clone();
                    plain_fault(&mut two, first, length);
                    plain_fault(&mut two, second, length);
                    drafts.push(two);
                }
            }
            drafts.push(all);
        }
    }
    drafts
}

fn plain_fault(draft: &mut Draft, fault: Fault, length: usize) {
    match fault {
        Fault::Length => draft.length = length,
        Fault::Kind => draft.kind = 4,
        Fault::Filler => draft.filler = [1, 0],
        Fault::Places => draft.places = MOST_PLACES + 1,
        Fault::Bits => draft.bits = 0x7F80_0000,
    }
}

#[cfg(test)]
mod tests {
    use super::*;
    use crate::historian::{Historian, Outcome};
    use crate::record::Refusal;

    #[test]
    fn each_fault_is_refused_as_the_first_that_is_judged() {
        let historian = Historian::new();
        let refusals = [
            Refusal::Length,
            Refusal::Kind,
            Refusal::FillerOrPlaces,
            Refusal::FillerOrPlaces,
            Refusal::Bits,
        ];
        for right in [Draft::of_display(7, 4), Draft::of_mark(2, 0)] {
            for (first, refusal) in FAULTS.into_iter().zip(refusals) {
                for behind in FAULTS.iter().skip_while(|fault| **fault != first) {
                    let mut draft = right.clone();
                    plain_fault(&mut draft, first, 9);
                    plain_fault(&mut draft, *behind, 9);
                    let outcome = historian.line(&draft.line(), &mut Vec::new());
                    assert_eq!(outcome, Outcome::Refused(refusal), "{draft:?}");
                }
            }
        }
    }

    #[test]
    fn every_line_is_of_the_format() {
        let historian = Historian::new();
        for line in certain_reads() {
            let outcome = historian.line(&line, &mut Vec::new());
            assert_ne!(outcome, Outcome::NotUnderstood, "{line:?}");
        }
    }
}
