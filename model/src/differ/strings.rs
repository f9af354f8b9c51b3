//! Strings: good ones of every form, near misses, long ones, strings for other
//! nodes, and noise.

use super::limits;
use super::samples;
use super::script::Script;

/// Bytes that matter to the receiver or to the form, for near misses.
const TELLING_BYTES: &[u8] =
    b"NTVRPABCDEFGHIJKO0123456789-.+ ,*$\r\nntvrpaej\x00\x1b\x7f\x80\xaa\xa4\x8d\xd4\xff";

/// A good string for this meter.
pub fn good_string(script: &mut Script) {
    let body = good_body(script);
    own_string(script, &body);
}

/// Feeds the body with this meter's address before and an end behind.
pub fn own_string(script: &mut Script, body: &[u8]) {
    let mut string = own_address(script);
    string.extend_from_slice(body);
    string.push(end_byte(script));
    script.bytes(&string);
}

/// This meter's address in one of its good forms.
pub fn own_address(script: &mut Script) -> Vec<u8> {
    let node = script.settings.node.clamp(0, 99);
    let form = script.random.below(3);
    match (node, form) {
        (0, 0) => b"N0".to_vec(),
        (0, 1) => Vec::new(),
        (1..=9, 0) => format!("N{node}").into_bytes(),
        _ => format!("N{node:02}").into_bytes(),
    }
}

fn end_byte(script: &mut Script) -> u8 {
    script.random.pick(b"**$")
}

/// Command, register and data of a good string.
fn good_body(script: &mut Script) -> Vec<u8> {
    match script.random.below(20) {
        0..=4 => vec![b'T', script.random.pick(b"ABCDEFGHIJ")],
        5..=7 => vec![b'R', script.random.pick(b"BCDEFGH")],
        8 | 9 => b"P".to_vec(),
        10..=13 => setpoint_body(script),
        14 | 15 => analog_body(script),
        _ => status_body(script),
    }
}

/// VE to VH.
fn setpoint_body(script: &mut Script) -> Vec<u8> {
    let alarm = script.random.below(4);
    let present = i64::from(script.setpoints[alarm]);
    let value = match script.random.below(8) {
        0 | 1 => present,
        2 => present + script.random.between(-2, 2),
        3 => limits::setpoint_at_a_limit(&mut script.random),
        4 => script.random.between(-99_999, 99_999),
        _ => present + script.random.between(-20, 20),
    };
    body_with_setpoint(script, alarm, value.clamp(-99_999, 99_999))
}

/// A setpoint's value in a string for this meter.
pub fn write_setpoint(script: &mut Script, alarm: usize, value: i64) {
    let body = body_with_setpoint(script, alarm, value);
    own_string(script, &body);
}

/// What the value sets is remembered, so that samples can aim at it.
fn body_with_setpoint(script: &mut Script, alarm: usize, value: i64) -> Vec<u8> {
    let set = value.clamp(limits::LOWEST_SETPOINT, limits::HIGHEST_SETPOINT);
    script.setpoints[alarm] = set as i32;
    let mut body = vec![b'V', b"EFGH"[alarm]];
    body.extend(number_form(script, value));
    body
}

fn analog_body(script: &mut Script) -> Vec<u8> {
    let value = match script.random.below(3) {
        0 => limits::code_at_a_limit(&mut script.random),
        1 => script.random.between(-10, 5_000),
        _ => script.random.between(0, 4_095),
    };
    body_with_code(script, value)
}

/// A code for the analog register in a string for this meter.
pub fn write_code(script: &mut Script, code: i64) {
    let body = body_with_code(script, code);
    own_string(script, &body);
}

fn body_with_code(script: &mut Script, code: i64) -> Vec<u8> {
    let mut body = b"VI".to_vec();
    body.extend(number_form(script, code));
    body
}

/// VJ with a byte that selects manual, automatic, or anything.
fn status_body(script: &mut Script) -> Vec<u8> {
    let byte = match script.random.below(5) {
        0 | 1 => script.random.between(0x30, 0x3F),
        2 => script.random.between(0x40, 0x4F),
        3 => script
            .random
            .pick(&[0x2E, 0x40, 0x35, 0x00, 0x4E, 0x20, 0x2D, 0x7F]),
        _ => script.random.between(0, 127),
    };
    vec![b'V', b'J', byte as u8]
}

/// The number in one of the forms that mean the same: zeros in front, digits
/// in front that do not count, points anywhere behind the minus.
fn number_form(script: &mut Script, value: i64) -> Vec<u8> {
    let random = &mut script.random;
    let mut digits = match random.below(8) {
        0 => format!("{:05}", value.abs()),
        1 => format!("{:09}", value.abs()),
        2 => format!("{}{:05}", random.between(1, 9), value.abs()),
        3 => format!("{}{:05}", random.between(1, 99_999), value.abs()),
        _ => format!("{}", value.abs()),
    }
    .into_bytes();
    for _ in 0..random.pick(&[0, 0, 0, 1, 1, 2]) {
        let at = random.below(digits.len() + 1);
        digits.insert(at, b'.');
    }
    if value < 0 || (value == 0 && random.one_in(3)) {
        digits.insert(0, b'-');
    }
    digits
}

/// A string that is nearly good: one or two changes to a good one.
pub fn near_miss(script: &mut Script) {
    let mut string = own_address(script);
    string.extend(good_body(script));
    string.push(end_byte(script));
    for _ in 0..script.random.pick(&[1, 1, 1, 2]) {
        change(script, &mut string);
    }
    script.bytes(&string);
}

fn change(script: &mut Script, string: &mut Vec<u8>) {
    let random = &mut script.random;
    let at = random.below(string.len());
    match random.below(9) {
        0 => {
            string.remove(at);
            string.push(b'*');
        }
        1 => string.insert(at, string[at]),
        2 | 3 => string.insert(at, random.pick(TELLING_BYTES)),
        4 | 5 => string[at] = random.pick(TELLING_BYTES),
        6 => string[at] = string[at].to_ascii_lowercase(),
        7 => string[at] ^= 1 << random.below(8),
        _ => {
            let other = random.below(string.len());
            string.swap(at, other);
        }
    }
}

/// Every command with every byte behind it that could pass for a register,
/// and with data that may or may not be any.
pub fn strange_body(script: &mut Script) {
    if script.random.one_in(4) {
        strange_number(script);
        return;
    }
    let mut body = command_and_register(script);
    match script.random.below(4) {
        0 | 1 => {}
        2 => body.extend_from_slice(strange_data(script)),
        _ => {
            for _ in 0..script.random.between(1, 2) {
                body.push(script.random.between(0, 255) as u8);
            }
        }
    }
    own_string(script, &body);
}

fn command_and_register(script: &mut Script) -> Vec<u8> {
    let command = if script.random.one_in(5) {
        script.random.pick(b"Ntvrp0X ")
    } else {
        script.random.pick(b"TVVRP")
    };
    let mut body = vec![command];
    if !script.random.one_in(8) {
        body.push(script.random.pick(b"ABCDEFGHIJJJKZaej0 @"));
    }
    body
}

/// A register that takes a number, with data that may or may not be one.
fn strange_number(script: &mut Script) {
    let mut body = vec![b'V', script.random.pick(b"EFGHI")];
    body.extend_from_slice(strange_data(script));
    own_string(script, &body);
}

/// Data as a careless host may write it.
fn strange_data(script: &mut Script) -> &'static [u8] {
    script.random.pick(&[
        b"-", b".", b"-.", b"--1", b"1-", b".-5", b"+1", b" 1", b"1 ", b"-0", b"-100000", b"..7",
        b"-.5", b"1.2.3", b"1a", b"12", b"5\x80", b"\xff", b"\x80", b"1,5", b"0x1", b"-20000-",
        b"-20000 ", b"4096-", b"--20000",
    ])
}

/// N with 0 to 3 digits, two Ns, a space or a lower-case n before it.
pub fn strange_address(script: &mut Script) {
    let node = script.settings.node.clamp(0, 99);
    let digit = script.random.below(10);
    let address = match script.random.below(11) {
        0 => "N".to_string(),
        1 => format!("N{digit}"),
        2 => format!("N{node}{digit}"),
        3 => format!("N{node:02}{digit}"),
        4 => format!("N0{node:02}"),
        5 => format!("NN{node}"),
        6 => format!("n{node}"),
        7 => format!(" N{node}"),
        8 => format!("N{node} "),
        9 => format!("N-{node}"),
        _ => String::new(),
    };
    let mut string = address.into_bytes();
    if !script.random.one_in(6) {
        string.extend(good_body_unaimed(script));
    }
    string.push(end_byte(script));
    script.bytes(&string);
}

/// A good body whose setpoint, if any, is not remembered.
fn good_body_unaimed(script: &mut Script) -> Vec<u8> {
    let remembered = script.setpoints;
    let body = good_body(script);
    script.setpoints = remembered;
    body
}

/// A string for another node, good or not.
pub fn for_another_node(script: &mut Script) {
    let own = script.settings.node;
    let mut node = script.random.setting(0, 99);
    if script.random.one_in(3) {
        node = script.random.pick(&[0, 5, 17, 99]);
    }
    if node == own {
        node = (own + 1) % 100;
    }
    let mut string = format!("N{node}").into_bytes();
    string.extend(good_body_unaimed(script));
    if script.random.one_in(5) {
        string.push(script.random.pick(TELLING_BYTES));
    }
    string.push(end_byte(script));
    script.bytes(&string);
}

/// A string whose length before its end lies around 32.
pub fn long_string(script: &mut Script) {
    let length = match script.random.below(6) {
        0 => script.random.between(28, 36),
        1 => script.random.between(36, 70),
        _ => script.random.between(31, 34),
    } as usize;
    let mut string = if script.random.one_in(6) {
        b"N".to_vec()
    } else {
        own_address(script)
    };
    let start: &[u8] = script.random.pick(&[
        b"VE", b"VF", b"VG-", b"VH0", b"VI", b"VE.", b"VJ", b"TA", b"P",
    ]);
    string.extend_from_slice(start);
    while string.len() < length {
        let filler = script.random.pick(b"0000123456789.");
        string.push(filler);
    }
    string.truncate(length);
    match script.random.below(8) {
        0 => string.extend_from_slice(b"\r"),
        1 => string.extend_from_slice(b"\n"),
        2 => {}
        3 => string.extend_from_slice(b"**"),
        _ => string.push(end_byte(script)),
    }
    script.bytes(&string);
}

/// What else is heard on a bus: another meter's reply, line ends, ends of
/// strings, and bytes of no meaning.
pub fn noise(script: &mut Script) {
    let random = &mut script.random;
    let sound: &[u8] = random.pick(&[
        b"17 INP        87.4\r\n",
        b"05 TOT   *  1234.5\r\n",
        b"        87.4\r",
        b"05 SP1",
        b"\r\n",
        b"\r",
        b"\n",
        b"*",
        b"$",
        b"**$",
        b" \r\n",
        b"N17",
        b"N5T\rA*",
        b"V\nE5*",
        b"TA\r*",
        b"VJ\n*",
        b"VJ**",
        b"VJ$*",
    ]);
    script.bytes(sound);
    if script.random.one_in(4) {
        for _ in 0..script.random.between(1, 6) {
            let byte = script.random.between(0, 255) as u8;
            script.byte(byte);
        }
    }
}

/// A good string with samples, keys, CR or LF in the middle of it.
pub fn interrupted_string(script: &mut Script) {
    let mut string = own_address(script);
    string.extend(good_body(script));
    string.push(end_byte(script));
    let at = script.random.below(string.len());
    script.bytes(&string[..at]);
    match script.random.below(5) {
        0 => script.byte(b'\r'),
        1 => script.byte(b'\n'),
        2 => script.key(6),
        3 => any_key(script),
        _ => {
            let input = samples::any_input(script);
            script.sample(input);
        }
    }
    script.bytes(&string[at..]);
}

/// What may come between two samples of a run and must, for the most part,
/// leave it alone.
pub fn poll_between(script: &mut Script) {
    let alarm = script.random.below(4);
    let letter = b"EFGH"[alarm];
    match script.random.below(8) {
        0 => own_string(script, b"TA"),
        1 => own_string(script, &[b'T', letter]),
        2 => own_string(script, b"P"),
        3 | 4 => rewrite_setpoint(script, alarm),
        5 => for_another_node(script),
        6 => own_string(script, &[b'R', letter]),
        _ => good_string(script),
    }
}

/// Writes a setpoint's present value, as each poll of a careful host does. At the
/// lowest limit a number past it does the same.
fn rewrite_setpoint(script: &mut Script, alarm: usize) {
    let present = i64::from(script.setpoints[alarm]);
    let value = if present == limits::LOWEST_SETPOINT && script.random.one_in(2) {
        limits::setpoint_past_the_lowest(&mut script.random)
    } else {
        present
    };
    write_setpoint(script, alarm, value);
}

/// Keys known and unknown.
pub fn any_key(script: &mut Script) {
    let key = match script.random.below(8) {
        0 => script
            .random
            .pick(&[0, 7, -1, 8, 257, 65_537, i32::MIN, i32::MAX]),
        1 | 2 => 1,
        3 => 6,
        _ => script.random.setting(1, 6),
    };
    script.key(key);
}
