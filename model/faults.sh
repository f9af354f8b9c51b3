#!/bin/sh
# Puts one fault after the other into a copy of the model, and shows after how
# many events the differential test finds it. A fault that is not found, or a
# row of the table that changes nothing, makes the script end with 1.
#
# A row of the table has a name, a file and a sed command. The file `kept` is
# meter.rs as well, of a model that keeps the status number: `keep_status` is put
# into it before the fault. The file `held` is faults/held.rs, of a model that
# holds segments: `keep_segments` puts it to use. The command `none` puts no fault
# in. What it leaves is right, and ends the script with 1 if it is found.
#
# The rows of `held` go to `rescaled` as well. It starts a program anew for each
# configuration, so that it cannot see what a later power-up leaves as it was.
#
# A row with ` + sentences` behind its file has a fault that breaks what an extract
# may say (document 02, ticket 9). It goes to `sentences` as well, which must find
# it too.
#
# A row with ` + ohms` behind its file has a fault of a platinum meter's readings
# (document 02, ticket 3). It goes to `ohms` as well, which must find it too. The
# file `rescale` is that of the program which `rescaled` and `ohms` feed, and no
# history goes through it. Its rows go to these two, and both must find them.
#
# The files `binary32`, `record` and `historian` are those of readings for the
# historian (document 02, ticket 12), which no history has. Their rows go to
# `historied` instead.
#
#   ./faults.sh              every row of the table
#   ./faults.sh NAME ..      only these, each with its shortened history, or with
#                            the line that `historied` or `ohms` found to differ
#
# SEED and EVENTS can be set in the environment.
set -eu
cd "$(dirname "$0")"

seed=${SEED:-1}
events=${EVENTS:-3000000}
copy=target/faults

# Makes the model keep the status number, as the core does since document 02: 0 at
# first, and stored anew by a sample, by VJ, by RE to RH and by key 5. The model
# itself gathers it at each read, and has no place for the faults of keeping it.
keep_status='
s/^    pub receiver: Receiver,/&\n    kept: i128,/
s/^            receiver: Receiver::empty(),/&\n            kept: 0,/
/fn sample/,/^    }/ s/Answer::CarriedOut/self.store_status();\n        &/
/fn reset_all_alarms/,/^    }/ s/Answer::CarriedOut/self.store_status();\n        &/
/fn write_control_status/,/^    }/ s/return;/self.store_status();\n            &/
/fn write_control_status/,/^    }/ s/self.work_out_code();/&\n        self.store_status();/
s/\(Command::ResetAlarm(alarm) =>\) \(.*\),/\1 {\n                \2;\n                self.store_status();\n            }/
s/number_data(self.control_status(), 0)/number_data(self.kept, 0)/
/What the status register reads/ i\
    fn store_status(&mut self) {\
        self.kept = self.control_status();\
    }\
\
    fn alarms_on(&self) -> i128 {\
        number_of_bits([0, 1, 2, 3].map(|index| self.alarms[index].is_on()))\
    }\

'

# Makes the model hold segments and read by them, as the core does since document
# 02: its meter makes them at power-up, `rescale` with the configuration in hand.
keep_segments='
s/^pub mod fraction;/&\npub mod held;/
s/^use crate::reading::{reading_of, Reading};/use crate::held::{held_of, Held};\nuse crate::reading::Reading;/
s/^    pub configuration: Configuration,/&\n    held: Held,/
s/^            configuration,/            held: held_of(\&configuration),\n&/
s/reading_of(&self.configuration, input)/self.held.reading_of(input)/
s/reading_of(configuration, input)/crate::held::held_of(configuration).reading_of(input)/
'

# name | file | sed command
table() {
    cat <<'TABLE'
alarm-run-survives-another-sample | alarms + sentences | /pub fn take_sample/,/return/ s/self.run = 0;//
alarm-run-left-after-change | alarms + sentences | /fn change_state/,/state =/ s/self.run = 0;//
alarm-on-at-equal | alarms + sentences | s/value > number/value >= number/
alarm-low-on-at-equal | alarms + sentences | s/value < number/value <= number/
alarm-off-one-early | alarms + sentences | s/value <= number/value < number/
alarm-low-off-one-early | alarms + sentences | s/value >= number/value > number/
alarm-latch-forgotten | alarms + sentences | s/!settings.latched && //
alarm-off-delay-for-on | alarms + sentences | s/AlarmState::Off => settings.on_delay/AlarmState::Off => settings.off_delay/
alarm-reset-leaves-run | alarms + sentences | /pub fn reset/,/^    }/ s/self.run = 0;//
alarm-reset-only-when-on | alarms + sentences | /pub fn reset/,/^    }/ s/self.run = 0;/if was { self.run = 0; }/; /pub fn reset/,/^    }/ s/self.state = AlarmState::Off;/let was = self.is_on(); self.state = AlarmState::Off;/
setpoint-unchanged-clears-run | alarms + sentences | s/if value != self.setpoint/if true/
setpoint-new-keeps-run | alarms + sentences | /pub fn write_setpoint/,/^    }/ s/self.run = 0;//
setpoint-new-resets-state | alarms + sentences | /pub fn write_setpoint/,/^    }/ s/self.run = 0;/self.reset();/
lowest-setpoint-keeps-run | alarms + sentences | /pub fn write_setpoint/,/^    }/ s/self.run = 0;/if value != -19_999 { self.run = 0; }/
over-not-above | alarms + sentences | /^fn is_above/,/^}/ s/Reading::Over => true/Reading::Over => false/
under-not-below | alarms + sentences | /^fn is_at_or_below/,/^}/ s/Reading::Under => true/Reading::Under => false/
halves-towards-zero | fraction | s/2 \* left_over >= self.denominator/2 * left_over > self.denominator/
halves-up | fraction | s/if 2 \* left_over >= self.denominator/if 2 * left_over > self.denominator || (2 * left_over == self.denominator \&\& self.numerator > 0)/
cut-is-floor | fraction + sentences | s/self.numerator \/ self.denominator/self.numerator.div_euclid(self.denominator)/
rounded-once | reading | s/let whole = height_over.*/if configuration.source == Source::Points { let (left, right) = segment_for(scale.points, input); let step = i128::from(configuration.rounding); let width = i128::from(right.input - left.input); let rise = i128::from(right.display - left.display); let once = Fraction::new(i128::from(left.display) * width + i128::from(input - left.input) * rise, width * step); return within_display(once.nearest_half_away_from_zero() * step); } &/
segment-left-one-late | reading | s/ends\[1\].input >= input/ends[1].input + 1 >= input/
first-segment-behind-the-last | reading | s/(points\[points.len() - 2\], points\[points.len() - 1\])/(points[0], points[1])/
input-limit-one-wide | reading | s/highest_input: LARGEST_INPUT/& + 1/
input-limit-one-narrow | reading | s/lowest_input: -LARGEST_INPUT/& + 1/
low-end-of-display | reading | s/result < i128::from(LOWEST_DISPLAY)/result <= i128::from(LOWEST_DISPLAY)/
low-cut-itself-left-out | total + sentences | s/number >= i128::from/number > i128::from/
low-cut-in-batch | total + sentences | /pub fn take_batch/,/^    }/ s/if let Reading::Number(number) = reading {/if let Reading::Number(number) = reading { if number < i128::from(configuration.low_cut) { return; }/
factor-in-batch | total + sentences | s/number \* sum_of_one(configuration)/number * sum_of_one(configuration) * i128::from(configuration.scale_factor) \/ 1000/
batch-adds-by-time-too | total + sentences | s/if configuration.batch {/if false {/
total-over-one-late | total + sentences | s/999_999_999;/1_000_000_000;/
total-under-one-late | total + sentences | s/-199_999_999;/-200_000_000;/
total-over-thaws | total | s/if self.bounds != Bounds::Within/if false/
total-sum-passes-the-edge | total | s/self.bounds = Bounds::Over;/self.bounds = Bounds::Over; self.sum = new_sum;/
capture-one-late | extremes | s/run.readings >= samples_needed/run.readings > samples_needed/
capture-run-survives-over | extremes | s/_ => self.run = None,/(Reading::Over, _) => {} _ => self.run = None,/
first-number-starts-a-run | extremes | s/(Reading::Number(number), None) => self.hold(number)/(Reading::Number(number), None) => { self.hold(number); self.run = Some(Run { readings: 1, remembered: number }); }/
equal-counts-as-beyond | extremes | s/number > held/number >= held/
reset-max-keeps-run | extremes | /pub fn reset/,/^    }/ s/self.run = None;//
reset-max-keeps-number-at-over | extremes | s/Reading::Nothing | Reading::Over | Reading::Under => None/_ => self.held/
capture-takes-the-last-reading | extremes | s/self.hold(run.remembered)/self.hold(number)/
capture-forgets-the-last-reading | extremes | s/self.hold(run.remembered)/self.hold(self.run.map_or(number, |before| before.remembered))/
max-takes-the-greatest | extremes | s/Side::Max => so_far.min(number)/Side::Max => so_far.max(number)/
min-takes-the-least | extremes | s/Side::Min => so_far.max(number)/Side::Min => so_far.min(number)/
run-remembers-its-first-reading | extremes | s/self.to_remember(run.remembered, number)/run.remembered/
run-number-survives-a-break | extremes | s/_ => self.run = None,/_ => self.run = self.run.map(|run| Run { readings: 0, ..run }),/; /pub fn run(/,/^    }/ s/self.run$/self.run.filter(|run| run.readings > 0)/
run-number-survives-a-reset | extremes | /pub fn reset/,/^    }/ s/self.run = None;/self.run = self.run.map(|run| Run { readings: 0, ..run });/; /pub fn run(/,/^    }/ s/self.run$/self.run.filter(|run| run.readings > 0)/
run-number-survives-a-capture | extremes | /fn hold/,/^    }/ s/self.run = None;/self.run = self.run.map(|run| Run { readings: 0, ..run });/; /pub fn run(/,/^    }/ s/self.run$/self.run.filter(|run| run.readings > 0)/
run-printed-with-its-last-reading | lines | s/ShownRun(running.\(m..\).run())/ShownRun(running.\1.run().map(|run| Run { remembered: match running.reading { Reading::Number(number) => number, _ => run.remembered }, ..run }))/
reset-of-min-ends-the-run-of-max | meter | s/Command::ResetMin => self.min.reset(self.reading),/Command::ResetMin => { self.min.reset(self.reading); self.max.reset(self.max.shown()) }/
delay-not-doubled | config + sentences | s/2 \* i128::from(tenths)/i128::from(tenths)/
delay-cut-short-at-the-end | config + sentences | s/std::cmp::max(1, 2 \* i128::from(tenths))/std::cmp::max(1, 2 * i128::from(tenths)).min(65_499)/
node-100-taken | config | s/lies_in(self.node, 0, 99)/lies_in(self.node, 0, 100)/
five-places-taken | config | s/lies_in(self.total_places, 0, 4)/lies_in(self.total_places, 0, 5)/
step-25-taken | config | s/\[1, 2, 5, 10, 20, 50, 100\]/[1, 2, 5, 10, 20, 25, 50, 100]/
points-not-strictly-rising | config | s/neighbours\[0\].input < neighbours/neighbours[0].input <= neighbours/
unused-points-judged | config | s/let each_in_range = points.iter()/let each_in_range = self.points.iter()/
hysteresis-0-taken | config | s/lies_in(alarm.hysteresis, 1, 9_999)/lies_in(alarm.hysteresis, 0, 9_999)/
delay-32751-taken | config | s/lies_in(tenths, 0, 32_750)/lies_in(tenths, 0, 32_751)/
factor-65001-taken | config | s/lies_in(self.scale_factor, 1, 65_000)/lies_in(self.scale_factor, 1, 65_001)/
equal-analog-ends-taken | config | s/\&\& self.analog_low != self.analog_high//
low-cut-judged-after-alarms | config | /(Rule::LowCut, /d; s/(Rule::CaptureTime, is_delay/(Rule::LowCut, is_display(self.low_cut)), (Rule::CaptureTime, is_delay/
analog-nearest | analog | s/high - low).floor()/high - low).nearest_half_away_from_zero()/
analog-over-by-direction | analog | s/Reading::Over => HIGHEST_CODE/Reading::Over => if configuration.analog_high < configuration.analog_low { 0 } else { HIGHEST_CODE }/
analog-not-held | analog | s/code.clamp(0, HIGHEST_CODE)/code.clamp(0, HIGHEST_CODE + 1)/
33-for-32 | receiver | s/LONGEST_STRING: usize = 32/LONGEST_STRING: usize = 33/
31-for-32 | receiver | s/LONGEST_STRING: usize = 32/LONGEST_STRING: usize = 31/
line-feed-stored | receiver | s/CARRIAGE_RETURN | LINE_FEED =>/CARRIAGE_RETURN =>/
star-is-2e | receiver | s/b'\*' | b'\$'/b'.' | b'*' | b'$'/
too-long-forgotten-tail | receiver | s/\*self = Receiver::TooLong;/*self = Receiver::Gathering(vec![byte]);/
three-digits-of-address | command | s/\.take(2)/.take(3)/
no-digit-is-another-node | command | /if digits == 0/,/}/ s/Refusal::BadForm/Refusal::OtherNode/
form-before-address | command | s/if node != own_node {/if node != own_node \&\& matches!(body.first(), Some(b'T' | b'V' | b'R' | b'P')) {/
six-digits-count | command | s/saturating_sub(5)/saturating_sub(6)/
points-not-ignored | command | s/byte.is_ascii_digit() || \*byte == b'.'/byte.is_ascii_digit()/
minus-alone-is-0 | command | s/if digits.is_empty()/if digits.is_empty() \&\& !negative/
minus-forgotten | command | s/if negative { -size }/if negative { size }/
status-byte-of-8-bits | command | s/if \*byte <= 127 //
held-before-the-cut | command | s/last_five(&digits)/digits/
held-before-the-cut-below-0 | command | s/last_five(&digits)/(if negative { \&digits } else { last_five(\&digits) })/
code-held-before-the-cut | command | s/last_five(&digits)/(if limits == CODE_LIMITS { \&digits } else { last_five(\&digits) })/
low-number-held-to-the-highest | command | s/HeldTo(limits.lowest)/HeldTo(limits.highest)/
high-number-held-to-the-lowest | command | s/HeldTo(limits.highest)/HeldTo(limits.lowest)/
setpoint-held-to-minus-20000 | command | s/lowest: LOWEST_DISPLAY as i128/lowest: LOWEST_DISPLAY as i128 - 1/
setpoint-minus-20000-written | command | s/if number < limits.lowest {/if number < limits.lowest - i128::from(limits == SETPOINT_LIMITS) {/
setpoint-99999-held-to-99998 | command | s/highest: HIGHEST_DISPLAY as i128/highest: HIGHEST_DISPLAY as i128 - 1/
code-held-to-4096 | command | s/highest: HIGHEST_CODE/highest: HIGHEST_CODE + 1/
code-4096-written | command | s/number > limits.highest/number > limits.highest + 1/
code-held-to-minus-1 | command | s/lowest: 0,/lowest: -1,/
code-with-limits-of-setpoints | command | s/number_to_write(data, CODE_LIMITS)/number_to_write(data, SETPOINT_LIMITS)/
past-a-limit-is-bad-form | command | s/WrittenNumber::Itself(number) | WrittenNumber::HeldTo(number) => Ok(number)/WrittenNumber::Itself(number) => Ok(number), WrittenNumber::HeldTo(_) => Err(Refusal::BadForm)/
lower-case-command | command | s/Some((b'T', rest))/Some((b'T' | b't', rest))/
reset-of-input-taken | command | s/b"B" => Ok(Command::ResetTotal)/b"A" | b"B" => Ok(Command::ResetTotal)/
print-with-register | command | s/if rest.is_empty()/if rest.len() < 2/
node-0-in-digits | reply | s/if node == 0/if node == 100/
node-without-leading-zero | reply | s/{node:02}/{node:>2}/
no-digit-before-point | reply | s/width = places + 1/width = places.max(1)/
block-end-with-nothing-chosen | reply | s/if !chosen_lines.is_empty()/if true/
total-with-input-places | meter | s/reply::total_data(self.total(), total_places)/reply::total_data(self.total(), places)/
block-in-menu-order | meter | /(settings.print_total, Register::Total),/d; s/(settings.print_setpoints, Register::Setpoint(0))/(settings.print_total, Register::Total), (settings.print_setpoints, Register::Setpoint(0))/
max-never-taken | meter | s/self.max.take_sample(self.reading, capture);//
analog-follows-in-manual | meter | s/if self.mode == Mode::Automatic {/if true {/
code-late-on-return | meter | /fn write_control_status/,/^    }/ s/self.work_out_code();//
held-code-written-in-automatic | meter | s/match understand(string, self.configuration.node) {/use crate::command::*; let data = string.rsplit(u8::is_ascii_uppercase).next().unwrap(); match understand(string, self.configuration.node) { Ok(Command::WriteAnalogOutput(code)) if matches!(written_number(data, CODE_LIMITS), WrittenNumber::HeldTo(_)) => { self.analog_code = code; Answer::CarriedOut }/
held-code-written-behind-an-8 | meter | s/match understand(string, self.configuration.node) {/use crate::command::*; let data = string.rsplit(u8::is_ascii_uppercase).next().unwrap(); match understand(string, self.configuration.node) { Ok(Command::WriteAnalogOutput(code)) if matches!(written_number(data, CODE_LIMITS), WrittenNumber::HeldTo(_)) => { let answer = self.write_analog_output(code); self.analog_code = code; answer }/
held-code-bad-form-in-automatic | meter | s/match understand(string, self.configuration.node) {/use crate::command::*; let data = string.rsplit(u8::is_ascii_uppercase).next().unwrap(); match understand(string, self.configuration.node) { Ok(Command::WriteAnalogOutput(_)) if matches!(written_number(data, CODE_LIMITS), WrittenNumber::HeldTo(_)) \&\& self.mode == Mode::Automatic => Answer::BadForm,/
held-code-not-written | meter | s/match understand(string, self.configuration.node) {/use crate::command::*; let data = string.rsplit(u8::is_ascii_uppercase).next().unwrap(); match understand(string, self.configuration.node) { Ok(Command::WriteAnalogOutput(_)) if matches!(written_number(data, CODE_LIMITS), WrittenNumber::HeldTo(_)) \&\& self.mode != Mode::Automatic => Answer::CarriedOut,/
held-setpoint-not-written | meter | s/match understand(string, self.configuration.node) {/use crate::command::*; let data = string.rsplit(u8::is_ascii_uppercase).next().unwrap(); match understand(string, self.configuration.node) { Ok(Command::WriteSetpoint(_, _)) if matches!(written_number(data, SETPOINT_LIMITS), WrittenNumber::HeldTo(_)) => Answer::CarriedOut,/
held-setpoint-clears-run | meter + sentences | s/match understand(string, self.configuration.node) {/use crate::command::*; let data = string.rsplit(u8::is_ascii_uppercase).next().unwrap(); match understand(string, self.configuration.node) { Ok(Command::WriteSetpoint(alarm, value)) if matches!(written_number(data, SETPOINT_LIMITS), WrittenNumber::HeldTo(_)) => { self.alarms[alarm].write_setpoint(value + 1); self.alarms[alarm].write_setpoint(value); Answer::CarriedOut }/
held-setpoint-resets-state | meter + sentences | s/match understand(string, self.configuration.node) {/use crate::command::*; let data = string.rsplit(u8::is_ascii_uppercase).next().unwrap(); match understand(string, self.configuration.node) { Ok(Command::WriteSetpoint(alarm, value)) if matches!(written_number(data, SETPOINT_LIMITS), WrittenNumber::HeldTo(_)) \&\& value != self.alarms[alarm].setpoint() => { self.alarms[alarm].write_setpoint(value); self.alarms[alarm].reset(); Answer::CarriedOut }/
status-resets-bits-of-1 | meter + sentences | s/if !bit {/if bit {/
status-reset-in-manual-too | meter + sentences | s/self.mode = Mode::Manual { outputs: bits };/self.mode = Mode::Manual { outputs: bits }; for (alarm, bit) in self.alarms.iter_mut().zip(bits) { if !bit { alarm.reset(); } }/
status-shows-hidden-alarms | meter | s/Mode::Manual { outputs } => 16 + number_of_bits(outputs)/Mode::Manual { .. } => 16 + number_of_bits([0, 1, 2, 3].map(|index| self.alarms[index].is_on()))/
place-at-end-has-no-room | meter | s/if end_of_reply > end_of_buffer/if end_of_reply > end_of_buffer || u128::from(place) == end_of_buffer/
place-past-end-takes-0-bytes | meter | s/if end_of_reply > end_of_buffer {/if reply.is_empty() { return Answer::ReplyWritten(0); } if end_of_reply > end_of_buffer {/
place-wraps | meter | s/u128::from(place) + reply.len() as u128/u128::from(place.wrapping_add(reply.len() as u64))/; s/let start = place as usize;/let start = (place as usize).min(150);/
key-6-empties-receiver | meter + sentences | s/6 => self.carry_out(Command::BlockPrint, place, buffer)/6 => { self.receiver = Receiver::empty(); self.carry_out(Command::BlockPrint, place, buffer) }/
sample-empties-receiver | meter | /fn sample/,/^    }/ s/Answer::CarriedOut/self.receiver = Receiver::empty(); Answer::CarriedOut/
key-number-of-8-bits | meter | s/match number {/match i32::from(number as u8) {/
transmit-clears-runs | meter + sentences | s/Command::Transmit(register) => write_reply/Command::Transmit(register) => { for alarm in \&mut self.alarms { alarm.write_setpoint(alarm.setpoint() + 1); alarm.write_setpoint(alarm.setpoint() - 1); } write_reply/; s/write_reply(\&self.line_of(register), place, buffer),/write_reply(\&self.line_of(register), place, buffer) }/
other-node-clears-runs | meter | s/Err(Refusal::OtherNode) => Answer::OtherNode/Err(Refusal::OtherNode) => { self.max.reset(self.max.shown()); Answer::OtherNode }/
refused-keeps-old-meter | meter | s/\*self = Meter::NotStarted;//
delay-one-sample-short | alarms + sentences | s/samples_needed(self.delay(settings))/samples_needed(self.delay(settings)) - 1/
delay-one-sample-long | alarms + sentences | s/self.run >= samples_needed/self.run > samples_needed/
change-counts-for-the-next-delay | alarms + sentences | /fn change_state/,/state =/ s/self.run = 0;/self.run = 1;/
latched-cleared-by-a-low-reading | alarms + sentences | s/!settings.latched \&\& self/(!settings.latched || reading == Reading::Under) \&\& self/
total-counts-below-the-low-cut | total + sentences | s/number >= i128::from(configuration.low_cut)/true/
total-comes-back-from-over | total + sentences | s/if self.bounds != Bounds::Within/if false/; s/self.sum = new_sum;/& self.bounds = Bounds::Within;/
total-reset-keeps-the-sum | meter + sentences | s/Command::ResetTotal => \(.*\),/Command::ResetTotal => { let kept = self.totalizer.sum(); \1; self.totalizer.take_sample(\&Configuration { batch: false, low_cut: i32::MIN, scale_factor: 1, ..self.configuration.clone() }, Reading::Number(kept)); }/
total-reset-keeps-the-remainder | meter + sentences | s/Command::ResetTotal => \(.*\),/Command::ResetTotal => { let kept = self.totalizer.sum() % (20_000 * i128::from(self.configuration.time_base)); \1; self.totalizer.take_sample(\&Configuration { batch: false, low_cut: i32::MIN, scale_factor: 1, ..self.configuration.clone() }, Reading::Number(kept)); }/
batch-key-takes-the-reading-before | meter + sentences | s/^    pub receiver: Receiver,/&\n    before: Reading,/; s/^            receiver: Receiver::empty(),/&\n            before: Reading::Nothing,/; s/self.reading = reading_of/self.before = self.reading; &/; s/take_batch(&self.configuration, self.reading)/take_batch(\&self.configuration, self.before)/
poll-begins-the-off-delay-anew | meter + sentences | /fn carry_out/ s/$/ if matches!(command, Command::Transmit(_) | Command::BlockPrint) { for alarm in self.alarms.iter_mut().filter(|alarm| alarm.is_on()) { let kept = alarm.setpoint(); alarm.write_setpoint(kept + 1); alarm.write_setpoint(kept); } }/
refused-string-begins-delays-anew | meter + sentences | s/Err(Refusal::BadForm) => Answer::BadForm/Err(Refusal::BadForm) => { for alarm in \&mut self.alarms { let kept = alarm.setpoint(); alarm.write_setpoint(kept + 1); alarm.write_setpoint(kept); } Answer::BadForm }/
other-node-begins-delays-anew | meter + sentences | s/Err(Refusal::OtherNode) => Answer::OtherNode/Err(Refusal::OtherNode) => { for alarm in \&mut self.alarms { let kept = alarm.setpoint(); alarm.write_setpoint(kept + 1); alarm.write_setpoint(kept); } Answer::OtherNode }/
kept-status-and-no-fault | kept | none
kept-status-left-by-a-sample | kept | /fn sample/,/^    }/ s/self.store_status();//
kept-status-one-sample-late | kept | /fn sample/,/^    }/ { s/self.store_status();//; s/self.reading = reading_of/self.store_status(); &/ }
kept-status-manual-without-16 | kept | /outputs: bits };/,/return;/ s/self.store_status();/self.kept = self.manual_bits();/
kept-status-left-by-automatic | kept | /self.mode = Mode::Automatic;/,/^    }/ s/self.store_status();//
kept-status-before-the-resets | kept | /self.mode = Mode::Automatic;/,/^    }/ { s/self.store_status();//; s/self.mode = .*/& self.store_status();/ }
kept-status-left-by-key-5 | kept | /fn reset_all_alarms/,/^    }/ s/self.store_status();//
kept-status-key-5-in-manual | kept | /fn reset_all_alarms/,/^    }/ s/self.store_status();/& self.kept \&= 16;/
kept-status-left-by-a-reset | kept | /Command::ResetAlarm(alarm) => {/,/}/ s/self.store_status();//
kept-status-reset-of-another | kept | /Command::ResetAlarm(alarm) => {/,/}/ s/self.store_status();/& if self.mode == Mode::Automatic { self.kept \&= !(1 << ((alarm + 1) % 4)); }/
kept-status-reset-in-manual | kept | /Command::ResetAlarm(alarm) => {/,/}/ s/self.store_status();/& self.kept \&= !(1 << alarm);/
kept-status-alarms-in-manual | kept | /fn sample/,/^    }/ s/self.store_status();/self.kept = (self.kept \& 16) + self.alarms_on();/
kept-status-change-in-manual | kept | /fn sample/,/^    }/ { s/self.reading = reading_of/let before = self.alarms_on(); &/; s/self.store_status();/self.kept ^= before ^ self.alarms_on();/ }
kept-status-of-the-last-read | kept | /fn store_status/,/^    }/ s/self.kept = .*//; s/Command::Transmit(register) => \(.*\),/Command::Transmit(register) => { let answer = \1; if register == Register::ControlStatus { self.kept = self.control_status(); } answer }/
kept-status-lost-by-a-code | kept | s/self.analog_code = code;/& self.kept = 0;/
kept-status-lost-by-a-refused-code | kept | s/return Answer::AnalogInAutomatic;/self.kept = 0; &/
kept-status-lost-by-a-setpoint | kept | /fn change_by/ s/$/ if let Command::WriteSetpoint(alarm, _) = command { self.kept \&= !(1 << alarm); }/
kept-status-lost-by-other-resets | kept | /fn change_by/ s/$/ if matches!(command, Command::ResetTotal | Command::ResetMax | Command::ResetMin) { self.kept = 0; }/
kept-status-lost-by-a-block | kept | /fn carry_out/ s/$/ if command == Command::BlockPrint { self.kept = 0; }/
kept-status-lost-by-another-read | kept | /fn carry_out/ s/$/ if matches!(command, Command::Transmit(register) if register != Register::ControlStatus) { self.kept = 0; }/
kept-status-of-the-meter-before | kept | s/\*self = Meter::Started.*/let mut new = Running::new(configuration); if let Meter::Started(old) = self { new.kept = old.kept; } *self = Meter::Started(Box::new(new));/
held-segments-and-no-fault | held | none
held-start-of-the-segment-before | held | /^        input:/ s/left/left.saturating_sub(1)/; /^        display:/ s/left/left.saturating_sub(1)/
held-input-of-the-right-end | held | /^        input:/ s/left/right/
held-display-of-the-right-end | held | /^        display:/ s/left/right/
held-run-for-rise | held | /^        rise:/ s/display/input/g
held-rise-without-its-sign | held | /^        rise:/ s/rise: \(.*\),/rise: (\1).abs(),/
held-run-of-the-segment-after | held | s/let segment = self.segments\[index\];/let after = (index + 1).min(self.segments.len() - 1); let segment = Segment { run: self.segments[after].run, ..self.segments[index] };/
held-search-stops-one-late | held | s/\.unwrap_or(last)/.map_or(last, |index| (index + 1).min(last))/
held-search-stops-one-early | held | s/\.unwrap_or(last)/.map_or(last, |index| index.saturating_sub(1))/
held-segment-kept-one-input-late | held | s/segment.run >= input/segment.run + 1 >= input/
held-segment-left-one-input-early | held | s/segment.run >= input/segment.run > input + 1/
held-last-segment-never-found | held | s/\.unwrap_or(last)/.unwrap_or(last).min(last.saturating_sub(1))/
held-first-segment-always | held | s/\.unwrap_or(last)/.map_or(0, |_| 0)/
held-one-segment-too-many | held | s/configuration.point_count as usize - 1/(configuration.point_count as usize).min(15)/
held-one-segment-too-few | held | s/configuration.point_count as usize - 1/(configuration.point_count as usize - 2).max(1)/
held-segments-of-the-first-meter | held | s/segments: \((0\.\.in_use).*collect()\)/segments: { static MADE: std::sync::OnceLock<Vec<Segment>> = std::sync::OnceLock::new(); MADE.get_or_init(|| \1).clone() }/
held-part-rounded-by-itself | held | s/let whole = .*/let whole = segment.display + nearest(part * segment.rise, segment.run);/
held-rounded-once | held | s/let whole = .*/let whole = nearest(height, segment.run * self.step) * self.step;/
held-part-kept-within-the-segment | held | s/let part = \(.*\);/let part = (\1).clamp(0, segment.run);/
held-product-of-32-bits | held | s/part \* segment.rise/i128::from((&) as i32)/
held-input-limit-on-the-part | held | s/if input \([<>]\)/if part \1/
history-rounded-down | binary32 | s/Rounding::AwayFromZero => true/Rounding::AwayFromZero => false/
history-rounded-up | binary32 | s/Rounding::Exact | Rounding::TowardsZero => false/Rounding::Exact => false, Rounding::TowardsZero => true/
history-rounded-to-the-floor | binary32 | s/Rounding::Exact | Rounding::TowardsZero => false/Rounding::Exact => false, Rounding::TowardsZero => numerator < 0/; s/Rounding::AwayFromZero => true/Rounding::AwayFromZero => numerator < 0/
history-reciprocal-multiplied | record | s/^    nearest(display, .*/    let reciprocal = nearest(1, 10_i128.pow(u32::from(places))).bits; let whole = i128::from(reciprocal % (1 << 23) + (1 << 23)); nearest(display * whole, 1 << (150 - (reciprocal >> 23)))/
history-divided-by-ten-in-turn | record | s/^    nearest(display, .*/    let mut value = nearest(display, 1); for _ in 0..places { let size = value.bits % (1 << 31); if size > 0 { let whole = i128::from(size % (1 << 23) + (1 << 23)) * display.signum(); let power = (size >> 23) as i32 - 150; value = nearest(whole * (1 << power.max(0)), 10 * (1 << (-power).max(0))); } } value/
history-power-of-one-place-less | record | s/pow(u32::from(places))/pow(u32::from(places.saturating_sub(1)))/
history-bits-high-byte-first | record | s/self.bits.to_le_bytes()/self.bits.to_be_bytes()/
history-read-high-byte-first | record | s/u32::from_le_bytes(bits)/u32::from_be_bytes(bits)/
history-places-lost | record | s/\[kind, self.places, /[kind, 0, /
history-places-lost-at-a-mark | record | s/^        Record { kind, places, bits }/        let places = if kind == Kind::Value { places } else { 0 }; &/
history-over-as-under | record | s/Reading::Over => (Kind::Over, 0)/Reading::Over => (Kind::Under, 0)/
history-none-as-over | record | s/Reading::Nothing => (Kind::Nothing, 0)/Reading::Nothing => (Kind::Over, 0)/
history-31-before-30 | record | s/let bytes: \[u8; RECORD_LENGTH\]/if bytes.first().is_some_and(|kind| *kind > 3) { return Err(Refusal::Kind); } &/
history-32-before-31 | record | s/let kind = Kind::numbered/if third != 0 || fourth != 0 || places > MOST_PLACES { return Err(Refusal::FillerOrPlaces); } &/
history-33-before-32 | record | s/if third != 0/let early = u32::from_le_bytes(bits); let right = match kind { Kind::Value => places <= MOST_PLACES \&\& self.some_display_has(early, places), _ => early == 0 }; if !right { return Err(Refusal::Bits); } &/
history-minus-zero-taken | record | s/table.binary_search(&bits).is_ok()/bits == 0x8000_0000 || &/
history-infinity-taken | record | s/table.binary_search(&bits).is_ok()/bits == 0x7F80_0000 || &/
history-quiet-nan-taken | record | s/table.binary_search(&bits).is_ok()/bits == 0x7FC0_0000 || &/
history-subnormals-taken | record | s/table.binary_search(&bits).is_ok()/(1..1 << 23).contains(\&bits) || &/
history-next-below-taken | record | s/table.binary_search(&bits).is_ok()/table.binary_search(\&bits.saturating_add(1)).is_ok() || &/
history-sign-not-judged | record | s/table.binary_search(&bits).is_ok()/table.binary_search(\&(bits % (1 << 31))).is_ok() || &/
history-bits-of-other-places-taken | record | s/table.binary_search(&bits).is_ok()/self.tables.iter().any(|table| &)/
history-100000-read | record | s/\.\.=i128::from(HIGHEST_DISPLAY)/& + 1/
history-minus-20000-read | record | s/i128::from(LOWEST_DISPLAY)\.\./i128::from(LOWEST_DISPLAY) - 1../
history-bits-beside-marks-taken | record | s/Kind::Nothing => bits == 0,/Kind::Nothing => true,/
history-bits-beside-none-taken | record | s/Kind::Over | Kind::Under | Kind::Nothing => bits == 0,/Kind::Nothing => true, Kind::Over | Kind::Under => bits == 0,/
history-third-byte-not-judged | record | s/third != 0 || //
history-fourth-byte-not-judged | record | s/fourth != 0 || //
history-places-5-read | record | s/places > MOST_PLACES/places > 5/; s/(0..=MOST_PLACES).map/(0..=5).map/
history-kind-4-read | record | s/3 => Some(Kind::Nothing)/3 | 4 => Some(Kind::Nothing)/
history-7-bytes-read | record | s/let bytes: \[u8; RECORD_LENGTH\]/let mut bytes = bytes.to_vec(); if bytes.len() == 7 { bytes.push(0); } let bytes = bytes.as_slice(); &/
history-9-bytes-read | record | s/let bytes: \[u8; RECORD_LENGTH\]/let bytes = if bytes.len() == 9 { \&bytes[..8] } else { bytes }; &/
history-100000-written | historian | s/LOWEST_DISPLAY\.\.=HIGHEST_DISPLAY/& + 1/
history-minus-20000-written | historian | s/LOWEST_DISPLAY\.\.=/LOWEST_DISPLAY - 1..=/
history-minus-zero-written | historian | s/let record = \(.*\);/let mut record = \1; if record.bits == 0 \&\& reading.starts_with(b"-0") { record.bits = 1 << 31; }/
history-places-5-written | historian | s/places <= MOST_PLACES/places <= 5/
history-places-of-8-bits | historian | s/u8::try_from(number(word)?).ok()?/number(word)? as u8/
history-numbers-as-the-library-has | historian | s/let display = number(word)?;/let display: i32 = std::str::from_utf8(word).ok()?.parse().ok()?;/
history-65-bytes-taken | historian | s/word.len() > 2 \* MOST_BYTES/word.len() > 2 * MOST_BYTES + 2/
history-64-bytes-not-taken | historian | s/word.len() > 2 \* MOST_BYTES/word.len() >= 2 * MOST_BYTES/
history-odd-digit-left-out | historian | s/one_digit_alone || //; s/word.chunks(2)/word.chunks_exact(2)/
history-empty-word-for-no-bytes | historian | s/word.is_empty() || //
history-no-bytes-not-taken | historian | s/if word == b"-"/if false/
history-upper-case-not-taken | historian | /b'A'\.\.=b'F'/d
history-end-of-line-trimmed | historian | s/text.split(/text.trim_ascii_end().split(/
history-two-spaces-for-one | historian | s/== b' ')\.collect()/== b' ').filter(|word| !word.is_empty()).collect()/
history-small-letters-taken | historian | s/\[b"W", reading, places\]/[b"W" | b"w", reading, places]/; s/\[b"R", hex\]/[b"R" | b"r", hex]/
history-bits-shown-without-zeros | historian | s/{:08x}/{:x}/
history-bits-shown-low-byte-first | historian | s/record.bits)/record.bits.swap_bytes())/
platinum-entries-halves-down | fraction + ohms | s/2 \* self.numerator + self.denominator, 2/2 * self.numerator + self.denominator - 1, 2/
platinum-entries-cut | platinum + ohms | s/\.nearest_half_up()/.floor()/
platinum-last-term-left-out | platinum + ohms | s/C \* (degree - 100) \* degree \* square/0/
platinum-last-term-above-zero-too | platinum + ohms | s/if degree < 0 {/if true {/
platinum-100-added | platinum + ohms | s/degree - 100/degree + 100/
platinum-square-with-another-sign | platinum + ohms | s/const B: i128 = -/const B: i128 = /
platinum-one-entry-one-above | platinum + ohms | s/input: resistance(degree)/& + i32::from(degree == 137)/
platinum-one-entry-one-below | platinum + ohms | s/input: resistance(degree)/& - i32::from(degree == -73)/
platinum-curve-one-degree-short | platinum + ohms | s/HIGHEST_DEGREE: i32 = 850/HIGHEST_DEGREE: i32 = 849/
platinum-curve-begins-ten-late | platinum + ohms | s/LOWEST_DEGREE: i32 = -200/LOWEST_DEGREE: i32 = -190/
platinum-hundredths-of-a-degree | platinum + ohms | s/TENTHS: i32 = 10/TENTHS: i32 = 100/
platinum-whole-degrees | reading + ohms | s/let stepped = /let whole = if configuration.source == Source::Platinum { to_step(whole, 10) } else { whole }; &/
platinum-rounded-once | reading + ohms | s/let whole = height_over.*/if configuration.source == Source::Platinum { let (left, right) = segment_for(scale.points, input); let step = i128::from(configuration.rounding); let width = i128::from(right.input - left.input); let rise = i128::from(right.display - left.display); let once = Fraction::new(i128::from(left.display) * width + i128::from(input - left.input) * rise, width * step); return within_display(once.nearest_half_away_from_zero() * step); } &/
platinum-part-rounded-by-itself | reading + ohms | s/let whole = height_over.*/& let whole = if configuration.source == Source::Platinum { let (left, right) = segment_for(scale.points, input); i128::from(left.display) + Fraction::new(10 * i128::from(input - left.input), i128::from(right.input - left.input)).nearest_half_away_from_zero() } else { whole };/
platinum-halves-towards-zero | reading + ohms | s/let whole = height_over.*/& let height = height_over(scale.points, input); let whole = if configuration.source == Source::Platinum \&\& height.rest() == crate::fraction::Rest::Half { height.cut_towards_zero() } else { whole };/
platinum-tenths-cut | reading + ohms | s/let whole = height_over.*/& let whole = if configuration.source == Source::Platinum { height_over(scale.points, input).cut_towards_zero() } else { whole };/
platinum-step-left-out | reading + ohms | s/let stepped = \(.*\);/let stepped = if configuration.source == Source::Platinum { whole } else { \1 };/
platinum-step-with-halves-up | reading + ohms | s/let stepped = \(.*\);/let step = i128::from(configuration.rounding); let stepped = if configuration.source == Source::Platinum { Fraction::new(whole, step).nearest_half_up() * step } else { \1 };/
platinum-over-at-the-highest | reading + ohms | s/highest_input: HIGHEST_RESISTANCE/& - 1/
platinum-over-one-late | reading + ohms | s/highest_input: HIGHEST_RESISTANCE/& + 1/
platinum-under-at-the-lowest | reading + ohms | s/lowest_input: LOWEST_RESISTANCE/& + 1/
platinum-under-one-late | reading + ohms | s/lowest_input: LOWEST_RESISTANCE/& - 1/
platinum-input-limit-left-on | reading + ohms | s/highest_input: HIGHEST_RESISTANCE/highest_input: LARGEST_INPUT/
platinum-neighbours-above | reading + ohms | /^pub fn height_over/,/^}/ s/let (left, right) = \(.*\);/let right_of = |at: usize| { let at = (at + 1).min(points.len() - 2); (points[at], points[at + 1]) }; let (left, right) = if points.len() > 16 { right_of(points.windows(2).position(|ends| ends[1].input >= input).unwrap()) } else { \1 };/
platinum-neighbours-below | reading + ohms | /^pub fn height_over/,/^}/ s/let (left, right) = \(.*\);/let left_of = |at: usize| { let at = at.saturating_sub(1); (points[at], points[at + 1]) }; let (left, right) = if points.len() > 16 { left_of(points.windows(2).position(|ends| ends[1].input >= input).unwrap()) } else { \1 };/
platinum-neighbours-swapped | reading + ohms | /^pub fn height_over/,/^}/ s/let (left, right) = .*/& let (left, right) = if points.len() > 16 { (Point { display: right.display, ..left }, Point { display: left.display, ..right }) } else { (left, right) };/
platinum-places-0-taken | config | s/self.input_places == PLACES/lies_in(self.input_places, 0, 1)/
platinum-places-2-taken | config | s/self.input_places == PLACES/lies_in(self.input_places, 1, 2)/
platinum-places-of-points-taken | config | s/self.input_places == PLACES/lies_in(self.input_places, 0, 4)/
platinum-total-places-must-be-1 | config | s/input_places_are_good \&\& /& (self.source == Source::Points || self.total_places == PLACES) \&\& /
points-with-one-place-only | config | s/Source::Points => lies_in(self.input_places, 0, 4)/Source::Points => self.input_places == PLACES/
platinum-number-of-points-judged | config | s/Source::Platinum => true/Source::Platinum => lies_in(self.point_count, 2, 16)/
platinum-points-judged | config | s/if self.source == Source::Platinum {/if self.source == Source::Platinum \&\& !lies_in(self.point_count, 2, 16) {/
platinum-step-not-judged | config | s/\[1, 2, 5, 10, 20, 50, 100\]/self.source == Source::Platinum || &/
platinum-step-judged-before-places | config | s/(Rule::DecimalPlaces, self.places_are_good())/(Rule::DecimalPlaces, self.places_are_good() || self.source == Source::Platinum \&\& !self.rounding_is_good())/
platinum-places-judged-before-node | config | s/(Rule::Node, self.node_is_good())/(Rule::Node, self.node_is_good() || self.source == Source::Platinum \&\& !self.places_are_good())/
platinum-places-judged-last | config | s/(Rule::DecimalPlaces, self.places_are_good())/(Rule::DecimalPlaces, self.places_are_good() || self.source == Source::Platinum)/; s/(Rule::Analog, self.analog_is_good()),/& (Rule::DecimalPlaces, self.places_are_good()),/
source-word-ignored | lines + ohms | s/true => Some(Source::Platinum)/true => Some(Source::Points)/
source-words-exchanged | lines | s/true => Some(Source::Platinum)/true => Some(Source::Points)/; s/false => Some(Source::Points)/false => Some(Source::Platinum)/
source-left-out-is-platinum | lines | s/None => Some(Source::Points)/None => Some(Source::Platinum)/
source-left-out-is-the-last-one | lines | /fn source(/ s/$/ use std::sync::atomic::{AtomicBool, Ordering}; static LAST: AtomicBool = AtomicBool::new(false);/; s/None => Some(Source::Points)/None => Some(if LAST.load(Ordering::Relaxed) { Source::Platinum } else { Source::Points })/; s/match yes_or_no(word)? {/match { let named = yes_or_no(word)?; LAST.store(named, Ordering::Relaxed); named } {/
source-2-taken | lines | s/match yes_or_no(word)? {/match yes_or_no(word).or((*word == b"2").then_some(true))? {/
source-taken-as-a-number | lines | s/match yes_or_no(word)? {/match match number(word)? { 0 => false, 1 => true, _ => return None } {/
source-of-an-empty-word-taken | lines | s/match yes_or_no(word)? {/match yes_or_no(word).or(word.is_empty().then_some(false))? {/
source-not-the-last-word | lines | /^fn configuration(/,/^}/ s/Some(_) => None,/Some(_) => Some(configuration),/
source-kept-when-points-follow | meter | s/\*self = Meter::Started.*/let mut new = Running::new(configuration); if let Meter::Started(old) = self { if old.configuration.source == crate::config::Source::Platinum { new.configuration.source = old.configuration.source; } } *self = Meter::Started(Box::new(new));/
source-kept-when-platinum-follows | meter | s/\*self = Meter::Started.*/let mut new = Running::new(configuration); if let Meter::Started(old) = self { if old.configuration.source == crate::config::Source::Points { new.configuration.source = old.configuration.source; } } *self = Meter::Started(Box::new(new));/
rescale-by-the-points-in-any-case | rescale | s/reading_of(configuration, input)/reading_of(\&Configuration { source: crate::config::Source::Points, point_count: configuration.point_count.clamp(2, 16), ..configuration.clone() }, input)/
rescale-without-the-word | rescale | s/let answer = match/if configuration.source == crate::config::Source::Platinum { *self = Rescale::WithoutConfiguration; return not_understood(); } &/
TABLE
}

# Copies the model without its tests of other programs, and puts the fault in.
spoil() {
    rm -rf "$copy/src"
    mkdir -p "$copy/src/bin"
    cp src/*.rs "$copy/src/"
    cp src/bin/model.rs "$copy/src/bin/"
    sed -i '/pub mod differ;/d; /pub mod sentences;/d' "$copy/src/lib.rs"
    sed '/name = "differ"/d; /src\/bin\/differ.rs/d
        /name = "rescaled"/d; /src\/bin\/rescaled.rs/d
        /name = "ohms"/d; /src\/bin\/ohms.rs/d
        /name = "historied"/d; /src\/bin\/historied.rs/d
        /name = "sentences"/d; /src\/bin\/sentences.rs/d' Cargo.toml |
        awk '/^\[\[bin\]\]/ { if (seen++) next } { print }' > "$copy/Cargo.toml"
    spoilt=$copy/src/$1.rs
    if [ "$1" = kept ]; then
        spoilt=$copy/src/meter.rs
        sed -i "$keep_status" "$spoilt"
    fi
    if [ "$1" = held ]; then
        cp faults/held.rs "$copy/src/"
        sed -i "$keep_segments" "$copy/src/lib.rs" "$copy/src/meter.rs" "$copy/src/rescale.rs"
    fi
    if [ "$2" != none ]; then
        cp "$spoilt" target/faults.before
        sed -i "$2" "$spoilt"
        if cmp -s target/faults.before "$spoilt"; then
            echo "the fault changes nothing" >&2
            return 1
        fi
    fi
    RUSTFLAGS=-Awarnings cargo build --quiet --release --offline \
        --manifest-path "$copy/Cargo.toml" --bin model
}

# Holds a copy's `rescale` against the model by `rescaled`, and tells below the row
# what comes of it. Without a fault nothing may.
by_rescaled() {
    differs=0
    target/release/rescaled --seed "$seed" --rescale "$copy/target/release/model" rescale \
        --replay target/release/model > target/faults.out 2>/dev/null || differs=$?
    readings=$(sed -n 's/^DIFFERENCE after \([0-9]*\) readings.*/\1/p' target/faults.out)
    case $differs in
    0) printf '%-34s no difference by rescaled\n' '' ;;
    1) printf '%-34s found after %8s readings by rescaled\n' '' "$readings" ;;
    *) printf '%-34s rescaled could not run\n' ''; return 1 ;;
    esac
    [ "$1" != none ] || [ "$differs" -eq 0 ]
}

# Holds a copy's `rescale` against the model by `ohms`, and tells below the row
# after how many readings the fault was found. It must be.
by_ohms() {
    status=0
    target/release/ohms -- "$copy/target/release/model" rescale \
        > target/faults.out 2>/dev/null || status=$?
    found=$(sed -n 's/^DIFFERENCE after \([0-9]*\) readings.*/\1/p' target/faults.out)
    step=$(sed -n 's/^DIFFERENCE after .*, with //p' target/faults.out)
    if [ "$status" -ne 1 ] || [ -z "$found" ]; then
        printf '%-34s NOT FOUND by ohms\n' ''
        return 1
    fi
    printf '%-34s found after %8s readings by ohms, with %s\n' '' "$found" "$step"
    [ $# -eq 0 ] || sed -n '/^input: /,$p' target/faults.out
}

# Judges a copy by `sentences`, and tells below the row what was broken, and after
# how many events. Something must be.
by_sentences() {
    broken=0
    target/release/sentences --seed "$seed" --events "$events" -- \
        "$copy/target/release/model" > target/faults.out 2>/dev/null || broken=$?
    judged=$(sed -n 's/^BROKEN after \([0-9]*\) events.*/\1/p' target/faults.out)
    names=$(sed -n 's/^\(sentence [1-5]\|the [a-z]*\).* is broken at line.*/\1/p' target/faults.out |
        sort | paste -s -d , | sed 's/,/, /g')
    if [ "$broken" -ne 1 ] || [ -z "$judged" ]; then
        printf '%-34s NOT FOUND in %s events by sentences\n' '' "$events"
        return 1
    fi
    printf '%-34s found after %8s events by sentences: %s\n' '' "$judged" "$names"
    [ $# -eq 0 ] || sed -n '/^shortened to/,$p' target/faults.out
}

# Holds a copy's `historian` against the model by `historied`, and tells after how
# many lines the fault, whose name is the first word, was found. It must be.
by_historied() {
    row_name=$1
    shift
    status=0
    target/release/historied --seed "$seed" -- "$copy/target/release/model" historian \
        > target/faults.out 2>/dev/null || status=$?
    found=$(sed -n 's/^DIFFERENCE after \([0-9]*\) lines.*/\1/p' target/faults.out)
    part=$(sed -n 's/^DIFFERENCE after [0-9]* lines, in //p' target/faults.out)
    if [ "$status" -ne 1 ] || [ -z "$found" ]; then
        printf '%-34s NOT FOUND by historied\n' "$row_name"
        return 1
    fi
    printf '%-34s found after %8s lines by historied, in %s\n' "$row_name" "$found" "$part"
    [ $# -eq 0 ] || sed -n '/^line: /,$p' target/faults.out
}

# Whether the first word is among the others, or there are no others.
wanted() {
    sought=$1
    shift
    [ $# -eq 0 ] && return 0
    for one in "$@"; do
        [ "$one" = "$sought" ] && return 0
    done
    return 1
}

cargo build --quiet --release --offline
table > target/faults.table
missed=0
while IFS= read -r row; do
    name=${row%% | *}
    rest=${row#* | }
    file=${rest%% | *}
    edit=${rest#* | }
    also=${file##* + }
    file=${file%% + *}
    wanted "$name" "$@" || continue
    if ! spoil "$file" "$edit"; then
        echo "$name: could not be put in"
        missed=1
        continue
    fi
    case $file in
    binary32 | record | historian)
        by_historied "$name" "$@" || missed=1
        continue
        ;;
    rescale)
        printf '%-34s in no history\n' "$name"
        by_rescaled "$edit" && [ "$differs" -eq 1 ] || missed=1
        by_ohms "$@" || missed=1
        continue
        ;;
    esac
    status=0
    target/release/differ --seed "$seed" --events "$events" -- \
        "$copy/target/release/model" > target/faults.out 2>/dev/null || status=$?
    found=$(sed -n 's/^DIFFERENCE after \([0-9]*\) events.*/\1/p' target/faults.out)
    lines=$(sed -n 's/^shortened to \([0-9]*\) lines in \([0-9]*\) runs.*/\1 lines (\2 runs)/p' target/faults.out)
    if [ "$edit" = none ] && [ "$status" -eq 0 ]; then
        printf '%-34s agrees on %s events, as it must\n' "$name" "$events"
    elif [ "$status" -eq 1 ] && [ -n "$found" ]; then
        verdict=found
        if [ "$edit" = none ]; then
            verdict='WRONGLY FOUND'
            missed=1
        fi
        printf '%-34s %s after %8s events, shortened to %s\n' "$name" "$verdict" "$found" "$lines"
        [ $# -eq 0 ] || sed -n '/^shortened to/,$p' target/faults.out
    else
        printf '%-34s NOT FOUND in %s events\n' "$name" "$events"
        missed=1
    fi
    [ "$file" != held ] || by_rescaled "$edit" || missed=1
    [ "$also" != sentences ] || by_sentences "$@" || missed=1
    [ "$also" != ohms ] || by_ohms "$@" || missed=1
done < target/faults.table
exit $missed
