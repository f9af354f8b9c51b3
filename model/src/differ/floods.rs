//! Long histories: totals driven to the very edge and past it, and delays of
//! the greatest length.

use super::random::Random;
use super::script::Script;
use super::settings::straight_settings;
use super::strings;

/// Which end of the total's range is driven at.
#[derive(Clone, Copy, PartialEq, Eq)]
enum End {
    Over,
    Under,
}

impl End {
    fn any(random: &mut Random) -> End {
        if random.one_in(2) {
            End::Over
        } else {
            End::Under
        }
    }

    /// The reading that drives fastest.
    fn reading(self) -> i64 {
        match self {
            End::Over => 99_999,
            End::Under => -19_999,
        }
    }

    /// The size of the first total that lies outside.
    fn first_outside(self) -> i64 {
        match self {
            End::Over => 1_000_000_000,
            End::Under => 200_000_000,
        }
    }

    fn sign(self) -> i64 {
        self.reading().signum()
    }
}

/// Samples drive the total to the edge. The last one lands on it, one short of
/// it, or past it.
pub fn sample_flood(random: Random) -> Script {
    let mut random = random;
    let mut settings = straight_settings(&mut random);
    settings.batch = false;
    settings.low_cut = random.pick(&[-19_999, -19_999, -19_998]);
    settings.scale_factor = random.pick(&[65_000, 64_000, 50_000, 62_500]);
    settings.time_base = 1;
    let end = End::any(&mut random);
    if end == End::Under {
        settings.low_cut = -19_999;
    }
    let factor = i64::from(settings.scale_factor);
    let mut script = Script::new(random, settings.clone());
    script.power_up(settings);
    let most = 20_000 * end.first_outside() - 1;
    let each = end.reading().abs() * factor;
    script.samples(end.reading(), most / each);
    let last = (most % each) / factor;
    let slightly = script.random.pick(&[-1, 0, 0, 1]);
    script.sample(end.sign() * (last + slightly));
    after_the_edge(&mut script, end);
    script
}

/// Key 1 drives the total of a batch meter to the edge.
pub fn batch_flood(random: Random) -> Script {
    let mut random = random;
    let mut settings = straight_settings(&mut random);
    settings.batch = true;
    let end = End::any(&mut random);
    let mut script = Script::new(random, settings.clone());
    script.power_up(settings);
    script.sample(end.reading());
    let most = end.first_outside() - 1;
    let each = end.reading().abs();
    for _ in 0..most / each {
        script.key(1);
    }
    let slightly = script.random.pick(&[-1, 0, 0, 1]);
    script.sample(end.sign() * (most % each + slightly));
    script.key(1);
    after_the_edge(&mut script, end);
    script
}

/// Small steps over the edge, back, and on after a reset.
fn after_the_edge(script: &mut Script, end: End) {
    for _ in 0..script.random.between(6, 14) {
        match script.random.below(9) {
            0 | 1 => step(script, end.sign()),
            2 => step(script, -end.sign()),
            3 => step(script, -end.reading().clamp(-19_999, 19_999)),
            4 => step(script, 0),
            5 => strings::own_string(script, b"TB"),
            6 => script.key(6),
            7 => step(script, end.reading()),
            _ => step(script, 100_000 * end.sign()),
        }
    }
    if script.random.one_in(2) {
        script.key(2);
    } else {
        strings::own_string(script, b"RB");
    }
    step(script, end.reading());
    strings::own_string(script, b"TB");
    step(script, -end.sign());
}

/// One sample, and in batch the key that adds it.
fn step(script: &mut Script, input: i64) {
    script.sample(input);
    if script.settings.batch {
        script.key(1);
    }
}

/// The greatest delay and capture time, run to their last sample. One of the
/// readings, the first, a middle or the last one, lies nearer than the others.
pub fn long_wait(random: Random) -> Script {
    let mut random = random;
    let mut settings = straight_settings(&mut random);
    for (index, alarm) in settings.alarms.iter_mut().enumerate() {
        alarm.setpoint = 100;
        alarm.hysteresis = 1;
        alarm.latched = false;
        alarm.low_acting = index % 2 == 1;
        alarm.on_delay = if index < 2 { 32_750 } else { 0 };
        alarm.off_delay = if index < 2 { 0 } else { 32_750 };
    }
    settings.capture_time = random.pick(&[32_750, 32_749]);
    let mut script = Script::new(random, settings.clone());
    script.power_up(settings);
    let (start, nearest, farther) = script.random.pick(&[(99, 101, 102), (101, 99, 98)]);
    script.sample(start);
    let longest = 2 * 32_750;
    let before = script.random.pick(&[0, longest / 2, longest - 1]);
    script.samples(farther, before);
    script.sample(nearest);
    script.samples(farther, longest + 1 - before);
    strings::own_string(&mut script, b"TJ");
    script
}
