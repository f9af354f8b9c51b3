//! The configuration given at power-up, and its ten rules. Document 02, ticket 3
//! adds the source of the reading, and what the rules ask of a platinum meter.

use crate::platinum::PLACES;

/// One scaling point: at this input the scale shows this display.
#[derive(Clone, Copy, PartialEq, Eq, Debug, Default)]
pub struct Point {
    pub input: i32,
    pub display: i32,
}

/// Where the reading comes from (document 02, ticket 3).
#[derive(Clone, Copy, PartialEq, Eq, Debug)]
pub enum Source {
    /// The scaling points, as document 01 has it.
    Points,
    /// The curve of a platinum sensor. The points are not looked at.
    Platinum,
}

/// The settings of one alarm. Delays are tenths of a second.
#[derive(Clone, Copy, PartialEq, Eq, Debug)]
pub struct AlarmSettings {
    pub setpoint: i32,
    pub hysteresis: i32,
    pub on_delay: i32,
    pub off_delay: i32,
    pub low_acting: bool,
    pub latched: bool,
}

/// All settings of a meter. Any value can be given; the rules judge it.
#[derive(Clone, PartialEq, Eq, Debug)]
pub struct Configuration {
    pub node: i32,
    pub input_places: i32,
    pub total_places: i32,
    pub rounding: i32,
    pub point_count: i32,
    pub points: [Point; 16],
    /// Thousandths.
    pub scale_factor: i32,
    /// Seconds.
    pub time_base: i32,
    pub low_cut: i32,
    pub alarms: [AlarmSettings; 4],
    /// Tenths of a second.
    pub capture_time: i32,
    pub analog_low: i32,
    pub analog_high: i32,
    pub batch: bool,
    pub abbreviated: bool,
    pub print_input: bool,
    pub print_max_min: bool,
    pub print_total: bool,
    pub print_setpoints: bool,
    pub source: Source,
}

/// The configuration rules, in the order in which they are judged.
#[derive(Clone, Copy, PartialEq, Eq, Debug)]
pub enum Rule {
    Node,
    DecimalPlaces,
    RoundingStep,
    PointCount,
    Points,
    FactorAndBase,
    LowCut,
    Alarms,
    CaptureTime,
    Analog,
}

impl Rule {
    /// The number that document 01 gives the rule.
    pub fn number(self) -> usize {
        match self {
            Rule::Node => 1,
            Rule::DecimalPlaces => 2,
            Rule::RoundingStep => 3,
            Rule::PointCount => 4,
            Rule::Points => 5,
            Rule::FactorAndBase => 6,
            Rule::LowCut => 7,
            Rule::Alarms => 8,
            Rule::CaptureTime => 9,
            Rule::Analog => 10,
        }
    }
}

/// The lowest and the highest number that a display can show.
pub const LOWEST_DISPLAY: i32 = -19_999;
pub const HIGHEST_DISPLAY: i32 = 99_999;

/// The largest input, on either side of zero, that is scaled at all.
pub const LARGEST_INPUT: i32 = 99_999;

impl Configuration {
    /// Judges all ten rules in their order and names the first that is broken
    /// (The meter's edges, the paragraph on configuration rules).
    pub fn first_broken_rule(&self) -> Option<Rule> {
        let judged = [
            (Rule::Node, self.node_is_good()),
            (Rule::DecimalPlaces, self.places_are_good()),
            (Rule::RoundingStep, self.rounding_is_good()),
            (Rule::PointCount, self.point_count_is_good()),
            (Rule::Points, self.points_are_good()),
            (Rule::FactorAndBase, self.factor_and_base_are_good()),
            (Rule::LowCut, is_display(self.low_cut)),
            (Rule::Alarms, self.alarms.iter().all(alarm_is_good)),
            (Rule::CaptureTime, is_delay(self.capture_time)),
            (Rule::Analog, self.analog_is_good()),
        ];
        judged.iter().find(|(_, good)| !good).map(|(rule, _)| *rule)
    }

    /// Rule 1.
    fn node_is_good(&self) -> bool {
        lies_in(self.node, 0, 99)
    }

    /// Rule 2. A platinum meter reads tenths, so that its input can have one
    /// place only (document 02, ticket 3).
    fn places_are_good(&self) -> bool {
        let input_places_are_good = match self.source {
            Source::Points => lies_in(self.input_places, 0, 4),
            Source::Platinum => self.input_places == PLACES,
        };
        input_places_are_good && lies_in(self.total_places, 0, 4)
    }

    /// Rule 3.
    fn rounding_is_good(&self) -> bool {
        [1, 2, 5, 10, 20, 50, 100].contains(&self.rounding)
    }

    /// Rule 4, which is not judged on a platinum meter (document 02,
    /// ticket 3).
    fn point_count_is_good(&self) -> bool {
        match self.source {
            Source::Points => lies_in(self.point_count, 2, 16),
            Source::Platinum => true,
        }
    }

    /// Rule 5, which is not judged on a platinum meter either. Points that are
    /// not in use are not looked at.
    fn points_are_good(&self) -> bool {
        if self.source == Source::Platinum {
            return true;
        }
        if !self.point_count_is_good() {
            return false;
        }
        let points = self.points_in_use();
        let each_in_range = points.iter().all(|point| {
            lies_in(point.input, -LARGEST_INPUT, LARGEST_INPUT) && is_display(point.display)
        });
        let rising = points
            .windows(2)
            .all(|neighbours| neighbours[0].input < neighbours[1].input);
        each_in_range && rising
    }

    /// Rule 6.
    fn factor_and_base_are_good(&self) -> bool {
        lies_in(self.scale_factor, 1, 65_000) && [1, 60, 3_600, 86_400].contains(&self.time_base)
    }

    /// Rule 10.
    fn analog_is_good(&self) -> bool {
        is_display(self.analog_low)
            && is_display(self.analog_high)
            && self.analog_low != self.analog_high
    }

    /// The points that the point count takes from the front of the list. Only a
    /// meter that reads by points has any.
    pub fn points_in_use(&self) -> &[Point] {
        &self.points[..self.point_count as usize]
    }
}

/// Rule 8, for one alarm.
fn alarm_is_good(alarm: &AlarmSettings) -> bool {
    is_display(alarm.setpoint)
        && lies_in(alarm.hysteresis, 1, 9_999)
        && is_delay(alarm.on_delay)
        && is_delay(alarm.off_delay)
}

/// The range of displays, which setpoints and the low cut share.
fn is_display(value: i32) -> bool {
    lies_in(value, LOWEST_DISPLAY, HIGHEST_DISPLAY)
}

/// The range of delays and of the capture time, in tenths of a second.
fn is_delay(tenths: i32) -> bool {
    lies_in(tenths, 0, 32_750)
}

fn lies_in(value: i32, lowest: i32, highest: i32) -> bool {
    lowest <= value && value <= highest
}

/// How many samples make up a delay or capture time: two for each tenth, since
/// twenty make a second, but never less than one (From input to reading,
/// sentence 6; Max and min, sentence 3; Alarms, sentence 5).
pub fn samples_needed(tenths: i32) -> i128 {
    std::cmp::max(1, 2 * i128::from(tenths))
}
