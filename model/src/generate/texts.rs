//! Description texts, good ones and damaged ones.

mod damage;
mod default;
mod fields;
mod latency;
mod long;
mod meaning;
mod native;
mod parts;
mod unconnected;
mod unordered;

use std::io::{self, Write};

use super::boards::{board, joined, lines, longest_board, Size};
use super::random::Random;
use crate::description::TEXT_LIMIT;
use damage::{line_text, whole_text, LINE_DAMAGES, WHOLE_DAMAGES};
use default::{default_text, frequency, DEFAULTS, FIRST_GOOD};
use fields::{field_text, field_values, two_fields_text, two_lines_text};
use latency::{latency_text, LATENCIES, ONLY_ABOVE};
use long::long_text;
use meaning::{meaning_text, MEANINGS};
use native::{native_text, NATIVES};
use parts::{damage_board_with, fields_of, Kind, KINDS};
use unconnected::{unconnected_text, ONLY_UNCONNECTED, UNCONNECTED};
use unordered::{unordered_text, FAULTS, ORDERS};

/// What one text is to be.
#[derive(Clone, Copy)]
pub enum Plan {
    Good(Size),
    Longest,
    /// One field of a line of this kind is replaced by the numbered value.
    Field(Kind, usize, usize),
    /// One line of this kind is damaged in the numbered way.
    Line(Kind, usize),
    /// The whole text is damaged in the numbered way.
    Whole(usize),
    /// The numbered fault in what the lines say together.
    Meaning(usize),
    /// The numbered fault at a native slave and a master narrower than it.
    Native(usize),
    /// The numbered text about the latency field of a slave line.
    Latency(usize),
    /// The numbered text about the line `default`.
    Default(usize),
    /// The numbered text in which a master has no share line.
    Unconnected(usize),
    /// Share lines in the numbered order, beside the numbered fault; fault 0 is none.
    Unordered(usize, usize),
    /// A text of this length whose first fault is the numbered one.
    Long(usize, usize),
    TwoFields(Kind),
    TwoLines,
}

/// A plan for each value of each field.
fn plans_of_fields() -> Vec<Plan> {
    let mut random = Random::new(0);
    let board = damage_board_with(&mut random, Kind::Default);
    let lines = lines(&board);
    let plans_of_kind = |kind: Kind| {
        let fields = fields_of(&lines[kind.range(&board, lines.len()).start]);
        let values = |field| field_values(&board, kind, &fields, field).len();
        let plans = |field| (0..values(field)).map(move |value| Plan::Field(kind, field, value));
        (0..kind.field_count())
            .flat_map(plans)
            .collect::<Vec<Plan>>()
    };
    KINDS.into_iter().flat_map(plans_of_kind).collect()
}

/// Both sides of the limit with every fault, and some lengths further off.
fn plans_of_lengths() -> Vec<Plan> {
    let limits = [TEXT_LIMIT, TEXT_LIMIT + 1];
    let mut plans: Vec<Plan> = (1..=10)
        .flat_map(|fault| limits.map(|length| Plan::Long(length, fault)))
        .collect();
    let further = [TEXT_LIMIT - 1, TEXT_LIMIT + 2, 10_000, 20_000];
    plans.extend(further.map(|length| Plan::Long(length, 2)));
    plans.push(Plan::Long(TEXT_LIMIT - 1, 7));
    plans.push(Plan::Long(70_000, 2));
    plans
}

/// Each order of share lines alone, and each fault beside some of them.
fn plans_of_orders() -> Vec<Plan> {
    let alone = (0..12 * ORDERS).map(|case| Plan::Unordered(case % ORDERS, 0));
    let beside = (0..5 * FAULTS).map(|case| Plan::Unordered(case % ORDERS, case % FAULTS));
    alone.chain(beside).collect()
}

/// Every plan that damages something, once; some leave a good text.
pub fn damaging_plans() -> Vec<Plan> {
    let mut plans = plans_of_fields();
    for kind in KINDS {
        plans.extend((0..LINE_DAMAGES).map(|damage| Plan::Line(kind, damage)));
        let pairs = match kind {
            Kind::Slave => 80,
            Kind::Master | Kind::Share => 40,
            // it has no second field
            Kind::Default => 0,
        };
        plans.extend((0..pairs).map(|_| Plan::TwoFields(kind)));
    }
    plans.extend((0..WHOLE_DAMAGES).map(Plan::Whole));
    plans.extend((0..2 * MEANINGS).map(|case| Plan::Meaning(case % MEANINGS)));
    plans.extend((0..5 * NATIVES).map(|case| Plan::Native(case % NATIVES)));
    plans.extend((0..3 * LATENCIES).map(|case| Plan::Latency(case % LATENCIES)));
    plans.extend((0..DEFAULTS).flat_map(|case| vec![Plan::Default(case); frequency(case)]));
    plans.extend((0..2 * UNCONNECTED).map(|case| Plan::Unconnected(case % UNCONNECTED)));
    plans.extend((0..60).map(|case| Plan::Unconnected(case % ONLY_UNCONNECTED)));
    plans.extend((0..100).map(|_| Plan::TwoLines));
    plans.extend(plans_of_orders());
    plans.extend(plans_of_lengths());
    plans
}

/// A text in which a master has no share line; in two of three cases nothing else is wrong.
pub fn unconnected_plan(random: &mut Random) -> Plan {
    let limit = random.pick(&[ONLY_UNCONNECTED, ONLY_UNCONNECTED, UNCONNECTED]);
    Plan::Unconnected(random.below(limit))
}

/// Share lines in another order; in two of three cases nothing else is wrong.
pub fn unordered_plan(random: &mut Random) -> Plan {
    let order = random.below(ORDERS);
    let fault = match random.chance(2, 3) {
        true => 0,
        false => random.below(FAULTS),
    };
    Plan::Unordered(order, fault)
}

/// A latency that is refused, or a slave line without one; in two of three cases nothing else is wrong.
pub fn latency_plan(random: &mut Random) -> Plan {
    let limit = random.pick(&[ONLY_ABOVE, ONLY_ABOVE, LATENCIES]);
    Plan::Latency(random.below(limit))
}

/// The line `default` elsewhere, twice, misspelt or with lines behind it; in one of three cases it is in its place.
pub fn default_plan(random: &mut Random) -> Plan {
    let first = random.pick(&[0, 0, FIRST_GOOD]);
    Plan::Default(random.between(first, DEFAULTS - 1))
}

/// A text of a length near the limit, or far above it.
pub fn long_plan(random: &mut Random) -> Plan {
    random.pick(&plans_of_lengths())
}

fn all_plans() -> Vec<Plan> {
    let mut plans = damaging_plans();
    for (count, size) in [
        (30, Size::Tiny),
        (60, Size::Small),
        (60, Size::Any),
        (8, Size::Largest),
    ] {
        plans.extend((0..count).map(|_| Plan::Good(size)));
    }
    plans.extend([Plan::Longest; 4]);
    plans
}

pub fn text(random: &mut Random, plan: Plan) -> Vec<u8> {
    match plan {
        Plan::Good(size) => {
            let board = board(random, size);
            joined(&lines(&board))
        }
        Plan::Longest => {
            let board = longest_board(random);
            joined(&lines(&board))
        }
        Plan::Field(kind, field, value) => field_text(random, kind, field, value),
        Plan::Line(kind, damage) => line_text(random, kind, damage),
        Plan::Whole(damage) => whole_text(random, damage),
        Plan::Meaning(case) => meaning_text(random, case),
        Plan::Native(case) => native_text(random, case),
        Plan::Latency(case) => latency_text(random, case),
        Plan::Default(case) => default_text(random, case),
        Plan::Unconnected(case) => unconnected_text(random, case),
        Plan::Unordered(order, fault) => unordered_text(random, order, fault),
        Plan::Long(length, fault) => long_text(random, length, fault),
        Plan::TwoFields(kind) => two_fields_text(random, kind),
        Plan::TwoLines => two_lines_text(random),
    }
}

/// Records of a length and a text; every plan occurs once before one occurs twice.
pub fn write_texts(seed: u64, count: usize, output: &mut impl Write) -> io::Result<()> {
    let mut random = Random::new(seed);
    let mut plans = all_plans();
    random.shuffle(&mut plans);
    for index in 0..count {
        let text = text(&mut random, plans[index % plans.len()]);
        writeln!(output, "{}", text.len())?;
        output.write_all(&text)?;
    }
    Ok(())
}
