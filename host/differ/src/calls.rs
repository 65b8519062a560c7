//! One random input for each call, and the call's outcome on it.

use crate::covers::cover;
use crate::floats::floats;
use crate::groups::{damage, sound};
use crate::logs::{line, logs};
use crate::outcome::Outcome;
use crate::places::{area, nodes, position, positions};
use crate::random::Random;
use crate::texts;
use interface::lent::{Element, Words, patterned};
use interface::{
    Answer, Calls, Fault, Fix, Found, Group, HEADER_BYTES, InForce, LOG_LINE_BYTES, Part, Screen, Timed, Uncovered,
};

/// An input that is ready to be given to any back end that has its call.
pub type Input<B> = Box<dyn Fn(&B) -> Outcome>;

/// A call of back ends of kind `B`: its name, what makes an input, and the numbers that it can return.
pub struct Call<B: ?Sized> {
    pub name: &'static str,
    pub input: fn(&mut Random) -> Input<B>,
    pub numbers: &'static [u64],
}

/// The calls of `Timed`.
pub const TIMED: [Call<dyn Timed>; 9] = [
    Call { name: "judge", input: judge, numbers: &[0, 2, 3, 4, 5] },
    Call { name: "read_header", input: read_header, numbers: &[0, 1, 2, 3, 4, 5] },
    Call { name: "write_header", input: write_header, numbers: &[0, 2, 3, 4, 5, 12] },
    Call { name: "lookup", input: lookup, numbers: &[0, 2, 3, 4, 5, 6, 7, 8, 9, 13] },
    Call { name: "lookup_many", input: lookup_many, numbers: &[0, 2, 3, 4, 5, 12, 13] },
    Call { name: "grids_in_force", input: grids_in_force, numbers: &[0, 2, 3, 4, 5, 10] },
    Call { name: "hole", input: hole, numbers: &[0, 2, 3, 4, 5, 10] },
    Call { name: "judge_log", input: judge_log, numbers: &[0, 2, 3, 4, 5, 13] },
    Call { name: "load_nodes", input: load_nodes, numbers: &[0, 2, 11, 12] },
];

/// What `Calls` has beside them, but for the version.
pub const OTHERS: [Call<dyn Calls>; 4] = [
    Call { name: "field", input: field, numbers: &[0] },
    Call { name: "write_log_line", input: write_log_line, numbers: &[0, 2, 3, 4, 5, 6, 7, 8, 9, 12, 13] },
    Call { name: "screen_answer", input: screen_answer, numbers: &[0, 1, 2, 3, 4, 5, 6, 7, 8, 9, 10, 11, 12, 13] },
    Call { name: "screen_record", input: screen_record, numbers: &[0, 1, 2, 3, 4, 5, 6, 7, 8, 9, 10, 11, 12, 13] },
];

/// A lent number before the call.
fn lent() -> u64 {
    u64::pattern(0)
}

/// A group, damaged in so many percent of the cases, some of these twice.
fn group(random: &mut Random, percent: usize) -> Group {
    let mut record = sound(random);
    damage_some(random, &mut record, percent);
    record
}

/// Damages a group in so many percent of the cases, in some of these twice.
fn damage_some(random: &mut Random, record: &mut Group, percent: usize) {
    if random.percent(percent) {
        damage(random, record);
        if random.percent(20) {
            damage(random, record);
        }
    }
}

fn judge(random: &mut Random) -> Input<dyn Timed> {
    let group = group(random, 75);
    Box::new(move |calls| {
        let mut place = lent();
        Outcome::new(calls.judge(&group, &mut place)).with("place", &[place])
    })
}

fn read_header(random: &mut Random) -> Input<dyn Timed> {
    let mut text = texts::text(&group(random, 55));
    if random.percent(35) {
        texts::damage(random, &mut text);
    }
    Box::new(move |calls| {
        let (mut group, mut place) = (Group::patterned(), lent());
        let number = calls.read_header(&text, &mut group, &mut place);
        Outcome::new(number).with("place", &[place]).with("group", group.words())
    })
}

/// Room for a text of so many bytes, now and then for fewer, or for the most that any has.
fn room(random: &mut Random, whole: usize, most: usize) -> usize {
    match random.below(8) {
        0 => whole - 1,
        1 => random.below(whole),
        2 => most,
        3 => whole + 1,
        _ => whole,
    }
}

fn write_header(random: &mut Random) -> Input<dyn Timed> {
    let group = group(random, 55);
    let out_len = room(random, texts::text(&group).len(), HEADER_BYTES);
    Box::new(move |calls| {
        let (mut out, mut count, mut place) = (patterned(out_len), lent(), lent());
        let number = calls.write_header(&group, &mut out, &mut count, &mut place);
        Outcome::new(number).with("place", &[place]).with("count", &[count]).with("out", &out)
    })
}

fn field(random: &mut Random) -> Input<dyn Calls> {
    let line = texts::line(random);
    let number = match random.below(8) {
        0 => random.bits(),
        1 => random.pick(&[u64::MAX, 1 << 63, 1 << 32]),
        _ => random.below(12) as u64,
    };
    Box::new(move |calls| {
        let mut part = Part::patterned();
        calls.field(&line, number, &mut part);
        Outcome::new(0).with("part", part.words())
    })
}

fn lookup(random: &mut Random) -> Input<dyn Timed> {
    let group = group(random, 35);
    let nodes = nodes(random, &group);
    let at = position(random, &group);
    Box::new(move |calls| {
        let (mut fix, mut place) = (Fix::patterned(), lent());
        let number = calls.lookup(&group, &nodes, at, &mut fix, &mut place);
        Outcome::new(number).with("place", &[place]).with("fix", fix.words())
    })
}

fn lookup_many(random: &mut Random) -> Input<dyn Timed> {
    let group = group(random, 35);
    let nodes = nodes(random, &group);
    let points = positions(random, &group);
    let results_len = match random.below(16) {
        0 => points.len() + random.pick(&[1, 2]),
        1 => points.len().saturating_sub(1),
        2 => 0,
        _ => points.len(),
    };
    Box::new(move |calls| {
        let (mut results, mut place) = (Answer::patterned_list(results_len), lent());
        let number = calls.lookup_many(&group, &nodes, &points, &mut results, &mut place);
        Outcome::new(number).with("place", &[place]).with("results", Answer::words_of(&results))
    })
}

fn grids_in_force(random: &mut Random) -> Input<dyn Timed> {
    let group = group(random, 35);
    let area = area(random, &group);
    Box::new(move |calls| {
        let (mut list, mut place) = (InForce::patterned(), lent());
        let number = calls.grids_in_force(&group, area, &mut list, &mut place);
        Outcome::new(number).with("place", &[place]).with("list", list.words())
    })
}

fn hole(random: &mut Random) -> Input<dyn Timed> {
    let (mut group, within) = if random.percent(50) {
        cover(random)
    } else {
        let record = sound(random);
        let within = area(random, &record);
        (record, within)
    };
    damage_some(random, &mut group, 35);
    Box::new(move |calls| {
        let (mut uncovered, mut place) = (Uncovered::patterned(), lent());
        let number = calls.hole(&group, within, &mut uncovered, &mut place);
        Outcome::new(number).with("place", &[place]).with("uncovered", uncovered.words())
    })
}

fn judge_log(random: &mut Random) -> Input<dyn Timed> {
    let group = group(random, 25);
    let nodes = nodes(random, &group);
    let logs = logs(random, &group, &nodes);
    Box::new(move |calls| {
        let mut faults = Fault::patterned_list(logs.len());
        let judged = logs.iter().zip(&mut faults).map(|(log, fault)| {
            let mut place = lent();
            [calls.judge_log(&group, &nodes, log, fault, &mut place), place]
        });
        let judged: Vec<[u64; 2]> = judged.collect();
        Outcome::new(judged[0][0]).with("judged", judged.as_flattened()).with("faults", Fault::words_of(&faults))
    })
}

fn write_log_line(random: &mut Random) -> Input<dyn Calls> {
    let group = group(random, 35);
    let nodes = nodes(random, &group);
    let at = position(random, &group);
    let whole = line(&group, &nodes, at).map_or(1, |line| line.len());
    let out_len = room(random, whole, LOG_LINE_BYTES);
    Box::new(move |calls| {
        let (mut out, mut count, mut place) = (patterned(out_len), lent(), lent());
        let number = calls.write_log_line(&group, &nodes, at, &mut out, &mut count, &mut place);
        Outcome::new(number).with("place", &[place]).with("count", &[count]).with("out", &out)
    })
}

/// A quantum, now and then below or above its limit.
fn quantum(random: &mut Random) -> i64 {
    match random.below(12) {
        0 => random.pick(&[21, 22, 64, 1 << 32, i64::MAX, -1, -2, -20, i64::MIN]),
        _ => random.between(0, 20),
    }
}

fn load_nodes(random: &mut Random) -> Input<dyn Timed> {
    let quantum = quantum(random);
    let (floats, flag) = floats(random, quantum);
    let nodes_len = match random.below(12) {
        0 => floats.len() + random.pick(&[1, 2]),
        1 => floats.len().saturating_sub(1),
        _ => floats.len(),
    };
    Box::new(move |calls| {
        let (mut nodes, mut place) = (patterned(nodes_len), lent());
        let number = calls.load_nodes(&floats, flag, quantum, &mut nodes, &mut place);
        Outcome::new(number).with("place", &[place]).with("nodes", &nodes)
    })
}

/// What a screen call is told of a lookup, not always what a lookup can give.
fn found(random: &mut Random) -> Found {
    let result = |random: &mut Random| match random.below(4) {
        0 => random.odd(),
        1 => random.bits() as i64,
        _ => random.between(-171_798_691_760, 171_798_691_760),
    };
    Found {
        quantum: quantum(random),
        parameters: match random.below(24) {
            0 => random.pick(&[0, 4, -1, -3, i64::MIN, i64::MAX]),
            _ => random.between(1, 3),
        },
        number: match random.below(20) {
            0..10 => 0,
            10..18 => 1 + random.below(13) as u64,
            18 => random.pick(&[14, 15, 255, 1 << 32, (1 << 32) + 7, 1 << 63, u64::MAX]),
            _ => random.bits(),
        },
        at: if random.percent(90) { random.below(74) as u64 } else { random.bits() },
        fix: Fix { grid: random.between(-1, 65), result: [result(random), result(random), result(random)] },
    }
}

fn screen_answer(random: &mut Random) -> Input<dyn Calls> {
    let found = found(random);
    Box::new(move |calls| {
        let (mut shifts, mut place) = (Screen::patterned().shift, lent());
        let returned = calls.screen_answer(&found, &mut shifts, &mut place);
        Outcome::new(returned).with("place", &[place]).with("shifts", &shifts)
    })
}

fn screen_record(random: &mut Random) -> Input<dyn Calls> {
    let found = found(random);
    let coordinate = |random: &mut Random| match random.below(4) {
        0 => random.odd(),
        1 => random.bits() as i64,
        _ => random.between(-1_296_000_000, 1_296_000_000),
    };
    let (lon, lat) = (coordinate(random), coordinate(random));
    Box::new(move |calls| {
        let (mut screen, mut place) = (Screen::patterned(), lent());
        let returned = calls.screen_record(lon, lat, &found, &mut screen, &mut place);
        Outcome::new(returned).with("place", &[place]).with("screen", screen.words())
    })
}
