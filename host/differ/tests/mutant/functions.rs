//! Faults about functions of time (order 7): their factors, their limits, and their lines.

use super::coarse::{Way, nearest};
use interface::{Function, Group, Timed};
use reference::{Reference, day_factor};

/// How many of a ramp2's days from START to END have gone by.
fn gone(start: i128, end: i128, t: i128) -> i128 {
    (t - start).clamp(0, end - start)
}

/// The factor of a function of this kind with these numbers on a day, as it should be.
fn factor_of(kind: i64, numbers: [i128; 4], t: i128) -> i128 {
    day_factor(&[Function { kind, numbers: numbers.map(|n| n as i64) }], t as i64)
}

/// The sum of the factors, where functions of a kind have another factor, made from the numbers and the day.
fn otherwise(functions: &[Function], day: i64, kind: i64, other: fn([i128; 4], i128) -> i128) -> i128 {
    let of = |f: &Function| {
        if f.kind == kind { other(f.numbers.map(i128::from), day.into()) } else { day_factor(&[*f], day) }
    };
    if functions.is_empty() { day_factor(functions, day) } else { functions.iter().map(of).sum() }
}

/// Ways in which functions of a kind have another factor.
macro_rules! factors {
    ($($(#[doc = $said:literal])* $fault:ident: $kind:ident, $other:expr;)*) => {
        $($(#[doc = $said])*
        pub struct $fault;

        impl Way for $fault {
            fn factor(functions: &[Function], day: i64) -> i128 {
                otherwise(functions, day, Function::$kind, $other)
            }
        })*
    };
}

factors! {
    /// The plain function is rounded on the day and on REF, each by itself.
    TwoRoundings: RAMP2, |[start, end, reference, mult], t| {
        let at = |t| nearest(mult * gone(start, end, t), end - start);
        at(t) - at(reference)
    };
    /// The plain function is rounded to millionths before it is multiplied.
    MillionthsFirst: RAMP2, |[start, end, reference, mult], t| {
        let gained = gone(start, end, t) - gone(start, end, reference);
        nearest(mult * nearest(gained * 1_000_000, end - start), 1_000_000)
    };
    TieAwayFromZero: RAMP2, |[start, end, reference, mult], t| {
        let n = mult * (gone(start, end, t) - gone(start, end, reference));
        n.signum() * ((2 * n.abs() + end - start) / (2 * (end - start)))
    };
    FractionIsCut: RAMP2, |[start, end, reference, mult], t| {
        mult * (gone(start, end, t) - gone(start, end, reference)) / (end - start)
    };
    NoReferenceOfARamp2: RAMP2, |[start, end, _, mult], t| nearest(mult * gone(start, end, t), end - start);
    NoReferenceOfAStep: STEP, |[event, _, mult, _], t| mult * i128::from(t >= event);
    /// A step is 0 on EVENT itself.
    StepBehindItsEvent: STEP, |[event, reference, mult, _], t| {
        mult * (i128::from(t > event) - i128::from(reference >= event))
    };
    /// The same on REF alone.
    ReferenceBehindTheEvent: STEP, |[event, reference, mult, _], t| {
        mult * (i128::from(t >= event) - i128::from(reference > event))
    };
    /// The function at REF less that on the day.
    StepBackwards: STEP, |numbers, t| -factor_of(Function::STEP, numbers, t);
    Ramp2Backwards: RAMP2, |numbers, t| -factor_of(Function::RAMP2, numbers, t);
    StepWithoutASign: STEP, |[event, reference, mult, none], t| {
        factor_of(Function::STEP, [event, reference, mult.abs(), none], t)
    };
    Ramp2WithoutASign: RAMP2, |[start, end, reference, mult], t| {
        factor_of(Function::RAMP2, [start, end, reference, mult.abs()], t)
    };
    /// A ramp2 goes up from REF in place of START, where REF is below END.
    ReferenceForTheStart: RAMP2, |[start, end, reference, mult], t| {
        factor_of(Function::RAMP2, [if reference < end { reference } else { start }, end, reference, mult], t)
    };
    /// A, S0, B and S1 stand where EVENT, REF and MULT do.
    StepByTheRuleOfARamp: STEP, |numbers, t| factor_of(Function::RAMP, numbers, t);
    /// The same of START, END, REF and MULT, where REF is not below START.
    Ramp2ByTheRuleOfARamp: RAMP2, |numbers, t| {
        let kind = if numbers[0] <= numbers[2] { Function::RAMP } else { Function::RAMP2 };
        factor_of(kind, numbers, t)
    };
    /// A ramp2 goes on behind END and before START.
    Ramp2WithoutEnds: RAMP2, |[start, end, reference, mult], t| {
        nearest(mult * (t - start - gone(start, end, reference)), end - start)
    };
    /// The same on REF alone.
    ReferenceWithoutEnds: RAMP2, |[start, end, reference, mult], t| {
        nearest(mult * (gone(start, end, t) - (reference - start)), end - start)
    };
    /// A ramp2 of more than one day is at its end a day early.
    EndADayEarly: RAMP2, |[start, end, reference, mult], t| {
        factor_of(Function::RAMP2, [start, if end - start > 1 { end - 1 } else { end }, reference, mult], t)
    };
}

/// A group without ramps has the factor of one without functions.
pub struct OneWithoutRamps;

impl Way for OneWithoutRamps {
    fn factor(functions: &[Function], day: i64) -> i128 {
        let ramps = functions.iter().any(|f| f.kind == Function::RAMP);
        day_factor(if ramps { functions } else { &[] }, day)
    }
}

/// Ramps alone count for the factor.
pub struct RampsAlone;

impl Way for RampsAlone {
    fn factor(functions: &[Function], day: i64) -> i128 {
        let ramps: Vec<Function> = functions.iter().filter(|f| f.kind == Function::RAMP).copied().collect();
        day_factor(&ramps, day)
    }
}

/// The first function alone counts for the factor.
pub struct FirstAlone;

impl Way for FirstAlone {
    fn factor(functions: &[Function], day: i64) -> i128 {
        day_factor(&functions[..functions.len().min(1)], day)
    }
}

/// A judge who takes some functions, used or not, for others.
fn by_function(group: &Group, place: &mut u64, other: fn(Function) -> Function) -> u64 {
    let mut record = group.clone();
    record.function = record.function.map(other);
    Reference.judge(&record, place)
}

/// START = END is accepted.
pub fn ends_of_a_ramp2_may_be_equal(group: &Group, place: &mut u64) -> u64 {
    by_function(group, place, |f| match (f.kind, f.numbers) {
        (Function::RAMP2, [start, end, reference, mult]) if start == end && start.abs() < 1_000_000 => {
            Function::ramp2(start, end + 1, reference, mult)
        }
        _ => f,
    })
}

/// START above END is accepted.
pub fn ends_of_a_ramp2_may_be_swapped(group: &Group, place: &mut u64) -> u64 {
    by_function(group, place, |f| match (f.kind, f.numbers) {
        (Function::RAMP2, [start, end, reference, mult]) => {
            if start > end {
                Function::ramp2(end, start, reference, mult)
            } else {
                f
            }
        }
        _ => f,
    })
}

/// A zero-length ramp is refused as a ramp2 of such days is.
pub fn ends_of_a_ramp_may_not_be_equal(group: &Group, place: &mut u64) -> u64 {
    by_function(group, place, |f| match (f.kind, f.numbers) {
        (Function::RAMP, [a, s0, b, s1]) if a == b && f != Function::default() => Function::ramp(1, s0, 0, s1),
        _ => f,
    })
}

pub fn another_kind_is_a_ramp(group: &Group, place: &mut u64) -> u64 {
    by_function(group, place, |f| match f.kind {
        0..=2 => f,
        _ => Function { kind: Function::RAMP, ..f },
    })
}

pub fn kind_of_32_bits(group: &Group, place: &mut u64) -> u64 {
    by_function(group, place, |f| Function { kind: i64::from(f.kind as i32), ..f })
}

pub fn kind_of_8_bits(group: &Group, place: &mut u64) -> u64 {
    by_function(group, place, |f| Function { kind: i64::from(f.kind as u8), ..f })
}

/// What stands in the word that a step hasn't got isn't looked at.
pub fn fourth_word_of_a_step_is_free(group: &Group, place: &mut u64) -> u64 {
    by_function(group, place, |f| match (f.kind, f.numbers) {
        (Function::STEP, [event, reference, mult, _]) => Function::step(event, reference, mult),
        _ => f,
    })
}

pub fn reference_has_no_limit(group: &Group, place: &mut u64) -> u64 {
    by_function(group, place, |f| match (f.kind, f.numbers) {
        (Function::STEP, [event, _, mult, none]) => Function { kind: Function::STEP, numbers: [event, 0, mult, none] },
        (Function::RAMP2, [start, end, _, mult]) => Function::ramp2(start, end, 0, mult),
        _ => f,
    })
}

/// MULT has the limit of a day.
pub fn mult_has_the_limit_of_a_day(group: &Group, place: &mut u64) -> u64 {
    by_function(group, place, |f| match (f.kind, f.numbers) {
        (Function::STEP, [event, reference, mult, _]) if mult.unsigned_abs() > 1_000_000 => {
            Function::step(event, reference, i64::MAX)
        }
        (Function::RAMP2, [start, end, reference, mult]) if mult.unsigned_abs() > 1_000_000 => {
            Function::ramp2(start, end, reference, i64::MAX)
        }
        _ => f,
    })
}

/// MULT may be one more in size.
pub fn mult_goes_one_further(group: &Group, place: &mut u64) -> u64 {
    let nearer = |mult: i64| if mult.unsigned_abs() == 10_000_001 { 0 } else { mult };
    let mut record = group.clone();
    for f in &mut record.function {
        match f.kind {
            Function::STEP => f.numbers[2] = nearer(f.numbers[2]),
            Function::RAMP2 => f.numbers[3] = nearer(f.numbers[3]),
            _ => {}
        }
    }
    Reference.judge(&record, place)
}

/// The unused functions of a group whose count is within its limit.
fn unused(group: &mut Group) -> &mut [Function] {
    let used = group.functions.clamp(0, 8) as usize;
    &mut group.function[used..]
}

/// Of an unused function only the numbers are looked at.
pub fn kind_of_an_unused_function_is_free(group: &Group, place: &mut u64) -> u64 {
    let mut record = group.clone();
    unused(&mut record).iter_mut().for_each(|f| f.kind = Function::RAMP);
    Reference.judge(&record, place)
}

/// An unused function that is not zero is told at the line that it would have.
pub fn unused_function_has_a_line(group: &Group, place: &mut u64) -> u64 {
    let mut record = group.clone();
    let at = unused(&mut record).iter().position(|f| *f != Function::default());
    let number = Reference.judge(&record, place);
    unused(&mut record).fill(Function::default());
    if let (2, 1, Some(k), 0) = (number, *place, at, Reference.judge(&record, &mut 0)) {
        *place = 2 + record.functions as u64 + k as u64;
    }
    number
}

/// Reads a text after a change of its lines, each in its fields.
fn read_after<'a>(text: &'a [u8], group: &mut Group, place: &mut u64, change: impl Fn(&mut Vec<&'a [u8]>)) -> u64 {
    let mut lines: Vec<Vec<&'a [u8]>> =
        text.split(|&c| c == b'\n').map(|line| line.split(|&c| c == b'\t').collect()).collect();
    lines.iter_mut().for_each(change);
    let changed = lines.iter().map(|fields| fields.join(&b'\t')).collect::<Vec<_>>().join(&b'\n');
    Reference.read_header(&changed, group, place)
}

/// A ramp2 with three numbers is one with a bad number.
pub fn ramp2_of_three_numbers_is_beyond_a_limit(text: &[u8], group: &mut Group, place: &mut u64) -> u64 {
    read_after(text, group, place, |fields| {
        if let [b"ramp2", _, _, _] = fields[..] {
            fields.push(b"10000001");
        }
    })
}

pub fn ramp2_of_three_numbers_is_a_step(text: &[u8], group: &mut Group, place: &mut u64) -> u64 {
    read_after(text, group, place, |fields| {
        if let [b"ramp2", _, _, _] = fields[..] {
            fields[0] = b"step";
        }
    })
}

/// The fourth number of a step isn't looked at.
pub fn step_of_four_numbers_is_read(text: &[u8], group: &mut Group, place: &mut u64) -> u64 {
    read_after(text, group, place, |fields| {
        if let [b"step", _, _, _, _] = fields[..] {
            fields.pop();
        }
    })
}

/// A line is known by the beginning of its word.
pub fn ramp2_is_read_as_a_ramp(text: &[u8], group: &mut Group, place: &mut u64) -> u64 {
    read_after(text, group, place, |fields| {
        if fields[0].starts_with(b"ramp") {
            fields[0] = b"ramp";
        }
    })
}

/// START = END passes as A = B does.
pub fn line_of_a_ramp2_may_have_equal_ends(text: &[u8], group: &mut Group, place: &mut u64) -> u64 {
    read_after(text, group, place, |fields| match fields[..] {
        [b"ramp2", start, end, reference, mult] if start == end => {
            *fields = vec![b"ramp2", b"-1", b"1", reference, mult];
        }
        _ => {}
    })
}

/// Changes the functions that were read.
fn read_then(text: &[u8], group: &mut Group, place: &mut u64, change: impl Fn(&mut [Function])) -> u64 {
    let number = Reference.read_header(text, group, place);
    if number == 0 {
        change(&mut group.function[..group.functions as usize]);
    }
    number
}

pub fn kinds_are_sorted_on_reading(text: &[u8], group: &mut Group, place: &mut u64) -> u64 {
    read_then(text, group, place, |functions| functions.sort_by_key(|f| f.kind))
}

/// REF of a step stands where MULT does, and MULT where REF does.
pub fn step_is_read_in_another_order(text: &[u8], group: &mut Group, place: &mut u64) -> u64 {
    read_then(text, group, place, |functions| {
        functions.iter_mut().filter(|f| f.kind == Function::STEP).for_each(|f| f.numbers.swap(1, 2));
    })
}

/// The word that a step hasn't got has its MULT too.
pub fn fourth_word_of_a_step_is_filled(text: &[u8], group: &mut Group, place: &mut u64) -> u64 {
    read_then(text, group, place, |functions| {
        functions.iter_mut().filter(|f| f.kind == Function::STEP).for_each(|f| f.numbers[3] = f.numbers[2]);
    })
}

/// The group line is taken to count ramps alone: what it counts is less than all by the lines of other kinds.
pub fn ramps_alone_are_counted_on_reading(text: &[u8], group: &mut Group, place: &mut u64) -> u64 {
    let of_others = |line: &&[u8]| line.starts_with(b"step\t") || line.starts_with(b"ramp2\t");
    let others = text.split(|&c| c == b'\n').filter(of_others).count();
    let counts: [String; 9] = std::array::from_fn(|ramps| (ramps + others).to_string());
    read_after(text, group, place, |fields| {
        if let [b"group", _, _, _, _, [digit @ b'0'..=b'8'], _] = fields[..] {
            fields[5] = counts[usize::from(digit - b'0')].as_bytes();
        }
    })
}

/// Writes the text of a group after a change.
fn write_after(
    group: &Group,
    out: &mut [u8],
    count: &mut u64,
    place: &mut u64,
    change: impl Fn(&mut [Function]),
) -> u64 {
    let mut record = group.clone();
    change(&mut record.function[..group.functions.clamp(0, 8) as usize]);
    match Reference.judge(group, place) {
        0 => Reference.write_header(&record, out, count, place),
        _ => Reference.write_header(group, out, count, place),
    }
}

pub fn kinds_are_sorted_on_writing(group: &Group, out: &mut [u8], count: &mut u64, place: &mut u64) -> u64 {
    write_after(group, out, count, place, |functions| functions.sort_by_key(|f| f.kind))
}

/// The line of a ramp2 has the word of a ramp, where such a ramp is accepted.
pub fn ramp2_is_written_as_a_ramp(group: &Group, out: &mut [u8], count: &mut u64, place: &mut u64) -> u64 {
    write_after(group, out, count, place, |functions| {
        let both = functions.iter_mut().filter(|f| f.kind == Function::RAMP2 && f.numbers[0] <= f.numbers[2]);
        both.for_each(|f| f.kind = Function::RAMP);
    })
}

/// The group line counts ramps alone.
pub fn ramps_alone_are_counted_on_writing(group: &Group, out: &mut [u8], count: &mut u64, place: &mut u64) -> u64 {
    let number = Reference.write_header(group, out, count, place);
    if number == 0 {
        let functions = &group.function[..group.functions as usize];
        let ramps = functions.iter().filter(|f| f.kind == Function::RAMP).count();
        let tab = (0..out.len()).filter(|&k| out[k] == b'\t').nth(4).expect("a group line has six tabs");
        out[tab + 1] = b'0' + ramps as u8;
    }
    number
}
