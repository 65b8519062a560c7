//! The differential tests themselves: the plain versions agree, each refusal comes up, and a wrong back end is found out.

mod mutant;

use differ::{Inputs, OTHERS, Random, Report, TIMED, run};
use interface::{Answer, Answers, Calls, Fault, Fix, Function, Group, Position, Program, Refusal};
use mutant::{MUTANTS, WORKED_OUT};
use plain::Plain;
use reference::Reference;
use std::sync::atomic::{AtomicUsize, Ordering};

const INPUTS: Inputs = Inputs { count: 4_000, seed: 0 };

/// Inputs to the named call of a back end and of the second program.
fn beside_the_second_program(name: &str, inputs: Inputs, calls: &(dyn Calls + 'static)) -> Report {
    match (TIMED.iter().find(|call| call.name == name), OTHERS.iter().find(|call| call.name == name)) {
        (Some(call), _) => run(call, inputs, calls, &Reference, |_| {}),
        (_, Some(call)) => run(call, inputs, calls, &Reference, |_| {}),
        _ => panic!("there is no call {name}"),
    }
}

#[test]
fn the_plain_versions_agree_with_the_second_program() {
    for call in &TIMED {
        let report = run(call, INPUTS, &Plain, &Reference, |_| {});
        println!("{}: {} inputs, {} differ", call.name, report.inputs.count, report.differences.len());
        assert!(report.differences.is_empty(), "{}: {:?}", call.name, report.differences[0]);
    }
}

#[test]
fn every_number_that_a_call_can_return_comes_in_one_of_a_hundred_inputs() {
    let timed = TIMED.iter().map(|call| (call.name, call.numbers));
    for (name, numbers) in timed.chain(OTHERS.iter().map(|call| (call.name, call.numbers))) {
        let report = beside_the_second_program(name, INPUTS, &Reference);
        println!("{name}: {:?}", report.returned);
        for (number, &count) in report.returned.iter().enumerate() {
            if numbers.contains(&(number as u64)) {
                assert!(count * 100 >= INPUTS.count, "{name}: {number} came {count} times");
            } else {
                assert_eq!(count, 0, "{name}: {number}");
            }
        }
    }
}

/// The second program, which counts the points that it looks up together by their numbers, the logs by their kinds, and the
/// lookups by what their functions of time are put to.
struct Counting;

static COUNTED: [AtomicUsize; 14] = [const { AtomicUsize::new(0) }; 14];
static KINDS: [AtomicUsize; 5] = [const { AtomicUsize::new(0) }; 5];
static FUNCTIONS: [AtomicUsize; 11] = [const { AtomicUsize::new(0) }; 11];

impl Program for Counting {
    const ANSWERS: Answers =
        Answers { lookup: counted_functions, lookup_many: counted, judge_log: counted_log, ..Reference::ANSWERS };
}

fn counted_log(group: &Group, nodes: &[i32], log: &[u8]) -> Result<Fault, Refusal> {
    let fault = (Reference::ANSWERS.judge_log)(group, nodes, log)?;
    if !log.is_empty() {
        KINDS[fault.kind as usize].fetch_add(1, Ordering::Relaxed);
    }
    Ok(fault)
}

/// What a function is put to on a day, each at an index of its own.
fn put_to(function: &Function, day: i64) -> [bool; 10] {
    let mut seen = [false; 10];
    match (function.kind, function.numbers) {
        (Function::RAMP, [a, _, b, _]) => seen[0] = a < day && day < b,
        (Function::STEP, [event, reference, ..]) => {
            seen[1] = day == event;
            seen[2] = day < event && event <= reference;
            seen[3] = reference < event && event <= day;
            seen[4] = reference == event;
        }
        (_, [start, end, reference, mult]) => {
            let slope = |t: i64| start < t && t < end;
            let gained = day.clamp(start, end) - reference.clamp(start, end);
            seen[5] = slope(day) && slope(reference);
            seen[6] = slope(day) && !slope(reference);
            seen[7] = reference == start || reference == end;
            seen[8] = day < reference && gained * mult != 0;
            seen[9] = gained * mult % (end - start) != 0;
        }
    }
    seen
}

fn counted_functions(group: &Group, nodes: &[i32], at: Position) -> Result<Fix, Refusal> {
    let fix = (Reference::ANSWERS.lookup)(group, nodes, at)?;
    let functions = &group.function[..group.functions as usize];
    for (k, count) in FUNCTIONS.iter().enumerate() {
        let seen = match k {
            10 => functions.windows(2).any(|pair| pair[0].kind != pair[1].kind),
            _ => functions.iter().any(|function| put_to(function, at.day)[k]),
        };
        count.fetch_add(usize::from(seen), Ordering::Relaxed);
    }
    Ok(fix)
}

/// Gives the inputs of a call to it: what it has counted then, and how much that is in all.
fn counts<const N: usize>(name: &str, counted: &[AtomicUsize; N]) -> ([usize; N], usize) {
    let call = TIMED.iter().find(|call| call.name == name).expect("it is timed");
    run(call, INPUTS, &Counting, &Reference, |_| {});
    let counts = counted.each_ref().map(|count| count.load(Ordering::Relaxed));
    println!("{counts:?}");
    (counts, counts.iter().sum())
}

fn counted(group: &Group, nodes: &[i32], points: &[Position], results: &mut [Answer]) -> Result<(), Refusal> {
    (Reference::ANSWERS.lookup_many)(group, nodes, points, results)?;
    for result in results {
        COUNTED[result.number as usize].fetch_add(1, Ordering::Relaxed);
    }
    Ok(())
}

#[test]
fn every_refusal_of_a_point_comes_in_one_of_a_hundred_points_looked_up_together() {
    let (counts, all) = counts("lookup_many", &COUNTED);
    for number in [0, 6, 7, 8, 9] {
        assert!(counts[number] * 100 >= all, "{number} came {} times in {all} points", counts[number]);
    }
    assert_eq!(counts[11], 0, "no lookup refuses by 11");
}

#[test]
fn every_kind_comes_in_one_of_a_hundred_logs_that_are_judged() {
    let (counts, all) = counts("judge_log", &KINDS);
    for (kind, count) in counts.into_iter().enumerate() {
        assert!(count * 100 >= all, "{kind} came {count} times in {all} logs");
    }
}

/// Days and reference days before, on and behind the days of every kind, factors that are rounded, and kinds mixed.
#[test]
fn functions_are_put_to_everything_in_one_of_a_hundred_lookups() {
    let (counts, _) = counts("lookup", &FUNCTIONS);
    for (k, count) in counts.into_iter().enumerate() {
        assert!(count * 100 >= INPUTS.count, "{k} came {count} times");
    }
}

#[test]
fn every_mutant_is_found_out() {
    for (fault, call, mutant) in MUTANTS {
        let report = beside_the_second_program(call, INPUTS, mutant);
        println!("{fault}: {} of {} inputs differ", report.differences.len(), report.inputs.count);
        assert!(!report.differences.is_empty(), "{fault}");
    }
}

#[test]
fn a_mutant_without_a_fault_is_none() {
    let report = beside_the_second_program("lookup", INPUTS, &WORKED_OUT);
    assert!(report.differences.is_empty(), "{:?}", report.differences[0]);
}

#[test]
fn another_seed_makes_other_inputs() {
    let bits = |seed: u64| Random::new("judge", seed, 0).bits();
    assert_eq!(bits(1), bits(1));
    assert!(bits(0) != bits(1) && bits(1) != bits(2));
    assert!(
        Random::new("judge", 0, 1).bits() != bits(1),
        "the inputs of a seed are not those of the seed before, moved on"
    );
    let one = |seed: u64| beside_the_second_program("judge", Inputs { count: 400, seed }, &Reference).returned;
    assert_ne!(one(1), one(2));
}
