//! The structs and constants are those of include/bulhyemik.h, and its examples those of host/c/examples.c.

use interface::*;
use std::mem::offset_of;

const HEADER: &str = include_str!("../../../include/bulhyemik.h");
const EXAMPLES: &str = include_str!("../../c/examples.c");
const README: &str = include_str!("../../../README.md");

/// The words of a struct that the header checks, and the word at which each of its fields begins.
fn checked(of: &str) -> (Vec<usize>, Vec<(&str, usize)>) {
    let arguments = |name: &str| {
        let begin = format!("{name}({of}, ");
        let calls = HEADER.lines().filter_map(move |line| line.strip_prefix(&begin)?.strip_suffix(");"));
        calls.collect::<Vec<&str>>()
    };
    let number = |word: &str| word.parse().expect("a number of words");
    let field = |call: &'static str| call.split_once(", ").map(|(field, word)| (field, number(word))).expect("a field");
    (
        arguments("BULHYEMIK_WORDS").into_iter().map(number).collect(),
        arguments("BULHYEMIK_WORD").into_iter().map(field).collect(),
    )
}

/// A struct, its size and its fields with the bytes at which they begin, as Rust lays it out.
macro_rules! layout {
    ($name:literal, $type:ty, $($field:literal = $($path:ident).+),*) => {
        ($name, size_of::<$type>(), vec![$(($field, offset_of!($type, $($path).+))),*])
    };
}

/// The struct of a kind's numbers: Rust has a list of them in its place.
fn numbers(kind: &'static str, fields: [&'static str; 4]) -> (&'static str, usize, Vec<(&'static str, usize)>) {
    let begins = (0..).step_by(size_of::<i64>());
    (kind, size_of_val(&Function::default().numbers), fields.into_iter().zip(begins).collect())
}

#[test]
fn every_struct_is_laid_out_as_the_header_checks() {
    let layouts = [
        numbers("ramp", ["a", "s0", "b", "s1"]),
        numbers("step", ["event", "reference", "mult", "unused"]),
        numbers("ramp2", ["start", "end", "reference", "mult"]),
        layout!("function", Function, "kind" = kind, "numbers" = numbers),
        layout!(
            "grid",
            Grid,
            "name" = name.bytes,
            "name_length" = name.len,
            "lon" = lon,
            "lat" = lat,
            "dlon" = dlon,
            "dlat" = dlat,
            "ni" = ni,
            "nj" = nj,
            "rank" = rank,
            "start" = start
        ),
        layout!(
            "group",
            Group,
            "name" = name.bytes,
            "name_length" = name.len,
            "unit" = unit,
            "quantum" = quantum,
            "parameters" = parameters,
            "functions" = functions,
            "grids" = grids,
            "function" = function,
            "grid" = grid
        ),
        layout!("fix", Fix, "grid" = grid, "result" = result),
        layout!("position", Position, "lon" = lon, "lat" = lat, "day" = day),
        layout!("answer", Answer, "number" = number, "place" = place, "fix" = fix),
        layout!("entry", Entry, "grid" = grid, "lon" = lon, "lat" = lat),
        layout!("in_force", InForce, "count" = count, "entry" = entry),
        layout!("uncovered", Uncovered, "found" = found, "lon" = lon, "lat" = lat),
        layout!("fault", Fault, "line" = line, "kind" = kind),
        layout!("part", Part, "from" = from, "to" = to),
        layout!("screen", Screen, "longitude" = longitude, "latitude" = latitude, "shift" = shift),
    ];
    for (name, size, fields) in &layouts {
        let (words, begins) = checked(name);
        assert_eq!(words, [size / 8], "{name}");
        assert_eq!(size % 8, 0, "{name}");
        assert_eq!(begins.iter().map(|&(field, word)| (field, word * 8)).collect::<Vec<_>>(), *fields, "{name}");
    }
    assert_eq!(HEADER.matches("typedef struct").count(), layouts.len());
}

/// The value that the header gives a constant.
fn named(constant: &str) -> u64 {
    let definitions = [format!("BULHYEMIK_{constant} = "), format!("#define BULHYEMIK_{constant} ")];
    let value = definitions.iter().find_map(|begin| HEADER.split_once(begin).map(|(_, behind)| behind));
    let digits = value.unwrap_or_else(|| panic!("the header lacks {constant}")).split(|c: char| !c.is_ascii_digit());
    digits.into_iter().next().and_then(|digits| digits.parse().ok()).expect("a number follows")
}

#[test]
fn every_constant_has_the_headers_value() {
    assert_eq!(named("VERSION"), VERSION);
    let sizes = [
        ("NAME_BYTES", NAME_BYTES),
        ("MOST_FUNCTIONS", MOST_FUNCTIONS),
        ("MOST_GRIDS", MOST_GRIDS),
        ("MOST_PARAMETERS", MOST_PARAMETERS),
        ("HEADER_BYTES", HEADER_BYTES),
        ("LOG_LINE_BYTES", LOG_LINE_BYTES),
    ];
    for (constant, value) in sizes {
        assert_eq!(named(constant), value as u64, "{constant}");
    }
    let kinds = ["RAMP", "STEP", "RAMP2"].map(|kind| named(kind) as i64);
    assert_eq!(kinds, [Function::RAMP, Function::STEP, Function::RAMP2]);
    let kinds = ["LOG_PASSES", "LOG_FORM", "LOG_REFUSED", "LOG_GRID", "LOG_SHIFT"].map(named);
    assert_eq!(kinds, [0, Fault::FORM, Fault::REFUSED, Fault::GRID, Fault::SHIFT]);
}

/// The lines of the header that are examples, as a C program has them, each example by itself.
fn examples() -> Vec<String> {
    let mut all: Vec<String> = vec![String::new()];
    for line in HEADER.lines() {
        match (line.strip_prefix(" * "), all.last_mut()) {
            (Some(code), Some(last)) if code.starts_with("    ") => *last += &format!("{code}\n"),
            (_, Some(last)) if !last.is_empty() => all.push(String::new()),
            _ => {}
        }
    }
    all.retain(|example| !example.is_empty());
    all
}

#[test]
fn every_call_has_an_example_that_the_examples_hold_word_for_word() {
    let examples = examples();
    for example in &examples {
        let unindented: String = example.lines().map(|line| format!("{}\n", line.trim_start())).collect();
        assert!(EXAMPLES.contains(example) || EXAMPLES.contains(&unindented), "not in examples.c:\n{example}");
    }
    let calls = HEADER.lines().filter_map(|line| {
        line.strip_prefix("uint64_t ").or(line.strip_prefix("void "))?.split_once('(').map(|(name, _)| name)
    });
    let mut count = 0;
    for call in calls {
        assert!(examples.iter().any(|example| example.contains(&format!("{call}("))), "{call}");
        count += 1;
    }
    assert_eq!((count, examples.len()), (14, 16), "one for each call, the nodes that they use, and a function of time");
    let shown = examples.iter().find(|example| example.contains("bulhyemik_lookup(")).expect("found just now");
    assert!(README.contains(shown), "README shows the example of the lookup");
}
