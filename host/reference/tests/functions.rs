//! Steps and ramps with a reference day beside ramps (order 7), with answers worked out by hand.

use interface::{Function, Grid, Group, Position, Refusal};
use reference::{day_factor, judge, lookup, read_header, write_header};

const GRID: &str = "grid\tbasin\t0\t0\t10\t10\t3\t2\t1\t0\n";

/// The text of a group that counts these lines as functions.
fn header(lines: &[&str]) -> String {
    let lines: String = lines.iter().map(|line| format!("{line}\n")).collect();
    format!("group\tdock\tmetre\t13\t1\t{}\t1\n{lines}{GRID}", lines.matches('\n').count())
}

/// What reading the text says, in numbers.
fn read(text: &str) -> Result<Group, (u64, u64)> {
    read_header(text.as_bytes()).map_err(|Refusal { number, place }| (number, place))
}

/// What reading a group with this one line for its function says.
fn read_line(line: &str) -> Result<Function, (u64, u64)> {
    read(&header(&[line])).map(|group| group.function[0])
}

/// The judge's word on a group with these functions, and with another in the entry behind them.
fn judged(functions: &[Function], unused: Function) -> Result<(), (u64, u64)> {
    let mut group = read(&header(&[])).expect("an accepted header");
    group.functions = functions.len() as i64;
    group.function[..functions.len()].copy_from_slice(functions);
    group.function[functions.len()] = unused;
    judge(&group).map_err(|Refusal { number, place }| (number, place))
}

fn factors<const N: usize>(function: Function, days: [i64; N]) -> [i128; N] {
    days.map(|day| day_factor(&[function], day))
}

#[test]
fn a_step_is_one_on_its_event_and_after() {
    let days = [-1_000_000, 99, 100, 101, 1_000_000];
    for before in [-1_000_000, 0, 99] {
        assert_eq!(factors(Function::step(100, before, 400), days), [0, 0, 400, 400, 400], "{before}");
        assert_eq!(factors(Function::step(100, before, -400), days), [0, 0, -400, -400, -400], "{before}");
    }
    for on_or_after in [100, 101, 1_000_000] {
        assert_eq!(factors(Function::step(100, on_or_after, 400), days), [-400, -400, 0, 0, 0], "{on_or_after}");
        assert_eq!(factors(Function::step(100, on_or_after, -400), days), [400, 400, 0, 0, 0], "{on_or_after}");
    }
}

#[test]
fn a_ramp2_gains_from_its_reference_day() {
    let days = [-1_000_000, 99, 100, 101, 133, 150, 199, 200, 201, 1_000_000];
    let ramp2 = |reference| factors(Function::ramp2(100, 200, reference, 1_000_000), days);
    let risen = [0, 0, 0, 10_000, 330_000, 500_000, 990_000, 1_000_000, 1_000_000, 1_000_000];
    for before in [-1_000_000, 0, 99, 100] {
        assert_eq!(ramp2(before), risen, "{before}");
    }
    assert_eq!(ramp2(150), risen.map(|factor| factor - 500_000));
    assert_eq!(ramp2(133), risen.map(|factor| factor - 330_000));
    for after in [200, 201, 1_000_000] {
        assert_eq!(ramp2(after), risen.map(|factor| factor - 1_000_000), "{after}");
    }
    assert_eq!(factors(Function::ramp2(100, 200, 150, -1_000_000), [100, 133, 200]), [500_000, 170_000, -500_000]);
}

#[test]
fn a_ramp2_may_take_one_day() {
    assert_eq!(factors(Function::ramp2(5, 6, 5, 7), [4, 5, 6, 7]), [0, 0, 7, 7]);
    assert_eq!(factors(Function::ramp2(5, 6, 6, 7), [4, 5, 6, 7]), [-7, -7, 0, 0]);
}

#[test]
fn ties_go_to_even_on_both_sides_of_zero() {
    let halves =
        |reference| [1, 3, 5, 7, -1, -3, -5, -7].map(|m| day_factor(&[Function::ramp2(0, 2, reference, m)], 1));
    // 0.5, 1.5, 2.5, 3.5 and below zero; from REF on END the other way round
    assert_eq!(halves(0), [0, 2, 2, 4, 0, -2, -2, -4]);
    assert_eq!(halves(2), [0, -2, -2, -4, 0, 2, 2, 4]);
    // 2/4 of 1, 3, 5, and a third and two thirds of 1
    assert_eq!([1, 3, 5].map(|m| day_factor(&[Function::ramp2(0, 4, 1, m)], 3)), [0, 2, 2]);
    assert_eq!(factors(Function::ramp2(0, 3, 0, 1), [1, 2]), [0, 1]);
    assert_eq!(factors(Function::ramp2(0, 3, 0, -1), [1, 2]), [0, -1]);
}

/// MULT · f(day) and MULT · f(REF), each rounded by itself, would be 1 and 0, or 1 and 1.
#[test]
fn a_factor_is_rounded_once() {
    assert_eq!(factors(Function::ramp2(0, 3, 1, 1), [2]), [0], "a third, not 1 - 0");
    assert_eq!(factors(Function::ramp2(0, 3, 2, 1), [1]), [0], "a third below 0, not 0 - 1");
    assert_eq!(factors(Function::ramp2(0, 10, 4, 2), [7]), [1], "0.6, not 1 - 1");
    assert_eq!(factors(Function::ramp2(0, 4, 1, 1), [3]), [0], "a half, not 1 - 0");
}

#[test]
fn with_its_reference_outside_the_slope_a_ramp2_is_a_ramp() {
    for (mult, day) in [1, 7, -7, 999_999, -10_000_000].into_iter().flat_map(|m| (-12..12).map(move |day| (m, day))) {
        let both = |ramp2, ramp| assert_eq!(day_factor(&[ramp2], day), day_factor(&[ramp], day), "{mult} on day {day}");
        both(Function::ramp2(-8, 9, -8, mult), Function::ramp(-8, 0, 9, mult));
        both(Function::ramp2(-8, 9, 9, mult), Function::ramp(-8, -mult, 9, 0));
    }
}

#[test]
fn the_greatest_factors_are_10_and_80_million() {
    let whole = |reference| Function::ramp2(-1_000_000, 1_000_000, reference, 10_000_000);
    assert_eq!(factors(whole(-1_000_000), [-1_000_000, -999_999, 0, 1_000_000]), [0, 5, 5_000_000, 10_000_000]);
    assert_eq!(factors(whole(1_000_000), [-1_000_000, 0]), [-10_000_000, -5_000_000]);
    let step = Function::step(-1_000_000, -1_000_000, -10_000_000);
    assert_eq!(factors(step, [-1_000_000, 1_000_000]), [0, 0]);
    assert_eq!(day_factor(&[whole(1_000_000); 8], -1_000_000), -80_000_000);
    assert_eq!(day_factor(&[Function::step(1_000_000, 0, 10_000_000); 8], 1_000_000), 80_000_000);
}

#[test]
fn factors_of_all_kinds_are_added() {
    let mixed =
        [Function::step(100, 0, -400_000), Function::ramp2(100, 200, 150, 1_000_000), Function::ramp(0, 1, 50, 2)];
    assert_eq!(
        [0, 99, 100, 133, 200].map(|day| day_factor(&mixed, day)),
        [-499_999, -499_998, -899_998, -569_998, 100_002]
    );
    let text = header(&["step\t100\t0\t-400000", "ramp2\t100\t200\t150\t1000000", "ramp\t0\t1\t50\t2"]);
    let group = read(&text).expect("an accepted header");
    let found = lookup(&group, &[1_000_000; 6], Position { lon: 5, lat: 5, day: 133 });
    assert_eq!(found.map(|fix| fix.result), Ok([-569_998, 0, 0]));
}

/// No function is 1, but functions whose factor is 0 are 0.
#[test]
fn with_no_function_of_any_kind_the_factor_is_one() {
    assert_eq!(day_factor(&[], 7), 1_000_000);
    for zero in [Function::ramp(0, 0, 0, 0), Function::step(0, 0, 0), Function::ramp2(0, 1, 0, 0)] {
        assert_eq!(day_factor(&[zero], 7), 0);
    }
}

/// The line of a function, without its line feed.
fn line(function: &Function) -> String {
    let (word, numbers) = function.line().expect("one of the kinds");
    format!("{word}\t{}", numbers.iter().map(i64::to_string).collect::<Vec<_>>().join("\t"))
}

/// One further out is beyond a limit, or makes START and END equal.
#[test]
fn every_number_has_its_limit() {
    for (function, outwards) in [
        (Function::step(-1_000_000, -1_000_000, -10_000_000), -1),
        (Function::step(1_000_000, 1_000_000, 10_000_000), 1),
        (Function::ramp2(-1_000_000, -999_999, -1_000_000, -10_000_000), -1),
        (Function::ramp2(999_999, 1_000_000, 1_000_000, 10_000_000), 1),
    ] {
        assert_eq!(judged(&[function], Function::default()), Ok(()), "{function:?}");
        assert_eq!(read_line(&line(&function)), Ok(function));
        let (_, numbers) = function.line().expect("one of the kinds");
        for (k, number) in numbers.iter().enumerate() {
            for out in [number + outwards, i64::MIN, i64::MAX] {
                let mut other = function;
                other.numbers[k] = out;
                assert_eq!(judged(&[other], Function::default()), Err((2, 2)), "{other:?}");
                assert_eq!(read_line(&line(&other)), Err((2, 2)), "{other:?}");
            }
        }
    }
}

#[test]
fn start_is_below_end() {
    for (start, end) in [(0, 1), (-1_000_000, 1_000_000), (999_999, 1_000_000), (-1_000_000, -999_999)] {
        let ramp2 = Function::ramp2(start, end, 0, 1);
        assert_eq!(read_line(&line(&ramp2)), Ok(ramp2));
        for (start, end) in [(start, start), (end, end), (end, start)] {
            let ramp2 = Function::ramp2(start, end, 0, 1);
            assert_eq!(read_line(&line(&ramp2)), Err((2, 2)), "{ramp2:?}");
            assert_eq!(judged(&[ramp2], Function::default()), Err((2, 2)), "{ramp2:?}");
        }
    }
    assert_eq!(read_line("ramp\t5\t0\t5\t1"), Ok(Function::ramp(5, 0, 5, 1)), "A = B stays admitted");
}

#[test]
fn the_first_word_of_a_line_decides_its_form() {
    assert_eq!(read_line("step\t1\t2\t3"), Ok(Function::step(1, 2, 3)));
    assert_eq!(read_line("ramp2\t1\t2\t3\t4"), Ok(Function::ramp2(1, 2, 3, 4)));
    for line in [
        "step",
        "step\t1\t2",
        "step\t1\t2\t3\t0",
        "step\t1\t2\t3\t4",
        "step\t1\t2\t3\t",
        "step\t\t2\t3",
        "ramp\t1\t2\t3",
        "ramp2",
        "ramp2\t1\t2\t3",
        "ramp2\t1\t2\t3\t4\t5",
        "ramp2\t1\t2\t3\t",
        "ramp3\t1\t2\t3\t4",
        "ramp 2\t1\t2\t3\t4",
        "Step\t1\t2\t3",
        "steps\t1\t2\t3",
        "step \t1\t2\t3",
        "step 1 2 3",
        "const\t1",
        "",
    ] {
        assert_eq!(read_line(line), Err((1, 2)), "{line:?}");
    }
}

#[test]
fn form_comes_before_limits_on_a_line_and_lines_in_their_order() {
    for line in ["ramp2\t5\t5\t0", "ramp2\t5\t4\t0\t01", "step\t1000001\t0\t-0", "step\t0\t0\t10000001\t0"] {
        assert_eq!(read_line(line), Err((1, 2)), "{line}");
    }
    let (good, form, limit) = ("step\t1\t2\t3", "ramp2\t1\t2\t3", "ramp2\t2\t2\t0\t0");
    assert_eq!(read(&header(&[good, limit, form])), Err((2, 3)));
    assert_eq!(read(&header(&[good, form, limit])), Err((1, 3)));
    assert_eq!(read(&header(&[good, good, good, limit])), Err((2, 5)));
    let digits = "9".repeat(100);
    assert_eq!(read_line(&format!("step\t0\t0\t{digits}")), Err((2, 2)));
    assert_eq!(read_line(&format!("step\t0\t{digits}")), Err((1, 2)));
}

#[test]
fn all_kinds_are_counted_together_and_kept_in_order() {
    let lines = ["step\t1\t2\t3", "ramp2\t-5\t4\t3\t2", "ramp\t0\t1\t2\t3", "step\t0\t0\t0", "ramp2\t-1\t0\t0\t-1"];
    let functions = [
        Function::step(1, 2, 3),
        Function::ramp2(-5, 4, 3, 2),
        Function::ramp(0, 1, 2, 3),
        Function::step(0, 0, 0),
        Function::ramp2(-1, 0, 0, -1),
    ];
    let text = header(&lines);
    let group = read(&text).expect("an accepted header");
    assert_eq!((group.functions, &group.function[..5]), (5, &functions[..]));
    assert_eq!(group.function[5..], [Function::default(); 3]);
    let mut out = vec![7; text.len()];
    assert_eq!(write_header(&group, &mut out), Ok(text.len()));
    assert_eq!(String::from_utf8_lossy(&out), text);
    // a count of ramps alone, and one too many
    assert_eq!(read(&text.replacen("\t5\t1\n", "\t1\t1\n", 1)), Err((1, 3)));
    assert_eq!(read(&text.replacen("\t5\t1\n", "\t6\t1\n", 1)), Err((1, 7)));
    assert_eq!(read(&header(&["step\t1\t2\t3"; 8])).map(|group| group.functions), Ok(8));
    assert_eq!(read(&header(&["step\t1\t2\t3"; 9])), Err((2, 1)));
}

#[test]
fn an_unused_entry_is_a_ramp_of_zeros() {
    let step = Function::step(1, 2, 3);
    assert_eq!(judged(&[step], Function::default()), Ok(()));
    let unused = [Function::step(0, 0, 0), Function::ramp2(0, 0, 0, 0), Function::ramp2(0, 1, 0, 0), step];
    let kinds = [3, -1, i64::MIN, i64::MAX].map(|kind| Function { kind, ..Function::default() });
    let words = (0..4).map(|k| {
        let mut numbers = [0; 4];
        numbers[k] = 1;
        Function { kind: Function::RAMP, numbers }
    });
    for unused in unused.into_iter().chain(kinds).chain(words) {
        assert_eq!(judged(&[], unused), Err((2, 1)), "{unused:?}");
        assert_eq!(judged(&[step; 7], unused), Err((2, 1)), "{unused:?}");
        let bad = Function { kind: 3, ..step };
        assert_eq!(judged(&[bad], unused), Err((2, 1)), "the least place counts");
    }
}

#[test]
fn a_kind_is_one_of_three_and_a_step_has_no_fourth_number() {
    let (step, none) = (Function::step(1, 2, 3), Function::default());
    for kind in [3, -1, 256, 1 << 32, (1 << 32) + 1, i64::MIN, i64::MAX] {
        for numbers in [[0; 4], [1, 2, 3, 4]] {
            assert_eq!(judged(&[step, Function { kind, numbers }], none), Err((2, 3)), "{kind}");
        }
    }
    for fourth in [1, -1, i64::MIN, i64::MAX] {
        let odd = Function { numbers: [1, 2, 3, fourth], ..step };
        assert_eq!(judged(&[step, step, odd], none), Err((2, 4)), "{fourth}");
    }
    let mut group = read(&header(&["step\t1\t2\t3"])).expect("an accepted header");
    group.function[0].numbers[3] = 1;
    group.grid[0] = Grid { rank: 0, ..group.grid[0] };
    assert_eq!(judge(&group), Err(Refusal { number: 2, place: 2 }), "functions stand before grids");
    group.function[0].numbers[3] = 0;
    assert_eq!(judge(&group), Err(Refusal { number: 2, place: 3 }));
}

/// So the bound of a header's text stays as it was.
#[test]
fn no_line_is_longer_than_the_longest_of_a_ramp() {
    let most = |function: Function| {
        let mut group = read(&header(&[])).expect("an accepted header");
        let mut out = [0; 1_000];
        let without = write_header(&group, &mut out).expect("it is accepted");
        (group.functions, group.function[0]) = (1, function);
        write_header(&group, &mut out).expect("it is accepted") - without
    };
    assert_eq!(most(Function::ramp(-1_000_000, -10_000_000, -1_000_000, -10_000_000)), 43);
    assert_eq!(most(Function::ramp2(-1_000_000, -100_000, -1_000_000, -10_000_000)), 42);
    assert_eq!(most(Function::step(-1_000_000, -1_000_000, -10_000_000)), 33);
}
