//! The program's table of some rows: times, and instructions and divisions where valgrind and objdump are installed.

use std::path::Path;
use std::process::{Command, Output};

/// The status, the standard output and the standard error of `bench` over the second program.
fn bench(arguments: &[&str]) -> (Option<i32>, String, String) {
    let test = std::env::current_exe().expect("this test has a path");
    let program = test.parent().and_then(Path::parent).expect("it stands in deps/").join("examples/bench_reference");
    let Output { status, stdout, stderr } = Command::new(program).args(arguments).output().expect("the program runs");
    (status.code(), String::from_utf8_lossy(&stdout).into(), String::from_utf8_lossy(&stderr).into())
}

/// The first column of a table.
fn first_column(table: &str) -> Vec<&str> {
    table.lines().map(|line| line.split('|').nth(1).unwrap_or(line).trim()).collect()
}

#[test]
fn only_the_rows_that_are_asked_for_are_timed() {
    let (status, out, _) = bench(&["--rows", "write a header", "--rows", "judge"]);
    assert_eq!(first_column(&out), ["work", "---", "judge of 64 grids", "write a header of 64 grids"]);
    assert_eq!(status, Some(0));
    assert!(out.lines().skip(2).all(|row| row.contains(" µs | ")), "{out}");
}

#[test]
fn words_that_no_row_has_end_the_program() {
    let (status, out, err) = bench(&["--rows", "judges"]);
    assert_eq!((status, out), (Some(2), String::new()));
    assert!(err.starts_with("bench: no row has 'judges' in its name; the rows are\n  judge of 64 grids\n"), "{err}");
}

#[test]
fn instructions_of_some_rows_are_counted_one_by_one_or_two_at_a_time() {
    for jobs in ["1", "2"] {
        let (status, out, err) = bench(&["--rows", "judge", "--instructions", "--jobs", jobs]);
        if err.contains("valgrind is not installed") {
            return;
        }
        assert_eq!((first_column(&out), status), (vec!["work", "---", "judge of 64 grids"], Some(0)), "{err}");
        let figures: String = out.lines().skip(2).collect();
        assert!(figures.contains(',') && !figures.contains('µ'), "{figures}");
    }
}

/// Each of the 10,000 roundings takes as many divisions as the next: one, or more where nothing is optimized.
#[test]
#[cfg(target_arch = "x86_64")]
fn divisions_of_a_row_are_counted_and_repeat() {
    let divisions = |jobs| bench(&["--rows", "10,000 values", "--divisions", "--jobs", jobs]);
    let (status, out, err) = divisions("1");
    if err.contains("is not installed") {
        return;
    }
    let names = vec!["work", "---", "the rounding alone, 10,000 values"];
    assert_eq!((first_column(&out), status), (names, Some(0)), "{err}");
    let plain = out.lines().nth(2).and_then(|row| row.split('|').nth(2)).expect("a figure");
    let count: u64 = plain.trim().replace(',', "").parse().expect("a count");
    assert!(count > 0 && count.is_multiple_of(10_000), "{out}");
    assert_eq!(divisions("2"), (status, out, err));
}
