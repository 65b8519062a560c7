//! docs/RULES.md: its headers are accepted, its worked example is what is answered, its log passes, and each refusal has its row.

use crate::program::{Folder, accepted, refused_at, words};

const RULES: &str = include_str!("../../../../docs/RULES.md");

/// The example lines that begin with a keyword, without what is said of them, and with tabs.
fn lines(keyword: &str) -> Vec<String> {
    let begin = format!("    {keyword}→");
    let line = |line: &str| line.trim().split("  ").next().map(|line| line.replace('→', "\t"));
    RULES.lines().filter(|line| line.starts_with(&begin)).filter_map(line).collect()
}

#[test]
fn the_example_lines_are_accepted() {
    let folder = Folder::new("rules-lines");
    let [groups, ramps, steps, ramp2s, grids] = ["group", "ramp", "step", "ramp2", "grid"].map(lines);
    assert_eq!([&groups, &ramps, &steps, &ramp2s, &grids].map(Vec::len), [2, 3, 2, 2, 5]);
    for function in [&ramps[..], &steps, &ramp2s].concat() {
        for grid in &grids {
            let text = format!("{}\n{function}\n{grid}\n", groups[0]);
            assert_eq!(folder.run_with(&["check", "-"], text.as_bytes()), accepted("accepted\n"), "{text}");
        }
    }
    let harbour = format!("{}\n{}\n{}\n{}\n{}\n", groups[1], ramps[1], ramps[2], grids[1], grids[2]);
    let third = harbour + "grid\tthird\t0\t0\t1\t1\t2\t2\t1\t0\n";
    assert_eq!(folder.run_with(&["check", "-"], third.as_bytes()), accepted("accepted\n"));
}

#[test]
fn the_worked_example_is_answered_so() {
    let folder = Folder::new("rules-example");
    let header = [lines("group"), lines("ramp"), lines("grid")].map(|lines| lines[0].clone() + "\n").concat();
    folder.put("dock.txt", header.as_bytes());
    let fix = |point: &str| folder.run(&format!("lookup dock.txt dock.nodes {point} 200"));
    assert_eq!(fix("5 5"), accepted("fix\t5\t5\t200\tbasin\t55\n"));
    assert_eq!(fix("20 10"), accepted("fix\t20\t10\t200\tbasin\t120\n"));
    assert_eq!(fix("21 10"), refused_at(7, 0, [21, 10, 200], "no grid holds the point"));
    folder.put("dock.nodes", &words(&[0, i32::MIN, 20, 100, 110, 120].map(i32::to_le_bytes)));
    assert_eq!(fix("0 5"), accepted("fix\t0\t5\t200\tbasin\t50\n"));
    assert_eq!(fix("1 5"), refused_at(8, 0, [1, 5, 200], "a node that the point needs is the no-data mark"));
}

#[test]
fn the_log_passes_and_each_kind_has_its_words() {
    let folder = Folder::new("rules-log");
    let judged = |log: &str| folder.run_with(&["judge", "dock.txt", "dock.nodes", "-"], log.as_bytes());
    assert_eq!(judged(&(lines("fix").join("\n") + "\n")), accepted("passed\t2\n"));
    let (_, logs) = RULES.split_once("## Logs").expect("it has the logs");
    for (kind, line) in [
        (1, "fix\t5\t5\t200\tbasin\n"),
        (2, "fix\t21\t10\t200\tbasin\t0\n"),
        (3, "fix\t5\t5\t200\tquay\t55\n"),
        (4, "fix\t5\t5\t200\tbasin\t56\n"),
    ] {
        let row = logs.lines().find_map(|line| line.strip_prefix(&format!("| {kind} | "))).expect("it has the kind");
        let words = row.split(" | ").next().expect("it has words");
        assert_eq!(judged(line).out, format!("failed\t1\t{words}\n"));
    }
}

#[test]
fn every_refusal_has_its_row() {
    let (_, table) = RULES.split_once("## Refusals").expect("it has the refusals");
    let numbers: Vec<u32> =
        table.lines().filter_map(|line| line.strip_prefix("| ")?.split(" | ").next()?.parse().ok()).collect();
    assert_eq!(numbers, (1..=13).collect::<Vec<u32>>());
}
