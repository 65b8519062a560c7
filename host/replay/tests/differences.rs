//! What `replay` says of cases that differ, of files that are no case files, and its exit statuses.

use cases::CaseFile;
use reference::Reference;
use std::fs;
use std::path::{Path, PathBuf};
use std::process::{Command, Output};

/// One case for each call whose expected answer is wrong, and where the answer differs from it.
const WRONG: [(&str, &str, &str); 31] = [
    ("read_header", "C\t-\t=>\trefuse\t1\t2\n", "place is 1 instead of 2"),
    ("read_header", "C\t-\t=>\trefuse\t2\t1\n", "returned 1 instead of 2"),
    ("judge_record", "G\tg\t- 0 0 0 0 0 0\nC\tg\t=>\tok\n", "returned 2 instead of 0"),
    (
        "write_header",
        "G\tg\t61 1 0 0 1 0 1|G 0 62 1 0 0 1 1 2 2 1 0 0\nC\tg\t99\t=>\tok\t51\t6767\n",
        "count is 50 instead of 51",
    ),
    (
        "write_header",
        "G\tg\t61 1 0 0 1 0 1|G 0 62 1 0 0 1 1 2 2 1 0 0\nC\tg\t99\t=>\tok\t50\t6767\n",
        "out[1] is 114 instead of 103",
    ),
    ("field", "C\t6109\t1\t=>\tok\t2\t3\n", "part[1] is 2 instead of 3"),
    (
        "lookup",
        "G\tg\t61 1 0 0 1 0 1|G 0 62 1 0 0 1 1 2 2 1 0 0\nN\tn\t4\tlist 7 8 9 10\nC\tg\tn\t0\t0\t0\t=>\tok\t1\t8\t0\t0\n",
        "fix[1] is 7 instead of 8",
    ),
    (
        "batch",
        "G\tg\t61 1 0 0 1 0 1|G 0 62 1 0 0 1 1 2 2 1 0 0\nN\tn\t4\tlist 7 8 9 10\n\
         C\tg\tn\t2\t0,0,0 9,9,0\t=>\tok\tok,1,7,0,0 refuse,7,1\n",
        "results[7] is 0 instead of 1",
    ),
    (
        "batch",
        "G\tg\t61 1 0 0 1 0 1|G 0 62 1 0 0 1 1 2 2 1 0 0\nN\tn\t4\tlist 7 8 9 10\n\
         C\tg\tn\t2\t0,0,0 1,1,0\t=>\tok\tok,1,7,0,0 ok,1,9,0,0\n",
        "results[9] is 10 instead of 9",
    ),
    (
        "batch",
        "G\tg\t61 1 0 0 1 0 1|G 0 62 1 0 0 1 1 2 2 1 0 0\nN\tn\t3\tlist 7 8 9\nC\tg\tn\t0\t-\t=>\tok\t-\n",
        "returned 13 instead of 0",
    ),
    (
        "batch",
        "G\tg\t61 1 0 0 1 0 1|G 0 62 1 0 0 1 1 2 2 1 0 0\nN\tn\t4\tlist 7 8 9 10\nC\tg\tn\t1\t0,0,0\t=>\tok\t-\n",
        "results are 1 instead of 0",
    ),
    (
        "in_force",
        "G\tg\t61 1 0 0 1 0 1|G 0 62 1 0 0 1 1 2 2 1 0 0\nC\tg\t0\t9\t0\t9\t=>\tok\t0\t\n",
        "list[0] is 1 instead of 0",
    ),
    (
        "hole",
        "G\tg\t61 1 0 0 1 0 1|G 0 62 1 0 0 1 1 2 2 1 0 0\nC\tg\t0\t9\t0\t9\t=>\tok\t0\t0\t0\n",
        "uncovered[0] is 1 instead of 0",
    ),
    (
        "hole",
        "G\tg\t61 1 0 0 1 0 1|G 0 62 1 0 0 1 1 2 2 1 0 0\nC\tg\t0\t9\t0\t9\t=>\tok\t1\t1\t0\n",
        "uncovered[1] is 2 instead of 1",
    ),
    (
        "hole",
        "G\tg\t61 1 0 0 1 0 1|G 0 62 1 0 0 1 1 2 2 1 0 0\nC\tg\t0\t1\t0\t1\t=>\tok\t0\t0\t1\n",
        "uncovered[2] is 0 instead of 1",
    ),
    (
        "hole",
        "G\tg\t61 1 0 0 1 0 1|G 0 62 1 0 0 1 1 2 2 1 0 0\nC\tg\t1\t0\t0\t1\t=>\tok\t0\t0\t0\n",
        "returned 10 instead of 0",
    ),
    (
        "judge_log",
        "G\tg\t61 1 0 0 1 0 1|G 0 62 1 0 0 1 1 2 2 1 0 0\nN\tn\t4\tlist 7 8 9 10\n\
         C\tg\tn\t666978093009300930096209370a0a\t=>\tok\t1\t1\n",
        "fault[0] is 2 instead of 1",
    ),
    (
        "judge_log",
        "G\tg\t61 1 0 0 1 0 1|G 0 62 1 0 0 1 1 2 2 1 0 0\nN\tn\t4\tlist 7 8 9 10\n\
         C\tg\tn\t666978093009300930096209370a\t=>\tok\t0\t4\n",
        "fault[1] is 0 instead of 4",
    ),
    (
        "judge_log",
        "G\tg\t61 1 0 0 1 0 1|G 0 62 1 0 0 1 1 2 2 1 0 0\nN\tn\t3\tlist 7 8 9\nC\tg\tn\t-\t=>\tok\t0\t0\n",
        "returned 13 instead of 0",
    ),
    (
        "write_log",
        "G\tg\t61 1 0 0 1 0 1|G 0 62 1 0 0 1 1 2 2 1 0 0\nN\tn\t4\tlist 7 8 9 10\n\
         C\tg\tn\t0\t0\t0\t99\t=>\tok\t14\t66697809300930093009620937\n",
        "out[13] is 10 instead of 168",
    ),
    (
        "write_log",
        "G\tg\t61 1 0 0 1 0 1|G 0 62 1 0 0 1 1 2 2 1 0 0\nN\tn\t4\tlist 7 8 9 10\n\
         C\tg\tn\t0\t0\t0\t99\t=>\tok\t13\t66697809300930093009620937\n",
        "count is 14 instead of 13",
    ),
    (
        "write_log",
        "G\tg\t61 1 0 0 1 0 1|G 0 62 1 0 0 1 1 2 2 1 0 0\nN\tn\t4\tlist 7 8 9 10\n\
         C\tg\tn\t0\t0\t0\t13\t=>\tok\t14\t666978093009300930096209370a\n",
        "returned 12 instead of 0",
    ),
    ("load", "C\t0\t7fc00000\t1\t3f800000\t=>\tok\t2\n", "nodes[0] is 1 instead of 2"),
    ("load", "C\t0\t7fc00000\t1\t7f800000\t=>\trefuse\t11\t2\n", "place is 1 instead of 2"),
    ("load", "C\t-1\t7fc00000\t0\t-\t=>\tok\t\n", "returned 2 instead of 0"),
    ("load", "C\t0\t7fc00000\t1\t-\t=>\tok\t-\n", "returned 12 instead of 0"),
    (
        "screen",
        "C\t0\t0\t0\t1\t0\t0\t1\t1\t0\t0\t=>\tok\t0000000000000000 0000000000000000 3ff0000000000000 8000000000000000 \
         0000000000000000\n",
        "screen[3] is 0.0 instead of -0.0",
    ),
    ("day_factor", "C\t-\t0\t=>\tok\t1000001\n", "fix[1] is 1000000 instead of 1000001"),
    (
        "day_factor",
        "C\tF 0 step 5 5 7 0|F 1 ramp2 0 3 1 1|F 2 ramp 0 2 0 2\t4\t=>\tok\t-3\n",
        "fix[1] is -4 instead of -3",
    ),
    (
        "judge_record",
        "G\tg\t61 1 0 0 1 0 1|F 0 step 0 0 0 0|G 0 62 1 0 0 1 1 2 2 1 0 0\nC\tg\t=>\tok\n",
        "returned 2 instead of 0",
    ),
    (
        "judge_record",
        "G\tg\t61 1 0 0 1 1 1|F 0 step 0 0 0 1|G 0 62 1 0 0 1 1 2 2 1 0 0\nC\tg\t=>\trefuse\t2\t1\n",
        "place is 2 instead of 1",
    ),
];

#[test]
fn wrong_expectations_are_found_out() {
    for (call, text, why) in WRONG {
        let file = CaseFile::parse(call, text).expect("a case file");
        let differences = replay::run(&Reference, &file, |_| {});
        let found: Vec<&str> = differences.iter().map(|difference| difference.why.as_str()).collect();
        assert_eq!(found, [why], "{call}");
    }
}

#[test]
fn a_load_case_may_have_a_q_below_zero_and_no_floats() {
    let text = "C\t-1\t00000000\t0\t-\t=>\trefuse\t2\t0\nC\t0\t00000000\t0\t-\t=>\tok\t-\n";
    let file = CaseFile::parse("load", text).expect("a case file");
    assert_eq!(file.cases.len(), 2);
    assert!(replay::run(&Reference, &file, |_| {}).is_empty());
}

/// A file of this name and text, in a folder of its own.
fn file(folder: &str, name: &str, text: &str) -> PathBuf {
    let folder = Path::new(env!("CARGO_TARGET_TMPDIR")).join(folder);
    fs::create_dir_all(&folder).expect("the folder can be made");
    let path = folder.join(name);
    fs::write(&path, text).expect("the file can be written");
    path
}

/// The status, the standard output and the standard error of `replay` over the second program.
fn replay(files: &[&Path]) -> (Option<i32>, String, String) {
    let test = std::env::current_exe().expect("this test has a path");
    let program = test.parent().and_then(Path::parent).expect("it stands in deps/").join("examples/replay_reference");
    let Output { status, stdout, stderr } = Command::new(program).args(files).output().expect("the program runs");
    (status.code(), String::from_utf8_lossy(&stdout).into(), String::from_utf8_lossy(&stderr).into())
}

#[test]
fn the_status_says_whether_any_case_differs() {
    let good = file("good", "field.tsv", "C\t-\t0\t=>\tok\t0\t0\n");
    let wrong = file("wrong", "field.tsv", "C\t-\t0\t=>\tok\t0\t0\nC\t-\t0\t=>\tok\t0\t1\n");
    let (status, out, err) = replay(&[&good]);
    assert_eq!((status, out, err), (Some(0), format!("{}: 1 cases, 0 differ\n", good.display()), String::new()));
    let (status, out, _) = replay(&[&wrong, &good]);
    let lines: Vec<&str> = out.lines().collect();
    assert_eq!(status, Some(1));
    assert_eq!(lines[0], format!("{}: 2 cases, 1 differ", wrong.display()));
    assert_eq!(lines[1], "  line 2: part[1] is 0 instead of 1");
    assert_eq!(lines.last().copied(), Some(format!("{}: 1 cases, 0 differ", good.display()).as_str()));
}

#[test]
fn bad_files_have_status_2() {
    let cases = [
        ("field.tsv", "C\tzz\t0\t=>\tok\t0\t0\n", "line 1: 'zz' are no hex bytes"),
        ("field.tsv", "C\t-\t0\t=>\tok\t0\n", "line 1: no answer of a field case"),
        ("field.tsv", "X\n", "line 1: neither G, N nor C"),
        ("judge_record.tsv", "C\tg7\t=>\tok\n", "line 1: no group 'g7' is defined before"),
        (
            "batch.tsv",
            "G\tg\t- 0 0 0 0 0 0\nN\tn\t0\tlist\nC\tg\tn\t1\t0,0\t=>\tok\t-\n",
            "line 3: '0,0' is no lon,lat,day",
        ),
        (
            "batch.tsv",
            "G\tg\t- 0 0 0 0 0 0\nN\tn\t0\tlist\nC\tg\tn\t0\t-\t=>\tok\tok,1\n",
            "line 3: 'ok,1' is no answer of a point",
        ),
        ("hole.tsv", "G\tg\t- 0 0 0 0 0 0\nC\tg\t0\t0\t0\t=>\tok\t0\t0\t0\n", "line 2: no inputs of a hole case"),
        ("hole.tsv", "G\tg\t- 0 0 0 0 0 0\nC\tg\t0\t0\t0\t0\t=>\tok\t0\n", "line 2: no answer of a hole case"),
        (
            "judge_log.tsv",
            "G\tg\t- 0 0 0 0 0 0\nN\tn\t0\tlist\nC\tg\tn\t=>\tok\t0\t0\n",
            "line 3: no inputs of a judge_log case",
        ),
        (
            "judge_log.tsv",
            "G\tg\t- 0 0 0 0 0 0\nN\tn\t0\tlist\nC\tg\tn\t-\t=>\tok\t0\n",
            "line 3: no answer of a judge_log case",
        ),
        (
            "write_log.tsv",
            "G\tg\t- 0 0 0 0 0 0\nN\tn\t0\tlist\nC\tg\tn\t0\t0\t0\t=>\tok\t0\t-\n",
            "line 3: no inputs of a write_log case",
        ),
        ("plan.tsv", "C\t1\t=>\tok\n", "line 1: no inputs of a plan case"),
        ("day_factor.tsv", "C\tF 0 ramp3 0 0 0 0\t0\t=>\tok\t0\n", "line 1: 'F 0 ramp3 0 0 0 0' is no function record"),
        ("day_factor.tsv", "C\tF 0 step 0 0 0\t0\t=>\tok\t0\n", "line 1: 'F 0 step 0 0 0' is no function record"),
        ("judge_record.tsv", "G\tg\t- 0 0 0 0 0 0|F 8 step 0 0 0 0\n", "line 1: there is no entry 8, only 0 to 7"),
    ];
    for (k, (name, text, why)) in cases.into_iter().enumerate() {
        let path = file(&format!("bad{k}"), name, text);
        let (status, out, err) = replay(&[&path]);
        assert_eq!((status, out), (Some(2), String::new()));
        assert_eq!(err, format!("replay: {}: {why}\n", path.display()));
    }
    assert_eq!(replay(&[]).0, Some(2));
    assert_eq!(replay(&[Path::new("/nowhere/field.tsv")]).0, Some(2));
}
