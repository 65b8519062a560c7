//! Every case file of the repository through the second program, and those of timed calls through the plain one: all cases must
//! agree.

use cases::CaseFile;
use plain::Plain;
use reference::Reference;
use replay::{Difference, run, run_timed};
use std::fs;
use std::path::{Path, PathBuf};

/// The case files of the state that the host is built for, by name.
fn files() -> Vec<PathBuf> {
    let folder = Path::new(env!("CARGO_MANIFEST_DIR")).join("../../cases/after_07");
    let entries = fs::read_dir(folder).expect("the case files are there");
    let mut files: Vec<PathBuf> = entries.map(|entry| entry.expect("an entry").path()).collect();
    files.sort();
    files
}

/// Runs the files of all calls but these and prints how many cases each has.
fn all_agree(but: &[&str], run: impl Fn(&CaseFile) -> Vec<Difference>) {
    let mut cases = 0;
    for path in files() {
        let call = path.file_stem().and_then(|stem| stem.to_str()).expect("a plain name");
        if but.contains(&call) {
            continue;
        }
        let text = fs::read_to_string(&path).expect("text");
        let file = CaseFile::parse(call, &text).expect("a case file");
        let differences = run(&file);
        println!("{call}: {} cases, {} differ", file.cases.len(), differences.len());
        for difference in &differences {
            println!("{difference}");
        }
        assert!(differences.is_empty(), "{call}");
        cases += file.cases.len();
    }
    println!("all: {cases} cases");
    assert!(cases > 0);
}

#[test]
fn the_second_program_agrees_with_every_case() {
    all_agree(&[], |file| run(&Reference, file, |_| {}));
}

#[test]
fn the_plain_program_agrees_with_every_case_of_a_timed_call() {
    all_agree(&["field", "screen", "write_log"], |file| run_timed(&Plain, file, |_| {}));
}
