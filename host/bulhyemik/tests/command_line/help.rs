//! Help, and the version.

use crate::program::{Folder, accepted};
use std::fs;

const COMMANDS: [&str; 10] =
    ["check", "grids", "format", "lookup", "screen", "inforce", "hole", "judge", "load", "help"];

/// A file of the repository.
fn paper(name: &str) -> String {
    let path = format!("{}/../../{name}", env!("CARGO_MANIFEST_DIR"));
    fs::read_to_string(path).expect("the repository has it")
}

#[test]
fn all_ways_to_help_say_the_same() {
    let folder = Folder::new("help");
    let all = folder.run("--help");
    assert!(all.out.starts_with("usage: bulhyemik COMMAND"));
    assert!(all.out.contains("docs/RULES.md"));
    assert_eq!((all.status, all.err.as_str()), (0, ""));
    assert_eq!(folder.run("-h"), all);
    assert_eq!(folder.run("help"), all);
    for command in COMMANDS {
        let text = folder.run(&format!("{command} --help"));
        assert!(text.out.starts_with(&format!("usage: bulhyemik {command} ")), "{command}");
        assert!(all.out.contains(&format!("\n  {command} ")), "{command}");
        assert!(text.out.contains("\nexit status: 0"), "{command}");
        assert_eq!((text.status, text.err.as_str()), (0, ""), "{command}");
        assert_eq!(folder.run(&format!("{command} dock.txt -h")), text, "{command}");
        assert_eq!(folder.run(&format!("help {command}")), text, "{command}");
    }
}

#[test]
fn the_usage_lines_name_the_options_of_a_command() {
    let folder = Folder::new("options");
    for command in COMMANDS {
        let text = folder.run(&format!("help {command}")).out;
        let (usage, _) = text.split_once("\n\n").expect("more is said behind the usage");
        for option in ["--functions", "--tsv", "--json", "--csv"] {
            let unknown = folder.run(&format!("{command} {option}")).err.contains("there is no option");
            assert_eq!(usage.contains(option), !unknown, "{command} {option}");
        }
    }
}

#[test]
fn a_point_refused_is_status_1_in_every_help_text() {
    let folder = Folder::new("statuses");
    for command in ["lookup", "screen"] {
        let text = folder.run(&format!("help {command}")).out;
        assert!(text.ends_with("exit status: 0 accepted, 1 refused (one point or more), 2 usage or file error\n"));
    }
    let all = folder.run("help").out;
    assert!(all.ends_with("exit status: 0 accepted or passed, 1 refused or failed, 2 usage or file error\n"));
}

#[test]
fn the_version_is_that_of_the_c_header_and_of_the_changelog() {
    let header = paper("include/bulhyemik.h");
    let defined = header.lines().find_map(|line| line.strip_prefix("#define BULHYEMIK_VERSION ")).expect("it has one");
    let number: u64 = defined.trim().parse().expect("it is a number");
    let version = format!("{}.{}.{}", number / 1_000_000, number / 1_000 % 1_000, number % 1_000);
    let folder = Folder::new("version");
    assert_eq!(folder.run("--version"), accepted(&format!("bulhyemik {version}\n")));
    assert_eq!(folder.run("-V"), folder.run("--version"));
    let changelog = paper("CHANGELOG.md");
    // the version, or what has changed since it
    let newest = changelog.lines().find_map(|line| line.strip_prefix("## ")).expect("it has a version");
    assert_eq!(newest.strip_prefix("Since ").unwrap_or(newest), version);
    assert_eq!(env!("CARGO_PKG_VERSION"), version);
}
