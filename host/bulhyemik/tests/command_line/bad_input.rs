//! Bad input to the command line: a clear message, status 2, and nothing written.

use crate::program::{Answer, Folder, as_a_plain_user, stopped};
use std::ffi::OsStr;
use std::os::unix::ffi::OsStrExt;

const WHOLE: &str = "a whole number, as 12, 0 or -5, without plus or leading zero";

/// Each command line must stop with its message and leave every file as it was.
fn all_stop(folder: &Folder, cases: &[(&str, String)]) {
    let before = folder.files();
    for (arguments, message) in cases {
        assert_eq!(folder.run(arguments), stopped(message), "{arguments}");
        assert_eq!(folder.files(), before, "{arguments}");
    }
}

#[test]
fn missing_files() {
    let missing = |file: &str| format!("cannot read {file}: there is no such file or folder; check the path");
    all_stop(
        &Folder::new("missing"),
        &[
            ("check none.txt", missing("none.txt")),
            ("format none/none.txt", missing("none/none.txt")),
            ("lookup none.txt dock.nodes 0 0 0", missing("none.txt")),
            ("lookup dock.txt none.nodes 0 0 0", missing("none.nodes")),
            ("lookup dock.txt none.nodes", missing("none.nodes")),
            ("screen dock.txt none.nodes 0 0 0", missing("none.nodes")),
            ("inforce none.txt 0 0 0 0", missing("none.txt")),
            ("hole none.txt 0 0 0 0", missing("none.txt")),
            ("judge none.txt dock.nodes -", missing("none.txt")),
            ("judge dock.txt none.nodes -", missing("none.nodes")),
            ("judge dock.txt dock.nodes none.log", missing("none.log")),
            ("load none.floats new.nodes 0", missing("none.floats")),
            ("check dock.txt/x", "cannot read dock.txt/x: a part of the path is no folder; check the path".into()),
        ],
    );
}

#[test]
fn folders_for_files() {
    let folder = Folder::new("folders");
    folder.make_folder("sub");
    let read = || "cannot read sub: it is a folder; name a file".to_string();
    all_stop(
        &folder,
        &[
            ("check sub", read()),
            ("format sub", read()),
            ("lookup sub dock.nodes 0 0 0", read()),
            ("lookup dock.txt sub 0 0 0", read()),
            ("screen dock.txt sub 0 0 0", read()),
            ("inforce sub 0 0 0 0", read()),
            ("hole sub 0 0 0 0", read()),
            ("judge dock.txt dock.nodes sub", read()),
            ("load sub new.nodes 0", read()),
            ("load dock.floats sub 0", "cannot write sub: it is a folder; name a file".into()),
        ],
    );
}

#[test]
fn truncated_node_files() {
    let folder = Folder::new("truncated");
    folder.put("cut.nodes", &[0; 23]);
    folder.put("one.floats", &[0; 1]);
    let cut = |file: &str, bytes: usize| {
        format!(
            "cannot use {file}: {bytes} bytes are no multiple of 4, so it is cut short or holds something else; \
             check how it was made"
        )
    };
    all_stop(
        &folder,
        &[
            ("lookup dock.txt cut.nodes 0 0 0", cut("cut.nodes", 23)),
            ("lookup dock.txt cut.nodes", cut("cut.nodes", 23)),
            ("screen dock.txt cut.nodes 0 0 0", cut("cut.nodes", 23)),
            ("judge dock.txt cut.nodes -", cut("cut.nodes", 23)),
            ("load one.floats new.nodes 0", cut("one.floats", 1)),
        ],
    );
}

#[test]
fn unreadable_files() {
    let failed =
        || "cannot read /proc/self/mem: Input/output error (os error 5); check the file and its disk".to_string();
    all_stop(
        &Folder::new("unreadable"),
        &[
            ("check /proc/self/mem", failed()),
            ("lookup dock.txt /proc/self/mem 0 0 0", failed()),
            ("judge dock.txt dock.nodes /proc/self/mem", failed()),
            ("load /proc/self/mem new.nodes 0", failed()),
        ],
    );
}

#[test]
fn files_that_this_user_may_not_read() {
    let folder = Folder::new("denied");
    let message = "cannot read dock.txt: permission is denied; check who may use it";
    as_a_plain_user(&folder, "chmod 0 dock.txt", "check dock.txt", message);
}

#[test]
fn unknown_commands_and_options() {
    let folder = Folder::new("unknown");
    all_stop(
        &folder,
        &[
            ("chek dock.txt", "there is no command 'chek'; see bulhyemik --help".into()),
            ("help chek", "there is no command 'chek'; see bulhyemik --help".into()),
            ("--verbose", "there is no option '--verbose'; see bulhyemik --help".into()),
            ("-v", "there is no option '-v'; see bulhyemik --help".into()),
            ("check --quick dock.txt", "there is no option '--quick'; see bulhyemik check --help".into()),
            ("check -q dock.txt", "there is no option '-q'; see bulhyemik check --help".into()),
            ("check --tsv dock.txt", "there is no option '--tsv'; see bulhyemik check --help".into()),
            ("check --json dock.txt", "there is no option '--json'; see bulhyemik check --help".into()),
            ("format --csv dock.txt", "there is no option '--csv'; see bulhyemik format --help".into()),
            ("load dock.floats new.nodes 0 --json", "there is no option '--json'; see bulhyemik load --help".into()),
            ("judge --json dock.txt dock.nodes -", "there is no option '--json'; see bulhyemik judge --help".into()),
            ("help --csv", "there is no option '--csv'; see bulhyemik help --help".into()),
            ("inforce --tsv dock.txt 0 0 0 0", "there is no option '--tsv'; see bulhyemik inforce --help".into()),
            ("lookup --JSON dock.txt dock.nodes", "there is no option '--JSON'; see bulhyemik lookup --help".into()),
            ("--json grids dock.txt", "there is no option '--json'; see bulhyemik --help".into()),
            ("lookup dock.txt dock.nodes -x 0 0", "there is no option '-x'; see bulhyemik lookup --help".into()),
            ("check -- -q", "cannot read -q: there is no such file or folder; check the path".into()),
        ],
    );
    let odd = OsStr::from_bytes(b"ch\xffck");
    let answer = folder.run_with(&[odd], b"");
    assert_eq!(answer, stopped("there is no command 'ch\\xffck'; see bulhyemik --help"));
}

#[test]
fn no_command_at_all() {
    let Answer { status, out, err } = Folder::new("nothing").run("");
    assert_eq!((status, out), (2, String::new()));
    assert!(err.starts_with("bulhyemik: no command is named\n\nusage: bulhyemik COMMAND"));
}

#[test]
fn too_few_and_too_many_arguments() {
    let takes = |command: &str, named: &str, count: &str| {
        format!("{command} takes {named}, not {count}; see bulhyemik {command} --help")
    };
    let (check, area) = ("HEADER, or HEADER NODES", "HEADER WEST EAST SOUTH NORTH");
    let (points, load) = ("HEADER NODES, or HEADER NODES LON LAT DAY", "FLOATS NODES Q, or FLOATS NODES Q FLAG");
    all_stop(
        &Folder::new("counts"),
        &[
            ("check", takes("check", check, "0 arguments")),
            ("check dock.txt dock.nodes 0", takes("check", check, "3 arguments")),
            ("grids", takes("grids", "HEADER", "0 arguments")),
            ("help check format", takes("help", "COMMAND, or nothing", "2 arguments")),
            ("format", takes("format", "HEADER", "0 arguments")),
            ("lookup dock.txt", takes("lookup", points, "1 argument")),
            ("lookup dock.txt dock.nodes 1", takes("lookup", points, "3 arguments")),
            ("lookup dock.txt dock.nodes 1 2", takes("lookup", points, "4 arguments")),
            ("lookup dock.txt dock.nodes 1 2 3 4", takes("lookup", points, "6 arguments")),
            ("screen dock.txt dock.nodes 1 2", takes("screen", points, "4 arguments")),
            ("inforce dock.txt 1 2 3", takes("inforce", area, "4 arguments")),
            ("inforce dock.txt 1 2 3 4 5", takes("inforce", area, "6 arguments")),
            ("hole dock.txt 1 2 3", takes("hole", area, "4 arguments")),
            ("hole dock.txt 1 2 3 4 5", takes("hole", area, "6 arguments")),
            ("judge dock.txt dock.nodes", takes("judge", "HEADER NODES LOG", "2 arguments")),
            ("judge dock.txt dock.nodes - -", takes("judge", "HEADER NODES LOG", "4 arguments")),
            ("load dock.floats new.nodes", takes("load", load, "2 arguments")),
            ("load dock.floats new.nodes 0 0 0", takes("load", load, "5 arguments")),
        ],
    );
}

#[test]
fn numbers_not_of_the_form() {
    let not = |command: &str, name: &str, word: &str, wanted: &str| {
        format!("{name} is '{word}', but must be {wanted}; see bulhyemik {command} --help")
    };
    let flag = "a number, as -9999 or 1.5e30, or a float's bits, as 0xc61c3c00";
    all_stop(
        &Folder::new("numbers"),
        &[
            ("lookup dock.txt dock.nodes 1.0 2 3", not("lookup", "LON", "1.0", WHOLE)),
            ("lookup dock.txt dock.nodes 1 +2 3", not("lookup", "LAT", "+2", WHOLE)),
            ("lookup dock.txt dock.nodes 1 2 03", not("lookup", "DAY", "03", WHOLE)),
            ("screen dock.txt dock.nodes -0 2 3", not("screen", "LON", "-0", WHOLE)),
            ("screen dock.txt dock.nodes - 2 3", not("screen", "LON", "-", WHOLE)),
            ("inforce dock.txt a 0 0 0", not("inforce", "WEST", "a", WHOLE)),
            ("inforce dock.txt 0 1e3 0 0", not("inforce", "EAST", "1e3", WHOLE)),
            ("inforce dock.txt 0 0 0x1 0", not("inforce", "SOUTH", "0x1", WHOLE)),
            ("inforce dock.txt 0 0 0 1,000", not("inforce", "NORTH", "1,000", WHOLE)),
            ("hole dock.txt 0 +1 0 0", not("hole", "EAST", "+1", WHOLE)),
            ("hole dock.txt 0 0 0 -0", not("hole", "NORTH", "-0", WHOLE)),
            ("load dock.floats new.nodes 1.5", not("load", "Q", "1.5", WHOLE)),
            ("load dock.floats new.nodes 0 nan", not("load", "FLAG", "nan", flag)),
            ("load dock.floats new.nodes 0 0xc61c3c", not("load", "FLAG", "0xc61c3c", flag)),
        ],
    );
}

#[test]
fn points_not_of_the_form() {
    let folder = Folder::new("points");
    let before = folder.files();
    let wanted = "must be LON, LAT and DAY, whole numbers parted by tabs";
    let long = format!("line 1 of standard input is '{}..'", "1".repeat(60));
    let cases: [(&[u8], &str); 7] = [
        (&[b'1'; 1 << 20], &long),
        (b"5 5 5\n", "line 1 of standard input is '5 5 5'"),
        (b"5\t5\n", "line 1 of standard input is '5\\t5'"),
        (b"5\t5\t5\r\n", "line 1 of standard input is '5\\t5\\t5\\r'"),
        (b"\n", "line 1 of standard input is ''"),
        (b"5\t5\t5\t5\n", "line 1 of standard input is '5\\t5\\t5\\t5'"),
        (b"\xff\t5\t05\n", "line 1 of standard input is '\\xff\\t5\\t05'"),
    ];
    for (input, line) in cases {
        for command in ["lookup", "screen"] {
            let answer = folder.run_with(&[command, "dock.txt", "dock.nodes"], input);
            assert_eq!(answer, stopped(&format!("{line}, but {wanted}; see bulhyemik {command} --help")));
            assert_eq!(folder.files(), before);
        }
    }
}

#[test]
fn standard_input_for_two_things() {
    let points = "standard input holds the points, so HEADER and NODES must be files; see bulhyemik lookup --help";
    all_stop(
        &Folder::new("twice"),
        &[
            ("lookup - - 0 0 0", "HEADER and NODES are both standard input; see bulhyemik lookup --help".into()),
            ("lookup - dock.nodes", points.into()),
            ("lookup dock.txt -", points.into()),
            ("check - -", "HEADER and NODES are both standard input; see bulhyemik check --help".into()),
            ("judge - dock.nodes -", "HEADER and LOG are both standard input; see bulhyemik judge --help".into()),
            ("judge dock.txt - -", "NODES and LOG are both standard input; see bulhyemik judge --help".into()),
            ("judge - - -", "HEADER and NODES are both standard input; see bulhyemik judge --help".into()),
            ("load dock.floats - 0", "NODES is '-', but must be a file; see bulhyemik load --help".into()),
        ],
    );
}

#[test]
fn names_that_a_terminal_would_obey_are_escaped() {
    let folder = Folder::new("escaped");
    let name = "no\n\u{1b}[31mfile";
    let missing = "there is no such file or folder; check the path";
    assert_eq!(
        folder.run_with(&["check", name], b""),
        stopped(&format!("cannot read no\\n\\u{{1b}}[31mfile: {missing}"))
    );
    assert_eq!(folder.run_with(&["check", ""], b""), stopped(&format!("cannot read '': {missing}")));
    let answer = folder.run_with(&["load", "dock.floats", "none/\u{7}", "0"], b"");
    assert_eq!(answer, stopped(&format!("cannot write none/\\u{{7}}: {missing}")));
    let wrong = folder.run_with(&["inforce", "dock.txt", "\u{1b}c", "0", "0", "0"], b"");
    assert_eq!(wrong, stopped(&format!("WEST is '\\u{{1b}}c', but must be {WHOLE}; see bulhyemik inforce --help")));
}

#[test]
fn no_memory_for_a_file() {
    let folder = Folder::new("memory");
    let memory = "there is not enough memory for it; use a smaller file or free memory";
    let cases = [
        ("check large", format!("cannot read large: {memory}")),
        ("check dock.txt large", format!("cannot read large: {memory}")),
        ("lookup dock.txt large 0 0 0", format!("cannot read large: {memory}")),
        ("judge dock.txt dock.nodes large", format!("cannot read large: {memory}")),
        ("load large new.nodes 0", format!("cannot read large: {memory}")),
        (
            "load half new.nodes 0",
            "there is not enough memory for 20971520 nodes; use a smaller file or free memory".into(),
        ),
    ];
    let make = "truncate -s 1073741824 large && truncate -s 83886080 half";
    for (arguments, message) in cases {
        let answer = folder
            .shell(&format!("{make} && ulimit -v 150000 && \"$PROGRAM\" {arguments}; s=$?; rm large half; exit $s"));
        assert_eq!(answer, stopped(&message), "{arguments}");
    }
}
