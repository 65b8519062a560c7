//! Points from standard input: each gets its line as it comes.

use crate::program::{Folder, accepted};
use std::io::{BufRead, BufReader, Write};
use std::process::Stdio;
use std::sync::mpsc::channel;
use std::thread::spawn;
use std::time::Duration;

#[test]
fn each_line_gets_its_answer_and_a_refused_one_its_point() {
    let folder = Folder::new("lookups");
    let answer = folder.run_with(&["lookup", "dock.txt", "dock.nodes"], b"5\t5\t133\n21\t10\t0\n20\t10\t200");
    assert_eq!(answer.status, 1);
    assert_eq!(answer.out, "fix\t5\t5\t133\tbasin\t18\nrefused\t7\t0\t21\t10\t0\nfix\t20\t10\t200\tbasin\t120\n");
    assert_eq!(answer.err, "bulhyemik: point 2 refused: no grid holds the point\n");
    assert_eq!(folder.run("lookup dock.txt dock.nodes"), accepted(""));
}

#[test]
fn screen_takes_points_too() {
    let folder = Folder::new("screens");
    let header = "group\tdock\tmetre\t1\t2\t0\t1\ngrid\tbasin\t0\t0\t10\t10\t2\t2\t1\t0\n";
    folder.put("two.txt", header.as_bytes());
    let nodes: Vec<u8> = [0, 1, 2, 3, 4, 5, 6, 7].map(i32::to_le_bytes).concat();
    folder.put("two.nodes", &nodes);
    let answer = folder.run_with(&["screen", "two.txt", "two.nodes"], b"10\t0\t7\n0\t11\t8\n10\t10\t9\n");
    let degrees = "0.000002777777777777778";
    let first = format!("shown\t{degrees}\t0\t7\tbasin\t1\t1.5\n");
    let last = format!("shown\t{degrees}\t{degrees}\t9\tbasin\t3\t3.5\n");
    assert_eq!(answer.out, format!("{first}refused\t7\t0\t0\t11\t8\n{last}"));
    assert_eq!(answer.err, "bulhyemik: point 2 refused: no grid holds the point\n");
    assert_eq!(answer.status, 1);
}

#[test]
fn many_lines_get_the_answers_that_each_gets_by_itself() {
    let folder = Folder::new("many");
    // the node at (lon, lat) and all between are lon + 10 * lat; day 100 makes them 0, and no grid holds longitudes above 20
    let point = |k: i64| (k * 7 % 22, k * 3 % 11, if k % 5 == 0 { 100 } else { 200 });
    let (mut input, mut lines, mut words) = (String::new(), String::new(), String::new());
    for k in 1..=30_000 {
        let (lon, lat, day) = point(k);
        input += &format!("{lon}\t{lat}\t{day}\n");
        if lon > 20 {
            lines += &format!("refused\t7\t0\t{lon}\t{lat}\t{day}\n");
            words += &format!("bulhyemik: point {k} refused: no grid holds the point\n");
        } else {
            lines += &format!("fix\t{lon}\t{lat}\t{day}\tbasin\t{}\n", if day == 100 { 0 } else { lon + 10 * lat });
        }
    }
    folder.put("points", input.as_bytes());
    let answer = folder.shell("\"$PROGRAM\" lookup dock.txt dock.nodes < points");
    assert!(answer.out == lines && answer.err == words, "{} lines", answer.out.lines().count());
    assert_eq!(answer.status, 1);
    // the third is refused, and the last two stand behind the first block
    for k in [1, 3, 5, 17_777, 30_000] {
        let (lon, lat, day) = point(k);
        let single = folder.run(&format!("lookup dock.txt dock.nodes {lon} {lat} {day}"));
        assert_eq!(answer.out.lines().nth(k as usize - 1), single.out.strip_suffix('\n'), "line {k}");
        assert_eq!(single.status, if lon > 20 { 1 } else { 0 }, "line {k}");
    }
}

#[test]
fn a_node_list_that_ends_early_refuses_each_line_as_by_itself() {
    let folder = Folder::new("early");
    folder.put("short.nodes", &[0; 20]);
    let points = b"5\t5\t200\n0\t324000001\t1000001\n0\t0\t1000001\n";
    let answer = folder.run_with(&["lookup", "dock.txt", "short.nodes"], points);
    let lines =
        ["refused\t13\t1\t5\t5\t200\n", "refused\t6\t0\t0\t324000001\t1000001\n", "refused\t9\t0\t0\t0\t1000001\n"];
    assert_eq!((answer.status, answer.out), (1, lines.concat()));
    assert_eq!(answer.err.lines().count(), 3);
    assert_eq!(folder.run("lookup dock.txt short.nodes"), accepted(""), "no lines");
}

/// Sends each point and waits for its answer before the next; the status comes last.
pub fn converse(folder: &Folder, command: &[&str], points: &[&str]) -> (Vec<String>, Option<i32>) {
    let mut command = folder.command(&[command, &["dock.txt", "dock.nodes"]].concat());
    let pipes = command.stdin(Stdio::piped()).stdout(Stdio::piped()).stderr(Stdio::null());
    let mut child = pipes.spawn().expect("the program starts");
    let mut input = child.stdin.take().expect("it has a standard input");
    let output = BufReader::new(child.stdout.take().expect("it has a standard output"));
    let (send, receive) = channel();
    spawn(move || output.lines().map_while(Result::ok).try_for_each(|line| send.send(line)));
    let mut answers = Vec::new();
    for point in points {
        input.write_all(point.as_bytes()).expect("it reads");
        answers.extend(receive.recv_timeout(Duration::from_secs(20)));
    }
    drop(input);
    (answers, child.wait().expect("it ends").code())
}

#[test]
fn answers_come_while_the_input_stays_open() {
    let folder = Folder::new("filter");
    let points = &["0\t0\t200\n", "21\t10\t0\n"];
    let refused = "refused\t7\t0\t21\t10\t0".to_string();
    let fix = "fix\t0\t0\t200\tbasin\t0".to_string();
    assert_eq!(converse(&folder, &["lookup"], points), (vec![fix, refused.clone()], Some(1)));
    let shown = "shown\t0\t0\t200\tbasin\t0".to_string();
    assert_eq!(converse(&folder, &["screen"], points), (vec![shown, refused], Some(1)));
}

#[test]
fn what_was_read_is_answered_while_the_rest_of_a_line_is_waited_for() {
    let folder = Folder::new("pause");
    let answers = |lines: &str| converse(&folder, &["lookup"], &[lines, "\t200\n"]);
    let fix = |value: &str| format!("fix\t{value}\t0\t200\tbasin\t{value}");
    assert_eq!(answers("5\t0\t200\n10\t0"), (vec![fix("5"), fix("10")], Some(0)));
}

#[test]
fn what_stands_before_a_line_of_another_form_is_answered() {
    let folder = Folder::new("halfway");
    let points = b"5\t5\t200\n21\t10\t0\n\n20\t10\t200\n99\t99\t0\n";
    let answer = folder.run_with(&["lookup", "dock.txt", "dock.nodes"], points);
    let wanted = "must be LON, LAT and DAY, whole numbers parted by tabs; see bulhyemik lookup --help";
    assert_eq!((answer.status, answer.out.as_str()), (2, "fix\t5\t5\t200\tbasin\t55\nrefused\t7\t0\t21\t10\t0\n"));
    let refusal = "bulhyemik: point 2 refused: no grid holds the point\n";
    assert_eq!(answer.err, format!("{refusal}bulhyemik: line 3 of standard input is '', but {wanted}\n"));
    let answer = folder.run_with(&["lookup", "dock.txt", "dock.nodes"], b"5\t5\t200\n5 5 5\n20\t10\t200\n");
    assert_eq!((answer.status, answer.out.as_str()), (2, "fix\t5\t5\t200\tbasin\t55\n"));
    assert_eq!(answer.err, format!("bulhyemik: line 2 of standard input is '5 5 5', but {wanted}\n"));
}

#[test]
fn a_reader_that_went_away_ends_it_quietly() {
    let folder = Folder::new("gone");
    let line = "(yes \"$(printf '5\\t5\\t200')\" | \"$PROGRAM\" lookup dock.txt dock.nodes; echo $? >&2) | head -1";
    let answer = folder.shell(line);
    assert_eq!((answer.out.as_str(), answer.err.as_str()), ("fix\t5\t5\t200\tbasin\t55\n", "141\n"));
}
