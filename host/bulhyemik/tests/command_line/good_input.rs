//! What the command line prints for accepted and for refused input.

use crate::program::{Answer, Folder, HEADER, accepted, refused, refused_at, words};

#[test]
fn check_says_accepted() {
    let folder = Folder::new("check");
    assert_eq!(folder.run("check dock.txt"), accepted("accepted\n"));
    assert_eq!(folder.run_with(&["check", "-"], HEADER.as_bytes()), accepted("accepted\n"));
}

#[test]
fn format_gives_the_same_bytes() {
    let folder = Folder::new("format");
    assert_eq!(folder.run("format dock.txt"), accepted(HEADER));
}

#[test]
fn lookup_prints_one_fix() {
    let folder = Folder::new("lookup");
    assert_eq!(folder.run("lookup dock.txt dock.nodes 5 5 200"), accepted("fix\t5\t5\t200\tbasin\t55\n"));
    assert_eq!(folder.run("lookup dock.txt dock.nodes 20 10 200"), accepted("fix\t20\t10\t200\tbasin\t120\n"));
    let answer = folder.run_with(&["lookup", "dock.txt", "-", "5", "5", "200"], &folder.get("dock.nodes"));
    assert_eq!(answer, accepted("fix\t5\t5\t200\tbasin\t55\n"));
}

#[test]
fn screen_prints_floats_that_read_back() {
    let folder = Folder::new("screen");
    let line = "shown\t0.000001388888888888889\t0.000001388888888888889\t200\tbasin\t0.0067138671875\n";
    assert_eq!(folder.run("screen dock.txt dock.nodes 5 5 200"), accepted(line));
    let float = |k: usize| line.trim_end().split('\t').nth(k).and_then(|word| word.parse::<f64>().ok());
    assert_eq!([1, 2, 5].map(float), [5.0 / 3_600_000.0, 5.0 / 3_600_000.0, 55.0 / 8192.0].map(Some));
}

/// The header of the marked case M12.
const M12: &str = "group\tm11\tmetre\t0\t1\t0\t3\n\
    grid\tG1\t0\t0\t10\t10\t3\t2\t3\t0\ngrid\tG2\t0\t0\t10\t10\t2\t2\t1\t0\ngrid\tG3\t12\t0\t10\t10\t2\t2\t2\t0\n";

#[test]
fn inforce_lists_grids() {
    let folder = Folder::new("inforce");
    folder.put("m12.txt", M12.as_bytes());
    assert_eq!(folder.run("inforce m12.txt 0 20 0 10"), accepted("2\tG2\t0\t0\n3\tG3\t12\t0\n1\tG1\t11\t0\n"));
    assert_eq!(folder.run("inforce m12.txt 30 40 0 10"), accepted(""));
    let world = folder.run("inforce m12.txt -648000000 648000000 -324000000 324000000");
    assert_eq!(world, accepted("2\tG2\t0\t0\n3\tG3\t12\t0\n1\tG1\t11\t0\n"));
}

#[test]
fn hole_names_the_first_uncovered_coordinate_or_none() {
    let folder = Folder::new("hole");
    folder.put("m12.txt", M12.as_bytes());
    assert_eq!(folder.run("hole m12.txt 0 22 0 10"), accepted("none\n"));
    assert_eq!(folder.run("hole m12.txt 0 23 0 10"), accepted("hole\t23\t0\n"));
    assert_eq!(folder.run("hole m12.txt 0 22 -1 10"), accepted("hole\t0\t-1\n"));
    assert_eq!(folder.run("hole m12.txt 22 22 10 11"), accepted("hole\t22\t11\n"));
    let apart = M12.replacen("1\t0\t3\n", "1\t0\t2\n", 1).replace("grid\tG1\t0\t0\t10\t10\t3\t2\t3\t0\n", "");
    let answer = folder.run_with(&["hole", "-", "0", "22", "0", "10"], apart.as_bytes());
    assert_eq!(answer, accepted("hole\t11\t0\n"));
    let world = folder.run("hole m12.txt -648000000 648000000 -324000000 324000000");
    assert_eq!(world, accepted("hole\t-648000000\t-324000000\n"));
}

#[test]
fn load_writes_nodes() {
    let folder = Folder::new("load");
    assert_eq!(folder.run("load dock.floats new.nodes 0 -9999"), accepted("4\n"));
    assert_eq!(folder.get("new.nodes"), words(&[0, 2, i32::MIN, i32::MIN].map(i32::to_le_bytes)));
    assert_eq!(folder.run("load dock.floats new.nodes 3 0xc61c3c00"), accepted("4\n"));
    assert_eq!(folder.get("new.nodes"), words(&[4, 12, i32::MIN, i32::MIN].map(i32::to_le_bytes)));
    assert_eq!(folder.files().len(), 4, "nothing is left beside the node file");
}

#[test]
fn a_node_file_of_64_mebibytes_works() {
    let folder = Folder::new("large");
    let floats: Vec<u8> = (0..1 << 24).flat_map(|k| ((k % 1000) as f32).to_le_bytes()).collect();
    folder.put("large.floats", &floats);
    assert_eq!(folder.run("load large.floats large.nodes 0"), accepted("16777216\n"));
    let header = "group\tlarge\tmetre\t0\t1\t0\t1\ngrid\tall\t0\t0\t1\t1\t16384\t1024\t1\t0\n";
    folder.put("large.txt", header.as_bytes());
    let last = ((1 << 24) - 1) % 1000;
    let answer = folder.run("lookup large.txt large.nodes 16383 1023 0");
    assert_eq!(answer, accepted(&format!("fix\t16383\t1023\t0\tall\t{last}\n")));
    folder.put("beyond.floats", &[&floats[..1 << 23], &f32::INFINITY.to_le_bytes()].concat());
    let place = (1 << 21) + 1;
    let words = format!("float {place} is infinite or rounds beyond ±2147483647 steps");
    assert_eq!(folder.run("load beyond.floats large.nodes 0"), refused(11, place, &words));
    for name in ["large.floats", "large.nodes", "beyond.floats"] {
        folder.put(name, b"");
    }
}

#[test]
fn refusals_have_status_1_and_words() {
    let folder = Folder::new("refusals");
    folder.put("early.txt", b"group\tdock\tmetre\t13\t1\t1\t1\n");
    folder.put("limit.txt", b"group\tdock\tmetre\t21\t1\t1\t1\n");
    folder.put("short.nodes", &[0; 20]);
    folder.put("mark.nodes", &words(&[i32::MIN; 6].map(i32::to_le_bytes)));
    let cases: [(&str, Answer); 16] = [
        (
            "check early.txt",
            refused(
                1,
                2,
                "the header ends before line 2, a ramp, step or ramp2 line: line 1 counts 1 function and 1 grid",
            ),
        ),
        ("format limit.txt", refused(2, 1, "line 1: Q is 21, its limit is 0 to 20")),
        (
            "lookup dock.txt dock.nodes 99999999999999999999 0 0",
            refused_at(6, 0, [i64::MAX, 0, 0], "the point is outside longitude ±648000000 or latitude ±324000000"),
        ),
        (
            "lookup dock.txt dock.nodes 0 -324000001 0",
            refused_at(6, 0, [0, -324_000_001, 0], "the point is outside longitude ±648000000 or latitude ±324000000"),
        ),
        ("lookup dock.txt dock.nodes 0 0 1000001", refused_at(9, 0, [0, 0, 1_000_001], "the day is outside ±1000000")),
        (
            "lookup dock.txt short.nodes 0 0 0",
            refused_at(13, 1, [0, 0, 0], "the node list ends before the nodes of grid 1 do"),
        ),
        ("lookup dock.txt dock.nodes 21 10 0", refused_at(7, 0, [21, 10, 0], "no grid holds the point")),
        ("screen dock.txt dock.nodes 21 10 0", refused_at(7, 0, [21, 10, 0], "no grid holds the point")),
        (
            "lookup dock.txt mark.nodes 0 0 0",
            refused_at(8, 0, [0, 0, 0], "a node that the point needs is the no-data mark"),
        ),
        ("inforce dock.txt 0 0 1 0", refused(10, 0, "south is 1, above north, which is 0")),
        ("hole dock.txt 0 0 0 324000001", refused(10, 0, "a side is outside latitude ±324000000")),
        ("hole limit.txt 1 0 0 0", refused(2, 1, "line 1: Q is 21, its limit is 0 to 20")),
        ("judge limit.txt dock.nodes -", refused(2, 1, "line 1: Q is 21, its limit is 0 to 20")),
        ("judge dock.txt short.nodes -", refused(13, 1, "the node list ends before the nodes of grid 1 do")),
        ("load dock.floats new.nodes 21", refused(2, 0, "Q is outside 0 to 20")),
        ("load dock.floats new.nodes -1", refused(2, 0, "Q is outside 0 to 20")),
    ];
    let before = folder.files();
    for (arguments, answer) in cases {
        assert_eq!(folder.run(arguments), answer, "{arguments}");
        assert_eq!(folder.files(), before, "{arguments}");
    }
}

#[test]
fn empty_files_go_to_the_library() {
    let folder = Folder::new("empty");
    folder.put("empty", b"");
    let commands = [
        "check empty",
        "check -",
        "format empty",
        "grids empty",
        "inforce empty 0 0 0 0",
        "hole empty 0 0 0 0",
        "judge empty dock.nodes -",
        "judge - dock.nodes empty",
    ];
    for arguments in commands {
        assert_eq!(folder.run(arguments), refused(1, 1, "the header is empty"), "{arguments}");
    }
    let short = "the node list ends before the nodes of grid 1 do";
    assert_eq!(folder.run("lookup dock.txt empty 0 0 0"), refused_at(13, 1, [0, 0, 0], short));
    assert_eq!(folder.run("screen dock.txt empty 0 0 0"), refused_at(13, 1, [0, 0, 0], short));
    assert_eq!(folder.run("check dock.txt empty"), refused(13, 1, short));
    assert_eq!(folder.run("judge dock.txt empty empty"), refused(13, 1, short));
    assert_eq!(folder.run("judge dock.txt dock.nodes empty"), accepted("passed\t0\n"));
    assert_eq!(folder.run("load empty new.nodes 21"), refused(2, 0, "Q is outside 0 to 20"));
    assert_eq!(folder.run("load empty new.nodes 0"), accepted("0\n"));
    assert_eq!(folder.get("new.nodes"), b"");
}
