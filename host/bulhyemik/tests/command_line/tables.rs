//! `grids`, and `check` with a node file.

use crate::program::{Answer, Folder, accepted, refused, words};

const GRIDS: &str = "group\tport\tarc-second\t0\t2\t0\t2\n\
    grid\tbasin\t0\t0\t3600\t-1800\t3\t2\t1\t0\ngrid\touter-roads\t-3600000\t-3600000\t1000000\t1000000\t9\t9\t20\t100\n";

#[test]
fn grids_prints_a_table_for_people() {
    let folder = Folder::new("table");
    folder.put("port.txt", GRIDS.as_bytes());
    let table = "   \
        grid         rank  axis       from mas   to mas  from degrees  to degrees  spacing  nodes  first value  last\n\
        1  basin           1  longitude         0     7200     0.0000000   0.0020000     3600      3            0    11\n                      \
        latitude      -1800        0    -0.0005000   0.0000000    -1800      2\n\
        2  outer-roads    20  longitude  -3600000  4400000    -1.0000000   1.2222222  1000000      9          100   261\n                      \
        latitude   -3600000  4400000    -1.0000000   1.2222222  1000000      9\n";
    assert_eq!(folder.run("grids port.txt"), accepted(table));
}

#[test]
fn grids_prints_lines_for_programs() {
    let folder = Folder::new("tsv");
    folder.put("port.txt", GRIDS.as_bytes());
    let lines = "1\tbasin\t1\t0\t7200\t-1800\t0\t3600\t-1800\t3\t2\t0\t11\n\
        2\touter-roads\t20\t-3600000\t4400000\t-3600000\t4400000\t1000000\t1000000\t9\t9\t100\t261\n";
    assert_eq!(folder.run("grids --tsv port.txt"), accepted(lines));
    assert_eq!(folder.run("grids port.txt --tsv"), accepted(lines));
    folder.put("port.txt", GRIDS.replace("1800", "0").as_bytes());
    assert_eq!(
        folder.run("grids port.txt"),
        refused(1, 2, "line 2: DLAT is '-0', but must be a whole number, as 12, 0 or -5, without plus or leading zero")
    );
}

#[test]
fn check_counts_what_a_node_file_lacks() {
    let folder = Folder::new("nodes");
    let header =
        "group\ttwo\tmetre\t0\t1\t0\t2\ngrid\tone\t0\t0\t1\t1\t2\t2\t1\t0\ngrid\ttwo\t9\t9\t1\t1\t2\t2\t1\t2\n";
    folder.put("two.txt", header.as_bytes());
    let nodes = [0, i32::MAX, i32::MIN, i32::MIN + 1, i32::MIN, 4_000_001, 0];
    folder.put("two.nodes", &words(&nodes.map(i32::to_le_bytes)));
    let lines = "accepted\n1\tone\t4\t1\n2\ttwo\t4\t2\n";
    let note = "bulhyemik: values in no grid: 1 of 7\n";
    assert_eq!(folder.run("check two.txt two.nodes"), Answer { err: note.into(), ..accepted(lines) });
    folder.put("two.nodes", &words(&nodes[..6].iter().map(|node| node.to_le_bytes()).collect::<Vec<_>>()));
    assert_eq!(folder.run("check two.txt two.nodes"), accepted(lines));
    let apart = header.replace("\t1\t2\n", "\t1\t5\n");
    folder.put("apart.txt", apart.as_bytes());
    folder.put("ten.nodes", &words(&[[0; 4]; 10]));
    let note = "bulhyemik: values in no grid: 2 of 10\n";
    let lines = "accepted\n1\tone\t4\t0\n2\ttwo\t4\t0\n";
    assert_eq!(folder.run("check apart.txt ten.nodes"), Answer { err: note.into(), ..accepted(lines) });
    folder.put("short.nodes", &words(&[[0; 4]; 5]));
    let answer = folder.run("check two.txt short.nodes");
    assert_eq!(answer, refused(13, 2, "the node list ends before the nodes of grid 2 do"));
}
