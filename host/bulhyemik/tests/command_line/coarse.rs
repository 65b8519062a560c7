//! Coarse world grids and great values: ten degrees from node to node, results of twelve digits, and floats up to the limit.

use crate::program::{Answer, Folder, accepted, refused, words};

/// A grid around the earth by ten degrees, whose nodes are all the least value, with as many ramps of 10 as there may be.
fn world(name: &str, quantum: u32) -> Folder {
    let folder = Folder::new(name);
    let ramps = "ramp\t0\t10000000\t1\t10000000\n".repeat(8);
    let grid = "grid\tearth\t-648000000\t-324000000\t36000000\t36000000\t37\t19\t1\t0\n";
    folder.put("world.txt", format!("group\tworld\tmetre\t{quantum}\t1\t8\t1\n{ramps}{grid}").as_bytes());
    folder.put("world.nodes", &words(&[(i32::MIN + 1).to_le_bytes(); 37 * 19]));
    folder
}

#[test]
fn a_world_grid_is_checked_looked_up_and_judged() {
    let folder = world("coarse", 0);
    assert_eq!(folder.run("check world.txt world.nodes"), accepted("accepted\n1\tearth\t703\t0\n"));
    let fix = "fix\t-1\t323999999\t5\tearth\t-171798691760\n";
    assert_eq!(folder.run("lookup world.txt world.nodes -1 323999999 5"), accepted(fix));
    let judged = |log: &str| folder.run_with(&["judge", "world.txt", "world.nodes", "-"], log.as_bytes());
    assert_eq!(judged(fix), accepted("passed\t1\n"));
    let other = judged(&fix.replace("-171798691760", "-171798691761"));
    assert_eq!((other.status, other.out), (1, "failed\t1\tother shift\n".into()));
    let lines =
        "longitude [mas],latitude [mas],day,refused,place,grid,shift 1 [2^-0 metre]\n0,0,0,0,0,earth,-171798691760\n";
    assert_eq!(folder.run("lookup --csv world.txt world.nodes 0 0 0"), accepted(lines));
}

/// 171,798,691,760 over 2 to the power 20 is 163,840 less 80 over that power.
#[test]
fn the_screen_shows_a_great_shift_without_loss() {
    let shown = |quantum| {
        let answer =
            world(&format!("coarse-screen-{quantum}"), quantum).run("screen world.txt world.nodes 36000000 0 0");
        assert_eq!(answer.status, 0, "{answer:?}");
        answer.out
    };
    assert_eq!(shown(0), "shown\t10\t0\t0\tearth\t-171798691760\n");
    assert_eq!(shown(20), "shown\t10\t0\t0\tearth\t-163839.99992370605\n");
    assert_eq!(-163_839.999_923_706_05_f64, -163_840.0 + 80.0 / 1_048_576.0);
}

#[test]
fn floats_load_up_to_the_greatest_value() {
    let folder = Folder::new("coarse-floats");
    let load = |float: f32| -> Answer {
        folder.put("world.floats", &float.to_le_bytes());
        folder.run("load world.floats new.nodes 0")
    };
    for float in [2_147_483_520.0, -2_147_483_520.0] {
        assert_eq!(load(float), accepted("1\n"));
        assert_eq!(folder.get("new.nodes"), (float as i32).to_le_bytes());
    }
    for float in [2_147_483_648.0, -2_147_483_648.0, f32::NEG_INFINITY] {
        assert_eq!(load(float), refused(11, 1, "float 1 is infinite or rounds beyond ±2147483647 steps"));
    }
}
