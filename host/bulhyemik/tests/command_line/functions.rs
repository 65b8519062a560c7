//! Functions of time of all kinds: lookups, what `grids` prints of them, and what is said of bad ones.

use crate::program::{Answer, Folder, accepted, refused, words};

const PORT: &str = "group\tport\tmetre\t10\t1\t3\t1\n\
    ramp\t100\t0\t200\t1000000\nstep\t300\t0\t-400000\nramp2\t100\t200\t150\t1000000\n\
    grid\tbasin\t0\t0\t10\t10\t2\t2\t1\t0\n";

/// A folder with this header, and a node of a million steps at every corner.
fn folder(name: &str) -> Folder {
    let folder = Folder::new(name);
    folder.put("port.txt", PORT.as_bytes());
    folder.put("port.nodes", &words(&[1_000_000i32; 4].map(i32::to_le_bytes)));
    folder
}

/// The factors of the ramp, the step and the ramp2 on each day, in this order, and their sum.
#[test]
fn a_lookup_takes_the_factor_of_all_kinds() {
    let folder = folder("functions-lookup");
    for (day, steps) in [
        (99, -500_000),   // 0, 0, -500000
        (133, 160_000),   // 330000, 0, -170000
        (200, 1_500_000), // 1000000, 0, 500000
        (299, 1_500_000), // the same
        (300, 1_100_000), // 1000000, -400000, 500000
    ] {
        let line = format!("fix\t5\t5\t{day}\tbasin\t{steps}\n");
        assert_eq!(folder.run(&format!("lookup port.txt port.nodes 5 5 {day}")), accepted(&line), "{day}");
    }
    assert_eq!(folder.run("format port.txt"), accepted(PORT), "the same bytes, in the same order");
}

const TABLE: &str = "   function  days; S0, S1 and MULT in millionths\n\
    1  ramp      A 100, S0 0, B 200, S1 1000000\n\
    2  step      EVENT 300, REF 0, MULT -400000\n\
    3  ramp2     START 100, END 200, REF 150, MULT 1000000\n";

#[test]
fn grids_prints_functions_first_and_an_empty_line_between() {
    let folder = folder("functions-table");
    let without = PORT.replace("\t3\t1\n", "\t0\t1\n");
    let without: String = without.split_inclusive('\n').filter(|line| line.starts_with('g')).collect();
    folder.put("none.txt", without.as_bytes());
    let grids = folder.run("grids none.txt");
    assert!(grids.out.starts_with("   grid   rank  axis "), "{}", grids.out);
    assert_eq!(folder.run("grids port.txt"), accepted(&format!("{TABLE}\n{}", grids.out)));
    assert_eq!(folder.run("grids --functions port.txt"), accepted(TABLE));
    assert_eq!(folder.run("grids none.txt --functions"), accepted(""));
}

#[test]
fn lines_for_programs_are_of_grids_or_of_functions() {
    let folder = folder("functions-lines");
    let grid = "1,basin,1,0,10,0,10,10,10,2,2,0,3\n";
    assert_eq!(folder.run("grids --tsv port.txt"), accepted(&grid.replace(',', "\t")));
    assert!(folder.run("grids --csv port.txt").out.ends_with(&format!(",last\n{grid}")));
    let heading = "number,kind,A [day],S0 [millionths],B [day],S1 [millionths],EVENT [day],START [day],END [day],\
        REF [day],MULT [millionths]\n";
    let rows = "1,ramp,100,0,200,1000000,,,,,\n2,step,,,,,300,,,0,-400000\n3,ramp2,,,,,,100,200,150,1000000\n";
    assert_eq!(folder.run("grids --functions --csv port.txt"), accepted(&format!("{heading}{rows}")));
    assert_eq!(folder.run("grids --tsv --functions port.txt"), accepted(&rows.replace(',', "\t")));
}

#[test]
fn the_object_has_functions_beside_the_grids() {
    let folder = folder("functions-json");
    let functions = "{'group':'port','unit':'metre','quantum':10,'parameters':1,'functions':[\
        {'number':1,'kind':'ramp','a_day':100,'s0_millionths':0,'b_day':200,'s1_millionths':1000000},\
        {'number':2,'kind':'step','event_day':300,'ref_day':0,'mult_millionths':-400000},\
        {'number':3,'kind':'ramp2','start_day':100,'end_day':200,'ref_day':150,'mult_millionths':1000000}]";
    let grids = "'grids':[{'number':1,'name':'basin','rank':1,'west_mas':0,'east_mas':10,'south_mas':0,'north_mas':10,\
        'dlon_mas':10,'dlat_mas':10,'ni':2,'nj':2,'first':0,'last':3}]";
    let json = |text: String| accepted(&text.replace('\'', "\""));
    assert_eq!(folder.run("grids --json port.txt"), json(format!("{functions},{grids}}}\n")));
    assert_eq!(folder.run("grids --json --functions port.txt"), json(format!("{functions}}}\n")));
}

/// The header with one part replaced.
fn checked(folder: &Folder, part: &str, by: &str) -> Answer {
    assert!(PORT.contains(part), "{part:?}");
    folder.run_with(&["check", "-"], PORT.replacen(part, by, 1).as_bytes())
}

#[test]
fn a_bad_line_of_a_function_is_told_with_its_form() {
    let folder = folder("functions-form");
    let either = "'ramp', 'step' or 'ramp2'";
    let forms = "its form is ramp A S0 B S1, step EVENT REF MULT or ramp2 START END REF MULT";
    let counted = "line 1 counts 3 functions and 1 grid";
    for (part, by, place, words) in [
        (
            "\t0\t-400000",
            "\t0",
            3,
            "line 3 has 3 fields parted by tabs, but a step line has 4: step EVENT REF MULT".into(),
        ),
        (
            "-400000",
            "-4\t0",
            3,
            "line 3 has 5 fields parted by tabs, but a step line has 4: step EVENT REF MULT".into(),
        ),
        ("step\t300\t0\t-400000", "step", 3, "line 3 has 1 field, but a step line has 4: step EVENT REF MULT".into()),
        ("\t150", "", 4, "line 4 has 4 fields parted by tabs, but a ramp2 line has 5: ramp2 START END REF MULT".into()),
        ("step", "Step", 3, format!("line 3 begins with 'Step', but must begin with {either}; {forms}")),
        ("ramp2", "ramp3", 4, format!("line 4 begins with 'ramp3', but must begin with {either}; {forms}")),
        (
            "step\t300\t0\t-400000\n",
            "",
            4,
            format!("line 4 begins with 'grid', but must begin with {either}; {counted}"),
        ),
        ("step\t300\t0\t-400000", "", 3, "line 3 is empty, but must be a ramp, step or ramp2 line".into()),
        (
            "step\t300\t0\t-400000",
            "step 300 0 1",
            3,
            format!("line 3 begins with 'step 300 0 1', but must begin with {either}; fields are parted by tabs"),
        ),
        (
            "-400000",
            "-0",
            3,
            "line 3: MULT is '-0', but must be a whole number, as 12, 0 or -5, without plus or leading zero".into(),
        ),
        (
            "150",
            "x",
            4,
            "line 4: REF is 'x', but must be a whole number, as 12, 0 or -5, without plus or leading zero".into(),
        ),
        (
            "\t3\t1\n",
            "\t2\t1\n",
            4,
            "line 4 begins with 'ramp2', but must begin with 'grid'; line 1 counts 2 functions and 1 grid".into(),
        ),
    ] {
        assert_eq!(checked(&folder, part, by), refused(1, place, &words), "{part:?} {by:?}");
    }
    let cut = PORT.split_inclusive('\n').take(3).collect::<String>();
    let words = format!("the header ends before line 4, a ramp, step or ramp2 line: {counted}");
    assert_eq!(folder.run_with(&["check", "-"], cut.as_bytes()), refused(1, 4, &words));
}

#[test]
fn a_bad_number_of_a_function_is_named_with_its_limit() {
    let folder = folder("functions-limits");
    for (part, by, place, words) in [
        ("\t3\t1\n", "\t9\t1\n", 1, "line 1: the count of functions is 9, its limit is 0 to 8"),
        ("300", "1000001", 3, "line 3: EVENT is 1000001, its limit is -1000000 to 1000000"),
        ("300\t0", "300\t-1000001", 3, "line 3: REF is -1000001, its limit is -1000000 to 1000000"),
        ("-400000", "-10000001", 3, "line 3: MULT is -10000001, its limit is -10000000 to 10000000"),
        ("ramp2\t100", "ramp2\t-1000001", 4, "line 4: START is -1000001, its limit is -1000000 to 1000000"),
        ("200\t150", "1000001\t150", 4, "line 4: END is 1000001, its limit is -1000000 to 1000000"),
        (
            "ramp2\t100",
            "ramp2\t200",
            4,
            "line 4: START is 200, not below END, which is 200; a change on one day is a step",
        ),
        ("ramp2\t100", "ramp2\t201", 4, "line 4: START is 201, not below END, which is 200"),
        ("150\t1000000", "150\t10000001", 4, "line 4: MULT is 10000001, its limit is -10000000 to 10000000"),
    ] {
        assert_eq!(checked(&folder, part, by), refused(2, place, words), "{part:?} {by:?}");
    }
    assert_eq!(checked(&folder, "ramp\t100", "ramp\t200"), accepted("accepted\n"), "A = B is admitted");
}
