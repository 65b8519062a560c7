//! What `--json` and `--csv` print; standard error and the status are those of text.

use crate::points::converse;
use crate::program::{Answer, Folder, accepted, stopped, words};

const TWO: &str = "group\tport\tarc-second\t1\t2\t0\t2\n\
    grid\tbasin\t0\t0\t10\t-10\t2\t2\t1\t0\ngrid\tOuter_2\t-36000\t0\t1000\t1000\t9\t9\t20\t100\n";

const NO_GRID: &str = "no grid holds the point";
const WRONG_AREA: &str = "south is 1, above north, which is 0";

/// A folder with a header of two parameters and the nodes of its first grid, in half arc-seconds.
fn folder(name: &str) -> Folder {
    let folder = Folder::new(name);
    folder.put("two.txt", TWO.as_bytes());
    let nodes: Vec<[u8; 4]> = (0..262).map(|k: i32| (3 - k).to_le_bytes()).collect();
    folder.put("two.nodes", &words(&nodes));
    folder
}

/// Refused with these lines on standard output.
fn refused(out: &str, words: &str) -> Answer {
    Answer { status: 1, out: out.into(), err: format!("bulhyemik: refused: {words}\n") }
}

/// What stands behind the JSON value that a text begins with.
fn behind_value(text: &str) -> Option<&str> {
    match text.chars().next()? {
        '{' => behind_list(&text[1..], '}', |member| behind_value(behind_string(member)?.strip_prefix(':')?)),
        '[' => behind_list(&text[1..], ']', behind_value),
        '"' => behind_string(text),
        'n' => text.strip_prefix("null"),
        _ => {
            let end = text.find([',', ']', '}']).unwrap_or(text.len());
            let digits = text[..end].strip_prefix('-').unwrap_or(&text[..end]);
            digits.starts_with(|c: char| c.is_ascii_digit()).then(|| digits.parse::<f64>().ok())??;
            Some(&text[end..])
        }
    }
}

fn behind_list(text: &str, close: char, behind: fn(&str) -> Option<&str>) -> Option<&str> {
    if let Some(rest) = text.strip_prefix(close) {
        return Some(rest);
    }
    let mut rest = behind(text)?;
    while let Some(next) = rest.strip_prefix(',') {
        rest = behind(next)?;
    }
    rest.strip_prefix(close)
}

fn behind_string(text: &str) -> Option<&str> {
    let mut rest = text.strip_prefix('"')?.chars();
    loop {
        match rest.next()? {
            '"' => return Some(rest.as_str()),
            '\\' if matches!(rest.next()?, '"' | '\\') => {}
            '\\' | '\0'..='\x1f' => return None,
            _ => {}
        }
    }
}

/// Each line must be a JSON object.
fn all_objects(lines: &str) {
    for line in lines.lines() {
        assert!(line.starts_with('{') && behind_value(line) == Some(""), "{line}");
    }
}

/// A line of JSON, given with ' for its quotes.
fn json(line: &str) -> String {
    let line = line.replace('\'', "\"") + "\n";
    all_objects(&line);
    line
}

const LOOKUP: &str = "longitude [mas],latitude [mas],day,refused,place,grid,\
    shift 1 [2^-1 arc-second],shift 2 [2^-1 arc-second]\n";
const SCREEN: &str = "longitude [mas],latitude [mas],day,refused,place,grid,longitude [degree],latitude [degree],\
    shift 1 [arc-second],shift 2 [arc-second]\n";
const DOCK: &str = "longitude [mas],latitude [mas],day,refused,place,grid,shift 1 [2^-13 metre]\n";

/// 10 mas.
const DEGREES: &str = "0.000002777777777777778";

/// The line of a refused point in JSON.
fn refused_point([lon, lat, day]: [i64; 3], number: u64, place: u64, words: &str) -> String {
    json(&format!(
        "{{'longitude_mas':{lon},'latitude_mas':{lat},'day':{day},'refused':{number},'place':{place},'words':'{words}'}}"
    ))
}

#[test]
fn lookup_of_a_point() {
    let folder = folder("formats-lookup");
    let line = json(
        "{'longitude_mas':10,'latitude_mas':-10,'day':-7,'grid':'basin','steps':[-3,-4],'unit':'arc-second','quantum':1}",
    );
    assert_eq!(folder.run("lookup --json two.txt two.nodes 10 -10 -7"), accepted(&line));
    assert_eq!(folder.run("lookup two.txt two.nodes 10 -10 -7 --json"), accepted(&line));
    let lines = format!("{LOOKUP}10,-10,-7,0,0,basin,-3,-4\n");
    assert_eq!(folder.run("lookup --csv two.txt two.nodes 10 -10 -7"), accepted(&lines));
    let line =
        json("{'longitude_mas':5,'latitude_mas':5,'day':200,'grid':'basin','steps':[55],'unit':'metre','quantum':13}");
    assert_eq!(folder.run("lookup dock.txt --json dock.nodes 5 5 200"), accepted(&line));
    let lines = format!("{DOCK}5,5,200,0,0,basin,55\n");
    assert_eq!(folder.run("lookup dock.txt dock.nodes --csv 5 5 200"), accepted(&lines));
}

#[test]
fn screen_of_a_point() {
    let folder = folder("formats-screen");
    let line = json(&format!(
        "{{'longitude_mas':10,'latitude_mas':-10,'day':-7,'grid':'basin','longitude_degrees':{DEGREES},\
        'latitude_degrees':-{DEGREES},'shifts':[-1.5,-2],'unit':'arc-second'}}"
    ));
    assert_eq!(folder.run("screen --json two.txt two.nodes 10 -10 -7"), accepted(&line));
    let lines = format!("{SCREEN}10,-10,-7,0,0,basin,{DEGREES},-{DEGREES},-1.5,-2\n");
    assert_eq!(folder.run("screen --csv two.txt two.nodes 10 -10 -7"), accepted(&lines));
    let line = json(
        "{'longitude_mas':0,'latitude_mas':0,'day':0,'grid':'basin','longitude_degrees':0,'latitude_degrees':0,\
        'shifts':[0],'unit':'metre'}",
    );
    assert_eq!(folder.run("screen --json dock.txt dock.nodes 0 0 0"), accepted(&line));
}

#[test]
fn a_point_that_is_refused() {
    let folder = folder("formats-refused");
    let line = refused_point([11, 0, 5], 7, 0, NO_GRID);
    for (command, heading, empty) in [("lookup", LOOKUP, ",,,"), ("screen", SCREEN, ",,,,,")] {
        assert_eq!(folder.run(&format!("{command} --json two.txt two.nodes 11 0 5")), refused(&line, NO_GRID));
        let lines = format!("{heading}11,0,5,7,0{empty}\n");
        assert_eq!(folder.run(&format!("{command} --csv two.txt two.nodes 11 0 5")), refused(&lines, NO_GRID));
    }
    folder.put("short.nodes", &[0; 32]);
    let short = "the node list ends before the nodes of grid 2 do";
    let line = refused_point([0, 0, 0], 13, 2, short);
    assert_eq!(folder.run("lookup --json two.txt short.nodes 0 0 0"), refused(&line, short));
    let lines = format!("{LOOKUP}0,0,0,13,2,,,\n");
    assert_eq!(folder.run("lookup --csv two.txt short.nodes 0 0 0"), refused(&lines, short));
}

#[test]
fn points_of_standard_input() {
    let folder = folder("formats-points");
    let points = b"10\t-10\t0\n11\t0\t0\n0\t0\t0";
    let answer = |command: &str, option: &str| folder.run_with(&[command, option, "two.txt", "two.nodes"], points);
    let expected =
        |out: &[&str]| Answer { status: 1, out: out.concat(), err: format!("bulhyemik: point 2 refused: {NO_GRID}\n") };
    let refusal = refused_point([11, 0, 0], 7, 0, NO_GRID);
    let first = json(
        "{'longitude_mas':10,'latitude_mas':-10,'day':0,'grid':'basin','steps':[-3,-4],'unit':'arc-second','quantum':1}",
    );
    let last = json(
        "{'longitude_mas':0,'latitude_mas':0,'day':0,'grid':'basin','steps':[3,2],'unit':'arc-second','quantum':1}",
    );
    assert_eq!(answer("lookup", "--json"), expected(&[&first, &refusal, &last]));
    let rows = "10,-10,0,0,0,basin,-3,-4\n11,0,0,7,0,,,\n0,0,0,0,0,basin,3,2\n";
    assert_eq!(answer("lookup", "--csv"), expected(&[LOOKUP, rows]));
    let first = json(&format!(
        "{{'longitude_mas':10,'latitude_mas':-10,'day':0,'grid':'basin','longitude_degrees':{DEGREES},\
        'latitude_degrees':-{DEGREES},'shifts':[-1.5,-2],'unit':'arc-second'}}"
    ));
    let last = json(
        "{'longitude_mas':0,'latitude_mas':0,'day':0,'grid':'basin','longitude_degrees':0,'latitude_degrees':0,\
        'shifts':[1.5,1],'unit':'arc-second'}",
    );
    assert_eq!(answer("screen", "--json"), expected(&[&first, &refusal, &last]));
    let rows = format!("10,-10,0,0,0,basin,{DEGREES},-{DEGREES},-1.5,-2\n11,0,0,7,0,,,,,\n0,0,0,0,0,basin,0,0,1.5,1\n");
    assert_eq!(answer("screen", "--csv"), expected(&[SCREEN, &rows]));
}

#[test]
fn no_points_on_standard_input() {
    let folder = folder("formats-none");
    for (command, heading) in [("lookup", LOOKUP), ("screen", SCREEN)] {
        assert_eq!(folder.run(&format!("{command} --json two.txt two.nodes")), accepted(""));
        assert_eq!(folder.run(&format!("{command} --csv two.txt two.nodes")), accepted(heading));
    }
}

#[test]
fn answers_come_while_the_input_stays_open() {
    let folder = folder("formats-filter");
    let points = &["", "5\t5\t200\n", "21\t10\t0\n"];
    let lines = [DOCK.trim_end(), "5,5,200,0,0,basin,55", "21,10,0,7,0,,"].map(String::from).to_vec();
    assert_eq!(converse(&folder, &["lookup", "--csv"], points), (lines, Some(1)));
    let (lines, status) = converse(&folder, &["lookup", "--json"], &points[1..]);
    assert_eq!((lines.len(), status), (2, Some(1)));
    assert_eq!(format!("{}\n", lines[1]), refused_point([21, 10, 0], 7, 0, NO_GRID));
}

#[test]
fn a_line_of_another_form_ends_the_points() {
    let folder = folder("formats-halfway");
    let wanted = "must be LON, LAT and DAY, whole numbers parted by tabs; see bulhyemik lookup --help";
    let answer = folder.run_with(&["lookup", "--csv", "dock.txt", "dock.nodes"], b"5\t5\t200\n5,5,5\n");
    let message = format!("line 2 of standard input is '5,5,5', but {wanted}");
    assert_eq!(answer, Answer { out: format!("{DOCK}5,5,200,0,0,basin,55\n"), ..stopped(&message) });
    let answer = folder.run_with(&["lookup", "--json", "dock.txt", "dock.nodes"], b"{}\n");
    assert_eq!(answer, stopped(&format!("line 1 of standard input is '{{}}', but {wanted}")));
}

#[test]
fn grids_in_force() {
    let folder = folder("formats-inforce");
    let line = json(
        "{'count':2,'grids':[{'number':1,'name':'basin','longitude_mas':0,'latitude_mas':-10},\
        {'number':2,'name':'Outer_2','longitude_mas':-36000,'latitude_mas':0}]}",
    );
    assert_eq!(folder.run("inforce --json two.txt -40000 40000 -10 10"), accepted(&line));
    let heading = "number,name,longitude [mas],latitude [mas]\n";
    let lines = format!("{heading}1,basin,0,-10\n2,Outer_2,-36000,0\n");
    assert_eq!(folder.run("inforce --csv two.txt -40000 40000 -10 10"), accepted(&lines));
    assert_eq!(folder.run("inforce --json two.txt 11 12 0 0"), accepted(&json("{'count':0,'grids':[]}")));
    assert_eq!(folder.run("inforce --csv two.txt 11 12 0 0"), accepted(heading));
}

#[test]
fn the_hole_of_an_area() {
    let folder = folder("formats-hole");
    let line = json("{'hole':{'longitude_mas':11,'latitude_mas':-10}}");
    assert_eq!(folder.run("hole --json two.txt 0 11 -10 0"), accepted(&line));
    assert_eq!(folder.run("hole --csv two.txt 0 11 -10 0"), accepted("longitude [mas],latitude [mas]\n11,-10\n"));
    assert_eq!(folder.run("hole --json two.txt 0 10 -10 0"), accepted(&json("{'hole':null}")));
    assert_eq!(folder.run("hole --csv two.txt 0 10 -10 0"), accepted("longitude [mas],latitude [mas]\n"));
}

#[test]
fn the_grids_of_a_header() {
    let folder = folder("formats-grids");
    let line = json(
        "{'group':'port','unit':'arc-second','quantum':1,'parameters':2,'functions':[],'grids':[\
        {'number':1,'name':'basin','rank':1,'west_mas':0,'east_mas':10,'south_mas':-10,'north_mas':0,\
        'dlon_mas':10,'dlat_mas':-10,'ni':2,'nj':2,'first':0,'last':7},\
        {'number':2,'name':'Outer_2','rank':20,'west_mas':-36000,'east_mas':-28000,'south_mas':0,'north_mas':8000,\
        'dlon_mas':1000,'dlat_mas':1000,'ni':9,'nj':9,'first':100,'last':261}]}",
    );
    assert_eq!(folder.run("grids --json two.txt"), accepted(&line));
    let heading =
        "number,name,rank,west [mas],east [mas],south [mas],north [mas],DLON [mas],DLAT [mas],NI,NJ,first,last\n";
    let rows = "1,basin,1,0,10,-10,0,10,-10,2,2,0,7\n2,Outer_2,20,-36000,-28000,0,8000,1000,1000,9,9,100,261\n";
    assert_eq!(folder.run("grids two.txt --csv"), accepted(&format!("{heading}{rows}")));
    assert_eq!(folder.run("grids two.txt --tsv"), accepted(&rows.replace(',', "\t")));
}

#[test]
fn refusals_that_are_no_points() {
    let folder = folder("formats-refusals");
    folder.put("limit.txt", b"group\tdock\tmetre\t21\t1\t1\t1\n");
    let limit = "line 1: Q is 21, its limit is 0 to 20";
    for (arguments, number, place, words) in [
        ("lookup limit.txt dock.nodes 0 0 0", 2, 1, limit),
        ("lookup limit.txt dock.nodes", 2, 1, limit),
        ("screen limit.txt dock.nodes 0 0 0", 2, 1, limit),
        ("screen limit.txt dock.nodes", 2, 1, limit),
        ("inforce limit.txt 0 0 0 0", 2, 1, limit),
        ("hole limit.txt 0 0 0 0", 2, 1, limit),
        ("grids limit.txt", 2, 1, limit),
        ("grids -", 1, 1, "the header is empty"),
        ("inforce two.txt 0 0 1 0", 10, 0, WRONG_AREA),
        ("hole two.txt 0 0 1 0", 10, 0, WRONG_AREA),
    ] {
        let line = json(&format!("{{'refused':{number},'place':{place},'words':'{words}'}}"));
        assert_eq!(folder.run(&format!("{arguments} --json")), refused(&line, words), "{arguments}");
        let lines = format!("refused,place\n{number},{place}\n");
        assert_eq!(folder.run(&format!("{arguments} --csv")), refused(&lines, words), "{arguments}");
    }
    assert_eq!(folder.run("grids --tsv limit.txt"), refused("refused\t2\t1\n", limit));
}

#[test]
fn words_with_any_bytes_are_json() {
    let folder = Folder::new("formats-words");
    let name = "but must be 1 to 24 of A to Z, a to z, 0 to 9, _ and -";
    let answer = folder.run_with(&["grids", "--json", "-"], b"group\t\"d\\\x1b\xff\xc3\xa4'\tmetre\t0\t1\t0\t1\n");
    let json = format!(
        "{{\"refused\":1,\"place\":1,\
        \"words\":\"line 1: NAME is '\\\\\\\"d\\\\\\\\\\\\x1b\\\\xff\\\\xc3\\\\xa4\\\\'', {name}\"}}\n"
    );
    assert_eq!(answer, refused(&json, &format!("line 1: NAME is '\\\"d\\\\\\x1b\\xff\\xc3\\xa4\\'', {name}")));
    for byte in 0..=255 {
        let header = [b"group\td", &[byte, b'"'][..], b"\tmetre\t0\t1\t0\t1\n"].concat();
        let answer = folder.run_with(&["hole", "--json", "-", "0", "0", "0", "0"], &header);
        all_objects(&answer.out);
        let words = answer.err.trim_end().strip_prefix("bulhyemik: refused: ").expect("it is refused");
        let escaped = words.replace('\\', "\\\\").replace('"', "\\\"");
        assert!(answer.out.ends_with(&format!(",\"words\":\"{escaped}\"}}\n")), "{}", answer.out);
    }
}

#[test]
fn usage_and_file_errors_print_nothing() {
    let folder = folder("formats-usage");
    let choose = |command: &str, options: &str| format!("choose one of {options}; see bulhyemik {command} --help");
    let missing = || "cannot read none: there is no such file or folder; check the path".to_string();
    for (arguments, message) in [
        ("lookup --json --csv two.txt two.nodes 0 0 0", choose("lookup", "--json, --csv")),
        ("screen --csv two.txt two.nodes --json", choose("screen", "--json, --csv")),
        ("inforce two.txt 0 0 0 0 --csv --json", choose("inforce", "--json, --csv")),
        ("hole --json --csv", choose("hole", "--json, --csv")),
        ("grids --json --csv two.txt", choose("grids", "--json, --csv")),
        ("grids --json --tsv two.txt", choose("grids", "--tsv, --json")),
        ("grids --tsv two.txt --csv", choose("grids", "--tsv, --csv")),
        ("grids --csv --tsv --json two.txt", choose("grids", "--tsv, --json, --csv")),
        ("grids --csv none", missing()),
        ("grids --json none", missing()),
        ("lookup --csv two.txt none", missing()),
        ("lookup --json none two.nodes 0 0 0", missing()),
        ("grids -- --json", "cannot read --json: there is no such file or folder; check the path".into()),
    ] {
        assert_eq!(folder.run(arguments), stopped(&message), "{arguments}");
    }
    assert_eq!(folder.run("hole --json --json two.txt 0 0 0 0"), accepted(&json("{'hole':null}")), "one format, twice");
}
