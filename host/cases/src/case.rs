//! One case: the inputs of a call and the answer that is expected of it.

use crate::file::Definitions;
use crate::parts::{bits32, bits64, bytes, list, number};
use crate::record::{functions, record};
use interface::{Answer, Area, Entry, Fault, Fix, Function, Group, Part, Position, Uncovered};

/// What a case hands to its call. Groups and node lists stand under their ids in the file.
#[derive(Clone, Debug)]
pub enum Input {
    ReadHeader { text: Vec<u8> },
    JudgeRecord { group: String },
    WriteHeader { group: String, out_len: usize },
    Field { line: Vec<u8>, number: u64 },
    Lookup { group: String, nodes: String, lon: i64, lat: i64, day: i64 },
    Batch { group: String, nodes: String, out_len: usize, points: Vec<Position> },
    InForce { group: String, area: Area },
    Hole { group: String, area: Area },
    JudgeLog { group: String, nodes: String, log: Vec<u8> },
    WriteLog { group: String, nodes: String, at: Position, out_len: usize },
    Load { quantum: i64, flag: f32, out_len: usize, floats: Vec<f32> },
    Screen { lon: i64, lat: i64, quantum: i64, parameters: i64, number: u64, at: u64, fix: Fix },
    DayFactor { functions: Vec<Function>, day: i64 },
}

/// What the call must answer.
#[derive(Clone, Debug)]
pub enum Expected {
    Refused { number: u64, place: u64 },
    Group(Box<Group>),
    Judged,
    Written { count: u64, bytes: Vec<u8> },
    Part(Part),
    Fix(Fix),
    Answers(Vec<Answer>),
    InForce { count: i64, entries: Vec<Entry> },
    Hole(Uncovered),
    Fault(Fault),
    Nodes(Vec<i32>),
    Screen([u64; 5]),
    Factor(i64),
}

/// A case and the line of its file.
#[derive(Clone, Debug)]
pub struct Case {
    pub line: usize,
    pub input: Input,
    pub expected: Expected,
}

/// The inputs of a case of the named call.
pub fn input(call: &str, words: &[&str], defined: &Definitions) -> Result<Input, String> {
    let group = |id: &str| defined.group(id).map(|_| id.to_string());
    let nodes = |id: &str| defined.nodes(id).map(|_| id.to_string());
    Ok(match (call, words) {
        ("read_header", &[text]) => Input::ReadHeader { text: bytes(text)? },
        ("judge_record", &[id]) => Input::JudgeRecord { group: group(id)? },
        ("write_header", &[id, len]) => Input::WriteHeader { group: group(id)?, out_len: number(len)? },
        ("field", &[line, k]) => Input::Field { line: bytes(line)?, number: number(k)? },
        ("lookup", &[id, list, lon, lat, day]) => Input::Lookup {
            group: group(id)?,
            nodes: nodes(list)?,
            lon: number(lon)?,
            lat: number(lat)?,
            day: number(day)?,
        },
        ("batch", &[id, list, len, points]) => Input::Batch {
            group: group(id)?,
            nodes: nodes(list)?,
            out_len: number(len)?,
            points: some(&[points], position)?,
        },
        ("in_force", &[id, west, east, south, north]) => {
            Input::InForce { group: group(id)?, area: area([west, east, south, north])? }
        }
        ("hole", &[id, west, east, south, north]) => {
            Input::Hole { group: group(id)?, area: area([west, east, south, north])? }
        }
        ("judge_log", &[id, list, log]) => Input::JudgeLog { group: group(id)?, nodes: nodes(list)?, log: bytes(log)? },
        ("write_log", &[id, list, lon, lat, day, len]) => Input::WriteLog {
            group: group(id)?,
            nodes: nodes(list)?,
            at: Position { lon: number(lon)?, lat: number(lat)?, day: number(day)? },
            out_len: number(len)?,
        },
        ("load", &[q, flag, len, ref floats @ ..]) => Input::Load {
            quantum: number(q)?,
            flag: f32::from_bits(bits32(flag)?),
            out_len: number(len)?,
            floats: some(floats, |word| bits32(word).map(f32::from_bits))?,
        },
        ("screen", &[lon, lat, q, np, number_, place, grid, r1, r2, r3]) => Input::Screen {
            lon: number(lon)?,
            lat: number(lat)?,
            quantum: number(q)?,
            parameters: number(np)?,
            number: number(number_)?,
            at: number(place)?,
            fix: fix([grid, r1, r2, r3])?,
        },
        ("day_factor", &[listed, day]) => Input::DayFactor { functions: functions(listed)?, day: number(day)? },
        _ => return Err(format!("no inputs of a {call} case")),
    })
}

/// The answer of a case of the named call.
pub fn expected(call: &str, words: &[&str]) -> Result<Expected, String> {
    Ok(match (call, words) {
        (_, &["refuse", refusal, place]) => Expected::Refused { number: number(refusal)?, place: number(place)? },
        ("read_header", &["ok", text]) => Expected::Group(Box::new(record(text)?)),
        ("judge_record", &["ok"]) => Expected::Judged,
        ("write_header" | "write_log", &["ok", count, text]) => {
            Expected::Written { count: number(count)?, bytes: bytes(text)? }
        }
        ("field", &["ok", from, to]) => Expected::Part(Part { from: number(from)?, to: number(to)? }),
        ("lookup", &["ok", grid, r1, r2, r3]) => Expected::Fix(fix([grid, r1, r2, r3])?),
        ("batch", &["ok", answers]) => Expected::Answers(some(&[answers], answer)?),
        ("in_force", &["ok", count, ref entries @ ..]) => {
            Expected::InForce { count: number(count)?, entries: list(&entries.join(" "), entry)? }
        }
        ("hole", &["ok", found, lon, lat]) => {
            Expected::Hole(Uncovered { found: number(found)?, lon: number(lon)?, lat: number(lat)? })
        }
        ("judge_log", &["ok", line, kind]) => Expected::Fault(Fault { line: number(line)?, kind: number(kind)? }),
        ("load", &["ok", ref nodes @ ..]) => Expected::Nodes(some(nodes, number)?),
        ("screen", &["ok", floats]) => {
            let bits = list(floats, bits64)?;
            Expected::Screen(bits.try_into().map_err(|_| format!("'{floats}' are not five floats"))?)
        }
        ("day_factor", &["ok", factor]) => Expected::Factor(number(factor)?),
        _ => return Err(format!("no answer of a {call} case")),
    })
}

/// What words list, parted by spaces; the one word `-` lists nothing.
fn some<T>(words: &[&str], one: impl Fn(&str) -> Result<T, String>) -> Result<Vec<T>, String> {
    if words == ["-"] { Ok(Vec::new()) } else { list(&words.join(" "), one) }
}

/// A grid's number and three results.
fn fix([grid, r1, r2, r3]: [&str; 4]) -> Result<Fix, String> {
    Ok(Fix { grid: number(grid)?, result: [number(r1)?, number(r2)?, number(r3)?] })
}

/// An area by its four sides.
fn area([west, east, south, north]: [&str; 4]) -> Result<Area, String> {
    Ok(Area { west: number(west)?, east: number(east)?, south: number(south)?, north: number(north)? })
}

/// `lon,lat,day`
fn position(word: &str) -> Result<Position, String> {
    match word.split(',').collect::<Vec<_>>()[..] {
        [lon, lat, day] => Ok(Position { lon: number(lon)?, lat: number(lat)?, day: number(day)? }),
        _ => Err(format!("'{word}' is no lon,lat,day")),
    }
}

/// `ok,grid,r1,r2,r3` or `refuse,number,place`
fn answer(word: &str) -> Result<Answer, String> {
    match word.split(',').collect::<Vec<_>>()[..] {
        ["ok", grid, r1, r2, r3] => Ok(Answer { fix: fix([grid, r1, r2, r3])?, ..Answer::default() }),
        ["refuse", refusal, place] => {
            Ok(Answer { number: number(refusal)?, place: number(place)?, ..Answer::default() })
        }
        _ => Err(format!("'{word}' is no answer of a point")),
    }
}

/// `grid:lon:lat`
fn entry(word: &str) -> Result<Entry, String> {
    let numbers: Vec<i64> = word.split(':').map(number).collect::<Result<_, _>>()?;
    match numbers[..] {
        [grid, lon, lat] => Ok(Entry { grid, lon, lat }),
        _ => Err(format!("'{word}' is no grid:lon:lat")),
    }
}
