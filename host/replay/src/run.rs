//! One case through the calls: the answer, all lent memory, and what differs from the expected.

use crate::lent::filled;
use cases::{Case, CaseFile, Expected, Input, NodeList};
use interface::lent::{Element, Words, compare, patterned};
use interface::{
    Answer, Area, Calls, Fault, Fix, Found, Function, Grid, Group, InForce, MOST_PARAMETERS, Name, Part, Position,
    Screen, Timed, Uncovered,
};
use std::fmt;

/// A case that was answered otherwise than expected.
pub struct Difference {
    pub case: Case,
    pub why: String,
}

impl fmt::Display for Difference {
    fn fmt(&self, f: &mut fmt::Formatter) -> fmt::Result {
        writeln!(f, "  line {}: {}", self.case.line, self.why)?;
        writeln!(f, "    input    {:?}", self.case.input)?;
        write!(f, "    expected {:?}", self.case.expected)
    }
}

/// Runs every case of a file and answers those that differ; `done` is told how many have run.
pub fn run(calls: &dyn Calls, file: &CaseFile, done: impl FnMut(usize)) -> Vec<Difference> {
    Runner { timed: calls, others: Some(calls), file, nodes: None }.differences(done)
}

/// As `run`, by a back end of the timed calls alone: a case of another call differs.
pub fn run_timed(timed: &dyn Timed, file: &CaseFile, done: impl FnMut(usize)) -> Vec<Difference> {
    Runner { timed, others: None, file, nodes: None }.differences(done)
}

/// The back end's calls, the file, and the node list that was made last.
struct Runner<'a> {
    timed: &'a dyn Timed,
    others: Option<&'a dyn Calls>,
    file: &'a CaseFile,
    nodes: Option<(String, Vec<i32>)>,
}

/// A lent number before the call.
fn lent() -> u64 {
    u64::pattern(0)
}

/// Compares one number.
fn same(what: &str, got: u64, expected: u64) -> Result<(), String> {
    if got == expected { Ok(()) } else { Err(format!("{what} {got} instead of {expected}")) }
}

/// Compares a returned number and the place beside it.
fn returned(got: (u64, u64), expected: &Expected) -> Result<(), String> {
    let (number, place) = match *expected {
        Expected::Refused { number, place } => (number, place),
        _ => (0, 0),
    };
    same("returned", got.0, number)?;
    same("place is", got.1, place)
}

/// Compares a text, its count of bytes and what stands behind it.
fn written(out: &[u8], count: u64, expected: &Expected) -> Result<(), String> {
    let (bytes, text): (u64, &[u8]) = match expected {
        Expected::Written { count, bytes } => (*count, bytes),
        _ => (0, &[]),
    };
    same("count is", count, bytes)?;
    compare("out", out, &filled(out.len(), text))
}

/// A group of one grid of four nodes, for a lookup that answers the day factor.
fn factor_group(functions: &[Function]) -> Group {
    let count = functions.len() as i64;
    let mut group = Group { name: Name::new(b"factor"), parameters: 1, functions: count, grids: 1, ..Group::default() };
    group.function[..functions.len()].copy_from_slice(functions);
    group.grid[0] = Grid { name: Name::new(b"ones"), dlon: 1, dlat: 1, ni: 2, nj: 2, rank: 1, ..Grid::default() };
    group
}

impl<'a> Runner<'a> {
    fn differences(&mut self, mut done: impl FnMut(usize)) -> Vec<Difference> {
        let mut differences = Vec::new();
        for (k, case) in self.file.cases.iter().enumerate() {
            if let Err(why) = self.case(&case.input, &case.expected) {
                differences.push(Difference { case: case.clone(), why });
            }
            done(k + 1);
        }
        differences
    }

    /// The calls that are not timed.
    fn others(&self) -> Result<&'a dyn Calls, String> {
        self.others.ok_or_else(|| "the back end has no such call".to_string())
    }

    fn case(&mut self, input: &Input, expected: &Expected) -> Result<(), String> {
        match input {
            Input::ReadHeader { text } => self.read_header(text, expected),
            Input::JudgeRecord { group } => self.judge(self.file.group(group), expected),
            Input::WriteHeader { group, out_len } => self.write_header(self.file.group(group), *out_len, expected),
            Input::Field { line, number } => self.field(line, *number, expected),
            &Input::Lookup { ref group, ref nodes, lon, lat, day } => {
                self.make_nodes(nodes);
                self.lookup(self.file.group(group), self.made(), Position { lon, lat, day }, expected)
            }
            Input::Batch { group, nodes, out_len, points } => {
                self.make_nodes(nodes);
                self.batch(self.file.group(group), self.made(), points, *out_len, expected)
            }
            Input::InForce { group, area } => self.in_force(self.file.group(group), *area, expected),
            Input::Hole { group, area } => self.hole(self.file.group(group), *area, expected),
            Input::JudgeLog { group, nodes, log } => {
                self.make_nodes(nodes);
                self.judge_log(self.file.group(group), self.made(), log, expected)
            }
            Input::WriteLog { group, nodes, at, out_len } => {
                self.make_nodes(nodes);
                self.write_log(self.file.group(group), self.made(), *at, *out_len, expected)
            }
            Input::Load { quantum, flag, out_len, floats } => self.load(floats, *flag, *quantum, *out_len, expected),
            &Input::Screen { lon, lat, quantum, parameters, number, at, fix } => {
                self.screen(lon, lat, &Found { quantum, parameters, number, at, fix }, expected)
            }
            Input::DayFactor { functions, day } => {
                let fix = match *expected {
                    Expected::Factor(factor) => Expected::Fix(Fix { grid: 1, result: [factor, 0, 0] }),
                    _ => expected.clone(),
                };
                self.lookup(&factor_group(functions), &[1_000_000; 4], Position { lon: 0, lat: 0, day: *day }, &fix)
            }
        }
    }

    fn make_nodes(&mut self, id: &str) {
        if !matches!(&self.nodes, Some((made, _)) if made == id) {
            self.nodes = None;
            self.nodes = Some((id.to_string(), NodeList::nodes(self.file.nodes(id))));
        }
    }

    /// The node list that was made last.
    fn made(&self) -> &[i32] {
        let (_, made) = self.nodes.as_ref().expect("made just now");
        made
    }

    fn read_header(&self, text: &[u8], expected: &Expected) -> Result<(), String> {
        let (mut group, mut place) = (Group::patterned(), lent());
        let number = self.timed.read_header(text, &mut group, &mut place);
        returned((number, place), expected)?;
        match expected {
            Expected::Group(read) => compare("group", group.words(), read.words()),
            _ => compare("group", group.words(), Group::patterned().words()),
        }
    }

    fn judge(&self, group: &Group, expected: &Expected) -> Result<(), String> {
        let mut place = lent();
        let number = self.timed.judge(group, &mut place);
        returned((number, place), expected)
    }

    fn write_header(&self, group: &Group, out_len: usize, expected: &Expected) -> Result<(), String> {
        let (mut out, mut count, mut place) = (patterned(out_len), lent(), lent());
        let number = self.timed.write_header(group, &mut out, &mut count, &mut place);
        returned((number, place), expected)?;
        written(&out, count, expected)
    }

    fn field(&self, line: &[u8], k: u64, expected: &Expected) -> Result<(), String> {
        let Expected::Part(expected) = expected else { return Err("a field is never refused".to_string()) };
        let mut part = Part::patterned();
        self.others()?.field(line, k, &mut part);
        compare("part", part.words(), expected.words())
    }

    fn lookup(&self, group: &Group, nodes: &[i32], at: Position, expected: &Expected) -> Result<(), String> {
        let (mut fix, mut place) = (Fix::patterned(), lent());
        let number = self.timed.lookup(group, nodes, at, &mut fix, &mut place);
        let found = match *expected {
            Expected::Fix(fix) => fix,
            _ => Fix::default(),
        };
        returned((number, place), expected)?;
        compare("fix", fix.words(), found.words())
    }

    /// Where the call is refused, the results are those that were lent.
    fn batch(
        &self,
        group: &Group,
        nodes: &[i32],
        points: &[Position],
        out_len: usize,
        expected: &Expected,
    ) -> Result<(), String> {
        let (mut results, mut place) = (Answer::patterned_list(out_len), lent());
        let number = self.timed.lookup_many(group, nodes, points, &mut results, &mut place);
        returned((number, place), expected)?;
        let answers = match expected {
            Expected::Answers(answers) => answers,
            _ => &Answer::patterned_list(out_len),
        };
        same("results are", results.len() as u64, answers.len() as u64)?;
        compare("results", Answer::words_of(&results), Answer::words_of(answers))
    }

    fn in_force(&self, group: &Group, area: Area, expected: &Expected) -> Result<(), String> {
        let (mut list, mut place) = (InForce::patterned(), lent());
        let number = self.timed.grids_in_force(group, area, &mut list, &mut place);
        let listed = match expected {
            Expected::InForce { count, entries } => InForce { count: *count, ..InForce::new(entries) },
            _ => InForce::default(),
        };
        returned((number, place), expected)?;
        compare("list", list.words(), listed.words())
    }

    fn hole(&self, group: &Group, area: Area, expected: &Expected) -> Result<(), String> {
        let (mut uncovered, mut place) = (Uncovered::patterned(), lent());
        let number = self.timed.hole(group, area, &mut uncovered, &mut place);
        let first = match *expected {
            Expected::Hole(first) => first,
            _ => Uncovered::default(),
        };
        returned((number, place), expected)?;
        compare("uncovered", uncovered.words(), first.words())
    }

    fn judge_log(&self, group: &Group, nodes: &[i32], log: &[u8], expected: &Expected) -> Result<(), String> {
        let (mut fault, mut place) = (Fault::patterned(), lent());
        let number = self.timed.judge_log(group, nodes, log, &mut fault, &mut place);
        let first = match *expected {
            Expected::Fault(first) => first,
            _ => Fault::default(),
        };
        returned((number, place), expected)?;
        compare("fault", fault.words(), first.words())
    }

    fn write_log(
        &self,
        group: &Group,
        nodes: &[i32],
        at: Position,
        out_len: usize,
        expected: &Expected,
    ) -> Result<(), String> {
        let (mut out, mut count, mut place) = (patterned(out_len), lent(), lent());
        let number = self.others()?.write_log_line(group, nodes, at, &mut out, &mut count, &mut place);
        returned((number, place), expected)?;
        written(&out, count, expected)
    }

    fn load(&self, floats: &[f32], flag: f32, quantum: i64, out_len: usize, expected: &Expected) -> Result<(), String> {
        let (mut nodes, mut place) = (patterned(out_len), lent());
        let number = self.timed.load_nodes(floats, flag, quantum, &mut nodes, &mut place);
        let loaded: &[i32] = match expected {
            Expected::Nodes(loaded) => loaded,
            _ => &[],
        };
        returned((number, place), expected)?;
        compare("nodes", &nodes, &filled(out_len, loaded))
    }

    /// A screen case expects five floats, all +0 where the lookup was refused: both calls must give them, and hand the
    /// lookup's refusal on.
    fn screen(&self, lon: i64, lat: i64, found: &Found, expected: &Expected) -> Result<(), String> {
        let &Found { number, at, .. } = found;
        let (shown, answer) = match *expected {
            Expected::Screen([longitude, latitude, ref shift @ ..]) => {
                let shift: [f64; MOST_PARAMETERS] = shift.map(f64::from_bits);
                let refused = Expected::Refused { number, place: if number == 0 { 0 } else { at } };
                (Screen { longitude: f64::from_bits(longitude), latitude: f64::from_bits(latitude), shift }, refused)
            }
            _ => (Screen::default(), expected.clone()),
        };
        let (mut screen, mut place) = (Screen::patterned(), lent());
        let got = self.others()?.screen_record(lon, lat, found, &mut screen, &mut place);
        returned((got, place), &answer).map_err(|why| format!("record: {why}"))?;
        compare("screen", screen.words(), shown.words())?;
        let (mut shifts, mut place) = (Screen::patterned().shift, lent());
        let got = self.others()?.screen_answer(found, &mut shifts, &mut place);
        returned((got, place), &answer).map_err(|why| format!("answer: {why}"))?;
        compare("shifts", &shifts, &shown.shift)
    }
}
