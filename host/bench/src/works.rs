//! The kinds of work: a call, its inputs, and the memory that it is lent.

use crate::back_end::BackEnd;
use crate::quotients::{Quotient, WideQuotient};
use crate::work::Work;
use interface::lent::Words;
use interface::{Answer, Area, Fault, Fix, Group, HEADER_BYTES, InForce, Position, Uncovered};
use std::hash::{DefaultHasher, Hash, Hasher};

pub struct Judge {
    pub group: Group,
    number: u64,
    place: u64,
}

impl Judge {
    pub fn new(group: Group) -> Judge {
        Judge { group, number: 0, place: 0 }
    }
}

impl Work for Judge {
    fn run(&mut self, back_end: &BackEnd) {
        self.number = back_end.calls.judge(&self.group, &mut self.place);
    }

    fn answer(&self) -> Vec<i64> {
        vec![self.number as i64, self.place as i64]
    }
}

/// Nodes for all grids of a group, each so much above the one before, and up to so much in size.
fn spread(group: &Group, step: i64, most: i64) -> Vec<i32> {
    let len = group.grid.iter().map(|grid| plain::end(grid, group.parameters)).max().unwrap_or(0);
    (0..len).map(|k| (k * step % (2 * most + 1) - most) as i32).collect()
}

/// Nodes for all grids of a group, with which no sum of a fine grid passes one word.
pub fn nodes(group: &Group) -> Vec<i32> {
    spread(group, 7_919, 4_000_000)
}

/// Nodes up to the greatest, with which most sums of a coarse grid pass one word.
pub fn great_nodes(group: &Group) -> Vec<i32> {
    spread(group, 1_640_531_527, i32::MAX.into())
}

/// Lookups in one group, one by one.
pub struct Lookups {
    group: Group,
    nodes: Vec<i32>,
    points: Vec<Position>,
    numbers: Vec<u64>,
    fixes: Vec<Fix>,
}

impl Lookups {
    pub fn new(group: Group, nodes: Vec<i32>, points: Vec<Position>) -> Lookups {
        let (numbers, fixes) = (vec![0; points.len()], vec![Fix::default(); points.len()]);
        Lookups { group, nodes, points, numbers, fixes }
    }
}

impl Work for Lookups {
    fn run(&mut self, back_end: &BackEnd) {
        let lent = self.numbers.iter_mut().zip(&mut self.fixes);
        for (&at, (number, fix)) in self.points.iter().zip(lent) {
            *number = back_end.calls.lookup(&self.group, &self.nodes, at, fix, &mut 0);
        }
    }

    fn answer(&self) -> Vec<i64> {
        let fixes = self.fixes.iter().flat_map(|fix| fix.words());
        self.numbers.iter().map(|&number| number as i64).chain(fixes.copied()).collect()
    }
}

/// All points looked up in one group by one call.
pub struct Exercise {
    group: Group,
    nodes: Vec<i32>,
    points: Vec<Position>,
    results: Vec<Answer>,
    number: u64,
}

impl Exercise {
    pub fn new(group: Group, nodes: Vec<i32>, points: Vec<Position>) -> Exercise {
        let results = vec![Answer::default(); points.len()];
        Exercise { group, nodes, points, results, number: 0 }
    }
}

impl Work for Exercise {
    fn run(&mut self, back_end: &BackEnd) {
        let Exercise { group, nodes, points, results, number } = self;
        *number = back_end.calls.lookup_many(group, nodes, points, results, &mut 0);
    }

    fn answer(&self) -> Vec<i64> {
        [&[self.number as i64], Answer::words_of(&self.results)].concat()
    }
}

/// Quotients rounded, and nothing else.
pub struct Rounding {
    numerators: Vec<u64>,
    divisors: Vec<u64>,
    rounded: Vec<u64>,
}

impl Rounding {
    pub fn new(quotients: impl Iterator<Item = Quotient>) -> Rounding {
        let (numerators, divisors): (Vec<u64>, Vec<u64>) = quotients.map(|(n, d)| (n as u64, d as u64)).unzip();
        Rounding { rounded: vec![0; numerators.len()], numerators, divisors }
    }
}

impl Work for Rounding {
    fn run(&mut self, back_end: &BackEnd) {
        (back_end.round.one_word)(&self.numerators, &self.divisors, &mut self.rounded);
    }

    fn answer(&self) -> Vec<i64> {
        self.rounded.iter().map(|&number| number as i64).collect()
    }
}

/// The same of numerators of two words.
pub struct WideRounding {
    highs: Vec<u64>,
    lows: Vec<u64>,
    divisors: Vec<u64>,
    rounded: Vec<u64>,
}

impl WideRounding {
    pub fn new(quotients: impl Iterator<Item = WideQuotient>) -> WideRounding {
        let words = quotients.map(|(n, d)| (((n >> 64) as u64, n as u64), d));
        let ((highs, lows), divisors): ((Vec<u64>, Vec<u64>), Vec<u64>) = words.unzip();
        WideRounding { rounded: vec![0; highs.len()], highs, lows, divisors }
    }
}

impl Work for WideRounding {
    fn run(&mut self, back_end: &BackEnd) {
        (back_end.round.two_words)(&self.highs, &self.lows, &self.divisors, &mut self.rounded);
    }

    fn answer(&self) -> Vec<i64> {
        self.rounded.iter().map(|&number| number as i64).collect()
    }
}

/// Grids in force in the whole earth.
pub struct InForceEverywhere {
    pub group: Group,
    list: InForce,
    number: u64,
}

impl InForceEverywhere {
    pub fn new(group: Group) -> InForceEverywhere {
        InForceEverywhere { group, list: InForce::default(), number: 0 }
    }
}

impl Work for InForceEverywhere {
    fn run(&mut self, back_end: &BackEnd) {
        self.number = back_end.calls.grids_in_force(&self.group, Area::EARTH, &mut self.list, &mut 0);
    }

    fn answer(&self) -> Vec<i64> {
        [&[self.number as i64], self.list.words()].concat()
    }
}

/// The hole of an area.
pub struct Hole {
    group: Group,
    area: Area,
    uncovered: Uncovered,
    number: u64,
}

impl Hole {
    pub fn new(group: Group, area: Area) -> Hole {
        Hole { group, area, uncovered: Uncovered::default(), number: 0 }
    }
}

impl Work for Hole {
    fn run(&mut self, back_end: &BackEnd) {
        self.number = back_end.calls.hole(&self.group, self.area, &mut self.uncovered, &mut 0);
    }

    fn answer(&self) -> Vec<i64> {
        [&[self.number as i64], self.uncovered.words()].concat()
    }
}

/// A log judged.
pub struct JudgeLog {
    group: Group,
    nodes: Vec<i32>,
    log: Vec<u8>,
    fault: Fault,
    number: u64,
}

impl JudgeLog {
    pub fn new(group: Group, nodes: Vec<i32>, log: Vec<u8>) -> JudgeLog {
        JudgeLog { group, nodes, log, fault: Fault::default(), number: 0 }
    }
}

impl Work for JudgeLog {
    fn run(&mut self, back_end: &BackEnd) {
        let JudgeLog { group, nodes, log, fault, number } = self;
        *number = back_end.calls.judge_log(group, nodes, log, fault, &mut 0);
    }

    fn answer(&self) -> Vec<i64> {
        vec![self.number as i64, self.fault.line as i64, self.fault.kind as i64]
    }
}

pub struct Read {
    text: Vec<u8>,
    group: Group,
    number: u64,
    place: u64,
}

impl Read {
    pub fn new(text: Vec<u8>) -> Read {
        Read { text, group: Group::default(), number: 0, place: 0 }
    }
}

impl Work for Read {
    fn run(&mut self, back_end: &BackEnd) {
        self.number = back_end.calls.read_header(&self.text, &mut self.group, &mut self.place);
    }

    fn answer(&self) -> Vec<i64> {
        [&[self.number as i64, self.place as i64], self.group.words()].concat()
    }
}

pub struct Write {
    group: Group,
    out: Vec<u8>,
    count: u64,
    number: u64,
}

impl Write {
    pub fn new(group: Group) -> Write {
        Write { group, out: vec![0; HEADER_BYTES], count: 0, number: 0 }
    }
}

impl Work for Write {
    fn run(&mut self, back_end: &BackEnd) {
        self.number = back_end.calls.write_header(&self.group, &mut self.out, &mut self.count, &mut 0);
    }

    fn answer(&self) -> Vec<i64> {
        let bytes = self.out.iter().map(|&byte| i64::from(byte));
        [self.number as i64, self.count as i64].into_iter().chain(bytes).collect()
    }
}

pub struct Load {
    floats: Vec<f32>,
    nodes: Vec<i32>,
    number: u64,
    place: u64,
}

impl Load {
    pub fn new(floats: Vec<f32>) -> Load {
        let nodes = vec![0; floats.len()];
        Load { floats, nodes, number: 0, place: 0 }
    }
}

impl Work for Load {
    fn run(&mut self, back_end: &BackEnd) {
        self.number = back_end.calls.load_nodes(&self.floats, -9999.0, 12, &mut self.nodes, &mut self.place);
    }

    fn answer(&self) -> Vec<i64> {
        let mut all = DefaultHasher::new();
        self.nodes.hash(&mut all);
        vec![self.number as i64, self.place as i64, all.finish() as i64]
    }
}
