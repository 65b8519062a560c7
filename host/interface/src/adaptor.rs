//! The timed calls over a program written in Rust, whose answers are values or refusals.

use crate::{Answer, Area, Entry, Fault, Fix, Group, InForce, Position, Timed, Uncovered};

/// A refusal: its number in document 01's table and its place.
#[derive(Clone, Copy, Debug, PartialEq, Eq)]
pub struct Refusal {
    pub number: u64,
    pub place: u64,
}

type Outcome<T> = Result<T, Refusal>;
type Hole = fn(&Group, Area) -> Outcome<Option<(i64, i64)>>;
type LookupMany = fn(&Group, &[i32], &[Position], &mut [Answer]) -> Outcome<()>;

/// What answers each timed call. `out`, `nodes` and `results` are unchanged after a refusal.
pub struct Answers {
    pub judge: fn(&Group) -> Outcome<()>,
    pub read_header: fn(&[u8]) -> Outcome<Group>,
    /// The count of bytes written.
    pub write_header: fn(&Group, &mut [u8]) -> Outcome<usize>,
    pub lookup: fn(&Group, &[i32], Position) -> Outcome<Fix>,
    pub lookup_many: LookupMany,
    pub grids_in_force: fn(&Group, Area) -> Outcome<Vec<Entry>>,
    /// Longitude and latitude.
    pub hole: Hole,
    pub judge_log: fn(&Group, &[i32], &[u8]) -> Outcome<Fault>,
    pub load_nodes: fn(&[f32], f32, i64, &mut [i32]) -> Outcome<()>,
}

/// A program that is known by its answers: a constant, so that nothing stands between the calls and its functions.
pub trait Program {
    const ANSWERS: Answers;
}

/// Hands a value back, zeros after a refusal, with the place; answers the refusal's number.
pub fn hand_back<T: Default>(outcome: Outcome<T>, into: &mut T, place: &mut u64) -> u64 {
    let (number, at, value) = match outcome {
        Ok(value) => (0, 0, value),
        Err(refusal) => (refusal.number, refusal.place, T::default()),
    };
    (*into, *place) = (value, at);
    number
}

impl From<Outcome<Fix>> for Answer {
    fn from(outcome: Outcome<Fix>) -> Answer {
        let mut answer = Answer::default();
        answer.number = hand_back(outcome, &mut answer.fix, &mut answer.place);
        answer
    }
}

impl<T: Program> Timed for T {
    fn judge(&self, group: &Group, place: &mut u64) -> u64 {
        hand_back((T::ANSWERS.judge)(group), &mut (), place)
    }

    fn read_header(&self, text: &[u8], group: &mut Group, place: &mut u64) -> u64 {
        hand_back((T::ANSWERS.read_header)(text).map(|read| *group = read), &mut (), place)
    }

    fn write_header(&self, group: &Group, out: &mut [u8], count: &mut u64, place: &mut u64) -> u64 {
        hand_back((T::ANSWERS.write_header)(group, out).map(|written| written as u64), count, place)
    }

    fn lookup(&self, group: &Group, nodes: &[i32], at: Position, fix: &mut Fix, place: &mut u64) -> u64 {
        hand_back((T::ANSWERS.lookup)(group, nodes, at), fix, place)
    }

    fn lookup_many(
        &self,
        group: &Group,
        nodes: &[i32],
        points: &[Position],
        results: &mut [Answer],
        place: &mut u64,
    ) -> u64 {
        hand_back((T::ANSWERS.lookup_many)(group, nodes, points, results), &mut (), place)
    }

    fn grids_in_force(&self, group: &Group, area: Area, list: &mut InForce, place: &mut u64) -> u64 {
        hand_back((T::ANSWERS.grids_in_force)(group, area).map(|entries| InForce::new(&entries)), list, place)
    }

    fn hole(&self, group: &Group, area: Area, uncovered: &mut Uncovered, place: &mut u64) -> u64 {
        hand_back((T::ANSWERS.hole)(group, area).map(Uncovered::new), uncovered, place)
    }

    fn judge_log(&self, group: &Group, nodes: &[i32], log: &[u8], fault: &mut Fault, place: &mut u64) -> u64 {
        hand_back((T::ANSWERS.judge_log)(group, nodes, log), fault, place)
    }

    fn load_nodes(&self, floats: &[f32], flag: f32, quantum: i64, nodes: &mut [i32], place: &mut u64) -> u64 {
        hand_back((T::ANSWERS.load_nodes)(floats, flag, quantum, nodes), &mut (), place)
    }
}
