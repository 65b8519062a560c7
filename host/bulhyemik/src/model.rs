//! A group with its nodes, and lookups in it, one by one or many at once.

use crate::arguments::Arguments;
use crate::files;
use crate::group::{self, name};
use crate::stop::Stop;
use interface::{Answer, Calls, Fix, Found, Group, Position};

pub struct Model {
    pub group: Group,
    pub nodes: Vec<i32>,
}

impl Model {
    /// Reads the files HEADER and NODES, the first two arguments.
    pub fn read(calls: &dyn Calls, arguments: &Arguments) -> Result<Model, Stop> {
        arguments.standard_input_once(&["HEADER", "NODES"])?;
        let group = group::read(calls, arguments.file(0))?;
        let nodes = files::read_words(arguments.file(1), i32::from_le_bytes)?;
        Ok(Model { group, nodes })
    }

    /// Looks a position up.
    pub fn look(&self, calls: &dyn Calls, position: Position) -> Found {
        let (mut fix, mut place) = (Fix::default(), 0);
        let number = calls.lookup(&self.group, &self.nodes, position, &mut fix, &mut place);
        self.found(Answer { number, place, fix })
    }

    /// Looks positions up by one call. Where a node list that ends early refuses it, each is looked up by itself: a point or a
    /// day outside its limit is told before the list.
    pub fn look_many(&self, calls: &dyn Calls, positions: &[Position]) -> Vec<Found> {
        let mut results = vec![Answer::default(); positions.len()];
        match calls.lookup_many(&self.group, &self.nodes, positions, &mut results, &mut 0) {
            0 => results.into_iter().map(|answer| self.found(answer)).collect(),
            _ => positions.iter().map(|&position| self.look(calls, position)).collect(),
        }
    }

    /// A lookup's answer as the screen is told of it.
    fn found(&self, Answer { number, place, fix }: Answer) -> Found {
        Found { quantum: self.group.quantum, parameters: self.group.parameters, number, at: place, fix }
    }

    /// The name of the grid that a lookup chose.
    pub fn chosen(&self, fix: &Fix) -> String {
        name(&self.group.grid[fix.grid as usize - 1].name)
    }

    /// The shifts of those parameters that the group has.
    pub fn shifts<'a, T>(&self, all: &'a [T]) -> &'a [T] {
        &all[..self.group.parameters as usize]
    }
}
