//! `check HEADER [NODES]`: whether a header is accepted, and whether a node list is one for it.

use crate::arguments::Arguments;
use crate::group::{self, grids, name};
use crate::model::Model;
use crate::output::Output;
use crate::stop::{Refusal, Stop};
use interface::{Calls, MARK, Position};

/// The refusal of a node list that ends early; a lookup comes to it before it chooses a grid.
const TOO_FEW: u64 = 13;

pub fn check(calls: &dyn Calls, arguments: &Arguments, out: &mut Output) -> Result<(), Stop> {
    if arguments.count(&[1, 2], "HEADER, or HEADER NODES")? == 1 {
        group::read(calls, arguments.file(0))?;
        return out.put("accepted\n");
    }
    let model = Model::read(calls, arguments)?;
    let found = model.look(calls, Position { lon: 0, lat: 0, day: 0 });
    if found.number == TOO_FEW {
        return Err(Refusal { number: found.number, place: found.at }.into());
    }
    out.put("accepted\n")?;
    for (number, grid) in grids(&model.group) {
        let values = group::node_range(&model.group, grid);
        let count = values.len();
        let values = &model.nodes[values];
        let marks = values.iter().filter(|&&value| value == MARK).count();
        out.put(format!("{number}\t{}\t{count}\t{marks}\n", name(&grid.name)))?;
    }
    match (unused(&model), model.nodes.len()) {
        (0, _) => Ok(()),
        (unused, all) => out.say(&format!("bulhyemik: values in no grid: {unused} of {all}\n")),
    }
}

/// How many values of a node list are in no grid's range.
fn unused(model: &Model) -> usize {
    let mut ranges: Vec<_> = grids(&model.group).map(|(_, grid)| group::node_range(&model.group, grid)).collect();
    ranges.sort_by_key(|range| range.start);
    let (used, _) = ranges
        .iter()
        .fold((0, 0), |(used, end), range| (used + range.end.saturating_sub(range.start.max(end)), range.end.max(end)));
    model.nodes.len() - used
}
