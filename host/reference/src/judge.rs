//! The judge of a group handed over as a record: refusals 2 to 5 in that order.

use crate::geometry::{TURN, extent, far_edge, range_end};
use crate::limits;
use crate::refusal::refuse;
use interface::{Function, Grid, Group, Refusal};

/// Accepts the record, or refuses it as its text would be refused.
pub fn judge(record: &Group) -> Result<(), Refusal> {
    limits_of_record(record)?;
    sound(record)
}

/// Refusal 2: the least place at which the record breaks a limit.
fn limits_of_record(record: &Group) -> Result<(), Refusal> {
    let (functions, grids) = (i128::from(record.functions), i128::from(record.grids));
    let head = limits::name(&record.name)
        && (0..=1).contains(&record.unit)
        && limits::head(i128::from(record.quantum), i128::from(record.parameters), functions, grids);
    if !head {
        return refuse(2, 1);
    }
    let (functions, unused_functions) = record.function.split_at(record.functions as usize);
    let (grids, unused_grids) = record.grid.split_at(record.grids as usize);
    let not_zero = unused_functions.iter().any(|f| *f != Function::default());
    if not_zero || unused_grids.iter().any(|g| *g != Grid::default()) {
        return refuse(2, 1);
    }
    if let Some(k) = functions.iter().position(|f| !limits::function(f.kind, f.numbers.map(i128::from))) {
        return refuse(2, 2 + k);
    }
    let broken = |g: &Grid| !limits::name(&g.name) || !limits::grid(limits::grid_numbers(g));
    if let Some(k) = grids.iter().position(broken) {
        return refuse(2, 2 + functions.len() + k);
    }
    Ok(())
}

/// Refusals 3 to 5 of a record within its limits: each over all grids before the next.
pub fn sound(record: &Group) -> Result<(), Refusal> {
    let grids = &record.grid[..record.grids as usize];
    let named_earlier = |k: usize| grids[..k].iter().any(|g| g.name.text() == grids[k].name.text());
    let too_far = |k: usize| {
        let (lon, lat) = far_edge(&grids[k]);
        !limits::grid_longitude(lon)
            || !limits::latitude(lat)
            || extent(&grids[k]).width() > TURN
            || range_end(&grids[k], record.parameters) > limits::NODE_LIST
    };
    let clashes = |k: usize| grids[..k].iter().any(|g| g.rank == grids[k].rank && extent(g).meets(&extent(&grids[k])));
    let faults: [(u64, &dyn Fn(usize) -> bool); 3] = [(3, &named_earlier), (4, &too_far), (5, &clashes)];
    for (number, fault) in faults {
        if let Some(k) = (0..grids.len()).find(|&k| fault(k)) {
            return refuse(number, k + 1);
        }
    }
    Ok(())
}
