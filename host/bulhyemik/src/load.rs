//! `load FLOATS NODES Q [FLAG]`: a node file made from a file of floats.

use crate::arguments::Arguments;
use crate::files;
use crate::output::Output;
use crate::stop::{Stop, accepted};
use crate::whole;
use interface::Calls;
use progress::Progress;

/// Floats loaded by one call, so that progress can be shown between two.
const AT_ONCE: usize = 1 << 20;

/// The refusal whose place is a float's position.
const BEYOND: u64 = 11;

pub fn load(calls: &dyn Calls, arguments: &Arguments, out: &mut Output) -> Result<(), Stop> {
    let count = arguments.count(&[3, 4], "FLOATS NODES Q, or FLOATS NODES Q FLAG")?;
    if arguments.is_standard_input(1) {
        return Err(arguments.usage("NODES is '-', but must be a file".into()));
    }
    let quantum = arguments.number(2, "Q")?;
    let flag = if count == 4 { arguments.float(3, "FLAG")? } else { f32::NAN };
    let floats = files::read_words(arguments.file(0), f32::from_le_bytes)?;
    let mut nodes = files::zeros(floats.len())?;
    fill(calls, &floats, flag, quantum, &mut nodes)?;
    whole::write_words(arguments.file(1), &nodes)?;
    out.put(format!("{}\n", nodes.len()))
}

/// Loads all floats, part by part; no floats are one empty part.
fn fill(calls: &dyn Calls, floats: &[f32], flag: f32, quantum: i64, nodes: &mut [i32]) -> Result<(), Stop> {
    let mut progress = Progress::new("loading", floats.len());
    let mut from = 0;
    loop {
        let to = floats.len().min(from + AT_ONCE);
        let mut place = 0;
        let number = calls.load_nodes(&floats[from..to], flag, quantum, &mut nodes[from..to], &mut place);
        let before = if number == BEYOND { from as u64 } else { 0 };
        accepted(number, place + before)?;
        progress.at(to);
        from = to;
        if from == floats.len() {
            return Ok(());
        }
    }
}
