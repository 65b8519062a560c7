//! `judge HEADER NODES LOG`: whether every line of a log says what the lookup says.

use crate::arguments::Arguments;
use crate::fault;
use crate::files;
use crate::model::Model;
use crate::output::Output;
use crate::stop::{Stop, accepted};
use interface::{Calls, Fault};

pub fn judge(calls: &dyn Calls, arguments: &Arguments, out: &mut Output) -> Result<(), Stop> {
    arguments.count(&[3], "HEADER NODES LOG")?;
    arguments.standard_input_once(&["HEADER", "NODES", "LOG"])?;
    let model = Model::read(calls, arguments)?;
    let log = files::read(arguments.file(2))?;
    let (mut fault, mut place) = (Fault::default(), 0);
    let number = calls.judge_log(&model.group, &model.nodes, &log, &mut fault, &mut place);
    accepted(number, place)?;
    match fault.line {
        0 => out.put(format!("passed\t{}\n", log.iter().filter(|&&c| c == b'\n').count())),
        _ => Err(fault::told(calls, &model, &log, &fault)),
    }
}
