//! The plain versions as a back end.

use crate::hole::hole;
use crate::in_force::in_force;
use crate::judge::judge;
use crate::load::load;
use crate::log::judge_log;
use crate::lookup::{lookup, lookup_many};
use crate::read::read;
use crate::write::write;
use interface::{Answers, Program};

/// Plain Rust as a back end of the timed calls; it has no others.
pub struct Plain;

impl Program for Plain {
    const ANSWERS: Answers = Answers {
        judge: |group| judge(group).map(|_| ()),
        read_header: read,
        write_header: write,
        lookup,
        lookup_many,
        grids_in_force: in_force,
        hole,
        judge_log,
        load_nodes: load,
    };
}
