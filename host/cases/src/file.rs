//! A whole case file: its definitions and its cases.

use crate::case::{Case, expected, input};
use crate::nodes::NodeList;
use crate::record::record;
use interface::Group;
use std::collections::HashMap;

/// Groups and node lists under the ids that a file gives them.
#[derive(Default)]
pub struct Definitions {
    groups: HashMap<String, Group>,
    nodes: HashMap<String, NodeList>,
}

impl Definitions {
    pub fn group(&self, id: &str) -> Result<&Group, String> {
        self.groups.get(id).ok_or_else(|| format!("no group '{id}' is defined before"))
    }

    pub fn nodes(&self, id: &str) -> Result<&NodeList, String> {
        self.nodes.get(id).ok_or_else(|| format!("no node list '{id}' is defined before"))
    }
}

/// A line that is not of the format, and why.
#[derive(Debug)]
pub struct Fault {
    pub line: usize,
    pub why: String,
}

/// The cases of one call.
pub struct CaseFile {
    defined: Definitions,
    pub cases: Vec<Case>,
}

impl CaseFile {
    /// The cases of `call` that a text holds.
    pub fn parse(call: &str, text: &str) -> Result<CaseFile, Fault> {
        let mut file = CaseFile { defined: Definitions::default(), cases: Vec::new() };
        for (k, line) in text.lines().enumerate() {
            file.read_line(call, k + 1, line).map_err(|why| Fault { line: k + 1, why })?;
        }
        Ok(file)
    }

    /// The group of an id that a case names.
    pub fn group(&self, id: &str) -> &Group {
        &self.defined.groups[id]
    }

    /// The node list of an id that a case names.
    pub fn nodes(&self, id: &str) -> &NodeList {
        &self.defined.nodes[id]
    }

    fn read_line(&mut self, call: &str, line: usize, text: &str) -> Result<(), String> {
        let words: Vec<&str> = text.split('\t').collect();
        match words[..] {
            ["G", id, written] => {
                self.defined.groups.insert(id.to_string(), record(written)?);
            }
            ["N", id, len, spec] => {
                self.defined.nodes.insert(id.to_string(), NodeList::parse(len, spec)?);
            }
            ["C", ref rest @ ..] => {
                let arrow = rest.iter().position(|&w| w == "=>").ok_or("no answer")?;
                self.cases.push(Case {
                    line,
                    input: input(call, &rest[..arrow], &self.defined)?,
                    expected: expected(call, &rest[arrow + 1..])?,
                });
            }
            _ => return Err("neither G, N nor C".to_string()),
        }
        Ok(())
    }
}
