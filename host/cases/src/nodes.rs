//! Node lists as case lines define them: written out, or by a rule.

use crate::parts::{list, number};

/// How the nodes of a list are given.
#[derive(Clone, Debug)]
enum Rule {
    Listed(Vec<i32>),
    Hashed { seed: i64, limit: i64, but: Vec<(usize, i32)> },
}

/// A node list that is made when it is asked for.
#[derive(Clone, Debug)]
pub struct NodeList {
    len: usize,
    rule: Rule,
}

impl NodeList {
    /// The list that a length and a spec define.
    pub fn parse(len: &str, spec: &str) -> Result<NodeList, String> {
        let len: usize = number(len)?;
        let (kind, rest) = spec.split_once(' ').unwrap_or((spec, ""));
        let rule = match kind {
            "list" => Rule::Listed(list(rest, number)?),
            "hash" => hashed(rest)?,
            _ => return Err(format!("'{kind}' is no kind of node list")),
        };
        match &rule {
            Rule::Listed(values) if values.len() != len => Err(format!("{} nodes instead of {len}", values.len())),
            Rule::Hashed { but, .. } if but.iter().any(|&(k, _)| k >= len) => Err(format!("a node behind the {len}th")),
            _ => Ok(NodeList { len, rule }),
        }
    }

    /// All nodes.
    pub fn nodes(&self) -> Vec<i32> {
        match &self.rule {
            Rule::Listed(values) => values.clone(),
            Rule::Hashed { seed, limit, but } => {
                let hash = |k: i64| (k * 2_654_435_761 + seed).rem_euclid(1 << 32) % (2 * limit + 1) - limit;
                let mut nodes: Vec<i32> = (0..self.len as i64).map(|k| hash(k) as i32).collect();
                for &(k, v) in but {
                    nodes[k] = v;
                }
                nodes
            }
        }
    }
}

/// `seed limit k=v ...`
fn hashed(rest: &str) -> Result<Rule, String> {
    let words: Vec<&str> = rest.split(' ').filter(|w| !w.is_empty()).collect();
    let [seed, limit, ref but @ ..] = words[..] else {
        return Err(format!("'{rest}' has no seed and limit"));
    };
    let pair = |word: &&str| match word.split_once('=') {
        Some((k, v)) => Ok((number(k)?, number(v)?)),
        None => Err(format!("'{word}' is no k=v")),
    };
    Ok(Rule::Hashed {
        seed: number(seed)?,
        limit: number(limit)?,
        but: but.iter().map(pair).collect::<Result<_, String>>()?,
    })
}
