//! A group record as a case line writes it: head, `F` parts for functions of time, `G` parts for grids, all parted by `|`.

use crate::parts::{bytes, number};
use interface::{Function, Grid, Group, NAME_BYTES, Name};

/// The record that a line writes; entries that it leaves out are zero.
pub fn record(text: &str) -> Result<Group, String> {
    let mut parts = text.split('|');
    let head: Vec<&str> = parts.next().unwrap_or_default().split(' ').collect();
    let [name_hex, len, unit, q, np, functions, grids] = head[..] else {
        return Err(format!("'{text}' has no head of seven words"));
    };
    let mut record = Group {
        name: name(name_hex, len)?,
        unit: number(unit)?,
        quantum: number(q)?,
        parameters: number(np)?,
        functions: number(functions)?,
        grids: number(grids)?,
        ..Group::default()
    };
    for part in parts {
        let words: Vec<&str> = part.split(' ').collect();
        match words[..] {
            ["F", ..] => {
                let (k, function) = function(&words)?;
                *entry(&mut record.function, k)? = function;
            }
            ["G", k, name_hex, len, lon, lat, dlon, dlat, ni, nj, rank, start, "0"] => {
                *entry(&mut record.grid, k)? = Grid {
                    name: name(name_hex, len)?,
                    lon: number(lon)?,
                    lat: number(lat)?,
                    dlon: number(dlon)?,
                    dlat: number(dlat)?,
                    ni: number(ni)?,
                    nj: number(nj)?,
                    rank: number(rank)?,
                    start: number(start)?,
                };
            }
            _ => return Err(format!("'{part}' is no part of a record")),
        }
    }
    Ok(record)
}

/// The functions that a day_factor case lists, in their order; `-` for none.
pub fn functions(text: &str) -> Result<Vec<Function>, String> {
    if text == "-" {
        return Ok(Vec::new());
    }
    text.split('|').map(|part| function(&part.split(' ').collect::<Vec<_>>()).map(|(_, function)| function)).collect()
}

/// A part `F k kind a b c d`: the word of its entry and its function.
fn function<'a>(words: &[&'a str]) -> Result<(&'a str, Function), String> {
    let known = |word: &str| Function::KINDS.iter().position(|&(kind, _)| kind == word);
    match *words {
        ["F", k, word, a, b, c, d] if let Some(kind) = known(word) => {
            Ok((k, Function { kind: kind as i64, numbers: [number(a)?, number(b)?, number(c)?, number(d)?] }))
        }
        _ => Err(format!("'{}' is no function record", words.join(" "))),
    }
}

/// The entry that a word counts from 0.
fn entry<'a, T>(entries: &'a mut [T], k: &str) -> Result<&'a mut T, String> {
    let (k, count): (usize, usize) = (number(k)?, entries.len());
    entries.get_mut(k).ok_or_else(|| format!("there is no entry {k}, only 0 to {}", count - 1))
}

/// A name by the hex of its bytes, zeros at the end left out, and its length.
fn name(hex: &str, len: &str) -> Result<Name, String> {
    let used = bytes(hex)?;
    if used.len() > NAME_BYTES {
        return Err(format!("'{hex}' has more than 24 bytes"));
    }
    Ok(Name { len: number(len)?, ..Name::new(&used) })
}
