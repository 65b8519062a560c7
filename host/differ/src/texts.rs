//! Header texts of groups, whatever their numbers, and damage to them.

use crate::random::Random;
use interface::{Function, Group, Name};

/// The header text of a record, with as many lines as its counts can name.
pub fn text(record: &Group) -> Vec<u8> {
    let mut text = Vec::new();
    let mut line = |word: &str, name: Option<&Name>, unit: Option<&str>, numbers: &[i64]| {
        text.extend(word.bytes());
        if let Some(name) = name {
            text.push(b'\t');
            text.extend(name.text());
        }
        if let Some(unit) = unit {
            text.push(b'\t');
            text.extend(unit.bytes());
        }
        for number in numbers {
            text.extend(format!("\t{number}").bytes());
        }
        text.push(b'\n');
    };
    let unit = if record.unit == 0 { "arc-second" } else { "metre" };
    line("group", Some(&record.name), Some(unit), &[record.quantum, record.parameters, record.functions, record.grids]);
    for f in &record.function[..record.functions.clamp(0, 8) as usize] {
        let (word, numbers) = f.line().unwrap_or(("ramp3", &f.numbers));
        line(word, None, None, numbers);
    }
    for g in &record.grid[..record.grids.clamp(0, 64) as usize] {
        line("grid", Some(&g.name), None, &[g.lon, g.lat, g.dlon, g.dlat, g.ni, g.nj, g.rank, g.start]);
    }
    text
}

/// Damages a text in one place.
pub fn damage(random: &mut Random, text: &mut Vec<u8>) {
    match random.below(5) {
        0 => damage_bytes(random, text),
        1 => damage_lines(random, text),
        2 => damage_function(random, text),
        _ => damage_field(random, text),
    }
}

fn damage_bytes(random: &mut Random, text: &mut Vec<u8>) {
    let byte = random.pick(b"\t\n\r\0 -+09aG\x7f\xff");
    let at = random.below(text.len().max(1));
    match random.below(6) {
        0 => text.truncate(at),
        1 => drop(text.pop()),
        2 => text.push(byte),
        3 => text.insert(at, byte),
        4 if at < text.len() => drop(text.remove(at)),
        _ => text.iter_mut().skip(at).take(1).for_each(|c| *c = byte),
    }
}

fn damage_lines(random: &mut Random, text: &mut Vec<u8>) {
    let mut lines: Vec<Vec<u8>> = text.split_inclusive(|&c| c == b'\n').map(<[u8]>::to_vec).collect();
    if lines.is_empty() {
        return;
    }
    let (one, other) = (random.below(lines.len()), random.below(lines.len()));
    match random.below(4) {
        0 => drop(lines.remove(one)),
        1 => lines.insert(one, lines[other].clone()),
        2 => lines.push(b"\n".to_vec()),
        _ => lines.swap(one, other),
    }
    *text = lines.concat();
}

/// Gives a function's line another word, a field less or a field more, as every kind's line differs from the others'.
fn damage_function(random: &mut Random, text: &mut Vec<u8>) {
    const WORDS: [&str; 9] = ["ramp", "step", "ramp2", "ramp", "step", "ramp2", "ramp3", "Step", ""];
    let mut lines: Vec<Vec<&[u8]>> =
        text.split(|&c| c == b'\n').map(|line| line.split(|&c| c == b'\t').collect()).collect();
    let of_a_function = |line: &Vec<&[u8]>| Function::KINDS.iter().any(|(word, _)| word.as_bytes() == line[0]);
    let all: Vec<usize> = (0..lines.len()).filter(|&k| of_a_function(&lines[k])).collect();
    if all.is_empty() {
        return;
    }
    let fields = &mut lines[random.pick(&all)];
    match random.below(4) {
        0 => drop(fields.pop()),
        1 => fields.push(random.pick(&["0", "7", "-10000000", ""]).as_bytes()),
        _ => fields[0] = random.pick(&WORDS).as_bytes(),
    }
    *text = lines.iter().map(|fields| fields.join(&b'\t')).collect::<Vec<_>>().join(&b'\n');
}

fn damage_field(random: &mut Random, text: &mut Vec<u8>) {
    const FORMS: [&str; 14] =
        ["-0", "00", "+1", "01", "-01", "-", "", "1.0", " 1", "1 ", "metres", "Metre", "arc-second", "grid"];
    let tabs: Vec<usize> = (0..text.len()).filter(|&k| text[k] == b'\t').collect();
    if tabs.is_empty() {
        return;
    }
    let from = random.pick(&tabs) + 1;
    let to = (from..text.len()).find(|&k| text[k] == b'\t' || text[k] == b'\n').unwrap_or(text.len());
    let word = match random.below(5) {
        0 | 1 => random.pick(&FORMS).to_string(),
        2 => format!("{}{}", random.pick(&["", "-"]), "9".repeat(random.pick(&[18, 19, 20, 25, 40, 200]))),
        3 => "n".repeat(random.pick(&[23, 24, 25, 26])),
        _ => random.odd().to_string(),
    };
    text.splice(from..to, word.bytes());
}

/// A line of few kinds of bytes, many of them tabs.
pub fn line(random: &mut Random) -> Vec<u8> {
    let len = random.pick(&[0, 1, 2, 3, 8, 20, 60]);
    (0..len).map(|_| random.pick(b"\t\t\tab\n\r\0 \xff")).collect()
}
