//! Logs of a group's lookups: lines that pass, and damage to them, so that every kind of fault comes up.

use crate::groups::TURN;
use crate::places::{position, positions};
use crate::random::Random;
use crate::texts;
use interface::{Calls, Group, LOG_LINE_BYTES, Position};
use reference::Reference;

/// The line of a log as the second program writes it; none where it refuses.
pub fn line(group: &Group, nodes: &[i32], at: Position) -> Option<Vec<u8>> {
    let (mut out, mut count) = ([0; LOG_LINE_BYTES], 0);
    let number = Reference.write_log_line(group, nodes, at, &mut out, &mut count, &mut 0);
    (number == 0).then(|| out[..count as usize].to_vec())
}

/// Logs for one group: mostly one, now and then a short one and what one byte at one place makes of it.
pub fn logs(random: &mut Random, group: &Group, nodes: &[i32]) -> Vec<Vec<u8>> {
    const SHORT: usize = 2 * LOG_LINE_BYTES;
    let log = log(random, group, nodes);
    if !log.is_empty() && log.len() < SHORT && random.percent(12) { one_byte(random, &log) } else { vec![log] }
}

/// A log, and the log with a byte cut, doubled, changed, or put before it.
fn one_byte(random: &mut Random, log: &[u8]) -> Vec<Vec<u8>> {
    const BYTES: &[u8] = b"\t\n\r\0 +,-./0123456789:@AZ[_`afiz{\x7f\x80\xff";
    let at = random.below(log.len());
    let (before, byte, behind) = (&log[..at], log[at], &log[at + 1..]);
    let with = |bytes: &[u8]| [before, bytes, behind].concat();
    let mut all = vec![log.to_vec(), with(b""), with(&[byte, byte])];
    for &other in BYTES {
        all.extend([with(&[other]), with(&[other, byte])]);
    }
    all
}

/// A log, of which some pass; of the others one line or two are damaged, or one line twice.
fn log(random: &mut Random, group: &Group, nodes: &[i32]) -> Vec<u8> {
    let points = positions(random, group);
    let mut lines: Vec<Vec<u8>> = points.into_iter().filter_map(|at| line(group, nodes, at)).collect();
    if random.percent(80) {
        let mut k = random.below(lines.len() + 1);
        if k == lines.len() {
            lines.push(made_up(random, group));
        }
        damage(random, group, &mut lines[k]);
        if random.percent(30) {
            k = if random.percent(70) { k } else { random.below(lines.len()) };
            damage(random, group, &mut lines[k]);
        }
    }
    let mut log = lines.concat();
    if random.percent(10) {
        texts::damage(random, &mut log);
    }
    log
}

/// A line of the form for any position, with a grid and values that are mostly not those of its lookup.
fn made_up(random: &mut Random, group: &Group) -> Vec<u8> {
    let Position { lon, lat, day } = position(random, group);
    let mut line = format!("fix\t{lon}\t{lat}\t{day}\t").into_bytes();
    line.extend(name(random, group));
    for _ in 0..group.parameters.clamp(1, 3) {
        line.extend(format!("\t{}", random.between(-2, 2)).bytes());
    }
    line.push(b'\n');
    line
}

/// The name of a grid, or one that no grid has.
fn name(random: &mut Random, group: &Group) -> Vec<u8> {
    let k = random.below(group.grids.clamp(1, 64) as usize);
    match random.below(4) {
        0 => (k + 1).to_string().into_bytes(),
        1 => vec![b'n'; random.pick(&[1, 23, 24, 25, 26])],
        _ => group.grid[k].name.text().to_vec(),
    }
}

/// Damages a line; now and then the damage is none.
fn damage(random: &mut Random, group: &Group, line: &mut Vec<u8>) {
    match random.below(12) {
        0 | 1 => damage_byte(random, line),
        2 => damage_end(random, line),
        3 => *line = made_up(random, group),
        _ => {
            let text = line.strip_suffix(b"\n").unwrap_or(line);
            let mut fields: Vec<Vec<u8>> = text.split(|&c| c == b'\t').map(<[u8]>::to_vec).collect();
            damage_fields(random, group, &mut fields);
            *line = [fields.join(&b'\t'), b"\n".to_vec()].concat();
        }
    }
}

/// Changes, cuts, doubles or inserts a byte.
fn damage_byte(random: &mut Random, line: &mut Vec<u8>) {
    let byte = if random.percent(80) { random.pick(b"\t\n\r\0 -+019aG_\x7f\xff") } else { random.bits() as u8 };
    let at = random.below(line.len().max(1));
    match random.below(4) {
        0 if at < line.len() => line[at] = byte,
        1 if at < line.len() => drop(line.remove(at)),
        2 if at < line.len() => line.insert(at, line[at]),
        _ => line.insert(at, byte),
    }
}

/// Takes the line feed away, adds to it, or leaves only part of the line.
fn damage_end(random: &mut Random, line: &mut Vec<u8>) {
    let at = random.below(line.len().max(1));
    match random.below(6) {
        0 | 1 => drop(line.pop()),
        2 => line.push(b'\n'),
        3 => line.insert(line.len().saturating_sub(1), b'\r'),
        4 => line.truncate(at),
        _ => *line = random.pick(&[&b"\n"[..], b"\t\n", b"\r\n", b"fix\n", b""]).to_vec(),
    }
}

/// Damages a field, or the number of them.
fn damage_fields(random: &mut Random, group: &Group, fields: &mut Vec<Vec<u8>>) {
    let at = random.below(fields.len());
    match random.below(10) {
        0 => fields[0] = random.pick(&[&b"Fix"[..], b"fi", b"fixx", b" fix", b"grid", b""]).to_vec(),
        1 => fields.truncate(fields.len() - 1),
        2 => fields.push(random.pick(&[&b"0"[..], b"", b"1"]).to_vec()),
        3 | 4 => damage_name(random, group, fields.get_mut(4)),
        5 => damage_form(random, &mut fields[at]),
        6 => damage_number(random, fields.get_mut(1 + at % 3)),
        _ => damage_number(random, fields.get_mut(5 + at % 3)),
    }
}

/// Another name, or one that begins alike.
fn damage_name(random: &mut Random, group: &Group, field: Option<&mut Vec<u8>>) {
    let Some(field) = field else { return };
    match random.below(5) {
        0 => drop(field.pop()),
        1 => field.push(random.pick(b"a0-_. ")),
        2 => field.iter_mut().take(1).for_each(|c| *c ^= 0x20),
        _ => *field = name(random, group),
    }
}

/// A number that is not of its form.
fn damage_form(random: &mut Random, field: &mut Vec<u8>) {
    match random.below(6) {
        0 => field.insert(0, b'0'),
        1 => field.insert(0, b'+'),
        2 => *field = b"-0".to_vec(),
        3 if field.first() == Some(&b'-') => field.insert(1, b'0'),
        3 => field.insert(0, b'-'),
        4 => field.push(b' '),
        _ => field.clear(),
    }
}

/// Another number: beside it, a turn from it, one that a narrower word would take for it, or one of many digits.
fn damage_number(random: &mut Random, field: Option<&mut Vec<u8>>) {
    let Some(field) = field else { return };
    let digits = random.pick(&[1, 9, 10, 18, 19, 20, 40, 300]);
    let Ok(number) = str::from_utf8(field).unwrap_or_default().parse::<i128>() else { return };
    let other = match random.below(8) {
        0 => number + 1,
        1 => number - 1,
        2 => -number,
        3 => number + (1 << random.pick(&[8, 16, 31, 32, 63, 64])),
        4 => number - (1 << random.pick(&[32, 64])),
        5 => random.odd().into(),
        6 => number + random.pick(&[-1, 1]) * i128::from(TURN),
        _ => return field.extend([random.pick(b"0159")].repeat(digits)),
    };
    *field = other.to_string().into_bytes();
}
