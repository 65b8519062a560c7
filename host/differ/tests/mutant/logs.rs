//! Faults of the judge and of the writer of logs.

use super::meridian::{longitude_used, turned_back};
use interface::{Calls, Fault, Fix, Group, LOG_LINE_BYTES, Name, Position, Timed};
use reference::Reference;

/// The fields of a line, without its line feed.
fn fields(line: &[u8]) -> Vec<Vec<u8>> {
    let text = line.strip_suffix(b"\n").unwrap_or(line);
    text.split(|&c| c == b'\t').map(<[u8]>::to_vec).collect()
}

/// The line of these fields, closed by a line feed where another one is.
fn line_of(fields: &[Vec<u8>], like: &[u8]) -> Vec<u8> {
    let end: &[u8] = if like.ends_with(b"\n") { b"\n" } else { b"" };
    [&fields.join(&b'\t'), end].concat()
}

/// The kind of one line's fault, 0 if it passes.
fn kind(group: &Group, nodes: &[i32], line: &[u8]) -> u64 {
    let mut fault = Fault::default();
    Reference.judge_log(group, nodes, line, &mut fault, &mut 0);
    fault.kind
}

/// What the lookup of a line's position returns and finds, if it has one.
fn looked_up(group: &Group, nodes: &[i32], fields: &[Vec<u8>]) -> Option<(u64, Fix)> {
    let number = |k: usize| str::from_utf8(fields.get(k)?).ok()?.parse().ok();
    let (mut fix, at) = (Fix::default(), Position { lon: number(1)?, lat: number(2)?, day: number(3)? });
    let returned = Reference.lookup(group, nodes, at, &mut fix, &mut 0);
    Some((returned, fix))
}

/// The faults of a log whose lines have these kinds, in their order.
fn faults(log: &[u8], kind: impl Fn(&[u8]) -> u64) -> impl Iterator<Item = Fault> {
    let kinds = log.split_inclusive(|&c| c == b'\n').map(kind);
    (1..).zip(kinds).filter(|&(_, kind)| kind != 0).map(|(line, kind)| Fault { line, kind })
}

/// A judge who goes by another kind of each line: made from the kind that it has, and the line.
fn by_kind(
    (group, nodes, log): (&Group, &[i32], &[u8]),
    fault: &mut Fault,
    place: &mut u64,
    other: impl Fn(u64, &[u8]) -> u64,
) -> u64 {
    let number = Reference.judge_log(group, nodes, b"", fault, place);
    if number == 0 {
        *fault = faults(log, |line| other(kind(group, nodes, line), line)).next().unwrap_or_default();
    }
    number
}

/// A judge who reads each line as another one of changed fields.
fn by_fields(
    (group, nodes, log): (&Group, &[i32], &[u8]),
    fault: &mut Fault,
    place: &mut u64,
    change: impl Fn(&mut Vec<Vec<u8>>),
) -> u64 {
    by_kind((group, nodes, log), fault, place, |_, line| {
        let mut other = fields(line);
        change(&mut other);
        kind(group, nodes, &line_of(&other, line))
    })
}

pub fn every_log_passes(group: &Group, nodes: &[i32], log: &[u8], fault: &mut Fault, place: &mut u64) -> u64 {
    let number = Reference.judge_log(group, nodes, log, fault, place);
    *fault = Fault::default();
    number
}

pub fn only_the_first_line_is_judged(
    group: &Group,
    nodes: &[i32],
    log: &[u8],
    fault: &mut Fault,
    place: &mut u64,
) -> u64 {
    let first = log.split_inclusive(|&c| c == b'\n').next().unwrap_or_default();
    Reference.judge_log(group, nodes, first, fault, place)
}

pub fn last_bad_line_is_told(group: &Group, nodes: &[i32], log: &[u8], fault: &mut Fault, place: &mut u64) -> u64 {
    let number = Reference.judge_log(group, nodes, log, fault, place);
    if number == 0 {
        *fault = faults(log, |line| kind(group, nodes, line)).last().unwrap_or_default();
    }
    number
}

pub fn lines_count_from_zero(group: &Group, nodes: &[i32], log: &[u8], fault: &mut Fault, place: &mut u64) -> u64 {
    let number = Reference.judge_log(group, nodes, log, fault, place);
    fault.line = fault.line.saturating_sub(1);
    number
}

pub fn line_feed_may_lack(group: &Group, nodes: &[i32], log: &[u8], fault: &mut Fault, place: &mut u64) -> u64 {
    let lacks = log.last().is_some_and(|&c| c != b'\n');
    Reference.judge_log(group, nodes, &[log, if lacks { b"\n" } else { b"" }].concat(), fault, place)
}

pub fn bytes_behind_the_last_line_pass(
    group: &Group,
    nodes: &[i32],
    log: &[u8],
    fault: &mut Fault,
    place: &mut u64,
) -> u64 {
    let whole = log.iter().rposition(|&c| c == b'\n').map_or(0, |last| last + 1);
    Reference.judge_log(group, nodes, &log[..whole], fault, place)
}

pub fn carriage_return_passes(group: &Group, nodes: &[i32], log: &[u8], fault: &mut Fault, place: &mut u64) -> u64 {
    by_kind((group, nodes, log), fault, place, |had, line| match line.strip_suffix(b"\r\n") {
        Some(text) => kind(group, nodes, &[text, b"\n"].concat()),
        None => had,
    })
}

pub fn empty_line_passes(group: &Group, nodes: &[i32], log: &[u8], fault: &mut Fault, place: &mut u64) -> u64 {
    by_kind((group, nodes, log), fault, place, |had, line| if line == b"\n" { 0 } else { had })
}

pub fn leading_zeros_pass(group: &Group, nodes: &[i32], log: &[u8], fault: &mut Fault, place: &mut u64) -> u64 {
    by_fields((group, nodes, log), fault, place, |fields| {
        for field in fields {
            while let [b'0', b'0'..=b'9', ..] = field[..] {
                field.remove(0);
            }
        }
    })
}

pub fn minus_zero_passes(group: &Group, nodes: &[i32], log: &[u8], fault: &mut Fault, place: &mut u64) -> u64 {
    by_fields((group, nodes, log), fault, place, |fields| {
        fields.iter_mut().filter(|field| *field == b"-0").for_each(|field| *field = b"0".to_vec());
    })
}

pub fn plus_passes(group: &Group, nodes: &[i32], log: &[u8], fault: &mut Fault, place: &mut u64) -> u64 {
    by_fields((group, nodes, log), fault, place, |fields| {
        for field in fields.iter_mut().filter(|field| field.first() == Some(&b'+')) {
            field.remove(0);
        }
    })
}

pub fn numbers_wrap_at_64_bits(group: &Group, nodes: &[i32], log: &[u8], fault: &mut Fault, place: &mut u64) -> u64 {
    by_fields((group, nodes, log), fault, place, |fields| {
        for (k, field) in fields.iter_mut().enumerate().filter(|&(k, _)| k != 4) {
            let number = str::from_utf8(field).ok().and_then(|text| text.parse::<i128>().ok());
            if let Some(number) = number.filter(|number| k > 0 && number.to_string().as_bytes() == *field) {
                *field = (number as i64).to_string().into_bytes();
            }
        }
    })
}

pub fn longitude_beyond_the_meridian_passes(
    group: &Group,
    nodes: &[i32],
    log: &[u8],
    fault: &mut Fault,
    place: &mut u64,
) -> u64 {
    by_fields((group, nodes, log), fault, place, |fields| {
        let Some(field) = fields.get_mut(1) else { return };
        if let Some(lon) = str::from_utf8(field).ok().and_then(|text| turned_back(text.parse().ok()?)) {
            *field = lon.to_string().into_bytes();
        }
    })
}

pub fn values_behind_np_pass(group: &Group, nodes: &[i32], log: &[u8], fault: &mut Fault, place: &mut u64) -> u64 {
    let most = 5 + group.parameters.clamp(1, 3) as usize;
    by_fields((group, nodes, log), fault, place, |fields| fields.truncate(most))
}

pub fn missing_value_is_zero(group: &Group, nodes: &[i32], log: &[u8], fault: &mut Fault, place: &mut u64) -> u64 {
    let all = 5 + group.parameters.clamp(1, 3) as usize;
    by_fields((group, nodes, log), fault, place, |fields| {
        if (5..all).contains(&fields.len()) {
            fields.resize(all, b"0".to_vec());
        }
    })
}

pub fn last_value_is_not_compared(group: &Group, nodes: &[i32], log: &[u8], fault: &mut Fault, place: &mut u64) -> u64 {
    let last = 4 + group.parameters.clamp(1, 3) as usize;
    by_kind((group, nodes, log), fault, place, |had, line| {
        let mut fields = fields(line);
        match looked_up(group, nodes, &fields) {
            Some((0, fix)) if had == Fault::SHIFT => {
                fields[last] = fix.result[last - 5].to_string().into_bytes();
                kind(group, nodes, &line_of(&fields, line))
            }
            _ => had,
        }
    })
}

/// Each grid is named by its number.
pub fn grid_is_a_number(group: &Group, nodes: &[i32], log: &[u8], fault: &mut Fault, place: &mut u64) -> u64 {
    let number = Reference.judge_log(group, nodes, log, fault, place);
    if number != 0 {
        return number;
    }
    let mut numbered = group.clone();
    for (k, grid) in numbered.grid[..group.grids as usize].iter_mut().enumerate() {
        grid.name = Name::new((k + 1).to_string().as_bytes());
    }
    Reference.judge_log(&numbered, nodes, log, fault, place)
}

/// A line with the name of the chosen grid in place of its own, if it has a name and its lookup is accepted.
fn with_the_name(group: &Group, nodes: &[i32], line: &[u8], of: impl Fn(&[u8], &[u8]) -> bool) -> Option<Vec<u8>> {
    let mut fields = fields(line);
    let (0, fix) = looked_up(group, nodes, &fields)? else { return None };
    let name = group.grid[fix.grid as usize - 1].name.text();
    let own = fields.get_mut(4).filter(|own| of(own, name))?;
    *own = name.to_vec();
    Some(line_of(&fields, line))
}

pub fn beginning_of_a_name_is_enough(
    group: &Group,
    nodes: &[i32],
    log: &[u8],
    fault: &mut Fault,
    place: &mut u64,
) -> u64 {
    by_kind((group, nodes, log), fault, place, |had, line| {
        let begins = |own: &[u8], name: &[u8]| had == Fault::GRID && name.starts_with(own);
        with_the_name(group, nodes, line, begins).map_or(had, |named| kind(group, nodes, &named))
    })
}

pub fn name_of_25_bytes_is_of_the_form(
    group: &Group,
    nodes: &[i32],
    log: &[u8],
    fault: &mut Fault,
    place: &mut u64,
) -> u64 {
    by_fields((group, nodes, log), fault, place, |fields| {
        fields.iter_mut().skip(4).take(1).filter(|name| name.len() == 25).for_each(|name| name.truncate(24));
    })
}

pub fn any_byte_is_of_a_name(group: &Group, nodes: &[i32], log: &[u8], fault: &mut Fault, place: &mut u64) -> u64 {
    by_fields((group, nodes, log), fault, place, |fields| {
        fields.iter_mut().skip(4).take(1).for_each(|name| name.iter_mut().for_each(|c| *c = (*c).clamp(b'-', b'z')));
    })
}

pub fn lookup_before_form(group: &Group, nodes: &[i32], log: &[u8], fault: &mut Fault, place: &mut u64) -> u64 {
    by_kind((group, nodes, log), fault, place, |had, line| match looked_up(group, nodes, &fields(line)) {
        Some((1.., _)) => Fault::REFUSED,
        _ => had,
    })
}

pub fn beyond_a_limit_is_of_no_form(
    group: &Group,
    nodes: &[i32],
    log: &[u8],
    fault: &mut Fault,
    place: &mut u64,
) -> u64 {
    by_kind((group, nodes, log), fault, place, |had, line| match looked_up(group, nodes, &fields(line)) {
        Some((6 | 9, _)) | None if had == Fault::REFUSED => Fault::FORM,
        _ => had,
    })
}

/// Whether no grid has the name of a line.
fn unknown(group: &Group, line: &[u8]) -> bool {
    let fields = fields(line);
    group.grid.iter().all(|grid| fields.get(4).is_some_and(|name| grid.name.text() != name))
}

pub fn unknown_name_is_of_no_form(group: &Group, nodes: &[i32], log: &[u8], fault: &mut Fault, place: &mut u64) -> u64 {
    by_kind((group, nodes, log), fault, place, |had, line| {
        if had == Fault::GRID && unknown(group, line) { Fault::FORM } else { had }
    })
}

pub fn unknown_name_before_the_lookup(
    group: &Group,
    nodes: &[i32],
    log: &[u8],
    fault: &mut Fault,
    place: &mut u64,
) -> u64 {
    by_kind((group, nodes, log), fault, place, |had, line| {
        if had == Fault::REFUSED && unknown(group, line) { Fault::GRID } else { had }
    })
}

pub fn shift_before_grid(group: &Group, nodes: &[i32], log: &[u8], fault: &mut Fault, place: &mut u64) -> u64 {
    by_kind((group, nodes, log), fault, place, |had, line| {
        let named = with_the_name(group, nodes, line, |_, _| had == Fault::GRID);
        had.max(named.map_or(0, |named| kind(group, nodes, &named)))
    })
}

pub fn too_few_nodes_are_a_bad_line(
    group: &Group,
    nodes: &[i32],
    log: &[u8],
    fault: &mut Fault,
    place: &mut u64,
) -> u64 {
    let number = Reference.judge_log(group, nodes, log, fault, place);
    if number != 13 {
        return number;
    }
    (*fault, *place) = (Fault { line: 1, kind: Fault::REFUSED }, 0);
    0
}

pub fn fault_beside_a_refusal(group: &Group, nodes: &[i32], log: &[u8], fault: &mut Fault, place: &mut u64) -> u64 {
    let before = *fault;
    let number = Reference.judge_log(group, nodes, log, fault, place);
    if number != 0 {
        *fault = before;
    }
    number
}

/// The second program's line and what it returns, where there is room for every line.
fn whole(group: &Group, nodes: &[i32], at: Position) -> (u64, Vec<u8>) {
    let (mut line, mut count) = (vec![0; LOG_LINE_BYTES], 0);
    let number = Reference.write_log_line(group, nodes, at, &mut line, &mut count, &mut 0);
    line.truncate(count as usize);
    (number, line)
}

/// Writes another line in place of the second program's.
fn instead(line: &[u8], out: &mut [u8], count: &mut u64, place: &mut u64) -> u64 {
    let (number, bytes) = if line.len() <= out.len() { (0, line) } else { (12, &b""[..]) };
    out[..bytes.len()].copy_from_slice(bytes);
    (*count, *place) = (bytes.len() as u64, 0);
    number
}

pub fn line_without_its_feed(
    group: &Group,
    nodes: &[i32],
    at: Position,
    out: &mut [u8],
    count: &mut u64,
    place: &mut u64,
) -> u64 {
    match whole(group, nodes, at) {
        (0, line) => instead(&line[..line.len() - 1], out, count, place),
        _ => Reference.write_log_line(group, nodes, at, out, count, place),
    }
}

pub fn room_for_the_line_is_too_short(
    group: &Group,
    nodes: &[i32],
    at: Position,
    out: &mut [u8],
    count: &mut u64,
    place: &mut u64,
) -> u64 {
    let most = out.len().saturating_sub(1);
    Reference.write_log_line(group, nodes, at, &mut out[..most], count, place)
}

pub fn room_for_all_but_the_feed_is_enough(
    group: &Group,
    nodes: &[i32],
    at: Position,
    out: &mut [u8],
    count: &mut u64,
    place: &mut u64,
) -> u64 {
    match whole(group, nodes, at) {
        (0, line) if line.len() == out.len() + 1 => instead(&line[..out.len()], out, count, place),
        _ => Reference.write_log_line(group, nodes, at, out, count, place),
    }
}

pub fn count_without_the_feed(
    group: &Group,
    nodes: &[i32],
    at: Position,
    out: &mut [u8],
    count: &mut u64,
    place: &mut u64,
) -> u64 {
    let number = Reference.write_log_line(group, nodes, at, out, count, place);
    *count = count.saturating_sub(1);
    number
}

pub fn zero_behind_the_line(
    group: &Group,
    nodes: &[i32],
    at: Position,
    out: &mut [u8],
    count: &mut u64,
    place: &mut u64,
) -> u64 {
    let number = Reference.write_log_line(group, nodes, at, out, count, place);
    if number == 0 {
        out.iter_mut().skip(*count as usize).take(1).for_each(|byte| *byte = 0);
    }
    number
}

pub fn line_although_12_refuses(
    group: &Group,
    nodes: &[i32],
    at: Position,
    out: &mut [u8],
    count: &mut u64,
    place: &mut u64,
) -> u64 {
    let number = Reference.write_log_line(group, nodes, at, out, count, place);
    if number == 12 {
        out.iter_mut().zip(whole(group, nodes, at).1).for_each(|(byte, written)| *byte = written);
    }
    number
}

pub fn count_beside_12(
    group: &Group,
    nodes: &[i32],
    at: Position,
    out: &mut [u8],
    count: &mut u64,
    place: &mut u64,
) -> u64 {
    let number = Reference.write_log_line(group, nodes, at, out, count, place);
    if number == 12 {
        *count = whole(group, nodes, at).1.len() as u64;
    }
    number
}

pub fn room_before_the_lookup(
    group: &Group,
    nodes: &[i32],
    at: Position,
    out: &mut [u8],
    count: &mut u64,
    place: &mut u64,
) -> u64 {
    let number = Reference.write_log_line(group, nodes, at, out, count, place);
    if out.is_empty() && number > 5 {
        *place = 0;
        return 12;
    }
    number
}

pub fn values_of_missing_parameters(
    group: &Group,
    nodes: &[i32],
    at: Position,
    out: &mut [u8],
    count: &mut u64,
    place: &mut u64,
) -> u64 {
    match whole(group, nodes, at) {
        (0, line) => {
            let mut fields = fields(&line);
            fields.resize(8, b"0".to_vec());
            instead(&line_of(&fields, &line), out, count, place)
        }
        _ => Reference.write_log_line(group, nodes, at, out, count, place),
    }
}

pub fn number_for_the_name(
    group: &Group,
    nodes: &[i32],
    at: Position,
    out: &mut [u8],
    count: &mut u64,
    place: &mut u64,
) -> u64 {
    match whole(group, nodes, at) {
        (0, line) => {
            let mut fields = fields(&line);
            let found = looked_up(group, nodes, &fields).map_or(0, |(_, fix)| fix.grid);
            fields[4] = found.to_string().into_bytes();
            instead(&line_of(&fields, &line), out, count, place)
        }
        _ => Reference.write_log_line(group, nodes, at, out, count, place),
    }
}

pub fn line_has_the_longitude_used(
    group: &Group,
    nodes: &[i32],
    at: Position,
    out: &mut [u8],
    count: &mut u64,
    place: &mut u64,
) -> u64 {
    match whole(group, nodes, at) {
        (0, line) => {
            let mut fields = fields(&line);
            let found = looked_up(group, nodes, &fields).map_or(0, |(_, fix)| fix.grid as usize);
            let used = longitude_used(&group.grid[found - 1], at.lon);
            fields[1] = used.unwrap_or(at.lon).to_string().into_bytes();
            instead(&line_of(&fields, &line), out, count, place)
        }
        _ => Reference.write_log_line(group, nodes, at, out, count, place),
    }
}
