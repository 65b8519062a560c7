//! What can be seen of the first bad line of a log. Its number and its kind are the library's.

use crate::form::{self, Wanted, byte_order_mark, keyword, unclosed};
use crate::group::grids;
use crate::kinds::{malformed_number, malformed_text};
use crate::model::Model;
use crate::number::decimal;
use crate::shown::bytes;
use crate::stop::{Stop, accepted};
use interface::{Calls, Fault, Group, Position};

/// The kinds of a bad line, from 1.
const KINDS: [&str; 4] = ["form", "lookup refused", "other grid", "other shift"];

/// The fields of a log's line before its shifts.
const BEFORE_SHIFTS: [&str; 5] = ["fix", "LON", "LAT", "DAY", "GRID"];

/// A log that does not pass, with what is wrong in words.
pub fn told(calls: &dyn Calls, model: &Model, log: &[u8], fault: &Fault) -> Stop {
    let (line, kind) = (fault.line, KINDS[fault.kind as usize - 1]);
    let seen = usize::try_from(line).ok().and_then(|number| match fault.kind {
        Fault::FORM => malformed(&model.group, log, number),
        _ => Some(format!("line {number}: {}", differs(calls, model, form::line(log, number).ok()?)?)),
    });
    Stop::Failed { line, kind, words: seen.unwrap_or_else(|| format!("line {line}: {kind}")) }
}

/// How many fields a log's line of a group has.
fn count(group: &Group) -> usize {
    BEFORE_SHIFTS.len() + group.parameters as usize
}

/// What is not of the form on a line.
fn malformed(group: &Group, log: &[u8], number: usize) -> Option<String> {
    if let (1, Some(mark)) = (number, byte_order_mark(log)) {
        return Some(mark);
    }
    let Ok(line) = form::line(log, number) else { return Some(unclosed(number)) };
    let word = match keyword(line, number, &BEFORE_SHIFTS[..1]) {
        Ok(word) => word,
        Err(seen) => return Some(seen),
    };
    let wanted = Wanted { word, whose: " of this group", fields: count(group), form: String::new() };
    wanted.missed(line, number, |fields| (1..).zip(fields).find_map(|(k, field)| malformed_field(k, field)))
}

/// What is said of a malformed field, by its number from 0.
fn malformed_field(k: usize, field: &[u8]) -> Option<String> {
    match BEFORE_SHIFTS.get(k) {
        Some(&"GRID") => malformed_text("GRID", field),
        Some(name) => malformed_number(name, field),
        None => malformed_number(&shift(k), field),
    }
}

/// The name of a shift by its field's number from 0.
fn shift(k: usize) -> String {
    format!("V{}", k + 1 - BEFORE_SHIFTS.len())
}

/// What the lookup says of a line of the form, where the log says something else.
fn differs(calls: &dyn Calls, model: &Model, line: &[u8]) -> Option<String> {
    let fields = form::fields(line, count(&model.group));
    let [_, lon, lat, day, grid, shifts @ ..] = &fields[..] else { return None };
    let at = Position { lon: decimal(lon)?, lat: decimal(lat)?, day: decimal(day)? };
    let found = model.look(calls, at);
    if let Err(refusal) = accepted(found.number, found.at) {
        return Some(format!("the lookup is refused: {}", refusal.words_at(at)));
    }
    let chosen = model.chosen(&found.fix);
    if *grid != chosen.as_bytes() {
        let known = grids(&model.group).any(|(_, known)| known.name.text() == *grid);
        let unknown = if known { "" } else { ", which is no grid's name" };
        return Some(format!("the lookup chooses {chosen}, but the log has {}{unknown}", bytes(grid)));
    }
    let results = model.shifts(&found.fix.result).iter().map(i64::to_string);
    let (k, (steps, logged)) =
        (BEFORE_SHIFTS.len()..).zip(results.zip(shifts)).find(|(_, (steps, logged))| steps.as_bytes() != **logged)?;
    Some(format!("the lookup finds {steps} for {}, but the log has {}", shift(k), bytes(logged)))
}

#[cfg(test)]
mod tests {
    use super::told;
    use crate::model::Model;
    use crate::stop::Stop;
    use interface::{Fault, Group, Timed};
    use reference::Reference;

    #[test]
    fn of_any_damaged_log_something_short_and_plain_is_said() {
        let header = b"group\tdock\tmetre\t13\t1\t0\t1\ngrid\tbasin\t0\t0\t10\t10\t3\t2\t1\t0\n";
        let mut model = Model { group: Group::default(), nodes: vec![0, 10, 20, 100, 110, 120] };
        assert_eq!(Reference.read_header(header, &mut model.group, &mut 0), 0);
        let whole = b"fix\t5\t5\t200\tbasin\t55\nfix\t20\t10\t-1\tbasin\t120\n";
        let said = |log: &[u8]| {
            let mut fault = Fault::default();
            assert_eq!(Reference.judge_log(&model.group, &model.nodes, log, &mut fault, &mut 0), 0);
            if fault.line == 0 {
                return;
            }
            let Stop::Failed { words, .. } = told(&Reference, &model, log, &fault) else { panic!("it is a bad line") };
            assert!(words.len() < 200 && !words.contains(char::is_control), "{words:?}");
            let said = match fault.kind {
                Fault::FORM => return assert_ne!(words, format!("line {}: form", fault.line), "something is seen"),
                Fault::REFUSED => "the lookup is refused: ",
                Fault::GRID => "the lookup chooses basin, ",
                _ => "the lookup finds ",
            };
            assert!(words.starts_with(&format!("line {}: {said}", fault.line)), "{words}");
        };
        said(whole);
        for k in 0..whole.len() {
            for byte in [b'\t', b'\n', b'\r', b'9', b'-', b'_', 0, 0xff] {
                let mut log = whole.to_vec();
                log[k] = byte;
                said(&log);
                said(&log[..k]);
            }
        }
    }
}
