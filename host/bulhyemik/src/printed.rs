//! What `lookup` and `screen` print of points in each format.

use crate::formats::Format;
use crate::json::{self, Member, Text};
use crate::model::Model;
use crate::output::Output;
use crate::stop::{Refusal, Stop};
use crate::table::{LATITUDE, LONGITUDE};
use interface::{Calls, Found, Group, Position};

/// The line of a point and its lookup where that is accepted.
type Line = fn(&dyn Calls, &Model, Format, Position, &Found) -> Result<String, Refusal>;

/// What one of them prints.
pub struct Printed {
    /// The headings of CSV between the refusal and the shifts.
    pub headings: &'static [&'static str],
    /// The unit of the shifts.
    pub unit: fn(&Group) -> String,
    pub line: Line,
}

impl Printed {
    /// What stands before the first line.
    pub fn heading(&self, format: Format, group: &Group) -> String {
        let Format::Csv = format else { return String::new() };
        let unit = (self.unit)(group);
        let mut headings = [LONGITUDE.1, LATITUDE.1, "day", "refused", "place"].map(String::from).to_vec();
        headings.extend(self.headings.iter().map(|&heading| heading.into()));
        headings.extend((1..=group.parameters).map(|k| format!("shift {k} [{unit}]")));
        headings.join(",") + "\n"
    }

    /// The line of a refused point.
    fn refused(&self, format: Format, group: &Group, at: Position, refusal: Refusal) -> String {
        let (Position { lon, lat, day }, Refusal { number, place }) = (at, refusal);
        match format {
            Format::Text => format!("{}\t{lon}\t{lat}\t{day}\n", refusal.line()),
            Format::Json => json::line(&[&members(&at), &refusal.members(&Text(&refusal.words_at(at)))]),
            Format::Csv => {
                let empty = ",".repeat(self.headings.len() + group.parameters as usize);
                format!("{lon},{lat},{day},{number},{place}{empty}\n")
            }
        }
    }

    /// Tells of a refused point, standard output first.
    pub fn refuse(
        &self,
        out: &mut Output,
        model: &Model,
        at: Position,
        refusal: Refusal,
        which: &str,
    ) -> Result<(), Stop> {
        out.put(self.refused(out.format, &model.group, at, refusal))?;
        out.say(&format!("bulhyemik: {which}refused: {}\n", refusal.words_at(at)))
    }
}

/// A point, as JSON has it.
pub fn members(Position { lon, lat, day }: &Position) -> [Member<'_>; 3] {
    [(LONGITUDE.0, lon), (LATITUDE.0, lat), ("day", day)]
}
