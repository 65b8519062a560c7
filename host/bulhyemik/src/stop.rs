//! Why a command stops short: a refusal of the library, a log that does not pass, wrong usage, or a file that can't be used.

use crate::extent::turned;
use crate::formats::Format;
use crate::json::{self, Member, Text};
use interface::Position;

/// A refusal of the library, by its number and place.
#[derive(Clone, Copy)]
pub struct Refusal {
    pub number: u64,
    pub place: u64,
}

impl Refusal {
    /// The refusal as text, without what a command adds and the line feed.
    pub fn line(&self) -> String {
        format!("refused\t{}\t{}", self.number, self.place)
    }

    /// The refusal and its words, as JSON has them.
    pub fn members<'a>(&'a self, words: &'a Text) -> [Member<'a>; 3] {
        [("refused", &self.number), ("place", &self.place), ("words", words)]
    }

    /// The refusal as standard output has it, unless it is a point's.
    fn printed(&self, words: &str, format: Format) -> String {
        match format {
            Format::Text => self.line() + "\n",
            Format::Json => json::line(&[&self.members(&Text(words))]),
            Format::Csv => format!("refused,place\n{},{}\n", self.number, self.place),
        }
    }

    /// The refusal of a point in words. For a longitude that it can't have, the one that it can is named.
    pub fn words_at(&self, at: Position) -> String {
        match turned(at.lon) {
            Some(lon) if self.number == 6 && lon != at.lon => {
                format!("{}; for longitude {} write {lon}", self.words(), at.lon)
            }
            _ => self.words(),
        }
    }

    /// The refusal in words.
    pub fn words(&self) -> String {
        let place = self.place;
        match (self.number, place) {
            (1, _) => format!("line {place} is not of a header's form, or the header ends before it"),
            (2, 0) => "Q is outside 0 to 20".into(),
            (2, _) => format!(
                "line {place} has a number outside its limit, a ramp's A above its B, or a ramp2's START not below its END"
            ),
            (3, _) => format!("grid {place} has the name of an earlier grid"),
            (4, _) => {
                format!("grid {place} reaches beyond its limits, is wider than a whole turn, or has too many nodes")
            }
            (5, _) => format!("grid {place} holds a point that an earlier grid of its rank holds too"),
            (6, _) => "the point is outside longitude ±648000000 or latitude ±324000000".into(),
            (7, _) => "no grid holds the point".into(),
            (8, _) => "a node that the point needs is the no-data mark".into(),
            (9, _) => "the day is outside ±1000000".into(),
            (10, _) => "the area has a side outside the limits, west above east or south above north".into(),
            (11, _) => format!("float {place} is infinite or rounds beyond ±2147483647 steps"),
            (12, _) => "the lent output is too short or of another length".into(),
            (13, _) => format!("the node list ends before the nodes of grid {place} do"),
            (number, _) => format!("refusal {number} at {place}"),
        }
    }
}

pub enum Stop {
    /// A refusal that is still to be told, and its words.
    Refused {
        refusal: Refusal,
        words: String,
    },
    /// A log that does not pass: the first bad line, its kind, and what is wrong with it in words.
    Failed {
        line: u64,
        kind: &'static str,
        words: String,
    },
    /// Refusals of points, each told where it came up.
    PointsRefused,
    Usage(String),
    File(String),
    /// Nobody reads standard output any more.
    Gone,
}

impl Stop {
    /// 1 for a refusal or a log that does not pass, 2 for wrong usage or a file; where nobody reads any more, what shells tell of
    /// tools that SIGPIPE ends.
    pub fn status(&self) -> u8 {
        match self {
            Stop::Refused { .. } | Stop::Failed { .. } | Stop::PointsRefused => 1,
            Stop::Usage(_) | Stop::File(_) => 2,
            Stop::Gone => 141,
        }
    }

    /// What standard output gets.
    pub fn printed(&self, format: Format) -> String {
        match self {
            Stop::Refused { refusal, words } => refusal.printed(words, format),
            Stop::Failed { line, kind, .. } => format!("failed\t{line}\t{kind}\n"),
            _ => String::new(),
        }
    }

    /// What standard error gets.
    pub fn message(&self) -> String {
        match self {
            Stop::Refused { words, .. } => format!("bulhyemik: refused: {words}\n"),
            Stop::Failed { words, .. } => format!("bulhyemik: failed: {words}\n"),
            Stop::Usage(why) | Stop::File(why) => format!("bulhyemik: {}\n", why.trim_end()),
            Stop::PointsRefused | Stop::Gone => String::new(),
        }
    }
}

impl From<Refusal> for Stop {
    fn from(refusal: Refusal) -> Stop {
        Stop::Refused { refusal, words: refusal.words() }
    }
}

/// Accepts a call that returned 0; else its refusal.
pub fn accepted(number: u64, place: u64) -> Result<(), Refusal> {
    if number == 0 { Ok(()) } else { Err(Refusal { number, place }) }
}
