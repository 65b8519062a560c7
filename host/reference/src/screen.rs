//! What the screen shows: the answer as a fix of shifts or a refusal, and the record of five floats.

use crate::limits;
use crate::refusal::refuse;
use interface::{Found, Refusal, Screen};

/// The shifts of a lookup's answer, or its refusal with its place; before that 2, if Q, NP or the refusal's number is outside
/// its limit.
pub fn screen_answer(found: &Found) -> Result<[f64; 3], Refusal> {
    let Found { quantum, parameters, number, at, fix } = *found;
    if !limits::quantum(i128::from(quantum)) || !limits::parameters(i128::from(parameters)) {
        return refuse(2, 0);
    }
    match number {
        0 => Ok(std::array::from_fn(|p| {
            let missing = p as i64 >= parameters;
            if missing { 0.0 } else { fix.result[p] as f64 * 0.5f64.powi(quantum as i32) }
        })),
        _ if limits::REFUSALS.contains(&number) => Err(Refusal { number, place: at }),
        _ => refuse(2, 0),
    }
}

/// The screen record of a point and a lookup's answer.
pub fn screen_record(lon: i64, lat: i64, found: &Found) -> Result<Screen, Refusal> {
    let degrees = |mas: i64| mas as f64 / 3_600_000.0;
    screen_answer(found).map(|shift| Screen { longitude: degrees(lon), latitude: degrees(lat), shift })
}

#[cfg(test)]
mod tests {
    use super::{screen_answer, screen_record};
    use interface::{Fix, Found, Screen};

    const FIX: Fix = Fix { grid: 1, result: [3, -4, 5] };

    #[test]
    fn a_fix_shows_as_many_shifts_as_there_are_parameters() {
        let found = Found { quantum: 1, parameters: 2, number: 0, at: 0, fix: FIX };
        assert_eq!(screen_answer(&found), Ok([1.5, -2.0, 0.0]));
        let shown = Screen { longitude: 1.0, latitude: -0.5, shift: [3.0, 0.0, 0.0] };
        assert_eq!(screen_record(3_600_000, -1_800_000, &Found { quantum: 0, parameters: 1, ..found }), Ok(shown));
    }

    #[test]
    fn a_lookups_refusal_keeps_number_and_place_unless_a_number_is_outside_its_limit() {
        let told = |(number, at), quantum, parameters| {
            let found = Found { quantum, parameters, number, at, fix: FIX };
            let refusal = screen_answer(&found).expect_err("it is refused");
            (refusal.number, refusal.place)
        };
        assert_eq!(told((13, 2), 20, 3), (13, 2));
        assert_eq!(told((1, 1), 0, 1), (1, 1));
        for number in [14, u64::MAX] {
            assert_eq!(told((number, 2), 20, 3), (2, 0));
        }
        for (quantum, parameters) in [(-1, 1), (21, 1), (0, 0), (0, 4), (0, -1), (i64::MIN, 1), (0, i64::MAX)] {
            assert_eq!(told((0, 0), quantum, parameters), (2, 0));
            assert_eq!(told((13, 2), quantum, parameters), (2, 0));
        }
    }
}
