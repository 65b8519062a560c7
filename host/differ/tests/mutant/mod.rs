//! The second program with one fault: what a differential test must find.

mod coarse;
mod functions;
mod logs;
mod meridian;

use coarse::*;
use functions::*;
use interface::{
    Answer, Area, Calls, Fault, Fix, Found, Grid, Group, InForce, MARK, MOST_PARAMETERS, Part, Position, Screen, Timed,
    Uncovered,
};
use logs::*;
use meridian::*;
use reference::Reference;

/// `Mutant`, a back end by a function for each call, and `SOUND`, whose functions are the second program's calls.
macro_rules! mutant {
    ($($kind:ident { $(fn $call:ident($($name:ident: $type:ty),*) $(-> $answer:ty)?;)* })*) => {
        pub struct Mutant {
            $($($call: fn($($type),*) $(-> $answer)?,)*)*
        }

        const SOUND: Mutant = Mutant { $($($call: |$($name),*| Reference.$call($($name),*),)*)* };

        $(impl $kind for Mutant {
            $(fn $call(&self, $($name: $type),*) $(-> $answer)? {
                (self.$call)($($name),*)
            })*
        })*
    };
}

mutant! {
    Timed {
        fn judge(group: &Group, place: &mut u64) -> u64;
        fn read_header(text: &[u8], group: &mut Group, place: &mut u64) -> u64;
        fn write_header(group: &Group, out: &mut [u8], count: &mut u64, place: &mut u64) -> u64;
        fn lookup(group: &Group, nodes: &[i32], at: Position, fix: &mut Fix, place: &mut u64) -> u64;
        fn lookup_many(
            group: &Group,
            nodes: &[i32],
            points: &[Position],
            results: &mut [Answer],
            place: &mut u64
        ) -> u64;
        fn grids_in_force(group: &Group, area: Area, list: &mut InForce, place: &mut u64) -> u64;
        fn hole(group: &Group, area: Area, uncovered: &mut Uncovered, place: &mut u64) -> u64;
        fn judge_log(group: &Group, nodes: &[i32], log: &[u8], fault: &mut Fault, place: &mut u64) -> u64;
        fn load_nodes(floats: &[f32], flag: f32, quantum: i64, nodes: &mut [i32], place: &mut u64) -> u64;
    }
    Calls {
        fn version() -> u64;
        fn field(line: &[u8], number: u64, part: &mut Part);
        fn write_log_line(
            group: &Group,
            nodes: &[i32],
            at: Position,
            out: &mut [u8],
            count: &mut u64,
            place: &mut u64
        ) -> u64;
        fn screen_answer(found: &Found, shifts: &mut [f64; MOST_PARAMETERS], place: &mut u64) -> u64;
        fn screen_record(lon: i64, lat: i64, found: &Found, screen: &mut Screen, place: &mut u64) -> u64;
    }
}

/// `MUTANTS`: each fault by its name, the call that it bends, and the back end that has it.
macro_rules! mutants {
    ($($call:ident: $($fault:expr),*;)*) => {
        pub const MUTANTS: &[(&str, &str, Mutant)] =
            &[$($((stringify!($fault), stringify!($call), Mutant { $call: $fault, ..SOUND }),)*)*];
    };
}

mutants! {
    judge: clash_names_the_earlier_grid, far_edge_is_not_judged, name_is_that_of_the_grid_beside, a_whole_turn_is_too_wide,
        one_more_than_a_turn_is_accepted, any_width_is_accepted, clash_as_written, clash_one_turn_apart_at_most,
        clash_beside_the_meridian_only, spacings_end_at_a_million, spacings_go_one_further,
        ends_of_a_ramp2_may_be_equal, ends_of_a_ramp2_may_be_swapped, ends_of_a_ramp_may_not_be_equal,
        another_kind_is_a_ramp, kind_of_32_bits, kind_of_8_bits, fourth_word_of_a_step_is_free, reference_has_no_limit,
        mult_has_the_limit_of_a_day, mult_goes_one_further, kind_of_an_unused_function_is_free,
        unused_function_has_a_line;
    read_header: only_the_first_grid_line_is_read, refused_header_zeroes_the_group, spacings_of_a_header_end_at_a_million,
        ramp2_of_three_numbers_is_beyond_a_limit, ramp2_of_three_numbers_is_a_step, step_of_four_numbers_is_read,
        ramp2_is_read_as_a_ramp, line_of_a_ramp2_may_have_equal_ends, kinds_are_sorted_on_reading,
        step_is_read_in_another_order, fourth_word_of_a_step_is_filled, ramps_alone_are_counted_on_reading;
    write_header: one_byte_behind_the_text, kinds_are_sorted_on_writing, ramp2_is_written_as_a_ramp,
        ramps_alone_are_counted_on_writing;
    field: past_the_last_field_is_zero;
    lookup: lookup_always_refuses, lookup_always_answers_zero, halves_away_from_zero,
        worse_grid_where_the_best_lacks_data, grid_and_first_result_swapped, lookup_by::<AsWritten>,
        lookup_by::<OnlyATurnMore>, lookup_by::<OnlyATurnLess>, lookup_by::<TurnedFirst>, lookup_by::<CellAsGiven>,
        lookup_by::<EndsShort>, lookup_by::<BeginsLate>, points_go_a_whole_turn, first_longitude_is_the_last,
        lookup_in::<OneWord>, lookup_in::<OneWordByTheSpacing>, lookup_in::<OneWordByTheNodes>, lookup_in::<NoCarry>,
        lookup_in::<RemainderOfTheLowWord>, lookup_in::<TieByTheSum>, lookup_in::<RaisedByAnOddNumber>,
        lookup_in::<DifferencesOf32Bits>, lookup_in::<SumInFloats>, lookup_in::<ValueInASmallFloat>,
        lookup_in::<ResultOf32Bits>, lookup_in::<OldLimitOfNodes>, lookup_in::<LeastValueIsTheMark>,
        lookup_in::<TwoRoundings>, lookup_in::<MillionthsFirst>, lookup_in::<TieAwayFromZero>,
        lookup_in::<FractionIsCut>, lookup_in::<NoReferenceOfARamp2>, lookup_in::<NoReferenceOfAStep>,
        lookup_in::<StepBehindItsEvent>, lookup_in::<ReferenceBehindTheEvent>, lookup_in::<StepBackwards>,
        lookup_in::<Ramp2Backwards>, lookup_in::<StepWithoutASign>, lookup_in::<Ramp2WithoutASign>, lookup_in::<ReferenceForTheStart>,
        lookup_in::<StepByTheRuleOfARamp>, lookup_in::<Ramp2ByTheRuleOfARamp>, lookup_in::<Ramp2WithoutEnds>,
        lookup_in::<ReferenceWithoutEnds>, lookup_in::<EndADayEarly>, lookup_in::<OneWithoutRamps>,
        lookup_in::<RampsAlone>, lookup_in::<FirstAlone>;
    lookup_many: first_days_factor_for_all, last_point_is_left_out, results_although_13_refuses,
        too_few_nodes_refuse_each_point, results_may_be_too_many, length_is_judged_behind_the_nodes,
        refused_point_keeps_its_results, last_of_many_is_not_turned, last_of_many_in::<OneWord>,
        last_of_many_in::<NoCarry>, last_of_many_in::<RemainderOfTheLowWord>, last_of_many_in::<RaisedByAnOddNumber>,
        last_of_many_in::<ResultOf32Bits>, last_of_many_in::<OldLimitOfNodes>, last_of_many_in::<TwoRoundings>,
        last_of_many_in::<TieAwayFromZero>, last_of_many_in::<StepBehindItsEvent>, last_of_many_in::<RampsAlone>;
    grids_in_force: empty_list, full_list, corner_of_the_grid_for_its_first_coordinate, in_force_by::<AsWritten>,
        in_force_by::<OnlyATurnMore>, in_force_by::<OnlyATurnLess>, in_force_by::<EndsShort>, in_force_by::<BeginsLate>,
        areas_of_a_list_go_a_whole_turn, entry_at_the_first_longitude_is_at_the_last,
        entries_are_turned;
    hole: westmost_before_southmost, east_edge_is_no_cover, last_coordinate_is_not_tried, area_is_not_judged,
        worst_grid_is_no_cover, only_the_first_row_is_walked, gap_of_one_is_passed_over, coordinate_beside_none,
        coordinate_beside_a_refusal, hole_by::<AsWritten>, hole_by::<OnlyATurnMore>, hole_by::<OnlyATurnLess>,
        hole_by::<EndsShort>, hole_by::<BeginsLate>, areas_of_a_hole_go_a_whole_turn,
        hole_is_turned;
    judge_log: every_log_passes, only_the_first_line_is_judged, last_bad_line_is_told, lines_count_from_zero,
        line_feed_may_lack, bytes_behind_the_last_line_pass, carriage_return_passes, empty_line_passes,
        leading_zeros_pass, minus_zero_passes, plus_passes, numbers_wrap_at_64_bits, values_behind_np_pass,
        missing_value_is_zero, last_value_is_not_compared, grid_is_a_number, beginning_of_a_name_is_enough,
        name_of_25_bytes_is_of_the_form, any_byte_is_of_a_name, lookup_before_form, beyond_a_limit_is_of_no_form, unknown_name_is_of_no_form,
        unknown_name_before_the_lookup, shift_before_grid, too_few_nodes_are_a_bad_line, fault_beside_a_refusal,
        longitude_beyond_the_meridian_passes, values_of_32_bits_are_equal;
    write_log_line: line_without_its_feed, room_for_the_line_is_too_short, room_for_all_but_the_feed_is_enough,
        count_without_the_feed, zero_behind_the_line, line_although_12_refuses, count_beside_12, room_before_the_lookup,
        values_of_missing_parameters, number_for_the_name, line_has_the_longitude_used,
        line_refused_in::<OldLimitOfNodes>, line_refused_in::<LeastValueIsTheMark>;
    load_nodes: last_node_is_not_written, zero_flag_catches_both_zeros, negative_quantum_is_zero,
        what_rounds_to_the_mark_is_the_mark, floats_load_up_to_4_million, two_to_the_31_loads_as_the_greatest;
    screen_answer: missing_shift_is_minus_zero, number_outside_the_table_is_handed_on, place_of_the_lookup_is_lost,
        shifts_of_32_bits;
    screen_record: degrees_after_a_refusal, negative_parameters_are_three;
}

/// A lookup worked out as it should be, in the way of which the faults about coarse grids and functions are changes.
pub const WORKED_OUT: Mutant = Mutant { lookup: lookup_in::<AsItShouldBe>, ..SOUND };

fn clash_names_the_earlier_grid(group: &Group, place: &mut u64) -> u64 {
    let number = Reference.judge(group, place);
    *place -= u64::from(number == 5);
    number
}

fn far_edge_is_not_judged(group: &Group, place: &mut u64) -> u64 {
    let number = Reference.judge(group, place);
    if number != 4 {
        return number;
    }
    *place = 0;
    0
}

/// Each grid is judged by the name of the one before it.
fn name_is_that_of_the_grid_beside(group: &Group, place: &mut u64) -> u64 {
    let mut other = group.clone();
    for (grid, beside) in other.grid[1..].iter_mut().zip(&group.grid) {
        grid.name = beside.name;
    }
    Reference.judge(&other, place)
}

fn only_the_first_grid_line_is_read(text: &[u8], group: &mut Group, place: &mut u64) -> u64 {
    let number = Reference.read_header(text, group, place);
    if number == 0 {
        let first = group.grid[0];
        group.grid[..group.grids as usize].fill(first);
    }
    number
}

fn refused_header_zeroes_the_group(text: &[u8], group: &mut Group, place: &mut u64) -> u64 {
    let number = Reference.read_header(text, group, place);
    if number != 0 {
        *group = Group::default();
    }
    number
}

fn one_byte_behind_the_text(group: &Group, out: &mut [u8], count: &mut u64, place: &mut u64) -> u64 {
    let number = Reference.write_header(group, out, count, place);
    if number == 0 {
        out.iter_mut().skip(*count as usize).take(1).for_each(|byte| *byte = 0);
    }
    number
}

fn past_the_last_field_is_zero(line: &[u8], number: u64, part: &mut Part) {
    Reference.field(line, number, part);
    if number >= line.split(|&c| c == b'\t').count() as u64 {
        *part = Part::default();
    }
}

fn lookup_always_refuses(group: &Group, nodes: &[i32], at: Position, fix: &mut Fix, place: &mut u64) -> u64 {
    let number = Reference.lookup(group, nodes, at, fix, place);
    *fix = Fix::default();
    if number == 0 { 7 } else { number }
}

fn lookup_always_answers_zero(group: &Group, nodes: &[i32], at: Position, fix: &mut Fix, place: &mut u64) -> u64 {
    let number = Reference.lookup(group, nodes, at, fix, place);
    fix.result.fill(0);
    number
}

fn halves_away_from_zero(group: &Group, nodes: &[i32], at: Position, fix: &mut Fix, place: &mut u64) -> u64 {
    let number = Reference.lookup(group, nodes, at, fix, place);
    if number == 0 && nodes.iter().all(|v| (-3..=3).contains(v)) {
        let doubled: Vec<i32> = nodes.iter().map(|v| 2 * v).collect();
        let mut twice = Fix::default();
        Reference.lookup(group, &doubled, at, &mut twice, place);
        for (result, double) in fix.result.iter_mut().zip(twice.result) {
            *result += i64::from(double == 2 * *result + 1);
        }
    }
    number
}

/// Where the best grid has no data, it is left out.
fn worse_grid_where_the_best_lacks_data(
    group: &Group,
    nodes: &[i32],
    at: Position,
    fix: &mut Fix,
    place: &mut u64,
) -> u64 {
    let number = Reference.lookup(group, nodes, at, fix, place);
    if number != 8 {
        return number;
    }
    let blank: Vec<i32> = nodes.iter().map(|&v| if v == MARK { 0 } else { v.clamp(-3, 3) }).collect();
    let mut best = Fix::default();
    Reference.lookup(group, &blank, at, &mut best, place);
    Reference.lookup(&without(group, best.grid as usize - 1), nodes, at, fix, place)
}

/// The group without grid k, from 0: the last one takes its entry.
fn without(group: &Group, k: usize) -> Group {
    let mut others = group.clone();
    others.grids -= 1;
    let last = others.grids as usize;
    others.grid[k] = group.grid[last];
    others.grid[last] = Grid::default();
    others
}

fn grid_and_first_result_swapped(group: &Group, nodes: &[i32], at: Position, fix: &mut Fix, place: &mut u64) -> u64 {
    let number = Reference.lookup(group, nodes, at, fix, place);
    std::mem::swap(&mut fix.grid, &mut fix.result[0]);
    number
}

/// Every point is looked up on the day of the first, as far as both are admitted.
fn first_days_factor_for_all(
    group: &Group,
    nodes: &[i32],
    points: &[Position],
    results: &mut [Answer],
    place: &mut u64,
) -> u64 {
    let admitted = |day: &i64| (-1_000_000..=1_000_000).contains(day);
    let mut same = points.to_vec();
    if let Some(first) = points.first().map(|at| at.day).filter(admitted) {
        same.iter_mut().filter(|at| admitted(&at.day)).for_each(|at| at.day = first);
    }
    Reference.lookup_many(group, nodes, &same, results, place)
}

fn last_point_is_left_out(
    group: &Group,
    nodes: &[i32],
    points: &[Position],
    results: &mut [Answer],
    place: &mut u64,
) -> u64 {
    let last = results.last().copied();
    let number = Reference.lookup_many(group, nodes, points, results, place);
    if let ([.., result], Some(last)) = (results, last) {
        *result = last;
    }
    number
}

fn results_although_13_refuses(
    group: &Group,
    nodes: &[i32],
    points: &[Position],
    results: &mut [Answer],
    place: &mut u64,
) -> u64 {
    let number = Reference.lookup_many(group, nodes, points, results, place);
    if number == 13 {
        results.fill(Answer::default());
    }
    number
}

/// A list that is too short is each point's own refusal, as of a single lookup.
fn too_few_nodes_refuse_each_point(
    group: &Group,
    nodes: &[i32],
    points: &[Position],
    results: &mut [Answer],
    place: &mut u64,
) -> u64 {
    let number = Reference.lookup_many(group, nodes, points, results, place);
    if number != 13 {
        return number;
    }
    for (result, &at) in results.iter_mut().zip(points) {
        result.number = Reference.lookup(group, nodes, at, &mut result.fix, &mut result.place);
    }
    *place = 0;
    0
}

fn results_may_be_too_many(
    group: &Group,
    nodes: &[i32],
    points: &[Position],
    results: &mut [Answer],
    place: &mut u64,
) -> u64 {
    let len = results.len().min(points.len());
    Reference.lookup_many(group, nodes, points, &mut results[..len], place)
}

fn length_is_judged_behind_the_nodes(
    group: &Group,
    nodes: &[i32],
    points: &[Position],
    results: &mut [Answer],
    place: &mut u64,
) -> u64 {
    let number = Reference.lookup_many(group, nodes, &[], &mut [], place);
    if number == 0 { Reference.lookup_many(group, nodes, points, results, place) } else { number }
}

fn refused_point_keeps_its_results(
    group: &Group,
    nodes: &[i32],
    points: &[Position],
    results: &mut [Answer],
    place: &mut u64,
) -> u64 {
    let before = results.to_vec();
    let number = Reference.lookup_many(group, nodes, points, results, place);
    for (result, before) in results.iter_mut().zip(before).filter(|(result, _)| result.number != 0) {
        result.fix.result = before.fix.result;
    }
    number
}

/// Only the last of the points is looked up otherwise.
fn last_otherwise(
    group: &Group,
    nodes: &[i32],
    points: &[Position],
    results: &mut [Answer],
    place: &mut u64,
    lookup: fn(&Group, &[i32], Position, &mut Fix, &mut u64) -> u64,
) -> u64 {
    let number = Reference.lookup_many(group, nodes, points, results, place);
    if let (0, Some(result), Some(&at)) = (number, results.last_mut(), points.last()) {
        result.number = lookup(group, nodes, at, &mut result.fix, &mut result.place);
    }
    number
}

fn empty_list(group: &Group, area: Area, list: &mut InForce, place: &mut u64) -> u64 {
    let number = Reference.grids_in_force(group, area, list, place);
    *list = InForce::default();
    number
}

fn full_list(group: &Group, area: Area, list: &mut InForce, place: &mut u64) -> u64 {
    let number = Reference.grids_in_force(group, area, list, place);
    if number == 0 {
        list.count = group.grids;
    }
    number
}

fn corner_of_the_grid_for_its_first_coordinate(group: &Group, area: Area, list: &mut InForce, place: &mut u64) -> u64 {
    let number = Reference.grids_in_force(group, area, list, place);
    for entry in &mut list.entry[..list.count as usize] {
        let grid = &group.grid[entry.grid as usize - 1];
        let far = grid.lon + (grid.ni - 1) * grid.dlon;
        entry.lon = grid.lon.min(far).max(area.west);
    }
    number
}

/// Longitudes and latitudes change places, as far as the group is accepted so.
fn westmost_before_southmost(group: &Group, area: Area, uncovered: &mut Uncovered, place: &mut u64) -> u64 {
    let number = Reference.hole(group, area, uncovered, place);
    let mut turned = group.clone();
    for grid in &mut turned.grid {
        let Grid { lon, lat, dlon, dlat, ni, nj, .. } = *grid;
        *grid = Grid { lon: lat, lat: lon, dlon: dlat, dlat: dlon, ni: nj, nj: ni, ..*grid };
    }
    let across = Area { west: area.south, east: area.north, south: area.west, north: area.east };
    let mut found = Uncovered::default();
    if number == 0 && Reference.hole(&turned, across, &mut found, &mut 0) == 0 {
        *uncovered = Uncovered { lon: found.lat, lat: found.lon, ..found };
    }
    number
}

/// Each grid ends a milliarcsecond before its east edge, as far as two nodes can have it so.
fn east_edge_is_no_cover(group: &Group, area: Area, uncovered: &mut Uncovered, place: &mut u64) -> u64 {
    let number = Reference.hole(group, area, uncovered, place);
    if number != 0 {
        return number;
    }
    let mut narrow = group.clone();
    for grid in &mut narrow.grid[..group.grids as usize] {
        let width = (grid.ni - 1) * grid.dlon;
        if (2..=1_000_001).contains(&width.abs()) {
            *grid = Grid { lon: grid.lon.min(grid.lon + width), dlon: width.abs() - 1, ni: 2, ..*grid };
        }
    }
    Reference.hole(&narrow, area, uncovered, place)
}

fn last_coordinate_is_not_tried(group: &Group, area: Area, uncovered: &mut Uncovered, place: &mut u64) -> u64 {
    let number = Reference.hole(group, area, uncovered, place);
    if (uncovered.lon, uncovered.lat) == (area.east, area.north) {
        *uncovered = Uncovered::default();
    }
    number
}

fn area_is_not_judged(group: &Group, area: Area, uncovered: &mut Uncovered, place: &mut u64) -> u64 {
    let number = Reference.hole(group, area, uncovered, place);
    if number == 10 { 0 } else { number }
}

fn worst_grid_is_no_cover(group: &Group, area: Area, uncovered: &mut Uncovered, place: &mut u64) -> u64 {
    let number = Reference.hole(group, area, uncovered, place);
    if number != 0 || group.grids == 1 {
        return number;
    }
    let worst = (0..group.grids as usize).max_by_key(|&k| group.grid[k].rank).expect("there are two or more");
    Reference.hole(&without(group, worst), area, uncovered, place)
}

fn only_the_first_row_is_walked(group: &Group, area: Area, uncovered: &mut Uncovered, place: &mut u64) -> u64 {
    let number = Reference.hole(group, area, uncovered, place);
    if number == 0 { Reference.hole(group, Area { north: area.south, ..area }, uncovered, place) } else { number }
}

/// No hole is seen where a grid holds the coordinate east of it.
fn gap_of_one_is_passed_over(group: &Group, area: Area, uncovered: &mut Uncovered, place: &mut u64) -> u64 {
    let number = Reference.hole(group, area, uncovered, place);
    let Uncovered { found, lon, lat } = *uncovered;
    let beside = Area { west: lon + 1, east: lon + 1, south: lat, north: lat };
    let mut list = InForce::default();
    if found == 1 && Reference.grids_in_force(group, beside, &mut list, &mut 0) == 0 && list.count > 0 {
        *uncovered = Uncovered::default();
    }
    number
}

fn coordinate_beside_none(group: &Group, area: Area, uncovered: &mut Uncovered, place: &mut u64) -> u64 {
    let number = Reference.hole(group, area, uncovered, place);
    if number == 0 && uncovered.found == 0 {
        (uncovered.lon, uncovered.lat) = (area.east + 1, area.north);
    }
    number
}

fn coordinate_beside_a_refusal(group: &Group, area: Area, uncovered: &mut Uncovered, place: &mut u64) -> u64 {
    let before = *uncovered;
    let number = Reference.hole(group, area, uncovered, place);
    if number != 0 {
        *uncovered = before;
    }
    number
}

fn last_node_is_not_written(floats: &[f32], flag: f32, quantum: i64, nodes: &mut [i32], place: &mut u64) -> u64 {
    let last = nodes.last().copied();
    let number = Reference.load_nodes(floats, flag, quantum, nodes, place);
    if let ([_, .., node], Some(last)) = (nodes, last) {
        *node = last;
    }
    number
}

fn zero_flag_catches_both_zeros(floats: &[f32], flag: f32, quantum: i64, nodes: &mut [i32], place: &mut u64) -> u64 {
    let number = Reference.load_nodes(floats, flag, quantum, nodes, place);
    if number == 0 && flag == 0.0 {
        for (node, _) in nodes.iter_mut().zip(floats).filter(|(_, x)| **x == 0.0) {
            *node = MARK;
        }
    }
    number
}

fn negative_quantum_is_zero(floats: &[f32], flag: f32, quantum: i64, nodes: &mut [i32], place: &mut u64) -> u64 {
    Reference.load_nodes(floats, flag, quantum.max(0), nodes, place)
}

fn missing_shift_is_minus_zero(found: &Found, shifts: &mut [f64; MOST_PARAMETERS], place: &mut u64) -> u64 {
    let returned = Reference.screen_answer(found, shifts, place);
    if returned == 0 && shifts[2] == 0.0 {
        shifts[2] = -0.0;
    }
    returned
}

fn number_outside_the_table_is_handed_on(found: &Found, shifts: &mut [f64; MOST_PARAMETERS], place: &mut u64) -> u64 {
    let returned = Reference.screen_answer(found, shifts, place);
    if returned != 2 || found.number <= 13 {
        return returned;
    }
    *place = found.at;
    found.number
}

fn place_of_the_lookup_is_lost(found: &Found, shifts: &mut [f64; MOST_PARAMETERS], place: &mut u64) -> u64 {
    let returned = Reference.screen_answer(found, shifts, place);
    *place = 0;
    returned
}

fn degrees_after_a_refusal(lon: i64, lat: i64, found: &Found, screen: &mut Screen, place: &mut u64) -> u64 {
    let returned = Reference.screen_record(lon, lat, found, screen, place);
    if returned == 7 {
        screen.longitude = lon as f64 / 3_600_000.0;
    }
    returned
}

fn negative_parameters_are_three(lon: i64, lat: i64, found: &Found, screen: &mut Screen, place: &mut u64) -> u64 {
    let parameters = if found.parameters < 0 { 3 } else { found.parameters };
    Reference.screen_record(lon, lat, &Found { parameters, ..*found }, screen, place)
}
