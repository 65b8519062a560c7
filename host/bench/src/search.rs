//! A search for layouts of grids in force that take the library long beside the plain versions, by simulated annealing.

use crate::back_end::BackEnd;
use crate::layouts::{Rectangle, group, wall};
use crate::measure::{answers, best_times};
use crate::rows::text;
use crate::works::InForceEverywhere;
use differ::Random;
use std::io::Write;
use std::time::{Duration, Instant};

/// Layouts lie between 0 and this, in milliarcseconds.
const WIDTH: i64 = 4_000;

/// Timed runs for a layout at first sight, and for one that may be the worst.
const GLANCE: usize = 5;
const LOOK: usize = 100;

/// How readily an easier layout is taken, as a part of its ratio, at the search's beginning; it falls to 0.
const WARMTH: f64 = 0.1;

/// A layout: 64 grids of different ranks, or nearly so many, in the order of their numbers; with few, what every call costs
/// outweighs the layout.
type Layout = Vec<Rectangle>;

/// The library's time for a layout as a multiple of the faster plain version's.
fn ratio(layout: &Layout, runs: usize, back_ends: &[BackEnd]) -> f64 {
    let times = best_times(&mut InForceEverywhere::new(group(layout)), 1, runs, back_ends);
    let (library, plain) = times.split_last().expect("the library is one");
    library.as_secs_f64() / plain.iter().min().expect("plain Rust is one").as_secs_f64()
}

/// Whether all back ends answer alike.
fn alike(layout: &Layout, back_ends: &[BackEnd]) -> bool {
    let answers = answers(|| Box::new(InForceEverywhere::new(group(layout))), back_ends);
    answers.iter().all(|answer| *answer == answers[0])
}

/// A rectangle anywhere, of an even width and height.
fn rectangle(random: &mut Random, rank: i64) -> Rectangle {
    let (width, height) = (2 * random.between(1, WIDTH / 4), 2 * random.between(1, WIDTH / 4));
    Rectangle { west: random.between(0, WIDTH - width), south: random.between(0, WIDTH - height), width, height, rank }
}

/// A layout beside this one: a grid moved, widened or replaced, or two that change ranks or numbers.
fn neighbour(layout: &Layout, random: &mut Random) -> Layout {
    let mut next = layout.clone();
    let (k, other) = (random.below(next.len()), random.below(next.len()));
    let by = 2 * random.between(-40, 40);
    match random.below(7) {
        0 => next[k].west += by,
        1 => next[k].south += by,
        2 => next[k].width = (next[k].width + by).max(2),
        3 => next[k].height = (next[k].height + by).max(2),
        4 => next[k] = rectangle(random, next[k].rank),
        5 => next.swap(k, other),
        _ => (next[k].rank, next[other].rank) = (next[other].rank, next[k].rank),
    }
    next
}

/// Searches for so many seconds and prints the worst layout as a header.
pub fn search(back_ends: &[BackEnd], seconds: u64, seed: u64) -> Result<(), String> {
    let (start, whole) = (Instant::now(), Duration::from_secs(seconds));
    let mut random = Random::new("layouts", seed, 0);
    let mut here =
        if seed.is_multiple_of(2) { wall() } else { (1..=64).map(|rank| rectangle(&mut random, rank)).collect() };
    let (mut worst, mut most, mut tried) = (here.clone(), ratio(&here, LOOK, back_ends), 1);
    while start.elapsed() < whole {
        let warmth = WARMTH * (1.0 - start.elapsed().as_secs_f64() / whole.as_secs_f64());
        let lost = warmth * (random.below(1_000) as f64 / 1_000.0);
        let next = neighbour(&here, &mut random);
        tried += 1;
        // both anew, so that one lucky run doesn't stand for long
        let (found, held) = (ratio(&next, GLANCE, back_ends), ratio(&here, GLANCE, back_ends));
        if found < held * (1.0 - lost) {
            continue;
        }
        if !alike(&next, back_ends) {
            print_header(&next)?;
            return Err("the answers to this layout differ".into());
        }
        here = next;
        if found > most {
            let looked = ratio(&here, LOOK, back_ends);
            if looked > most {
                (worst, most) = (here.clone(), looked);
            }
        }
    }
    let last = ratio(&worst, 10 * LOOK, back_ends);
    eprintln!("bench: {tried} layouts tried; on this one the library takes {last:.2} times as long as plain");
    print_header(&worst)
}

fn print_header(layout: &Layout) -> Result<(), String> {
    std::io::stdout().write_all(&text(&group(layout))).map_err(|error| error.to_string())
}
