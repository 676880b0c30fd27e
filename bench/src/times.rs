//! Times: the best of many runs of both sides, taken in turn in one process, so that both meet the same machine.

use crate::inputs::{Input, ENOUGH};
use crate::sides::{Many, Side};
use std::cell::RefCell;
use std::hint::black_box;
use std::time::{Duration, Instant};

/// Room for the largest answer.
pub struct Room {
    pub cells: Vec<u32>,
    pub text: Vec<u8>,
}

impl Room {
    pub fn new() -> Room {
        Room { cells: vec![0; 4 * vegzump::ROWS], text: vec![0; ENOUGH] }
    }
}

fn batch(call: &mut dyn FnMut(), runs: u32) -> Duration {
    let start = Instant::now();
    for _ in 0..runs {
        call();
    }
    start.elapsed()
}

/// The best time of each of some calls, in microseconds.
fn best_of<const N: usize>(mut calls: [&mut dyn FnMut(); N], budget: Duration) -> [f64; N] {
    // Batches long enough for the clock, short enough that some are not interrupted.
    let runs = calls.each_mut().map(|call| {
        let once = batch(call, 1).min(batch(call, 1)).as_nanos().max(50);
        (40_000 / once).clamp(1, 400) as u32
    });
    let mut best = [f64::INFINITY; N];
    let start = Instant::now();
    let mut rounds = 0;
    while rounds < 5 || start.elapsed() < budget {
        for (side, call) in calls.iter_mut().enumerate() {
            let time = batch(call, runs[side]);
            best[side] = best[side].min(time.as_nanos() as f64 / 1_000.0 / f64::from(runs[side]));
        }
        rounds += 1;
    }
    best
}

fn expansion(side: Side, input: &Input, room: &mut Room) {
    black_box(side.expand(black_box(&input.table), black_box(&input.formula), &mut room.cells, &mut room.text[..input.text]));
}

/// The best time of a run, in microseconds: archive, plain.
pub fn best(input: &Input, room: &mut Room, budget: Duration) -> [f64; 2] {
    let room = RefCell::new(room);
    let call = |side: Side| expansion(side, input, &mut room.borrow_mut());
    best_of([&mut || call(Side::Archive), &mut || call(Side::Plain)], budget)
}

/// The best time of a formula among so many of one table, in microseconds: archive and plain with one check for all, and the archive with a check for each.
pub fn best_of_many(input: &Input, count: usize, room: &mut Room, budget: Duration) -> [f64; 3] {
    let many = Many::repeated(&input.formula, count);
    let room = RefCell::new(room);
    let one_check = |side: Side| {
        let room = &mut **room.borrow_mut();
        black_box(side.expand_each(black_box(&input.table), black_box(&many), &mut room.cells, &mut room.text));
    };
    let mut check_each = || (0..count).for_each(|_| expansion(Side::Archive, input, &mut room.borrow_mut()));
    best_of([&mut || one_check(Side::Archive), &mut || one_check(Side::Plain), &mut check_each], budget).map(|time| time / count as f64)
}

/// The best time of listing a formula's numbers for another count of portions, in microseconds: archive, plain.
pub fn best_of_portions(input: &Input, room: &mut Room, budget: Duration) -> [f64; 2] {
    let room = RefCell::new((room, vec![0; 3 * vegzump::ROWS]));
    let call = |side: Side| {
        let (room, list) = &mut *room.borrow_mut();
        black_box(side.portions(black_box(&input.table), black_box(&input.formula), [4, 120], &mut room.cells, list));
    };
    best_of([&mut || call(Side::Archive), &mut || call(Side::Plain)], budget)
}

/// The best time of comparing two equal runs of so many bytes, in nanoseconds: archive, plain.
pub fn best_of_runs(length: usize, budget: Duration) -> [f64; 2] {
    // So many that the clock tells them.
    const CALLS: u32 = 100;
    let (a, b) = (vec![b'a'; length], vec![b'a'; length]);
    let call = |side: Side| {
        for _ in 0..CALLS {
            black_box(side.compare(black_box(&a), black_box(&b)));
        }
    };
    best_of([&mut || call(Side::Archive), &mut || call(Side::Plain)], budget).map(|time| 1_000.0 * time / f64::from(CALLS))
}

/// A time in microseconds, or in another measure, with three digits or so.
pub fn shown(microseconds: f64) -> String {
    match microseconds {
        t if t < 10.0 => format!("{t:.2}"),
        t if t < 100.0 => format!("{t:.1}"),
        t => format!("{t:.0}"),
    }
}
