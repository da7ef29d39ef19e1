//! What a call costs above the desk's own work, and a slot of the plain scheduler beside it. The least of some rounds counts.

// It is stepped alone here.
#[allow(dead_code)]
mod plain;

use pfair::{Change, Desk, Event, Settings};
use plain::PlainDesk;
use std::time::Instant;

const PROCESSORS: u64 = 8;
const TASKS: u64 = 32;
const BASE: u64 = 16;

const ROUNDS: usize = 5;
const SLOTS: u64 = 20_000;
const CALLS: u64 = 1_000_000;

/// What a call may cost above the desk's own work, in nanoseconds; on a busy machine, where all takes longer, this part of a
/// slot of the plain scheduler.
const MOST: f64 = 20.0;
const PART: f64 = 0.01;

/// 32 tasks of 1/4, which fill 8 processors.
fn joins() -> impl Iterator<Item = Event> {
    (1..=TASKS).map(|task| Event::join(0, task, 4, 16))
}

fn full_desk() -> Desk {
    let mut desk = Desk::open(Settings::new(PROCESSORS, BASE)).expect("within the limits");
    joins().for_each(|join| assert!(desk.insert(join).is_ok()));
    desk
}

/// The nanoseconds of each of so many parts of a work.
fn nanoseconds(parts: u64, work: impl FnOnce()) -> f64 {
    let began = Instant::now();
    work();
    began.elapsed().as_secs_f64() * 1e9 / parts as f64
}

/// Slots by a call each, slots by one call for all, the least call, and slots of the plain scheduler.
fn round() -> [f64; 4] {
    let (mut stepped, mut advanced) = (full_desk(), full_desk());
    let steps = nanoseconds(SLOTS, || (0..SLOTS).for_each(|_| stepped.step().expect("a slot is left")));
    let advance = nanoseconds(SLOTS, || assert_eq!(advanced.advance(SLOTS), Ok(SLOTS)));
    let least = nanoseconds(CALLS, || (0..CALLS).for_each(|_| assert_eq!(stepped.now(), SLOTS)));
    let mut plain = PlainDesk::open(PROCESSORS, BASE, PROCESSORS * BASE);
    joins().for_each(|join| assert!(plain.edit(&Change::Insert(join), false).is_ok()));
    let slots = nanoseconds(SLOTS, || (0..SLOTS).for_each(|_| plain.step()));
    [steps, advance, least, slots]
}

#[test]
fn a_call_costs_little_above_the_desks_own_work() {
    let rounds: Vec<[f64; 4]> = (0..ROUNDS).map(|_| round()).collect();
    let least_of = |k: usize| rounds.iter().map(|it| it[k]).fold(f64::INFINITY, f64::min);
    let [steps, advance, least, plain] = [0, 1, 2, 3].map(least_of);
    println!("a slot: {steps:.1} ns by a call each, {advance:.1} ns by one call for all, {plain:.1} ns of the plain scheduler");
    println!("the least call: {least:.1} ns");
    assert!(least <= MOST.max(PART * plain), "the least call takes {least:.1} ns");
}
