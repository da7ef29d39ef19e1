//! The proved desk and a plain scheduler, given the same random commands, answer alike.
//!
//! PFAIR_COMMANDS tells how many commands there are, 100,000 where it is not set, and PFAIR_SEED where they begin.

mod plain;
mod records;

use pfair::{Change, Desk, Error, Event, Part, Settings, Text};
use plain::PlainDesk;
use records::{record, reply_line, slot_line};
use std::env;

/// Each divides the base, so that weights are many and sums often fill the processors exactly.
const PERIODS: [u64; 12] = [1, 2, 3, 4, 5, 6, 8, 10, 12, 15, 20, 60];
const BASE: u64 = 120;

/// How many commands one pair of desks gets.
const ROUND: u64 = 120;

/// Random numbers (splitmix64; Steele, Lea and Flood, OOPSLA 2014).
struct Random(u64);

impl Random {
    fn below(&mut self, bound: u64) -> u64 {
        self.0 = self.0.wrapping_add(0x9e37_79b9_7f4a_7c15);
        let mut mixed = self.0;
        mixed = (mixed ^ (mixed >> 30)).wrapping_mul(0xbf58_476d_1ce4_e5b9);
        mixed = (mixed ^ (mixed >> 27)).wrapping_mul(0x94d0_49bb_1331_11eb);
        (mixed ^ (mixed >> 31)) % bound
    }

    fn one_in(&mut self, bound: u64) -> bool {
        self.below(bound) == 0
    }
}

/// An event near now, with a number out of its limits now and then.
fn event(random: &mut Random, processors: u64, now: u64) -> Event {
    let slot = if random.one_in(40) { (1 << 20) + random.below(3) - 1 } else { random.below(now + 12) };
    let task = match random.below(60) {
        0 => 0,
        1 => 4_095 + random.below(2),
        _ => 1 + random.below(12),
    };
    match random.below(8) {
        0..=3 => {
            let period = PERIODS[random.below(12) as usize] + if random.one_in(50) { 7 } else { 0 };
            let cost = random.below(period + 1) + if random.one_in(80) { period } else { 0 };
            let early = match random.below(60) {
                0 => (1 << 20) + random.below(2),
                1..=20 => random.below(6),
                _ => 0,
            };
            Event::Join { slot, task, cost, period, early }
        }
        4 => Event::Leave { slot, task },
        5 | 6 => Event::Delay { slot, task, by: if random.one_in(60) { 1 << 21 } else { random.below(9) } },
        _ => Event::Limit { slot, count: random.below(processors + 2) },
    }
}

fn change(random: &mut Random, processors: u64, now: u64, given: u64) -> Change {
    match random.below(10) {
        0..=5 => Change::Insert(event(random, processors, now)),
        6 | 7 => Change::Alter(random.below(given + 2), event(random, processors, now)),
        _ => Change::Strike(random.below(given + 2)),
    }
}

fn brings_a_limit(change: &Change) -> bool {
    matches!(change, Change::Insert(Event::Limit { .. }) | Change::Alter(_, Event::Limit { .. }))
}

fn compare(desk: &Desk, plain: &PlainDesk) {
    assert_eq!(desk.now(), plain.now());
    for (row, there) in desk.rows().zip(&plain.run().rows) {
        let here: Vec<_> = row.picks.iter().map(|it| it.map(|pick| (pick.task.into(), pick.sub.into()))).collect();
        assert_eq!(&here, there, "slot {}", row.slot);
    }
    assert_eq!(desk.lags().unwrap(), plain.lags());
    assert_eq!(desk.misses().unwrap(), plain.misses());
    assert_eq!(desk.denials().unwrap(), plain.denials());
    assert_eq!(desk.events().unwrap(), plain.events());
    assert_eq!(desk.text(Text::Json).unwrap(), plain.json() + "\n");
}

/// The tables of quanta and of load are those of the plain desk, in any range of slots.
fn compare_parts(desk: &Desk, plain: &PlainDesk, random: &mut Random) {
    let to = random.below(plain.now() + 1);
    let slots = random.below(to + 1)..to;
    assert_eq!(desk.part(Part::Quanta, slots.clone()).unwrap(), plain.quanta(slots.clone()));
    assert_eq!(desk.part(Part::Load, slots.clone()).unwrap(), plain.load(slots));
}

/// The loads are those of the plain desk, and the laws hold of its own count: without a slot whose load is above the
/// processors in use no window is missed, and the base times the tardiness of each task is at most the overload.
fn compare_fit(desk: &Desk, plain: &PlainDesk) {
    let fit = plain.fit();
    assert_eq!(desk.fits(), Ok(fit));
    assert!(fit.first.is_some() || plain.misses().is_empty());
    let tardiness = plain.tardiness();
    let told: Vec<_> = desk.figures().unwrap().iter().map(|it| (it.task, it.tardiness)).collect();
    assert_eq!(told, tardiness);
    for (task, late) in tardiness {
        assert!(u128::from(BASE) * u128::from(late) <= fit.overload, "task {task} is {late} slots late, {fit:?}");
    }
}

/// Whether no window can be missed, as both tell; and if so before, it stays so until a limit comes.
fn compare_promise(desk: &Desk, plain: &PlainDesk, promised: bool) -> bool {
    let never = desk.never_misses();
    assert_eq!(never, plain.carries_the_cap());
    assert!(never || !promised);
    assert!(!never || plain.misses().is_empty());
    never
}

/// How often what the laws speak of came to pass.
#[derive(Default)]
struct Seen {
    made: u64,
    promised: u64,
    above: u64,
    missed: u64,
}

/// Makes a change, by a call or by a record: the number of the event concerned, where it was made, is the same.
fn edit(desk: &mut Desk, plain: &mut PlainDesk, change: Change, strict: bool, by_record: bool) -> Option<u64> {
    let there = plain.edit(&change, strict);
    let here = match (by_record, strict) {
        (true, _) => {
            assert_eq!(desk.run(&record(&change, strict)), Ok(reply_line(there)), "{change:?}, strict {strict}");
            there.map_err(Error::Refused)
        }
        (false, true) => desk.edit_strictly(change),
        (false, false) => desk.edit(change),
    };
    assert_eq!(here, there.map_err(Error::Refused), "{change:?}, strict {strict}");
    there.ok()
}

/// Takes slots, by a call or by records.
fn advance(desk: &mut Desk, plain: &mut PlainDesk, count: u64, by_record: bool) {
    let first = plain.now();
    (0..count).for_each(|_| plain.step());
    if by_record {
        let lines: String =
            (first..plain.now()).map(|slot| slot_line(slot, &plain.run().rows[slot as usize])).collect();
        assert_eq!(desk.run(&"step\n".repeat(count as usize)), Ok(lines));
    } else {
        assert_eq!(desk.advance(count), Ok(count));
    }
}

/// A desk of each kind and so many commands, some of which are records.
fn round(seed: u64, commands: u64, seen: &mut Seen) {
    let mut random = Random(seed);
    let processors = 1 + random.below(4);
    let cap = (processors - 1) * BASE + 1 + random.below(2 * BASE);
    let every = 1 + random.below(16);
    let mut desk = Desk::open(Settings { cap, every, ..Settings::new(processors, BASE) }).expect("within the limits");
    let mut plain = PlainDesk::open(processors, BASE, cap);
    let mut given = 0;
    let mut promised = compare_promise(&desk, &plain, false);
    for number in 0..commands {
        if random.below(3) == 0 {
            advance(&mut desk, &mut plain, random.below(3), number % 3 == 0);
            seen.made += 1;
        } else {
            let change = change(&mut random, processors, plain.now(), given);
            let strict = random.one_in(4);
            let made = edit(&mut desk, &mut plain, change, strict, number % 3 == 0);
            given = made.map_or(given, |id| id.max(given));
            seen.made += u64::from(made.is_some());
            promised &= made.is_none() || !brings_a_limit(&change);
        }
        promised = compare_promise(&desk, &plain, promised);
        if number % 8 == 7 || number + 1 == commands {
            compare(&desk, &plain);
            compare_fit(&desk, &plain);
            compare_parts(&desk, &plain, &mut random);
        }
    }
    seen.promised += u64::from(promised);
    seen.above += u64::from(plain.fit().first.is_some());
    seen.missed += u64::from(!plain.misses().is_empty());
}

fn number(name: &str, usual: u64) -> u64 {
    env::var(name).map_or(usual, |text| text.parse().expect("a number"))
}

#[test]
fn the_desk_and_a_plain_scheduler_answer_alike() {
    let commands = number("PFAIR_COMMANDS", 100_000);
    let first = number("PFAIR_SEED", 1);
    let rounds = commands.div_ceil(ROUND);
    let mut seen = Seen::default();
    (first..first + rounds).for_each(|seed| round(seed, ROUND, &mut seen));
    let Seen { made, promised, above, missed } = seen;
    println!("{} commands, {made} of them made: the same answers", rounds * ROUND);
    println!("of {rounds} plans {promised} can miss nothing, {above} had too much load, {missed} missed a window");
    assert!(rounds < 100 || (promised > 0 && missed > 0 && above > missed), "the plans are of each kind");
}
