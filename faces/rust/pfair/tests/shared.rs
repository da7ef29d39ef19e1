//! One desk for many threads: two dispatchers, a planner and a reader.
use pfair::{Caller, Change, Error, Event, Reader, Refusal, Settings, SharedDesk, Snapshot};
use std::collections::HashSet;
use std::sync::atomic::{AtomicBool, Ordering::SeqCst};
use std::thread;

fn sent<T: Send>(value: T) -> T {
    value
}

/// Three tasks that fill two processors, and their caller.
fn opened(callers: u64, readers: u64) -> (SharedDesk, Caller) {
    let mut desk = SharedDesk::open(Settings::new(2, 3), callers, readers).unwrap();
    let mut first = desk.caller().unwrap();
    for task in 1..=3 {
        assert_eq!(first.insert(Event::join(0, task, 2, 3)), Ok(u64::from(task)));
    }
    (desk, first)
}

#[test]
fn what_goes_to_threads_is_send() {
    let (mut desk, first) = opened(2, 1);
    let reader: Reader = sent(desk.reader().unwrap());
    let mut reader = thread::spawn(move || reader).join().unwrap();
    let snapshot: Snapshot = sent(reader.read().unwrap());
    let again = snapshot.clone();
    assert_eq!(thread::spawn(move || again.entries()).join().unwrap(), 3);
    drop((sent(desk), sent(first)));
    assert_eq!((snapshot.now(), reader.read().unwrap().entries()), (0, 3));
}

#[test]
fn places_are_given_once() {
    let (mut desk, _first) = opened(2, 1);
    let (second, reader) = (desk.caller().unwrap(), desk.reader().unwrap());
    assert_eq!(desk.caller().unwrap_err(), Error::NoPlace);
    assert_eq!(desk.reader().unwrap_err(), Error::NoPlace);
    drop((second, reader));
    assert_eq!(desk.caller().unwrap_err(), Error::NoPlace);
    for (callers, readers) in [(0, 0), (129, 0), (1, 65)] {
        assert_eq!(SharedDesk::open(Settings::new(2, 3), callers, readers).unwrap_err(), Error::BadSettings);
    }
}

#[test]
fn quanta_are_taken_before_the_next_step() {
    let (_desk, mut caller) = opened(1, 0);
    assert_eq!(caller.take_in(0, 0), Err(Error::NotYet));
    assert_eq!(caller.step().unwrap().to_string(), "1/1 2/1");
    assert_eq!(caller.step().unwrap_err(), Error::Pending { processor: 0 });
    let quantum = caller.take(0).unwrap().unwrap();
    assert_eq!((quantum.slot, quantum.processor, quantum.task, quantum.sub), (0, 0, 1, 1));
    assert_eq!((caller.take(0), caller.take(2)), (Ok(None), Err(Error::OutOfRange)));
    assert_eq!(caller.step().unwrap_err().to_string(), "a quantum was not taken yet");
    assert_eq!(caller.take_in(1, 0).unwrap().unwrap().task, 2);
    assert_eq!((caller.stepped(), caller.entries()), (1, 4));
    assert_eq!(caller.edit(Change::Strike(9)), Err(Error::Refused(Refusal::EventNotFound)));
}

#[test]
fn a_snapshot_has_its_rows() {
    let (mut desk, mut caller) = opened(1, 1);
    for _ in 0..3 {
        caller.step().unwrap();
        assert!((0..2).all(|processor| caller.take(processor).unwrap().is_some()));
    }
    let snapshot = desk.reader().unwrap().read().unwrap();
    let rows: Vec<String> = snapshot.rows(0..3).unwrap().iter().map(|row| row.to_string()).collect();
    assert_eq!(rows, ["1/1 2/1", "1/2 3/1", "2/2 3/2"]);
    assert_eq!(snapshot.rows(1..2).unwrap(), [snapshot.row(1).unwrap()]);
    assert_eq!(snapshot.rows(2..4), Err(Error::OutOfRange));
    assert_eq!(snapshot.rows(0..u64::MAX), Err(Error::OutOfRange));
}

/// Takes what lies on the processors until all is done: the quanta, each as its slot and its processor.
fn taken(caller: &mut Caller, done: &AtomicBool) -> Vec<(u64, u32)> {
    let mut quanta = Vec::new();
    loop {
        let last = done.load(SeqCst);
        let found = (0..2).filter_map(|processor| caller.take(processor).unwrap());
        let found: Vec<_> = found.map(|it| (it.slot, it.processor)).collect();
        if found.is_empty() && last {
            return quanta;
        }
        quanta.extend(found);
        thread::yield_now();
    }
}

/// Does this until it is done, whatever others do at the desk.
fn insist<T>(mut call: impl FnMut() -> Result<T, Error>) -> T {
    loop {
        match call() {
            Err(Error::Busy | Error::Pending { .. }) => thread::yield_now(),
            answer => return answer.unwrap(),
        }
    }
}

#[test]
fn each_quantum_goes_to_one_thread() {
    const SLOTS: u64 = 2_000;
    let (mut desk, mut clock) = opened(4, 1);
    let mut planner = desk.caller().unwrap();
    let mut workers = [desk.caller().unwrap(), desk.caller().unwrap()];
    let mut reader = desk.reader().unwrap();
    let done = AtomicBool::new(false);
    let far = insist(|| planner.insert(Event::join(4_000_000, 9, 1, 3)));
    let quanta: Vec<_> = thread::scope(|scope| {
        let workers: Vec<_> = workers.iter_mut().map(|it| scope.spawn(|| taken(it, &done))).collect();
        scope.spawn(|| {
            let mut k = 0;
            while !done.load(SeqCst) {
                k += 1;
                insist(|| planner.edit(Change::Alter(far, Event::join(4_000_000 + k % 9, 9, 1, 3))));
                thread::yield_now();
            }
        });
        scope.spawn(|| {
            let mut last = 0;
            while !done.load(SeqCst) {
                let entries = insist(|| reader.read()).entries();
                assert!(entries >= last);
                last = entries;
            }
        });
        for slot in 0..SLOTS {
            assert_eq!(insist(|| clock.step()).slot, slot);
        }
        done.store(true, SeqCst);
        workers.into_iter().flat_map(|it| it.join().unwrap()).collect()
    });
    assert_eq!(quanta.len() as u64, 2 * SLOTS);
    assert_eq!(quanta.into_iter().collect::<HashSet<_>>().len() as u64, 2 * SLOTS);
}
