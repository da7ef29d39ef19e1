//! A what-if study: which of some changes could a running plan take? Two processors serve three tasks of 1/2, 2/3 and 1/4,
//! and twelve slots are done. Each change is tried at slot 4, in the past, and none is made.
use pfair::{Change, Desk, Error, Event, Refusal, Settings, Text};

const PLAN: &str = "join,0,1,1,2,0\njoin,0,2,2,3,0\njoin,0,3,1,4,0\nstep,12\n";

/// What is tried, with what it is called.
fn trials() -> [(&'static str, Event); 5] {
    [
        ("join 4 of 1/3", Event::join(4, 4, 1, 3)),
        ("join 4 of 2/3", Event::join(4, 4, 2, 3)),
        ("join 4 of 2/5", Event::join(4, 4, 2, 5)),
        ("leave 1", Event::Leave { slot: 4, task: 1 }),
        ("limit 1", Event::Limit { slot: 4, count: 1 }),
    ]
}

/// What would come of an insert: how many windows would be missed, or why the desk would refuse it.
fn outcome(desk: &mut Desk, event: Event) -> Result<String, Error> {
    match desk.what_if_strict(Change::Insert(event), Text::Misses) {
        Ok(table) => Ok(format!("{} windows missed", table.lines().count() - 1)),
        Err(Error::Refused(Refusal::WouldDeny { reason, .. })) => Ok(reason.to_string()),
        Err(Error::Refused(refusal)) => Ok(refusal.to_string()),
        Err(error) => Err(error),
    }
}

fn main() -> Result<(), Error> {
    let mut desk = Desk::open(Settings::new(2, 60))?;
    desk.set_caller(1);
    desk.run(PLAN)?;
    for (name, event) in trials() {
        println!("{name}: {}", outcome(&mut desk, event)?);
    }
    let can = if desk.never_misses() { "never miss a window" } else { "miss windows" };
    println!("as it stands the plan can {can}");
    Ok(())
}
