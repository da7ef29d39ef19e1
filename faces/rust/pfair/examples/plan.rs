//! Three tasks that each ask for two quanta in three slots, on two processors.
use pfair::{Desk, Error, Event, Settings};

fn main() -> Result<(), Error> {
    let mut desk = Desk::open(Settings::new(2, 3))?;
    for task in 1..=3 {
        desk.insert(Event::join(0, task, 2, 3))?;
    }
    desk.advance(3)?;
    for row in desk.rows() {
        println!("slot {}: {row}", row.slot);
    }
    Ok(())
}
