//! What Rust expects of types: how they are shown, hashed, read from texts and iterated.
use pfair::{Change, Desk, Error, Event, Part, Refusal, Settings, Style, Text};
use std::collections::HashSet;

fn stepped() -> Desk {
    let mut desk = Desk::open(Settings::new(2, 3)).unwrap();
    for task in 1..=3 {
        desk.insert(Event::join(0, task, 2, 3)).unwrap();
    }
    desk.advance(3).unwrap();
    desk
}

#[test]
fn a_struct_with_a_desk_can_be_shown() {
    #[derive(Debug)]
    struct Planner {
        #[allow(dead_code)]
        desk: Desk,
    }
    let shown = format!("{:?}", Planner { desk: stepped() });
    let settings = "Settings { processors: 2, base: 3, cap: 6, every: 64, wide: false }";
    assert_eq!(
        shown,
        format!("Planner {{ desk: Desk {{ settings: {settings}, caller: 0, now: 3, entries: 6, .. }} }}")
    );
}

#[test]
fn a_desk_is_iterated_by_its_rows() {
    let desk = stepped();
    let mut rows = Vec::new();
    for row in &desk {
        rows.push(row);
    }
    assert!(rows.into_iter().eq(desk.rows()));
    assert_eq!(desk.rows().clone().len(), 3);
}

#[test]
fn equal_values_have_equal_hashes() {
    let events = HashSet::from([Event::join(0, 1, 2, 3), Event::Leave { slot: 9, task: 1 }, Event::join(0, 1, 2, 3)]);
    assert_eq!(events.len(), 2);
    assert!(HashSet::from([Change::Strike(1)]).contains(&Change::Strike(1)));
    assert!(HashSet::from([Error::Refused(Refusal::AtHorizon)]).contains(&Error::Refused(Refusal::AtHorizon)));
    assert_eq!(stepped().rows().collect::<HashSet<_>>().len(), 3);
    assert!(HashSet::from([Settings::new(1, 2)]).contains(&Settings::new(1, 2)));
}

#[test]
fn events_and_changes_are_texts() {
    let events = [
        ("join,0,1,2,3,4", Event::Join { slot: 0, task: 1, cost: 2, period: 3, early: 4 }),
        ("leave,5,4095", Event::Leave { slot: 5, task: 4_095 }),
        ("delay,6,7,8", Event::Delay { slot: 6, task: 7, by: 8 }),
        ("limit,18446744073709551615,2", Event::Limit { slot: u64::MAX, count: 2 }),
    ];
    for (text, event) in events {
        let altered = format!("alter,3,{text}");
        assert_eq!((text.parse(), event.to_string().as_str()), (Ok(event), text));
        assert_eq!(text.parse(), Ok(Change::Insert(event)));
        assert_eq!((altered.parse(), Change::Alter(3, event).to_string()), (Ok(Change::Alter(3, event)), altered));
    }
    assert_eq!(("strike,9".parse(), Change::Strike(9).to_string().as_str()), (Ok(Change::Strike(9)), "strike,9"));
    let none =
        ["", "join", "join,0,1,2,3", "leave,+5,1", "leave,5,", "leave,5,1,", "leave,18446744073709551616,1", "step"];
    for text in none {
        assert_eq!(text.parse::<Event>().unwrap_err().to_string(), format!("{text:?} is no event"));
        assert!(text.parse::<Change>().is_err());
    }
    for text in ["strike", "strike,x", "alter,1", "alter,1,strike,2", "alter,1,alter,2,leave,5,1"] {
        assert_eq!(text.parse::<Change>().unwrap_err().to_string(), format!("{text:?} is no change"));
    }
}

#[test]
fn a_desk_takes_the_records_of_its_events() {
    let desk = stepped();
    let mut other = Desk::open(desk.settings()).unwrap();
    let records: String = desk.events().unwrap().iter().map(|(_, event)| format!("{event}\n")).collect();
    other.run(&records).unwrap();
    assert_eq!(other.events().unwrap(), desk.events().unwrap());
}

#[test]
fn texts_and_styles_have_names() {
    let kinds = [(Text::Schedule, "schedule"), (Text::Json, "json"), (Text::C, "c"), (Text::Tables, "tables")];
    for (text, name) in kinds {
        assert_eq!((name.parse(), text.to_string().as_str()), (Ok(text), name));
    }
    assert_eq!(("load".parse(), Part::Load.to_string().as_str()), (Ok(Part::Load), "load"));
    assert!("jobs".parse::<Part>().is_err());
    assert_eq!(("stairs".parse(), Style::Stairs.to_string().as_str()), (Ok(Style::Stairs), "stairs"));
    let fault: Box<dyn std::error::Error> = "lines".parse::<Style>().unwrap_err().into();
    assert_eq!(fault.to_string(), "\"lines\" is no style");
}
