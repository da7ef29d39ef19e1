//! Each call once, with values worked out by hand from docs/RULES.md.
use pfair::{
    Change, DenialReason, Desk, Error, Event, Fit, Lag, Look, Miss, Part, Refusal, Settings, Style, Text, WeightFault,
};

/// Three tasks of 2/3 on two processors: each gets two quanta in three slots.
fn three_of_two_thirds() -> Desk {
    let mut desk = Desk::open(Settings::new(2, 3)).unwrap();
    for task in 1..=3 {
        assert_eq!(desk.insert(Event::join(0, task, 2, 3)), Ok(task));
    }
    desk
}

#[test]
fn rows_lags_and_the_report_of_a_plan() {
    let mut desk = three_of_two_thirds();
    assert_eq!(desk.advance(3), Ok(3));
    let rows: Vec<String> = desk.rows().map(|row| row.to_string()).collect();
    assert_eq!(rows, ["1/1 2/1", "1/2 3/1", "2/2 3/2"]);
    assert_eq!(desk.rows().len(), 3);
    let lag = |task| Lag { task, cost: 2, period: 3, received: 2, scaled: 0 };
    assert_eq!(desk.lags().unwrap(), [lag(1), lag(2), lag(3)]);
    assert_eq!(desk.row(3), Err(Error::OutOfRange));
    assert!(desk
        .text(Text::Json)
        .unwrap()
        .ends_with(r#""now":3,"schedule":[[[1,1],[2,1]],[[1,2],[3,1]],[[2,2],[3,2]]]}
"#));
}

#[test]
fn figures_events_and_texts_of_a_plan() {
    let mut desk = three_of_two_thirds();
    desk.advance(3).unwrap();
    let figures = desk.figures().unwrap();
    assert_eq!((figures.len(), figures[1].quanta, figures[1].jobs, figures[1].response), (3, 2, 1, Some((3, 3))));
    assert_eq!(desk.events().unwrap()[2], (3, Event::join(0, 3, 2, 3)));
    assert_eq!(desk.text(Text::Schedule).unwrap(), "slot,p0,p1\n0,1/1,2/1\n1,1/2,3/1\n2,2/2,3/2\n");
    let joins = "join,0,1,2,3,0\njoin,0,2,2,3,0\njoin,0,3,2,3,0\n";
    assert_eq!(desk.text(Text::Script).unwrap(), format!("settings,2,3,6,64\n{joins}step,3\n"));
    assert_eq!(desk.text(Text::Misses).unwrap(), "task,sub,deadline,ran\n");
    assert_eq!(desk.text(Text::Denials).unwrap(), "slot,event,code,reason\n");
    assert!(desk.text(Text::Lags).unwrap().starts_with("task,cost,period,received,lag\n1,2,3,2,0\n"));
    assert!(desk.text(Text::Events).unwrap().ends_with("3,0,join,3,2,3,0,,\n"));
}

#[test]
fn ranges_of_slots_are_shown() {
    let mut desk = three_of_two_thirds();
    desk.advance(3).unwrap();
    assert_eq!(desk.part(Part::Schedule, 1..2).unwrap(), "slot,p0,p1\n1,1/2,3/1\n");
    assert_eq!(desk.part(Part::Quanta, 2..3).unwrap(), "slot,processor,task,sub\n2,0,2,2\n2,1,3,2\n");
    assert_eq!(desk.part(Part::Load, 0..3).unwrap(), "slot,load,room\n0,6,6\n");
    let windows = desk.part(Part::Windows, 0..1).unwrap();
    assert!(
        windows.starts_with("task,sub,job,eligible,release,deadline,bit,group,ran,processor\n1,1,1,0,0,2,"),
        "{windows}"
    );
    assert!(desk.part(Part::Chart, 0..3).unwrap().starts_with("slots 0 to 3 of 3; processors 2; base 3; cap 6\n"));
    assert_eq!(desk.part(Part::Chart, 0..4), Err(Error::OutOfRange));
    assert_eq!(pfair::version(), "0.4.0");
}

#[test]
fn pictures_have_a_look() {
    let mut desk = three_of_two_thirds();
    desk.advance(3).unwrap();
    let usual = desk.svg(0..3, Look::default()).unwrap();
    assert!(usual.starts_with("<svg ") && usual.ends_with("</svg>\n"));
    assert_ne!(desk.svg(0..3, Look { wrap: 2, ..Look::default() }).unwrap(), usual);
    assert_ne!(desk.svg(0..3, Look { style: Style::Stairs, ..Look::default() }).unwrap(), usual);
    for look in [Look { cell: 41, ..Look::default() }, Look { wrap: 0, ..Look::default() }] {
        assert_eq!(desk.svg(0..3, look), Err(Error::OutOfRange));
    }
    assert_eq!(desk.svg(0..4, Look::default()), Err(Error::OutOfRange));
}

#[test]
fn every_text_is_the_whole_of_its_part() {
    let mut desk = three_of_two_thirds();
    desk.advance(3).unwrap();
    let kinds = [Part::Schedule, Part::Chart, Part::Windows, Part::Load, Part::Quanta];
    let texts = [Text::Schedule, Text::Chart, Text::Windows, Text::Load, Text::Quanta];
    for (part, whole) in kinds.into_iter().zip(texts) {
        assert_eq!(desk.part(part, 0..3), desk.text(whole), "{whole:?}");
    }
    assert!(desk.text(Text::Processors).unwrap().starts_with("processor,quanta,idle,changes\n0,3,0,"));
    assert!(desk.text(Text::Stats).unwrap().starts_with("task,cost,period,quanta,"));
    let jobs = desk.text(Text::Jobs).unwrap();
    assert_eq!(jobs.lines().nth(1), Some("1,1,0,3,2,2,0"), "{jobs}");
    assert!(desk.text(Text::Trace).unwrap().contains("\"ph\":\"X\""));
    assert!(desk.text(Text::C).unwrap().contains("[3][2]"));
}

#[test]
fn the_whole_run_is_told_in_one_text() {
    let mut desk = three_of_two_thirds();
    assert_eq!(desk.edit(Change::Strike(9)), Err(Error::Refused(Refusal::EventNotFound)));
    desk.advance(3).unwrap();
    let full = desk.text(Text::Full).unwrap();
    // The fourth command was refused.
    assert!(full.contains(r#""refusals":[{"code":10,"reason":"EventNotFound","record":4}]"#), "{full}");
    assert!(full.ends_with("\"settings\":{\"base\":3,\"cap\":6,\"every\":64,\"horizon\":1048576,\"processors\":2}}\n"), "{full}");
    let page = desk.text(Text::Html).unwrap();
    assert!(page.starts_with("<!doctype html>") && page.contains(full.trim_end()));
    let tables: Vec<String> = [Text::Schedule, Text::Lags, Text::Misses, Text::Denials]
        .into_iter()
        .zip(["schedule", "lags", "misses", "denials"])
        .map(|(kind, title)| format!("{title}\n{}", desk.text(kind).unwrap()))
        .collect();
    assert_eq!(desk.text(Text::Tables).unwrap(), tables.concat());
}

#[test]
fn refusals_tell_why() {
    let mut desk = three_of_two_thirds();
    let refused = |refusal| Err(Error::Refused(refusal));
    assert_eq!(desk.insert(Event::join(0, 3, 2, 3)), refused(Refusal::JoinTwice));
    assert_eq!(desk.insert(Event::join(0, 4, 2, 7)), refused(Refusal::BadWeight(WeightFault::PeriodNotInBase)));
    assert_eq!(desk.edit(Change::Strike(9)), refused(Refusal::EventNotFound));
    desk.step().unwrap();
    let over = Change::Insert(Event::join(0, 4, 1, 3));
    let reason = DenialReason::OverCapacity;
    assert_eq!(desk.edit_strictly(over), refused(Refusal::WouldDeny { event: 4, reason }));
    assert_eq!(desk.edit(over), Ok(4));
    assert_eq!(desk.denials().unwrap().len(), 1);
    assert_eq!(desk.insert(Event::join(0, 3, 2, 3)).unwrap_err().to_string(), "refused: another event joins the task");
}

#[test]
fn a_window_is_missed_where_a_processor_goes_out_of_use() {
    let mut desk = three_of_two_thirds();
    assert!(desk.never_misses());
    desk.insert(Event::Limit { slot: 0, count: 1 }).unwrap();
    assert!(!desk.never_misses());
    assert_eq!(desk.fits(), Ok(Fit { first: None, overload: 0 }));
    desk.advance(2).unwrap();
    // Three tasks of 2 units ask for 6 in each slot, and one processor has 3.
    assert_eq!(desk.fits(), Ok(Fit { first: Some(0), overload: 6 }));
    // Of the three first windows, slots 0 and 1, one processor serves two.
    assert_eq!(desk.misses().unwrap(), [Miss { task: 3, sub: 1, deadline: 2, ran: None }]);
}

#[test]
fn settings_out_of_their_limits() {
    let usual = Settings::new(2, 4);
    let bad = [
        Settings { processors: 0, ..usual },
        Settings { processors: 65, ..usual },
        Settings { base: 0, ..usual },
        Settings { cap: (1 << 44) + 1, ..usual },
        Settings { every: 0, ..usual },
        Settings { every: 4_097, ..usual },
    ];
    for settings in bad {
        assert_eq!(Desk::open(settings).err(), Some(Error::BadSettings));
    }
    let mut wide = Desk::open(Settings { wide: true, ..usual }).unwrap();
    assert_eq!(wide.insert(Event::join(1 << 20, 1, 1, 4)), Ok(1));
}
