//! A plain scheduler, beside which `tools/measure` measures the program: it reads a script of version 1 or 2 and writes what
//! `pfair run` writes. It is written from docs/RULES.md with std alone, for use and not for records: ready subtasks in a heap,
//! the others by slot, the run kept; it has no checkpoints, so an edit of the past runs the plan anew, once for edits in a row.
//! Its tasks and the words of its replies are those of the plain scheduler of the Rust crate's tests. A script is not checked.
//! words.rs has what is planned and why it is refused, plan.rs the events held, run.rs the run slot by slot, desk.rs both.

// The files of those tests name what stands in `words` as the library's.
extern crate self as pfair;

mod desk;
mod plan;
#[allow(dead_code)]
#[path = "../../faces/rust/pfair/tests/records/mod.rs"]
mod records;
mod run;
#[allow(dead_code)]
#[path = "../../faces/rust/pfair/tests/plain/task.rs"]
mod task;
mod words;

use desk::Desk;
use plan::Settings;
use records::reply_line;
use run::{Pick, Run};
use std::io::{self, BufWriter, Read, Write};
pub use words::{Change, DenialReason, Event, Refusal, WeightFault};

fn number(field: &str) -> u64 {
    field.parse().expect("a number")
}

fn event_of(fields: &[&str]) -> Event {
    let at = |k: usize| number(fields[k]);
    match fields[0] {
        "join" => Event::Join { slot: at(1), task: at(2), cost: at(3), period: at(4), early: at(5) },
        "leave" => Event::Leave { slot: at(1), task: at(2) },
        "delay" => Event::Delay { slot: at(1), task: at(2), by: at(3) },
        "limit" => Event::Limit { slot: at(1), count: at(2) },
        other => panic!("no record: {other}"),
    }
}

fn change_of(fields: &[&str]) -> Change {
    match fields[0] {
        "alter" => Change::Alter(number(fields[1]), event_of(&fields[2..])),
        "strike" => Change::Strike(number(fields[1])),
        _ => Change::Insert(event_of(fields)),
    }
}

fn write_steps(out: &mut impl Write, desk: &mut Desk, count: u64) -> io::Result<()> {
    for _ in 0..count {
        match desk.step() {
            Ok((slot, row)) => {
                write!(out, "slot {slot}:")?;
                for (task, sub) in row {
                    match task {
                        0 => out.write_all(b" -")?,
                        _ => write!(out, " {task}/{sub}")?,
                    }
                }
                writeln!(out)?;
            }
            Err(refusal) => out.write_all(reply_line(Err(refusal)).as_bytes())?,
        }
    }
    Ok(())
}

/// Carries a record out, and writes its replies.
fn carry_out(out: &mut impl Write, desk: &mut Desk, record: &str) -> io::Result<()> {
    let fields: Vec<&str> = record.split(',').collect();
    match fields[..] {
        ["step"] => write_steps(out, desk, 1),
        ["step", count] => write_steps(out, desk, number(count)),
        ["strict", ..] => out.write_all(reply_line(desk.edit(&change_of(&fields[1..]), true)).as_bytes()),
        _ => out.write_all(reply_line(desk.edit(&change_of(&fields), false)).as_bytes()),
    }
}

fn write_schedule(out: &mut impl Write, picks: &[Pick], processors: usize) -> io::Result<()> {
    write!(out, "schedule\nslot")?;
    (0..processors).try_for_each(|processor| write!(out, ",p{processor}"))?;
    writeln!(out)?;
    for (slot, row) in picks.chunks(processors).enumerate() {
        write!(out, "{slot}")?;
        for (task, sub) in row {
            match task {
                0 => out.write_all(b",")?,
                _ => write!(out, ",{task}/{sub}")?,
            }
        }
        writeln!(out)?;
    }
    Ok(())
}

fn write_tables(out: &mut impl Write, run: &Run) -> io::Result<()> {
    writeln!(out, "lags\ntask,cost,period,received,lag")?;
    for (number, task) in run.tasks().filter(|(_, task)| task.is_inside()) {
        let (cost, period, received) = (task.cost, task.period, task.ran.len());
        writeln!(out, "{number},{cost},{period},{received},{}", task.lag(run.now))?;
    }
    let of_task = |(number, task): (u64, &task::Task)| {
        task.misses(run.now).into_iter().map(move |(sub, deadline, ran)| (deadline, number, sub, ran))
    };
    let mut misses: Vec<_> = run.tasks().flat_map(of_task).collect();
    misses.sort_unstable();
    writeln!(out, "misses\ntask,sub,deadline,ran")?;
    for (deadline, number, sub, ran) in misses {
        let ran = ran.map_or(String::new(), |slot| slot.to_string());
        writeln!(out, "{number},{sub},{deadline},{ran}")?;
    }
    writeln!(out, "denials\nslot,event,code,reason")?;
    for (slot, event, reason) in &run.denials {
        writeln!(out, "{slot},{event},{}", records::denial(*reason).replace(' ', ","))?;
    }
    Ok(())
}

fn main() -> io::Result<()> {
    let mut script = String::new();
    io::stdin().read_to_string(&mut script)?;
    let mut records = script.lines();
    let mut first: Vec<&str> = records.next().expect("settings").split(',').collect();
    let is_wide = first[0] == "pfair";
    if is_wide {
        first = records.next().expect("settings").split(',').collect();
    }
    let horizon = if is_wide { 1 << 22 } else { 1 << 20 };
    let processors = number(first[1]);
    let mut desk = Desk::new(Settings { processors, base: number(first[2]), cap: number(first[3]), horizon });
    let mut out = BufWriter::with_capacity(1 << 16, io::stdout().lock());
    writeln!(out, "ready")?;
    records.try_for_each(|record| carry_out(&mut out, &mut desk, record))?;
    let run = desk.run();
    write_schedule(&mut out, &run.picks, processors as usize)?;
    write_tables(&mut out, run)?;
    out.flush()
}
