//! P11 of document 01, and the stored schedules: enough of every sort, and
//! those of one request and two halves against the decision over both.

use second::decision::ask_together;
use second::sites::acts::Act;
use second::sites::exchange::{text, Exchange};
use second::sites::opening::Opening;
use second::stored::schedules::{eleventh, schedules, Schedule};
use second::wac::parse;
use std::collections::HashSet;

#[test]
fn after_one_exchange_a_is_busy_and_after_two_both_rest() {
    let text = text(&eleventh());
    let lines: Vec<&str> = text.lines().collect();
    assert_eq!(lines.len(), 2);
    assert!(lines[0].starts_with("A 0 busy B "), "{}", lines[0]);
    assert_eq!(lines[1], "A 5000 rest B 5000 rest");
}

#[test]
fn a_name_handed_on_takes_many_exchanges() {
    for name in ["handed-on-a-first", "handed-on-b-first"] {
        let lines = named(name).text().lines().count();
        assert!(lines > 60, "{name} takes {lines} exchanges");
    }
}

/// The entry that rose is sent again after the receipt for its old minute.
#[test]
fn an_older_receipt_does_not_count() {
    let text = named("line-older-receipt").text();
    let notes = text.lines().filter(|line| line.ends_with(" NOTE 164"));
    assert_eq!(notes.count(), 3);
}

#[test]
fn every_sort_of_schedule_is_stored() {
    let schedules = schedules();
    assert!(schedules.len() >= 40);
    let names: HashSet<&String> = schedules.iter().map(|schedule| &schedule.name).collect();
    assert_eq!(names.len(), schedules.len());
    let texts: Vec<String> = schedules.iter().map(Schedule::text).collect();
    let lines: Vec<&str> = texts.iter().flat_map(|text| text.lines()).collect();
    assert!(lines.contains(&"REFUSED 9"));
    for side in ["A", "B"] {
        for number in 10..=15 {
            let refused = format!("REFUSED {side} {number} ");
            assert!(lines.iter().any(|line| line.starts_with(&refused)));
        }
    }
    for line in ["REFUSED A 20 0", "REFUSED A 21 0", "REFUSED A 22 0"] {
        assert!(lines.contains(&line));
    }
    for end in ["26", "27", "28", "RECEIPT", "TAKEN", "NONE", "NOTE 2575"] {
        assert!(lines.iter().any(|line| line.ends_with(end)));
    }
}

/// Where a schedule ends at rest without notes from outside, both sites show
/// what the certificates of both files together give.
#[test]
fn what_stored_schedules_end_with_is_the_joint_minute() {
    let mut seen = 0;
    for schedule in schedules() {
        let Some((opening, acts)) = Opening::read(&schedule.input) else {
            continue;
        };
        let Ok(mut exchange) = Exchange::open(&opening) else {
            continue;
        };
        if !run(&mut exchange, acts) || !exchange.both_rest() {
            continue;
        }
        let both = opening.files.iter().map(|file| parse(file));
        let both: Vec<_> = both.flat_map(|file| file.expect("lawful")).collect();
        let minute = ask_together(&both, opening.request).verdict.minute();
        let shown = format!("A {minute} rest B {minute} rest");
        assert_eq!(exchange.to_string(), shown, "{}", schedule.name);
        seen += 1;
    }
    assert!(seen >= 20, "only {seen} schedules end at rest");
}

/// Runs the acts; says whether none of them is a note from outside.
fn run(exchange: &mut Exchange, mut acts: &[u8]) -> bool {
    let mut own = true;
    while let Some((act, rest)) = Act::read(acts) {
        own &= !matches!(act, Act::Hand(..));
        exchange.act(act);
        acts = rest;
    }
    own
}

fn named(name: &str) -> Schedule {
    let mut all = schedules().into_iter();
    let found = all.find(|schedule| schedule.name == name);
    found.expect("the schedule is stored")
}
