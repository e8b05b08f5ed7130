//! The stored schedules with resets: the answers written by hand, what they
//! reach, and that without a reset they are those of `play`.

use model::world::{Run, World};
use schedules::resets::{answers, events, recovered, schedules};
use schedules::{all, played};
use std::collections::{BTreeMap, BTreeSet};

#[test]
fn answers_are_the_documents() {
    for (number, schedule) in schedules().iter().enumerate() {
        if let Some(expected) = &schedule.expected {
            let played = String::from_utf8(recovered(&schedule.text)).unwrap();
            assert_eq!(&played, expected, "{number:03}: {}", schedule.shows);
        }
    }
}

/// Each schedule is there for a reason of its own.
#[test]
fn none_is_there_twice() {
    let schedules = schedules();
    let texts: BTreeSet<&[u8]> = schedules.iter().map(|s| s.text.as_slice()).collect();
    assert_eq!(texts.len(), schedules.len());
    let shows: BTreeSet<&str> = schedules.iter().map(|s| s.shows.as_str()).collect();
    assert_eq!(shows.len(), schedules.len());
}

/// Every answer comes, and every refusal that packets of the world can have.
#[test]
fn everything_is_reached() {
    let mut counts: BTreeMap<String, usize> = BTreeMap::new();
    for schedule in schedules() {
        for answer in answers(&schedule.text) {
            *counts.entry(answer).or_default() += 1;
        }
    }
    for (answer, count) in &counts {
        println!("{count:6} {answer}");
    }
    for answer in [
        "absent",
        "accepted",
        "again",
        "bad",
        "gap",
        "kept",
        "keptgap",
        "marked",
        "no",
        "none",
        "noted",
        "numbered",
        "old",
        "queued",
        "refused 14",
        "refused 15",
        "refused 17",
        "refused 26",
        "refused 27",
        "refused 6",
        "refused 7",
        "refused 8",
        "sent",
        "status",
        "took",
        "wanted",
    ] {
        assert!(counts.contains_key(answer), "{answer}");
    }
}

/// Sound in every state, also where events go over the limits.
#[test]
fn terminals_stay_sound() {
    let mut makings = 0;
    for schedule in schedules() {
        let first = schedule.text.split(|&byte| byte == b'\n').next().unwrap();
        let Some((n, group, r)) = model::play::opening(first) else {
            continue;
        };
        let Ok(mut run) = Run::fresh(n, group, r) else {
            continue;
        };
        for event in events(&schedule.text) {
            run.step(&event);
            let World { terminals, .. } = &run.world;
            assert!(terminals.iter().all(|terminal| terminal.is_sound()));
            makings += usize::from(run.making.take().is_some());
        }
    }
    println!("{makings} makings");
    assert!(makings > 40);
}

/// The schedules of `play` print the same but for the last lines, once events
/// at the sequencer name terminal 0.
#[test]
fn without_a_reset_as_play() {
    let mut same = 0;
    for schedule in all() {
        let Ok(text) = str::from_utf8(&schedule.text) else {
            continue;
        };
        // Lines of another form may be of one here; longer ones may not be.
        let named = |line: &str| match line.split(' ').collect::<Vec<_>>()[..] {
            ["P"] => Some("P 0".to_string()),
            ["C", s] => Some(format!("C 0 {s}")),
            ["Q", k] => Some(format!("Q {k} 0")),
            ["P" | "C" | "Q" | "I" | "G", ..] => None,
            _ => (line.len() < 900).then(|| line.to_string()),
        };
        let Some(lines) = text.split('\n').map(named).collect::<Option<Vec<_>>>() else {
            continue;
        };
        let here = String::from_utf8(recovered(lines.join("\n").as_bytes())).unwrap();
        let there = String::from_utf8(played(&schedule.text)).unwrap();
        let is_event = |line: &&str| line.starts_with(|c: char| c.is_ascii_digit());
        let events = |text: &str| text.lines().filter(is_event).collect::<Vec<_>>().join("\n");
        assert_eq!(events(&here), events(&there), "{}", schedule.shows);
        same += 1;
    }
    println!("{same} the same");
    assert!(same > 280, "{same}");
}
