//! Random schedules: what their takes feed to the work lists, and what those
//! with a resilience degree reach.

use model::group::{Group, Lists};
use model::jobs::{Fed, GIVEN, WAITING};
use model::limits::JOB;
use model::play::{self, PACKETS};
use schedules::coverage::{self, Counts, REACHABLE};
use schedules::random::{schedule, with_offers};
use std::collections::BTreeMap;

/// The lists that a schedule leaves; each answer of a list is counted.
fn lists(text: &[u8], counts: &mut BTreeMap<String, usize>) -> Lists {
    let mut lines = text.split(|&byte| byte == b'\n');
    let (n, number, resilience) = lines.next().and_then(play::opening).unwrap();
    let mut group = Group::resilient(n, number, resilience).unwrap();
    let mut lists = Lists::empty(n as usize);
    for event in lines.map_while(play::event) {
        if group.packets.len() == PACKETS {
            break;
        }
        let outcome = group.step(&event);
        if let Some(answer) = lists.follow(&event, outcome.as_ref()) {
            let name = match answer {
                Fed::Given(0) => "given the first".into(),
                Fed::Given(_) => "given one behind others".into(),
                Fed::Refused(refusal) => format!("refused {}", refusal.number()),
                Fed::Added => "added".into(),
                Fed::None => "none".into(),
            };
            *counts.entry(name).or_default() += 1;
        }
    }
    lists
}

/// A fuzz run that compares what `inspect` prints meets lists with jobs.
#[test]
fn lists_are_fed() {
    let mut counts = BTreeMap::new();
    for seed in 1..=300 {
        let lists = lists(&schedule(seed, 300), &mut counts);
        let all: Vec<_> = lists.iter().collect();
        for job in all.iter().flat_map(|list| list.jobs()) {
            for (name, holds) in [
                ("a waiting job", job.state == WAITING),
                ("a given job", job.state == GIVEN),
                ("a holder of two digits", job.member > 9),
                ("an empty job", job.length == 0),
                ("a job of the most bytes", job.length as usize == JOB),
            ] {
                *counts.entry(name.into()).or_default() += usize::from(holds);
            }
        }
        let differ = all.windows(2).any(|pair| pair[0] != pair[1]);
        *counts.entry("lists that differ".into()).or_default() += usize::from(differ);
    }
    assert_eq!(counts.len(), 11, "{counts:?}");
    assert!(counts.values().all(|&times| times > 0), "{counts:?}");
}

/// A fuzz run with a resilience degree meets every answer to kinds 6, 7 and 8.
#[test]
fn offers_are_met() {
    let mut counts = Counts::new();
    for seed in 1..=400 {
        coverage::count(&with_offers(seed, 300), &mut counts);
    }
    let about_offers = |what: &&str| {
        let kinds = ["offer:", "confirm:", "accept packet:"];
        kinds.iter().any(|kind| what.starts_with(kind)) || what.contains("offer")
    };
    let missed: Vec<&str> = REACHABLE
        .into_iter()
        .filter(about_offers)
        .filter(|what| !counts.contains_key(what))
        .collect();
    assert_eq!(missed, Vec::<&str>::new(), "{counts:?}");
}
