//! Stored loads: what the program `load` prints of a few seeds, for groups
//! of several sizes.

use crate::Schedule;
use model::load;

/// Events after which 200 packets are not yet written, and after which they
/// are, so that the events end with `no space`.
const SHORT: u32 = 100;
const LONG: u32 = 600;

/// The stored loads: of each group four short ones and a long one.
pub fn schedules() -> Vec<Schedule> {
    let groups = [(1, 0), (2, 7), (4, 7), (16, u32::MAX)];
    let loads = [
        (0, SHORT),
        (1, SHORT),
        (42, SHORT),
        (u32::MAX, SHORT),
        (7, LONG),
    ];
    groups
        .iter()
        .flat_map(|&(n, group)| loads.map(|(seed, events)| stored(seed, n, group, events)))
        .collect()
}

fn stored(seed: u32, n: u32, group: u32, events: u32) -> Schedule {
    let ends = if events == LONG { ", no space" } else { "" };
    Schedule {
        shows: format!("load {seed} {n} {group} {events}{ends}"),
        text: load::text(seed, n, group, events).expect("an allowed opening"),
        expected: None,
    }
}
