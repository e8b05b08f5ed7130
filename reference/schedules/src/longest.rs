//! Schedules that lead to the longest closing round, with the round where
//! there is space for its packets.

use crate::Schedule;
use crate::script::Script;
use model::limits::MEMBERS;

/// The number of the last message.
const TOP: usize = 40;
/// How many messages every member but 0 holds.
const HELD: usize = 8;

/// The list with its round for one to four members, and without it for most.
pub fn schedules() -> Vec<Schedule> {
    let mut schedules: Vec<Schedule> = (1..=4).map(with_its_round).collect();
    schedules.push(without_its_round(MEMBERS));
    schedules
}

/// What a take of a number hands out: the last n are one of each member, the
/// others member 0's.
fn took(n: usize, number: usize, more: &str) -> String {
    let (originator, count) = match number.checked_sub(TOP - n + 1) {
        None | Some(0) => (0, number),
        Some(originator) => (originator, 1),
    };
    format!("took {number} {originator} {count} - {more}")
}

/// Member 0's message is numbered, and it gets and takes it; the broadcast's
/// index.
fn round(s: &mut Script, n: usize, number: usize) -> usize {
    let broadcast = s.number(0, "-", number as u32);
    s.give(broadcast, 0, "kept");
    s.take(0, &took(n, number, "last"));
    broadcast
}

/// Every member but 0 holds eight and took none; the last n messages reached
/// nobody.
fn slowest(n: usize) -> Script {
    let mut s = Script::open(n as u32, 7);
    let broadcasts: Vec<usize> = (1..=HELD).map(|k| round(&mut s, n, k)).collect();
    for member in 1..n {
        for &broadcast in &broadcasts {
            s.give(broadcast, member, "kept");
        }
        s.acknowledge(member);
    }
    s.acknowledge(0);
    for number in HELD + 1..=TOP - n {
        round(&mut s, n, number);
    }
    for member in 0..n {
        s.number(member, "-", (TOP - n + 1 + member) as u32);
    }
    s
}

/// The closing round of one member.
fn close(s: &mut Script, n: usize, member: usize) {
    let end = if member == 0 { TOP - n } else { HELD };
    if member > 0 {
        for number in 1..=HELD {
            let more = if number < HELD { "more" } else { "last" };
            s.take(member, &took(n, number, more));
        }
    }
    for number in end + 1..=TOP {
        let copy = s.copy(number as u32);
        s.give(copy, member, "kept");
        s.take(member, &took(n, number, "last"));
    }
    s.acknowledge(member);
}

fn with_its_round(n: usize) -> Schedule {
    let mut s = slowest(n);
    for member in 0..n {
        close(&mut s, n, member);
    }
    let events = 109 * n - 104;
    s.end(
        &format!("n = {n}: the longest closing round, {events} events"),
        &format!("top 40 floor 40 taken{}", " 40".repeat(n)),
    )
}

fn without_its_round(n: usize) -> Schedule {
    let events = 109 * n - 104;
    slowest(n).end(
        &format!("n = {n}: what a closing round of {events} events has to follow"),
        &format!("top 40 floor 8 taken {}{}", TOP - n, " 0".repeat(n - 1)),
    )
}
