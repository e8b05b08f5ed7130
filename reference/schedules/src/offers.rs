//! Schedules with a resilience degree, written by hand: first lines that have
//! one, and offers, answers and acceptances. The answers are the document's.

use crate::Schedule;
use crate::script::Script;

/// The schedules with a resilience degree.
pub fn schedules() -> Vec<Schedule> {
    let mut schedules = openings();
    schedules.extend([
        example(),
        no_degree(),
        of_three(),
        of_fifteen(),
        lost_and_repeated(),
        two_at_once(),
        below_its_own_number(),
        not_over_a_hole(),
        row_of_accepted(),
        more_of_accepted(),
        before_its_message(),
        broadcast_accepts(),
        accepted_beyond(),
        asleep(),
        own_waits_for_acceptance(),
        other_end(),
        everything_twice(),
        repaired(),
        history_full(),
        closing_round(),
    ]);
    schedules
}

/// First lines with a fourth field, and an event that is played if they open
/// a group.
fn openings() -> Vec<Schedule> {
    let first = |line: &str, expected: &str| Schedule {
        shows: format!("first line with r: {line}"),
        text: format!("{line}\nP\n").into(),
        expected: Some(expected.into()),
    };
    let mut schedules = Vec::new();
    for line in [
        "N 2 7 x",
        "N 2 7 -",
        "N 2 7 1 ",
        "N 2 7  1",
        "N 2 7 1 1",
        "N 2 7 +1",
        "N 2 7 0x1",
        "N 2 7 4294967296",
        "N 17 7 x",
    ] {
        schedules.push(first(line, "bad line\n"));
    }
    for line in ["N 0 7 0", "N 17 7 1", "N 17 7 17", "N 256 7 4294967295"] {
        schedules.push(first(line, "refused 18\n"));
    }
    for line in [
        "N 1 7 1",
        "N 2 7 2",
        "N 2 7 255",
        "N 2 7 256",
        "N 2 7 257",
        "N 2 7 4294967295",
        "N 16 7 16",
    ] {
        schedules.push(first(line, "refused 24\n"));
    }
    for (line, n) in [("N 1 7 0", 1), ("N 2 7 0001", 2), ("N 16 7 15", 16)] {
        let taken = " 0".repeat(n);
        schedules.push(first(
            line,
            &format!("1 sent 0\ntop 0 floor 0 taken{taken}\n"),
        ));
    }
    schedules
}

/// Member 0's message is offered, answered by members 1 to r and accepted, and
/// told to member 0, which takes it; the j-th of them is numbered j and has
/// the byte j. The indices of offer and acceptance.
fn own(s: &mut Script, r: usize, number: u32) -> (usize, usize) {
    let hex = format!("{number:02x}");
    let offer = s.number(0, &hex, number);
    s.leave(offer, 0, "kept");
    let mut accept = 0;
    for member in 1..=r {
        let confirm = s.confirm(offer, member, "kept");
        let answer = if member < r { "marked" } else { "accepted" };
        accept = s.hand(confirm, answer);
    }
    s.give(accept, 0, "noted");
    s.take(0, &format!("took {number} 0 {number} {hex} last"));
    (offer, accept)
}

fn example() -> Schedule {
    let mut s = Script::resilient(3, 7, 1);
    s.line("S 2 6162", "sent");
    s.line("Q 0", "numbered 1");
    s.line("M 1 1", "kept");
    s.line("M 1 2", "kept");
    s.line("T 1", "none");
    s.line("T 2", "none");
    s.line("Q 2", "accepted");
    s.line("M 3 1", "noted");
    s.line("T 1", "took 1 2 1 6162 last");
    s.line("T 2", "none");
    s.line("M 3 2", "noted");
    s.line("T 2", "took 1 2 1 6162 last");
    s.line("Q 2", "old");
    s.line("T 0", "none");
    s.line("M 1 0", "kept");
    s.line("T 0", "none");
    s.line("M 3 0", "noted");
    s.line("T 0", "took 1 2 1 6162 last");
    s.end(
        "r = 1: an offer, its answer, and its acceptance",
        "top 1 floor 0 taken 1 1 1",
    )
}

fn no_degree() -> Schedule {
    let mut s = Script::resilient(2, 7, 0);
    s.line("S 1 6162", "sent");
    s.line("Q 0", "numbered 1");
    s.line("M 1 1", "kept");
    s.line("T 1", "took 1 1 1 6162 last");
    s.line("T 0", "none");
    s.end(
        "r = 0, written: the document's schedule",
        "top 1 floor 0 taken 0 1",
    )
}

/// Nobody takes the message before three others have it.
fn of_three() -> Schedule {
    let mut s = Script::resilient(5, 7, 3);
    let offer = s.number(4, "61", 1);
    s.leave(offer, 0, "kept");
    s.leave(offer, 4, "kept");
    let take_all = |s: &mut Script| (0..5).for_each(|member| s.take(member, "none"));
    take_all(&mut s);
    let first = s.confirm(offer, 2, "kept");
    s.hand(first, "marked");
    take_all(&mut s);
    s.hand(first, "marked");
    let second = s.confirm(offer, 3, "kept");
    s.hand(second, "marked");
    let again = s.confirm(offer, 2, "old");
    s.hand(again, "marked");
    take_all(&mut s);
    let third = s.confirm(offer, 1, "kept");
    take_all(&mut s);
    let accept = s.hand(third, "accepted");
    take_all(&mut s);
    for member in 0..5 {
        s.give(accept, member, "noted");
        s.take(member, "took 1 4 1 61 last");
    }
    s.hand(third, "old");
    s.end(
        "r = 3: a message is not taken until members 1, 2 and 3 have it",
        "top 1 floor 0 taken 1 1 1 1 1",
    )
}

fn of_fifteen() -> Schedule {
    let mut s = Script::resilient(16, 7, 15);
    let (offer, accept) = own(&mut s, 15, 1);
    for member in 1..16 {
        s.give(accept, member, "noted");
        s.take(member, "took 1 0 1 01 last");
        s.confirm(offer, member, "old");
    }
    let second = s.number(15, "02", 2);
    for member in (1..16).rev() {
        let confirm = s.confirm(second, member, "kept");
        s.hand(confirm, if member > 1 { "marked" } else { "accepted" });
    }
    s.end(
        "n = 16, r = 15: all fifteen others have to answer",
        &format!("top 2 floor 0 taken{}", " 1".repeat(16)),
    )
}

/// Repeated requests and copies of an unaccepted message are offers.
fn lost_and_repeated() -> Schedule {
    let mut s = Script::resilient(3, 7, 1);
    let request = s.submit(2, "61");
    s.hand(request, "numbered 1");
    let again = s.repeat(2);
    s.hand(again, "again 1");
    s.copy(1);
    let offer = s.copy(1);
    s.leave(offer, 2, "kept");
    s.leave(offer, 2, "old");
    // The first answer is lost: another offer brings another.
    s.confirm(offer, 1, "kept");
    let offer = s.hand(request, "again 1");
    let confirm = s.confirm(offer, 1, "old");
    s.take(1, "none");
    let accept = s.hand(confirm, "accepted");
    // The acceptance is lost for member 2: a repeated request is a broadcast.
    let broadcast = s.hand(again, "again 1");
    s.give(broadcast, 2, "old");
    s.take(2, "took 1 2 1 61 last");
    s.give(accept, 1, "noted");
    s.take(1, "took 1 2 1 61 last");
    let copy = s.copy(1);
    s.give(copy, 0, "kept");
    s.take(0, "took 1 2 1 61 last");
    s.leave(offer, 0, "old");
    let late = s.confirm(offer, 1, "old");
    s.hand(late, "old");
    s.end(
        "an offer lost and repeated, its answer lost and repeated, its acceptance lost",
        "top 1 floor 0 taken 1 1 1",
    )
}

fn two_at_once() -> Schedule {
    let mut s = Script::resilient(3, 7, 1);
    let first = s.number(0, "61", 1);
    let second = s.number(2, "62", 2);
    s.confirm(first, 1, "kept");
    let confirm = s.confirm(second, 1, "kept");
    let accept = s.hand(confirm, "accepted");
    s.hand(confirm - 1, "old");
    s.give(accept, 1, "noted");
    s.take(1, "took 1 0 1 61 more");
    s.take(1, "took 2 2 1 62 last");
    s.give(accept, 0, "noted");
    s.leave(first, 0, "kept");
    s.leave(second, 0, "kept");
    s.take(0, "took 1 0 1 61 more");
    s.end(
        "an answer lost, the next accepts both",
        "top 2 floor 0 taken 1 2 0",
    )
}

/// An answer marks the numbers before its own, of which the lower ones have
/// enough marks first.
fn below_its_own_number() -> Schedule {
    let mut s = Script::resilient(4, 7, 2);
    let offers = [0, 1, 2].map(|member| s.number(member, "61", member as u32 + 1));
    for &offer in &offers[..2] {
        s.confirm(offer, 1, "kept");
    }
    let third = s.confirm(offers[2], 1, "kept");
    s.hand(third, "marked");
    let low = s.confirm(offers[0], 2, "kept");
    let accept = s.hand(low, "accepted");
    s.give(accept, 1, "noted");
    s.take(1, "took 1 0 1 61 last");
    s.take(1, "none");
    let middle = s.confirm(offers[1], 2, "kept");
    let accept = s.hand(middle, "accepted");
    s.hand(low, "old");
    s.give(accept, 1, "noted");
    s.take(1, "took 2 1 1 61 last");
    s.hand(third - 1, "old");
    // Number 4 gets its first mark from member 2, and 3 with it its second.
    let fourth = s.number(3, "61", 4);
    s.confirm(offers[2], 2, "kept");
    let high = s.confirm(fourth, 2, "kept");
    let accept = s.hand(high, "accepted");
    s.give(accept, 1, "noted");
    s.take(1, "took 3 2 1 61 last");
    let last = s.confirm(fourth, 1, "kept");
    s.take(1, "none");
    s.hand(high, "marked");
    s.hand(last, "accepted");
    s.end(
        "marks for a number and those before it: the highest with r of them is accepted",
        "top 4 floor 0 taken 0 3 0 0",
    )
}

fn not_over_a_hole() -> Schedule {
    let mut s = Script::resilient(3, 7, 1);
    let first = s.number(0, "61", 1);
    let second = s.number(2, "62", 2);
    let gap = s.give(second, 1, "keptgap");
    s.leave(second, 1, "old");
    s.leave(first, 0, "kept");
    s.take(0, "none");
    s.hand(gap, "wanted 1 1");
    let copy = s.copy(1);
    // With the hole filled it has both, and answers what comes.
    let confirm = s.confirm(copy, 1, "kept");
    let accept = s.hand(confirm, "accepted");
    s.give(accept, 0, "noted");
    s.take(0, "took 1 0 1 61 last");
    let confirm = s.confirm(second, 1, "old");
    s.hand(confirm, "accepted");
    s.end(
        "an offer behind a hole is not answered",
        "top 2 floor 0 taken 1 0 0",
    )
}

fn row_of_accepted() -> Schedule {
    let mut s = Script::resilient(2, 7, 1);
    let first = s.number(0, "61", 1);
    let second = s.number(1, "62", 2);
    s.confirm(first, 1, "kept");
    s.confirm(second, 1, "kept");
    s.leave(first, 0, "kept");
    // Both are held and neither is accepted: nothing is acknowledged.
    s.acknowledge(1);
    s.acknowledge(0);
    s.line("C 1", "sent");
    let confirm = s.confirm(first, 1, "old");
    let accept = s.hand(confirm, "accepted");
    s.acknowledge(1);
    s.acknowledge(0);
    s.line("C 1", "sent");
    s.give(accept, 1, "noted");
    s.give(accept, 0, "noted");
    s.acknowledge(1);
    let poll = s.poll();
    let gap = s.give(poll, 0, "gap");
    s.hand(gap, "wanted 2 2");
    s.line("C 1", "refused 17");
    s.line("C 2", "sent");
    s.give(poll, 1, "status");
    s.hand(gap, "wanted 2 2");
    s.end(
        "only accepted messages are acknowledged: floor stays below the offered ones",
        "top 2 floor 1 taken 0 0",
    )
}

fn more_of_accepted() -> Schedule {
    let mut s = Script::resilient(2, 7, 1);
    let first = s.number(0, "61", 1);
    let second = s.number(1, "62", 2);
    let one = s.confirm(first, 1, "kept");
    let two = s.confirm(second, 1, "kept");
    let accept = s.hand(one, "accepted");
    s.give(accept, 1, "noted");
    s.take(1, "took 1 0 1 61 last");
    s.take(1, "none");
    s.status(1);
    let accept = s.hand(two, "accepted");
    s.take(1, "none");
    s.give(accept, 1, "noted");
    s.take(1, "took 2 1 1 62 last");
    s.end(
        "more says of accepted messages alone",
        "top 2 floor 0 taken 0 2",
    )
}

fn before_its_message() -> Schedule {
    let mut s = Script::resilient(3, 7, 1);
    let first = s.number(0, "61", 1);
    let second = s.number(1, "62", 2);
    s.confirm(first, 1, "kept");
    let confirm = s.confirm(second, 1, "kept");
    let accept = s.hand(confirm, "accepted");
    s.give(accept, 2, "noted");
    s.take(2, "none");
    s.give(second, 2, "keptgap");
    s.take(2, "none");
    s.leave(first, 2, "kept");
    s.take(2, "took 1 0 1 61 more");
    s.take(2, "took 2 1 1 62 last");
    s.give(accept, 2, "noted");
    s.end(
        "an acceptance that comes before its messages",
        "top 2 floor 0 taken 0 0 2",
    )
}

fn broadcast_accepts() -> Schedule {
    let mut s = Script::resilient(4, 7, 1);
    let offers = [0, 1, 2].map(|member| s.number(member, "61", member as u32 + 1));
    for &offer in &offers[..2] {
        s.confirm(offer, 1, "kept");
    }
    let confirm = s.confirm(offers[2], 1, "kept");
    s.hand(confirm, "accepted");
    let copy = s.copy(3);
    // Member 3 holds all three, member 2 only the first, member 0 none.
    for &offer in &offers {
        s.leave(offer, 3, "kept");
    }
    s.take(3, "none");
    s.give(copy, 3, "old");
    s.take(3, "took 1 0 1 61 more");
    s.take(3, "took 2 1 1 61 more");
    s.take(3, "took 3 2 1 61 last");
    s.leave(offers[0], 2, "kept");
    s.take(2, "none");
    let gap = s.give(copy, 2, "keptgap");
    s.hand(gap, "wanted 2 2");
    s.take(2, "took 1 0 1 61 last");
    s.give(copy, 0, "keptgap");
    s.leave(offers[0], 0, "kept");
    s.take(0, "took 1 0 1 61 last");
    s.leave(offers[1], 0, "kept");
    s.take(0, "took 2 1 1 61 more");
    s.end(
        "a broadcast accepts all up to it, also what comes later",
        "top 3 floor 0 taken 2 0 1 3",
    )
}

/// A broadcast that is too far ahead to keep accepts what is held.
fn accepted_beyond() -> Schedule {
    let mut s = Script::resilient(3, 7, 1);
    let (first, accept) = own(&mut s, 1, 1);
    s.give(accept, 1, "noted");
    s.take(1, "took 1 0 1 01 last");
    for number in 2..=8 {
        own(&mut s, 1, number);
    }
    let (ninth, _) = own(&mut s, 1, 9);
    s.leave(first, 2, "kept");
    let gap = s.give(ninth, 2, "beyondgap");
    s.hand(gap, "wanted 2 8");
    s.take(2, "none");
    let copy = s.copy(9);
    let gap = s.give(copy, 2, "beyondgap");
    s.hand(gap, "wanted 2 8");
    s.take(2, "took 1 0 1 01 last");
    s.end(
        "a broadcast too far ahead to keep accepts what is held",
        "top 9 floor 0 taken 9 1 1",
    )
}

/// The expected member takes nothing: once its eight places are full nothing
/// more is accepted.
fn asleep() -> Schedule {
    let mut s = Script::resilient(2, 7, 1);
    let accepts: Vec<usize> = (1..=8).map(|number| own(&mut s, 1, number).1).collect();
    let ninth = s.number(0, "09", 9);
    let tenth = s.number(1, "0a", 10);
    for offer in [ninth, tenth] {
        s.leave(offer, 0, "kept");
        s.leave(offer, 1, "beyond");
    }
    s.take(0, "none");
    let again = s.repeat(0);
    s.hand(again, "again 9");
    let poll = s.poll();
    let status = s.give(poll, 1, "status");
    s.hand(status, "noted");
    // Awake: each take makes room for one more.
    s.give(accepts[7], 1, "noted");
    s.take(1, "took 1 0 1 01 more");
    let confirm = s.confirm(ninth, 1, "kept");
    s.leave(tenth, 1, "beyond");
    s.take(0, "none");
    let accept = s.hand(confirm, "accepted");
    s.give(accept, 0, "noted");
    s.take(0, "took 9 0 9 09 last");
    s.take(0, "none");
    s.take(1, "took 2 0 2 02 more");
    let confirm = s.confirm(tenth, 1, "kept");
    let accept = s.hand(confirm, "accepted");
    s.give(accept, 0, "noted");
    s.take(0, "took 10 1 1 0a last");
    s.end(
        "an expected member sleeps: eight are accepted, and the next once it takes",
        "top 10 floor 0 taken 10 2",
    )
}

/// The next message of a queue is requested once the one before it was taken,
/// and so accepted.
fn own_waits_for_acceptance() -> Schedule {
    let mut s = Script::resilient(2, 7, 1);
    let request = s.submit(1, "61");
    s.queue(1, "62", 2);
    let offer = s.hand(request, "numbered 1");
    let confirm = s.confirm(offer, 1, "kept");
    s.take(1, "none");
    let again = s.repeat(1);
    let offer = s.hand(again, "again 1");
    s.confirm(offer, 1, "old");
    let accept = s.hand(confirm, "accepted");
    s.take(1, "none");
    s.give(accept, 1, "noted");
    s.take(1, "took 1 1 1 61 last");
    let next = s.repeat(1);
    s.hand(next, "numbered 2");
    s.end(
        "a queued message waits until the one before it is accepted and taken",
        "top 2 floor 0 taken 0 1",
    )
}

fn other_end() -> Schedule {
    let mut s = Script::resilient(2, 7, 1);
    let offer = s.number(0, "61", 1);
    let confirm = s.confirm(offer, 1, "kept");
    let accept = s.hand(confirm, "accepted");
    s.hand(offer, "refused 8");
    s.hand(accept, "refused 8");
    s.give(confirm, 0, "refused 8");
    s.give(confirm, 1, "refused 8");
    s.give(accept, 2, "absent");
    s.end(
        "kinds 6, 7 and 8 handed to the other end are refused",
        "top 1 floor 0 taken 0 0",
    )
}

fn everything_twice() -> Schedule {
    let mut s = Script::resilient(3, 7, 1);
    for number in 1..=6u32 {
        let from = number as usize % 3;
        let count = number.div_ceil(3);
        let hex = format!("{number:02x}");
        let request = s.submit(from, &hex);
        let offer = s.hand(request, &format!("numbered {number}"));
        let again = s.hand(request, &format!("again {number}"));
        let confirm = s.confirm(offer, 1, "kept");
        let second = s.confirm(again, 1, "old");
        for member in [0, 2] {
            s.leave(offer, member, "kept");
            s.leave(again, member, "old");
        }
        let accept = s.hand(confirm, "accepted");
        s.hand(confirm, "old");
        s.hand(second, "old");
        for member in 0..3 {
            s.give(accept, member, "noted");
            s.give(accept, member, "noted");
            s.take(member, &format!("took {number} {from} {count} {hex} last"));
            s.take(member, "none");
            s.give(accept, member, "noted");
            let status = s.status(member);
            s.hand(status, "noted");
            s.hand(status, "noted");
        }
        s.hand(request, "old");
    }
    s.end(
        "every packet of an accepted message handed over twice",
        "top 6 floor 6 taken 6 6 6",
    )
}

/// What is offered is missed and copied as what is accepted.
fn repaired() -> Schedule {
    let mut s = Script::resilient(3, 7, 2);
    s.number(0, "01", 1);
    s.number(1, "02", 2);
    let third = s.number(2, "03", 3);
    let gap = s.give(third, 1, "keptgap");
    s.hand(gap, "wanted 1 2");
    let poll = s.poll();
    let gap = s.give(poll, 2, "gap");
    s.hand(gap, "wanted 1 3");
    let mut accept = 0;
    for (number, answer) in [(1, "kept"), (2, "kept"), (3, "old")] {
        let copy = s.copy(number);
        let one = s.confirm(copy, 1, answer);
        s.hand(one, "marked");
        let two = s.confirm(copy, 2, "kept");
        accept = s.hand(two, "accepted");
    }
    // Member 0 missed everything; its copies are broadcasts.
    let gap = s.give(poll, 0, "gap");
    s.hand(gap, "wanted 1 3");
    for (number, from) in [(1, 0), (2, 1), (3, 2)] {
        let copy = s.copy(number);
        s.give(copy, 0, "kept");
        s.take(0, &format!("took {number} {from} 1 0{number} last"));
    }
    for member in [1, 2] {
        s.give(accept, member, "noted");
        s.take(member, "took 1 0 1 01 more");
        s.take(member, "took 2 1 1 02 more");
        s.take(member, "took 3 2 1 03 last");
    }
    for member in 0..3 {
        let status = s.give(poll, member, "status");
        s.hand(status, "noted");
    }
    s.line("C 3", "refused 17");
    s.end(
        "lost offers, found by gap and poll, repaired by copies",
        "top 3 floor 3 taken 3 3 3",
    )
}

fn history_full() -> Schedule {
    let mut s = Script::resilient(2, 7, 1);
    let early = s.submit(1, "ee");
    for number in 1..=31 {
        let (_, accept) = own(&mut s, 1, number);
        s.give(accept, 1, "noted");
        s.take(1, &format!("took {number} 0 {number} {number:02x} last"));
    }
    let offer = s.number(0, "20", 32);
    let poll = s.hand(early, "full");
    let confirm = s.confirm(offer, 1, "kept");
    let accept = s.hand(confirm, "accepted");
    s.hand(early, "full");
    s.give(accept, 1, "noted");
    let status = s.give(poll, 1, "status");
    s.hand(status, "noted");
    s.hand(early, "numbered 33");
    s.line("C 31", "refused 17");
    s.end(
        "a history full of accepted messages and an offer; an acceptance frees nothing",
        "top 33 floor 31 taken 31 31",
    )
}

/// The round goes up to the last accepted message.
fn closing_round() -> Schedule {
    let mut s = Script::resilient(3, 7, 1);
    for number in 1..=3 {
        own(&mut s, 1, number);
    }
    let fourth = s.number(2, "04", 4);
    s.number(1, "05", 5);
    let confirm = s.confirm(fourth, 1, "kept");
    s.acknowledge(0);
    for (member, answer) in [(1, "old"), (2, "kept")] {
        for number in 1..=3 {
            let copy = s.copy(number);
            s.give(copy, member, answer);
            s.take(
                member,
                &format!("took {number} 0 {number} {number:02x} last"),
            );
        }
        s.acknowledge(member);
    }
    s.line("C 3", "refused 17");
    s.line("C 4", "sent");
    s.line("C 5", "sent");
    s.hand(confirm, "accepted");
    s.end(
        "a closing round goes up to the last accepted message and leaves the others",
        "top 5 floor 3 taken 3 3 3",
    )
}
