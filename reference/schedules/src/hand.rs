//! Schedules written by hand: every answer, every edge, every wrong turn
//! that `play` can show. The answers are the document's.

use crate::Schedule;
use crate::script::Script;
use model::limits::PAYLOAD;
use model::play::PACKETS;

/// The schedules about what the ends and the group do.
pub fn schedules() -> Vec<Schedule> {
    let mut schedules = vec![
        example(),
        alone(),
        alone_for_long(),
        sixteen(),
        payloads(),
        payloads_over_payloads(),
        every_form(),
        full_and_freed(),
        freed_by_its_own_request(),
        full_is_noted(),
        window_filled_from_below(),
        window_filled_from_above(),
        beyond_a_hole(),
        polls_and_holes(),
        window_moves_on(),
        taken_numbers_are_old(),
        asleep(),
        asleep_for_long(),
        row_in_every_packet(),
        row_up_to_a_hole(),
        row_jumps(),
        own_purged_while_waiting(),
        repaired(),
        repeated_requests(),
        repeated_with_todays_number(),
        late_acknowledgements(),
        smallest_of_six(),
        not_to_the_senders_own(),
        gaps(),
        not_over_a_gap(),
        own_and_others(),
        refused_submits(),
        typing_ahead(),
        queue_waits_for_the_take(),
        queues_of_two(),
        queue_goes_round(),
        absent(),
        other_end(),
        copies(),
        everything_twice(),
        history_goes_round(),
        closing_round(),
        closing_round_takes_the_row(),
        lost_requests(),
        events_without_packets(),
        up_to_the_space(),
    ];
    schedules.extend(no_space());
    schedules
}

fn example() -> Schedule {
    let mut s = Script::open(2, 7);
    s.line("S 1 6162", "sent");
    s.line("Q 0", "numbered 1");
    s.line("M 1 1", "kept");
    s.line("T 1", "took 1 1 1 6162 last");
    s.line("T 0", "none");
    s.end("the document's schedule", "top 1 floor 0 taken 0 1")
}

fn alone() -> Schedule {
    let mut s = Script::open(1, 7);
    s.take(0, "none");
    let request = s.submit(0, "-");
    let broadcast = s.hand(request, "numbered 1");
    s.give(broadcast, 0, "kept");
    s.take(0, "took 1 0 1 - last");
    s.take(0, "none");
    let status = s.status(0);
    s.hand(status, "noted");
    s.line("C 1", "refused 17");
    s.hand(request, "old");
    s.give(broadcast, 0, "old");
    let poll = s.poll();
    s.give(poll, 0, "status");
    s.end(
        "n = 1: numbered, kept, taken, and its status empties the history",
        "top 1 floor 1 taken 1",
    )
}

/// With one member each request's own acknowledgement empties the history.
fn alone_for_long() -> Schedule {
    let mut s = Script::open(1, 4_294_967_295);
    for number in 1..=70 {
        s.own(number);
        if number >= 2 {
            s.line(&format!("C {}", number - 1), "refused 17");
        }
    }
    s.line("C 70", "sent");
    s.end("n = 1, seventy messages", "top 70 floor 69 taken 70")
}

fn sixteen() -> Schedule {
    let mut s = Script::open(16, 0);
    let mut broadcasts = Vec::new();
    for member in 0..16 {
        let number = member as u32 + 1;
        broadcasts.push(s.number(member, &format!("{member:02x}"), number));
    }
    for member in 0..16 {
        for &broadcast in &broadcasts[..8] {
            s.give(broadcast, member, "kept");
        }
        s.give(broadcasts[8], member, "beyond");
        for from in 0..8 {
            let more = if from < 7 { "more" } else { "last" };
            let number = from + 1;
            s.take(member, &format!("took {number} {from} 1 {from:02x} {more}"));
        }
    }
    for member in 0..15 {
        s.acknowledge(member);
    }
    s.line("C 1", "sent");
    s.acknowledge(15);
    s.line("C 8", "refused 17");
    s.line("C 9", "sent");
    s.line("T 16", "absent");
    let taken = " 8".repeat(16);
    s.end(
        "n = 16: one message of each, eight taken by all, floor with the last",
        &format!("top 16 floor 8 taken{taken}"),
    )
}

fn payloads() -> Schedule {
    let mut s = Script::open(2, 7);
    let longest = "c3".repeat(240);
    let first = s.number(0, "-", 1);
    let second = s.number(1, &longest, 2);
    for member in 0..2 {
        s.give(first, member, "kept");
        s.give(second, member, "kept");
        s.take(member, "took 1 0 1 - more");
        s.take(member, &format!("took 2 1 1 {longest} last"));
    }
    for length in [241, 498] {
        s.line(&format!("S 0 {}", "c3".repeat(length)), "refused 13");
    }
    let third = s.number(0, "00", 3);
    let fourth = s.number(1, "ff00", 4);
    s.give(third, 1, "kept");
    s.give(fourth, 1, "kept");
    s.take(1, "took 3 0 2 00 more");
    s.take(1, "took 4 1 2 ff00 last");
    let fifth = s.number(1, "0123456789abcdef", 5);
    s.give(fifth, 1, "kept");
    s.take(1, "took 5 1 3 0123456789abcdef last");
    for (number, length) in (6..).zip([96, 97, 239]) {
        let hex = "5a".repeat(length);
        let broadcast = s.number(1, &hex, number);
        s.give(broadcast, 1, "kept");
        s.take(1, &format!("took {number} 1 {} {hex} last", number - 2));
    }
    s.end(
        "payloads of 0, 1, 2, 8, 96, 97, 239, 240, 241 and 498 bytes",
        "top 8 floor 2 taken 2 8",
    )
}

/// Each number's payload lies where that of 32 numbers before lay at the
/// sequencer, and 8 before at a member: an empty one where the longest was, a
/// short one where an empty one was, the longest where a short one was.
fn payloads_over_payloads() -> Schedule {
    let mut s = Script::open(2, 7);
    let payloads = ["c3".repeat(PAYLOAD), "5a".into(), "-".into()];
    for number in 1..=40 {
        let hex = &payloads[number as usize % payloads.len()];
        let took = format!("took {number} 0 {number} {hex} last");
        let broadcast = s.number(0, hex, number);
        s.give(broadcast, 0, "kept");
        s.take(0, &took);
        // Member 1 gets what the sequencer keeps, and not the broadcast.
        let copy = s.copy(number);
        s.give(copy, 1, "kept");
        s.take(1, &took);
        if number % 16 == 0 {
            s.acknowledge(1);
        }
    }
    s.end(
        "payloads of 0, 1 and the most bytes, each where another lay",
        "top 40 floor 32 taken 40 40",
    )
}

fn every_form() -> Schedule {
    let mut s = Script::open(2, 7);
    s.line("S 0 6162", "sent");
    s.line("Q 0", "numbered 1");
    s.line("Q 0", "again 1");
    s.line("M 1 0", "kept");
    s.line("M 1 0", "old");
    s.line("T 0", "took 1 0 1 6162 last");
    s.line("T 0", "none");
    s.line("A 0", "sent");
    s.line("Q 3", "noted");
    s.line("S 0 -", "sent");
    s.line("S 0 63", "queued 3");
    s.line("Q 4", "numbered 2");
    s.line("M 5 1", "keptgap");
    s.line("Q 6", "wanted 1 1");
    s.line("C 1", "sent");
    s.line("M 7 1", "kept");
    s.line("T 1", "took 1 0 1 6162 more");
    s.line("P", "sent");
    s.line("M 8 1", "status");
    s.line("M 8 0", "gap");
    s.line("Q 10", "wanted 2 2");
    s.line("Q 9", "noted");
    s.line("Q 0", "old");
    s.line("C 1", "refused 17");
    s.line("T 1", "took 2 0 2 - last");
    s.line("A 1", "sent");
    s.line("Q 11", "noted");
    s.line("R 0", "sent");
    s.line("M 5 0", "kept");
    s.line("T 0", "took 2 0 2 - last");
    s.line("R 0", "sent");
    s.line("R 1", "refused 15");
    s.line("Q 12", "again 2");
    s.line("M 0 0", "refused 8");
    s.line("Q 1", "refused 8");
    s.line("M 15 0", "absent");
    s.end(
        "nearly every answer in one schedule",
        "top 2 floor 1 taken 2 2",
    )
}

fn full_and_freed() -> Schedule {
    let mut s = Script::open(2, 7);
    let broadcasts: Vec<usize> = (1..=32).map(|number| s.own(number)).collect();
    let request = s.submit(0, "33");
    let poll = s.hand(request, "full");
    s.hand(request, "full");
    s.line("C 1", "sent");
    s.line("C 32", "sent");
    s.line("C 33", "refused 17");
    let gap = s.give(poll, 1, "gap");
    s.hand(gap, "wanted 1 8");
    s.hand(request, "full");
    s.give(broadcasts[8], 1, "beyondgap");
    for &broadcast in &broadcasts[..8] {
        s.give(broadcast, 1, "kept");
    }
    s.give(broadcasts[8], 1, "beyond");
    s.give(broadcasts[31], 1, "beyond");
    s.give(poll, 1, "status");
    for number in 1..=8 {
        let more = if number < 8 { "more" } else { "last" };
        s.take(1, &format!("took {number} 0 {number} {number:02x} {more}"));
    }
    // Taking alone frees nothing: the sequencer has not heard of it.
    s.hand(request, "full");
    s.acknowledge(1);
    s.line("C 8", "refused 17");
    s.line("C 9", "sent");
    s.hand(request, "numbered 33");
    s.hand(request, "again 33");
    s.end(
        "the 32nd above floor is numbered, the next full; freed by a status",
        "top 33 floor 8 taken 32 8",
    )
}

fn freed_by_its_own_request() -> Schedule {
    let mut s = Script::open(2, 7);
    let broadcasts: Vec<usize> = (1..=32).map(|number| s.own(number)).collect();
    let early = s.submit(1, "ee");
    s.hand(early, "full");
    s.give(broadcasts[0], 1, "kept");
    s.take(1, "took 1 0 1 01 last");
    let request = s.repeat(1);
    s.hand(early, "full");
    s.hand(request, "numbered 33");
    s.hand(early, "again 33");
    let request = s.submit(0, "34");
    s.hand(request, "full");
    s.end(
        "a request that finds 32 kept and whose own A frees one is numbered",
        "top 33 floor 1 taken 32 1",
    )
}

/// A full request notes its acknowledgement; that shows when the last
/// member's follows.
fn full_is_noted() -> Schedule {
    let mut s = Script::open(3, 7);
    let broadcasts: Vec<usize> = (1..=32).map(|number| s.own(number)).collect();
    let take = |s: &mut Script, member, number: usize| {
        s.give(broadcasts[number - 1], member, "kept");
        s.take(
            member,
            &format!("took {number} 0 {number} {number:02x} last"),
        );
    };
    (1..=5).for_each(|number| take(&mut s, 1, number));
    let request = s.submit(1, "33");
    s.hand(request, "full");
    (1..=3).for_each(|number| take(&mut s, 2, number));
    s.acknowledge(2);
    s.line("C 3", "refused 17");
    s.line("C 4", "sent");
    s.end(
        "full, but its acknowledgement is noted",
        "top 32 floor 3 taken 32 5 3",
    )
}

fn window_filled_from_below() -> Schedule {
    let mut s = Script::open(3, 9);
    let broadcasts: Vec<usize> = (1..=10).map(|number| s.own(number)).collect();
    for &broadcast in &broadcasts[..7] {
        s.give(broadcast, 1, "kept");
    }
    s.give(broadcasts[7], 1, "kept");
    s.give(broadcasts[8], 1, "beyond");
    s.give(broadcasts[9], 1, "beyond");
    for &broadcast in &broadcasts[..8] {
        s.give(broadcast, 1, "old");
    }
    s.take(1, "took 1 0 1 01 more");
    s.give(broadcasts[8], 1, "kept");
    s.give(broadcasts[9], 1, "beyond");
    s.give(broadcasts[0], 1, "old");
    for number in 2..=9 {
        let more = if number < 9 { "more" } else { "last" };
        s.take(1, &format!("took {number} 0 {number} {number:02x} {more}"));
    }
    s.take(1, "none");
    s.give(broadcasts[9], 1, "kept");
    s.take(1, "took 10 0 10 0a last");
    s.end(
        "t+1 to t+7 held: t+8 is kept, t+9 beyond",
        "top 10 floor 0 taken 10 10 0",
    )
}

fn window_filled_from_above() -> Schedule {
    let mut s = Script::open(3, 9);
    let broadcasts: Vec<usize> = (1..=9).map(|number| s.own(number)).collect();
    let gap = s.give(broadcasts[8], 1, "beyondgap");
    s.hand(gap, "wanted 1 8");
    for number in (2..=8).rev() {
        let gap = s.give(broadcasts[number - 1], 1, "keptgap");
        s.hand(gap, &format!("wanted 1 {}", number - 1));
    }
    s.take(1, "none");
    s.give(broadcasts[0], 1, "kept");
    s.give(broadcasts[8], 1, "beyond");
    for number in 1..=8 {
        let more = if number < 8 { "more" } else { "last" };
        s.take(1, &format!("took {number} 0 {number} {number:02x} {more}"));
    }
    s.end(
        "nothing held: t+9 is beyondgap, t+8 down to t+2 keptgap",
        "top 9 floor 0 taken 9 8 0",
    )
}

fn beyond_a_hole() -> Schedule {
    let mut s = Script::open(2, 9);
    let broadcasts: Vec<usize> = (1..=12).map(|number| s.own(number)).collect();
    for number in [1, 2] {
        s.give(broadcasts[number - 1], 1, "kept");
    }
    let gap = s.give(broadcasts[4], 1, "keptgap");
    s.hand(gap, "wanted 3 4");
    let gap = s.give(broadcasts[11], 1, "beyondgap");
    s.hand(gap, "wanted 3 8");
    let gap = s.give(broadcasts[7], 1, "keptgap");
    s.hand(gap, "wanted 3 7");
    let gap = s.give(broadcasts[2], 1, "kept");
    s.hand(gap - 1, "wanted 3 7");
    let gap = s.give(broadcasts[8], 1, "beyondgap");
    s.hand(gap, "wanted 4 8");
    let gap = s.give(broadcasts[5], 1, "keptgap");
    s.hand(gap, "wanted 4 5");
    s.give(broadcasts[3], 1, "kept");
    let gap = s.give(broadcasts[9], 1, "beyondgap");
    s.hand(gap, "wanted 7 8");
    s.give(broadcasts[6], 1, "kept");
    s.give(broadcasts[9], 1, "beyond");
    s.end(
        "holes: the gap starts at the lowest missing number",
        "top 12 floor 6 taken 12 0",
    )
}

fn polls_and_holes() -> Schedule {
    let mut s = Script::open(2, 9);
    let none = s.poll();
    s.give(none, 0, "status");
    s.give(none, 1, "status");
    let mut broadcasts: Vec<usize> = (1..=3).map(|number| s.own(number)).collect();
    let three = s.poll();
    broadcasts.extend((4..=11).map(|number| s.own(number)));
    let eleven = s.poll();
    let gap = s.give(three, 1, "gap");
    s.hand(gap, "wanted 1 3");
    let gap = s.give(eleven, 1, "gap");
    s.hand(gap, "wanted 1 8");
    s.give(broadcasts[1], 1, "keptgap");
    let gap = s.give(three, 1, "gap");
    s.hand(gap, "wanted 1 3");
    s.give(broadcasts[0], 1, "kept");
    let gap = s.give(three, 1, "gap");
    s.hand(gap, "wanted 3 3");
    let gap = s.give(eleven, 1, "gap");
    s.hand(gap, "wanted 3 8");
    s.give(none, 1, "status");
    s.give(broadcasts[2], 1, "kept");
    s.give(three, 1, "status");
    for number in 4..=8 {
        s.give(broadcasts[number - 1], 1, "kept");
    }
    // All eight are held: nothing up to t+8 is missing.
    s.give(eleven, 1, "status");
    s.take(1, "took 1 0 1 01 more");
    let gap = s.give(eleven, 1, "gap");
    s.hand(gap, "wanted 9 9");
    s.give(three, 1, "status");
    s.give(eleven, 0, "status");
    s.give(three, 0, "status");
    s.end(
        "polls: gap up to the smaller of top and t+8, else status",
        "top 11 floor 8 taken 11 1",
    )
}

/// Every place of the window is used at every distance.
fn window_moves_on() -> Schedule {
    let mut s = Script::open(2, 9);
    let broadcasts: Vec<usize> = (1..=30).map(|number| s.own(number)).collect();
    for first in 1..=22 {
        // The furthest first, then the next one, then take it.
        let answer = "keptgap";
        let furthest = first + 7;
        if first == 1 || first % 5 == 0 {
            s.give(broadcasts[furthest - 1], 1, answer);
        }
        let next = broadcasts[first - 1];
        let old = first >= 8 && ((first - 7) % 5 == 0 || first == 8);
        s.give(next, 1, if old { "old" } else { "kept" });
        let following = first + 1;
        let more = following >= 8 && ((following - 7) % 5 == 0 || following == 8);
        let more = if more { "more" } else { "last" };
        s.take(1, &format!("took {first} 0 {first} {first:02x} {more}"));
    }
    s.end(
        "the window moves over its places, t+8 held ahead",
        "top 30 floor 0 taken 30 22",
    )
}

fn taken_numbers_are_old() -> Schedule {
    let mut s = Script::open(2, 9);
    let broadcasts: Vec<usize> = (1..=9).map(|number| s.own(number)).collect();
    for &broadcast in &broadcasts {
        s.give(broadcast, 0, "old");
        s.give(broadcast, 0, "old");
    }
    // Number 9 lies where 1 lay: that place is free again.
    s.give(broadcasts[0], 1, "kept");
    s.take(1, "took 1 0 1 01 last");
    s.give(broadcasts[8], 1, "keptgap");
    s.give(broadcasts[0], 1, "old");
    s.give(broadcasts[8], 1, "old");
    s.take(1, "none");
    s.end(
        "taken numbers are old, also where their place is used again",
        "top 9 floor 0 taken 9 1",
    )
}

/// A bench receives everything and nobody touches its screen: floor follows
/// what it holds.
fn asleep() -> Schedule {
    let mut s = Script::open(2, 7);
    for number in 1..=8 {
        let broadcast = s.own(number);
        s.give(broadcast, 1, "kept");
        s.acknowledge(1);
        s.acknowledge(0);
        s.line(&format!("C {number}"), "refused 17");
    }
    for number in 9..=36 {
        let broadcast = s.own(number);
        s.give(broadcast, 1, "beyond");
    }
    s.line("C 9", "sent");
    s.end(
        "a bench takes nothing: what it holds leaves the history, which does not fill",
        "top 36 floor 8 taken 36 0",
    )
}

/// The bench's eight places and the history's 32 are all used.
fn asleep_for_long() -> Schedule {
    let mut s = Script::open(2, 7);
    let mut broadcasts: Vec<usize> = (1..=8).map(|number| s.own(number)).collect();
    for &broadcast in &broadcasts {
        s.give(broadcast, 1, "kept");
    }
    s.acknowledge(1);
    broadcasts.extend((9..=40).map(|number| s.own(number)));
    let request = s.submit(0, "29");
    let poll = s.hand(request, "full");
    s.give(broadcasts[8], 1, "beyond");
    let status = s.give(poll, 1, "status");
    s.hand(status, "noted");
    s.hand(request, "full");
    // Awake: the row is taken, and the next one held in its turn.
    for number in 1..=8 {
        let more = if number < 8 { "more" } else { "last" };
        s.take(1, &format!("took {number} 0 {number} {number:02x} {more}"));
    }
    s.hand(request, "full");
    s.give(broadcasts[8], 1, "kept");
    s.acknowledge(1);
    s.hand(request, "numbered 41");
    s.end(
        "a bench takes nothing: 40 are numbered, the next full; freed once it takes and holds one more",
        "top 41 floor 9 taken 40 8",
    )
}

fn row_in_every_packet() -> Schedule {
    let mut s = Script::open(2, 7);
    let broadcasts: Vec<usize> = (1..=4).map(|number| s.own(number)).collect();
    s.acknowledge(0);
    s.give(broadcasts[0], 1, "kept");
    s.acknowledge(1);
    s.line("C 1", "refused 17");
    s.line("C 2", "sent");
    s.give(broadcasts[1], 1, "kept");
    let fifth = s.number(1, "05", 5);
    s.line("C 2", "refused 17");
    s.line("C 3", "sent");
    s.give(broadcasts[2], 1, "kept");
    let gap = s.give(fifth, 1, "keptgap");
    s.hand(gap, "wanted 4 4");
    s.line("C 3", "refused 17");
    let poll = s.poll();
    s.give(broadcasts[3], 1, "kept");
    let status = s.give(poll, 1, "status");
    s.hand(status, "noted");
    s.line("C 4", "refused 17");
    s.line("C 5", "sent");
    s.end(
        "status, request, gap and a poll's status acknowledge what is held; nothing was taken",
        "top 5 floor 4 taken 4 0",
    )
}

fn row_up_to_a_hole() -> Schedule {
    let mut s = Script::open(2, 7);
    let broadcasts: Vec<usize> = (1..=4).map(|number| s.own(number)).collect();
    s.acknowledge(0);
    s.give(broadcasts[0], 1, "kept");
    s.give(broadcasts[1], 1, "kept");
    s.give(broadcasts[3], 1, "keptgap");
    s.acknowledge(1);
    // 4 is held behind the hole: neither it nor 3 may leave the history.
    s.line("C 2", "refused 17");
    s.line("C 4", "sent");
    let copy = s.copy(3);
    s.take(1, "took 1 0 1 01 more");
    s.take(1, "took 2 0 2 02 last");
    s.take(1, "none");
    s.acknowledge(1);
    s.line("C 3", "sent");
    s.give(copy, 1, "kept");
    s.acknowledge(1);
    s.line("C 4", "refused 17");
    s.end(
        "with 1, 2 and 4 held, 2 is acknowledged; what is held behind a hole stays in the history",
        "top 4 floor 4 taken 4 2",
    )
}

fn row_jumps() -> Schedule {
    let mut s = Script::open(2, 7);
    let broadcasts: Vec<usize> = (1..=5).map(|number| s.own(number)).collect();
    s.acknowledge(0);
    for &broadcast in &broadcasts[1..] {
        s.give(broadcast, 1, "keptgap");
    }
    s.acknowledge(1);
    s.line("C 1", "sent");
    s.give(broadcasts[0], 1, "kept");
    s.acknowledge(1);
    s.line("C 5", "refused 17");
    s.end(
        "a hole is filled: what is acknowledged jumps from 0 to 5",
        "top 5 floor 5 taken 5 0",
    )
}

fn own_purged_while_waiting() -> Schedule {
    let mut s = Script::open(2, 7);
    let request = s.submit(1, "aa");
    let broadcast = s.hand(request, "numbered 1");
    s.hand(request, "again 1");
    for member in 0..2 {
        s.give(broadcast, member, "kept");
        s.acknowledge(member);
    }
    s.line("C 1", "refused 17");
    // Its message waits until it is taken, and the next waits behind it.
    s.queue(1, "bb", 2);
    let again = s.repeat(1);
    s.hand(again, "old");
    s.hand(request, "old");
    s.take(1, "took 1 1 1 aa last");
    let next = s.repeat(1);
    s.hand(next, "numbered 2");
    s.take(0, "took 1 1 1 aa last");
    s.end(
        "a message that nobody took is purged while its originator waits: its repeat is old",
        "top 2 floor 1 taken 1 1",
    )
}

fn repaired() -> Schedule {
    let mut s = Script::open(3, 77);
    let first = s.number(0, "01", 1);
    s.number(1, "02", 2);
    let third = s.number(2, "03", 3);
    // Member 0 sees the last one alone, member 2 the first, member 1 none.
    let gap = s.give(third, 0, "keptgap");
    s.hand(gap, "wanted 1 2");
    s.give(first, 2, "kept");
    s.take(2, "took 1 0 1 01 last");
    let poll = s.poll();
    for (member, missing) in [(1, 1..=3), (2, 2..=3)] {
        let gap = s.give(poll, member, "gap");
        s.hand(gap, &format!("wanted {} 3", missing.start()));
        for number in missing {
            let copy = s.copy(number);
            s.give(copy, member, "kept");
            let from = number - 1;
            s.take(member, &format!("took {number} {from} 1 0{number} last"));
        }
    }
    for number in 1..=2 {
        let copy = s.copy(number);
        s.give(copy, 0, "kept");
    }
    s.take(0, "took 1 0 1 01 more");
    s.take(0, "took 2 1 1 02 more");
    s.take(0, "took 3 2 1 03 last");
    for member in 0..3 {
        let status = s.give(poll, member, "status");
        s.hand(status, "noted");
    }
    s.line("C 3", "refused 17");
    s.end(
        "lost broadcasts, found by gap and poll, repaired by copies",
        "top 3 floor 3 taken 3 3 3",
    )
}

fn repeated_requests() -> Schedule {
    let mut s = Script::open(2, 7);
    let first = s.submit(0, "01");
    let broadcast = s.hand(first, "numbered 1");
    s.hand(first, "again 1");
    s.hand(first, "again 1");
    s.give(broadcast, 0, "kept");
    s.take(0, "took 1 0 1 01 last");
    let second = s.submit(0, "02");
    let broadcast = s.hand(second, "numbered 2");
    // Count 1 is still kept, yet it is below the last count.
    s.hand(first, "old");
    s.line("C 1", "sent");
    s.hand(second, "again 2");
    s.give(broadcast, 0, "kept");
    s.take(0, "took 2 0 2 02 last");
    let other = s.number(1, "03", 3);
    s.hand(second, "again 2");
    s.hand(other - 1, "again 3");
    for number in 1..=3 {
        let copy = s.copy(number);
        s.give(copy, 1, "kept");
    }
    s.give(other, 0, "kept");
    s.take(0, "took 3 1 1 03 last");
    for (number, from, count) in [(1, 0, 1), (2, 0, 2), (3, 1, 1)] {
        let more = if number < 3 { "more" } else { "last" };
        s.take(
            1,
            &format!("took {number} {from} {count} {number:02x} {more}"),
        );
    }
    s.acknowledge(0);
    s.hand(second, "again 2");
    s.acknowledge(1);
    // The last count is no longer kept: old, and not numbered anew.
    s.hand(second, "old");
    s.hand(first, "old");
    s.hand(other - 1, "old");
    s.end(
        "repeated requests: again while kept, old below the last count or purged",
        "top 3 floor 3 taken 3 3",
    )
}

fn repeated_with_todays_number() -> Schedule {
    let mut s = Script::open(2, 7);
    let broadcast = s.number(0, "01", 1);
    s.give(broadcast, 0, "kept");
    s.take(0, "took 1 0 1 01 last");
    let request = s.submit(1, "02");
    s.give(broadcast, 1, "kept");
    let again = s.repeat(1);
    s.acknowledge(0);
    s.hand(request, "numbered 2");
    s.line("C 1", "sent");
    // The repeated request acknowledges 1, which is held, and empties the history up to it.
    s.hand(again, "again 2");
    s.line("C 1", "refused 17");
    s.line("C 2", "sent");
    s.hand(request, "again 2");
    s.end(
        "a repeat carries today's row end; again notes it",
        "top 2 floor 1 taken 1 0",
    )
}

fn late_acknowledgements() -> Schedule {
    let mut s = Script::open(2, 7);
    let broadcasts: Vec<usize> = (1..=4).map(|number| s.own(number)).collect();
    let early = s.status(1);
    for (&broadcast, number) in broadcasts.iter().zip(1..) {
        s.give(broadcast, 1, "kept");
        s.take(1, &format!("took {number} 0 {number} {number:02x} last"));
    }
    let late = s.status(1);
    s.hand(late, "noted");
    s.acknowledge(0);
    s.line("C 4", "refused 17");
    s.hand(early, "noted");
    let five = s.own(5);
    // An entry that went back to 0 would keep floor at 4 from here on.
    s.give(five, 1, "kept");
    s.take(1, "took 5 0 5 05 last");
    s.acknowledge(1);
    s.hand(early, "noted");
    s.hand(late, "noted");
    s.acknowledge(0);
    s.line("C 5", "refused 17");
    s.end("a late packet lowers no entry", "top 5 floor 5 taken 5 5")
}

fn smallest_of_six() -> Schedule {
    let mut s = Script::open(6, 7);
    let mut broadcasts = Vec::new();
    for number in 1..=9 {
        // Member 2 takes all nine; it submits them.
        let hex = format!("{number:02x}");
        let broadcast = s.number(2, &hex, number);
        s.give(broadcast, 2, "kept");
        s.take(2, &format!("took {number} 2 {number} {hex} last"));
        broadcasts.push(broadcast);
    }
    for (member, taken) in [(0, 8), (1, 7), (3, 8), (4, 6), (5, 8)] {
        for number in 1..=taken {
            s.give(broadcasts[number - 1], member, "kept");
            s.take(
                member,
                &format!("took {number} 2 {number} {number:02x} last"),
            );
        }
    }
    for member in [0, 1, 2, 3, 5] {
        s.acknowledge(member);
        s.line("C 1", "sent");
    }
    s.acknowledge(4);
    s.line("C 6", "refused 17");
    s.line("C 7", "sent");
    s.end(
        "acknowledgements 8, 7, 9, 8, 6, 8 give floor 6",
        "top 9 floor 6 taken 8 7 9 8 6 8",
    )
}

fn not_to_the_senders_own() -> Schedule {
    let mut s = Script::open(3, 7);
    for number in 1..=5 {
        s.own(number);
    }
    s.acknowledge(0);
    for number in 1..=5 {
        s.line(&format!("C {number}"), "sent");
    }
    s.end(
        "one member's acknowledgement alone frees nothing",
        "top 5 floor 0 taken 5 0 0",
    )
}

fn gaps() -> Schedule {
    let mut s = Script::open(2, 7);
    let broadcasts: Vec<usize> = (1..=5).map(|number| s.own(number)).collect();
    s.acknowledge(0);
    let early = s.give(broadcasts[4], 1, "keptgap");
    s.hand(early, "wanted 1 4");
    s.give(broadcasts[0], 1, "kept");
    // This gap acknowledges 1, which is held: noting it raises floor to 1.
    let noting = s.give(broadcasts[2], 1, "keptgap");
    s.hand(noting, "wanted 2 2");
    s.line("C 1", "refused 17");
    s.hand(early, "wanted 2 4");
    s.give(broadcasts[1], 1, "kept");
    s.take(1, "took 1 0 1 01 more");
    s.acknowledge(1);
    // Floor is 3: the late gaps start above it, or are all below it.
    s.hand(early, "wanted 4 4");
    s.hand(noting, "noted");
    s.give(broadcasts[3], 1, "kept");
    for number in 2..=4 {
        s.take(1, &format!("took {number} 0 {number} {number:02x} more"));
    }
    s.take(1, "took 5 0 5 05 last");
    s.acknowledge(1);
    s.hand(early, "noted");
    s.end(
        "gaps: wanted from the larger of B and floor+1, noted up to floor",
        "top 5 floor 5 taken 5 5",
    )
}

fn not_over_a_gap() -> Schedule {
    let mut s = Script::open(2, 7);
    let broadcasts: Vec<usize> = (1..=8).map(|number| s.own(number)).collect();
    for number in (2..=8).rev() {
        s.give(broadcasts[number - 1], 1, "keptgap");
        s.take(1, "none");
    }
    s.status(1);
    s.give(broadcasts[0], 1, "kept");
    s.take(1, "took 1 0 1 01 more");
    s.take(1, "took 2 0 2 02 more");
    s.end(
        "a held message is not handed out over a gap",
        "top 8 floor 0 taken 8 2",
    )
}

fn own_and_others() -> Schedule {
    let mut s = Script::open(2, 7);
    let zero = s.submit(0, "00");
    let one = s.submit(1, "11");
    let first = s.hand(zero, "numbered 1");
    let second = s.hand(one, "numbered 2");
    s.give(first, 1, "kept");
    // Another's message with the same count: member 1 still waits.
    s.take(1, "took 1 0 1 00 last");
    s.repeat(1);
    s.give(second, 1, "kept");
    s.repeat(1);
    s.take(1, "took 2 1 1 11 last");
    s.line("R 1", "refused 15");
    let third = s.number(1, "22", 3);
    s.repeat(1);
    s.give(third, 1, "kept");
    s.take(1, "took 3 1 2 22 last");
    s.line("R 1", "refused 15");
    // Member 0 waits until it takes its own.
    s.repeat(0);
    s.give(first, 0, "kept");
    s.repeat(0);
    s.take(0, "took 1 0 1 00 last");
    s.line("R 0", "refused 15");
    s.submit(0, "33");
    s.give(second, 0, "kept");
    s.take(0, "took 2 1 1 11 last");
    s.repeat(0);
    s.end(
        "a take of another's message leaves the own one waiting",
        "top 3 floor 0 taken 2 3",
    )
}

fn refused_submits() -> Schedule {
    let mut s = Script::open(2, 7);
    let long = "ab".repeat(PAYLOAD + 1);
    s.line("R 0", "refused 15");
    s.line(&format!("S 0 {long}"), "refused 13");
    s.line("R 0", "refused 15");
    let request = s.submit(0, "01");
    s.line(&format!("S 0 {long}"), "refused 13");
    for count in 2..=5 {
        s.queue(0, &format!("{count:02x}"), count);
    }
    // The payload is asked about before the waiting messages.
    s.line(&format!("S 0 {long}"), "refused 13");
    s.line("S 0 06", "refused 14");
    s.line("S 0 -", "refused 14");
    let again = s.repeat(0);
    s.hand(again, "numbered 1");
    let broadcast = s.hand(request, "again 1");
    s.give(broadcast, 0, "kept");
    s.line("S 0 06", "refused 14");
    s.take(0, "took 1 0 1 01 last");
    // The refused submits used up no count.
    s.queue(0, "06", 6);
    s.line("S 0 07", "refused 14");
    s.line("R 1", "refused 15");
    s.end(
        "refused submits and repeats: 13 before 14, 15, no count used up",
        "top 1 floor 0 taken 1 0",
    )
}

/// Five are typed in a row; every request and every broadcast is lost once.
fn typing_ahead() -> Schedule {
    let mut s = Script::open(2, 7);
    s.submit(1, "01");
    for count in 2..=5 {
        s.queue(1, &format!("{count:02x}"), count);
    }
    s.line("S 1 06", "refused 14");
    for number in 1..=5 {
        s.repeat(1);
        let request = s.repeat(1);
        s.hand(request, &format!("numbered {number}"));
        let broadcast = s.hand(request, &format!("again {number}"));
        s.give(broadcast, 1, "kept");
        s.take(1, &format!("took {number} 1 {number} {number:02x} last"));
        s.take(1, "none");
    }
    s.line("R 1", "refused 15");
    s.end(
        "five typed in a row, requested one by one in their order by repeats",
        "top 5 floor 0 taken 0 5",
    )
}

/// Nothing behind the first is requested before the first was taken, also
/// if the first was numbered long ago.
fn queue_waits_for_the_take() -> Schedule {
    let mut s = Script::open(2, 7);
    let first = s.submit(0, "61");
    s.queue(0, "62", 2);
    let broadcast = s.hand(first, "numbered 1");
    let again = s.repeat(0);
    s.hand(again, "again 1");
    s.give(broadcast, 0, "kept");
    let again = s.repeat(0);
    s.hand(again, "again 1");
    s.take(0, "took 1 0 1 61 last");
    let second = s.repeat(0);
    let broadcast = s.hand(second, "numbered 2");
    s.hand(first, "old");
    s.give(broadcast, 0, "kept");
    s.take(0, "took 2 0 2 62 last");
    let third = s.submit(0, "63");
    s.hand(third, "numbered 3");
    s.end(
        "a queued message is requested by the repeat behind the take of the one before it",
        "top 3 floor 0 taken 2 0",
    )
}

/// Takes of others' messages leave the queue, and so do late requests.
fn queues_of_two() -> Schedule {
    let mut s = Script::open(3, 7);
    let of_one = s.submit(1, "11");
    let of_two = s.submit(2, "21");
    s.queue(1, "12", 2);
    s.queue(2, "22", 2);
    s.queue(1, "13", 3);
    let first = s.hand(of_two, "numbered 1");
    let second = s.hand(of_one, "numbered 2");
    for member in [1, 2] {
        s.give(first, member, "kept");
        s.give(second, member, "kept");
    }
    s.take(1, "took 1 2 1 21 more");
    let still = s.repeat(1);
    s.hand(still, "again 2");
    s.take(1, "took 2 1 1 11 last");
    let next = s.repeat(1);
    let third = s.hand(next, "numbered 3");
    s.hand(still, "old");
    s.take(2, "took 1 2 1 21 more");
    let next = s.repeat(2);
    let fourth = s.hand(next, "numbered 4");
    for member in [1, 2] {
        s.give(third, member, "kept");
        s.give(fourth, member, "kept");
    }
    s.take(2, "took 2 1 1 11 more");
    s.take(2, "took 3 1 2 12 more");
    s.take(2, "took 4 2 2 22 last");
    s.line("R 2", "refused 15");
    s.take(1, "took 3 1 2 12 more");
    s.take(1, "took 4 2 2 22 last");
    let last = s.repeat(1);
    s.hand(last, "numbered 5");
    s.end(
        "two terminals that type ahead: each queue moves with its own messages alone",
        "top 5 floor 0 taken 0 4 4",
    )
}

/// The places of the queue are used again and again, with shorter payloads
/// where longer ones lay.
fn queue_goes_round() -> Schedule {
    let mut s = Script::open(1, 7);
    let hex = |count: u32| match count % 3 {
        0 => "-".into(),
        1 => format!("{count:02x}").repeat(PAYLOAD),
        _ => format!("{count:02x}"),
    };
    let mut request = s.submit(0, &hex(1));
    for count in 2..=5 {
        s.queue(0, &hex(count), count);
    }
    for number in 1..=14 {
        let broadcast = s.hand(request, &format!("numbered {number}"));
        s.give(broadcast, 0, "kept");
        let payload = hex(number);
        s.take(0, &format!("took {number} 0 {number} {payload} last"));
        if number < 14 {
            if number + 5 <= 14 {
                s.queue(0, &hex(number + 5), number + 5);
            }
            request = s.repeat(0);
        }
    }
    s.line("R 0", "refused 15");
    s.submit(0, "0f");
    s.end(
        "the five places of the queue go round, longer and shorter payloads in turn",
        "top 14 floor 13 taken 14",
    )
}

fn absent() -> Schedule {
    let mut s = Script::open(3, 7);
    for member in ["3", "4", "16", "99", "256", "4294967295"] {
        s.line(&format!("S {member} 61"), "absent");
        s.line(&format!("R {member}"), "absent");
        s.line(&format!("T {member}"), "absent");
        s.line(&format!("A {member}"), "absent");
    }
    s.line(&format!("S 99 {}", "61".repeat(PAYLOAD + 1)), "absent");
    s.line("S 3 -", "absent");
    s.line("Q 0", "absent");
    s.line("M 0 0", "absent");
    let request = s.submit(0, "61");
    s.line("Q 1", "absent");
    s.line("Q 199", "absent");
    s.line("Q 200", "absent");
    s.line("Q 4294967295", "absent");
    s.line("M 1 0", "absent");
    s.line("M 0 3", "absent");
    s.line("M 4294967295 99", "absent");
    s.line("M 4294967295 0", "absent");
    s.line("M 0 4294967295", "absent");
    s.hand(request, "numbered 1");
    s.line("M 1 3", "absent");
    s.line("M 2 2", "absent");
    s.line("M 1 2", "kept");
    s.end(
        "absent members and packets, the largest ones too",
        "top 1 floor 0 taken 0 0 0",
    )
}

fn other_end() -> Schedule {
    let mut s = Script::open(2, 7);
    let request = s.submit(0, "61");
    let broadcast = s.hand(request, "numbered 1");
    let status = s.status(1);
    let poll = s.poll();
    let second = s.number(1, "62", 2);
    let gap = s.give(second, 0, "keptgap");
    for packet in [request, status, gap] {
        s.give(packet, 0, "refused 8");
        s.give(packet, 1, "refused 8");
    }
    for packet in [broadcast, poll, second] {
        s.hand(packet, "refused 8");
    }
    s.hand(status, "noted");
    s.give(poll, 1, "gap");
    s.end(
        "packets handed to the other end are refused",
        "top 2 floor 0 taken 0 0",
    )
}

fn copies() -> Schedule {
    let mut s = Script::open(1, 7);
    s.line("C 0", "refused 17");
    s.line("C 1", "refused 17");
    s.own(1);
    s.line("C 0", "refused 17");
    s.line("C 1", "sent");
    s.line("C 2", "refused 17");
    s.line("C 33", "refused 17");
    s.line("C 4294967295", "refused 17");
    s.acknowledge(0);
    s.line("C 1", "refused 17");
    let request = s.submit(0, "02");
    let broadcast = s.hand(request, "numbered 2");
    s.line("C 1", "refused 17");
    let copy = s.copy(2);
    s.line("C 3", "refused 17");
    s.line("C 34", "refused 17");
    s.give(copy, 0, "kept");
    s.give(broadcast, 0, "old");
    s.take(0, "took 2 0 2 02 last");
    s.end("copies from floor+1 to top alone", "top 2 floor 1 taken 2")
}

fn everything_twice() -> Schedule {
    let mut s = Script::open(2, 7);
    for number in 1..=6u32 {
        let member = number as usize % 2;
        let count = number.div_ceil(2);
        let hex = format!("{number:02x}");
        let request = s.submit(member, &hex);
        let broadcast = s.hand(request, &format!("numbered {number}"));
        let again = s.hand(request, &format!("again {number}"));
        for reader in [member, 1 - member] {
            s.give(broadcast, reader, "kept");
            s.give(broadcast, reader, "old");
            s.give(again, reader, "old");
            s.take(
                reader,
                &format!("took {number} {member} {count} {hex} last"),
            );
            s.take(reader, "none");
            s.give(again, reader, "old");
        }
        for reader in 0..2 {
            let status = s.status(reader);
            s.hand(status, "noted");
            s.hand(status, "noted");
        }
        s.hand(request, "old");
    }
    s.end("every packet handed over twice", "top 6 floor 6 taken 6 6")
}

fn history_goes_round() -> Schedule {
    let mut s = Script::open(2, 7);
    let mut behind = Vec::new();
    for number in 1..=80 {
        behind.push(s.own(number));
        // Member 1 lies 30 behind and submits nothing; its status comes
        // with every fourth number.
        if number >= 30 {
            let taken = number - 29;
            let broadcast = behind[taken as usize - 1];
            s.give(broadcast, 1, "kept");
            s.take(1, &format!("took {taken} 0 {taken} {taken:02x} last"));
            if taken % 3 == 0 {
                s.acknowledge(1);
                s.line(&format!("C {taken}"), "refused 17");
            }
        }
    }
    s.end(
        "eighty numbers go round the 32 places, floor close behind",
        "top 80 floor 51 taken 80 51",
    )
}

fn closing_round() -> Schedule {
    let mut s = Script::open(3, 7);
    for number in 1..=10 {
        s.own(number);
    }
    for member in 0..3 {
        if member > 0 {
            for number in 1..=10 {
                let copy = s.copy(number);
                s.give(copy, member, "kept");
                s.take(
                    member,
                    &format!("took {number} 0 {number} {number:02x} last"),
                );
            }
        }
        s.acknowledge(member);
    }
    s.line("C 10", "refused 17");
    s.end("a closing round", "top 10 floor 10 taken 10 10 10")
}

fn closing_round_takes_the_row() -> Schedule {
    let mut s = Script::open(2, 7);
    let broadcasts: Vec<usize> = (1..=6).map(|number| s.own(number)).collect();
    for number in [1, 2, 3] {
        s.give(broadcasts[number - 1], 1, "kept");
    }
    s.acknowledge(1);
    s.give(broadcasts[4], 1, "keptgap");
    // Floor lies above what member 1 took: no copy would give it 1 to 3.
    s.acknowledge(0);
    s.line("C 3", "refused 17");
    for number in 1..=3 {
        let more = if number < 3 { "more" } else { "last" };
        s.take(1, &format!("took {number} 0 {number} {number:02x} {more}"));
    }
    for (number, answer, more) in [(4, "kept", "more"), (5, "old", "last"), (6, "kept", "last")] {
        let copy = s.copy(number);
        s.give(copy, 1, answer);
        s.take(1, &format!("took {number} 0 {number} {number:02x} {more}"));
    }
    s.acknowledge(1);
    s.line("C 6", "refused 17");
    s.end(
        "a closing round that takes the row, and copies what lies above it",
        "top 6 floor 6 taken 6 6",
    )
}

fn lost_requests() -> Schedule {
    let mut s = Script::open(2, 7);
    s.submit(1, "aa");
    s.repeat(1);
    let third = s.repeat(1);
    s.take(1, "none");
    let broadcast = s.hand(third, "numbered 1");
    s.hand(0, "again 1");
    s.hand(1, "again 1");
    s.give(broadcast + 1, 1, "kept");
    s.take(1, "took 1 1 1 aa last");
    s.give(broadcast, 1, "old");
    s.line("R 1", "refused 15");
    s.end(
        "requests lost and repeated, the first arriving last",
        "top 1 floor 0 taken 0 1",
    )
}

fn events_without_packets() -> Schedule {
    let mut s = Script::open(2, 7);
    let broadcast = s.number(0, "61", 1);
    s.give(broadcast, 1, "kept");
    s.give(broadcast, 0, "kept");
    s.take(0, "took 1 0 1 61 last");
    for _ in 0..200 {
        s.line("T 0", "none");
        s.line("R 1", "refused 15");
        s.line("C 2", "refused 17");
        s.line("Q 1", "refused 8");
        s.line("M 1 1", "old");
        s.line("Q 9", "absent");
    }
    s.end(
        "1,200 events that write no packet",
        "top 1 floor 0 taken 1 0",
    )
}

/// A group that has written 200 packets.
fn without_space() -> Script {
    let mut s = Script::open(2, 7);
    for number in 1..=10 {
        s.own(number);
    }
    for _ in 20..PACKETS {
        s.poll();
    }
    s
}

const AT_THE_LIMIT: &str = "top 10 floor 0 taken 10 0";

fn up_to_the_space() -> Schedule {
    without_space().end("200 packets and no event more", AT_THE_LIMIT)
}

/// The event behind 200 packets, whatever it is; the lines behind it are
/// not read.
fn no_space() -> Vec<Schedule> {
    let events = [
        ("poll", "P"),
        ("take of a member not there", "T 99"),
        ("packet 4294967295", "M 4294967295 0"),
        ("submit that would be refused", "S 0 00"),
    ];
    let bad = [
        ("a line of another form", "x"),
        ("an empty line", ""),
        ("a number over the largest", "T 4294967296"),
    ];
    let schedule = |(shows, line): (&str, &str), answer| {
        let mut s = without_space();
        s.unread(line, answer);
        let mut schedule = s.end(
            &format!("200 packets, then {shows}: {answer}"),
            AT_THE_LIMIT,
        );
        schedule.text.extend(b"T 0\nx\n");
        schedule
    };
    let mut schedules: Vec<Schedule> = Vec::new();
    schedules.extend(events.map(|event| schedule(event, "no space")));
    schedules.extend(bad.map(|line| schedule(line, "bad line")));
    schedules
}
