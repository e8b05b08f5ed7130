//! Resets event by event, each event with the answer that it prints: the
//! survivors go on, and what breaks the claim once a limit on lists is
//! dropped.

mod common;

use common::{GROUP, Random};
use model::group;
use model::recover::event;
use model::terminal::Terminal;
use model::world::{Event, Run};

/// A list of events that is told line by line.
struct Story {
    run: Run,
}

impl Story {
    fn new(n: u32, r: u32) -> Story {
        Story {
            run: Run::fresh(n, GROUP, r).unwrap(),
        }
    }

    /// Events within the limits, each with its answer; after each of them all
    /// that is claimed holds.
    fn tell(&mut self, lines: &[(&str, &str)]) {
        for &(line, answer) in lines {
            assert!(self.is_allowed(line), "{line}");
            self.happens(line, answer);
            self.holds(line);
        }
    }

    fn is_allowed(&self, line: &str) -> bool {
        self.run.is_allowed(&event(line.as_bytes()).unwrap())
    }

    /// An event, allowed or not.
    fn happens(&mut self, line: &str, answer: &str) {
        let outcome = self.run.step(&event(line.as_bytes()).unwrap());
        let told = outcome.map_or("absent".to_string(), |outcome| {
            let mut told = outcome.answer.to_string();
            if let Some(packet) = outcome.packet {
                told += &format!(" {packet}");
            }
            told
        });
        assert_eq!(told, answer, "{line}");
    }

    /// An allowed event of which nothing is claimed: one before it was not.
    fn tell_only(&mut self, line: &str, answer: &str) {
        assert!(self.is_allowed(line), "{line}");
        self.happens(line, answer);
    }

    fn holds(&self, line: &str) {
        let run = &self.run;
        assert!(run.world.terminals.iter().all(Terminal::is_sound), "{line}");
        assert_eq!(run.begins(), Ok(()), "{line}");
        assert_eq!(run.survival(), Ok(()), "{line}");
        if run.is_claimed() {
            assert_eq!(run.demand_3(), Ok(()), "{line}");
            assert_eq!(run.closes(), Ok(()), "{line}");
        }
    }

    fn terminal(&self, i: usize) -> &Terminal {
        &self.run.world.terminals[i]
    }

    /// Kind, byte 1, group number, A, B and C of a packet.
    fn fields(&self, packet: usize) -> [u32; 6] {
        let header = model::packet::read(&self.run.world.packets[packet]).unwrap();
        let (kind, member) = (header.kind.into(), header.member.into());
        [kind, member, header.group, header.a, header.b, header.c]
    }

    fn course(&self) -> (u16, usize, u32, usize) {
        let course = &self.run.course;
        let order = course.order.len();
        (course.survivors, course.elected, course.number, order)
    }
}

/// Number 1 of three reaches 1 and 2, number 2 only 2; then 0 dies.
fn two_are_left() -> Story {
    let mut story = Story::new(3, 0);
    story.tell(&[
        ("S 0 6162", "sent 0"),
        ("Q 0 0", "numbered 1 1"),
        ("M 1 1", "kept"),
        ("M 1 2", "kept"),
        ("T 2", "took 1 0 1"),
        ("S 1 63", "sent 2"),
        ("Q 2 0", "numbered 2 3"),
        ("M 3 2", "kept"),
        ("S 0 64", "queued 2"),
    ]);
    story
}

#[test]
fn a_burnt_out_sequencer() {
    let mut story = two_are_left();
    story.tell(&[
        ("I 1 9", "sent 4"),
        ("M 4 2", "noted 5"),
        ("M 5 1", "noted"),
        ("G 1 2", "sent 6"),
    ]);
    assert_eq!(story.fields(4), [9, 1, 7, 9, 0, 0]);
    assert_eq!(story.fields(5), [10, 2, 7, 9, 2, 0]);
    assert_eq!(story.fields(6), [11, 1, 7, 9, 2, 2]);
    assert_eq!(story.run.world.packets[6][20..], [0, 6]);
    // 1 has the result, and 2, which is to be sequencer, not yet.
    assert_eq!(story.course(), (6, 2, 9, 2));
    assert!(!story.run.is_claimed());
    story.tell(&[
        ("T 1", "took 1 0 1"),
        ("P 1", "absent"),
        ("P 2", "absent"),
        ("M 6 2", "noted"),
    ]);
    assert!(story.run.is_claimed());
    assert_eq!(story.terminal(2).sequencer.accepted, 2);
    // Its message is numbered already: its request finds it.
    story.tell(&[
        ("R 1", "sent 7"),
        ("Q 7 2", "again 2 8"),
        ("M 8 1", "kept"),
        ("T 1", "took 2 1 1"),
        ("T 2", "took 2 1 1"),
        ("S 2 65", "sent 9"),
        ("Q 9 2", "numbered 3 10"),
        ("M 10 1", "kept"),
        ("T 1", "took 3 2 1"),
        ("A 1", "sent 11"),
        ("Q 11 2", "noted"),
        ("P 2", "sent 12"),
        ("M 12 1", "status 13"),
    ]);
    // A poll names the elected member; both acknowledged 2.
    assert_eq!(story.fields(12), [5, 2, 9, 3, 0, 2]);
    // What the lost one numbers is in no order, and nobody of the group hears
    // it.
    story.tell(&[
        ("M 1 0", "kept"),
        ("T 0", "took 1 0 1"),
        ("R 0", "sent 14"),
        ("Q 14 0", "numbered 3 15"),
        ("M 15 1", "refused 7"),
        ("M 15 2", "refused 7"),
        ("Q 14 2", "refused 7"),
        ("P 0", "sent 16"),
        // Byte 1 of a poll is asked before the group number.
        ("M 16 1", "refused 6"),
        ("M 12 0", "refused 6"),
    ]);
    assert_eq!(story.course(), (6, 2, 9, 3));
    // It gets no packet of the attempt, and never initiates.
    for line in [
        "M 4 0", "M 5 0", "M 6 0", "I 0 10", "I 3 10", "I 1 7", "I 1 9",
    ] {
        assert!(!story.is_allowed(line), "{line}");
    }
    assert!(story.is_allowed("I 1 10"));
    assert!(!story.is_allowed("G 2 0"));
    story.tell(&[("G 1 0", "refused 27")]);
}

#[test]
fn ties_go_to_the_lowest() {
    let mut story = Story::new(4, 0);
    story.tell(&[
        ("S 0 6162", "sent 0"),
        ("Q 0 0", "numbered 1 1"),
        ("M 1 2", "kept"),
        ("M 1 3", "kept"),
        ("T 3", "took 1 0 1"),
        ("I 3 9", "sent 2"),
        ("M 2 1", "noted 3"),
        ("M 2 2", "noted 4"),
        ("M 4 3", "noted"),
        ("M 3 3", "noted"),
        ("G 3 3", "sent 5"),
        ("M 5 2", "noted"),
        ("M 5 1", "noted"),
    ]);
    assert_eq!(story.fields(5), [11, 3, 7, 9, 2, 1]);
    assert_eq!(story.course(), (14, 2, 9, 1));
    // With nothing numbered the lowest of all.
    let mut story = Story::new(4, 0);
    story.tell(&[
        ("I 3 9", "sent 0"),
        ("M 0 2", "noted 1"),
        ("M 0 1", "noted 2"),
        ("M 1 3", "noted"),
        ("M 2 3", "noted"),
        ("G 3 0", "sent 3"),
    ]);
    assert_eq!(story.course(), (14, 1, 9, 0));
    // The sequencer is no better than a member with the same number.
    let mut story = Story::new(2, 0);
    story.tell(&[
        ("I 1 9", "sent 0"),
        ("M 0 0", "noted 1"),
        ("M 1 1", "noted"),
        ("G 1 2", "sent 2"),
        ("M 2 0", "noted"),
    ]);
    assert_eq!(story.course(), (3, 0, 9, 0));
    let mut story = Story::new(3, 0);
    story.tell(&[
        ("I 1 9", "sent 0"),
        ("M 0 2", "noted 1"),
        ("M 1 1", "noted"),
        ("G 1 2", "sent 2"),
        ("M 2 2", "noted"),
        // 2 is sequencer now no more than before: the tie gives it to 1.
        ("S 2 61", "sent 3"),
        ("Q 3 1", "numbered 1 4"),
        ("M 4 2", "kept"),
        ("I 2 10", "sent 5"),
        ("M 5 1", "noted 6"),
        ("M 6 2", "noted"),
        ("G 2 2", "sent 7"),
    ]);
    assert_eq!(story.course(), (6, 1, 10, 1));
}

/// Message 1 of member 1 is held by all and purged everywhere; 1 never took
/// it, and still repeats it.
#[test]
fn a_purged_message_is_old_behind_a_reset() {
    let start: &[(&str, &str)] = &[
        ("S 1 6162", "sent 0"),
        ("Q 0 0", "numbered 1 1"),
        ("M 1 0", "kept"),
        ("M 1 1", "kept"),
        ("M 1 2", "kept"),
        ("T 2", "took 1 1 1"),
        ("A 0", "sent 2"),
        ("Q 2 0", "noted"),
        ("A 1", "sent 3"),
        ("Q 3 0", "noted"),
        ("A 2", "sent 4"),
        ("Q 4 0", "noted"),
        ("P 0", "sent 5"),
    ];
    // Either survivor becomes sequencer, one that holds it or one that took
    // it; with the floor read, or not.
    for (lowest, read) in [(1, true), (1, false), (2, true), (2, false)] {
        let mut story = Story::new(3, 0);
        story.tell(start);
        assert_eq!(story.terminal(0).sequencer.floor, 1);
        if lowest == 2 {
            // 2 has another message, so it is elected.
            story.tell(&[
                ("S 0 63", "sent 6"),
                ("Q 6 0", "numbered 2 7"),
                ("M 7 2", "kept"),
            ]);
            assert_eq!(story.fields(7), [2, 0, 7, 2, 1, 1]);
        } else {
            story.tell(&[("P 0", "sent 6"), ("P 0", "sent 7")]);
            if read {
                story.tell(&[("M 5 1", "status 8")]);
            }
        }
        if lowest == 2 || !read {
            story.tell(&[("P 0", "sent 8")]);
        }
        story.tell(&[
            ("I 1 9", "sent 9"),
            ("M 9 2", "noted 10"),
            ("M 10 1", "noted"),
            ("G 1 2", "sent 11"),
            ("M 11 2", "noted"),
            ("R 1", "sent 12"),
        ]);
        let elected = story.run.course.elected;
        assert_eq!(elected, lowest);
        let sequencer = &story.terminal(elected).sequencer;
        assert_eq!(sequencer.counts[1], 1);
        if lowest == 1 && !read {
            // The floor is not read: the message is kept on.
            assert_eq!((sequencer.floor, sequencer.top), (0, 1));
            story.tell(&[("Q 12 1", "again 1 13"), ("T 1", "took 1 1 1")]);
        } else {
            assert_eq!(sequencer.floor, 1);
            story.tell(&[(&format!("Q 12 {elected}"), "old"), ("T 1", "took 1 1 1")]);
        }
        assert_eq!(story.terminal(1).member.waiting, 0);
    }
}

/// Offer 1 of four reaches 3 alone, which is elected; the others know it
/// accepted without having it, and then 3 dies too.
fn only_one_has_the_offer() -> Story {
    let mut story = Story::new(4, 1);
    story.tell(&[
        ("S 0 6162", "sent 0"),
        ("Q 0 0", "numbered 1 1"),
        ("M 1 3", "kept"),
        ("I 1 9", "sent 2"),
        ("M 2 2", "noted 3"),
        ("M 2 3", "noted 4"),
        ("M 3 1", "noted"),
        ("M 4 1", "noted"),
        ("G 1 3", "sent 5"),
        ("M 5 2", "noted"),
        ("M 5 3", "noted"),
    ]);
    assert_eq!(story.course(), (14, 3, 9, 1));
    for i in 1..4 {
        assert_eq!(story.terminal(i).member.accepted, 1);
    }
    story
}

#[test]
fn accepted_is_lowered_by_a_second_reset() {
    let mut story = only_one_has_the_offer();
    story.tell(&[
        ("I 2 10", "sent 6"),
        ("M 6 1", "noted 7"),
        ("M 7 2", "noted"),
        ("G 2 2", "sent 8"),
        ("M 8 1", "noted"),
    ]);
    assert_eq!(story.course(), (6, 1, 10, 0));
    for i in 1..3 {
        assert_eq!(story.terminal(i).member.accepted, 0);
    }
    // Number 1 is another message then.
    story.tell(&[
        ("S 1 63", "sent 9"),
        ("Q 9 1", "numbered 1 10"),
        ("M 10 2", "kept 11"),
        ("T 2", "none"),
        ("Q 11 1", "accepted 12"),
        ("M 12 2", "noted"),
        ("T 2", "took 1 1 1"),
    ]);
    assert_eq!(story.fields(12), [8, 1, 10, 1, 0, 0]);
}

#[test]
fn all_survive_and_nothing_is_cut() {
    let mut story = two_are_left();
    story.tell(&[
        ("I 2 9", "sent 4"),
        ("M 4 0", "noted 5"),
        ("M 4 1", "noted 6"),
        ("M 5 2", "noted"),
        ("M 6 2", "noted"),
        // The old group's packets are refused at who replied, calls go on.
        ("M 3 1", "refused 7"),
        ("Q 2 0", "refused 7"),
        ("P 0", "sent 7"),
        ("Q 7 0", "refused 7"),
        ("C 0 2", "sent 8"),
        ("M 8 1", "refused 7"),
        ("T 1", "took 1 0 1"),
        ("G 2 3", "sent 9"),
        ("M 9 0", "noted"),
        ("M 9 1", "noted"),
    ]);
    assert_eq!(story.fields(5), [10, 0, 7, 9, 2, 0]);
    assert_eq!(story.fields(6), [10, 1, 7, 9, 1, 0]);
    assert_eq!(story.course(), (7, 0, 9, 2));
    let state = story.terminal(0);
    assert!(state.sequencing && !state.frozen);
    assert_eq!(state.sequencer.history[1].payload.as_slice(), b"ab");
    story.tell(&[
        ("C 0 2", "sent 10"),
        ("M 10 1", "kept"),
        ("T 1", "took 2 1 1"),
        ("C 0 1", "sent 11"),
        ("M 11 0", "kept"),
        ("T 0", "took 1 0 1"),
        ("R 0", "sent 12"),
        ("Q 12 0", "numbered 3 13"),
    ]);
}

#[test]
fn fewer_than_r_and_then_one_alone() {
    let mut story = Story::new(4, 3);
    story.tell(&[
        ("I 1 9", "sent 0"),
        ("M 0 2", "noted 1"),
        ("M 0 3", "noted 2"),
        ("M 1 1", "noted"),
        ("M 2 1", "noted"),
        ("G 1 3", "sent 3"),
        ("M 3 2", "noted"),
        ("M 3 3", "noted"),
        // 2 and 3 answer, and both are needed.
        ("S 3 61", "sent 4"),
        ("Q 4 1", "numbered 1 5"),
        ("M 5 1", "kept"),
        ("M 5 2", "kept 6"),
        ("M 5 3", "kept 7"),
        ("Q 6 1", "marked"),
        ("Q 6 1", "marked"),
        ("T 2", "none"),
        ("Q 7 1", "accepted 8"),
        ("M 8 2", "noted"),
        ("T 2", "took 1 3 1"),
    ]);
    assert_eq!(story.fields(5)[0], 6);
    assert_eq!(story.fields(8), [8, 1, 9, 1, 0, 0]);
    // 1 is lost: with 3 the only other, its mark is enough.
    story.tell(&[
        ("I 3 10", "sent 9"),
        ("M 9 2", "noted 10"),
        ("M 10 3", "noted"),
        ("G 3 2", "sent 11"),
        ("M 11 2", "noted"),
        ("S 2 62", "sent 12"),
        ("Q 12 2", "numbered 2 13"),
        ("M 13 2", "kept"),
        ("M 13 3", "kept 14"),
        ("T 3", "took 1 3 1"),
        ("T 3", "none"),
        ("Q 14 2", "accepted 15"),
    ]);
    assert_eq!(story.course(), (12, 2, 10, 2));
    // 2 is lost: 3 alone accepts what it numbers, and sends kind 2.
    story.tell(&[
        ("I 3 11", "sent 16"),
        ("G 3 1", "sent 17"),
        ("S 3 63", "sent 18"),
        ("Q 18 3", "numbered 3 19"),
        ("M 19 3", "kept"),
        ("T 3", "took 2 2 1"),
        ("T 3", "took 3 3 2"),
    ]);
    assert_eq!(story.course(), (8, 3, 11, 3));
    assert_eq!(story.fields(19)[0], 2);
}

/// An attempt is abandoned, by another and by the same; the result of the one
/// that was made comes to one of them late, to the other never, and that one
/// makes the next group under the old number.
#[test]
fn second_attempts_under_the_old_number() {
    let mut story = Story::new(4, 0);
    story.tell(&[
        ("S 0 6162", "sent 0"),
        ("Q 0 0", "numbered 1 1"),
        ("M 1 3", "kept"),
        ("I 1 9", "sent 2"),
        ("M 2 2", "noted 3"),
        ("M 3 1", "noted"),
        ("I 1 10", "sent 4"),
        ("M 4 3", "noted 5"),
        ("M 5 1", "noted"),
        ("I 2 11", "sent 6"),
    ]);
    // Nothing of the earlier attempts goes on.
    for line in ["M 2 3", "M 3 1", "M 4 2", "M 5 1", "G 1 1"] {
        assert!(!story.is_allowed(line), "{line}");
    }
    story.tell(&[
        ("M 6 1", "noted 7"),
        ("M 6 3", "noted 8"),
        ("M 7 2", "noted"),
        ("M 8 2", "noted"),
        ("M 8 2", "noted"),
        ("G 2 3", "sent 9"),
    ]);
    // 3 is elected and has no result yet; nor has 1.
    assert_eq!(story.course(), (14, 3, 11, 1));
    story.tell(&[
        ("I 3 12", "sent 10"),
        ("M 10 1", "noted 11"),
        // 2 has the new number already, and these go under the old one.
        ("M 10 2", "refused 7"),
        ("M 11 3", "noted"),
    ]);
    // The result of the earlier attempt comes no more.
    assert!(!story.is_allowed("M 9 1"));
    assert!(!story.is_allowed("M 9 3"));
    story.tell(&[("G 3 2", "sent 12"), ("M 12 1", "noted")]);
    assert_eq!(story.course(), (10, 3, 12, 1));
    assert!(story.run.is_claimed());
    assert_eq!(story.terminal(3).sequencer.top, 1);
}

/// Making is acting: 3 invites and 2 replies, 2 invites and 1 replies. If both
/// make, number 1 is cut off and back.
#[test]
fn two_that_make() {
    let mut story = Story::new(4, 0);
    story.tell(&[
        ("S 0 6162", "sent 0"),
        ("Q 0 0", "numbered 1 1"),
        ("M 1 1", "kept"),
        ("I 3 9", "sent 2"),
        ("M 2 2", "noted 3"),
        ("M 3 3", "noted"),
        ("I 2 10", "sent 4"),
        ("M 4 1", "noted 5"),
        ("M 5 2", "noted"),
    ]);
    assert!(!story.is_allowed("G 3 2"));
    let mut within = Story {
        run: story.run.clone(),
    };
    story.happens("G 3 2", "sent 6");
    assert_eq!(story.course(), (12, 2, 9, 0));
    story.tell_only("G 2 2", "sent 7");
    assert_eq!(story.course(), (6, 1, 10, 0));
    assert_eq!(
        story.run.survival(),
        Err("a lost member is among the survivors")
    );
    story.tell_only("M 7 1", "noted");
    assert!(story.run.is_claimed());
    assert_eq!(story.run.demand_3(), Err("the order does not end at top"));
    assert_eq!(story.terminal(1).sequencer.accepted, 1);
    // Within the limits only 2 makes.
    within.tell(&[("G 2 2", "sent 6"), ("M 6 1", "noted")]);
    assert_eq!(within.course(), (6, 1, 10, 1));
}

/// Frozen for good: a sequencer that was left in the old group would number a
/// late request beside the elected one.
#[test]
fn a_sequencer_that_wakes() {
    let mut story = Story::new(3, 0);
    story.tell(&[
        ("S 0 6162", "sent 0"),
        ("Q 0 0", "numbered 1 1"),
        ("M 1 2", "kept"),
        ("I 1 9", "sent 2"),
        ("M 2 2", "noted 3"),
        ("M 3 1", "noted"),
        ("G 1 2", "sent 4"),
        ("M 4 2", "noted"),
    ]);
    assert_eq!(story.course(), (6, 2, 9, 1));
    // The closing round, then 2 submits, and the next reset elects 1.
    let round = story.run.closing_round();
    assert_eq!((round, story.run.world.packets.len()), (8, 8));
    story.tell(&[
        ("S 2 63", "sent 8"),
        ("I 2 10", "sent 9"),
        ("M 9 1", "noted 10"),
        ("M 10 2", "noted"),
        ("G 2 2", "sent 11"),
        ("M 11 1", "noted"),
    ]);
    assert_eq!(story.course(), (6, 1, 10, 1));
    let state = story.terminal(2);
    assert!(state.sequencing && state.frozen && !state.serves());
    assert_eq!(state.sequencer.group, 9);
    let mut woken = story.run.clone();
    story.tell(&[("Q 8 2", "refused 7")]);
    // It still copies and polls, to nobody of the group.
    story.tell(&[
        ("P 2", "sent 12"),
        ("M 12 1", "refused 6"),
        ("M 12 2", "refused 6"),
    ]);

    woken.world.terminals[2].frozen = false;
    let mut woken = Story { run: woken };
    woken.tell_only("Q 8 2", "numbered 2 12");
    assert!(woken.run.is_claimed());
    assert_eq!(woken.run.demand_3(), Err("the order does not end at top"));
    woken.tell_only("R 2", "sent 13");
    woken.tell_only("Q 13 1", "numbered 2 14");
    assert_eq!(woken.run.course.order[1].count, 1);
    assert_eq!(woken.run.course.order[2].count, 1);
}

/// Earlier attempts: 0 makes a group of all; 1 invites and 2 replies. Now 2
/// gets the earlier invitation and result, and takes a message there, which
/// the group that 1 makes has not.
#[test]
fn packets_of_earlier_attempts() {
    let mut story = Story::new(3, 0);
    story.tell(&[
        ("S 0 6162", "sent 0"),
        ("Q 0 0", "numbered 1 1"),
        ("I 0 9", "sent 2"),
        ("M 2 1", "noted 3"),
        ("M 2 2", "noted 4"),
        ("M 3 0", "noted"),
        ("M 4 0", "noted"),
        ("G 0 3", "sent 5"),
        ("I 1 10", "sent 6"),
        ("M 6 2", "noted 7"),
        ("M 7 1", "noted"),
        ("C 0 1", "sent 8"),
    ]);
    assert_eq!(story.course(), (7, 0, 9, 1));
    for line in ["M 2 2", "M 5 2", "M 5 1"] {
        assert!(!story.is_allowed(line), "{line}");
    }
    let mut within = Story {
        run: story.run.clone(),
    };
    story.happens("M 2 2", "noted 9");
    story.happens("M 5 2", "noted");
    story.tell_only("M 8 2", "kept");
    story.tell_only("T 2", "took 1 0 1");
    story.tell_only("G 1 2", "sent 10");
    assert_eq!(story.course(), (6, 1, 10, 0));
    assert_eq!(
        story.run.survival(),
        Err("taken messages do not begin the order")
    );
    assert_eq!(
        story.run.begins(),
        Err("taken messages do not begin the order")
    );
    // Within the limits the result alone is refused too: 2 replied to another.
    let mut late = within.run.clone();
    let result = Event::ToMember {
        packet: 5,
        terminal: 2,
    };
    assert_eq!(late.step(&result).unwrap().answer.to_string(), "refused 27");
    within.tell(&[
        ("M 8 2", "refused 7"),
        ("T 2", "none"),
        ("G 1 2", "sent 9"),
        ("M 9 2", "noted"),
    ]);
}

/// The closing round: without one between them, two resets that lose one each
/// can lose what was accepted.
#[test]
fn no_closing_round_between() {
    let mut story = only_one_has_the_offer();
    assert!(!story.run.firm);
    let mut closed = Story {
        run: story.run.clone(),
    };
    // 1 and 2 make a group without 3.
    let play = |story: &mut Story| {
        let first = story.run.world.packets.len();
        let number = |at: usize| first + at;
        story.tell(&[
            ("I 1 10", &format!("sent {}", number(0))),
            (
                &format!("M {} 2", number(0)),
                &format!("noted {}", number(1)),
            ),
            (&format!("M {} 1", number(1)), "noted"),
        ]);
        story.tell_only("G 1 2", &format!("sent {}", number(2)));
    };
    // Survival is not claimed here, and would not hold.
    play(&mut story);
    assert_eq!(story.run.survival(), Ok(()));
    assert_eq!(story.course(), (6, 1, 10, 0));
    let making = story.run.making.as_mut().unwrap();
    assert_eq!((making.firm, making.accepted), (false, Some(1)));
    making.firm = true;
    assert_eq!(story.run.survival(), Err("an accepted message is lost"));
    // With the round it is claimed, and holds.
    closed.run.closing_round();
    assert!(closed.run.firm);
    play(&mut closed);
    assert_eq!(closed.run.survival(), Ok(()));
    assert_eq!(closed.course(), (6, 1, 10, 1));
    assert!(closed.run.making.as_ref().unwrap().firm);
}

/// With r = 1 a message is accepted, and then 0 burns out: it is in the new
/// order, and the next one is offered, answered and accepted there.
#[test]
fn an_accepted_message_survives() {
    let mut story = Story::new(3, 1);
    story.tell(&[
        ("S 1 -", "sent 0"),
        ("Q 0 0", "numbered 1 1"),
        ("M 1 1", "kept 2"),
        ("Q 2 0", "accepted 3"),
        ("I 1 8", "sent 4"),
        ("M 4 2", "noted 5"),
        ("M 5 1", "noted"),
    ]);
    assert!(story.run.firm);
    story.tell(&[("G 1 2", "sent 6"), ("M 6 2", "noted")]);
    let making = story.run.making.as_ref().unwrap();
    assert_eq!((making.firm, making.accepted), (true, Some(1)));
    assert_eq!(story.course(), (6, 1, 8, 1));
    assert_eq!(story.terminal(1).sequencer.accepted, 1);
    story.tell(&[
        ("C 1 1", "sent 7"),
        ("M 7 2", "kept"),
        ("T 2", "took 1 1 1"),
        ("T 1", "took 1 1 1"),
        ("S 2 -", "sent 8"),
        ("Q 8 0", "refused 7"),
        ("Q 8 1", "numbered 2 9"),
        ("M 9 2", "kept 10"),
        ("Q 10 1", "accepted 11"),
    ]);
    assert_eq!(story.course(), (6, 1, 8, 2));
    story.run.closing_round();
    assert_eq!(story.run.taken[2], story.run.course.order);
}

/// With as many as r lost an accepted message is kept, with one more it may
/// be lost.
#[test]
fn r_and_one_more() {
    for n in 2..=16 {
        for r in 0..n {
            for lost in 0..n {
                let mut run = Run::fresh(n, GROUP, r).unwrap();
                let n = n as usize;
                let mut step = |line: String| {
                    let event = event(line.as_bytes()).unwrap();
                    assert!(run.is_allowed(&event), "{line}");
                    let outcome = run.step(&event).unwrap();
                    assert_eq!(run.begins(), Ok(()));
                    outcome
                };
                // The r expected ones have the message, nobody else.
                step("S 0 6162".into());
                let offer = step("Q 0 0".into()).packet.unwrap();
                for i in 1..=r {
                    let answer = step(format!("M {offer} {i}")).packet.unwrap();
                    step(format!("Q {answer} 0"));
                }
                // Members 0 to lost - 1 are lost.
                let initiator = n - 1;
                let invitation = step(format!("I {initiator} 9")).packet.unwrap();
                for i in lost as usize..n - 1 {
                    let reply = step(format!("M {invitation} {i}")).packet.unwrap();
                    step(format!("M {reply} {initiator}"));
                }
                step(format!("G {initiator} {}", n - lost as usize));
                let making = run.making.as_ref().unwrap();
                assert_eq!((making.firm, making.accepted), (true, Some(1)));
                assert_eq!(run.survival(), Ok(()));
                assert_eq!(run.course.order.len(), usize::from(lost <= r));
                if lost <= r {
                    assert_eq!(run.course.elected, lost as usize);
                }
            }
        }
    }
}

/// Without a reset every event answers and writes as in a group.
#[test]
fn the_same_without_a_reset() {
    for seed in 0..400 {
        let mut random = Random::seeded(seed);
        let n = 1 + random.below(if seed % 8 == 0 { 16 } else { 5 });
        let r = random.below(n);
        let mut group = group::Group::resilient(n as u32, GROUP, r as u32).unwrap();
        let mut run = Run::fresh(n as u32, GROUP, r as u32).unwrap();
        for _ in 0..400 {
            let member = random.below(n + 1);
            let written = group.packets.len() + 1;
            let packet = if random.below(4) == 0 {
                random.below(written)
            } else {
                written - 1 - random.below(written.min(4 * n + 4))
            };
            let event = match random.below(16) {
                0..3 => group::Event::Submit {
                    member,
                    payload: vec![random.next() as u8; random.below(4)],
                },
                3 => group::Event::Repeat { member },
                4..6 => group::Event::Take { member },
                6 => group::Event::Status { member },
                7 => group::Event::Poll,
                8 => group::Event::Copy {
                    number: random.below(24) as u32,
                },
                9..12 => group::Event::ToSequencer { packet },
                _ => group::Event::ToMember { packet, member },
            };
            let outcome = group.step(&event);
            let event = Event::from(event);
            assert!(run.is_allowed(&event));
            assert_eq!(run.step(&event), outcome);
        }
        assert_eq!(run.world.packets, group.packets);
        let mut terminals = run.world.terminals.iter();
        assert!(terminals.clone().all(Terminal::is_sound));
        assert_eq!(run.world.terminals[0].sequencer, group.sequencer);
        assert!(
            group
                .members
                .iter()
                .all(|m| *m == terminals.next().unwrap().member)
        );
        assert!(run.is_claimed());
        assert_eq!(run.demand_3(), Ok(()));
        assert_eq!(run.closes(), Ok(()));
    }
}
