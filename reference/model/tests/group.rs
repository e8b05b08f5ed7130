//! Demand 3: whatever happens to a group, what a member took and what it is
//! owed, its row and the history above it, is the whole of the accepted
//! messages, and a closing round hands them all out. With a resilience degree
//! r, r members other than 0 have what was taken. Beside it the work lists,
//! which takes feed.

mod common;

use common::{GROUP, Random};
use model::answer::{Answer, Refusal};
use model::group::{Event, Lists, Message, Outcome, Run};
use model::jobs::{Fed, GIVEN, Job, List};
use model::limits::PAYLOAD;
use model::longest::longest_closing;
use model::member::Member;
use model::place::Place;
use model::sequencer::Sequencer;
use std::collections::BTreeSet;

/// Whether a member has a message, taken or held.
fn has(member: &Member, number: u32) -> bool {
    let is_held = || member.held >> (number % 8) & 1 == 1;
    number <= member.taken || number <= member.taken + 8 && is_held()
}

/// The last number up to which a member has everything, a number at a time.
fn reach(member: &Member) -> u32 {
    let mut end = member.taken;
    while has(member, end + 1) {
        end += 1;
    }
    end
}

/// The last number up to which it has everything and knows it accepted.
fn row_end(member: &Member) -> u32 {
    reach(member).min(member.accepted)
}

/// What a member acknowledges is its row end, which lies between floor and
/// the last accepted number; what it is owed is that row and the history above
/// it, nothing twice.
fn check_row(run: &Run, at: usize) {
    let member = &run.group.members[at];
    let sequencer = &run.group.sequencer;
    let end = row_end(member);
    assert_eq!((member.reach(), member.row_end()), (reach(member), end));
    assert!((sequencer.floor..=sequencer.accepted).contains(&end));
    assert!((member.taken..=sequencer.accepted).contains(&member.accepted));
    let owed = run.owed(at);
    assert!(
        owed.iter()
            .map(|m| m.number)
            .eq(member.taken + 1..=sequencer.accepted)
    );
    for message in owed {
        let place = if message.number <= end {
            &member.places[message.number as usize % 8]
        } else {
            &sequencer.history[message.number as usize % 32]
        };
        assert_eq!(
            (message.originator, message.count, &message.payload[..]),
            (place.originator, place.count, place.payload.as_slice())
        );
    }
}

/// Each message that anyone took, r members other than 0 have.
fn check_resilience(run: &Run) {
    let members = &run.group.members;
    let taken = members.iter().map(|member| member.taken);
    // What all took, all have.
    let (least, most) = (taken.clone().min().unwrap(), taken.max().unwrap());
    for number in least + 1..=most {
        let having = members[1..].iter().filter(|member| has(member, number));
        assert!(having.count() >= run.group.sequencer.resilience.into());
    }
}

/// A packet that was just written acknowledges the row end of the state that
/// the call left; an answer says what its sender has. The sequencer sends a
/// kind 2 or 8 of accepted numbers, and a kind 6 of the others.
fn check_written(run: &Run, packet: usize) {
    let bytes = &run.group.packets[packet];
    let a = u32::from_be_bytes(bytes[8..12].try_into().unwrap());
    let sequencer = &run.group.sequencer;
    match bytes[0] {
        1 | 3 | 4 => assert_eq!(a, row_end(&run.group.members[usize::from(bytes[1])])),
        2 => assert!(a <= sequencer.accepted),
        6 => assert!(a > sequencer.accepted),
        7 => {
            assert!((1..=sequencer.resilience).contains(&bytes[1]));
            assert!(a <= reach(&run.group.members[usize::from(bytes[1])]));
        }
        8 => assert_eq!(a, sequencer.accepted),
        _ => assert_eq!(a, sequencer.top),
    }
}

/// How long the closing round is: the row, three events for each accepted
/// number above it, a status and its handing over.
fn closing_length(run: &Run) -> usize {
    let last = run.group.sequencer.accepted;
    let member = |state: &Member| row_end(state) - state.taken + 3 * (last - row_end(state)) + 2;
    run.group.members.iter().map(member).sum::<u32>() as usize
}

/// The list of the messages that a terminal took, fed one by one from the
/// empty list, and how many jobs were added and finished on the way.
fn fed(taken: &[Message]) -> (List, usize, usize) {
    let (mut list, mut added, mut finished) = (List::empty(), 0, 0);
    for message in taken {
        let held = |job: &Job| job.state == GIVEN && job.member == message.originator;
        let held = list.records.iter().any(held);
        match list.feed(message.originator, &message.payload) {
            Fed::Refused(_) => (),
            Fed::Added => added += 1,
            Fed::Given(_) | Fed::None => finished += usize::from(held),
        }
    }
    (list, added, finished)
}

/// A terminal's list is that of the messages that it took, whatever else
/// happened; terminals with the same taken messages hold the same list; and
/// jobs added = waiting + given + finished.
fn check_lists(run: &Run) {
    let lists: Vec<&List> = run.lists.iter().collect();
    assert_eq!(lists.len(), run.group.members.len());
    let taken: Vec<Vec<Message>> = (0..lists.len()).map(|at| run.taken(at)).collect();
    for (at, list) in lists.iter().enumerate() {
        assert!(list.is_sound());
        let (left, added, finished) = fed(&taken[at]);
        assert_eq!(**list, left);
        assert_eq!(added, list.jobs().len() + finished);
        for (other, same) in taken[..at].iter().zip(&lists) {
            assert!(*other != taken[at] || same == list);
        }
    }
}

/// An event feeds a list exactly if it handed out a message, and only its own
/// terminal's. A refused feed leaves the list, and the take stands.
fn check_feed(
    run: &Run,
    lists: &mut Lists,
    event: &Event,
    outcome: Option<&Outcome>,
) -> Option<Fed> {
    let took = outcome.is_some_and(|outcome| matches!(outcome.answer, Answer::Took { .. }));
    let Event::Take { member } = *event else {
        assert!(!took);
        assert_eq!(lists.follow(event, outcome), None);
        return None;
    };
    let before = lists.iter().nth(member).cloned();
    let told = lists.follow(event, outcome);
    assert_eq!(told.is_some(), took);
    let after = lists.iter().nth(member);
    assert_eq!(run.lists.iter().nth(member), after);
    if matches!(told, None | Some(Fed::Refused(_))) {
        assert_eq!(after, before.as_ref());
    }
    told
}

/// The claim after any list of events.
fn check(run: &Run) {
    let n = run.group.members.len();
    let order = run.order();
    assert!(order.iter().map(|m| m.number).eq(1..=order.len() as u32));
    assert_eq!(run.group.sequencer.top as usize, order.len());
    let accepted = &order[..run.group.sequencer.accepted as usize];
    assert_eq!(run.accepted(), accepted);
    if run.group.sequencer.resilience == 0 {
        assert_eq!(accepted, order);
    }
    let mut sum = 0;
    for member in 0..n {
        let taken = run.taken(member);
        let owed = run.owed(member);
        assert_eq!(run.group.members[member].taken as usize, taken.len());
        sum += taken.len() + owed.len();
        assert_eq!([taken, owed].concat(), accepted);
        check_row(run, member);

        let submissions = run.submissions(member);
        let own: Vec<(u32, Vec<u8>)> = order
            .iter()
            .filter(|message| usize::from(message.originator) == member)
            .map(|message| (message.count, message.payload.clone()))
            .collect();
        assert!(own.len() <= submissions.len() && submissions.len() <= own.len() + 5);
        assert_eq!(own[..], submissions[..own.len()]);
    }
    assert_eq!(sum, n * accepted.len());
    check_resilience(run);
    assert!(run.group.sequencer.is_sound());
    assert!(run.group.members.iter().all(|member| member.is_sound()));
}

/// The claim about the closing round.
fn close(run: &mut Run) {
    let n = run.group.members.len();
    let order = run.order();
    let Sequencer {
        accepted,
        resilience,
        ..
    } = run.group.sequencer;
    let (first, others) = order.split_at(accepted as usize);
    let submissions: Vec<_> = (0..n).map(|member| run.submissions(member)).collect();
    let written = run.group.packets.len();
    let length = closing_length(run);
    assert!(length <= 106 * n);
    assert!(resilience > 0 || length <= longest_closing(n));
    assert_eq!(run.closing_round(), length);
    assert_eq!(run.order(), order);
    // Its copies are kind 2, and no member answers them.
    let new = &run.group.packets[written..];
    assert!(new.iter().all(|bytes| matches!(bytes[0], 2 | 4)));
    let sequencer = &run.group.sequencer;
    assert_eq!((sequencer.floor, sequencer.accepted), (accepted, accepted));
    let mut history = [Place::EMPTY; 32];
    for message in others {
        let place = &mut history[message.number as usize % 32];
        (place.originator, place.count) = (message.originator, message.count);
        place.payload.length = message.payload.len() as u8;
        place.payload.bytes[..message.payload.len()].copy_from_slice(&message.payload);
    }
    assert_eq!(sequencer.history, history);
    for (member, submissions) in submissions.iter().enumerate() {
        assert_eq!(run.taken(member), first);
        assert!(run.owed(member).is_empty());
        assert_eq!(run.submissions(member), *submissions);
    }
    let alike = run.lists.iter().zip(run.lists.iter().skip(1));
    alike.for_each(|(list, next)| assert_eq!(list, next));
    check(run);
}

/// Makes schedules: events by chance, mixed with the handing over of what
/// was just written, so that long orders come about. Packets are lost,
/// doubled, reordered and handed over long after.
struct Scheduler {
    random: Random,
    /// Deliveries that are due, in no order.
    due: Vec<Event>,
    /// Members that seldom take, one bit each.
    lazy: usize,
}

impl Scheduler {
    fn seeded(seed: u64) -> Scheduler {
        let mut random = Random::seeded(seed);
        let lazy = match random.below(3) {
            0 => 0,
            _ => random.below(1 << 16) & random.below(1 << 16),
        };
        Scheduler {
            random,
            due: Vec::new(),
            lazy,
        }
    }

    fn chance(&mut self, of: usize) -> bool {
        self.random.below(of) == 0
    }

    fn next(&mut self, run: &Run) -> Event {
        if !self.due.is_empty() && !self.chance(4) {
            let at = self.random.below(self.due.len());
            return self.due.swap_remove(at);
        }
        let n = run.group.members.len();
        let written = run.group.packets.len();
        let absent = self.chance(40);
        let member = self.random.below(n) + if absent { n } else { 0 };
        let packet = self.random.below(written + 1) + if absent { written } else { 0 };
        match self.random.below(100) {
            0..18 => {
                let length = match self.random.below(8) {
                    0 => PAYLOAD - 1 + self.random.below(3),
                    _ => self.random.below(12),
                };
                let mut payload: Vec<u8> = (0..length).map(|_| self.random.next() as u8).collect();
                // Half of them are for the work list.
                match self.random.below(6) {
                    0..2 => payload.first_mut().into_iter().for_each(|first| *first = 1),
                    2 => payload = vec![2],
                    _ => (),
                }
                Event::Submit { member, payload }
            }
            18..36 => Event::Repeat { member },
            36..66 if self.lazy >> member & 1 == 1 && !self.chance(40) => Event::Poll,
            36..66 => Event::Take { member },
            66..74 => Event::Status { member },
            74..76 => Event::Poll,
            76..82 => {
                let sequencer = &run.group.sequencer;
                let kept = (sequencer.top - sequencer.floor) as usize;
                let number = sequencer.floor + self.random.below(kept + 2) as u32;
                Event::Copy { number }
            }
            82..91 => Event::ToMember { packet, member },
            _ => Event::ToSequencer { packet },
        }
    }

    /// Makes deliveries due, but not all and some twice.
    fn follow(&mut self, run: &Run, outcome: &Outcome) {
        if let Some(packet) = outcome.packet {
            if matches!(run.group.packets[packet][0], 2 | 5 | 6 | 8) {
                for member in 0..run.group.members.len() {
                    self.deliver(Event::ToMember { packet, member });
                }
            } else {
                self.deliver(Event::ToSequencer { packet });
            }
        }
        if let Answer::Wanted(first, last) = outcome.answer {
            for number in first..=last {
                self.deliver(Event::Copy { number });
            }
        }
        if let Answer::Took { more: true, .. } = outcome.answer {
            let (last, _) = run.log.last().unwrap();
            self.deliver(last.clone());
        }
        while self.due.len() > 100 {
            let at = self.random.below(self.due.len());
            self.due.swap_remove(at);
        }
    }

    fn deliver(&mut self, event: Event) {
        if !self.chance(5) {
            self.due.push(event.clone());
        }
        if self.chance(10) {
            self.due.push(event);
        }
    }
}

/// The answer without its numbers; a refusal with its question.
fn name(answer: Option<Answer>) -> String {
    match answer {
        None => "absent".into(),
        Some(Answer::Refused(refusal)) => format!("refused {}", refusal.number()),
        Some(answer) => {
            let words = answer.to_string();
            words.split(' ').next().unwrap_or_default().into()
        }
    }
}

/// The answer of a list without its place; a refusal with its question.
fn list_name(answer: Fed) -> String {
    match answer {
        Fed::Refused(refusal) => format!("refused {} by a list", refusal.number()),
        Fed::Added => "added".into(),
        Fed::Given(_) => "given".into(),
        Fed::None => "none by a list".into(),
    }
}

/// What every group meets in a long schedule.
const COMMON: [&str; 22] = [
    "absent",
    "added",
    "again",
    "gap",
    "given",
    "kept",
    "none",
    "none by a list",
    "noted",
    "numbered",
    "old",
    "queued",
    "refused 13",
    "refused 14",
    "refused 15",
    "refused 17",
    "refused 19 by a list",
    "refused 8",
    "sent",
    "status",
    "took",
    "wanted",
];

/// What only a group of several can meet: alone, a member has its message
/// numbered only after it took the one before.
const SEVERAL: [&str; 4] = ["beyond", "beyondgap", "full", "keptgap"];

/// What only a group with offers can meet, and one with resilience degree 1
/// cannot: there the first mark accepts.
const OFFERS: [&str; 2] = ["accepted", "marked"];

/// The names of the answers met, how many were accepted at most, how far
/// floor lay above what a member took, and how far top above the last accepted.
struct Met {
    names: BTreeSet<String>,
    longest: u32,
    ahead: u32,
    offered: u32,
}

/// Lists of so many events, one a seed, which gives the resilience degree;
/// the claim is asked after every so many of them, resilience after each.
fn random_runs(
    n: u32,
    resilience: impl Fn(u64) -> u32,
    seeds: std::ops::Range<u64>,
    events: usize,
    every: usize,
) -> Met {
    let mut seen = BTreeSet::new();
    let (mut longest, mut ahead, mut offered) = (0, 0, 0);
    for seed in seeds {
        let mut scheduler = Scheduler::seeded(seed * 31 + u64::from(n));
        let mut run = Run::resilient(n, GROUP, resilience(seed)).unwrap();
        let mut lists = run.lists.clone();
        for at in 0..events {
            let event = scheduler.next(&run);
            let ends = (run.group.sequencer.clone(), run.group.members.clone());
            let written = run.group.packets.len();
            let outcome = run.step(event.clone());
            if let Some(told) = check_feed(&run, &mut lists, &event, outcome.as_ref()) {
                seen.insert(list_name(told));
            }
            let answer = outcome.as_ref().map(|outcome| outcome.answer);
            if matches!(answer, None | Some(Answer::Refused(_))) {
                assert_eq!(run.group.sequencer, ends.0);
                assert_eq!(run.group.members, ends.1);
                assert_eq!(run.group.packets.len(), written);
            }
            seen.insert(name(answer));
            let sequencer = &run.group.sequencer;
            assert!(ends.0.accepted <= sequencer.accepted);
            offered = offered.max(sequencer.top - sequencer.accepted);
            for (before, after) in ends.1.iter().zip(&run.group.members) {
                assert!(reach(before) <= reach(after));
                assert!(before.accepted <= after.accepted);
                ahead = ahead.max(sequencer.floor.saturating_sub(after.taken));
            }
            check_resilience(&run);
            if let Some(outcome) = outcome {
                outcome
                    .packet
                    .inspect(|&packet| check_written(&run, packet));
                scheduler.follow(&run, &outcome);
            }
            if at % every == 0 {
                check(&run);
                close(&mut run.clone());
            }
        }
        check(&run);
        check_lists(&run);
        assert_eq!(run.lists, lists);
        longest = longest.max(run.group.sequencer.accepted);
        close(&mut run);
        // A second round finds everything in place.
        assert_eq!(run.closing_round(), 2 * n as usize);
        check(&run);
    }
    Met {
        names: seen,
        longest,
        ahead,
        offered,
    }
}

fn long_lists(n: u32, seeds: u64, events: usize, at_least: u32) {
    let met = random_runs(n, |_| 0, 1000..1000 + seeds, events, 500);
    let mut expected: BTreeSet<String> = COMMON.map(String::from).into();
    if n > 1 {
        expected.extend(SEVERAL.map(String::from));
    }
    assert_eq!(met.names, expected);
    let Met { longest, ahead, .. } = met;
    assert!(longest >= at_least, "only {longest} numbered");
    assert!((1..=8).contains(&ahead), "floor {ahead} ahead");
    assert_eq!(met.offered, 0);
}

/// The same with every resilience degree from 1 to n-1, in turn.
fn long_lists_with_offers(n: u32, seeds: u64, events: usize, at_least: u32) {
    let resilience = |seed: u64| 1 + seed as u32 % (n - 1);
    let met = random_runs(n, resilience, 2000..2000 + seeds, events, 500);
    let expected = COMMON.iter().chain(&SEVERAL).chain(&OFFERS);
    let expected: BTreeSet<String> = expected
        .filter(|&&name| name != "marked" || n > 2)
        .map(|&name| name.into())
        .collect();
    assert_eq!(met.names, expected);
    let Met { longest, ahead, .. } = met;
    assert!(longest >= at_least, "only {longest} accepted");
    assert!((1..=8).contains(&ahead), "floor {ahead} ahead");
    assert!((2..=n).contains(&met.offered), "{} offered", met.offered);
}

#[test]
fn short_lists_checked_after_every_event() {
    for n in [1, 2, 3, 5, 16] {
        random_runs(n, |_| 0, 0..60, 120, 1);
    }
}

#[test]
fn short_lists_with_offers_checked_after_every_event() {
    for (n, seeds) in [(2, 60), (3, 60), (5, 60), (9, 30), (16, 30)] {
        random_runs(n, |seed| 1 + seed as u32 % (n - 1), 0..seeds, 150, 1);
    }
}

#[test]
fn long_lists_of_2_with_offers() {
    long_lists_with_offers(2, 100, 4000, 100);
}

#[test]
fn long_lists_of_3_with_offers() {
    long_lists_with_offers(3, 100, 4000, 80);
}

#[test]
fn long_lists_of_5_with_offers() {
    long_lists_with_offers(5, 100, 6000, 80);
}

#[test]
fn long_lists_of_16_with_offers() {
    long_lists_with_offers(16, 60, 15_000, 40);
}

#[test]
fn long_lists_of_1() {
    long_lists(1, 100, 4000, 200);
}

#[test]
fn long_lists_of_2() {
    long_lists(2, 100, 4000, 100);
}

#[test]
fn long_lists_of_3() {
    long_lists(3, 100, 4000, 100);
}

#[test]
fn long_lists_of_5() {
    long_lists(5, 100, 6000, 100);
}

#[test]
fn long_lists_of_16() {
    long_lists(16, 60, 15_000, 64);
}

/// All lists of events up to a depth, from a small choice of them.
fn every_list(run: &Run, depth: usize, lists: &mut usize) {
    check(run);
    close(&mut run.clone());
    *lists += 1;
    if depth == 0 {
        return;
    }
    let n = run.group.members.len();
    let written = run.group.packets.len();
    let mut events = vec![Event::Poll, Event::Copy { number: 1 }];
    for member in 0..n {
        let payload = vec![member as u8; 1 + member];
        events.push(Event::Submit { member, payload });
        events.push(Event::Repeat { member });
        events.push(Event::Take { member });
        events.push(Event::Status { member });
        events.extend((0..written).map(|packet| Event::ToMember { packet, member }));
    }
    events.extend((0..written).map(|packet| Event::ToSequencer { packet }));
    for event in events {
        let mut next = run.clone();
        next.step(event);
        every_list(&next, depth - 1, lists);
    }
}

#[test]
fn every_short_list() {
    for (n, depth, least) in [(1, 6, 20_000), (2, 5, 20_000), (3, 4, 2_000)] {
        let mut lists = 0;
        every_list(&Run::fresh(n, GROUP).unwrap(), depth, &mut lists);
        assert!(lists > least, "{lists}");
    }
}

/// After each event of a list with offers, every event that can follow.
#[test]
fn every_next_event_with_offers() {
    for (n, r) in [(2, 1), (3, 1), (3, 2), (5, 3)] {
        let mut lists = 0;
        for seed in 0..5 {
            let mut scheduler = Scheduler::seeded(7000 + seed);
            let mut run = Run::resilient(n, GROUP, r).unwrap();
            for _ in 0..50 {
                let event = scheduler.next(&run);
                if let Some(outcome) = run.step(event) {
                    scheduler.follow(&run, &outcome);
                }
                every_list(&run, 1, &mut lists);
            }
        }
        assert!(lists > 5_000, "{lists}");
    }
}

#[test]
fn a_fresh_group() {
    for n in [0, 17, 256, u32::MAX] {
        assert_eq!(Run::fresh(n, GROUP).unwrap_err(), Refusal::Opening);
    }
    for n in 1..=16 {
        let mut run = Run::fresh(n, GROUP).unwrap();
        assert!(run.group.packets.is_empty());
        for (number, member) in (0..).zip(&run.group.members) {
            assert_eq!(*member, Member::fresh(n, number, GROUP).unwrap());
        }
        assert_eq!(run.group.sequencer, Sequencer::fresh(n, GROUP).unwrap());
        check(&run);
        close(&mut run);
    }
}

#[test]
fn what_is_not_there_changes_nothing() {
    let mut run = Run::fresh(2, GROUP).unwrap();
    run.step(Event::Submit {
        member: 0,
        payload: vec![1],
    });
    let before = run.group.clone();
    let payload = vec![0; 500];
    for event in [
        Event::Submit { member: 2, payload },
        Event::Repeat { member: 99 },
        Event::Take { member: 16 },
        Event::Status { member: usize::MAX },
        Event::ToMember {
            packet: 0,
            member: 2,
        },
        Event::ToMember {
            packet: 1,
            member: 0,
        },
        Event::ToSequencer { packet: 1 },
        Event::ToSequencer {
            packet: u32::MAX as usize,
        },
    ] {
        assert_eq!(run.step(event), None);
        assert_eq!(run.group, before);
    }
    assert_eq!(run.log.len(), 9);
}

/// Member 0's next message is numbered, and it takes it at once; the
/// broadcast.
fn own(run: &mut Run) -> usize {
    own_with(run, vec![7; 3])
}

/// The same of that payload.
fn own_with(run: &mut Run, payload: Vec<u8>) -> usize {
    let sent = run.step(Event::Submit { member: 0, payload }).unwrap();
    let packet = sent.packet.unwrap();
    let numbered = run.step(Event::ToSequencer { packet }).unwrap();
    let packet = numbered.packet.unwrap();
    run.step(Event::ToMember { packet, member: 0 });
    run.step(Event::Take { member: 0 });
    packet
}

/// A member's status reaches the sequencer.
fn acknowledge(run: &mut Run, member: usize) {
    let packet = run.step(Event::Status { member }).unwrap().packet.unwrap();
    run.step(Event::ToSequencer { packet });
}

/// 102 events a member are too few: all but member 0 hold eight and took
/// none, the history is full, and its last n messages reached nobody.
#[test]
fn a_closing_round_of_more_than_102_events_a_member() {
    for n in [2usize, 3, 16] {
        let mut run = Run::fresh(n as u32, GROUP).unwrap();
        for _ in 0..8 {
            let packet = own(&mut run);
            for member in 1..n {
                run.step(Event::ToMember { packet, member });
            }
        }
        (0..n).for_each(|member| acknowledge(&mut run, member));
        assert_eq!(run.group.sequencer.floor, 8);
        for _ in n..32 {
            own(&mut run);
        }
        for member in 0..n {
            let payload = vec![9];
            let sent = run.step(Event::Submit { member, payload }).unwrap();
            let packet = sent.packet.unwrap();
            run.step(Event::ToSequencer { packet });
        }
        assert_eq!(run.group.sequencer.top, 40);
        check(&run);
        assert_eq!(closing_length(&run), 109 * n - 104);
        assert!(n < 16 || closing_length(&run) > 102 * n);
        close(&mut run);
    }
}

/// Member 0 submits, and takes its messages at once; the others hold the first
/// `held` and acknowledge them. So many are numbered, and the next is Full.
fn filled(n: u32, held: u32) -> Run {
    let mut run = Run::fresh(n, GROUP).unwrap();
    for number in 1..=32 + held {
        let packet = own(&mut run);
        for member in 1..n as usize {
            if number <= held {
                run.step(Event::ToMember { packet, member });
                acknowledge(&mut run, member);
            }
        }
    }
    let payload = vec![];
    let sent = run.step(Event::Submit { member: 0, payload }).unwrap();
    let packet = sent.packet.unwrap();
    let answer = run.step(Event::ToSequencer { packet }).unwrap().answer;
    assert_eq!(answer, Answer::Full);
    assert_eq!(run.group.sequencer.floor, held);
    check(&run);
    run
}

/// The longest closing rounds: the history full, and whoever did not submit
/// took nothing. What it holds in a row adds a take each.
#[test]
fn the_closing_round_after_a_full_history() {
    for n in [2, 3, 16] {
        for held in [0, 1, 7, 8] {
            let mut run = filled(n, held);
            let events = run.clone().closing_round();
            assert_eq!(events, (98 + held as usize) * (n as usize - 1) + 2);
            close(&mut run);
        }
    }
}

/// Every member holds a message that no member took: it is purged.
#[test]
fn a_message_is_purged_that_nobody_took() {
    let mut run = Run::fresh(3, GROUP).unwrap();
    let payload = vec![9];
    let sent = run.step(Event::Submit { member: 1, payload }).unwrap();
    let request = sent.packet.unwrap();
    let hand = Event::ToSequencer { packet: request };
    let packet = run.step(hand.clone()).unwrap().packet.unwrap();
    for member in 0..3 {
        run.step(Event::ToMember { packet, member });
        acknowledge(&mut run, member);
    }
    assert_eq!(run.group.sequencer.floor, 1);
    assert_eq!(run.group.sequencer.history, [Place::EMPTY; 32]);
    assert!(run.group.members.iter().all(|member| member.taken == 0));
    check(&run);
    // Its originator still waits for it: the repeat is old, and its take ends that.
    assert_eq!(run.group.members[1].waiting, 1);
    let again = run.step(Event::Repeat { member: 1 }).unwrap();
    let packet = again.packet.unwrap();
    let answer = run.step(Event::ToSequencer { packet }).unwrap().answer;
    assert_eq!(answer, Answer::Old);
    assert_eq!(run.step(hand).unwrap().answer, Answer::Old);
    check(&run);
    run.step(Event::Take { member: 1 });
    assert_eq!(run.group.members[1].waiting, 0);
    close(&mut run);
}

/// What is held behind a hole is owed once, from the history.
#[test]
fn held_behind_a_hole() {
    let mut run = Run::fresh(2, GROUP).unwrap();
    let mut broadcasts = Vec::new();
    for _ in 0..5 {
        broadcasts.push(own(&mut run));
    }
    for number in [1, 2, 4] {
        let packet = broadcasts[number - 1];
        run.step(Event::ToMember { packet, member: 1 });
    }
    assert_eq!(run.group.members[1].row_end(), 2);
    assert!(run.owed(1).iter().map(|m| m.number).eq(1..=5));
    check(&run);
    assert_eq!(closing_length(&run), 2 + (2 + 3 * 3 + 2));
    let packet = broadcasts[2];
    run.step(Event::ToMember { packet, member: 1 });
    assert_eq!(run.group.members[1].row_end(), 4);
    check(&run);
    assert_eq!(closing_length(&run), 2 + (4 + 3 + 2));
    close(&mut run);
}

/// Member 0's next message, taken by members 0 and 1; what their lists answer.
fn both_take(run: &mut Run, payload: &[u8]) -> Vec<Fed> {
    let payload = payload.to_vec();
    let sent = run.step(Event::Submit { member: 0, payload }).unwrap();
    let packet = sent.packet.unwrap();
    let numbered = run.step(Event::ToSequencer { packet }).unwrap();
    let packet = numbered.packet.unwrap();
    let mut lists = run.lists.clone();
    let mut answers = Vec::new();
    for member in 0..2 {
        run.step(Event::ToMember { packet, member });
        let event = Event::Take { member };
        let outcome = run.step(event.clone());
        answers.extend(check_feed(run, &mut lists, &event, outcome.as_ref()));
        acknowledge(run, member);
    }
    assert_eq!(answers.len(), 2);
    answers
}

/// What a list refuses is taken all the same: the 65th job, and what is not
/// for the list. A fetch of the full list goes.
#[test]
fn a_take_stands_though_the_list_refuses() {
    let refused = Fed::Refused;
    let mut run = Run::fresh(2, GROUP).unwrap();
    for job in 0..64 {
        assert_eq!(both_take(&mut run, &[1, job]), [Fed::Added; 2]);
    }
    let full = run.lists.clone();
    for payload in [&[1][..], &[1, 64], &[1; PAYLOAD]] {
        let told = both_take(&mut run, payload);
        assert_eq!(told, [refused(Refusal::ListFull); 2]);
    }
    for payload in [&[][..], &[0], &[2, 2], &[3, 0, 1], &[7; PAYLOAD]] {
        let told = both_take(&mut run, payload);
        assert_eq!(told, [refused(Refusal::NotForList); 2]);
    }
    assert_eq!(run.lists, full);
    assert!(run.group.members.iter().all(|member| member.taken == 72));
    assert_eq!(both_take(&mut run, &[2]), [Fed::Given(0); 2]);
    assert_eq!(
        both_take(&mut run, &[1, 65]),
        [refused(Refusal::ListFull); 2]
    );
    assert_eq!(both_take(&mut run, &[2]), [Fed::Given(0); 2]);
    assert_eq!(both_take(&mut run, &[1, 66]), [Fed::Added; 2]);
    check_lists(&run);
    check(&run);
    close(&mut run);
}

/// The closing round gives every terminal the same list.
#[test]
fn a_closing_round_makes_the_lists_alike() {
    let mut run = Run::fresh(3, GROUP).unwrap();
    for payload in [&[1, 7][..], &[1], &[2], &[9], &[1, 8]] {
        own_with(&mut run, payload.to_vec());
    }
    let lists: Vec<List> = run.lists.iter().cloned().collect();
    assert_ne!(lists[0], List::empty());
    assert_eq!(lists[1..], [List::empty(), List::empty()]);
    check_lists(&run);
    close(&mut run);
    check_lists(&run);
    assert!(run.lists.iter().all(|list| *list == lists[0]));
}
