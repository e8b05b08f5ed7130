//! Seeded random lists within the limits: terminals are lost, attempts are
//! abandoned, results come late or never, and a second attempt is made under
//! the old number. After each event the claim holds where it is claimed, and
//! at each making every accepted message survives if at most r are lost.

mod common;

use common::{GROUP, Random};
use model::Answer;
use model::group::Outcome;
use model::limits::PAYLOAD;
use model::packet::{self, Header};
use model::sequencer::Sequencer;
use model::terminal::Terminal;
use model::world::{Event, Making, Run};
use std::collections::BTreeMap;

/// How often each thing was seen, so that nothing is claimed of nothing.
#[derive(Default)]
struct Seen(BTreeMap<&'static str, usize>);

impl Seen {
    fn when(&mut self, is_so: bool, what: &'static str) {
        if is_so {
            *self.0.entry(what).or_default() += 1;
        }
    }
}

/// A list that is being written, event by event.
struct List {
    random: Random,
    run: Run,
    /// Who gets no packet of this attempt.
    unreachable: u16,
    /// The attempt's invitation, its replies and its result, by index.
    attempt: Vec<usize>,
    /// Those of earlier attempts.
    earlier: Vec<Vec<usize>>,
    /// Who seldom takes, but keeps and acknowledges.
    asleep: u16,
    /// Where the order was cut by the last making, and under which number it
    /// was made.
    cut: u32,
    under: u32,
    seen: Seen,
}

impl List {
    fn new(seed: u64, n: u32, r: u32) -> List {
        let mut random = Random::seeded(seed);
        let asleep = (random.next() & random.next()) as u16;
        List {
            random,
            run: Run::fresh(n, GROUP, r).unwrap(),
            unreachable: 0,
            attempt: Vec::new(),
            earlier: Vec::new(),
            asleep,
            cut: 0,
            under: GROUP,
            seen: Seen::default(),
        }
    }

    fn n(&self) -> usize {
        self.run.world.terminals.len()
    }

    fn chance(&mut self, part: usize, whole: usize) -> bool {
        self.random.below(whole) < part
    }

    fn see(&mut self, what: &'static str) {
        self.seen.when(true, what);
    }

    /// A terminal, mostly one that survives.
    fn terminal(&mut self) -> usize {
        if self.chance(1, 12) {
            return self.random.below(self.n());
        }
        self.survivor()
    }

    fn survivor(&mut self) -> usize {
        let survivors: Vec<_> = self.run.course.survivors().collect();
        survivors[self.random.below(survivors.len())]
    }

    fn elected(&mut self) -> usize {
        if self.chance(1, 12) {
            return self.random.below(self.n());
        }
        self.run.course.elected
    }

    fn header(&self, packet: usize) -> Header {
        packet::read(&self.run.world.packets[packet]).unwrap()
    }

    /// Lets an event happen, if it is allowed, and checks what is claimed.
    fn step(&mut self, event: Event) -> Option<Outcome> {
        if !self.run.is_allowed(&event) {
            self.see("not allowed");
            return None;
        }
        let enters = match event {
            Event::Make { .. } => true,
            Event::ToMember { packet, .. } => {
                packet < self.run.world.packets.len() && self.header(packet).kind == 11
            }
            _ => false,
        };
        let before = enters.then(|| self.run.world.terminals.clone());
        let outcome = self.run.step(&event);
        if let Some(outcome) = &outcome {
            self.note(&event, outcome, before.as_deref());
        }
        if let Some(touched) = self.run.world.terminals.get(terminal_of(&event)) {
            assert!(touched.is_sound());
        }
        if enters {
            assert_eq!(self.run.survival(), Ok(()));
        }
        self.check();
        outcome
    }

    /// Counts what was seen, and follows the attempt.
    fn note(&mut self, event: &Event, outcome: &Outcome, before: Option<&[Terminal]>) {
        match outcome.answer {
            Answer::Refused(refusal) => match refusal.number() {
                1..=5 => panic!("{event:?} is refused with {}", refusal.number()),
                6 => self.see("refused 6"),
                7 => self.see("refused 7"),
                8 => self.see("refused 8"),
                9 => self.see("refused 9"),
                10 => self.see("refused 10"),
                12 => self.see("refused 12"),
                25 => self.see("refused 25"),
                26 => self.see("refused 26"),
                27 => self.see("refused 27"),
                _ => self.see("refused otherwise"),
            },
            Answer::Numbered(_) => self.see("numbered"),
            Answer::Accepted => self.see("accepted"),
            Answer::Again(_) => self.see("again"),
            Answer::Full => self.see("full"),
            _ => (),
        }
        if let Some(packet) = outcome.packet {
            match self.header(packet).kind {
                9 => {
                    let Event::Invite { terminal, .. } = *event else {
                        panic!("an invitation by {event:?}")
                    };
                    self.invites(terminal, packet);
                }
                10 => {
                    self.attempt.push(packet);
                    self.see("replies");
                }
                11 => {
                    self.attempt.push(packet);
                    self.makes(before.unwrap());
                }
                _ => (),
            }
        }
        if let (&Event::ToMember { packet, terminal }, Answer::Noted) = (event, outcome.answer)
            && self.header(packet).kind == 11
        {
            self.see("results");
            let old = &before.unwrap()[terminal];
            self.entered(terminal, old);
        }
    }

    fn invites(&mut self, terminal: usize, packet: usize) {
        self.see("attempts");
        if self.run.world.terminals[terminal].member.group != self.run.course.number {
            self.see("attempts under the old number");
        }
        let before = std::mem::replace(&mut self.attempt, vec![packet]);
        self.earlier.push(before);
        let n = self.n();
        self.unreachable = match self.random.below(8) {
            0..3 => 0,
            3..5 => 1 << self.run.course.elected,
            5..7 => 1 << self.random.below(n),
            _ => (self.random.next() & self.random.next()) as u16,
        };
    }

    fn makes(&mut self, before: &[Terminal]) {
        let (run, seen) = (&self.run, &mut self.seen);
        let Making {
            before: old, firm, ..
        } = run.making.as_ref().unwrap();
        let new = &run.course;
        let lost = old.survivors.count_ones() - new.survivors.count_ones();
        let others = new.survivors.count_ones() - 1;
        let (_, initiator) = new.attempt.unwrap();
        seen.when(true, "makings");
        seen.when(lost == 0, "makings where all survive");
        if *firm && lost <= run.resilience() {
            let is_lost = !new.survives(old.elected);
            seen.when(true, "survival claimed");
            seen.when(lost > 0, "survival claimed, some lost");
            seen.when(is_lost, "survival claimed, sequencer lost");
            seen.when(
                old.number != GROUP,
                "survival claimed behind a closing round",
            );
        }
        seen.when(*firm && lost > run.resilience(), "more than r lost");
        seen.when(!firm, "makings without a closing round before");
        seen.when(
            new.order.len() < old.order.len(),
            "makings that cut the order",
        );
        seen.when(
            others < run.resilience(),
            "makings with fewer than r others",
        );
        seen.when(others == 0, "makings of one alone");
        let late = before[initiator].member.group != old.number;
        seen.when(late, "makings under the number before");
        let elected = &before[new.elected];
        seen.when(elected.serves(), "elected as sequencer");
        if !elected.serves() {
            let floor = elected.floor();
            seen.when(true, "elected as member");
            seen.when(floor > 0, "elected as member, floor above 0");
            let full = elected.member.reach() - floor == 32;
            seen.when(full, "elected as member, floor reach - 32");
            let reached = floor == elected.member.reach();
            seen.when(reached && floor > 0, "elected as member, floor reach");
        }
        let waits = new
            .survivors()
            .any(|i| before[i].member.group != before[initiator].member.group);
        assert!(!waits, "a survivor of another group");
        (self.cut, self.under) = (new.order.len() as u32, before[initiator].member.group);
        self.entered(initiator, &before[initiator]);
        self.unreachable = match self.random.below(4) {
            0 => self.random.next() as u16,
            _ => 0,
        };
    }

    /// A terminal entered the new group.
    fn entered(&mut self, terminal: usize, old: &Terminal) {
        let (new, seen) = (&self.run.world.terminals[terminal], &mut self.seen);
        let lowered = new.member.accepted < old.member.accepted;
        seen.when(lowered, "accepted lowered");
        let dropped = new.member.held.count_ones() < old.member.held.count_ones();
        seen.when(dropped, "held ones dropped");
        let stays = new.sequencing && !new.serves();
        seen.when(stays && old.serves(), "sequencers left in the old group");
    }

    /// What holds between events, claimed or not: why the claims do.
    fn invariant(&self) {
        let List {
            run, cut, under, ..
        } = self;
        let (course, terminals) = (&run.course, &run.world.terminals);
        let number = course.number;
        let open = course.attempt.filter(|&(attempt, _)| attempt != number);
        let orders = course.order.len() as u32;
        let is_in = |i: usize| terminals[i].member.group == number;
        // Numbers in use were used, and none is the open attempt's.
        for (i, terminal) in terminals.iter().enumerate() {
            let sequencer = terminal.sequencing.then_some(terminal.sequencer.group);
            for group in [Some(terminal.member.group), sequencer]
                .into_iter()
                .flatten()
            {
                assert!(course.used.contains(&group));
                assert!(open.is_none_or(|(attempt, _)| attempt != group));
            }
            // A packet of number s has a floor of at least s - 32, and no floor
            // is above what its reader acknowledged: neither bound is met.
            assert_eq!(terminal.floor(), terminal.kept.read);
            // Only the elected one has a sequencer of the group's number.
            assert!(sequencer != Some(number) || i == course.elected && is_in(i));
        }
        // The elected one replies with the whole order, with the result or not.
        let elected = &terminals[course.elected];
        assert_eq!(elected.reply_number(), orders);
        let agreed = if is_in(course.elected) {
            assert!(elected.serves() && elected.sequencer.survivors == course.survivors);
            assert!(open.is_some() || !elected.frozen);
            elected.sequencer.accepted
        } else {
            assert_eq!((elected.reset.number, orders), (*cut, *cut));
            *cut
        };
        assert!(*cut <= agreed && agreed <= orders);
        let (mut highest_floor, mut lowest_row) = (0, u32::MAX);
        for i in course.survivors() {
            let terminal = &terminals[i];
            let member = &terminal.member;
            let row = if is_in(i) {
                assert!(member.taken <= member.accepted && member.accepted <= agreed);
                // A reply is open only while an attempt is.
                assert!(open.is_some() || !terminal.reset.replied);
                member.row_end()
            } else {
                assert_eq!(member.group, *under);
                assert!(terminal.reset.replied && terminal.reset.number <= *cut);
                member.reach()
            };
            // What it would reply with begins the order.
            assert!(terminal.reply_number() <= orders);
            if terminal.serves() {
                let Sequencer { floor, top, .. } = terminal.sequencer;
                for below in floor..top {
                    let message = &course.order[below as usize];
                    let place = &terminal.sequencer.history[(below as usize + 1) % 32];
                    assert_eq!(
                        (message.originator, message.count),
                        (place.originator, place.count)
                    );
                }
                highest_floor = floor.max(highest_floor);
            }
            // A sequencer that is not frozen is the elected one's.
            let awake = terminal.sequencing && !terminal.frozen;
            assert!(!awake || i == course.elected && terminal.serves() && is_in(i));
            highest_floor = terminal.kept.read.max(terminal.floor()).max(highest_floor);
            lowest_row = row.min(lowest_row);
        }
        // Who is elected next can serve everybody.
        assert!(highest_floor <= lowest_row && orders <= lowest_row + 32);
        // Replies that came are what their senders have; a made group's
        // invitation is closed.
        if let Some((attempt, initiator)) = course.attempt {
            let inviting = &terminals[initiator];
            assert_eq!(inviting.reset.inviting, open.is_some());
            for i in (0..16).filter(|&i| open.is_some() && inviting.reset.repliers >> i & 1 == 1) {
                let Terminal { member, reset, .. } = &terminals[i];
                assert!(course.survives(i) && member.group == inviting.member.group);
                assert!(reset.replied && reset.number == inviting.reset.replies[i]);
                assert_eq!(inviting.reset.invited, attempt);
            }
        }
        // Why an accepted message survives.
        if run.firm {
            let others = course.survivors().filter(|&i| i != course.elected);
            let needed = run.resilience().min(course.survivors.count_ones() - 1);
            let has = others.filter(|&i| agreed <= terminals[i].member.reach());
            assert!(course.survivors().all(is_in) && needed <= has.count() as u32);
        }
    }

    fn check(&mut self) {
        self.invariant();
        let run = &self.run;
        assert_eq!(run.begins(), Ok(()));
        let orders = run.course.order.len();
        self.seen.when(orders > 32, "orders of more than 32");
        self.seen.when(orders > 64, "orders of more than 64");
        if run.is_claimed() {
            assert_eq!(run.demand_3(), Ok(()));
            self.see("claimed");
            let made = self.run.making.is_some();
            if made {
                self.see("claimed behind a making");
            }
            let every = 4 + 2 * self.n() * self.n();
            if self.chance(1, every) {
                assert_eq!(self.run.closes(), Ok(()));
                self.see(if made {
                    "closed behind a making"
                } else {
                    "closed"
                });
            }
        } else {
            self.see("not claimed");
        }
    }

    /// An event of any kind; most are of use.
    fn event(&mut self) {
        let (attempt, number) = (self.run.course.attempt, self.run.course.number);
        let is_open = attempt.is_some_and(|(attempt, _)| attempt != number);
        let is_claimed = self.run.is_claimed();
        if !is_claimed {
            match self.random.below(24) {
                0..14 => return self.attempt(),
                14..16 if is_open => return self.make(),
                _ => (),
            }
        }
        match self.random.below(100) {
            0..16 => self.submit(),
            16..18 => {
                let terminal = self.terminal();
                self.write(Event::Repeat { terminal });
            }
            18..28 => {
                let terminal = self.terminal();
                self.take(terminal);
            }
            28..31 => {
                let terminal = self.terminal();
                self.write(Event::Status { terminal });
            }
            31..33 => {
                let terminal = self.elected();
                self.step(Event::Poll { terminal });
            }
            33..38 => {
                let terminal = self.elected();
                let top = self.run.course.order.len() as u32;
                let number = (top + 2).saturating_sub(self.random.below(16) as u32);
                self.step(Event::Copy { terminal, number });
            }
            38..46 => self.flood(),
            46..50 => self.acknowledge(),
            50..53 => self.rounds(),
            53..55 if is_claimed && self.chance(1, 3) => {
                self.run.closing_round();
                let terminals = &self.run.world.terminals;
                assert!(terminals.iter().all(Terminal::is_sound));
                self.see("closing rounds");
                self.check();
                // All have the same then: the lowest is elected.
                if self.chance(1, 3) {
                    self.invite();
                }
            }
            55 if is_claimed && self.chance(1, 2) => self.invite(),
            // Another attempt, before this one is made or all have its result.
            55..57 if !is_claimed && self.chance(1, 3) => self.invite(),
            57 if self.chance(1, 8) => self.make(),
            58 => self.late(),
            _ => self.hand(),
        }
    }

    /// A call of a member; what it writes goes to the sequencer at once, or
    /// later, or never.
    fn write(&mut self, event: Event) {
        let packet = self.step(event).and_then(|outcome| outcome.packet);
        if let Some(packet) = packet
            && self.chance(3, 4)
        {
            let terminal = self.elected();
            self.step(Event::ToSequencer { packet, terminal });
        }
    }

    fn take(&mut self, terminal: usize) {
        if self.asleep >> terminal & 1 == 0 || self.chance(1, 24) {
            self.step(Event::Take { terminal });
        }
    }

    /// A member submits, or repeats what waits.
    fn submit(&mut self) {
        let payload = self.payload();
        let terminal = self.terminal();
        let waiting = self.run.world.terminals[terminal].member.waiting;
        if usize::from(waiting) > self.random.below(6) {
            self.write(Event::Repeat { terminal });
        } else {
            self.write(Event::Submit { terminal, payload });
        }
    }

    fn payload(&mut self) -> Vec<u8> {
        let length = match self.random.below(8) {
            0 => PAYLOAD,
            1 => 0,
            _ => self.random.below(6),
        };
        let byte = self.random.next() as u8;
        (0..length).map(|at| byte.wrapping_add(at as u8)).collect()
    }

    /// A packet goes where it belongs, mostly.
    fn hand(&mut self) {
        let written = self.run.world.packets.len();
        if written == 0 {
            return;
        }
        let recent = written.min(3 * self.n() + 8);
        let packet = if self.chance(1, 8) {
            self.random.below(written)
        } else {
            written - 1 - self.random.below(recent)
        };
        let header = self.header(packet);
        let to_sequencer = matches!(header.kind, 1 | 3 | 4 | 7);
        if to_sequencer != self.chance(1, 32) {
            // The elected one's, or any that has its number.
            let terminals = &self.run.world.terminals;
            let is_own = |&i: &usize| terminals[i].sequencer.group == header.group;
            let own = (0..self.n()).rev().find(is_own);
            let terminal = match own {
                Some(own) if self.chance(1, 3) => own,
                _ => self.elected(),
            };
            self.step(Event::ToSequencer { packet, terminal });
        } else {
            let terminal = self.terminal();
            self.step(Event::ToMember { packet, terminal });
        }
    }

    /// A message of the sequencer's goes to most survivors.
    fn flood(&mut self) {
        let written = self.run.world.packets.len();
        let recent = (written.saturating_sub(4 * self.n() + 8)..written).rev();
        let packets: Vec<_> = recent
            .filter(|&packet| matches!(self.header(packet).kind, 2 | 5 | 6 | 8))
            .take(4)
            .collect();
        if packets.is_empty() {
            return;
        }
        let packet = packets[self.random.below(packets.len())];
        let survivors: Vec<_> = self.run.course.survivors().collect();
        for terminal in survivors {
            if self.chance(3, 4) {
                let outcome = self.step(Event::ToMember { packet, terminal });
                let answer = outcome.and_then(|outcome| outcome.packet);
                if let Some(packet) = answer
                    && self.chance(3, 4)
                {
                    let terminal = self.elected();
                    self.step(Event::ToSequencer { packet, terminal });
                }
            }
        }
    }

    /// A few messages are numbered, get around and are acknowledged, with
    /// little lost.
    fn rounds(&mut self) {
        for _ in 0..1 + self.random.below(8) {
            self.submit();
            self.flood();
            self.flood();
            if self.chance(1, 3) {
                self.acknowledge();
            }
        }
    }

    /// Most survivors take something and say so.
    fn acknowledge(&mut self) {
        let survivors: Vec<_> = self.run.course.survivors().collect();
        for terminal in survivors {
            for _ in 0..self.random.below(4) {
                self.take(terminal);
            }
            if self.chance(3, 4) {
                let outcome = self.step(Event::Status { terminal });
                if let Some(packet) = outcome.and_then(|outcome| outcome.packet) {
                    let terminal = self.run.course.elected;
                    self.step(Event::ToSequencer { packet, terminal });
                }
            }
        }
    }

    /// One that is still without the last result invites, if there is one,
    /// half of the time.
    fn invite(&mut self) {
        let number = self.run.course.number;
        let without: Vec<_> = self
            .run
            .course
            .survivors()
            .filter(|&i| self.run.world.terminals[i].member.group != number)
            .collect();
        let terminal = if without.is_empty() || self.chance(1, 2) {
            self.terminal()
        } else {
            without[self.random.below(without.len())]
        };
        let number = match self.random.below(8) {
            0 => self.random.below(12) as u32,
            1 => u32::MAX - self.random.below(4) as u32,
            _ => self.random.next() as u32,
        };
        self.step(Event::Invite { terminal, number });
    }

    /// A packet of the attempt goes to one that is reachable, a reply to the
    /// one that invited; now and then to any terminal.
    fn attempt(&mut self) {
        let Some((number, initiator)) = self.run.course.attempt else {
            return;
        };
        let any = self.random.below(self.attempt.len());
        let packet = if self.chance(1, 12) {
            self.attempt[any]
        } else if number == self.run.course.number {
            *self.attempt.last().unwrap()
        } else if any.is_multiple_of(2) {
            self.attempt[0]
        } else {
            // The latest, so that most replies are each one's first.
            self.attempt[self.attempt.len() - 1 - self.random.below(self.attempt.len().min(4))]
        };
        let terminal = if self.chance(1, 10) {
            self.random.below(self.n())
        } else if self.header(packet).kind == 10 {
            initiator
        } else {
            let terminal = self.survivor();
            if self.unreachable >> terminal & 1 == 1 {
                return;
            }
            terminal
        };
        self.step(Event::ToMember { packet, terminal });
    }

    /// An earlier invitation and what came of it go to a survivor, which the
    /// limits shut out.
    fn late(&mut self) {
        if self.earlier.is_empty() {
            return;
        }
        let last = self.earlier.len() - 1;
        let earlier = self.earlier[last - self.random.below(1 + last.min(2))].clone();
        if let [invitation, .., result] = earlier[..] {
            let terminal = self.survivor();
            for packet in [invitation, result] {
                self.step(Event::ToMember { packet, terminal });
            }
        }
    }

    /// Mostly who invited makes, with a demand that is mostly met.
    fn make(&mut self) {
        let terminal = match self.run.course.attempt {
            Some((_, initiator)) => initiator,
            None => self.terminal(),
        };
        let terminal = if self.chance(1, 8) {
            self.terminal()
        } else {
            terminal
        };
        let replied = self.run.world.terminals[terminal]
            .reset
            .repliers
            .count_ones();
        let reachable = self.run.course.survivors & !self.unreachable;
        // Early only now and then.
        if replied < reachable.count_ones() && !self.chance(1, 30) {
            return;
        }
        let demand = match self.random.below(4) {
            0 => replied + 1,
            1 => 0,
            2 => replied,
            _ => 1,
        };
        self.step(Event::Make { terminal, demand });
    }
}

/// The terminal that an event is at.
fn terminal_of(event: &Event) -> usize {
    match *event {
        Event::Submit { terminal, .. }
        | Event::Repeat { terminal }
        | Event::Take { terminal }
        | Event::Status { terminal }
        | Event::Poll { terminal }
        | Event::Copy { terminal, .. }
        | Event::ToMember { terminal, .. }
        | Event::ToSequencer { terminal, .. }
        | Event::Invite { terminal, .. }
        | Event::Make { terminal, .. } => terminal,
    }
}

/// What lists of every size must have seen.
const SEEN: &[&str] = &[
    "accepted",
    "accepted lowered",
    "again",
    "attempts under the old number",
    "claimed behind a making",
    "closed",
    "closed behind a making",
    "closing rounds",
    "elected as member",
    "elected as member, floor above 0",
    "elected as sequencer",
    "held ones dropped",
    "makings of one alone",
    "makings that cut the order",
    "makings under the number before",
    "makings where all survive",
    "makings with fewer than r others",
    "makings without a closing round before",
    "more than r lost",
    "not allowed",
    "refused 26",
    "refused 27",
    "refused 6",
    "refused 7",
    "sequencers left in the old group",
    "survival claimed behind a closing round",
    "survival claimed, sequencer lost",
    "survival claimed, some lost",
];

fn lists(seeds: std::ops::Range<u64>, members: std::ops::RangeInclusive<u32>, events: usize) {
    let mut seen = Seen::default();
    let (mut count, mut happened) = (0, 0);
    for n in members {
        for r in 0..n {
            for seed in seeds.clone() {
                let mut list = List::new(seed << 16 | u64::from(n << 8 | r), n, r);
                // Of one alone there is little to see.
                let mut alone = 0;
                while list.run.events < events && alone < 60 {
                    list.event();
                    alone += usize::from(n > 1 && list.run.course.survivors.count_ones() == 1);
                }
                count += 1;
                happened += list.run.events;
                for (what, times) in list.seen.0 {
                    *seen.0.entry(what).or_default() += times;
                }
            }
        }
    }
    println!("{count} lists, {happened} events");
    for (what, times) in &seen.0 {
        println!("{times:9} {what}");
    }
    for what in SEEN {
        assert!(seen.0.contains_key(what), "never seen: {what}");
    }
}

#[test]
fn few_terminals() {
    lists(0..48, 1..=4, 1500);
}

#[test]
fn some_terminals() {
    lists(0..10, 5..=8, 2500);
}

#[test]
fn many_terminals() {
    lists(0..3, 9..=16, 3500);
}
