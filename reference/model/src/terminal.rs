//! A terminal: a member, and maybe a sequencer. When the sequencer's terminal
//! dies the others make a group without it. One of them invites; each that
//! hears of it replies with the last number through which it has everything,
//! and shuts its ends; the one that invited makes the group of those whose
//! replies came, and the one with the highest number becomes sequencer.

use crate::answer::{Answer, Outcome, Refusal, settle};
use crate::limits::{HISTORY, MEMBERS, PACKET};
use crate::member::Member;
use crate::members;
use crate::packet::{self, BROADCAST, Header, INVITATION, OFFER, POLL, REPLY, RESULT};
use crate::place::Place;
use crate::sequencer::Sequencer;
use std::array;

/// What a member keeps of the messages that it took, so that it can become
/// sequencer.
#[derive(Clone, Debug, PartialEq, Eq)]
pub struct Kept {
    /// The highest floor that it read.
    pub read: u32,
    /// The last 32 messages taken, number s in place s modulo 32.
    pub past: [Place; HISTORY],
    /// For each originator the highest count among all messages taken.
    pub counts: [u32; MEMBERS],
}

impl Kept {
    /// Nothing read, nothing taken.
    pub const NOTHING: Kept = Kept {
        read: 0,
        past: [Place::EMPTY; HISTORY],
        counts: [0; MEMBERS],
    };

    /// Question 1, of a member of n that took the numbers up to `taken`.
    fn is_sound(&self, n: u8, taken: u32) -> bool {
        let first = taken.saturating_sub(HISTORY as u32);
        let used = taken - first;
        self.counts[usize::from(n)..]
            .iter()
            .all(|&count| count == 0)
            && (0u32..).zip(&self.past).all(|(at, place)| {
                let distance = at.wrapping_sub(first.wrapping_add(1)) % HISTORY as u32;
                let fits = if distance < used {
                    place.originator < n
                        && place.count >= 1
                        && place.count <= self.counts[usize::from(place.originator)]
                } else {
                    place.is_zero()
                };
                fits && place.payload.is_sound()
            })
    }
}

/// A terminal's part in a reset: the invitation that it replied to, and its
/// own. What is not open is zero.
#[derive(Clone, Debug, PartialEq, Eq)]
pub struct Reset {
    /// Whether a reply is open.
    pub replied: bool,
    /// The number of the invitation replied to.
    pub attempt: u32,
    /// The number replied.
    pub number: u32,
    /// Whether its own invitation is open.
    pub inviting: bool,
    /// The number that it invites with.
    pub invited: u32,
    /// Whose replies came, itself included, bit i for member i.
    pub repliers: u16,
    /// The first number that each of them replied.
    pub replies: [u32; MEMBERS],
}

impl Reset {
    /// Nothing is open.
    pub const NONE: Reset = Reset {
        replied: false,
        attempt: 0,
        number: 0,
        inviting: false,
        invited: 0,
        repliers: 0,
        replies: [0; MEMBERS],
    };

    /// Question 1, of member `number` of n.
    fn is_sound(&self, n: u8, number: u8) -> bool {
        let reply = self.replied || (self.attempt == 0 && self.number == 0);
        let invitation = if self.inviting {
            self.replied
                && self.repliers & !members::all(n) == 0
                && members::has(self.repliers, number.into())
                && self.replies[usize::from(number)] == self.number
        } else {
            self.invited == 0 && self.repliers == 0
        };
        let mut replies = (0..).zip(&self.replies);
        reply
            && invitation
            && replies.all(|(i, &reply)| reply == 0 || members::has(self.repliers, i))
    }
}

/// A terminal's state.
#[derive(Clone, Debug, PartialEq, Eq)]
pub struct Terminal {
    /// Its member.
    pub member: Member,
    /// What the member keeps.
    pub kept: Kept,
    /// Its part in a reset.
    pub reset: Reset,
    /// Whether it has a sequencer.
    pub sequencing: bool,
    /// Whether the sequencer refuses its group's packets: the terminal
    /// replied to an invitation.
    pub frozen: bool,
    /// Its sequencer; all zero if it has none.
    pub sequencer: Sequencer,
}

impl Terminal {
    /// Opens terminal `number` of n with a resilience degree, 0 with a
    /// sequencer: questions 18 and 24.
    pub fn fresh(n: u32, number: u32, group: u32, resilience: u32) -> Result<Terminal, Refusal> {
        let sequencing = number == 0;
        Ok(Terminal {
            member: Member::resilient(n, number, group, resilience)?,
            kept: Kept::NOTHING,
            reset: Reset::NONE,
            sequencing,
            frozen: false,
            sequencer: if sequencing {
                Sequencer::resilient(n, group, resilience)?
            } else {
                Sequencer::ABSENT
            },
        })
    }

    /// Question 1 of inviting, making and kinds 9 to 11: both ends are sound
    /// and of as many members. With a reply open its number is what the
    /// terminal would reply today, and its group's sequencer is frozen.
    pub fn is_sound(&self) -> bool {
        let sequencer = if self.sequencing {
            self.sequencer.is_sound() && self.sequencer.n == self.member.n
        } else {
            self.sequencer == Sequencer::ABSENT && !self.frozen
        };
        self.member_is_sound()
            && sequencer
            && (!self.reset.replied
                || (self.reset.number == self.reply_number() && (!self.serves() || self.frozen)))
    }

    /// Question 1 of the member's other calls.
    pub fn member_is_sound(&self) -> bool {
        let Member {
            n, number, taken, ..
        } = self.member;
        self.member.is_sound() && self.kept.is_sound(n, taken) && self.reset.is_sound(n, number)
    }

    /// Whether its sequencer is of its member's group.
    pub fn serves(&self) -> bool {
        self.sequencing && self.sequencer.group == self.member.group
    }

    /// What it replies to an invitation with: top of its group's sequencer,
    /// else its member's reach.
    pub fn reply_number(&self) -> u32 {
        if self.serves() {
            self.sequencer.top
        } else {
            self.member.reach()
        }
    }

    /// The member's floor: its messages above it, up to its reach, are all at
    /// hand.
    pub fn floor(&self) -> u32 {
        let reach = self.member.reach();
        let lowest = reach.saturating_sub(HISTORY as u32);
        self.kept.read.max(lowest).min(reach)
    }

    /// For each originator the highest count up to the member's reach.
    pub fn counts(&self) -> [u32; MEMBERS] {
        let mut counts = self.kept.counts;
        for below in self.member.taken..self.member.reach() {
            let held = self.member.held(below + 1);
            let count = &mut counts[usize::from(held.originator)];
            *count = held.count.max(*count);
        }
        counts
    }

    /// The message of a number above its floor, up to its reach.
    pub fn message(&self, number: u32) -> &Place {
        if number <= self.member.taken {
            &self.kept.past[number as usize % HISTORY]
        } else {
            self.member.held(number)
        }
    }

    /// Submits a message: the member's call.
    pub fn submit(&mut self, payload: &[u8], out: &mut [u8]) -> (Answer, usize) {
        self.asked(|terminal| terminal.member.submit(payload, out))
    }

    /// Writes the waiting request again: the member's call.
    pub fn repeat(&mut self, out: &mut [u8]) -> (Answer, usize) {
        self.asked(|terminal| terminal.member.repeat(out))
    }

    /// Writes a status packet: the member's call.
    pub fn status(&mut self, out: &mut [u8]) -> (Answer, usize) {
        self.asked(|terminal| terminal.member.status(out))
    }

    /// Hands out the next message in order: the member's call. What it hands
    /// out is kept.
    pub fn take(&mut self, out: &mut [u8]) -> (Answer, usize) {
        self.asked(|terminal| {
            let (answer, length) = terminal.member.take(out);
            if let Answer::Took {
                number,
                originator,
                count,
                ..
            } = answer
            {
                let Kept { past, counts, .. } = &mut terminal.kept;
                past[number as usize % HISTORY].keep(originator, count, &out[..length]);
                let highest = &mut counts[usize::from(originator)];
                *highest = count.max(*highest);
            }
            (answer, length)
        })
    }

    /// Takes a packet at the member; the answer and the length of the packet
    /// written.
    pub fn receive(&mut self, packet: &[u8], out: &mut [u8]) -> (Answer, usize) {
        settle(self.try_receive(packet, out))
    }

    /// Writes the sequencer's poll packet; `None` without one.
    pub fn poll(&self, out: &mut [u8]) -> Option<(Answer, usize)> {
        self.sequencing.then(|| self.sequencer.poll(out))
    }

    /// Writes the sequencer's broadcast or offer of a number; `None` without
    /// a sequencer.
    pub fn copy(&self, number: u32, out: &mut [u8]) -> Option<(Answer, usize)> {
        self.sequencing.then(|| self.sequencer.copy(number, out))
    }

    /// Takes a packet at the sequencer; `None` without one.
    pub fn order(&mut self, packet: &[u8], out: &mut [u8]) -> Option<(Answer, usize)> {
        let frozen = self.frozen;
        self.sequencing
            .then(|| settle(self.sequencer.hear(frozen, packet, out)))
    }

    /// Invites to a new group of this number, and counts as replying.
    pub fn invite(&mut self, number: u32, out: &mut [u8]) -> (Answer, usize) {
        settle(self.try_invite(number, out))
    }

    /// Makes the group of all whose replies came, at least as many as
    /// demanded.
    pub fn make(&mut self, demand: u32, out: &mut [u8]) -> (Answer, usize) {
        settle(self.try_make(demand, out))
    }

    /// A call of the member, behind question 1.
    fn asked(&mut self, call: impl FnOnce(&mut Terminal) -> (Answer, usize)) -> (Answer, usize) {
        if self.member_is_sound() {
            call(self)
        } else {
            (Answer::Refused(Refusal::Unsound), 0)
        }
    }

    /// Questions 1 and 2 of inviting and making.
    fn ready(&self, out: &[u8]) -> Result<(), Refusal> {
        Refusal::Unsound.unless(self.is_sound())?;
        Refusal::ShortOutput.unless(out.len() >= PACKET)
    }

    fn try_receive(&mut self, packet: &[u8], out: &mut [u8]) -> Outcome {
        Refusal::Unsound.unless(self.member_is_sound())?;
        Refusal::ShortOutput.unless(out.len() >= PACKET)?;
        let header = packet::read(packet)?;
        if header.kind < INVITATION {
            let outcome = self.member.hear(self.reset.replied, packet, out)?;
            if matches!(header.kind, BROADCAST | POLL | OFFER) {
                self.kept.read = header.c.max(self.kept.read);
            }
            return Ok(outcome);
        }
        Refusal::Unsound.unless(self.is_sound())?;
        Refusal::OtherGroup.unless(header.group == self.member.group)?;
        Refusal::NoSuchMember.unless(header.member < self.member.n)?;
        match header.kind {
            INVITATION => Ok(self.invited(&header, out)),
            REPLY => self.replied(&header),
            _ => self.made(&header, packet::survivors(packet::payload(packet))),
        }
    }

    fn try_invite(&mut self, number: u32, out: &mut [u8]) -> Outcome {
        self.ready(out)?;
        let member = self.member.number;
        self.reply_to(number);
        let reset = &mut self.reset;
        (reset.inviting, reset.invited) = (true, number);
        reset.repliers = members::only(member);
        reset.replies = [0; MEMBERS];
        reset.replies[usize::from(member)] = reset.number;
        Ok((Answer::Sent, self.put(INVITATION, [number, 0, 0], &[], out)))
    }

    fn try_make(&mut self, demand: u32, out: &mut [u8]) -> Outcome {
        self.ready(out)?;
        let Reset {
            inviting,
            invited,
            repliers,
            replies,
            ..
        } = self.reset;
        Refusal::NotOfAttempt.unless(inviting)?;
        Refusal::FewSurvivors.unless(repliers.count_ones() >= demand)?;
        // Who did not reply has a zero, and the one that invites did.
        let number = replies.into_iter().fold(0, u32::max);
        let elected = (0..MEMBERS as u8)
            .find(|&i| members::has(repliers, i.into()) && replies[usize::from(i)] == number)
            .unwrap_or(self.member.number);
        let fields = [invited, elected.into(), number];
        // Under the old number, so before it enters the group.
        let length = self.put(RESULT, fields, &repliers.to_be_bytes(), out);
        self.enter(invited, elected, number, repliers);
        Ok((Answer::Sent, length))
    }

    /// An invitation: another's closes its own.
    fn invited(&mut self, header: &Header, out: &mut [u8]) -> (Answer, usize) {
        if header.member != self.member.number {
            self.reset = Reset::NONE;
        }
        self.reply_to(header.a);
        let fields = [header.a, self.reset.number, 0];
        (Answer::Noted, self.put(REPLY, fields, &[], out))
    }

    /// A reply to its invitation: each one's first counts.
    fn replied(&mut self, header: &Header) -> Outcome {
        let reset = &mut self.reset;
        Refusal::NotOfAttempt.unless(reset.inviting && header.a == reset.invited)?;
        if !members::has(reset.repliers, header.member.into()) {
            reset.repliers |= members::only(header.member);
            reset.replies[usize::from(header.member)] = header.b;
        }
        Ok((Answer::Noted, 0))
    }

    /// A result, with the survivors that it names.
    fn made(&mut self, header: &Header, survivors: u16) -> Outcome {
        let Header { a, b, c, .. } = *header;
        let itself = u32::from(self.member.number);
        let Reset {
            replied,
            attempt,
            number,
            ..
        } = self.reset;
        Refusal::NoSuchMember.unless(survivors & !members::all(self.member.n) == 0)?;
        Refusal::NotOfAttempt.unless(replied && a == attempt)?;
        Refusal::NotOfAttempt.unless(members::has(survivors, itself))?;
        Refusal::NotOfAttempt.unless(c >= number && (b != itself || c == number))?;
        self.enter(a, b as u8, c, survivors);
        Ok((Answer::Noted, 0))
    }

    /// Opens a reply, and shuts both ends.
    fn reply_to(&mut self, attempt: u32) {
        self.reset.replied = true;
        self.reset.attempt = attempt;
        self.reset.number = self.reply_number();
        self.frozen |= self.serves();
    }

    /// Enters the new group. The elected terminal's sequencer begins; another
    /// stays in the old group.
    fn enter(&mut self, group: u32, elected: u8, number: u32, survivors: u16) {
        if elected == self.member.number {
            self.sequencer = self.begun(group, number, survivors);
            self.sequencing = true;
            self.frozen = false;
        }
        self.member.enter(group, elected, survivors, number);
        self.reset = Reset::NONE;
    }

    /// Its new group's sequencer: floor, last counts and history are its old
    /// group's sequencer's, or else its member's.
    fn begun(&self, group: u32, number: u32, survivors: u16) -> Sequencer {
        let (floor, counts, history) = if self.serves() {
            let Sequencer {
                floor,
                counts,
                history,
                ..
            } = self.sequencer;
            (floor, counts, history)
        } else {
            let floor = self.floor();
            let mut history = [Place::EMPTY; HISTORY];
            for below in floor..self.member.reach() {
                history[(below + 1) as usize % HISTORY] = *self.message(below + 1);
            }
            (floor, self.counts(), history)
        };
        let survives = |member: usize| members::has(survivors, member as u32);
        Sequencer {
            n: self.member.n,
            group,
            resilience: self.member.resilience,
            elected: self.member.number,
            survivors,
            acknowledged: array::from_fn(|member| if survives(member) { floor } else { 0 }),
            counts,
            repeats: [0; MEMBERS],
            top: number,
            floor,
            accepted: number,
            marks: [0; HISTORY],
            history,
        }
    }

    fn put(&self, kind: u8, fields: [u32; 3], payload: &[u8], out: &mut [u8]) -> usize {
        self.member.put(kind, fields, payload, out)
    }
}
