//! The sequencer: numbers every message, accepts it once enough members have
//! it, and keeps those that some member has not yet acknowledged.

use crate::answer::{Answer, Outcome, Refusal, settle};
use crate::limits::{HISTORY, LARGEST, MEMBERS, PACKET};
use crate::members;
use crate::packet::{
    self, ACCEPT, BROADCAST, CONFIRM, GAP, Header, INVITATION, OFFER, POLL, REQUEST, STATUS,
};
use crate::place::Place;

/// The sequencer's state.
#[derive(Clone, Debug, PartialEq, Eq)]
pub struct Sequencer {
    /// Members of the group, 1 to 16.
    pub n: u8,
    /// The group number.
    pub group: u32,
    /// The resilience degree r, below n: how many survivors other than the
    /// elected one have a message before it is taken, or all if they are
    /// fewer.
    pub resilience: u8,
    /// The member whose second role is this one: at first 0.
    pub elected: u8,
    /// The members that are in the group, bit i for member i: at first all.
    pub survivors: u16,
    /// For each survivor the last number it acknowledged.
    pub acknowledged: [u32; MEMBERS],
    /// For each member the last own count numbered.
    pub counts: [u32; MEMBERS],
    /// For each survivor how many of its requests were answered Old or Again.
    pub repeats: [u32; MEMBERS],
    /// The last number given.
    pub top: u32,
    /// The smallest of the survivors' acknowledgements.
    pub floor: u32,
    /// The last accepted number, floor to top.
    pub accepted: u32,
    /// Who answered the offers of accepted+1 to top, one bit a member, number
    /// s in place s modulo 32; else zeros.
    pub marks: [u16; HISTORY],
    /// The messages floor+1 to top, number s in place s modulo 32.
    pub history: [Place; HISTORY],
}

impl Sequencer {
    /// Opens a sequencer for n members that accepts what it numbers: question
    /// 18.
    pub fn fresh(n: u32, group: u32) -> Result<Sequencer, Refusal> {
        Sequencer::resilient(n, group, 0)
    }

    /// Opens a sequencer for n members with a resilience degree: questions 18
    /// and 24.
    pub fn resilient(n: u32, group: u32, resilience: u32) -> Result<Sequencer, Refusal> {
        Refusal::Opening.unless((1..=MEMBERS as u32).contains(&n))?;
        Refusal::Resilience.unless(resilience < n)?;
        Ok(Sequencer {
            n: n as u8,
            group,
            resilience: resilience as u8,
            survivors: members::all(n as u8),
            ..Sequencer::ABSENT
        })
    }

    /// All zero: what a terminal without a sequencer has in its place.
    pub const ABSENT: Sequencer = Sequencer {
        n: 0,
        group: 0,
        resilience: 0,
        elected: 0,
        survivors: 0,
        acknowledged: [0; MEMBERS],
        counts: [0; MEMBERS],
        repeats: [0; MEMBERS],
        top: 0,
        floor: 0,
        accepted: 0,
        marks: [0; HISTORY],
        history: [Place::EMPTY; HISTORY],
    };

    /// Question 1.
    pub fn is_sound(&self) -> bool {
        let n = usize::from(self.n);
        if !(1..=MEMBERS).contains(&n)
            || self.resilience >= self.n
            || !members::stand(self.n, self.survivors, self.elected)
        {
            return false;
        }
        let floor = self.least();
        if self.floor != floor
            || !self.table_is_sound()
            || self.top - floor > HISTORY as u32
            || !(floor..=self.top).contains(&self.accepted)
            || !self.marks_are_sound()
        {
            return false;
        }
        let kept = self.top - floor;
        (0..).zip(&self.history).all(|(at, place)| {
            let fits = if distance(floor, at) < kept {
                place.originator < self.n
                    && place.count >= 1
                    && place.count <= self.counts[usize::from(place.originator)]
            } else {
                place.is_zero()
            };
            fits && place.payload.is_sound()
        })
    }

    /// Survivors' acknowledgements are at most top; lost members' are zero and
    /// their repeats too, while their last counts stay; unused entries are
    /// zero.
    fn table_is_sound(&self) -> bool {
        let unused = &self.counts[usize::from(self.n)..];
        let entries = (0..).zip(self.acknowledged.iter().zip(&self.repeats));
        unused.iter().fold(0, |seen, &count| seen | count) == 0
            && entries.fold(true, |sound, (member, (&ack, &repeats))| {
                let fits = if members::has(self.survivors, member) {
                    ack <= self.top
                } else {
                    ack == 0 && repeats == 0
                };
                sound & fits
            })
    }

    /// The smallest of the survivors' acknowledgements.
    fn least(&self) -> u32 {
        let acks = (0..).zip(&self.acknowledged);
        acks.fold(LARGEST, |low, (member, &ack)| {
            if members::has(self.survivors, member) {
                low.min(ack)
            } else {
                low
            }
        })
    }

    /// Who answers an offer.
    fn expected(&self) -> u16 {
        members::expected(self.survivors, self.elected, self.resilience)
    }

    /// Only expected members have marks, and only at accepted+1 to top.
    fn marks_are_sound(&self) -> bool {
        let unaccepted = self.top - self.accepted;
        let expected = self.expected();
        let marks = (0..).zip(&self.marks);
        let wrong = marks.fold(0, |seen, (at, mark)| {
            let is_unaccepted = distance(self.accepted, at) < unaccepted;
            seen | (mark & !if is_unaccepted { expected } else { 0 })
        });
        wrong == 0
    }

    /// How many requests were answered Old or Again: the members' counts
    /// added up, held at the largest number.
    pub fn all_repeats(&self) -> u32 {
        self.repeats
            .iter()
            .fold(0, |sum: u32, &repeats| sum.saturating_add(repeats))
    }

    /// Takes a packet; the answer and the length of the packet written.
    pub fn receive(&mut self, packet: &[u8], out: &mut [u8]) -> (Answer, usize) {
        settle(self.hear(false, packet, out))
    }

    /// Writes the poll packet.
    pub fn poll(&self, out: &mut [u8]) -> (Answer, usize) {
        settle(self.ready(out).map(|()| (Answer::Sent, self.put_poll(out))))
    }

    /// Writes the broadcast or offer of a number in the history, with today's
    /// floor.
    pub fn copy(&self, number: u32, out: &mut [u8]) -> (Answer, usize) {
        settle(self.try_copy(number, out))
    }

    /// Questions 1 and 2.
    fn ready(&self, out: &[u8]) -> Result<(), Refusal> {
        Refusal::Unsound.unless(self.is_sound())?;
        Refusal::ShortOutput.unless(out.len() >= PACKET)
    }

    fn try_copy(&self, number: u32, out: &mut [u8]) -> Outcome {
        self.ready(out)?;
        Refusal::NotInHistory.unless(self.floor < number && number <= self.top)?;
        Ok((Answer::Sent, self.put_message(number, out)))
    }

    /// Takes a packet; a frozen sequencer refuses its group's packets but
    /// kinds 9 to 11.
    pub(crate) fn hear(&mut self, frozen: bool, packet: &[u8], out: &mut [u8]) -> Outcome {
        self.ready(out)?;
        let header = packet::read(packet)?;
        Refusal::Fields.unless(header.is_from(self.elected))?;
        let is_open = !frozen || header.kind >= INVITATION;
        Refusal::OtherGroup.unless(header.group == self.group && is_open)?;
        Refusal::OtherEnd.unless(matches!(header.kind, REQUEST | GAP | STATUS | CONFIRM))?;
        Refusal::NoSuchMember.unless(members::has(self.survivors, header.member.into()))?;
        let is_confirm = header.kind == CONFIRM;
        let last = if is_confirm { self.top } else { self.accepted };
        Refusal::NumberAhead.unless(header.a <= last)?;
        match header.kind {
            REQUEST => self.request(&header, packet::payload(packet), out),
            GAP => self.gap(&header),
            CONFIRM => self.confirm(&header, out),
            _ => {
                self.note(&header);
                Ok((Answer::Noted, 0))
            }
        }
    }

    fn request(&mut self, header: &Header, payload: &[u8], out: &mut [u8]) -> Outcome {
        let member = usize::from(header.member);
        let (count, last) = (header.b, self.counts[member]);
        // A count is at least 1, so this is count <= last + 1 without wrapping.
        Refusal::CountAhead.unless(count - 1 <= last)?;
        let is_next = count > last;
        Refusal::NumbersUsedUp.unless(!is_next || self.top < LARGEST)?;

        // Noting comes first: the request's own acknowledgement may free a place.
        self.note(header);
        if !is_next {
            self.repeats[member] = self.repeats[member].saturating_add(1);
            // A count below the last is Old even if it is still kept.
            let kept = if count == last {
                self.find(header.member, count)
            } else {
                None
            };
            return Ok(match kept {
                Some(number) => (Answer::Again(number), self.put_message(number, out)),
                None => (Answer::Old, 0),
            });
        }
        if self.top - self.floor == HISTORY as u32 {
            return Ok((Answer::Full, self.put_poll(out)));
        }
        self.top += 1;
        self.counts[member] = count;
        self.history[place(self.top)].keep(header.member, count, payload);
        if self.expected() == 0 {
            self.accept(self.top);
        }
        Ok((Answer::Numbered(self.top), self.put_message(self.top, out)))
    }

    /// A member has everything up to A: it answers the offers of all these.
    fn confirm(&mut self, header: &Header, out: &mut [u8]) -> Outcome {
        if header.a <= self.accepted {
            return Ok((Answer::Old, 0));
        }
        let expected = self.expected();
        Refusal::NotExpected.unless(members::has(expected, header.member.into()))?;
        for below in self.accepted..header.a {
            self.marks[place(below + 1)] |= 1 << header.member;
        }
        let enough = (self.accepted..self.top)
            .rev()
            .map(|below| below + 1)
            .find(|&number| self.marks[place(number)].count_ones() >= expected.count_ones());
        Ok(match enough {
            Some(number) => {
                self.accept(number);
                (Answer::Accepted, self.put_accept(out))
            }
            None => (Answer::Marked, 0),
        })
    }

    /// Accepts all up to a number; their marks are no longer wanted.
    fn accept(&mut self, number: u32) {
        for below in self.accepted..number {
            self.marks[place(below + 1)] = 0;
        }
        self.accepted = number;
    }

    fn gap(&mut self, header: &Header) -> Outcome {
        Refusal::GapAboveTop.unless(header.c <= self.top)?;
        self.note(header);
        Ok(if header.c <= self.floor {
            (Answer::Noted, 0)
        } else {
            (Answer::Wanted(header.b.max(self.floor + 1), header.c), 0)
        })
    }

    /// Notes the acknowledgement A of a packet. A late packet lowers nothing.
    fn note(&mut self, header: &Header) {
        let entry = &mut self.acknowledged[usize::from(header.member)];
        *entry = header.a.max(*entry);
        let floor = self.least();
        for below in self.floor..floor {
            self.history[place(below + 1)] = Place::EMPTY;
        }
        self.floor = floor;
    }

    /// The highest number in the history with this originator and count.
    fn find(&self, originator: u8, count: u32) -> Option<u32> {
        (self.floor..self.top)
            .rev()
            .map(|below| below + 1)
            .find(|&number| {
                let kept = &self.history[place(number)];
                kept.originator == originator && kept.count == count
            })
    }

    fn put_poll(&self, out: &mut [u8]) -> usize {
        let header = Header {
            kind: POLL,
            member: self.elected,
            group: self.group,
            a: self.top,
            b: 0,
            c: self.floor,
        };
        packet::put(&header, &[], out)
    }

    fn put_accept(&self, out: &mut [u8]) -> usize {
        let header = Header {
            kind: ACCEPT,
            member: self.elected,
            group: self.group,
            a: self.accepted,
            b: 0,
            c: 0,
        };
        packet::put(&header, &[], out)
    }

    /// The broadcast of an accepted number, else its offer.
    fn put_message(&self, number: u32, out: &mut [u8]) -> usize {
        let kept = &self.history[place(number)];
        let is_accepted = number <= self.accepted;
        let header = Header {
            kind: if is_accepted { BROADCAST } else { OFFER },
            member: kept.originator,
            group: self.group,
            a: number,
            b: kept.count,
            c: self.floor,
        };
        packet::put(&header, kept.payload.as_slice(), out)
    }
}

/// How far the number of a place lies above `below`, less one. The distance
/// may wrap: 32 divides the range of u32.
fn distance(below: u32, at: u32) -> u32 {
    at.wrapping_sub(below.wrapping_add(1)) % HISTORY as u32
}

/// The place of a number in the history.
fn place(number: u32) -> usize {
    number as usize % HISTORY
}
