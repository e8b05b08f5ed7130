//! A member: submits messages, up to five of which wait, answers offers, and
//! takes all accepted messages in the order of their numbers.

use crate::answer::{Answer, Outcome, Refusal, settle};
use crate::limits::{LARGEST, MEMBERS, PACKET, PAYLOAD, WAITING, WINDOW};
use crate::members;
use crate::packet::{self, ACCEPT, BROADCAST, CONFIRM, GAP, Header, OFFER, POLL, REQUEST, STATUS};
use crate::place::Place;

/// A member's state.
#[derive(Clone, Debug, PartialEq, Eq)]
pub struct Member {
    /// Members of the group, 1 to 16.
    pub n: u8,
    /// This member's number, below n.
    pub number: u8,
    /// The group number.
    pub group: u32,
    /// The resilience degree r, below n.
    pub resilience: u8,
    /// The member whose second role is the sequencer: at first 0.
    pub elected: u8,
    /// The members that are in the group, bit i for member i: at first all.
    pub survivors: u16,
    /// t, the last number taken.
    pub taken: u32,
    /// The last number known accepted, at least t.
    pub accepted: u32,
    /// u, the submissions so far.
    pub submitted: u32,
    /// How many messages wait: the last ones submitted.
    pub waiting: u8,
    /// The waiting messages, that with count c in place c modulo 5; else
    /// zeros.
    pub queue: [Place; WAITING],
    /// One bit a place, set if the place holds a message.
    pub held: u8,
    /// The numbers t+1 to t+8, number s in place s modulo 8.
    pub places: [Place; WINDOW],
}

impl Member {
    /// Opens member `number` of n, of a group without offers: question 18.
    pub fn fresh(n: u32, number: u32, group: u32) -> Result<Member, Refusal> {
        Member::resilient(n, number, group, 0)
    }

    /// Opens member `number` of n with a resilience degree: questions 18 and
    /// 24.
    pub fn resilient(n: u32, number: u32, group: u32, resilience: u32) -> Result<Member, Refusal> {
        Refusal::Opening.unless((1..=MEMBERS as u32).contains(&n) && number < n)?;
        Refusal::Resilience.unless(resilience < n)?;
        Ok(Member {
            n: n as u8,
            number: number as u8,
            group,
            resilience: resilience as u8,
            elected: 0,
            survivors: members::all(n as u8),
            taken: 0,
            accepted: 0,
            submitted: 0,
            waiting: 0,
            queue: [Place::EMPTY; WAITING],
            held: 0,
            places: [Place::EMPTY; WINDOW],
        })
    }

    /// Question 1.
    pub fn is_sound(&self) -> bool {
        // How many numbers above t there are; the window may reach past them.
        let left = LARGEST - self.taken;
        (1..=MEMBERS).contains(&usize::from(self.n))
            && self.number < self.n
            && self.resilience < self.n
            && members::stand(self.n, self.survivors, self.elected)
            && members::has(self.survivors, self.number.into())
            && self.taken <= self.accepted
            && usize::from(self.waiting) <= WAITING
            && u32::from(self.waiting) <= self.submitted
            && self.queue_is_sound()
            && (left >= WINDOW as u32 || self.window() >> left == 0)
            && self.places.iter().enumerate().all(|(at, place)| {
                let fits = if self.held >> at & 1 == 1 {
                    place.originator < self.n && place.count >= 1
                } else {
                    place.is_zero()
                };
                fits && place.payload.is_sound()
            })
    }

    /// Each of the five counts above those taken has its message up to u, and
    /// none above.
    fn queue_is_sound(&self) -> bool {
        let taken = u64::from(self.submitted) - u64::from(self.waiting);
        (taken + 1..=taken + WAITING as u64).all(|count| {
            let place = &self.queue[(count % WAITING as u64) as usize];
            let fits = if count <= u64::from(self.submitted) {
                place.originator == self.number && u64::from(place.count) == count
            } else {
                place.is_zero()
            };
            fits && place.payload.is_sound()
        })
    }

    /// Submits a message and writes its request, or, behind one that waits,
    /// nothing.
    pub fn submit(&mut self, payload: &[u8], out: &mut [u8]) -> (Answer, usize) {
        settle(self.try_submit(payload, out))
    }

    /// Writes the request of the first message that waits again, with today's row end.
    pub fn repeat(&self, out: &mut [u8]) -> (Answer, usize) {
        settle(self.try_repeat(out))
    }

    /// Hands out the next message in order, if it is held and accepted; the
    /// payload goes to the front of `out`, the length is the payload's.
    pub fn take(&mut self, out: &mut [u8]) -> (Answer, usize) {
        settle(self.try_take(out))
    }

    /// Writes a status packet.
    pub fn status(&self, out: &mut [u8]) -> (Answer, usize) {
        settle(
            self.ready(out)
                .map(|()| (Answer::Sent, self.put_status(out))),
        )
    }

    /// Takes a packet; the answer and the length of the packet written.
    pub fn receive(&mut self, packet: &[u8], out: &mut [u8]) -> (Answer, usize) {
        settle(self.hear(false, packet, out))
    }

    /// The last number through which a sound member has everything, taken or
    /// held.
    pub fn reach(&self) -> u32 {
        self.taken + self.run()
    }

    /// The last number through which a sound member has everything that is
    /// accepted: what it acknowledges.
    pub fn row_end(&self) -> u32 {
        self.reach().min(self.accepted)
    }

    /// The message of a number from t+1 to t+8 that is held.
    pub(crate) fn held(&self, number: u32) -> &Place {
        &self.places[place(number)]
    }

    /// Questions 1 and 2.
    fn ready(&self, out: &[u8]) -> Result<(), Refusal> {
        Refusal::Unsound.unless(self.is_sound())?;
        Refusal::ShortOutput.unless(out.len() >= PACKET)
    }

    fn try_submit(&mut self, payload: &[u8], out: &mut [u8]) -> Outcome {
        self.ready(out)?;
        Refusal::PayloadTooLong.unless(payload.len() <= PAYLOAD)?;
        Refusal::AlreadyWaiting.unless(usize::from(self.waiting) < WAITING)?;
        Refusal::NumbersUsedUp.unless(self.submitted < LARGEST)?;
        self.submitted += 1;
        self.waiting += 1;
        let count = self.submitted;
        self.queue[queue_place(count)].keep(self.number, count, payload);
        Ok(if self.waiting == 1 {
            (Answer::Sent, self.put_request(out))
        } else {
            (Answer::Queued(count), 0)
        })
    }

    fn try_repeat(&self, out: &mut [u8]) -> Outcome {
        self.ready(out)?;
        Refusal::NothingWaiting.unless(self.waiting > 0)?;
        Ok((Answer::Sent, self.put_request(out)))
    }

    fn try_take(&mut self, out: &mut [u8]) -> Outcome {
        self.ready(out)?;
        let row = self.row_end() - self.taken;
        if row == 0 {
            return Ok((Answer::None, 0));
        }
        self.taken += 1;
        let at = place(self.taken);
        let Place {
            originator,
            count,
            payload,
        } = &self.places[at];
        let (originator, count, bytes) = (*originator, *count, payload.as_slice());
        let length = bytes.len();
        out[..length].copy_from_slice(bytes);
        self.places[at] = Place::EMPTY;
        self.held &= !(1 << at);
        if self.waiting > 0 && originator == self.number && count == self.first_count() {
            self.waiting -= 1;
            self.queue[queue_place(count)] = Place::EMPTY;
        }
        let took = Answer::Took {
            number: self.taken,
            originator,
            count,
            more: row >= 2,
        };
        Ok((took, length))
    }

    /// Takes a packet; a member that has replied to an invitation refuses its
    /// group's packets. Kinds 9 to 11 are for its whole terminal.
    pub(crate) fn hear(&mut self, replied: bool, packet: &[u8], out: &mut [u8]) -> Outcome {
        self.ready(out)?;
        let header = packet::read(packet)?;
        Refusal::Fields.unless(header.is_from(self.elected))?;
        Refusal::OtherGroup.unless(header.group == self.group && !replied)?;
        Refusal::OtherEnd.unless(matches!(header.kind, BROADCAST | POLL | OFFER | ACCEPT))?;
        Refusal::NoSuchMember.unless(header.member < self.n)?;
        Ok(match header.kind {
            BROADCAST => {
                // First, so that a gap packet acknowledges what it accepts.
                self.accept(header.a);
                self.message(&header, packet::payload(packet), out)
            }
            OFFER => self.offer(&header, packet::payload(packet), out),
            ACCEPT => {
                self.accept(header.a);
                (Answer::Noted, 0)
            }
            _ => self.poll(header.a, out),
        })
    }

    /// Who answers an offer.
    fn expected(&self) -> u16 {
        members::expected(self.survivors, self.elected, self.resilience)
    }

    /// Enters a group: all up to a number and none above are accepted, and
    /// held ones above are dropped.
    pub(crate) fn enter(&mut self, group: u32, elected: u8, survivors: u16, number: u32) {
        (self.group, self.elected, self.survivors) = (group, elected, survivors);
        self.accepted = number.max(self.taken);
        for distance in 1..=WINDOW as u64 {
            let above = u64::from(self.taken) + distance;
            if above > u64::from(number) {
                let at = (above % WINDOW as u64) as usize;
                self.places[at] = Place::EMPTY;
                self.held &= !(1 << at);
            }
        }
    }

    /// All up to a number is accepted, also what comes later.
    fn accept(&mut self, number: u32) {
        self.accepted = self.accepted.max(number);
    }

    /// An expected member that has everything up to the offer says so.
    fn offer(&mut self, header: &Header, payload: &[u8], out: &mut [u8]) -> (Answer, usize) {
        let (answer, length) = self.message(header, payload, out);
        let answers = matches!(answer, Answer::Kept | Answer::Old)
            && header.a <= self.reach()
            && members::has(self.expected(), self.number.into());
        if answers {
            (answer, self.put(CONFIRM, [header.a, 0, 0], &[], out))
        } else {
            (answer, length)
        }
    }

    /// A message with its number, offered or accepted. Numbers are compared by
    /// their distance above t: t+8 may pass the largest, a distance never does.
    fn message(&mut self, header: &Header, payload: &[u8], out: &mut [u8]) -> (Answer, usize) {
        let number = header.a;
        if number <= self.taken {
            return (Answer::Old, 0);
        }
        let distance = number - self.taken;
        let run = self.run();
        if distance > WINDOW as u32 {
            return if run < WINDOW as u32 {
                (Answer::BeyondGap, self.put_gap(run, WINDOW as u32, out))
            } else {
                (Answer::Beyond, 0)
            };
        }
        let at = place(number);
        if self.held >> at & 1 == 1 {
            return (Answer::Old, 0);
        }
        self.places[at].keep(header.member, header.b, payload);
        self.held |= 1 << at;
        if run < distance - 1 {
            (Answer::KeptGap, self.put_gap(run, distance - 1, out))
        } else {
            (Answer::Kept, 0)
        }
    }

    fn poll(&self, top: u32, out: &mut [u8]) -> (Answer, usize) {
        let last = top.saturating_sub(self.taken).min(WINDOW as u32);
        let run = self.run();
        if run < last {
            (Answer::Gap, self.put_gap(run, last, out))
        } else {
            (Answer::Status, self.put_status(out))
        }
    }

    /// The held bits from t+1 on, t+1 lowest.
    fn window(&self) -> u8 {
        self.held
            .rotate_right(self.taken.wrapping_add(1) % WINDOW as u32)
    }

    /// How many numbers from t+1 on are held without a gap, 0 to 8.
    fn run(&self) -> u32 {
        self.window().trailing_ones()
    }

    fn put_request(&self, out: &mut [u8]) -> usize {
        let count = self.first_count();
        let first = &self.queue[queue_place(count)];
        let fields = [self.row_end(), count, 0];
        self.put(REQUEST, fields, first.payload.as_slice(), out)
    }

    /// The count of the first message that waits, of one that does.
    fn first_count(&self) -> u32 {
        self.submitted - u32::from(self.waiting) + 1
    }

    fn put_status(&self, out: &mut [u8]) -> usize {
        self.put(STATUS, [self.row_end(), 0, 0], &[], out)
    }

    /// A gap from the lowest missing number to t + `last`.
    fn put_gap(&self, run: u32, last: u32, out: &mut [u8]) -> usize {
        let (first, last) = (self.taken + run + 1, self.taken + last);
        self.put(GAP, [self.row_end(), first, last], &[], out)
    }

    /// Every packet of a member carries its number.
    pub(crate) fn put(
        &self,
        kind: u8,
        [a, b, c]: [u32; 3],
        payload: &[u8],
        out: &mut [u8],
    ) -> usize {
        let header = Header {
            kind,
            member: self.number,
            group: self.group,
            a,
            b,
            c,
        };
        packet::put(&header, payload, out)
    }
}

/// The place of a count among the messages that wait.
fn queue_place(count: u32) -> usize {
    count as usize % WAITING
}

/// The place of a number at a member.
fn place(number: u32) -> usize {
    number as usize % WINDOW
}
