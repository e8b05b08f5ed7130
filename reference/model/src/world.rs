//! A whole group whose terminals may be lost: terminals and every packet
//! written. Beside it the course of the order through the groups that are
//! made, the limits on lists of events, and what is claimed of lists within
//! them.

use crate::answer::{Answer, Refusal};
use crate::group::{self, Message, Outcome, message};
use crate::limits::{MEMBERS, PACKET, WAITING};
use crate::members;
use crate::packet::{self, INVITATION, RESULT};
use crate::place::Place;
use crate::sequencer::Sequencer;
use crate::terminal::Terminal;

/// One event of a schedule with resets. Terminals, sequencers and packets may
/// be named that are not there.
#[derive(Clone, Debug, PartialEq, Eq)]
pub enum Event {
    /// A member submits a message.
    Submit {
        /// Index of the terminal.
        terminal: usize,
        /// Its message.
        payload: Vec<u8>,
    },
    /// A member repeats its waiting request.
    Repeat {
        /// Index of the terminal.
        terminal: usize,
    },
    /// A member takes the next message.
    Take {
        /// Index of the terminal.
        terminal: usize,
    },
    /// A member writes its status.
    Status {
        /// Index of the terminal.
        terminal: usize,
    },
    /// A sequencer polls.
    Poll {
        /// Index of the terminal.
        terminal: usize,
    },
    /// A sequencer copies a message of its history.
    Copy {
        /// Index of the terminal.
        terminal: usize,
        /// The sequence number.
        number: u32,
    },
    /// A packet is handed to a member.
    ToMember {
        /// Index of the packet.
        packet: usize,
        /// Index of the terminal.
        terminal: usize,
    },
    /// A packet is handed to a sequencer.
    ToSequencer {
        /// Index of the packet.
        packet: usize,
        /// Index of the terminal.
        terminal: usize,
    },
    /// A terminal invites to a new group.
    Invite {
        /// Index of the terminal.
        terminal: usize,
        /// The new group's number.
        number: u32,
    },
    /// A terminal makes the group that it invited to.
    Make {
        /// Index of the terminal.
        terminal: usize,
        /// How many survivors it must have, at least.
        demand: u32,
    },
}

/// Without a reset the sequencer is terminal 0's.
impl From<group::Event> for Event {
    fn from(event: group::Event) -> Event {
        match event {
            group::Event::Submit { member, payload } => Event::Submit {
                terminal: member,
                payload,
            },
            group::Event::Repeat { member } => Event::Repeat { terminal: member },
            group::Event::Take { member } => Event::Take { terminal: member },
            group::Event::Status { member } => Event::Status { terminal: member },
            group::Event::Poll => Event::Poll { terminal: 0 },
            group::Event::Copy { number } => Event::Copy {
                terminal: 0,
                number,
            },
            group::Event::ToMember { packet, member } => Event::ToMember {
                packet,
                terminal: member,
            },
            group::Event::ToSequencer { packet } => Event::ToSequencer {
                packet,
                terminal: 0,
            },
        }
    }
}

/// Terminals 0 to n-1 and all packets written so far.
#[derive(Clone, Debug, PartialEq, Eq)]
pub struct World {
    /// The terminals.
    pub terminals: Vec<Terminal>,
    /// Every packet written, first at index 0.
    pub packets: Vec<Vec<u8>>,
}

impl World {
    /// A fresh group with a resilience degree: questions 18 and 24.
    pub fn fresh(n: u32, group: u32, resilience: u32) -> Result<World, Refusal> {
        // Terminal 0 asks the questions, also where there is none.
        Terminal::fresh(n, 0, group, resilience)?;
        Ok(World {
            terminals: (0..n)
                .map(|number| Terminal::fresh(n, number, group, resilience))
                .collect::<Result<_, _>>()?,
            packets: Vec::new(),
        })
    }

    /// Lets one event happen; `None` if it names a packet, a terminal or a
    /// sequencer that is not there.
    pub fn step(&mut self, event: &Event) -> Option<Outcome> {
        let World { terminals, packets } = self;
        let mut out = [0; PACKET];
        let lent = &mut out;
        let (answer, length) = match *event {
            Event::Submit {
                terminal,
                ref payload,
            } => terminals.get_mut(terminal)?.submit(payload, lent),
            Event::Repeat { terminal } => terminals.get_mut(terminal)?.repeat(lent),
            Event::Take { terminal } => terminals.get_mut(terminal)?.take(lent),
            Event::Status { terminal } => terminals.get_mut(terminal)?.status(lent),
            Event::Poll { terminal } => terminals.get(terminal)?.poll(lent)?,
            Event::Copy { terminal, number } => terminals.get(terminal)?.copy(number, lent)?,
            Event::ToMember { packet, terminal } => terminals
                .get_mut(terminal)?
                .receive(packets.get(packet)?, lent),
            Event::ToSequencer { packet, terminal } => terminals
                .get_mut(terminal)?
                .order(packets.get(packet)?, lent)?,
            Event::Invite { terminal, number } => terminals.get_mut(terminal)?.invite(number, lent),
            Event::Make { terminal, demand } => terminals.get_mut(terminal)?.make(demand, lent),
        };
        Some(Outcome::of(answer, &out[..length], packets))
    }
}

/// The order and the group in which it goes on.
#[derive(Clone, Debug, PartialEq, Eq)]
pub struct Course {
    /// The messages that survivors' sequencers numbered, but for those that a
    /// making cut off.
    pub order: Vec<Message>,
    /// Who is in the group made last, bit i for terminal i; at first all.
    pub survivors: u16,
    /// Whose sequencer it has; at first 0's.
    pub elected: usize,
    /// The group's number.
    pub number: u32,
    /// The number of the last invitation, and who wrote it.
    pub attempt: Option<(u32, usize)>,
    /// The first group's number and all that were invited with.
    pub used: Vec<u32>,
}

impl Course {
    /// Of a fresh group.
    fn fresh(n: usize, number: u32) -> Course {
        Course {
            order: Vec::new(),
            survivors: members::all(n as u8),
            elected: 0,
            number,
            attempt: None,
            used: vec![number],
        }
    }

    /// Goes on with an event of the world and what came of it.
    fn follow(&mut self, event: &Event, outcome: &Outcome, packets: &[Vec<u8>]) {
        match (event, outcome.answer, outcome.packet) {
            (&Event::ToSequencer { packet, terminal }, Answer::Numbered(number), _)
                if self.survives(terminal) =>
            {
                self.order.push(requested(number, &packets[packet]));
            }
            (&Event::Invite { terminal, number }, Answer::Sent, _) => {
                self.attempt = Some((number, terminal));
                self.used.push(number);
            }
            (Event::Make { .. }, Answer::Sent, Some(packet)) => {
                let result = &packets[packet];
                let header = packet::read(result).expect("a result that was written");
                self.survivors = packet::survivors(packet::payload(result));
                self.elected = header.b as usize;
                self.number = header.a;
                self.order.truncate(header.c as usize);
            }
            _ => (),
        }
    }

    /// Whether a terminal is in the group made last.
    pub fn survives(&self, terminal: usize) -> bool {
        terminal < MEMBERS && members::has(self.survivors, terminal as u32)
    }

    /// The survivors, lowest first.
    pub fn survivors(&self) -> impl Iterator<Item = usize> + use<> {
        let set = self.survivors;
        (0..MEMBERS).filter(move |&terminal| members::has(set, terminal as u32))
    }
}

/// The message of a request that was numbered.
fn requested(number: u32, request: &[u8]) -> Message {
    let header = packet::read(request).expect("a request that was numbered");
    Message {
        number,
        originator: header.member,
        count: header.b,
        payload: packet::payload(request).to_vec(),
    }
}

/// What a making changed.
#[derive(Clone, Debug, PartialEq, Eq)]
pub struct Making {
    /// The course before.
    pub before: Course,
    /// The last accepted number of the elected terminal's sequencer before,
    /// if it had one of the group.
    pub accepted: Option<u32>,
    /// Whether survival was claimed.
    pub firm: bool,
}

/// A claim that does not hold, in words.
pub type Claim = Result<(), &'static str>;

/// A world together with everything that happened to it since it was fresh.
#[derive(Clone, Debug, PartialEq, Eq)]
pub struct Run {
    /// The world.
    pub world: World,
    /// The course of its order.
    pub course: Course,
    /// For each terminal what its takes handed out, in that sequence.
    pub taken: Vec<Vec<Message>>,
    /// For each terminal its accepted submissions; the j-th has count j.
    pub submissions: Vec<Vec<Vec<u8>>>,
    /// Whether survival is claimed of the next making: none came yet, or a
    /// closing round since the last one.
    pub firm: bool,
    /// The last making.
    pub making: Option<Making>,
    /// How many events happened.
    pub events: usize,
}

impl Run {
    /// A fresh group with a resilience degree: questions 18 and 24.
    pub fn fresh(n: u32, group: u32, resilience: u32) -> Result<Run, Refusal> {
        let world = World::fresh(n, group, resilience)?;
        let n = world.terminals.len();
        Ok(Run {
            world,
            course: Course::fresh(n, group),
            taken: vec![Vec::new(); n],
            submissions: vec![Vec::new(); n],
            firm: true,
            making: None,
            events: 0,
        })
    }

    /// Lets an event happen, allowed or not.
    pub fn step(&mut self, event: &Event) -> Option<Outcome> {
        self.events += 1;
        let accepted = match event {
            Event::Make { .. } => self.sequencer().map(|sequencer| sequencer.accepted),
            _ => None,
        };
        let outcome = self.world.step(event)?;
        if matches!(event, Event::Make { .. }) && outcome.answer == Answer::Sent {
            self.making = Some(Making {
                before: self.course.clone(),
                accepted,
                firm: self.firm,
            });
            self.firm = false;
        }
        self.course.follow(event, &outcome, &self.world.packets);
        match (event, outcome.answer) {
            (Event::Submit { terminal, payload }, Answer::Sent | Answer::Queued(_)) => {
                self.submissions[*terminal].push(payload.clone());
            }
            (
                Event::Take { terminal },
                Answer::Took {
                    number,
                    originator,
                    count,
                    ..
                },
            ) => self.taken[*terminal].push(Message {
                number,
                originator,
                count,
                payload: outcome.payload.clone(),
            }),
            _ => (),
        }
        Some(outcome)
    }

    /// The limits on lists. Of kinds 9 to 11 only those of the last attempt
    /// are handed over, and only to survivors; a survivor invites, with a
    /// number never used before; and once one has invited, who did so last
    /// makes.
    pub fn is_allowed(&self, event: &Event) -> bool {
        let course = &self.course;
        match *event {
            Event::ToMember { packet, terminal } => self.attempt_of(packet).is_none_or(|attempt| {
                let is_last = course.attempt.is_some_and(|(last, _)| last == attempt);
                is_last && course.survives(terminal)
            }),
            Event::Invite { terminal, number } => {
                course.survives(terminal) && !course.used.contains(&number)
            }
            Event::Make { terminal, .. } => course
                .attempt
                .is_none_or(|(_, initiator)| initiator == terminal),
            _ => true,
        }
    }

    /// The attempt that a packet of kind 9 to 11 is of.
    fn attempt_of(&self, packet: usize) -> Option<u32> {
        let header = packet::read(self.world.packets.get(packet)?).expect("a packet written");
        (INVITATION..=RESULT)
            .contains(&header.kind)
            .then_some(header.a)
    }

    /// Whether demand 3 is claimed: not from an invitation until all survivors
    /// of a new group have the result.
    pub fn is_claimed(&self) -> bool {
        let Course {
            attempt, number, ..
        } = self.course;
        attempt.is_none_or(|(attempt, _)| attempt == number)
            && self
                .course
                .survivors()
                .all(|terminal| self.world.terminals[terminal].member.group == number)
    }

    /// The elected terminal's sequencer, if it is the group's.
    pub fn sequencer(&self) -> Option<&Sequencer> {
        let Terminal {
            sequencing,
            sequencer,
            ..
        } = &self.world.terminals[self.course.elected];
        (*sequencing && sequencer.group == self.course.number).then_some(sequencer)
    }

    /// What a survivor acknowledges above the last number that it took, then
    /// the accepted messages of a sequencer's history above them.
    fn owed(&self, terminal: usize, sequencer: &Sequencer) -> Vec<Message> {
        let member = &self.world.terminals[terminal].member;
        let end = member.row_end();
        let row = (member.taken..end).map(|below| message(below + 1, &member.places));
        let rest = (sequencer.floor.max(end)..sequencer.accepted)
            .map(|below| message(below + 1, &sequencer.history));
        row.chain(rest).collect()
    }

    /// Demand 3 of the survivors, but for its closing round; due where it is
    /// claimed.
    pub fn demand_3(&self) -> Claim {
        let sequencer = self.sequencer().ok_or("the elected has no sequencer")?;
        let accepted = sequencer.accepted as usize;
        let order = &self.course.order;
        if order.len() != sequencer.top as usize {
            return Err("the order does not end at top");
        }
        let mut total = 0;
        for terminal in self.course.survivors() {
            let owed = self.owed(terminal, sequencer);
            let taken = &self.taken[terminal];
            total += taken.len() + owed.len();
            if !taken.iter().chain(&owed).eq(&order[..accepted]) {
                return Err("taken and owed are not the accepted messages");
            }
            self.own(terminal)?;
        }
        if total != accepted * self.course.survivors.count_ones() as usize {
            return Err("the sum is not survivors × accepted");
        }
        Ok(())
    }

    /// A terminal's messages in the order are its accepted submissions, once
    /// each, in its order, without the last few.
    fn own(&self, terminal: usize) -> Claim {
        let is_own = |message: &&Message| usize::from(message.originator) == terminal;
        let own: Vec<_> = self.course.order.iter().filter(is_own).collect();
        let submitted = &self.submissions[terminal];
        let same = (1..)
            .zip(submitted)
            .zip(&own)
            .all(|((count, payload), own)| own.count == count && own.payload == *payload);
        if own.len() > submitted.len() || submitted.len() - own.len() > WAITING || !same {
            return Err("its own messages are not its submissions");
        }
        Ok(())
    }

    /// The closing round of demand 3, run on a copy.
    pub fn closes(&self) -> Claim {
        let sequencer = self.sequencer().ok_or("the elected has no sequencer")?;
        let accepted = sequencer.accepted as usize;
        let order = &self.course.order;
        let mut copy = self.clone();
        if copy.closing_round() > 106 * self.course.survivors.count_ones() as usize {
            return Err("the closing round is too long");
        }
        if copy.course != self.course || accepted > order.len() {
            return Err("the closing round changes the order");
        }
        let all_have = self
            .course
            .survivors()
            .all(|terminal| copy.taken[terminal] == order[..accepted]);
        if !all_have {
            return Err("the closing round leaves a survivor without the order");
        }
        let sequencer = copy.sequencer().ok_or("the elected has no sequencer")?;
        let left =
            (sequencer.floor..sequencer.top).map(|below| message(below + 1, &sequencer.history));
        if !left.eq(order[accepted..].iter().cloned()) {
            return Err("the closing round leaves accepted messages in the history");
        }
        Ok(())
    }

    /// Each survivor's taken messages begin the order, and so does all that
    /// it has up to its reach; due at every time.
    pub fn begins(&self) -> Claim {
        let order = &self.course.order;
        for terminal in self.course.survivors() {
            let taken = &self.taken[terminal];
            if !order.starts_with(taken) {
                return Err("taken messages do not begin the order");
            }
            let state = &self.world.terminals[terminal];
            let has = (state.floor()..state.member.reach()).all(|below| {
                let expected = order.get(below as usize);
                expected.is_some_and(|message| is_message(message, state.message(below + 1)))
            });
            if !has {
                return Err("the row does not go on with the order");
            }
        }
        Ok(())
    }

    /// Of the last making: the new group is among the survivors before; if at
    /// most r are lost, and it was claimed, every accepted message is in the
    /// new order with its number; taken messages begin it.
    pub fn survival(&self) -> Claim {
        let Some(Making {
            before,
            accepted,
            firm,
        }) = &self.making
        else {
            return Ok(());
        };
        let survivors = self.course.survivors;
        if survivors & !before.survivors != 0 {
            return Err("a lost member is among the survivors");
        }
        let lost = before.survivors.count_ones() - survivors.count_ones();
        if *firm && lost <= self.resilience() {
            let accepted = accepted.ok_or("the elected had no sequencer")? as usize;
            let order = &self.course.order;
            let accepted = before.order.get(..accepted);
            if !accepted.is_some_and(|accepted| order.starts_with(accepted)) {
                return Err("an accepted message is lost");
            }
        }
        self.begins()
    }

    /// The resilience degree.
    pub fn resilience(&self) -> u32 {
        self.world.terminals[0].member.resilience.into()
    }

    /// The closing round of the survivors, up to the last accepted number of
    /// the elected terminal's sequencer; how many events it took. Where demand
    /// 3 is claimed, survival is claimed of the making that follows.
    pub fn closing_round(&mut self) -> usize {
        let before = self.events;
        let claimed = self.is_claimed();
        let elected = self.course.elected;
        for terminal in self.course.survivors() {
            let member = &self.world.terminals[terminal].member;
            let (taken, end) = (member.taken, member.row_end());
            for _ in taken..end {
                self.step(&Event::Take { terminal });
            }
            for below in end..self.sequencer().map_or(0, |sequencer| sequencer.accepted) {
                let copy = Event::Copy {
                    terminal: elected,
                    number: below + 1,
                };
                if let Some(packet) = self.write(&copy) {
                    self.step(&Event::ToMember { packet, terminal });
                }
                self.step(&Event::Take { terminal });
            }
            if let Some(packet) = self.write(&Event::Status { terminal }) {
                self.step(&Event::ToSequencer {
                    packet,
                    terminal: elected,
                });
            }
        }
        self.firm |= claimed;
        self.events - before
    }

    /// Lets an event happen; the index of the packet it wrote.
    fn write(&mut self, event: &Event) -> Option<usize> {
        self.step(event)?.packet
    }
}

/// Whether a place holds a message of the order.
fn is_message(message: &Message, place: &Place) -> bool {
    (message.originator, message.count, &message.payload[..])
        == (place.originator, place.count, place.payload.as_slice())
}
