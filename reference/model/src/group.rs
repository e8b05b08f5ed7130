//! A whole group: the sequencer, its members and every packet written.
//! Loss, doubling and reordering are a matter of which packets are handed
//! over, and when.

use crate::answer::{Answer, Refusal};
use crate::jobs::{Fed, List};
use crate::limits::PACKET;
use crate::member::Member;
use crate::packet;
use crate::place::Place;
use crate::sequencer::Sequencer;

/// One event of a schedule. Members and packets may be named that are not
/// there.
#[derive(Clone, Debug, PartialEq, Eq)]
pub enum Event {
    /// A member submits a message.
    Submit {
        /// Index of the member.
        member: usize,
        /// Its message.
        payload: Vec<u8>,
    },
    /// A member repeats its waiting request.
    Repeat {
        /// Index of the member.
        member: usize,
    },
    /// A member takes the next message.
    Take {
        /// Index of the member.
        member: usize,
    },
    /// A member writes its status.
    Status {
        /// Index of the member.
        member: usize,
    },
    /// The sequencer polls.
    Poll,
    /// The sequencer copies a message of its history.
    Copy {
        /// The sequence number.
        number: u32,
    },
    /// A packet is handed to a member.
    ToMember {
        /// Index of the packet.
        packet: usize,
        /// Index of the member.
        member: usize,
    },
    /// A packet is handed to the sequencer.
    ToSequencer {
        /// Index of the packet.
        packet: usize,
    },
}

/// What came of an event.
#[derive(Clone, Debug, PartialEq, Eq)]
pub struct Outcome {
    /// The answer of the call.
    pub answer: Answer,
    /// Index of the packet written, if one was.
    pub packet: Option<usize>,
    /// The payload that a take handed out, else empty.
    pub payload: Vec<u8>,
}

impl Outcome {
    /// Of an answer and what the call wrote: a payload that was taken, or the
    /// next packet, if anything.
    pub(crate) fn of(answer: Answer, written: &[u8], packets: &mut Vec<Vec<u8>>) -> Outcome {
        let mut outcome = Outcome {
            answer,
            packet: None,
            payload: Vec::new(),
        };
        if let Answer::Took { .. } = answer {
            outcome.payload = written.to_vec();
        } else if !written.is_empty() {
            outcome.packet = Some(packets.len());
            packets.push(written.to_vec());
        }
        outcome
    }
}

/// A message as the order knows it.
#[derive(Clone, Debug, PartialEq, Eq)]
pub struct Message {
    /// Its sequence number.
    pub number: u32,
    /// Who submitted it.
    pub originator: u8,
    /// The originator's count for it.
    pub count: u32,
    /// Its payload.
    pub payload: Vec<u8>,
}

/// A sequencer, n members and all packets written so far.
#[derive(Clone, Debug, PartialEq, Eq)]
pub struct Group {
    /// The sequencer.
    pub sequencer: Sequencer,
    /// Members 0 to n-1.
    pub members: Vec<Member>,
    /// Every packet written, first at index 0.
    pub packets: Vec<Vec<u8>>,
}

impl Group {
    /// A fresh group without offers: question 18.
    pub fn fresh(n: u32, group: u32) -> Result<Group, Refusal> {
        Group::resilient(n, group, 0)
    }

    /// A fresh group with a resilience degree: questions 18 and 24.
    pub fn resilient(n: u32, group: u32, resilience: u32) -> Result<Group, Refusal> {
        Ok(Group {
            sequencer: Sequencer::resilient(n, group, resilience)?,
            members: (0..n)
                .map(|number| Member::resilient(n, number, group, resilience))
                .collect::<Result<_, _>>()?,
            packets: Vec::new(),
        })
    }

    /// Lets one event happen; `None` if it names a packet or member that is
    /// not there.
    pub fn step(&mut self, event: &Event) -> Option<Outcome> {
        let Group {
            sequencer,
            members,
            packets,
        } = self;
        let mut out = [0; PACKET];
        let (answer, length) = match *event {
            Event::Submit {
                member,
                ref payload,
            } => members.get_mut(member)?.submit(payload, &mut out),
            Event::Repeat { member } => members.get(member)?.repeat(&mut out),
            Event::Take { member } => members.get_mut(member)?.take(&mut out),
            Event::Status { member } => members.get(member)?.status(&mut out),
            Event::Poll => sequencer.poll(&mut out),
            Event::Copy { number } => sequencer.copy(number, &mut out),
            Event::ToMember { packet, member } => members
                .get_mut(member)?
                .receive(packets.get(packet)?, &mut out),
            Event::ToSequencer { packet } => sequencer.receive(packets.get(packet)?, &mut out),
        };
        Some(Outcome::of(answer, &out[..length], packets))
    }
}

/// The work list of each terminal, beside its member.
#[derive(Clone, Debug, PartialEq, Eq)]
pub struct Lists(Vec<List>);

impl Lists {
    /// Empty lists of n terminals.
    pub fn empty(n: usize) -> Lists {
        Lists(vec![List::empty(); n])
    }

    /// A terminal's list is fed the message that its take handed out, once
    /// the take is done; what it answers changes nothing of the take. `None`
    /// if the event handed out no message.
    pub fn follow(&mut self, event: &Event, outcome: Option<&Outcome>) -> Option<Fed> {
        let (Event::Take { member }, Some(outcome)) = (event, outcome) else {
            return None;
        };
        let Answer::Took { originator, .. } = outcome.answer else {
            return None;
        };
        Some(self.0[*member].feed(originator, &outcome.payload))
    }

    /// The lists of terminals 0 to n-1.
    pub fn iter(&self) -> impl Iterator<Item = &List> {
        self.0.iter()
    }
}

/// A group together with everything that happened to it since it was fresh.
#[derive(Clone, Debug, PartialEq, Eq)]
pub struct Run {
    /// The group.
    pub group: Group,
    /// The work lists of its terminals.
    pub lists: Lists,
    /// Every event and what came of it.
    pub log: Vec<(Event, Option<Outcome>)>,
}

impl Run {
    /// A fresh group without offers, with empty lists and an empty log.
    pub fn fresh(n: u32, group: u32) -> Result<Run, Refusal> {
        Run::resilient(n, group, 0)
    }

    /// The same of a group with a resilience degree.
    pub fn resilient(n: u32, group: u32, resilience: u32) -> Result<Run, Refusal> {
        let group = Group::resilient(n, group, resilience)?;
        let lists = Lists::empty(group.members.len());
        Ok(Run {
            group,
            lists,
            log: Vec::new(),
        })
    }

    /// Lets an event happen, feeds what it handed out and logs it.
    pub fn step(&mut self, event: Event) -> Option<Outcome> {
        let outcome = self.group.step(&event);
        self.lists.follow(&event, outcome.as_ref());
        self.log.push((event, outcome.clone()));
        outcome
    }

    /// The messages answered Numbered, in that sequence.
    pub fn order(&self) -> Vec<Message> {
        self.answered()
            .filter_map(|(event, outcome)| match (event, outcome.answer) {
                (Event::ToSequencer { packet }, Answer::Numbered(number)) => {
                    let request = &self.group.packets[*packet];
                    let header = packet::read(request).expect("a request that was numbered");
                    Some(Message {
                        number,
                        originator: header.member,
                        count: header.b,
                        payload: packet::payload(request).to_vec(),
                    })
                }
                _ => None,
            })
            .collect()
    }

    /// The messages that a member's takes handed out, in that sequence.
    pub fn taken(&self, member: usize) -> Vec<Message> {
        self.answered()
            .filter(|(event, _)| **event == Event::Take { member })
            .filter_map(|(_, outcome)| match outcome.answer {
                Answer::Took {
                    number,
                    originator,
                    count,
                    ..
                } => Some(Message {
                    number,
                    originator,
                    count,
                    payload: outcome.payload.clone(),
                }),
                _ => None,
            })
            .collect()
    }

    /// The accepted messages of the order.
    pub fn accepted(&self) -> Vec<Message> {
        let mut order = self.order();
        order.truncate(self.group.sequencer.accepted as usize);
        order
    }

    /// The messages that a member acknowledges above the last one that it
    /// took, then the history's accepted ones above them; lowest first.
    pub fn owed(&self, member: usize) -> Vec<Message> {
        let sequencer = &self.group.sequencer;
        let state = &self.group.members[member];
        let end = state.row_end();
        let row = (state.taken..end).map(|below| message(below + 1, &state.places));
        let rest = (sequencer.floor.max(end)..sequencer.accepted)
            .map(|below| message(below + 1, &sequencer.history));
        row.chain(rest).collect()
    }

    /// A member's accepted submissions; the j-th has count j.
    pub fn submissions(&self, member: usize) -> Vec<(u32, Vec<u8>)> {
        let payloads =
            self.answered()
                .filter_map(|(event, outcome)| match (event, outcome.answer) {
                    (Event::Submit { member: m, payload }, Answer::Sent | Answer::Queued(_))
                        if *m == member =>
                    {
                        Some(payload.clone())
                    }
                    _ => None,
                });
        (1..).zip(payloads).collect()
    }

    /// The closing round, up to the last accepted number; how many events it
    /// took.
    pub fn closing_round(&mut self) -> usize {
        let before = self.log.len();
        for member in 0..self.group.members.len() {
            let Member { taken, .. } = self.group.members[member];
            let end = self.group.members[member].row_end();
            for _ in taken..end {
                self.step(Event::Take { member });
            }
            for below in end..self.group.sequencer.accepted {
                let number = below + 1;
                if let Some(packet) = self.write(Event::Copy { number }) {
                    self.step(Event::ToMember { packet, member });
                }
                self.step(Event::Take { member });
            }
            if let Some(packet) = self.write(Event::Status { member }) {
                self.step(Event::ToSequencer { packet });
            }
        }
        self.log.len() - before
    }

    /// Lets an event happen; the index of the packet it wrote.
    fn write(&mut self, event: Event) -> Option<usize> {
        self.step(event)?.packet
    }

    fn answered(&self) -> impl Iterator<Item = (&Event, &Outcome)> {
        self.log
            .iter()
            .filter_map(|(event, outcome)| Some((event, outcome.as_ref()?)))
    }
}

/// The message of a number, in its place.
pub(crate) fn message(number: u32, places: &[Place]) -> Message {
    let place = &places[number as usize % places.len()];
    Message {
        number,
        originator: place.originator,
        count: place.count,
        payload: place.payload.as_slice().to_vec(),
    }
}
