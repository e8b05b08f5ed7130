//! Random schedules: a network that loses, doubles and reorders packets,
//! strayed events, and lines of another form.

use crate::Schedule;
use model::Answer;
use model::group::{Event, Group};
use model::limits::{PACKET, PAYLOAD};
use model::member::Member;
use model::packet;
use model::play::PACKETS;

/// Generator of random numbers: splitmix64.
#[derive(Clone, Debug)]
pub struct Random(u64);

impl Random {
    /// Starts from a seed; every seed is good.
    pub fn seeded(seed: u64) -> Random {
        Random(seed)
    }

    /// The next 64 bits.
    pub fn bits(&mut self) -> u64 {
        self.0 = self.0.wrapping_add(0x9e37_79b9_7f4a_7c15);
        let mut mixed = self.0;
        mixed = (mixed ^ (mixed >> 30)).wrapping_mul(0xbf58_476d_1ce4_e5b9);
        mixed = (mixed ^ (mixed >> 27)).wrapping_mul(0x94d0_49bb_1331_11eb);
        mixed ^ (mixed >> 31)
    }

    /// A number below `bound`, which is not 0.
    pub fn below(&mut self, bound: usize) -> usize {
        (self.bits() >> 11) as usize % bound
    }

    /// True in so many of a hundred cases.
    pub fn percent(&mut self, percent: usize) -> bool {
        self.below(100) < percent
    }

    /// One of several.
    pub fn one<T: Copy>(&mut self, of: &[T]) -> T {
        of[self.below(of.len())]
    }

    /// So many bytes.
    pub fn bytes(&mut self, length: usize) -> Vec<u8> {
        (0..length).map(|_| self.bits() as u8).collect()
    }
}

/// The stored random schedules.
pub fn stored() -> Vec<Schedule> {
    let sizes = [(28, 150), (14, 500), (6, 4000)];
    let sizes = sizes.iter().flat_map(|&(many, events)| vec![events; many]);
    let mut schedules: Vec<Schedule> = (1..)
        .zip(sizes)
        .map(|(seed, events)| Schedule {
            shows: format!("random, seed {seed}, up to {events} events"),
            text: schedule(seed, events),
            expected: None,
        })
        .collect();
    schedules.extend((101..=116).map(|seed| Schedule {
        shows: format!("random, seed {seed}, damaged"),
        text: damaged(seed, 60),
        expected: None,
    }));
    schedules
}

/// The stored random schedules with a resilience degree.
pub fn stored_with_offers() -> Vec<Schedule> {
    let sizes = [(10, 150), (4, 400), (1, 1000)];
    let sizes = sizes.iter().flat_map(|&(many, events)| vec![events; many]);
    (201..)
        .zip(sizes)
        .map(|(seed, events)| Schedule {
            shows: format!("random with r, seed {seed}, up to {events} events"),
            text: with_offers(seed, events),
            expected: None,
        })
        .collect()
}

/// A random schedule of at most so many events, all of a good form.
pub fn schedule(seed: u64, events: usize) -> Vec<u8> {
    let mut random = Random::seeded(seed);
    let n = random.one(&[1, 2, 2, 3, 3, 4, 5, 8, 16]);
    played(random, n, None, events)
}

/// The same of a group with a resilience degree, 1 to n-1.
pub fn with_offers(seed: u64, events: usize) -> Vec<u8> {
    let mut random = Random::seeded(seed);
    let n = random.one(&[2, 2, 3, 3, 4, 5, 8, 16]);
    let most = n as usize - 1;
    let resilience = match random.below(3) {
        0 => 1,
        1 => most,
        _ => 1 + random.below(most),
    };
    played(random, n, Some(resilience as u32), events)
}

/// A random schedule of n members, with that resilience degree in its first
/// line.
fn played(mut random: Random, n: u32, resilience: Option<u32>, events: usize) -> Vec<u8> {
    let number = match random.below(4) {
        0 => 0,
        1 => 4_294_967_295,
        2 => 7,
        _ => random.bits() as u32,
    };
    let mut network = Network {
        group: Group::resilient(n, number, resilience.unwrap_or(0)).expect("an allowed opening"),
        in_flight: Vec::new(),
        wanted: Vec::new(),
        loss: random.one(&[0, 5, 20, 50]),
        doubling: random.one(&[0, 10, 40]),
        reordering: random.one(&[0, 20, 100]),
        deaf: random.percent(40),
        stray: random.one(&[0, 2, 10]),
        // Long schedules have to be sparing with packets.
        idle: if events > 1000 {
            85
        } else {
            random.one(&[0, 30, 60])
        },
        random,
    };
    let mut text = match resilience {
        None => format!("N {n} {number}\n"),
        Some(resilience) => format!("N {n} {number} {resilience}\n"),
    };
    for _ in 0..events {
        let full = network.group.packets.len() >= PACKETS;
        let event = network.event();
        network.happen(&event);
        line(&event, &mut network.random, &mut text);
        if full && network.random.percent(60) {
            break;
        }
    }
    text.into()
}

/// A random schedule, and then some of its bytes or lines changed.
pub fn damaged(seed: u64, events: usize) -> Vec<u8> {
    let mut text = schedule(seed, events);
    let mut random = Random::seeded(!seed);
    for _ in 0..=random.below(2) {
        damage(&mut random, &mut text);
    }
    text
}

fn damage(random: &mut Random, text: &mut Vec<u8>) {
    let at = random.below(text.len().max(1));
    let byte = random.one(b"  \n\n\r\t\0-+0123456789abfgNSRTAPCMQAFnsq/:`\x7f\x80\xb0\xff");
    let line = |from: usize, text: &[u8]| {
        let start = text[..from].iter().rposition(|&byte| byte == b'\n');
        start.map_or(0, |start| start + 1)
    };
    match random.below(9) {
        0 if !text.is_empty() => text[at] = byte,
        1 if !text.is_empty() => text[at] = random.bits() as u8,
        2 => text.insert(at.min(text.len()), byte),
        3 if !text.is_empty() => {
            text.remove(at);
        }
        4 => text.truncate(at),
        5 => {
            let many = random.one(&[1, 9, 39, 900, 990, 1001]);
            let digits = vec![random.one(b"0159a "); many];
            text.splice(at..at, digits);
        }
        6 => {
            let start = line(at, text);
            text.splice(start..start, *b"\n");
        }
        7 => {
            // One line ends a little below, at, or above 1,000 characters.
            let start = line(at, text);
            let length = text[start..].iter().position(|&byte| byte == b'\n');
            if let (Some(length), 2..) = (length, length.unwrap_or(0)) {
                let total = random.one(&[999, 1000, 1000, 1001]);
                let zeros = vec![b'0'; usize::saturating_sub(total, length)];
                text.splice(start + 2..start + 2, zeros);
            }
        }
        _ => text.push(byte),
    }
}

/// Writes an event as a line.
fn line(event: &Event, random: &mut Random, text: &mut String) {
    let zeros = if random.percent(1) { "000" } else { "" };
    *text += &match event {
        Event::Submit { member, payload } if payload.is_empty() => format!("S {zeros}{member} -"),
        Event::Submit { member, payload } => {
            let hex: String = payload.iter().map(|byte| format!("{byte:02x}")).collect();
            format!("S {zeros}{member} {hex}")
        }
        Event::Repeat { member } => format!("R {zeros}{member}"),
        Event::Take { member } => format!("T {zeros}{member}"),
        Event::Status { member } => format!("A {zeros}{member}"),
        Event::Poll => "P".into(),
        Event::Copy { number } => format!("C {zeros}{number}"),
        Event::ToMember { packet, member } => format!("M {zeros}{packet} {member}"),
        Event::ToSequencer { packet } => format!("Q {zeros}{packet}"),
    };
    text.push('\n');
}

/// A group and the packets on their way.
struct Network {
    group: Group,
    /// Packets on their way, to a member or to the sequencer.
    in_flight: Vec<(usize, Option<usize>)>,
    /// Numbers that members want.
    wanted: Vec<u32>,
    /// Of a hundred packets so many are lost.
    loss: usize,
    /// Whether the last member gets next to nothing.
    deaf: bool,
    /// Of a hundred that arrive so many arrive again.
    doubling: usize,
    /// Of a hundred that arrive so many come out of turn.
    reordering: usize,
    /// Of a hundred events so many have nothing to do with the network.
    stray: usize,
    /// Of a hundred events so many write no packet.
    idle: usize,
    random: Random,
}

impl Network {
    fn event(&mut self) -> Event {
        if self.random.percent(self.stray) {
            return self.stray_event();
        }
        if self.random.percent(self.idle) {
            for _ in 0..9 {
                let event = if self.random.percent(50) {
                    self.next_event()
                } else {
                    self.stray_event()
                };
                if !self.writes(&event) {
                    return event;
                }
            }
            let member = self.member();
            return Event::Take { member };
        }
        self.next_event()
    }

    /// An event that moves things on.
    fn next_event(&mut self) -> Event {
        let random = &mut self.random;
        let members = &self.group.members;
        let member = random.below(members.len());
        let Member { waiting, .. } = members[member];
        let acknowledges = members[member].row_end();
        match random.below(40) {
            0..16 if !self.in_flight.is_empty() => self.arrival(),
            16..22 if !self.wanted.is_empty() => Event::Copy {
                number: self.wanted.remove(0),
            },
            22..30 => Event::Take { member },
            30..32 if waiting > 0 => Event::Repeat { member },
            32 if acknowledges > self.group.sequencer.acknowledged[member] => {
                Event::Status { member }
            }
            33 if random.percent(30) => Event::Poll,
            _ if waiting == 0 || random.percent(5) => Event::Submit {
                member,
                payload: self.payload(),
            },
            _ if !self.in_flight.is_empty() => self.arrival(),
            _ => Event::Take { member },
        }
    }

    fn arrival(&mut self) -> Event {
        let out_of_turn = self.random.percent(self.reordering);
        let at = if out_of_turn {
            self.random.below(self.in_flight.len())
        } else {
            0
        };
        let (packet, to) = self.in_flight[at];
        if !self.random.percent(self.doubling) {
            self.in_flight.remove(at);
        }
        match to {
            Some(member) => Event::ToMember { packet, member },
            None => Event::ToSequencer { packet },
        }
    }

    /// Any event with any numbers, mostly of things that are there.
    fn stray_event(&mut self) -> Event {
        let member = if self.random.percent(3) {
            self.random.one(&[16, 17, 99, 255, 256, 4_294_967_295])
        } else {
            self.random.below(self.group.members.len() + 1)
        };
        let packet = if self.random.percent(3) {
            self.random.one(&[199, 200, 256, 4_294_967_295])
        } else {
            self.random.below(self.group.packets.len() + 1)
        };
        match self.random.below(12) {
            0 => Event::Submit {
                member,
                payload: self.payload(),
            },
            1 => Event::Repeat { member },
            2..4 => Event::Take { member },
            4 => Event::Status { member },
            5 => Event::Poll,
            6 => {
                let top = self.group.sequencer.top as usize;
                let number = self.random.below(top + 3) as u32;
                let number = if self.random.percent(3) {
                    4_294_967_295 - number
                } else {
                    number
                };
                Event::Copy { number }
            }
            7..10 => Event::ToMember { packet, member },
            _ => Event::ToSequencer { packet },
        }
    }

    fn member(&mut self) -> usize {
        self.random.below(self.group.members.len())
    }

    fn payload(&mut self) -> Vec<u8> {
        let length = match self.random.below(40) {
            0 => PAYLOAD,
            1 => PAYLOAD + 1,
            2 => self.random.below(2 * PAYLOAD),
            3..8 => 0,
            _ => 1 + self.random.below(4),
        };
        let mut payload = self.random.bytes(length);
        // Half of them are for the work list: a job is added, or one fetched.
        match (self.random.below(6), payload.first_mut()) {
            (0..2, Some(first)) => *first = 1,
            (2, _) => payload = vec![2],
            _ => (),
        }
        payload
    }

    /// Whether an event would write a packet.
    fn writes(&self, event: &Event) -> bool {
        let group = &self.group;
        let out = &mut [0; PACKET];
        let call = match *event {
            Event::Submit {
                member,
                ref payload,
            } => group
                .members
                .get(member)
                .map(|state| state.clone().submit(payload, out)),
            Event::Repeat { member } => group.members.get(member).map(|state| state.repeat(out)),
            Event::Take { .. } => None,
            Event::Status { member } => group.members.get(member).map(|state| state.status(out)),
            Event::Poll => Some(group.sequencer.poll(out)),
            Event::Copy { number } => Some(group.sequencer.copy(number, out)),
            Event::ToMember { packet, member } => group
                .members
                .get(member)
                .zip(group.packets.get(packet))
                .map(|(state, bytes)| state.clone().receive(bytes, out)),
            Event::ToSequencer { packet } => group
                .packets
                .get(packet)
                .map(|bytes| group.sequencer.clone().receive(bytes, out)),
        };
        call.is_some_and(|(_, length)| length > 0)
    }

    /// Lets an event happen and puts what it wrote on its way.
    fn happen(&mut self, event: &Event) {
        let Some(outcome) = self.group.step(event) else {
            return;
        };
        if let Answer::Wanted(first, last) = outcome.answer {
            self.wanted.extend(first..=last);
        }
        let Some(index) = outcome.packet else {
            return;
        };
        let kind = self.group.packets[index][0];
        let to_members = [
            packet::BROADCAST,
            packet::POLL,
            packet::OFFER,
            packet::ACCEPT,
        ];
        if to_members.contains(&kind) {
            for member in 0..self.group.members.len() {
                self.send(index, Some(member));
            }
        } else {
            self.send(index, None);
        }
    }

    fn send(&mut self, packet: usize, to: Option<usize>) {
        let is_deaf = self.deaf && to == Some(self.group.members.len() - 1);
        let loss = if is_deaf { 90 } else { self.loss };
        if !self.random.percent(loss) {
            self.in_flight.push((packet, to));
        }
    }
}
