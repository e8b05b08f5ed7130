//! A repeatable load: from a seed, a schedule that [`crate::play`] reads.

use crate::answer::Refusal;
use crate::group::Event;
use crate::limits::{HISTORY, MEMBERS};
use crate::play::PACKETS;
use std::fmt;
use std::io::{self, Write};

/// Numbers from a seed.
#[derive(Clone, Copy, Debug, PartialEq, Eq)]
pub struct Generator {
    /// Where it stands: a seed at first.
    pub state: u32,
}

impl Generator {
    /// What a step adds.
    pub const INCREMENT: u32 = 2_654_435_769;

    /// One step.
    pub fn step(&mut self) {
        self.state = self.state.wrapping_add(Generator::INCREMENT);
    }

    /// What the state puts out.
    pub fn output(self) -> u32 {
        self.state ^ (self.state >> 16)
    }

    /// Chooses one of so many: a step, and then the output.
    fn choose(&mut self, of: usize) -> usize {
        self.step();
        self.output() as usize % of
    }
}

/// A load of n members, at some event.
#[derive(Clone, Copy, Debug, PartialEq, Eq)]
pub struct Load {
    /// Where its numbers come from.
    pub generator: Generator,
    /// Members of the group.
    pub n: u8,
}

impl Load {
    /// A load of n members from a seed.
    pub fn open(seed: u32, n: u32) -> Result<Load, Refusal> {
        match u8::try_from(n) {
            Ok(n @ 1..) if usize::from(n) <= MEMBERS => Ok(Load {
                generator: Generator { state: seed },
                n,
            }),
            _ => Err(Refusal::Opening),
        }
    }

    fn member(&mut self) -> usize {
        self.generator.choose(self.n.into())
    }

    fn packet(&mut self) -> usize {
        self.generator.choose(PACKETS)
    }

    /// The next event: its letter, and then its fields in the order of the
    /// line.
    pub fn event(&mut self) -> Event {
        match b"SRTAPCMQ"[self.generator.choose(8)] {
            b'S' => Event::Submit {
                member: self.member(),
                payload: vec![self.generator.choose(256) as u8],
            },
            b'R' => Event::Repeat {
                member: self.member(),
            },
            b'T' => Event::Take {
                member: self.member(),
            },
            b'A' => Event::Status {
                member: self.member(),
            },
            b'P' => Event::Poll,
            b'C' => Event::Copy {
                number: 1 + self.generator.choose(HISTORY) as u32,
            },
            b'M' => Event::ToMember {
                packet: self.packet(),
                member: self.member(),
            },
            _ => Event::ToSequencer {
                packet: self.packet(),
            },
        }
    }
}

/// The line of an event, without its line feed.
impl fmt::Display for Event {
    fn fmt(&self, f: &mut fmt::Formatter<'_>) -> fmt::Result {
        match self {
            Event::Submit { member, payload } if payload.is_empty() => write!(f, "S {member} -"),
            Event::Submit { member, payload } => {
                write!(f, "S {member} ")?;
                payload.iter().try_for_each(|byte| write!(f, "{byte:02x}"))
            }
            Event::Repeat { member } => write!(f, "R {member}"),
            Event::Take { member } => write!(f, "T {member}"),
            Event::Status { member } => write!(f, "A {member}"),
            Event::Poll => write!(f, "P"),
            Event::Copy { number } => write!(f, "C {number}"),
            Event::ToMember { packet, member } => write!(f, "M {packet} {member}"),
            Event::ToSequencer { packet } => write!(f, "Q {packet}"),
        }
    }
}

/// Writes a whole load: its first line, and then so many events.
pub fn write(load: Load, group: u32, events: u32, output: &mut impl Write) -> io::Result<()> {
    let mut load = load;
    writeln!(output, "N {} {group}", load.n)?;
    for _ in 0..events {
        writeln!(output, "{}", load.event())?;
    }
    Ok(())
}

/// The text of a whole load.
pub fn text(seed: u32, n: u32, group: u32, events: u32) -> Result<Vec<u8>, Refusal> {
    let mut text = Vec::new();
    write(Load::open(seed, n)?, group, events, &mut text).expect("writing to memory");
    Ok(text)
}
