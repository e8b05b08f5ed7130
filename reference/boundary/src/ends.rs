//! Both ends of either side behind one trait each, and rounds of their calls:
//! the same text runs the proved ends and the reference's.

use crate::{Member, Sequencer, mix, packets};
use model::limits::{MEMBERS, PAYLOAD};
use model::place::{Payload, Place};
use model::terminal::Terminal;
use model::{Answer, Refusal, member, sequencer};
use std::hint::black_box;

/// What a call tells: the code of its answer, the answer's numbers in their
/// order, whether the following number is held, and how many bytes it wrote.
/// This is also how the proved library lays it in memory.
#[repr(C)]
#[derive(Clone, Copy, Debug, PartialEq, Eq)]
pub struct Told {
    /// The number of a refusal, else the code of the word.
    pub code: u32,
    /// The answer's numbers, 0 behind them.
    pub numbers: [u32; 3],
    /// 1 if the following number is held too.
    pub more: u32,
    /// Bytes at the front of the output.
    pub written: usize,
}

impl Told {
    /// The code of a take that hands out a message.
    pub const TOOK: u32 = 55;

    /// What an answer of the reference tells.
    pub fn of((answer, written): (Answer, usize)) -> Told {
        let (code, numbers, more) = match answer {
            Answer::Refused(refusal) => (refusal.number().into(), [0; 3], 0),
            Answer::Old => (32, [0; 3], 0),
            Answer::Full => (33, [0; 3], 0),
            Answer::Noted => (34, [0; 3], 0),
            Answer::Sent => (35, [0; 3], 0),
            Answer::Again(number) => (36, [number, 0, 0], 0),
            Answer::Numbered(number) => (37, [number, 0, 0], 0),
            Answer::Wanted(first, last) => (38, [first, last, 0], 0),
            Answer::Accepted => (39, [0; 3], 0),
            Answer::Marked => (40, [0; 3], 0),
            Answer::Kept => (48, [0; 3], 0),
            Answer::KeptGap => (49, [0; 3], 0),
            Answer::Beyond => (50, [0; 3], 0),
            Answer::BeyondGap => (51, [0; 3], 0),
            Answer::Gap => (52, [0; 3], 0),
            Answer::Status => (53, [0; 3], 0),
            Answer::None => (54, [0; 3], 0),
            Answer::Took {
                number,
                originator,
                count,
                more,
            } => (Told::TOOK, [number, originator.into(), count], more.into()),
            Answer::Queued(count) => (56, [count, 0, 0], 0),
        };
        Told {
            code,
            numbers,
            more,
            written,
        }
    }

    /// Takes all of it into a running sum.
    pub fn summed(&self, sum: u64) -> u64 {
        let [first, second, third] = self.numbers.map(u64::from);
        let sum = mix(sum, u64::from(self.code) << 32 | first);
        let sum = mix(sum, second << 32 | third);
        mix(sum, u64::from(self.more) << 32 | self.written as u64)
    }
}

/// A sequencer of either side.
pub trait Sequencing: Clone {
    /// Opened, with an allowed n and resilience degree.
    fn opened(n: u8, group: u32, resilience: u8) -> Self;
    /// Takes a packet.
    fn receive(&mut self, packet: &[u8], out: &mut [u8]) -> Told;
    /// Writes the poll packet.
    fn poll(&self, out: &mut [u8]) -> Told;
    /// Writes the broadcast of a number.
    fn copy(&self, number: u32, out: &mut [u8]) -> Told;
}

impl Sequencing for sequencer::Sequencer {
    fn opened(n: u8, group: u32, resilience: u8) -> Self {
        sequencer::Sequencer::resilient(n.into(), group, resilience.into())
            .expect("an allowed opening")
    }
    fn receive(&mut self, packet: &[u8], out: &mut [u8]) -> Told {
        Told::of(sequencer::Sequencer::receive(self, packet, out))
    }
    fn poll(&self, out: &mut [u8]) -> Told {
        Told::of(sequencer::Sequencer::poll(self, out))
    }
    fn copy(&self, number: u32, out: &mut [u8]) -> Told {
        Told::of(sequencer::Sequencer::copy(self, number, out))
    }
}

/// A member of either side.
pub trait Membership: Clone {
    /// Opened, with an allowed n, number and resilience degree.
    fn opened(n: u8, number: u8, group: u32, resilience: u8) -> Self;
    /// Submits a message.
    fn submit(&mut self, payload: &[u8], out: &mut [u8]) -> Told;
    /// Takes a packet.
    fn receive(&mut self, packet: &[u8], out: &mut [u8]) -> Told;
    /// Hands out the next message.
    fn take(&mut self, out: &mut [u8]) -> Told;
    /// Writes the first request again.
    fn repeat(&self, out: &mut [u8]) -> Told;
    /// Writes a status packet.
    fn status(&self, out: &mut [u8]) -> Told;
}

impl Membership for member::Member {
    fn opened(n: u8, number: u8, group: u32, resilience: u8) -> Self {
        member::Member::resilient(n.into(), number.into(), group, resilience.into())
            .expect("an allowed opening")
    }
    fn submit(&mut self, payload: &[u8], out: &mut [u8]) -> Told {
        Told::of(member::Member::submit(self, payload, out))
    }
    fn receive(&mut self, packet: &[u8], out: &mut [u8]) -> Told {
        Told::of(member::Member::receive(self, packet, out))
    }
    fn take(&mut self, out: &mut [u8]) -> Told {
        Told::of(member::Member::take(self, out))
    }
    fn repeat(&self, out: &mut [u8]) -> Told {
        Told::of(member::Member::repeat(self, out))
    }
    fn status(&self, out: &mut [u8]) -> Told {
        Told::of(member::Member::status(self, out))
    }
}

/// A terminal of either side: its member's calls are those of a member.
pub trait Resetting: Membership {
    /// Invites to a group of that number.
    fn invite(&mut self, number: u32, out: &mut [u8]) -> Told;
    /// Makes the group of all whose replies came.
    fn make(&mut self, demand: u32, out: &mut [u8]) -> Told;
    /// Takes a packet at its sequencer.
    fn order(&mut self, packet: &[u8], out: &mut [u8]) -> Told;
}

impl Membership for Terminal {
    fn opened(n: u8, number: u8, group: u32, resilience: u8) -> Self {
        Terminal::fresh(n.into(), number.into(), group, resilience.into())
            .expect("an allowed opening")
    }
    fn submit(&mut self, payload: &[u8], out: &mut [u8]) -> Told {
        Told::of(Terminal::submit(self, payload, out))
    }
    fn receive(&mut self, packet: &[u8], out: &mut [u8]) -> Told {
        Told::of(Terminal::receive(self, packet, out))
    }
    fn take(&mut self, out: &mut [u8]) -> Told {
        Told::of(Terminal::take(self, out))
    }
    fn repeat(&self, out: &mut [u8]) -> Told {
        Told::of(Terminal::repeat(&mut self.clone(), out))
    }
    fn status(&self, out: &mut [u8]) -> Told {
        Told::of(Terminal::status(&mut self.clone(), out))
    }
}

impl Resetting for Terminal {
    fn invite(&mut self, number: u32, out: &mut [u8]) -> Told {
        Told::of(Terminal::invite(self, number, out))
    }
    fn make(&mut self, demand: u32, out: &mut [u8]) -> Told {
        Told::of(Terminal::make(self, demand, out))
    }
    fn order(&mut self, packet: &[u8], out: &mut [u8]) -> Told {
        let answer = Terminal::order(self, packet, out);
        Told::of(answer.unwrap_or((Answer::Refused(Refusal::Unsound), 0)))
    }
}

/// Rounds, each from the same state: the running sum of what is told, and the
/// last state. A round of no calls costs the copy of the state alone.
fn rounds_from<S: Clone>(
    start: S,
    rounds: u32,
    mut round: impl FnMut(&mut S, u64) -> u64,
) -> (u64, S) {
    let mut state = start.clone();
    let mut sum = 0;
    for _ in 0..rounds {
        state.clone_from(&start);
        sum = round(black_box(&mut state), sum);
    }
    (sum, state)
}

/// The sequencer of a description.
pub fn sequencer<S: Sequencing>(end: Sequencer<'_>, out: &mut [u8]) -> S {
    let mut state = S::opened(end.n, end.group, end.resilience);
    for packet in packets(end.heard) {
        state.receive(packet, out);
    }
    state
}

/// Rounds of handing a sequencer a list of packets.
#[inline(never)]
pub fn sequencer_receive<S: Sequencing>(
    end: Sequencer<'_>,
    list: &[u8],
    rounds: u32,
    out: &mut [u8],
) -> u64 {
    let start: S = sequencer(end, out);
    let round = |state: &mut S, sum| {
        packets(list).fold(sum, |sum, packet| state.receive(packet, out).summed(sum))
    };
    rounds_from(start, rounds, round).0
}

/// Rounds of the poll call.
#[inline(never)]
pub fn sequencer_poll<S: Sequencing>(end: Sequencer<'_>, rounds: u32, out: &mut [u8]) -> u64 {
    let state: S = sequencer(end, out);
    (0..rounds).fold(0, |sum, _| black_box(&state).poll(out).summed(sum))
}

/// Rounds of the copy call.
#[inline(never)]
pub fn sequencer_copy<S: Sequencing>(
    end: Sequencer<'_>,
    number: u32,
    rounds: u32,
    out: &mut [u8],
) -> u64 {
    let state: S = sequencer(end, out);
    (0..rounds).fold(0, |sum, _| black_box(&state).copy(number, out).summed(sum))
}

/// The member of a description.
pub fn member<M: Membership>(end: Member<'_>, out: &mut [u8]) -> M {
    let mut state = M::opened(end.n, end.number, end.group, end.resilience);
    for packet in packets(end.heard) {
        state.receive(packet, out);
    }
    for _ in 0..end.takes {
        state.take(out);
    }
    state
}

/// The member of a description that has submitted so often before it heard.
fn typist<M: Membership>(end: Member<'_>, payload: &[u8], waiting: u32, out: &mut [u8]) -> M {
    let mut state = M::opened(end.n, end.number, end.group, end.resilience);
    for _ in 0..waiting {
        state.submit(payload, out);
    }
    for packet in packets(end.heard) {
        state.receive(packet, out);
    }
    state
}

/// Rounds of handing a member a list of packets.
#[inline(never)]
pub fn member_receive<M: Membership>(
    end: Member<'_>,
    list: &[u8],
    rounds: u32,
    out: &mut [u8],
) -> u64 {
    let start: M = member(end, out);
    let round = |state: &mut M, sum| {
        packets(list).fold(sum, |sum, packet| state.receive(packet, out).summed(sum))
    };
    rounds_from(start, rounds, round).0
}

/// Rounds of take calls and then submit calls of a member that has submitted
/// and then heard; then a repeat call, which reads the first that waits.
#[inline(never)]
pub fn member_queue<M: Membership>(
    end: Member<'_>,
    payload: &[u8],
    waiting: u32,
    submits: u32,
    rounds: u32,
    out: &mut [u8],
) -> u64 {
    let start: M = typist(end, payload, waiting, out);
    let round = |state: &mut M, sum| {
        let sum = (0..end.takes).fold(sum, |sum, _| state.take(out).summed(sum));
        (0..submits).fold(sum, |sum, _| state.submit(payload, out).summed(sum))
    };
    let (sum, last) = rounds_from(start, rounds, round);
    last.repeat(out).summed(sum)
}

/// Rounds of submit calls; then a status call, which reads the last state.
#[inline(never)]
pub fn member_submit<M: Membership>(
    end: Member<'_>,
    payload: &[u8],
    submits: u32,
    rounds: u32,
    out: &mut [u8],
) -> u64 {
    let start: M = member(end, out);
    let round = |state: &mut M, sum| {
        (0..submits).fold(sum, |sum, _| state.submit(payload, out).summed(sum))
    };
    let (sum, last) = rounds_from(start, rounds, round);
    last.status(out).summed(sum)
}

/// Rounds of so many take calls.
#[inline(never)]
pub fn member_take<M: Membership>(end: Member<'_>, calls: u32, rounds: u32, out: &mut [u8]) -> u64 {
    let start: M = member(end, out);
    let round = |state: &mut M, sum| (0..calls).fold(sum, |sum, _| state.take(out).summed(sum));
    rounds_from(start, rounds, round).0
}

/// Submits once, then rounds of the repeat call.
#[inline(never)]
pub fn member_repeat<M: Membership>(
    end: Member<'_>,
    payload: &[u8],
    rounds: u32,
    out: &mut [u8],
) -> u64 {
    let mut state: M = member(end, out);
    state.submit(payload, out);
    (0..rounds).fold(0, |sum, _| black_box(&state).repeat(out).summed(sum))
}

/// Rounds of the status call.
#[inline(never)]
pub fn member_status<M: Membership>(end: Member<'_>, rounds: u32, out: &mut [u8]) -> u64 {
    let state: M = member(end, out);
    (0..rounds).fold(0, |sum, _| black_box(&state).status(out).summed(sum))
}

/// Rounds of a packet list that is handed to a terminal's sequencer.
#[inline(never)]
pub fn terminal_order<T: Resetting>(
    end: Member<'_>,
    list: &[u8],
    rounds: u32,
    out: &mut [u8],
) -> u64 {
    let start: T = member(end, out);
    let round = |state: &mut T, sum| {
        packets(list).fold(sum, |sum, packet| state.order(packet, out).summed(sum))
    };
    rounds_from(start, rounds, round).0
}

/// Rounds of a reset, or of none: an invitation, the replies, and the making.
#[inline(never)]
pub fn terminal_reset<T: Resetting>(
    end: Member<'_>,
    replies: &[u8],
    resets: u32,
    rounds: u32,
    out: &mut [u8],
) -> u64 {
    let start: T = member(end, out);
    let round = |state: &mut T, sum| {
        (0..resets).fold(sum, |sum, _| {
            let sum = state.invite(end.group + 1, out).summed(sum);
            let sum =
                packets(replies).fold(sum, |sum, reply| state.receive(reply, out).summed(sum));
            state.make(2, out).summed(sum)
        })
    };
    rounds_from(start, rounds, round).0
}

/// The places of the reference from what the proved ends keep of them.
pub(crate) fn places<const N: usize>(
    counts: &[u32; N],
    originators: &[u8; N],
    lengths: &[u8; N],
    payloads: &[[u8; PAYLOAD]; N],
) -> [Place; N] {
    std::array::from_fn(|at| Place {
        originator: originators[at],
        count: counts[at],
        payload: Payload {
            length: lengths[at],
            bytes: payloads[at],
        },
    })
}

/// A table with an entry for each member.
pub type Table = [u32; MEMBERS];
