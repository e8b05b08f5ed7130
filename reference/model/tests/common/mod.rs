//! Helpers of the tests.
#![allow(dead_code)]

use model::Answer;
use model::limits::PACKET;
use model::member::Member;
use model::sequencer::Sequencer;
use std::fmt::Debug;

pub const GROUP: u32 = 7;
pub const MAX: u32 = 4_294_967_295;
/// What lent outputs hold before a call.
pub const BLANK: u8 = 0xaa;

/// A packet by hand, so that faulty ones can be made: L is the payload's.
pub fn packet(kind: u8, member: u8, [a, b, c]: [u32; 3], payload: &[u8]) -> Vec<u8> {
    let mut bytes = vec![kind, member];
    bytes.extend((payload.len() as u16).to_be_bytes());
    for word in [GROUP, a, b, c] {
        bytes.extend(word.to_be_bytes());
    }
    bytes.extend(payload);
    bytes
}

pub fn request(member: u8, taken: u32, count: u32, payload: &[u8]) -> Vec<u8> {
    packet(1, member, [taken, count, 0], payload)
}

pub fn broadcast(originator: u8, number: u32, count: u32, floor: u32, payload: &[u8]) -> Vec<u8> {
    packet(2, originator, [number, count, floor], payload)
}

pub fn gap(member: u8, taken: u32, first: u32, last: u32) -> Vec<u8> {
    packet(3, member, [taken, first, last], &[])
}

pub fn status(member: u8, taken: u32) -> Vec<u8> {
    packet(4, member, [taken, 0, 0], &[])
}

pub fn poll(top: u32, floor: u32) -> Vec<u8> {
    packet(5, 0, [top, 0, floor], &[])
}

pub fn offer(originator: u8, number: u32, count: u32, floor: u32, payload: &[u8]) -> Vec<u8> {
    packet(6, originator, [number, count, floor], payload)
}

pub fn confirm(member: u8, number: u32) -> Vec<u8> {
    packet(7, member, [number, 0, 0], &[])
}

pub fn accept(number: u32) -> Vec<u8> {
    packet(8, 0, [number, 0, 0], &[])
}

/// An accepted call: its answer and what it wrote. Outputs just long enough
/// and longer ones must give the same; bytes behind keep their values.
pub fn accepted<S: Clone + PartialEq + Debug>(
    state: &mut S,
    call: impl Fn(&mut S, &mut [u8]) -> (Answer, usize),
) -> (Answer, Vec<u8>) {
    let before = state.clone();
    let mut out = [BLANK; PACKET];
    let (answer, length) = call(state, &mut out);
    assert!(!matches!(answer, Answer::Refused(_)), "{answer:?}");
    assert!(out[length..].iter().all(|&byte| byte == BLANK));

    let mut other = before;
    let mut longer = [!BLANK; 2 * PACKET];
    assert_eq!(call(&mut other, &mut longer), (answer, length));
    assert_eq!(&other, state);
    assert_eq!(longer[..length], out[..length]);
    assert!(longer[length..].iter().all(|&byte| byte == !BLANK));
    (answer, out[..length].to_vec())
}

/// The number of the question that refuses a call with an output of `lent`
/// bytes; state and output must be unchanged.
pub fn refused_lent<S: Clone + PartialEq + Debug>(
    state: &S,
    lent: usize,
    call: impl Fn(&mut S, &mut [u8]) -> (Answer, usize),
) -> u8 {
    let mut after = state.clone();
    let mut out = vec![BLANK; lent];
    let (answer, length) = call(&mut after, &mut out);
    let Answer::Refused(refusal) = answer else {
        panic!("not refused: {answer:?}");
    };
    assert_eq!(length, 0);
    assert_eq!(&after, state);
    assert!(out.iter().all(|&byte| byte == BLANK));
    refusal.number()
}

/// The same with an output that is long enough.
pub fn refused<S: Clone + PartialEq + Debug>(
    state: &S,
    call: impl Fn(&mut S, &mut [u8]) -> (Answer, usize),
) -> u8 {
    refused_lent(state, PACKET, call)
}

pub fn hand(sequencer: &mut Sequencer, packet: &[u8]) -> (Answer, Vec<u8>) {
    accepted(sequencer, |state, out| state.receive(packet, out))
}

pub fn hand_refused(sequencer: &Sequencer, packet: &[u8]) -> u8 {
    refused(sequencer, |state, out| state.receive(packet, out))
}

pub fn give(member: &mut Member, packet: &[u8]) -> (Answer, Vec<u8>) {
    accepted(member, |state, out| state.receive(packet, out))
}

pub fn give_refused(member: &Member, packet: &[u8]) -> u8 {
    refused(member, |state, out| state.receive(packet, out))
}

pub fn take(member: &mut Member) -> (Answer, Vec<u8>) {
    accepted(member, |state, out| state.take(out))
}

pub fn submit(member: &mut Member, payload: &[u8]) -> (Answer, Vec<u8>) {
    accepted(member, |state, out| state.submit(payload, out))
}

/// Small generator for schedules: xorshift.
pub struct Random(u64);

impl Random {
    pub fn seeded(seed: u64) -> Random {
        let mut random = Random(seed.wrapping_mul(0x9e37_79b9_7f4a_7c15) | 1);
        random.next();
        random.next();
        random
    }

    pub fn next(&mut self) -> u64 {
        self.0 ^= self.0 << 13;
        self.0 ^= self.0 >> 7;
        self.0 ^= self.0 << 17;
        self.0
    }

    pub fn below(&mut self, bound: usize) -> usize {
        (self.next() >> 11) as usize % bound
    }
}
