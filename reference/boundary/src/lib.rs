//! The proved library from Rust, and beside it the same rounds of calls on
//! the reference.
//!
//! [`proved`] wraps every function that crosses the boundary in a safe one,
//! and has the states of both ends, which the caller owns; [`reference`] has a
//! function of the same shape for each, and [`ends`] one text for the ends of
//! both. Both sides sum up the answers in the same way, so equal sums mean
//! equal answers.

use model::jobs::Job;
use model::journal::{self, Message};
use model::limits::PAYLOAD;

pub mod ends;
pub mod proved;
pub mod reference;
pub mod shrink;
pub mod terminals;

/// Characters of a line that `play` prints, at most: a taken payload in
/// hexadecimal, and the words and numbers around it.
pub const LINE: usize = 2 * PAYLOAD + 66;

/// Room that the proved library asks for a line of a load.
pub const LOAD_LINE: usize = 24;

/// A sequencer that has heard a list of packets since it was fresh.
#[derive(Clone, Copy, Debug)]
pub struct Sequencer<'a> {
    /// Members of the group.
    pub n: u8,
    /// The group number.
    pub group: u32,
    /// The resilience degree.
    pub resilience: u8,
    /// What it has heard.
    pub heard: &'a [u8],
}

/// A member that has heard a list of packets since it was fresh, and then
/// taken some.
#[derive(Clone, Copy, Debug)]
pub struct Member<'a> {
    /// Members of the group.
    pub n: u8,
    /// Its number.
    pub number: u8,
    /// The group number.
    pub group: u32,
    /// The resilience degree.
    pub resilience: u8,
    /// What it has heard.
    pub heard: &'a [u8],
    /// How often it was asked to take since.
    pub takes: u32,
}

/// A list of packets as both sides take it: two bytes with its length,
/// big-endian, stand before each. Longer ones are cut at 65,535 bytes.
pub fn list(packets: impl IntoIterator<Item = impl AsRef<[u8]>>) -> Vec<u8> {
    let mut list = Vec::new();
    for packet in packets {
        let packet = packet.as_ref();
        let size = u16::try_from(packet.len()).unwrap_or(u16::MAX);
        list.extend(size.to_be_bytes());
        list.extend(&packet[..size.into()]);
    }
    list
}

/// Records of a work list as both sides take them: state, member, four bytes
/// with the length, and all bytes for the job.
pub fn records<'a>(jobs: impl IntoIterator<Item = &'a Job>) -> Vec<u8> {
    let mut records = Vec::new();
    for job in jobs {
        records.extend([job.state, job.member]);
        records.extend(job.length.to_be_bytes());
        records.extend(job.bytes);
    }
    records
}

/// What a work list is fed, as both sides take it: two bytes with the
/// payload's length and the originator stand before each payload.
pub fn feeds(messages: &[(u8, Vec<u8>)]) -> Vec<u8> {
    let mut feeds = Vec::new();
    for (originator, payload) in messages {
        let size = u16::try_from(payload.len()).unwrap_or(u16::MAX);
        feeds.extend(size.to_be_bytes());
        feeds.push(*originator);
        feeds.extend(&payload[..size.into()]);
    }
    feeds
}

/// A writer of a journal, in any state: an unsound one is refused.
#[derive(Clone, Copy, Debug)]
pub struct Writer {
    /// The last number before what it is given.
    pub last: u32,
    /// Whether any number above it may follow, or the next one alone.
    pub free: bool,
    /// The first number in hand.
    pub first: u32,
    /// Records in hand.
    pub records: usize,
    /// Bytes used of the block in hand, which are zeros.
    pub used: usize,
}

impl Writer {
    /// With nothing in hand, behind the tail of a journal.
    pub fn after(last: u32, free: bool) -> Writer {
        Writer {
            last,
            free,
            first: 0,
            records: 0,
            used: journal::RECORDS,
        }
    }
}

/// The originator that means shutdown in a list of messages.
pub const SHUTDOWN: u8 = 255;

/// A shutdown, as an entry of a list of messages.
pub const FINISH: Message<'static> = Message {
    number: 0,
    originator: SHUTDOWN,
    count: 0,
    payload: &[],
};

/// A list of messages as both sides take it: number, originator, count and
/// length of the payload, big-endian, stand before each payload.
pub fn messages<'a>(messages: impl IntoIterator<Item = Message<'a>>) -> Vec<u8> {
    let mut list = Vec::new();
    for message in messages {
        let size = u16::try_from(message.payload.len()).unwrap_or(u16::MAX);
        list.extend(message.number.to_be_bytes());
        list.push(message.originator);
        list.extend(message.count.to_be_bytes());
        list.extend(size.to_be_bytes());
        list.extend(&message.payload[..size.into()]);
    }
    list
}

/// Takes a value into a running sum.
pub(crate) fn mix(sum: u64, value: u64) -> u64 {
    sum.wrapping_mul(3).wrapping_add(value)
}

/// The packets of a list, up to one that is cut off.
pub(crate) fn packets(mut list: &[u8]) -> impl Iterator<Item = &[u8]> {
    std::iter::from_fn(move || {
        let (&size, rest) = list.split_first_chunk()?;
        let (packet, rest) = rest.split_at_checked(u16::from_be_bytes(size).into())?;
        list = rest;
        Some(packet)
    })
}
