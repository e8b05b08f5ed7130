//! Packets: a header of 20 bytes, numbers big-endian, then the payload.

use crate::answer::Refusal;
use crate::limits::{HEADER, PACKET, PAYLOAD};
use crate::members;

/// Kind 1, member to sequencer: number this message.
pub const REQUEST: u8 = 1;
/// Kind 2, sequencer to members: a numbered message.
pub const BROADCAST: u8 = 2;
/// Kind 3, member to sequencer: these numbers are missing.
pub const GAP: u8 = 3;
/// Kind 4, member to sequencer: an acknowledgement alone.
pub const STATUS: u8 = 4;
/// Kind 5, sequencer to members: what is missing?
pub const POLL: u8 = 5;
/// Kind 6, sequencer to members: a numbered message that is not yet accepted.
pub const OFFER: u8 = 6;
/// Kind 7, member to sequencer: it has everything up to an offer.
pub const CONFIRM: u8 = 7;
/// Kind 8, sequencer to members: everything up to a number is accepted.
pub const ACCEPT: u8 = 8;
/// Kind 9, member to members: who joins a new group?
pub const INVITATION: u8 = 9;
/// Kind 10, member to the one that invites: it joins, and has everything up
/// to a number.
pub const REPLY: u8 = 10;
/// Kind 11, member to members: the new group is made.
pub const RESULT: u8 = 11;

/// The fields of a packet. L is not among them: it is the payload's length.
#[derive(Clone, Copy, Debug, PartialEq, Eq)]
pub struct Header {
    /// Byte 0, 1 to 11.
    pub kind: u8,
    /// Byte 1, sender or originator; in kinds 5 and 8 the elected member.
    pub member: u8,
    /// Bytes 4-7.
    pub group: u32,
    /// Bytes 8-11: last acknowledged, sequence number, top, or the number of
    /// the new group.
    pub a: u32,
    /// Bytes 12-15: count, first number wanted, the number replied, or the
    /// new group's sequencer.
    pub b: u32,
    /// Bytes 16-19: floor, last number wanted, or the sequencer's number.
    pub c: u32,
}

impl Header {
    fn kind_is_known(&self) -> bool {
        (REQUEST..=RESULT).contains(&self.kind)
    }

    /// Whether this kind may have a payload of so many bytes.
    fn may_carry(&self, length: usize) -> bool {
        match self.kind {
            REQUEST | BROADCAST | OFFER => true,
            RESULT => length == 2,
            _ => length == 0,
        }
    }

    /// Question 6, for a known kind with a payload that it may carry.
    fn fields_obey(&self, payload: &[u8]) -> bool {
        let Header { a, b, c, .. } = *self;
        match self.kind {
            REQUEST => b >= 1 && c == 0,
            BROADCAST | OFFER => a >= 1 && b >= 1 && c < a,
            GAP => a < b && b <= c,
            STATUS => b == 0 && c == 0,
            POLL => b == 0 && c <= a,
            CONFIRM | ACCEPT => a >= 1 && b == 0 && c == 0,
            INVITATION => b == 0 && c == 0,
            REPLY => c == 0,
            _ => {
                let survivors = survivors(payload);
                members::has(survivors, self.member.into()) && members::has(survivors, b)
            }
        }
    }

    /// Question 6 at an end: a poll and a kind 8 name its elected member.
    pub(crate) fn is_from(&self, elected: u8) -> bool {
        !matches!(self.kind, POLL | ACCEPT) || self.member == elected
    }
}

/// Reads a packet: questions 3 to 6.
pub fn read(packet: &[u8]) -> Result<Header, Refusal> {
    Refusal::PacketSize.unless(packet.len() <= PACKET)?;
    let (bytes, payload) = packet
        .split_first_chunk::<HEADER>()
        .ok_or(Refusal::PacketSize)?;
    let word =
        |at: usize| u32::from_be_bytes([bytes[at], bytes[at + 1], bytes[at + 2], bytes[at + 3]]);
    let header = Header {
        kind: bytes[0],
        member: bytes[1],
        group: word(4),
        a: word(8),
        b: word(12),
        c: word(16),
    };
    let length = usize::from(u16::from_be_bytes([bytes[2], bytes[3]]));
    Refusal::Kind.unless(header.kind_is_known())?;
    Refusal::Length.unless(length == payload.len())?;
    Refusal::Length.unless(header.may_carry(length))?;
    Refusal::Fields.unless(header.fields_obey(payload))?;
    Ok(header)
}

/// The payload of a packet that [`read`] accepts.
pub fn payload(packet: &[u8]) -> &[u8] {
    &packet[HEADER..]
}

/// The survivors that the payload of a result names, bit i for member i.
pub fn survivors(payload: &[u8]) -> u16 {
    u16::from_be_bytes([payload[0], payload[1]])
}

/// Writes a packet to the front of `out` and returns its length: questions
/// 2, 4, 5, 6 and 13. Bytes behind the packet keep their values.
pub fn write(header: &Header, payload: &[u8], out: &mut [u8]) -> Result<usize, Refusal> {
    Refusal::ShortOutput.unless(out.len() >= PACKET)?;
    Refusal::Kind.unless(header.kind_is_known())?;
    Refusal::Length.unless(header.may_carry(payload.len()))?;
    Refusal::Fields.unless(header.fields_obey(payload))?;
    Refusal::PayloadTooLong.unless(payload.len() <= PAYLOAD)?;
    Ok(put(header, payload, out))
}

/// Writes a packet whose questions are already answered.
pub(crate) fn put(header: &Header, payload: &[u8], out: &mut [u8]) -> usize {
    let mut bytes = [0; HEADER];
    bytes[0] = header.kind;
    bytes[1] = header.member;
    bytes[2..4].copy_from_slice(&(payload.len() as u16).to_be_bytes());
    bytes[4..8].copy_from_slice(&header.group.to_be_bytes());
    bytes[8..12].copy_from_slice(&header.a.to_be_bytes());
    bytes[12..16].copy_from_slice(&header.b.to_be_bytes());
    bytes[16..20].copy_from_slice(&header.c.to_be_bytes());
    let length = HEADER + payload.len();
    out[..HEADER].copy_from_slice(&bytes);
    out[HEADER..length].copy_from_slice(payload);
    length
}
