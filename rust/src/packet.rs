//! Packets, by their fields.

use crate::ffi::{self, code};
use crate::{Refusal, worded};

/// The fields of a packet; what each of A, B and C says goes by the kind.
#[derive(Clone, Copy, Debug, PartialEq, Eq)]
#[allow(missing_docs, reason = "the document names them so")]
pub struct Fields {
    pub kind: u8,
    pub member: u8,
    pub group: u32,
    pub a: u32,
    pub b: u32,
    pub c: u32,
}

impl Fields {
    /// A member's request, for the sequencer.
    pub const REQUEST: u8 = 1;
    /// A message with its number, for every member.
    pub const BROADCAST: u8 = 2;
    /// What a member misses, for the sequencer.
    pub const GAP: u8 = 3;
    /// What a member has, for the sequencer.
    pub const STATUS: u8 = 4;
    /// The sequencer asks every member for its status.
    pub const POLL: u8 = 5;
    /// A message with its number that is not accepted yet, for every member.
    pub const OFFER: u8 = 6;
    /// A member has everything up to an offer, for the sequencer.
    pub const CONFIRM: u8 = 7;
    /// What was offered is accepted, for every member.
    pub const ACCEPT: u8 = 8;
    /// A member invites the others to make the group anew, for every member.
    pub const INVITATION: u8 = 9;
    /// A member's reply to an invitation, for its sender.
    pub const REPLY: u8 = 10;
    /// The group that was made, with its survivors, for every member.
    pub const RESULT: u8 = 11;

    /// Reads a packet: its fields and its payload.
    ///
    /// # Errors
    ///
    /// The first of questions 3 to 6 that says no.
    ///
    /// ```
    /// use warghytes::{Fields, Refusal, Sequencer, PACKET};
    ///
    /// let mut out = [0; PACKET];
    /// let (fields, payload) = Fields::read(Sequencer::open(2, 7, 0)?.poll(&mut out)?)?;
    /// assert_eq!((fields.kind, fields.group, payload), (Fields::POLL, 7, &[][..]));
    /// assert_eq!(Fields::read(b"no packet"), Err(Refusal::PacketSize));
    /// # Ok::<(), Refusal>(())
    /// ```
    pub fn read(packet: &[u8]) -> Result<(Self, &[u8]), Refusal> {
        let mut fields = ffi::Fields::default();
        // SAFETY: the packet is lent with its length, and the fields apart from it.
        let code =
            unsafe { ffi::warghytes_packet_read(packet.as_ptr(), packet.len(), &raw mut fields) };
        worded(code, code::FIELDS, ())?;
        let ffi::Fields {
            kind,
            member,
            group,
            a,
            b,
            c,
        } = fields;
        let fields = Self {
            kind: kind as u8,
            member: member as u8,
            group,
            a,
            b,
            c,
        };
        Ok((fields, &packet[crate::HEADER..]))
    }

    /// Writes the packet with these fields and that payload.
    ///
    /// # Errors
    ///
    /// The first question that says no: reading what is written gives the same fields and payload.
    ///
    /// ```
    /// use warghytes::{Fields, Refusal, PACKET};
    ///
    /// let fields = Fields { kind: Fields::STATUS, member: 1, group: 7, a: 0, b: 3, c: 0 };
    /// let mut out = [0; PACKET];
    /// if let Ok(packet) = fields.write(b"", &mut out) {
    ///     assert_eq!(Fields::read(packet), Ok((fields, &b""[..])));
    /// }
    /// let unknown = Fields { kind: 0, ..fields };
    /// assert_eq!(unknown.write(b"", &mut out), Err(Refusal::UnknownKind));
    /// ```
    pub fn write<'o>(&self, payload: &[u8], out: &'o mut [u8]) -> Result<&'o [u8], Refusal> {
        let &Self {
            kind,
            member,
            group,
            a,
            b,
            c,
        } = self;
        let (size, room) = (payload.len(), out.len());
        // SAFETY: payload and output are lent, apart from each other, with their lengths.
        let answer = unsafe {
            ffi::warghytes_packet_write(
                kind,
                member,
                group,
                a,
                b,
                c,
                payload.as_ptr(),
                size,
                out.as_mut_ptr(),
                room,
            )
        };
        let size = worded(answer.code, code::BYTES, answer.number)?;
        Ok(&out[..size])
    }
}
