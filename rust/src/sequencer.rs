//! The end that numbers every message.

use crate::ffi::{self, code};
use crate::{Refusal, no_such};
use core::ops::RangeInclusive;

/// The sequencer of a group.
#[derive(Clone)]
pub struct Sequencer(ffi::Sequencer);

/// What the sequencer answers to a packet. What it wrote is for every member.
#[derive(Clone, Debug, PartialEq, Eq)]
#[non_exhaustive]
pub enum Received<'o> {
    /// Nothing new.
    Old,
    /// An acknowledgement was noted.
    Noted,
    /// The message got its number.
    Numbered {
        /// Its place in the order.
        number: u32,
        /// Its broadcast, or its offer.
        packet: &'o [u8],
    },
    /// The message had its number already.
    Again {
        /// Its place in the order.
        number: u32,
        /// Its broadcast or offer, again.
        packet: &'o [u8],
    },
    /// A member confirmed an offer, and more members have to.
    Marked,
    /// What was offered is accepted, up to a number.
    Accepted(&'o [u8]),
    /// The history has no place: members have to acknowledge first, as this poll asks.
    Full(&'o [u8]),
    /// A member misses these numbers: [`Sequencer::copy`] each.
    Wanted(RangeInclusive<u32>),
}

impl<'o> Received<'o> {
    /// What was written, for every member.
    #[must_use]
    pub const fn packet(&self) -> Option<&'o [u8]> {
        match self {
            Received::Numbered { packet, .. }
            | Received::Again { packet, .. }
            | Received::Accepted(packet)
            | Received::Full(packet) => Some(packet),
            Received::Old | Received::Noted | Received::Marked | Received::Wanted(_) => None,
        }
    }
}

/// What a packet is answered.
pub(crate) fn received(told: ffi::Told, out: &mut [u8]) -> Result<Received<'_>, Refusal> {
    let (told, written) = told.said(out)?;
    Ok(match told.code {
        code::OLD => Received::Old,
        code::NOTED => Received::Noted,
        code::NUMBERED => Received::Numbered {
            number: told.first,
            packet: written,
        },
        code::AGAIN => Received::Again {
            number: told.first,
            packet: written,
        },
        code::MARKED => Received::Marked,
        code::ACCEPTED => Received::Accepted(written),
        code::FULL => Received::Full(written),
        code::WANTED => Received::Wanted(told.first..=told.second),
        code => no_such(code),
    })
}

impl Sequencer {
    /// The sequencer of `n` members in the group with that number and resilience degree. A message is taken only when so many members
    /// other than 0 have it: with 0 each is broadcast as it is numbered, else it is offered first. Every end has the same degree.
    ///
    /// # Errors
    ///
    /// [`Refusal::Opening`], if n is not 1 to 16; [`Refusal::Resilience`], if the degree is not below n.
    ///
    /// ```
    /// use warghytes::{Refusal, Sequencer};
    ///
    /// assert_eq!(Sequencer::open(17, 7, 0).err(), Some(Refusal::Opening));
    /// assert_eq!(Sequencer::open(16, 7, 16).err(), Some(Refusal::Resilience));
    /// assert_eq!(Sequencer::open(16, 7, 15)?.top(), 0);
    /// # Ok::<(), Refusal>(())
    /// ```
    pub fn open(n: u8, group: u32, resilience: u8) -> Result<Self, Refusal> {
        // SAFETY: the state is numbers and arrays of them, for which zeros are values.
        let mut state: ffi::Sequencer = unsafe { core::mem::zeroed() };
        // SAFETY: the state is lent alone, for the call.
        let told = unsafe { ffi::warghytes_sequencer_open(&raw mut state, n, group, resilience) };
        match told.code {
            code::ACCEPTED => Ok(Self(state)),
            code => Err(Refusal::of(code)),
        }
    }

    /// Hands it a packet that came.
    ///
    /// # Errors
    ///
    /// A packet that is none, of another group, for members, or that says what cannot be.
    #[must_use = "what it wrote is for every member"]
    pub fn receive<'o>(
        &mut self,
        packet: &[u8],
        out: &'o mut [u8],
    ) -> Result<Received<'o>, Refusal> {
        let told = ffi::with_bytes(ffi::warghytes_sequencer_receive, &mut self.0, packet, out);
        received(told, out)
    }

    /// A poll, for every member.
    ///
    /// # Errors
    ///
    /// [`Refusal::ShortOutput`].
    #[must_use = "a poll that is not sent is lost"]
    pub fn poll<'o>(&self, out: &'o mut [u8]) -> Result<&'o [u8], Refusal> {
        let told = ffi::looking(ffi::warghytes_sequencer_poll, &self.0, out);
        Ok(told.said(out)?.1)
    }

    /// The broadcast of a number in the history again, or its offer if it is not accepted.
    ///
    /// # Errors
    ///
    /// [`Refusal::NotInHistory`], [`Refusal::ShortOutput`].
    ///
    /// ```
    /// use warghytes::{Refusal, Sequencer, PACKET};
    ///
    /// let sequencer = Sequencer::open(1, 7, 0)?;
    /// assert_eq!(sequencer.copy(1, &mut [0; PACKET]), Err(Refusal::NotInHistory));
    /// # Ok::<(), Refusal>(())
    /// ```
    #[must_use = "a copy that is not sent is lost"]
    pub fn copy<'o>(&self, number: u32, out: &'o mut [u8]) -> Result<&'o [u8], Refusal> {
        let room = out.len();
        // SAFETY: state and output are lent, apart from each other, with its length.
        let told = unsafe {
            ffi::warghytes_sequencer_copy(&raw const self.0, number, out.as_mut_ptr(), room)
        };
        Ok(told.said(out)?.1)
    }

    /// The last number that it gave.
    #[must_use]
    pub const fn top(&self) -> u32 {
        self.0.top
    }

    /// The last number that is accepted.
    #[must_use]
    pub const fn accepted(&self) -> u32 {
        self.0.accepted
    }

    /// The number through which every member is known to have taken everything.
    #[must_use]
    pub const fn floor(&self) -> u32 {
        self.0.floor
    }

    /// How often a member's requests came again.
    #[must_use]
    pub fn repeats(&self, member: u8) -> Option<u32> {
        self.0.repeats[..usize::from(self.0.n)]
            .get(usize::from(member))
            .copied()
    }
}
