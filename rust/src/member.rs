//! A terminal's end.

use crate::ffi::{self, code};
use crate::{Refusal, no_such};

/// A member of a group.
#[derive(Clone)]
pub struct Member(ffi::Member);

/// What became of a message that was submitted.
#[derive(Clone, Copy, Debug, PartialEq, Eq)]
#[non_exhaustive]
pub enum Submitted<'o> {
    /// Its request, for the sequencer.
    Sent(&'o [u8]),
    /// It waits behind others, under that count.
    Queued(u32),
}

/// What a member answers to a packet. What it wrote is for the sequencer, but a reply to an invitation.
#[derive(Clone, Copy, Debug, PartialEq, Eq)]
#[non_exhaustive]
pub enum Heard<'o> {
    /// Nothing new; with its confirmation, if an offer asks this member for it.
    Old(Option<&'o [u8]>),
    /// The message is held; with its confirmation, if an offer asks this member for it.
    Kept(Option<&'o [u8]>),
    /// The message is held, and a gap stands before it.
    KeptGap(&'o [u8]),
    /// There is no place for that number yet.
    Beyond,
    /// There is no place for that number yet, and a gap stands before it.
    BeyondGap(&'o [u8]),
    /// A poll shows a gap.
    Gap(&'o [u8]),
    /// Its status, as a poll asks.
    Status(&'o [u8]),
    /// What is accepted was noted; of a reset, a reply or a result.
    Noted,
    /// An invitation to a group that is made anew: its reply, for the terminal that invites.
    Replied(&'o [u8]),
}

impl<'o> Heard<'o> {
    /// What was written: for the sequencer, but a reply to an invitation.
    #[must_use]
    pub const fn packet(self) -> Option<&'o [u8]> {
        match self {
            Heard::KeptGap(p)
            | Heard::BeyondGap(p)
            | Heard::Gap(p)
            | Heard::Status(p)
            | Heard::Replied(p) => Some(p),
            Heard::Old(confirmation) | Heard::Kept(confirmation) => confirmation,
            Heard::Beyond | Heard::Noted => None,
        }
    }
}

/// A message that was taken.
#[derive(Clone, Copy, Debug, PartialEq, Eq)]
pub struct Taken<'o> {
    /// Its place in the order, from 1.
    pub number: u32,
    /// The member that submitted it.
    pub originator: u8,
    /// Which of that member's messages it is, from 1.
    pub count: u32,
    /// What it says.
    pub payload: &'o [u8],
    /// Whether the next message may be taken too.
    pub more: bool,
}

/// What was written, if anything was.
fn confirmation(written: &[u8]) -> Option<&[u8]> {
    (!written.is_empty()).then_some(written)
}

/// What a submission answers.
pub(crate) fn submitted(told: ffi::Told, out: &mut [u8]) -> Result<Submitted<'_>, Refusal> {
    let (told, written) = told.said(out)?;
    Ok(match told.code {
        code::SENT => Submitted::Sent(written),
        code::QUEUED => Submitted::Queued(told.first),
        code => no_such(code),
    })
}

/// What a packet is answered.
pub(crate) fn heard(told: ffi::Told, out: &mut [u8]) -> Result<Heard<'_>, Refusal> {
    let (told, written) = told.said(out)?;
    Ok(match told.code {
        code::OLD => Heard::Old(confirmation(written)),
        code::KEPT => Heard::Kept(confirmation(written)),
        code::KEPT_GAP => Heard::KeptGap(written),
        code::BEYOND => Heard::Beyond,
        code::BEYOND_GAP => Heard::BeyondGap(written),
        code::GAP => Heard::Gap(written),
        code::STATUS => Heard::Status(written),
        code::NOTED if written.is_empty() => Heard::Noted,
        code::NOTED => Heard::Replied(written),
        code => no_such(code),
    })
}

/// What a take hands out.
pub(crate) fn taken(told: ffi::Told, out: &mut [u8]) -> Result<Option<Taken<'_>>, Refusal> {
    let (told, payload) = told.said(out)?;
    Ok(match told.code {
        code::NONE => None,
        code::TOOK => Some(Taken {
            number: told.first,
            originator: told.second as u8,
            count: told.third,
            payload,
            more: told.more != 0,
        }),
        code => no_such(code),
    })
}

impl Member {
    /// Member `number` of `n` in the group with that number and resilience degree.
    ///
    /// # Errors
    ///
    /// [`Refusal::Opening`], if n is not 1 to 16 or `number` is not below it; [`Refusal::Resilience`], if the degree is not below n.
    ///
    /// ```
    /// use warghytes::{Member, Refusal};
    ///
    /// assert!(Member::open(3, 2, 7, 2).is_ok());
    /// assert_eq!(Member::open(3, 3, 7, 0).err(), Some(Refusal::Opening));
    /// assert_eq!(Member::open(3, 2, 7, 3).err(), Some(Refusal::Resilience));
    /// ```
    pub fn open(n: u8, number: u8, group: u32, resilience: u8) -> Result<Self, Refusal> {
        // SAFETY: the state is numbers and arrays of them, for which zeros are values.
        let mut state: ffi::Member = unsafe { core::mem::zeroed() };
        // SAFETY: the state is lent alone, for the call.
        let told =
            unsafe { ffi::warghytes_member_open(&raw mut state, n, number, group, resilience) };
        match told.code {
            code::ACCEPTED => Ok(Self(state)),
            code => Err(Refusal::of(code)),
        }
    }

    /// Submits a message for all.
    ///
    /// # Errors
    ///
    /// [`Refusal::LongPayload`], [`Refusal::AlreadyWaiting`] behind five that wait, [`Refusal::NumbersUsedUp`], [`Refusal::ShortOutput`].
    ///
    /// ```
    /// use warghytes::{Member, Refusal, Submitted, PACKET};
    ///
    /// let mut member = Member::open(2, 1, 7, 0)?;
    /// let mut out = [0; PACKET];
    /// assert!(matches!(member.submit(b"board", &mut out)?, Submitted::Sent(request) if request.len() == 25));
    /// assert_eq!(member.submit(b"board", &mut out)?, Submitted::Queued(2));
    /// assert_eq!(member.submit(&[0; 241], &mut out), Err(Refusal::LongPayload));
    /// # Ok::<(), Refusal>(())
    /// ```
    #[must_use = "a request that is not sent is lost"]
    pub fn submit<'o>(
        &mut self,
        payload: &[u8],
        out: &'o mut [u8],
    ) -> Result<Submitted<'o>, Refusal> {
        let told = ffi::with_bytes(ffi::warghytes_member_submit, &mut self.0, payload, out);
        submitted(told, out)
    }

    /// Hands it a packet that came.
    ///
    /// # Errors
    ///
    /// A packet that is none, of another group, for the sequencer, or that says what cannot be.
    #[must_use = "what it wrote is for the sequencer"]
    pub fn receive<'o>(&mut self, packet: &[u8], out: &'o mut [u8]) -> Result<Heard<'o>, Refusal> {
        let told = ffi::with_bytes(ffi::warghytes_member_receive, &mut self.0, packet, out);
        heard(told, out)
    }

    /// Takes the next message in order, if it is held and accepted.
    ///
    /// # Errors
    ///
    /// [`Refusal::ShortOutput`].
    #[must_use = "a message that was taken is not given again"]
    pub fn take<'o>(&mut self, out: &'o mut [u8]) -> Result<Option<Taken<'o>>, Refusal> {
        let room = out.len();
        // SAFETY: state and output are lent, apart from each other, with its length.
        let told = unsafe { ffi::warghytes_member_take(&raw mut self.0, out.as_mut_ptr(), room) };
        taken(told, out)
    }

    /// The request of the first message that waits, again, for the sequencer; behind a take this sends the next one.
    ///
    /// # Errors
    ///
    /// [`Refusal::NothingWaiting`], [`Refusal::ShortOutput`].
    ///
    /// ```
    /// use warghytes::{Member, Refusal, PACKET};
    ///
    /// let member = Member::open(2, 1, 7, 0)?;
    /// assert_eq!(member.repeat(&mut [0; PACKET]), Err(Refusal::NothingWaiting));
    /// # Ok::<(), Refusal>(())
    /// ```
    #[must_use = "a request that is not sent is lost"]
    pub fn repeat<'o>(&self, out: &'o mut [u8]) -> Result<&'o [u8], Refusal> {
        let told = ffi::looking(ffi::warghytes_member_repeat, &self.0, out);
        Ok(told.said(out)?.1)
    }

    /// What it has, acknowledged, for the sequencer.
    ///
    /// # Errors
    ///
    /// [`Refusal::ShortOutput`].
    #[must_use = "a status that is not sent is lost"]
    pub fn status<'o>(&self, out: &'o mut [u8]) -> Result<&'o [u8], Refusal> {
        let told = ffi::looking(ffi::warghytes_member_status, &self.0, out);
        Ok(told.said(out)?.1)
    }

    /// The last number that it took.
    #[must_use]
    pub const fn taken(&self) -> u32 {
        self.0.taken
    }

    /// The last number that it knows to be accepted.
    #[must_use]
    pub const fn accepted(&self) -> u32 {
        self.0.accepted
    }

    /// How many messages it submitted.
    #[must_use]
    pub const fn submitted(&self) -> u32 {
        self.0.submitted
    }

    /// How many of them wait for their numbers.
    #[must_use]
    pub const fn waiting(&self) -> u32 {
        self.0.waiting
    }
}
