//! A terminal whose group can be made anew.

use crate::ffi::{self, code};
use crate::member::{Heard, Submitted, Taken, heard, submitted, taken};
use crate::sequencer::{Received, received};
use crate::{Refusal, no_such};

/// A terminal: a member, what it keeps to begin a group with, its part in a reset, and the sequencer where it has it.
///
/// Terminal 1 makes the group anew, once terminal 0, which had the sequencer, is lost.
///
/// ```
/// use warghytes::{Heard, PACKET, Received, Submitted, Terminal};
///
/// # fn main() -> Result<(), warghytes::Refusal> {
/// let (mut one, mut two) = (Terminal::open(3, 1, 7, 1)?, Terminal::open(3, 2, 7, 1)?);
/// let (mut packet, mut reply, mut out) = ([0; PACKET], [0; PACKET], [0; PACKET]);
///
/// let invitation = one.invite(8, &mut packet)?;
/// let Heard::Replied(reply) = two.receive(invitation, &mut reply)? else { panic!() };
/// assert_eq!(one.receive(reply, &mut out)?, Heard::Noted);
/// let result = one.make(2, &mut packet)?;
/// assert_eq!(two.receive(result, &mut out)?, Heard::Noted);
/// assert_eq!((one.group(), two.group(), one.elected(), one.sequencing()), (8, 8, 1, true));
///
/// let Submitted::Sent(request) = two.submit(b"saw", &mut packet)? else { panic!() };
/// assert!(matches!(one.order(request, &mut out)?, Received::Numbered { number: 1, .. }));
/// # Ok(())
/// # }
/// ```
#[derive(Clone)]
pub struct Terminal(ffi::Terminal);

impl Terminal {
    /// Terminal `number` of `n` in the group with that number and resilience degree. Terminal 0 has the sequencer.
    ///
    /// # Errors
    ///
    /// [`Refusal::Opening`], if n is not 1 to 16 or `number` is not below it; [`Refusal::Resilience`], if the degree is not below n.
    ///
    /// ```
    /// use warghytes::{Refusal, Terminal};
    ///
    /// assert!(Terminal::open(3, 0, 7, 2)?.sequencing());
    /// assert!(!Terminal::open(3, 2, 7, 2)?.sequencing());
    /// assert_eq!(Terminal::open(3, 3, 7, 0).err(), Some(Refusal::Opening));
    /// # Ok::<(), Refusal>(())
    /// ```
    pub fn open(n: u8, number: u8, group: u32, resilience: u8) -> Result<Self, Refusal> {
        // SAFETY: the state is numbers and arrays of them, for which zeros are values.
        let mut state: ffi::Terminal = unsafe { core::mem::zeroed() };
        // SAFETY: the state is lent alone, for the call.
        let told =
            unsafe { ffi::warghytes_terminal_open(&raw mut state, n, number, group, resilience) };
        match told.code {
            code::ACCEPTED => Ok(Self(state)),
            code => Err(Refusal::of(code)),
        }
    }

    /// Submits a message for all.
    ///
    /// # Errors
    ///
    /// [`Refusal::LongPayload`], [`Refusal::AlreadyWaiting`] behind five that wait, [`Refusal::NumbersUsedUp`], [`Refusal::ShortOutput`].
    #[must_use = "a request that is not sent is lost"]
    pub fn submit<'o>(
        &mut self,
        payload: &[u8],
        out: &'o mut [u8],
    ) -> Result<Submitted<'o>, Refusal> {
        let told = ffi::with_bytes(ffi::warghytes_terminal_submit, &mut self.0, payload, out);
        submitted(told, out)
    }

    /// Hands its member a packet that came.
    ///
    /// # Errors
    ///
    /// A packet that is none, of another group, for the sequencer, or that says what cannot be; with a reply open, any but those of a reset.
    #[must_use = "what it wrote is for the sequencer, or for the terminal that invites"]
    pub fn receive<'o>(&mut self, packet: &[u8], out: &'o mut [u8]) -> Result<Heard<'o>, Refusal> {
        let told = ffi::with_bytes(ffi::warghytes_terminal_receive, &mut self.0, packet, out);
        heard(told, out)
    }

    /// Takes the next message in order, if it is held and accepted.
    ///
    /// # Errors
    ///
    /// [`Refusal::ShortOutput`].
    #[must_use = "a message that was taken is not given again"]
    pub fn take<'o>(&mut self, out: &'o mut [u8]) -> Result<Option<Taken<'o>>, Refusal> {
        let room = out.len();
        // SAFETY: state and output are lent, apart from each other, with its length.
        let told = unsafe { ffi::warghytes_terminal_take(&raw mut self.0, out.as_mut_ptr(), room) };
        taken(told, out)
    }

    /// The request of the first message that waits, again, for the sequencer.
    ///
    /// # Errors
    ///
    /// [`Refusal::NothingWaiting`], [`Refusal::ShortOutput`].
    #[must_use = "a request that is not sent is lost"]
    pub fn repeat<'o>(&self, out: &'o mut [u8]) -> Result<&'o [u8], Refusal> {
        let told = ffi::looking(ffi::warghytes_terminal_repeat, &self.0, out);
        Ok(told.said(out)?.1)
    }

    /// What it has, acknowledged, for the sequencer.
    ///
    /// # Errors
    ///
    /// [`Refusal::ShortOutput`].
    #[must_use = "a status that is not sent is lost"]
    pub fn status<'o>(&self, out: &'o mut [u8]) -> Result<&'o [u8], Refusal> {
        let told = ffi::looking(ffi::warghytes_terminal_status, &self.0, out);
        Ok(told.said(out)?.1)
    }

    /// Hands its sequencer a packet that came.
    ///
    /// # Errors
    ///
    /// [`Refusal::UnsoundState`], if it has none; a packet that is none, of another group, for members, or that says what cannot be.
    #[must_use = "what it wrote is for every member"]
    pub fn order<'o>(&mut self, packet: &[u8], out: &'o mut [u8]) -> Result<Received<'o>, Refusal> {
        let told = ffi::with_bytes(ffi::warghytes_terminal_order, &mut self.0, packet, out);
        received(told, out)
    }

    /// Its sequencer's poll, for every member.
    ///
    /// # Errors
    ///
    /// [`Refusal::UnsoundState`], if it has none; [`Refusal::ShortOutput`].
    #[must_use = "a poll that is not sent is lost"]
    pub fn poll<'o>(&self, out: &'o mut [u8]) -> Result<&'o [u8], Refusal> {
        let told = ffi::looking(ffi::warghytes_terminal_poll, &self.0, out);
        Ok(told.said(out)?.1)
    }

    /// The broadcast of a number in its sequencer's history again, or its offer if it is not accepted.
    ///
    /// # Errors
    ///
    /// [`Refusal::UnsoundState`], if it has none; [`Refusal::NotInHistory`], [`Refusal::ShortOutput`].
    #[must_use = "a copy that is not sent is lost"]
    pub fn copy<'o>(&self, number: u32, out: &'o mut [u8]) -> Result<&'o [u8], Refusal> {
        let room = out.len();
        // SAFETY: state and output are lent, apart from each other, with its length.
        let told = unsafe {
            ffi::warghytes_terminal_copy(&raw const self.0, number, out.as_mut_ptr(), room)
        };
        Ok(told.said(out)?.1)
    }

    /// An invitation to a group with that number, for every member. Its own reply is counted with it.
    ///
    /// # Errors
    ///
    /// [`Refusal::ShortOutput`].
    #[must_use = "an invitation that is not sent is lost"]
    pub fn invite<'o>(&mut self, number: u32, out: &'o mut [u8]) -> Result<&'o [u8], Refusal> {
        let room = out.len();
        // SAFETY: state and output are lent, apart from each other, with its length.
        let told = unsafe {
            ffi::warghytes_terminal_invite(&raw mut self.0, number, out.as_mut_ptr(), room)
        };
        sent(told, out)
    }

    /// The group of all whose replies came, if they are as many as are demanded: the result, for every member. It has the result itself.
    ///
    /// # Errors
    ///
    /// [`Refusal::NotOfAttempt`], if no invitation of its own is open; [`Refusal::FewSurvivors`], [`Refusal::ShortOutput`].
    ///
    /// ```
    /// use warghytes::{PACKET, Refusal, Terminal};
    ///
    /// let mut terminal = Terminal::open(3, 1, 7, 1)?;
    /// let mut out = [0; PACKET];
    /// assert_eq!(terminal.make(1, &mut out), Err(Refusal::NotOfAttempt));
    /// terminal.invite(8, &mut out)?;
    /// assert_eq!(terminal.make(2, &mut out), Err(Refusal::FewSurvivors));
    /// assert_eq!(terminal.make(1, &mut out)?.len(), 22);
    /// # Ok::<(), Refusal>(())
    /// ```
    #[must_use = "a result that is not sent is lost"]
    pub fn make<'o>(&mut self, demand: u32, out: &'o mut [u8]) -> Result<&'o [u8], Refusal> {
        let room = out.len();
        // SAFETY: state and output are lent, apart from each other, with its length.
        let told = unsafe {
            ffi::warghytes_terminal_make(&raw mut self.0, demand, out.as_mut_ptr(), room)
        };
        sent(told, out)
    }

    /// The number of its group.
    #[must_use]
    pub const fn group(&self) -> u32 {
        self.0.member.group
    }

    /// The member whose terminal has its group's sequencer.
    #[must_use]
    pub const fn elected(&self) -> u8 {
        self.0.member.elected
    }

    /// Whether it has a sequencer.
    #[must_use]
    pub const fn sequencing(&self) -> bool {
        self.0.sequencing == 1
    }

    /// The last number that its sequencer gave.
    #[must_use]
    pub const fn top(&self) -> u32 {
        self.0.sequencer.top
    }

    /// The number through which every survivor is known to its sequencer to have taken everything.
    #[must_use]
    pub const fn floor(&self) -> u32 {
        self.0.sequencer.floor
    }

    /// Whether a reply of its own is open: it waits for a result.
    #[must_use]
    pub const fn replied(&self) -> bool {
        self.0.replied == 1
    }

    /// How many replies to its own invitation it has, its own among them.
    #[must_use]
    pub const fn replies(&self) -> u32 {
        self.0.repliers.count_ones()
    }

    /// The last number that it took.
    #[must_use]
    pub const fn taken(&self) -> u32 {
        self.0.member.taken
    }

    /// The last number that it knows to be accepted.
    #[must_use]
    pub const fn accepted(&self) -> u32 {
        self.0.member.accepted
    }

    /// How many messages it submitted.
    #[must_use]
    pub const fn submitted(&self) -> u32 {
        self.0.member.submitted
    }

    /// How many of them wait for their numbers.
    #[must_use]
    pub const fn waiting(&self) -> u32 {
        self.0.member.waiting
    }
}

/// A packet that was written.
fn sent(told: ffi::Told, out: &mut [u8]) -> Result<&[u8], Refusal> {
    let (told, written) = told.said(out)?;
    match told.code {
        code::SENT => Ok(written),
        code => no_such(code),
    }
}
