//! Every terminal of a workshop gets the same messages in the same order.
//!
//! A terminal holds a [`Member`]; the one that numbers the messages holds a
//! [`Sequencer`] too. A [`Terminal`] holds what it needs so that the group can
//! be made anew where that one is lost. The caller moves the packets; a packet may be lost,
//! doubled or overtaken. Each call is proved equal to its definition for
//! every state and input: none panics, allocates or keeps a reference, and a
//! [`Refusal`] leaves the state and the output as they were.
//!
//! ```
//! use warghytes::{Heard, Member, Received, Sequencer, Submitted, PACKET};
//!
//! # fn main() -> Result<(), warghytes::Refusal> {
//! let mut sequencer = Sequencer::open(1, 7, 0)?;
//! let mut member = Member::open(1, 0, 7, 0)?;
//! let (mut request, mut broadcast, mut out) = ([0; PACKET], [0; PACKET], [0; PACKET]);
//!
//! let Submitted::Sent(request) = member.submit(b"saw", &mut request)? else { panic!() };
//! let Received::Numbered { number: 1, packet: broadcast } = sequencer.receive(request, &mut broadcast)? else { panic!() };
//! assert_eq!(member.receive(broadcast, &mut out)?, Heard::Kept(None));
//! let taken = member.take(&mut out)?.unwrap();
//! assert_eq!((taken.number, taken.originator, taken.payload), (1, 0, &b"saw"[..]));
//! # Ok(())
//! # }
//! ```
//!
//! With a resilience degree a message is offered first, and taken only when so
//! many members other than 0 have confirmed that they have it.
//!
//! ```
//! use warghytes::{Heard, Member, Received, Sequencer, Submitted, PACKET};
//!
//! # fn main() -> Result<(), warghytes::Refusal> {
//! let mut sequencer = Sequencer::open(2, 7, 1)?;
//! let (mut typist, mut bench) = (Member::open(2, 0, 7, 1)?, Member::open(2, 1, 7, 1)?);
//! let (mut request, mut offer, mut confirmation, mut acceptance, mut out) =
//!     ([0; PACKET], [0; PACKET], [0; PACKET], [0; PACKET], [0; PACKET]);
//!
//! let Submitted::Sent(request) = typist.submit(b"saw", &mut request)? else { panic!() };
//! let Received::Numbered { number: 1, packet: offer } = sequencer.receive(request, &mut offer)? else { panic!() };
//! assert_eq!(typist.receive(offer, &mut out)?, Heard::Kept(None));
//! let Heard::Kept(Some(confirmation)) = bench.receive(offer, &mut confirmation)? else { panic!() };
//! assert_eq!(typist.take(&mut out)?, None);
//! assert_eq!(bench.take(&mut out)?, None);
//!
//! let Received::Accepted(acceptance) = sequencer.receive(confirmation, &mut acceptance)? else { panic!() };
//! for member in [&mut typist, &mut bench] {
//!     assert_eq!(member.receive(acceptance, &mut out)?, Heard::Noted);
//!     assert_eq!(member.take(&mut out)?.map(|taken| taken.payload), Some(&b"saw"[..]));
//! }
//! # Ok(())
//! # }
//! ```

#![no_std]
#![deny(unsafe_op_in_unsafe_fn)]

#[cfg(test)]
mod bytes;
mod ffi;
#[cfg(test)]
mod header;
mod jobs;
mod journal;
mod member;
mod packet;
mod refusal;
mod sequencer;
mod terminal;

pub use jobs::{Fed, Holder, Job, WorkList};
pub use journal::{Found, Record, Writer, next, plan, read, record, rewrite};
pub use member::{Heard, Member, Submitted, Taken};
pub use packet::Fields;
pub use refusal::Refusal;
pub use sequencer::{Received, Sequencer};
pub use terminal::Terminal;

/// The most members that a group has.
pub const MEMBERS: usize = 16;
/// The most bytes that a payload has.
pub const PAYLOAD: usize = 240;
/// The bytes of a packet before its payload.
pub const HEADER: usize = 20;
/// The most bytes that a packet has: an output of so many is always long enough.
pub const PACKET: usize = HEADER + PAYLOAD;
/// The messages in the sequencer's history.
pub const PLACES: usize = 32;
/// The messages that a member holds.
pub const HELD: usize = 8;
/// The messages of a member that wait for their numbers.
pub const WAITING: usize = 5;
/// The jobs of a work list.
pub const JOBS: usize = 64;
/// The most bytes that a job has.
pub const JOB: usize = PAYLOAD - 1;
/// The bytes of a journal's block.
pub const BLOCK: usize = 512;
/// The most bytes that a plan has.
pub const PLAN_MOST: usize = 123_392;
/// The most bytes that a rewritten journal has.
pub const REWRITE_MOST: usize = 262_144;

/// The codes below are refusals.
const WORDS: u32 = 32;

impl ffi::Told {
    /// Its code and numbers, with what was written at the front of the output.
    fn said(self, out: &mut [u8]) -> Result<(Self, &[u8]), Refusal> {
        if self.code < WORDS {
            return Err(Refusal::of(self.code));
        }
        let written = &out[..self.written];
        Ok((self, written))
    }
}

/// The number that goes with a word, where the answer is that word.
fn worded<T>(code: u32, word: u32, number: T) -> Result<T, Refusal> {
    if code == word {
        Ok(number)
    } else {
        Err(Refusal::of(code))
    }
}

/// The library is proved to answer no other code.
#[cold]
fn no_such(code: u32) -> ! {
    unreachable!("no call answers the code {code}")
}
