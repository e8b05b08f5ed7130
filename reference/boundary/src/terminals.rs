//! A terminal of the proved library: a member and maybe a sequencer, with what
//! it keeps to begin a group with and its part in a reset.

use crate::ends::{Membership, Resetting, Table, Told, places};
use crate::proved::{MemberState, SequencerState};
use model::limits::{HISTORY, PAYLOAD, WAITING, WINDOW};
use model::terminal::{Kept, Reset, Terminal};

/// The group's description at an end.
#[repr(C)]
#[derive(Clone, Copy, Debug, PartialEq, Eq)]
pub struct Group {
    /// Members of the group.
    pub n: u8,
    /// The resilience degree.
    pub resilience: u8,
    /// Who survives, one bit a member.
    pub survivors: u16,
    /// The member whose terminal numbers.
    pub elected: u8,
    /// The group number.
    pub number: u32,
}

/// A terminal as the proved library lays it in memory.
#[repr(C)]
#[derive(Clone, Debug, PartialEq, Eq)]
pub struct TerminalState {
    /// The member's group.
    pub group: Group,
    /// The member's number.
    pub member: u8,
    /// The last number that it took.
    pub last: u32,
    /// The last number that it knows accepted.
    pub known: u32,
    /// How many messages it has submitted.
    pub submitted: u32,
    /// How many of them wait.
    pub waiting: u32,
    /// The sequencer's group.
    pub served: Group,
    /// The last number given.
    pub top: u32,
    /// The last accepted number.
    pub accepted: u32,
    /// The smallest number that all have taken.
    pub floor: u32,
    /// The highest floor that the member read.
    pub read: u32,
    /// The attempt replied to.
    pub attempt: u32,
    /// The number replied with.
    pub number: u32,
    /// The number that it invites with.
    pub invited: u32,
    /// Whose replies came, one bit a member.
    pub repliers: u16,
    /// 1 if a reply is open.
    pub replied: u8,
    /// 1 if its own invitation is open.
    pub inviting: u8,
    /// 1 if it has a sequencer.
    pub sequencing: u8,
    /// 1 if that refuses its group's packets.
    pub frozen: u8,
    /// Of each place of the waiting messages the count, 0 for none.
    pub queued: [u32; WAITING],
    /// Of each place of the window the count, 0 for none.
    pub held: [u32; WINDOW],
    /// Originators of the waiting messages.
    pub queued_originators: [u8; WAITING],
    /// Lengths of the waiting messages.
    pub queued_lengths: [u8; WAITING],
    /// Originators of the held messages.
    pub held_originators: [u8; WINDOW],
    /// Lengths of the held messages.
    pub held_lengths: [u8; WINDOW],
    /// Payloads of the waiting messages, zeros behind each.
    pub queued_payloads: [[u8; PAYLOAD]; WAITING],
    /// Payloads of the held messages, zeros behind each.
    pub held_payloads: [[u8; PAYLOAD]; WINDOW],
    /// Of each of the last 32 messages taken the count, 0 for none.
    pub past: [u32; HISTORY],
    /// Its originator.
    pub past_originators: [u8; HISTORY],
    /// How many bytes its payload has.
    pub past_lengths: [u8; HISTORY],
    /// Its payload, zeros behind it.
    pub past_payloads: [[u8; PAYLOAD]; HISTORY],
    /// For each originator the highest count among all messages taken.
    pub highest: Table,
    /// The first number that each member replied.
    pub replies: Table,
    /// For each member the last number known taken.
    pub taken: Table,
    /// For each member the last own count numbered.
    pub counts: Table,
    /// For each member how often it repeated itself.
    pub repeats: Table,
    /// Of each place of the history the count of its message, 0 for none.
    pub kept: [u32; HISTORY],
    /// Who answered the offer of its number, one bit a member.
    pub marks: [u16; HISTORY],
    /// Its originator.
    pub originators: [u8; HISTORY],
    /// How many bytes its payload has.
    pub lengths: [u8; HISTORY],
    /// Its payload, zeros behind it.
    pub payloads: [[u8; PAYLOAD]; HISTORY],
}

const _: () = assert!(size_of::<TerminalState>() == 19_408);

impl TerminalState {
    /// All zero: closed.
    pub fn closed() -> TerminalState {
        // SAFETY: numbers and arrays of numbers, of which all zero is a value.
        unsafe { std::mem::zeroed() }
    }

    /// Opens it.
    pub fn open(&mut self, n: u8, number: u8, group: u32, resilience: u8) -> Told {
        // SAFETY: the state lives through the call.
        unsafe { ffi::warghytes_terminal_open(self, n, number, group, resilience) }
    }

    /// Submits a message.
    pub fn submit(&mut self, payload: &[u8], out: &mut [u8]) -> Told {
        let (lent, room) = (out.as_mut_ptr(), out.len());
        // SAFETY: state and slices live through the call, and none of the lent ones is another.
        unsafe { ffi::warghytes_terminal_submit(self, payload.as_ptr(), payload.len(), lent, room) }
    }

    /// Takes a packet at the member.
    pub fn receive(&mut self, packet: &[u8], out: &mut [u8]) -> Told {
        let (lent, room) = (out.as_mut_ptr(), out.len());
        // SAFETY: as above.
        unsafe { ffi::warghytes_terminal_receive(self, packet.as_ptr(), packet.len(), lent, room) }
    }

    /// Hands out the next message.
    pub fn take(&mut self, out: &mut [u8]) -> Told {
        // SAFETY: as above.
        unsafe { ffi::warghytes_terminal_take(self, out.as_mut_ptr(), out.len()) }
    }

    /// Writes the first request again.
    pub fn repeat(&self, out: &mut [u8]) -> Told {
        // SAFETY: as above.
        unsafe { ffi::warghytes_terminal_repeat(self, out.as_mut_ptr(), out.len()) }
    }

    /// Writes a status packet.
    pub fn status(&self, out: &mut [u8]) -> Told {
        // SAFETY: as above.
        unsafe { ffi::warghytes_terminal_status(self, out.as_mut_ptr(), out.len()) }
    }

    /// Takes a packet at the sequencer.
    pub fn order(&mut self, packet: &[u8], out: &mut [u8]) -> Told {
        let (lent, room) = (out.as_mut_ptr(), out.len());
        // SAFETY: as above.
        unsafe { ffi::warghytes_terminal_order(self, packet.as_ptr(), packet.len(), lent, room) }
    }

    /// Writes the sequencer's poll packet.
    pub fn poll(&self, out: &mut [u8]) -> Told {
        // SAFETY: as above.
        unsafe { ffi::warghytes_terminal_poll(self, out.as_mut_ptr(), out.len()) }
    }

    /// Writes the sequencer's packet of a number.
    pub fn copy(&self, number: u32, out: &mut [u8]) -> Told {
        // SAFETY: as above.
        unsafe { ffi::warghytes_terminal_copy(self, number, out.as_mut_ptr(), out.len()) }
    }

    /// Invites to a group of that number.
    pub fn invite(&mut self, number: u32, out: &mut [u8]) -> Told {
        // SAFETY: as above.
        unsafe { ffi::warghytes_terminal_invite(self, number, out.as_mut_ptr(), out.len()) }
    }

    /// Makes the group of all whose replies came, at least as many as demanded.
    pub fn make(&mut self, demand: u32, out: &mut [u8]) -> Told {
        // SAFETY: as above.
        unsafe { ffi::warghytes_terminal_make(self, demand, out.as_mut_ptr(), out.len()) }
    }

    /// Whether each flag is 0 or 1; else no call accepts it.
    pub fn has_flags(&self) -> bool {
        [self.replied, self.inviting, self.sequencing, self.frozen]
            .iter()
            .all(|&flag| flag <= 1)
    }

    /// The same state of the reference; a flag is set if it is 1.
    pub fn as_reference(&self) -> Terminal {
        let member = MemberState {
            n: self.group.n,
            resilience: self.group.resilience,
            survivors: self.group.survivors,
            elected: self.group.elected,
            group: self.group.number,
            number: self.member,
            taken: self.last,
            accepted: self.known,
            submitted: self.submitted,
            waiting: self.waiting,
            queued: self.queued,
            held: self.held,
            queued_originators: self.queued_originators,
            queued_lengths: self.queued_lengths,
            held_originators: self.held_originators,
            held_lengths: self.held_lengths,
            queued_payloads: self.queued_payloads,
            held_payloads: self.held_payloads,
        };
        let sequencer = SequencerState {
            n: self.served.n,
            resilience: self.served.resilience,
            survivors: self.served.survivors,
            elected: self.served.elected,
            group: self.served.number,
            top: self.top,
            accepted: self.accepted,
            floor: self.floor,
            taken: self.taken,
            counts: self.counts,
            repeats: self.repeats,
            kept: self.kept,
            marks: self.marks,
            originators: self.originators,
            lengths: self.lengths,
            payloads: self.payloads,
        };
        Terminal {
            member: member.as_reference(),
            kept: Kept {
                read: self.read,
                past: places(
                    &self.past,
                    &self.past_originators,
                    &self.past_lengths,
                    &self.past_payloads,
                ),
                counts: self.highest,
            },
            reset: Reset {
                replied: self.replied == 1,
                attempt: self.attempt,
                number: self.number,
                inviting: self.inviting == 1,
                invited: self.invited,
                repliers: self.repliers,
                replies: self.replies,
            },
            sequencing: self.sequencing == 1,
            frozen: self.frozen == 1,
            sequencer: sequencer.as_reference(),
        }
    }

    /// The bytes of it.
    pub fn bytes_mut(&mut self) -> &mut [u8] {
        let size = size_of::<TerminalState>();
        // SAFETY: numbers and arrays of numbers: of any bytes it is a value.
        unsafe { std::slice::from_raw_parts_mut(std::ptr::from_mut(self).cast(), size) }
    }
}

impl Membership for TerminalState {
    fn opened(n: u8, number: u8, group: u32, resilience: u8) -> Self {
        let mut state = TerminalState::closed();
        state.open(n, number, group, resilience);
        state
    }
    fn submit(&mut self, payload: &[u8], out: &mut [u8]) -> Told {
        TerminalState::submit(self, payload, out)
    }
    fn receive(&mut self, packet: &[u8], out: &mut [u8]) -> Told {
        TerminalState::receive(self, packet, out)
    }
    fn take(&mut self, out: &mut [u8]) -> Told {
        TerminalState::take(self, out)
    }
    fn repeat(&self, out: &mut [u8]) -> Told {
        TerminalState::repeat(self, out)
    }
    fn status(&self, out: &mut [u8]) -> Told {
        TerminalState::status(self, out)
    }
}

impl Resetting for TerminalState {
    fn invite(&mut self, number: u32, out: &mut [u8]) -> Told {
        TerminalState::invite(self, number, out)
    }
    fn make(&mut self, demand: u32, out: &mut [u8]) -> Told {
        TerminalState::make(self, demand, out)
    }
    fn order(&mut self, packet: &[u8], out: &mut [u8]) -> Told {
        TerminalState::order(self, packet, out)
    }
}

mod ffi {
    use super::TerminalState;
    use crate::ends::Told;

    unsafe extern "C" {
        pub fn warghytes_terminal_open(
            state: *mut TerminalState,
            n: u8,
            number: u8,
            group: u32,
            resilience: u8,
        ) -> Told;
        pub fn warghytes_terminal_submit(
            state: *mut TerminalState,
            payload: *const u8,
            length: usize,
            out: *mut u8,
            room: usize,
        ) -> Told;
        pub fn warghytes_terminal_receive(
            state: *mut TerminalState,
            packet: *const u8,
            length: usize,
            out: *mut u8,
            room: usize,
        ) -> Told;
        pub fn warghytes_terminal_take(
            state: *mut TerminalState,
            out: *mut u8,
            room: usize,
        ) -> Told;
        pub fn warghytes_terminal_repeat(
            state: *const TerminalState,
            out: *mut u8,
            room: usize,
        ) -> Told;
        pub fn warghytes_terminal_status(
            state: *const TerminalState,
            out: *mut u8,
            room: usize,
        ) -> Told;
        pub fn warghytes_terminal_order(
            state: *mut TerminalState,
            packet: *const u8,
            length: usize,
            out: *mut u8,
            room: usize,
        ) -> Told;
        pub fn warghytes_terminal_poll(
            state: *const TerminalState,
            out: *mut u8,
            room: usize,
        ) -> Told;
        pub fn warghytes_terminal_copy(
            state: *const TerminalState,
            number: u32,
            out: *mut u8,
            room: usize,
        ) -> Told;
        pub fn warghytes_terminal_invite(
            state: *mut TerminalState,
            number: u32,
            out: *mut u8,
            room: usize,
        ) -> Told;
        pub fn warghytes_terminal_make(
            state: *mut TerminalState,
            demand: u32,
            out: *mut u8,
            room: usize,
        ) -> Told;
    }
}
