//! The functions of the proved library.
//!
//! A slice crosses as its address and its length, an array as its address.
//! No function keeps an address, and each is proved to read and write within
//! the slices that it is lent.

use crate::ends::{self, Membership, Sequencing, Table, Told, places};
use crate::{LOAD_LINE, Member, Writer, feeds, mix};
use model::limits::{HISTORY, PAYLOAD, WAITING, WINDOW};
use model::packet::Header;
use model::{member, sequencer};

/// A sequencer as the proved library lays it in memory.
#[repr(C)]
#[derive(Clone, Debug, PartialEq, Eq)]
pub struct SequencerState {
    /// Members of the group.
    pub n: u8,
    /// The resilience degree.
    pub resilience: u8,
    /// Who survives, one bit a member.
    pub survivors: u16,
    /// The member whose terminal numbers.
    pub elected: u8,
    /// The group number.
    pub group: u32,
    /// The last number given.
    pub top: u32,
    /// The last accepted number.
    pub accepted: u32,
    /// The smallest number that all have taken.
    pub floor: u32,
    /// For each member the last number known taken.
    pub taken: Table,
    /// For each member the last own count numbered.
    pub counts: Table,
    /// For each member how often it repeated itself.
    pub repeats: Table,
    /// Of each place of the history the count of its message, 0 for none.
    pub kept: [u32; HISTORY],
    /// Who answered the offer of its number, one bit a member.
    pub marks: [u16; HISTORY],
    /// Its originator.
    pub originators: [u8; HISTORY],
    /// How many bytes its payload has.
    pub lengths: [u8; HISTORY],
    /// Its payload, zeros behind it.
    pub payloads: [[u8; PAYLOAD]; HISTORY],
}

const _: () = assert!(size_of::<SequencerState>() == 8152);

/// A member as the proved library lays it in memory.
#[repr(C)]
#[derive(Clone, Debug, PartialEq, Eq)]
pub struct MemberState {
    /// Members of the group.
    pub n: u8,
    /// The resilience degree.
    pub resilience: u8,
    /// Who survives, one bit a member.
    pub survivors: u16,
    /// The member whose terminal numbers.
    pub elected: u8,
    /// The group number.
    pub group: u32,
    /// This member's number.
    pub number: u8,
    /// The last number taken.
    pub taken: u32,
    /// The last number known accepted.
    pub accepted: u32,
    /// How many messages it has submitted.
    pub submitted: u32,
    /// How many of them wait.
    pub waiting: u32,
    /// Of each place of the waiting messages the count, 0 for none.
    pub queued: [u32; WAITING],
    /// Of each place of the window the count, 0 for none.
    pub held: [u32; WINDOW],
    /// Originators of the waiting messages.
    pub queued_originators: [u8; WAITING],
    /// Lengths of the waiting messages.
    pub queued_lengths: [u8; WAITING],
    /// Originators of the held messages.
    pub held_originators: [u8; WINDOW],
    /// Lengths of the held messages.
    pub held_lengths: [u8; WINDOW],
    /// Payloads of the waiting messages, zeros behind each.
    pub queued_payloads: [[u8; PAYLOAD]; WAITING],
    /// Payloads of the held messages, zeros behind each.
    pub held_payloads: [[u8; PAYLOAD]; WINDOW],
}

const _: () = assert!(size_of::<MemberState>() == 3232);

impl SequencerState {
    /// All zero: closed.
    pub const CLOSED: SequencerState = SequencerState {
        n: 0,
        resilience: 0,
        survivors: 0,
        elected: 0,
        group: 0,
        top: 0,
        accepted: 0,
        floor: 0,
        taken: [0; _],
        counts: [0; _],
        repeats: [0; _],
        kept: [0; _],
        marks: [0; _],
        originators: [0; _],
        lengths: [0; _],
        payloads: [[0; _]; _],
    };

    /// Opens it.
    pub fn open(&mut self, n: u8, group: u32, resilience: u8) -> Told {
        // SAFETY: the state lives through the call.
        unsafe { ffi::warghytes_sequencer_open(self, n, group, resilience) }
    }

    /// The same state of the reference.
    pub fn as_reference(&self) -> sequencer::Sequencer {
        sequencer::Sequencer {
            n: self.n,
            resilience: self.resilience,
            group: self.group,
            elected: self.elected,
            survivors: self.survivors,
            acknowledged: self.taken,
            counts: self.counts,
            repeats: self.repeats,
            top: self.top,
            floor: self.floor,
            accepted: self.accepted,
            marks: self.marks,
            history: places(&self.kept, &self.originators, &self.lengths, &self.payloads),
        }
    }

    /// The repeat counts added up, held at the largest number.
    pub fn all_repeats(&self) -> u32 {
        // SAFETY: the table lives through the call.
        unsafe { ffi::rounds_repeats(&self.repeats) }
    }
}

impl Sequencing for SequencerState {
    fn opened(n: u8, group: u32, resilience: u8) -> Self {
        let mut state = SequencerState::CLOSED;
        state.open(n, group, resilience);
        state
    }
    fn receive(&mut self, packet: &[u8], out: &mut [u8]) -> Told {
        let (lent, room) = (out.as_mut_ptr(), out.len());
        // SAFETY: state and slices live through the call, and none of the lent ones is another.
        unsafe { ffi::warghytes_sequencer_receive(self, packet.as_ptr(), packet.len(), lent, room) }
    }
    fn poll(&self, out: &mut [u8]) -> Told {
        // SAFETY: as above.
        unsafe { ffi::warghytes_sequencer_poll(self, out.as_mut_ptr(), out.len()) }
    }
    fn copy(&self, number: u32, out: &mut [u8]) -> Told {
        // SAFETY: as above.
        unsafe { ffi::warghytes_sequencer_copy(self, number, out.as_mut_ptr(), out.len()) }
    }
}

impl MemberState {
    /// All zero: closed.
    pub const CLOSED: MemberState = MemberState {
        n: 0,
        resilience: 0,
        survivors: 0,
        elected: 0,
        group: 0,
        number: 0,
        taken: 0,
        accepted: 0,
        submitted: 0,
        waiting: 0,
        queued: [0; _],
        held: [0; _],
        queued_originators: [0; _],
        queued_lengths: [0; _],
        held_originators: [0; _],
        held_lengths: [0; _],
        queued_payloads: [[0; _]; _],
        held_payloads: [[0; _]; _],
    };

    /// Opens it.
    pub fn open(&mut self, n: u8, number: u8, group: u32, resilience: u8) -> Told {
        // SAFETY: the state lives through the call.
        unsafe { ffi::warghytes_member_open(self, n, number, group, resilience) }
    }

    /// The same state of the reference, whose number of waiting messages is a
    /// byte: 255 of them are as unsound as any more.
    pub fn as_reference(&self) -> member::Member {
        let held = self.held.iter().rev();
        member::Member {
            n: self.n,
            resilience: self.resilience,
            number: self.number,
            group: self.group,
            elected: self.elected,
            survivors: self.survivors,
            taken: self.taken,
            accepted: self.accepted,
            submitted: self.submitted,
            waiting: self.waiting.try_into().unwrap_or(u8::MAX),
            queue: places(
                &self.queued,
                &self.queued_originators,
                &self.queued_lengths,
                &self.queued_payloads,
            ),
            held: held.fold(0, |bits, &count| bits << 1 | u8::from(count != 0)),
            places: places(
                &self.held,
                &self.held_originators,
                &self.held_lengths,
                &self.held_payloads,
            ),
        }
    }
}

impl Membership for MemberState {
    fn opened(n: u8, number: u8, group: u32, resilience: u8) -> Self {
        let mut state = MemberState::CLOSED;
        state.open(n, number, group, resilience);
        state
    }
    fn submit(&mut self, payload: &[u8], out: &mut [u8]) -> Told {
        let (lent, room) = (out.as_mut_ptr(), out.len());
        // SAFETY: state and slices live through the call, and none of the lent ones is another.
        unsafe { ffi::warghytes_member_submit(self, payload.as_ptr(), payload.len(), lent, room) }
    }
    fn receive(&mut self, packet: &[u8], out: &mut [u8]) -> Told {
        let (lent, room) = (out.as_mut_ptr(), out.len());
        // SAFETY: as above.
        unsafe { ffi::warghytes_member_receive(self, packet.as_ptr(), packet.len(), lent, room) }
    }
    fn take(&mut self, out: &mut [u8]) -> Told {
        // SAFETY: as above.
        unsafe { ffi::warghytes_member_take(self, out.as_mut_ptr(), out.len()) }
    }
    fn repeat(&self, out: &mut [u8]) -> Told {
        // SAFETY: as above.
        unsafe { ffi::warghytes_member_repeat(self, out.as_mut_ptr(), out.len()) }
    }
    fn status(&self, out: &mut [u8]) -> Told {
        // SAFETY: as above.
        unsafe { ffi::warghytes_member_status(self, out.as_mut_ptr(), out.len()) }
    }
}

mod ffi {
    use super::{MemberState, SequencerState};
    use crate::LOAD_LINE;
    use crate::ends::{Table, Told};

    unsafe extern "C" {
        pub fn warghytes_sequencer_open(
            state: *mut SequencerState,
            n: u8,
            group: u32,
            resilience: u8,
        ) -> Told;
        pub fn warghytes_sequencer_receive(
            state: *mut SequencerState,
            packet: *const u8,
            size: usize,
            out: *mut u8,
            room: usize,
        ) -> Told;
        pub fn warghytes_sequencer_poll(
            state: *const SequencerState,
            out: *mut u8,
            room: usize,
        ) -> Told;
        pub fn warghytes_sequencer_copy(
            state: *const SequencerState,
            number: u32,
            out: *mut u8,
            room: usize,
        ) -> Told;
        pub fn warghytes_member_open(
            state: *mut MemberState,
            n: u8,
            number: u8,
            group: u32,
            resilience: u8,
        ) -> Told;
        pub fn warghytes_member_submit(
            state: *mut MemberState,
            payload: *const u8,
            size: usize,
            out: *mut u8,
            room: usize,
        ) -> Told;
        pub fn warghytes_member_receive(
            state: *mut MemberState,
            packet: *const u8,
            size: usize,
            out: *mut u8,
            room: usize,
        ) -> Told;
        pub fn warghytes_member_take(state: *mut MemberState, out: *mut u8, room: usize) -> Told;
        pub fn warghytes_member_repeat(
            state: *const MemberState,
            out: *mut u8,
            room: usize,
        ) -> Told;
        pub fn warghytes_member_status(
            state: *const MemberState,
            out: *mut u8,
            room: usize,
        ) -> Told;
        pub fn rounds_repeats(table: *const Table) -> u32;
        pub fn boundary_read(packet: *const u8, size: usize, fields: *mut [u32; 6]) -> u8;
        pub fn boundary_write(
            kind: u8,
            member: u8,
            group: u32,
            a: u32,
            b: u32,
            c: u32,
            payload: *const u8,
            size: usize,
            out: *mut u8,
            room: usize,
        ) -> usize;
        pub fn boundary_play(input: *const u8, size: usize, out: *mut u8, room: usize) -> usize;
        pub fn boundary_load_open(
            seed: u32,
            n: u32,
            group: u32,
            line: *mut [u8; LOAD_LINE],
        ) -> usize;
        pub fn boundary_load_next(state: *mut [u32; 1], n: u8, line: *mut [u8; LOAD_LINE])
        -> usize;
        pub fn rounds_generator(seed: u32, rounds: u32) -> u64;
        pub fn rounds_read_list(sum: u64, packets: *const u8, size: usize) -> u64;
        pub fn rounds_journal_read(sum: u64, journal: *const u8, size: usize) -> u64;
        pub fn rounds_journal_record(
            sum: u64,
            block: *const u8,
            size: usize,
            at: usize,
            number: u32,
        ) -> u64;
        pub fn rounds_journal_write(
            last: u32,
            free: u8,
            first: u32,
            records: usize,
            used: usize,
            messages: *const u8,
            size: usize,
            rounds: u32,
            out: *mut u8,
            room: usize,
        ) -> u64;
        pub fn rounds_plan(
            sum: u64,
            journal: *const u8,
            size: usize,
            out: *mut u8,
            room: usize,
        ) -> u64;
        pub fn rounds_rewrite(
            sum: u64,
            journal: *const u8,
            size: usize,
            out: *mut u8,
            room: usize,
        ) -> u64;
        pub fn rounds_feeds(
            records: *const u8,
            records_size: usize,
            feeds: *const u8,
            size: usize,
            rounds: u32,
        ) -> u64;
    }
}

/// Reads a packet: its fields, or the number of the refusal.
pub fn read(packet: &[u8]) -> Result<Header, u8> {
    let mut fields = [0; 6];
    // SAFETY: the slice and the array live through the call.
    let refusal = unsafe { ffi::boundary_read(packet.as_ptr(), packet.len(), &mut fields) };
    if refusal != 0 {
        return Err(refusal);
    }
    let [kind, member, group, a, b, c] = fields;
    Ok(Header {
        kind: kind as u8,
        member: member as u8,
        group,
        a,
        b,
        c,
    })
}

/// Writes a packet: how many bytes, or the number of the refusal.
pub fn write(header: &Header, payload: &[u8], out: &mut [u8]) -> Result<usize, u8> {
    let Header {
        kind,
        member,
        group,
        a,
        b,
        c,
    } = *header;
    // SAFETY: the slices live through the call, and the lent one is not the other.
    let written = unsafe {
        ffi::boundary_write(
            kind,
            member,
            group,
            a,
            b,
            c,
            payload.as_ptr(),
            payload.len(),
            out.as_mut_ptr(),
            out.len(),
        )
    };
    // A packet has at least 20 bytes; the numbers of refusals end at 18.
    if written < 20 {
        Err(written as u8)
    } else {
        Ok(written)
    }
}

/// Plays a schedule to the front of the output; how many bytes it printed.
pub fn play(input: &[u8], out: &mut [u8]) -> usize {
    // SAFETY: the slices live through the call, and the lent one is not the other.
    unsafe { ffi::boundary_play(input.as_ptr(), input.len(), out.as_mut_ptr(), out.len()) }
}

/// The text of a whole load; `None` where n is refused.
pub fn load(seed: u32, n: u32, group: u32, events: u32) -> Option<Vec<u8>> {
    let mut line = [0; LOAD_LINE];
    // SAFETY: the array lives through the call.
    let size = unsafe { ffi::boundary_load_open(seed, n, group, &mut line) };
    if size == 0 {
        return None;
    }
    let mut text = line[..size].to_vec();
    let mut state = [seed];
    for _ in 0..events {
        // SAFETY: the arrays live through the call.
        let size = unsafe { ffi::boundary_load_next(&mut state, n as u8, &mut line) };
        text.extend(&line[..size]);
    }
    Some(text)
}

/// The next line of a load of so many members, which may be refused: its size, what the line holds
/// then, and the state.
pub fn load_next(state: u32, n: u8, line: &mut [u8; LOAD_LINE]) -> (usize, u32) {
    let mut state = [state];
    // SAFETY: the arrays live through the call.
    let size = unsafe { ffi::boundary_load_next(&mut state, n, line) };
    (size, state[0])
}

/// Steps of the generator, each with its output.
pub fn generator(seed: u32, rounds: u32) -> u64 {
    // SAFETY: only numbers cross.
    unsafe { ffi::rounds_generator(seed, rounds) }
}

/// Lines of a load.
pub fn load_lines(seed: u32, n: u8, rounds: u32) -> u64 {
    let mut line = [0; LOAD_LINE];
    let mut state = seed;
    (0..rounds).fold(0, |sum, _| {
        let (size, next) = load_next(state, n, &mut line);
        state = next;
        sum + size as u64 + u64::from(line[size / 2])
    })
}

/// Rounds of reading a list of packets.
pub fn read_rounds(packets: &[u8], rounds: u32) -> u64 {
    (0..rounds).fold(0, |sum, _| {
        // SAFETY: the slice lives through the call.
        unsafe { ffi::rounds_read_list(sum, packets.as_ptr(), packets.len()) }
    })
}

/// Rounds of feeding a work list, each time the same; then what is left.
pub fn feed_rounds(records: &[u8], feeds: &[u8], rounds: u32) -> u64 {
    // SAFETY: the slices live through the call.
    unsafe {
        ffi::rounds_feeds(
            records.as_ptr(),
            records.len(),
            feeds.as_ptr(),
            feeds.len(),
            rounds,
        )
    }
}

/// Takes of a member, each of which feeds a work list; then the list.
pub fn terminal_take(end: Member<'_>, calls: u32, out: &mut [u8]) -> u64 {
    let mut state: MemberState = ends::member(end, out);
    let (mut sum, mut taken) = (0, Vec::new());
    for _ in 0..calls {
        let told = state.take(out);
        sum = told.summed(sum);
        if told.code == Told::TOOK {
            taken.push((told.numbers[1] as u8, out[..told.written].to_vec()));
        }
    }
    mix(sum, feed_rounds(&[], &feeds(&taken), 1))
}

/// Rounds of reading a journal.
pub fn journal_read(journal: &[u8], rounds: u32) -> u64 {
    (0..rounds).fold(0, |sum, _| {
        // SAFETY: the slice lives through the call.
        unsafe { ffi::rounds_journal_read(sum, journal.as_ptr(), journal.len()) }
    })
}

/// Reads the record at an index of a block.
pub fn journal_record(block: &[u8], at: usize, number: u32) -> u64 {
    // SAFETY: as above.
    unsafe { ffi::rounds_journal_record(0, block.as_ptr(), block.len(), at, number) }
}

/// Rounds of handing a writer a list of messages, each time in the same state.
/// The blocks go to the front of the output, as far as it has room.
pub fn journal_write(writer: Writer, messages: &[u8], rounds: u32, out: &mut [u8]) -> u64 {
    // SAFETY: the slices live through the call, and the lent one is not the other.
    unsafe {
        ffi::rounds_journal_write(
            writer.last,
            writer.free.into(),
            writer.first,
            writer.records,
            writer.used,
            messages.as_ptr(),
            messages.len(),
            rounds,
            out.as_mut_ptr(),
            out.len(),
        )
    }
}

/// Rounds of laying the plan of a journal in the output.
pub fn plan(journal: &[u8], rounds: u32, out: &mut [u8]) -> u64 {
    (0..rounds).fold(0, |sum, _| {
        let (lent, room) = (out.as_mut_ptr(), out.len());
        // SAFETY: the slices live through the call, and the lent one is not the other.
        unsafe { ffi::rounds_plan(sum, journal.as_ptr(), journal.len(), lent, room) }
    })
}

/// Rounds of laying the rewritten journal in the output.
pub fn rewrite(journal: &[u8], rounds: u32, out: &mut [u8]) -> u64 {
    (0..rounds).fold(0, |sum, _| {
        let (lent, room) = (out.as_mut_ptr(), out.len());
        // SAFETY: as above.
        unsafe { ffi::rounds_rewrite(sum, journal.as_ptr(), journal.len(), lent, room) }
    })
}
