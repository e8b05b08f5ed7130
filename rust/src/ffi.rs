//! The library's functions and structs, as `include/warghytes.h` declares them.

use crate::{BLOCK, HELD, JOB, MEMBERS, PAYLOAD, PLACES, WAITING};

#[repr(C)]
#[derive(Clone)]
pub struct Sequencer {
    pub n: u8,
    pub resilience: u8,
    pub survivors: u16,
    pub elected: u8,
    pub group: u32,
    pub top: u32,
    pub accepted: u32,
    pub floor: u32,
    pub taken: [u32; MEMBERS],
    pub counts: [u32; MEMBERS],
    pub repeats: [u32; MEMBERS],
    pub kept: [u32; PLACES],
    pub marks: [u16; PLACES],
    pub originators: [u8; PLACES],
    pub lengths: [u8; PLACES],
    pub payloads: [u8; PLACES * PAYLOAD],
}

#[repr(C)]
#[derive(Clone)]
pub struct Member {
    pub n: u8,
    pub resilience: u8,
    pub survivors: u16,
    pub elected: u8,
    pub group: u32,
    pub number: u8,
    pub taken: u32,
    pub accepted: u32,
    pub submitted: u32,
    pub waiting: u32,
    pub queued: [u32; WAITING],
    pub held: [u32; HELD],
    pub queued_originators: [u8; WAITING],
    pub queued_lengths: [u8; WAITING],
    pub held_originators: [u8; HELD],
    pub held_lengths: [u8; HELD],
    pub queued_payloads: [u8; WAITING * PAYLOAD],
    pub held_payloads: [u8; HELD * PAYLOAD],
}

#[repr(C)]
#[derive(Clone)]
pub struct TerminalMember {
    pub n: u8,
    pub resilience: u8,
    pub survivors: u16,
    pub elected: u8,
    pub group: u32,
    pub number: u8,
    pub taken: u32,
    pub accepted: u32,
    pub submitted: u32,
    pub waiting: u32,
}

#[repr(C)]
#[derive(Clone)]
pub struct TerminalSequencer {
    pub n: u8,
    pub resilience: u8,
    pub survivors: u16,
    pub elected: u8,
    pub group: u32,
    pub top: u32,
    pub accepted: u32,
    pub floor: u32,
}

#[repr(C)]
#[derive(Clone)]
pub struct Terminal {
    pub member: TerminalMember,
    pub sequencer: TerminalSequencer,
    pub read: u32,
    pub attempt: u32,
    pub number: u32,
    pub invited: u32,
    pub repliers: u16,
    pub replied: u8,
    pub inviting: u8,
    pub sequencing: u8,
    pub frozen: u8,
    pub queued: [u32; WAITING],
    pub held: [u32; HELD],
    pub queued_originators: [u8; WAITING],
    pub queued_lengths: [u8; WAITING],
    pub held_originators: [u8; HELD],
    pub held_lengths: [u8; HELD],
    pub queued_payloads: [u8; WAITING * PAYLOAD],
    pub held_payloads: [u8; HELD * PAYLOAD],
    pub past: [u32; PLACES],
    pub past_originators: [u8; PLACES],
    pub past_lengths: [u8; PLACES],
    pub past_payloads: [u8; PLACES * PAYLOAD],
    pub highest: [u32; MEMBERS],
    pub replies: [u32; MEMBERS],
    pub taken: [u32; MEMBERS],
    pub counts: [u32; MEMBERS],
    pub repeats: [u32; MEMBERS],
    pub kept: [u32; PLACES],
    pub marks: [u16; PLACES],
    pub originators: [u8; PLACES],
    pub lengths: [u8; PLACES],
    pub payloads: [u8; PLACES * PAYLOAD],
}

#[repr(C)]
#[derive(Clone, Copy, PartialEq, Eq)]
pub struct Job {
    pub state: u8,
    pub member: u8,
    pub length: usize,
    pub bytes: [u8; JOB],
}

#[repr(C)]
#[derive(Clone, Copy, Debug, PartialEq, Eq)]
pub struct Writer {
    pub last: u32,
    pub free: u32,
    pub first: u32,
    pub records: u32,
    pub used: u32,
}

#[repr(C)]
pub struct Told {
    pub code: u32,
    pub first: u32,
    pub second: u32,
    pub third: u32,
    pub more: u32,
    pub written: usize,
}

#[repr(C)]
pub struct Answer {
    pub code: u32,
    pub number: usize,
}

#[repr(C)]
pub struct Found {
    pub code: u32,
    pub blocks: usize,
    pub messages: usize,
}

#[repr(C)]
pub struct Record {
    pub code: u32,
    pub number: u32,
    pub originator: u32,
    pub count: u32,
    pub start: usize,
    pub length: usize,
}

#[repr(C)]
#[derive(Default)]
pub struct Fields {
    pub kind: u32,
    pub member: u32,
    pub group: u32,
    pub a: u32,
    pub b: u32,
    pub c: u32,
}

/// The sizes for which the library was built.
const _: () = {
    assert!(size_of::<Sequencer>() == 8152);
    assert!(size_of::<Member>() == 3232);
    assert!(size_of::<Terminal>() == 19408);
    assert!(size_of::<Job>() == 256);
    assert!(size_of::<Writer>() == 20);
    assert!(size_of::<Told>() == 32);
    assert!(size_of::<Answer>() == 16);
    assert!(size_of::<Found>() == 24);
    assert!(size_of::<Record>() == 32);
    assert!(size_of::<Fields>() == 24);
};

pub mod code {
    pub const OLD: u32 = 32;
    pub const FULL: u32 = 33;
    pub const NOTED: u32 = 34;
    pub const SENT: u32 = 35;
    pub const AGAIN: u32 = 36;
    pub const NUMBERED: u32 = 37;
    pub const WANTED: u32 = 38;
    pub const ACCEPTED: u32 = 39;
    pub const MARKED: u32 = 40;
    pub const KEPT: u32 = 48;
    pub const KEPT_GAP: u32 = 49;
    pub const BEYOND: u32 = 50;
    pub const BEYOND_GAP: u32 = 51;
    pub const GAP: u32 = 52;
    pub const STATUS: u32 = 53;
    pub const NONE: u32 = 54;
    pub const TOOK: u32 = 55;
    pub const QUEUED: u32 = 56;
    pub const CLOSED: u32 = 57;
    pub const BYTES: u32 = 58;
    pub const FIELDS: u32 = 59;
    pub const READ: u32 = 60;
    pub const RIGHT: u32 = 61;
    pub const WRONG: u32 = 62;
    pub const ADDED: u32 = 64;
    pub const GIVEN: u32 = 65;
}

/// A call of this module that is lent a state, bytes and an output.
pub fn with_bytes<S>(
    call: unsafe extern "C" fn(*mut S, *const u8, usize, *mut u8, usize) -> Told,
    state: &mut S,
    bytes: &[u8],
    out: &mut [u8],
) -> Told {
    let (size, room) = (bytes.len(), out.len());
    // SAFETY: state, bytes and output are lent, apart from each other, with their lengths.
    unsafe { call(state, bytes.as_ptr(), size, out.as_mut_ptr(), room) }
}

/// A call of this module that looks at a state and is lent an output.
pub fn looking<S>(
    call: unsafe extern "C" fn(*const S, *mut u8, usize) -> Told,
    state: &S,
    out: &mut [u8],
) -> Told {
    let room = out.len();
    // SAFETY: state and output are lent, apart from each other, with its length.
    unsafe { call(state, out.as_mut_ptr(), room) }
}

#[rustfmt::skip]
unsafe extern "C" {
    pub fn warghytes_sequencer_open(s: *mut Sequencer, n: u8, group: u32, resilience: u8) -> Told;
    pub fn warghytes_sequencer_receive(s: *mut Sequencer, packet: *const u8, size: usize, out: *mut u8, room: usize) -> Told;
    pub fn warghytes_sequencer_poll(s: *const Sequencer, out: *mut u8, room: usize) -> Told;
    pub fn warghytes_sequencer_copy(s: *const Sequencer, number: u32, out: *mut u8, room: usize) -> Told;
    pub fn warghytes_member_open(m: *mut Member, n: u8, number: u8, group: u32, resilience: u8) -> Told;
    pub fn warghytes_member_submit(m: *mut Member, payload: *const u8, size: usize, out: *mut u8, room: usize) -> Told;
    pub fn warghytes_member_receive(m: *mut Member, packet: *const u8, size: usize, out: *mut u8, room: usize) -> Told;
    pub fn warghytes_member_take(m: *mut Member, out: *mut u8, room: usize) -> Told;
    pub fn warghytes_member_repeat(m: *const Member, out: *mut u8, room: usize) -> Told;
    pub fn warghytes_member_status(m: *const Member, out: *mut u8, room: usize) -> Told;
    pub fn warghytes_terminal_open(t: *mut Terminal, n: u8, number: u8, group: u32, resilience: u8) -> Told;
    pub fn warghytes_terminal_submit(t: *mut Terminal, payload: *const u8, size: usize, out: *mut u8, room: usize) -> Told;
    pub fn warghytes_terminal_receive(t: *mut Terminal, packet: *const u8, size: usize, out: *mut u8, room: usize) -> Told;
    pub fn warghytes_terminal_take(t: *mut Terminal, out: *mut u8, room: usize) -> Told;
    pub fn warghytes_terminal_repeat(t: *const Terminal, out: *mut u8, room: usize) -> Told;
    pub fn warghytes_terminal_status(t: *const Terminal, out: *mut u8, room: usize) -> Told;
    pub fn warghytes_terminal_order(t: *mut Terminal, packet: *const u8, size: usize, out: *mut u8, room: usize) -> Told;
    pub fn warghytes_terminal_poll(t: *const Terminal, out: *mut u8, room: usize) -> Told;
    pub fn warghytes_terminal_copy(t: *const Terminal, number: u32, out: *mut u8, room: usize) -> Told;
    pub fn warghytes_terminal_invite(t: *mut Terminal, number: u32, out: *mut u8, room: usize) -> Told;
    pub fn warghytes_terminal_make(t: *mut Terminal, demand: u32, out: *mut u8, room: usize) -> Told;
    pub fn warghytes_packet_read(packet: *const u8, size: usize, fields: *mut Fields) -> u32;
    pub fn warghytes_packet_write(kind: u8, member: u8, group: u32, a: u32, b: u32, c: u32, payload: *const u8, size: usize, out: *mut u8, room: usize) -> Answer;
    pub fn warghytes_jobs_feed(jobs: *mut Job, count: usize, originator: u8, payload: *const u8, size: usize) -> Answer;
    pub fn warghytes_journal_read(journal: *const u8, size: usize, writer: *mut Writer) -> Found;
    pub fn warghytes_journal_next(writer: *mut Writer, block: *const u8, size: usize) -> Found;
    pub fn warghytes_journal_record(block: *const u8, size: usize, at: usize, number: u32) -> Record;
    pub fn warghytes_journal_write(writer: *mut Writer, number: u32, originator: u8, count: u32, payload: *const u8, size: usize, hand: *mut [u8; BLOCK], out: *mut [u8; BLOCK]) -> Answer;
    pub fn warghytes_journal_finish(writer: *mut Writer, hand: *const [u8; BLOCK], out: *mut [u8; BLOCK]) -> Answer;
    pub fn warghytes_plan(journal: *const u8, size: usize, out: *mut u8, room: usize) -> Answer;
    pub fn warghytes_rewrite(journal: *const u8, size: usize, out: *mut u8, room: usize) -> Answer;
}
