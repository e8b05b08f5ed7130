//! The group's limits, each named once.

/// Members of a group, at most.
pub const MEMBERS: usize = 16;
/// Places of the sequencer's history.
pub const HISTORY: usize = 32;
/// Places of a member, for the numbers t+1 to t+8.
pub const WINDOW: usize = 8;
/// Messages of a member that wait, at most.
pub const WAITING: usize = 5;
/// Bytes of a packet's header.
pub const HEADER: usize = 20;
/// Bytes of a payload, at most.
pub const PAYLOAD: usize = 240;
/// Bytes of a packet, at most; also the least lent output.
pub const PACKET: usize = HEADER + PAYLOAD;
/// The largest sequence number, count and repeat count.
pub const LARGEST: u32 = u32::MAX;
/// Records of a work list.
pub const JOBS: usize = 64;
/// Bytes of a job, at most: the payload that adds it has one byte before it.
pub const JOB: usize = PAYLOAD - 1;
/// Units of a plan, at most.
pub const UNITS: usize = 512;
/// Bytes of a plan, at most: unit and length before each description, which
/// has a payload's bytes but for the three that set the unit.
pub const PLAN: usize = UNITS * (4 + PAYLOAD - 3);
