//! The journal: taken messages in blocks of 512 bytes, so that a restarted
//! terminal shows its last plan.
//!
//! A block is its mark (4 bytes), the number of its first message (4), the
//! count of its records (2), the records, zeros up to byte 507, and a sum (4).
//! A record is originator (1), count (4), length (2) and payload. Numbers are
//! big-endian. Each block is written once; reading stops at the first that is
//! wrong.
//!
//! The writer's blocks have consecutive numbers. In a compacted block, which
//! has another mark, each record has its own number (4) before it, and numbers
//! only rise; it may stand behind other compacted blocks alone.

use crate::answer::Refusal;
use crate::limits::{MEMBERS, PAYLOAD};

/// Bytes of a block.
pub const BLOCK: usize = 512;
/// What a block begins with.
pub const MARK: [u8; 4] = *b"KJB1";
/// What a compacted block begins with.
pub const COMPACT: [u8; 4] = *b"KJB2";
/// Where a block's records begin.
pub const RECORDS: usize = 10;
/// Where a block's sum stands, behind the records and the zeros.
pub const SUM: usize = 508;
/// Bytes of a record before its payload.
pub const HEAD: usize = 7;
/// Bytes of the number before a record of a compacted block.
pub const NUMBER: usize = 4;

/// Where the number of a block's first message and its count of records stand.
const FIRST: usize = 4;
const COUNT: usize = 8;

/// A taken message, as the journal keeps it.
#[derive(Clone, Copy, Debug, PartialEq, Eq)]
pub struct Message<'a> {
    /// Its sequence number, which a record does not repeat.
    pub number: u32,
    /// Who submitted it.
    pub originator: u8,
    /// The originator's count for it.
    pub count: u32,
    /// What it says.
    pub payload: &'a [u8],
}

impl Message<'_> {
    /// Whether a record may hold it.
    fn is_allowed(&self) -> bool {
        usize::from(self.originator) < MEMBERS && self.count >= 1 && self.payload.len() <= PAYLOAD
    }

    /// Bytes of its record.
    pub fn size(&self) -> usize {
        HEAD + self.payload.len()
    }
}

/// The end of a journal, and what may follow there.
#[derive(Clone, Copy, Debug, PartialEq, Eq)]
pub struct Tail {
    /// The number of the last message; 0 if there is none.
    pub last: u32,
    /// Whether any number above `last` may follow, or the next one alone.
    pub free: bool,
}

impl Tail {
    /// The end of an empty journal.
    pub const FRESH: Tail = Tail {
        last: 0,
        free: true,
    };

    /// The end behind a message of the writer's.
    fn behind(number: u32) -> Tail {
        Tail {
            last: number,
            free: false,
        }
    }

    /// Whether this number may follow. None follows the largest.
    pub fn allows(self, number: u32) -> bool {
        if self.free {
            number > self.last
        } else {
            self.last.checked_add(1) == Some(number)
        }
    }

    /// Reads the block that stands here; `None` if it is wrong.
    pub fn next(self, block: &[u8]) -> Option<Found> {
        let block: &[u8; BLOCK] = block.try_into().ok()?;
        let first = u32_at(block, FIRST);
        let compact = match block.first_chunk() {
            Some(&MARK) => false,
            Some(&COMPACT) if self.free && first == u32_at(block, RECORDS) => true,
            _ => return None,
        };
        let records = u16_at(block, COUNT);
        if u32_at(block, SUM) != sum(block) || records == 0 || !self.allows(first) {
            return None;
        }
        let mut walk = Walk::of(block);
        for _ in 0..records {
            walk.next()?;
        }
        let zeros = block[walk.at..SUM].iter().all(|&byte| byte == 0);
        zeros.then(|| Found {
            blocks: 1,
            messages: usize::from(records),
            tail: Tail {
                last: walk.last,
                free: compact,
            },
        })
    }
}

/// What stands before the first wrong block.
#[derive(Clone, Copy, Debug, PartialEq, Eq)]
pub struct Found {
    /// Right blocks.
    pub blocks: usize,
    /// Their messages.
    pub messages: usize,
    /// Where they end.
    pub tail: Tail,
}

/// Reads a journal up to the first wrong block: question 21.
pub fn read(journal: &[u8]) -> Result<Found, Refusal> {
    Refusal::WrongJournal.unless(journal.len().is_multiple_of(BLOCK))?;
    Ok(found(journal))
}

/// What stands before the first wrong block, a last part that is no whole
/// block left aside.
pub fn found(journal: &[u8]) -> Found {
    let mut found = Found {
        blocks: 0,
        messages: 0,
        tail: Tail::FRESH,
    };
    for block in journal.chunks_exact(BLOCK) {
        let Some(next) = found.tail.next(block) else {
            break;
        };
        found.blocks += next.blocks;
        found.messages += next.messages;
        found.tail = next.tail;
    }
    found
}

/// The messages of the first blocks of a journal, which must be right.
pub fn messages(journal: &[u8], blocks: usize) -> impl Iterator<Item = Message<'_>> {
    journal
        .as_chunks::<BLOCK>()
        .0
        .iter()
        .take(blocks)
        .flat_map(messages_of)
}

/// The messages of a right block.
fn messages_of(block: &[u8; BLOCK]) -> impl Iterator<Item = Message<'_>> {
    let mut walk = Walk::of(block);
    (0..u16_at(block, COUNT)).map_while(move |_| walk.next())
}

/// A place in a block, before a record or behind the last.
struct Walk<'a> {
    block: &'a [u8; BLOCK],
    compact: bool,
    at: usize,
    /// The number of the record before.
    last: u32,
}

impl<'a> Walk<'a> {
    /// Before the first record.
    fn of(block: &'a [u8; BLOCK]) -> Walk<'a> {
        Walk {
            block,
            compact: block.starts_with(&COMPACT),
            at: RECORDS,
            last: u32_at(block, FIRST).saturating_sub(1),
        }
    }

    /// The next record; `None` if it is wrong.
    fn next(&mut self) -> Option<Message<'a>> {
        let number = if self.compact {
            let number = self.block[self.at..SUM].first_chunk()?;
            self.at += NUMBER;
            Some(u32::from_be_bytes(*number)).filter(|&number| number > self.last)?
        } else {
            self.last.checked_add(1)?
        };
        let message = record_at(self.block, self.at, number)?;
        self.at += message.size();
        self.last = number;
        Some(message)
    }
}

/// The record at an index of a block; `None` if it is wrong.
pub fn record_at(block: &[u8; BLOCK], at: usize, number: u32) -> Option<Message<'_>> {
    let (head, behind) = block.get(at..SUM)?.split_at_checked(HEAD)?;
    let message = Message {
        number,
        originator: head[0],
        count: u32_at(head, 1),
        payload: behind.get(..usize::from(u16_at(head, 5)))?,
    };
    message.is_allowed().then_some(message)
}

/// A writer of blocks. The block in hand is lent to each call, and so is the
/// output, to which a block goes when it is written.
#[derive(Clone, Copy, Debug, PartialEq, Eq)]
pub struct Writer {
    /// The end of all that was given to it.
    pub tail: Tail,
    /// The first number in hand; 0 if there is none.
    pub first: u32,
    /// Records in hand.
    pub records: usize,
    /// Bytes used of the block in hand.
    pub used: usize,
}

impl Writer {
    /// A writer that goes on where a journal ends.
    pub fn after(tail: Tail) -> Writer {
        Writer {
            tail,
            first: 0,
            records: 0,
            used: RECORDS,
        }
    }

    /// Question 1.
    pub fn is_sound(&self) -> bool {
        if self.records == 0 {
            return self.used == RECORDS;
        }
        let fits = self.used <= SUM && self.records <= self.used.saturating_sub(RECORDS) / HEAD;
        let behind = u64::from(self.first) + self.records as u64;
        fits && !self.tail.free && self.first >= 1 && behind == u64::from(self.tail.last) + 1
    }

    /// Takes a message in hand. Where its record does not fit, the block goes
    /// to the output first; how many bytes went there.
    pub fn write(
        &mut self,
        message: &Message,
        hand: &mut [u8; BLOCK],
        out: &mut [u8; BLOCK],
    ) -> Result<usize, Refusal> {
        Refusal::Unsound.unless(self.is_sound())?;
        let follows = self.tail.allows(message.number);
        Refusal::WrongJournal.unless(message.is_allowed() && follows)?;
        let written = if self.used + message.size() > SUM {
            self.hand_out(hand, out)
        } else {
            0
        };
        if self.records == 0 {
            self.first = message.number;
        }
        let end = self.used + message.size();
        put_record(message, &mut hand[self.used..end]);
        self.records += 1;
        self.used = end;
        self.tail = Tail::behind(message.number);
        Ok(written)
    }

    /// Shutdown: what is in hand goes to the output; how many bytes.
    pub fn finish(&mut self, hand: &[u8; BLOCK], out: &mut [u8; BLOCK]) -> Result<usize, Refusal> {
        Refusal::Unsound.unless(self.is_sound())?;
        let written = self.hand_out(hand, out);
        *self = Writer::after(self.tail);
        Ok(written)
    }

    fn hand_out(&mut self, hand: &[u8; BLOCK], out: &mut [u8; BLOCK]) -> usize {
        if self.records == 0 {
            return 0;
        }
        out[RECORDS..self.used].copy_from_slice(&hand[RECORDS..self.used]);
        seal(MARK, self.first, self.records, self.used, out);
        *self = Writer::after(self.tail);
        BLOCK
    }
}

/// Makes a block of records that end at an index: mark, first number and count
/// before them, zeros and the sum behind.
pub(crate) fn seal(mark: [u8; 4], first: u32, records: usize, end: usize, block: &mut [u8; BLOCK]) {
    block[..FIRST].copy_from_slice(&mark);
    block[FIRST..COUNT].copy_from_slice(&first.to_be_bytes());
    // 7 bytes a record at least: there are at most 71.
    block[COUNT..RECORDS].copy_from_slice(&(records as u16).to_be_bytes());
    block[end..SUM].fill(0);
    let sum = sum(block);
    block[SUM..].copy_from_slice(&sum.to_be_bytes());
}

/// Lays a message's record into a place of its size.
pub(crate) fn put_record(message: &Message, place: &mut [u8]) {
    let (head, payload) = place.split_at_mut(HEAD);
    head[0] = message.originator;
    head[1..5].copy_from_slice(&message.count.to_be_bytes());
    head[5..].copy_from_slice(&(message.payload.len() as u16).to_be_bytes());
    payload.copy_from_slice(message.payload);
}

/// The sum of (position + 1) × byte over what stands before a block's own; at
/// most 32,967,930.
pub fn sum(block: &[u8; BLOCK]) -> u32 {
    (1..)
        .zip(&block[..SUM])
        .map(|(weight, &byte): (u32, _)| weight * u32::from(byte))
        .sum()
}

fn u16_at(bytes: &[u8], at: usize) -> u16 {
    u16::from_be_bytes([bytes[at], bytes[at + 1]])
}

fn u32_at(bytes: &[u8], at: usize) -> u32 {
    let [a, b, c, d] = [bytes[at], bytes[at + 1], bytes[at + 2], bytes[at + 3]];
    u32::from_be_bytes([a, b, c, d])
}
