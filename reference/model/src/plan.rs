//! The plan that a journal comes to, and the journal rewritten to each unit's
//! latest record.
//!
//! A payload of byte 3, a unit's number (2 bytes) and a description sets that
//! unit; the latest wins. Both calls lay their result at the front of the lent
//! output, and read the blocks before the first wrong one.

use crate::answer::Refusal;
use crate::journal::{self, BLOCK, COMPACT, Message, NUMBER, RECORDS, SUM};
use crate::limits::UNITS;
use std::collections::BTreeMap;

/// What a payload that sets a unit begins with.
pub const SET: u8 = 3;

/// The unit that a payload sets, and its description.
pub fn setting(payload: &[u8]) -> Option<(u16, &[u8])> {
    let (&[SET, high, low], description) = payload.split_first_chunk()? else {
        return None;
    };
    Some((u16::from_be_bytes([high, low]), description))
}

/// Each unit's latest message: questions 21 and 22.
fn latest(journal: &[u8]) -> Result<BTreeMap<u16, Message<'_>>, Refusal> {
    let found = journal::read(journal)?;
    let mut units = BTreeMap::new();
    for message in journal::messages(journal, found.blocks) {
        if let Some((unit, _)) = setting(message.payload) {
            units.insert(unit, message);
        }
    }
    Refusal::ManyUnits.unless(units.len() <= UNITS)?;
    Ok(units)
}

/// Lays the plan: each unit's number, the length of its latest description,
/// and the description, in order of unit number. How many bytes.
pub fn plan(journal: &[u8], out: &mut [u8]) -> Result<usize, Refusal> {
    let units = latest(journal)?;
    let descriptions = || {
        units
            .values()
            .filter_map(|message| setting(message.payload))
    };
    let size = descriptions().map(|(_, text)| 4 + text.len()).sum();
    Refusal::NoRoom.unless(size <= out.len())?;
    let mut rest = out;
    for (unit, text) in descriptions() {
        let (row, behind) = rest.split_at_mut(4 + text.len());
        row[..2].copy_from_slice(&unit.to_be_bytes());
        row[2..4].copy_from_slice(&(text.len() as u16).to_be_bytes());
        row[4..].copy_from_slice(text);
        rest = behind;
    }
    Ok(size)
}

/// Lays the rewritten journal: each unit's latest record, in order of sequence
/// number, in compacted blocks. How many bytes.
pub fn rewrite(journal: &[u8], out: &mut [u8]) -> Result<usize, Refusal> {
    let mut kept: Vec<Message> = latest(journal)?.into_values().collect();
    kept.sort_unstable_by_key(|message| message.number);
    let blocks = packed(&kept);
    let size = blocks.len() * BLOCK;
    Refusal::NoRoom.unless(size <= out.len())?;
    for (held, block) in blocks.iter().zip(out.as_chunks_mut().0) {
        lay(held, block);
    }
    Ok(size)
}

/// Bytes of a message's record in a compacted block, its number among them.
fn size(message: &Message) -> usize {
    NUMBER + message.size()
}

/// The messages of each block: a new one begins where the next does not fit.
fn packed<'a, 'b>(mut kept: &'b [Message<'a>]) -> Vec<&'b [Message<'a>]> {
    let mut blocks = Vec::new();
    while !kept.is_empty() {
        let mut end = RECORDS;
        let fits = |message: &&Message| {
            end += size(message);
            end <= SUM
        };
        let many = kept.iter().take_while(fits).count();
        let (held, rest) = kept.split_at(many);
        blocks.push(held);
        kept = rest;
    }
    blocks
}

/// Lays the compacted block of these messages, of which there is one at least.
fn lay(held: &[Message], block: &mut [u8; BLOCK]) {
    let mut at = RECORDS;
    for message in held {
        let (number, record) = block[at..at + size(message)].split_at_mut(NUMBER);
        number.copy_from_slice(&message.number.to_be_bytes());
        journal::put_record(message, record);
        at += size(message);
    }
    journal::seal(COMPACT, held[0].number, held.len(), at, block);
}
