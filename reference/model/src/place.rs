//! What the ends keep: payloads, and places that hold one message each.

use crate::limits::PAYLOAD;

/// A payload in a fixed array.
#[derive(Clone, Copy, Debug, PartialEq, Eq)]
pub struct Payload {
    /// How many bytes are used.
    pub length: u8,
    /// The bytes; those behind `length` are zero.
    pub bytes: [u8; PAYLOAD],
}

impl Payload {
    /// No bytes.
    pub const EMPTY: Payload = Payload {
        length: 0,
        bytes: [0; PAYLOAD],
    };

    /// The used bytes of a sound payload.
    pub fn as_slice(&self) -> &[u8] {
        &self.bytes[..usize::from(self.length)]
    }

    /// Takes over at most [`PAYLOAD`] bytes.
    pub(crate) fn set(&mut self, payload: &[u8]) {
        let (used, unused) = self.bytes.split_at_mut(payload.len());
        used.copy_from_slice(payload);
        unused.fill(0);
        self.length = payload.len() as u8;
    }

    /// The length is at most [`PAYLOAD`] and every byte behind it is zero.
    ///
    /// All bytes are looked at whatever the length is: a fixed loop
    /// without an early exit becomes a few vector instructions.
    pub fn is_sound(&self) -> bool {
        let Some(start) = PAYLOAD.checked_sub(usize::from(self.length)) else {
            return false;
        };
        let mask = &UNUSED[start..start + PAYLOAD];
        let bytes = self.bytes.iter().zip(mask);
        bytes.fold(0, |seen, (byte, mask)| seen | (byte & mask)) == 0
    }
}

/// As many zeros as bytes may be used, then as many ones: as many from
/// PAYLOAD - length on tell the used from the unused.
static UNUSED: [u8; 2 * PAYLOAD] = {
    let mut mask = [0; 2 * PAYLOAD];
    let mut at = PAYLOAD;
    while at < mask.len() {
        mask[at] = u8::MAX;
        at += 1;
    }
    mask
};

/// A place of the history or of a member. Its sequence number follows from
/// where it lies and is not stored.
#[derive(Clone, Copy, Debug, PartialEq, Eq)]
pub struct Place {
    /// Who submitted the message.
    pub originator: u8,
    /// The originator's count for it, from 1.
    pub count: u32,
    /// The message itself.
    pub payload: Payload,
}

impl Place {
    /// An unused place.
    pub const EMPTY: Place = Place {
        originator: 0,
        count: 0,
        payload: Payload::EMPTY,
    };

    /// Keeps a message.
    pub(crate) fn keep(&mut self, originator: u8, count: u32, payload: &[u8]) {
        self.originator = originator;
        self.count = count;
        self.payload.set(payload);
    }

    /// All zero, given that the payload is sound.
    pub(crate) fn is_zero(&self) -> bool {
        self.originator == 0 && self.count == 0 && self.payload.length == 0
    }
}
