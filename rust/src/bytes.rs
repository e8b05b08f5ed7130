//! States of any bytes: a call refuses them, by question 1, and leaves them.

extern crate std;

use crate::ffi::{self, Fields, Job, Member, Sequencer, Terminal, Told, Writer};
use crate::{JOBS, PACKET};
use std::vec::Vec;

struct Bytes(u32);

impl Bytes {
    fn next(&mut self) -> u8 {
        self.0 = self.0.wrapping_mul(1_664_525).wrapping_add(1_013_904_223);
        (self.0 >> 24) as u8
    }

    /// A value of numbers and arrays of them, of random bytes.
    ///
    /// # Safety
    ///
    /// Any bytes are a value of the type.
    unsafe fn value<T>(&mut self) -> T {
        let bytes: Vec<u8> = (0..size_of::<T>()).map(|_| self.next()).collect();
        unsafe { bytes.as_ptr().cast::<T>().read_unaligned() }
    }
}

/// The bytes at the front of an output that a refusal leaves.
fn refused(told: &Told, out: &[u8; PACKET]) {
    assert_eq!((told.code, told.written), (1, 0));
    assert_eq!(out, &[0x5a; PACKET]);
}

#[test]
fn members() {
    for seed in 0..500 {
        let mut bytes = Bytes(seed);
        // SAFETY: the struct has numbers and arrays of them.
        let mut m: Member = unsafe { bytes.value() };
        let (taken, queued, held) = (m.taken, m.queued, m.held);
        let mut out = [0x5a; PACKET];
        let packet = [bytes.next(); 20];
        let (p, o) = (packet.as_ptr(), out.as_mut_ptr());
        // SAFETY: all are lent, apart from each other, with their lengths.
        let told = unsafe {
            [
                ffi::warghytes_member_submit(&raw mut m, p, 20, o, PACKET),
                ffi::warghytes_member_receive(&raw mut m, p, 20, o, PACKET),
                ffi::warghytes_member_take(&raw mut m, o, PACKET),
                ffi::warghytes_member_repeat(&raw const m, o, PACKET),
                ffi::warghytes_member_status(&raw const m, o, PACKET),
            ]
        };
        told.iter().for_each(|told| refused(told, &out));
        assert_eq!((taken, queued, held), (m.taken, m.queued, m.held));
    }
}

#[test]
fn sequencers() {
    for seed in 0..500 {
        let mut bytes = Bytes(seed);
        // SAFETY: the struct has numbers and arrays of them.
        let mut s: Sequencer = unsafe { bytes.value() };
        let (top, taken, kept) = (s.top, s.taken, s.kept);
        let mut out = [0x5a; PACKET];
        let packet = [bytes.next(); 20];
        let (p, o) = (packet.as_ptr(), out.as_mut_ptr());
        // SAFETY: all are lent, apart from each other, with their lengths.
        let told = unsafe {
            [
                ffi::warghytes_sequencer_receive(&raw mut s, p, 20, o, PACKET),
                ffi::warghytes_sequencer_poll(&raw const s, o, PACKET),
                ffi::warghytes_sequencer_copy(&raw const s, 1, o, PACKET),
            ]
        };
        told.iter().for_each(|told| refused(told, &out));
        assert_eq!((top, taken, kept), (s.top, s.taken, s.kept));
    }
}

#[test]
fn terminals() {
    for seed in 0..500 {
        let mut bytes = Bytes(seed);
        // SAFETY: the struct has numbers and arrays of them.
        let mut t: Terminal = unsafe { bytes.value() };
        if seed % 2 == 0 {
            // half of them with flags that are flags
            (t.replied, t.inviting) = (t.replied % 2, t.inviting % 2);
            (t.sequencing, t.frozen) = (t.sequencing % 2, t.frozen % 2);
        }
        let (taken, past, kept) = (t.member.taken, t.past, t.kept);
        let mut out = [0x5a; PACKET];
        let packet = [bytes.next(); 20];
        let (p, o) = (packet.as_ptr(), out.as_mut_ptr());
        // SAFETY: all are lent, apart from each other, with their lengths.
        let told = unsafe {
            [
                ffi::warghytes_terminal_submit(&raw mut t, p, 20, o, PACKET),
                ffi::warghytes_terminal_receive(&raw mut t, p, 20, o, PACKET),
                ffi::warghytes_terminal_take(&raw mut t, o, PACKET),
                ffi::warghytes_terminal_repeat(&raw const t, o, PACKET),
                ffi::warghytes_terminal_status(&raw const t, o, PACKET),
                ffi::warghytes_terminal_order(&raw mut t, p, 20, o, PACKET),
                ffi::warghytes_terminal_poll(&raw const t, o, PACKET),
                ffi::warghytes_terminal_copy(&raw const t, 1, o, PACKET),
                ffi::warghytes_terminal_invite(&raw mut t, 1, o, PACKET),
                ffi::warghytes_terminal_make(&raw mut t, 1, o, PACKET),
            ]
        };
        told.iter().for_each(|told| refused(told, &out));
        assert_eq!((taken, past, kept), (t.member.taken, t.past, t.kept));
    }
}

#[test]
fn lists_and_writers() {
    for seed in 0..200 {
        let mut bytes = Bytes(seed);
        // SAFETY: the structs have numbers and arrays of them.
        let (mut jobs, mut writer): ([Job; JOBS], Writer) =
            unsafe { (bytes.value(), bytes.value()) };
        let (old_jobs, old_writer) = (jobs, writer);
        let (hand, mut out) = ([0; 512], [0x5a; 512]);
        // SAFETY: all are lent, apart from each other, with their lengths.
        let codes = unsafe {
            [
                ffi::warghytes_jobs_feed(jobs.as_mut_ptr(), JOBS, 1, [2].as_ptr(), 1).code,
                ffi::warghytes_journal_finish(&raw mut writer, &raw const hand, &raw mut out).code,
            ]
        };
        assert_eq!(codes, [1, 1]);
        assert!(jobs == old_jobs && writer == old_writer && out == [0x5a; 512]);
    }
}

/// Packets of random bytes are refused or read, and what is read is written back.
#[test]
fn packets() {
    let mut bytes = Bytes(7);
    for _ in 0..20_000 {
        let mut packet: [u8; 24] = core::array::from_fn(|_| bytes.next());
        packet[0] %= 10;
        let mut fields = Fields::default();
        let size = 20 + usize::from(packet[3] % 5);
        (packet[2], packet[3]) = (0, size as u8 - 20);
        // SAFETY: the packet is lent with its length, and the fields apart from it.
        let code = unsafe { ffi::warghytes_packet_read(packet.as_ptr(), size, &raw mut fields) };
        if code == ffi::code::FIELDS {
            let (fields, payload) = crate::Fields::read(&packet[..size]).unwrap();
            let mut out = [0; PACKET];
            assert_eq!(fields.write(payload, &mut out), Ok(&packet[..size]));
        } else {
            assert!((3..=6).contains(&code), "{code}");
        }
    }
}
