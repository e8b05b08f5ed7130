//! A schedule written event by event, each with the answer that the
//! document gives it.

use crate::Schedule;
use model::group::Group;
use model::play;

/// A schedule that is being written.
///
/// A group runs along for the indices of packets alone: the words and
/// numbers of every answer are given by the one who writes.
pub struct Script {
    group: Group,
    events: usize,
    text: String,
    expected: String,
}

impl Script {
    /// A group of n members.
    pub fn open(n: u32, group: u32) -> Script {
        Script {
            group: Group::fresh(n, group).expect("an allowed opening"),
            events: 0,
            text: format!("N {n} {group}\n"),
            expected: String::new(),
        }
    }

    /// A group of n members with a resilience degree.
    pub fn resilient(n: u32, group: u32, r: u32) -> Script {
        Script {
            group: Group::resilient(n, group, r).expect("an allowed opening"),
            text: format!("N {n} {group} {r}\n"),
            ..Script::open(n, group)
        }
    }

    /// An event of a good form and its answer without the index of the
    /// packet written, if one is; returns that index, or that of the next
    /// packet.
    pub fn line(&mut self, line: &str, answer: &str) -> usize {
        let event = play::event(line.as_bytes()).expect("a line of an event");
        let index = self.group.packets.len();
        let written = self
            .group
            .step(&event)
            .and_then(|outcome| outcome.packet)
            .map_or(String::new(), |index| format!(" {index}"));
        self.unread(line, &format!("{answer}{written}"));
        index
    }

    /// A line that the group does not see.
    pub fn unread(&mut self, line: &str, answer: &str) {
        self.events += 1;
        self.text += &format!("{line}\n");
        self.expected += &format!("{} {answer}\n", self.events);
    }

    /// Submit; the request's index.
    pub fn submit(&mut self, member: usize, hex: &str) -> usize {
        self.line(&format!("S {member} {hex}"), "sent")
    }

    /// Submit behind a message that waits, with that count.
    pub fn queue(&mut self, member: usize, hex: &str, count: u32) {
        self.line(&format!("S {member} {hex}"), &format!("queued {count}"));
    }

    /// Repeat; the request's index.
    pub fn repeat(&mut self, member: usize) -> usize {
        self.line(&format!("R {member}"), "sent")
    }

    /// Take.
    pub fn take(&mut self, member: usize, answer: &str) {
        self.line(&format!("T {member}"), answer);
    }

    /// The status call; the packet's index.
    pub fn status(&mut self, member: usize) -> usize {
        self.line(&format!("A {member}"), "sent")
    }

    /// The poll call; the packet's index.
    pub fn poll(&mut self) -> usize {
        self.line("P", "sent")
    }

    /// The copy call; the packet's index.
    pub fn copy(&mut self, number: u32) -> usize {
        self.line(&format!("C {number}"), "sent")
    }

    /// Hands a packet to the sequencer.
    pub fn hand(&mut self, packet: usize, answer: &str) -> usize {
        self.line(&format!("Q {packet}"), answer)
    }

    /// Hands a packet to a member.
    pub fn give(&mut self, packet: usize, member: usize, answer: &str) -> usize {
        self.line(&format!("M {packet} {member}"), answer)
    }

    /// Gives an offer to a member that is expected to answer it; the index of
    /// its answer.
    pub fn confirm(&mut self, offer: usize, member: usize, answer: &str) -> usize {
        let written = self.group.packets.len();
        let index = self.give(offer, member, answer);
        assert_eq!(self.group.packets.len(), written + 1, "no kind 7");
        index
    }

    /// Gives an offer to a member that writes no answer.
    pub fn leave(&mut self, offer: usize, member: usize, answer: &str) {
        let written = self.group.packets.len();
        self.give(offer, member, answer);
        assert_eq!(self.group.packets.len(), written, "a packet");
    }

    /// Submit, and the request is numbered; the broadcast's or offer's index.
    pub fn number(&mut self, member: usize, hex: &str, number: u32) -> usize {
        let request = self.submit(member, hex);
        self.hand(request, &format!("numbered {number}"))
    }

    /// A member's status reaches the sequencer.
    pub fn acknowledge(&mut self, member: usize) {
        let status = self.status(member);
        self.hand(status, "noted");
    }

    /// One message of member 0 that it takes at once: the j-th of them is
    /// numbered j and has the byte j; the broadcast's index.
    pub fn own(&mut self, number: u32) -> usize {
        let hex = format!("{number:02x}");
        let broadcast = self.number(0, &hex, number);
        self.give(broadcast, 0, "kept");
        self.take(0, &format!("took {number} 0 {number} {hex} last"));
        broadcast
    }

    /// The end of the input; `last` is the last line.
    pub fn end(mut self, shows: &str, last: &str) -> Schedule {
        self.expected += &format!("{last}\n");
        Schedule {
            shows: shows.into(),
            text: self.text.into(),
            expected: Some(self.expected),
        }
    }
}
