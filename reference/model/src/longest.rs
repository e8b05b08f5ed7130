//! The longest closing round, and a list of events that leads to it.

use crate::group::Event;
use crate::limits::{HISTORY, WINDOW};

/// How many events a closing round of n members takes at most.
pub fn longest_closing(n: usize) -> usize {
    109 * n - 104
}

/// A list of events for n members, 1 to 16, after which a closing round takes
/// that many: the history is full (but for n = 1), its last n messages
/// reached nobody, and every member but 0 holds eight and took none.
pub fn slowest(n: usize) -> Vec<Event> {
    let mut list = List::default();
    let broadcasts: Vec<usize> = (0..WINDOW).map(|_| list.round()).collect();
    for member in 1..n {
        for &packet in &broadcasts {
            list.events.push(Event::ToMember { packet, member });
        }
        list.acknowledge(member);
    }
    list.acknowledge(0);
    for _ in n..HISTORY {
        list.round();
    }
    for member in 0..n {
        list.number(member);
    }
    list.events
}

/// Events, and how many packets they write.
#[derive(Default)]
struct List {
    events: Vec<Event>,
    packets: usize,
}

impl List {
    /// A call that writes a packet, which is handed to the sequencer.
    fn hand(&mut self, event: Event) {
        let packet = self.packets;
        self.events.extend([event, Event::ToSequencer { packet }]);
        self.packets += 1;
    }

    /// A member submits, and its message is numbered; the broadcast's index.
    fn number(&mut self, member: usize) -> usize {
        let payload = Vec::new();
        self.hand(Event::Submit { member, payload });
        self.packets += 1;
        self.packets - 1
    }

    /// Member 0's message is numbered, and it gets and takes it; the
    /// broadcast's index.
    fn round(&mut self) -> usize {
        let member = 0;
        let packet = self.number(member);
        self.events
            .extend([Event::ToMember { packet, member }, Event::Take { member }]);
        packet
    }

    /// A member's status reaches the sequencer.
    fn acknowledge(&mut self, member: usize) {
        self.hand(Event::Status { member });
    }
}
