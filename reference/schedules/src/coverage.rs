//! What a schedule reaches: every answer of both ends, every refusal and
//! every way in which the events can end.

use model::group::{Event, Group, Outcome};
use model::limits::PAYLOAD;
use model::member::Member;
use model::packet::{self, Header};
use model::play::{self, PACKETS};
use model::sequencer::Sequencer;
use model::{Answer, Refusal};
use std::collections::BTreeMap;

/// Everything that `play` can reach. Questions 1 to 7, 9 to 12, 16 and 25
/// never answer no here: the group's states are sound, its packets are of its
/// own making, and 200 of them use up no numbers.
pub const REACHABLE: [&str; 109] = [
    "opening: missing",
    "opening: bad line",
    "opening: refused 18, n below 1",
    "opening: refused 18, n above 16",
    "opening: refused 24",
    "opening: r 0, written",
    "opening: r 1 to n-2",
    "opening: r n-1",
    "opening: n 1",
    "opening: n 16",
    "end: with a line feed",
    "end: without a line feed",
    "end: no space",
    "end: bad line",
    "end: bad line, 200 packets",
    "end: 200 packets",
    "submit: sent",
    "submit: sent, payload of 0",
    "submit: sent, payload of the most bytes",
    "submit: sent, a row held",
    "submit: queued",
    "submit: queued, payload of 0",
    "submit: queued, payload of the most bytes",
    "submit: queued, the fifth",
    "submit: refused 13",
    "submit: refused 13, one waiting",
    "submit: refused 14",
    "submit: absent",
    "submit: absent, payload over the most",
    "repeat: sent",
    "repeat: sent, a row held",
    "repeat: sent, one that was queued",
    "repeat: refused 15",
    "repeat: absent",
    "take: took, more",
    "take: took, last",
    "take: took its own",
    "take: took its own, the next is first",
    "take: took an empty payload",
    "take: took what was purged",
    "take: none, nothing held",
    "take: none, a number above held",
    "take: none, offered",
    "take: took, last, the next offered",
    "take: absent",
    "status: sent",
    "status: sent, a row held",
    "status: sent, a row held and more behind a hole",
    "status: sent, more held in a row than is accepted",
    "status: absent",
    "poll: sent",
    "copy: sent",
    "copy: sent, an offer",
    "copy: refused 17, at floor or below",
    "copy: refused 17, above top",
    "request: numbered",
    "request: numbered in a place it freed",
    "request: numbered, an offer",
    "request: again",
    "request: again, an offer",
    "request: old, below the last count, kept",
    "request: old, below the last count, purged",
    "request: old, the last count, purged",
    "request: old, its message purged and not yet taken",
    "request: full",
    "gap: wanted from B",
    "gap: wanted from above floor",
    "gap: noted",
    "status packet: noted, floor grows",
    "status packet: noted, floor stays",
    "status packet: noted, late",
    "confirm: accepted",
    "confirm: accepted, with one before it",
    "confirm: accepted, below its own number",
    "confirm: marked",
    "confirm: marked, a second time",
    "confirm: old",
    "sequencer: refused 8",
    "sequencer: absent packet",
    "broadcast: kept",
    "broadcast: kept, the row jumps",
    "broadcast: keptgap",
    "broadcast: keptgap, a row held",
    "broadcast: old, taken",
    "broadcast: old, held",
    "broadcast: beyond",
    "broadcast: beyondgap",
    "broadcast: old, it accepts what was offered",
    "broadcast: keptgap, it accepts what was offered",
    "offer: kept, answered",
    "offer: kept, not expected",
    "offer: keptgap",
    "offer: old, answered, taken",
    "offer: old, answered, held",
    "offer: old, behind a hole",
    "offer: old, not expected",
    "offer: beyond",
    "offer: beyondgap",
    "accept packet: noted, all held",
    "accept packet: noted, before its message",
    "accept packet: noted, late",
    "poll packet: gap",
    "poll packet: gap, a row held",
    "poll packet: status",
    "poll packet: status, a row held",
    "member: refused 8",
    "member: absent packet",
    "member: absent member",
    "member: absent packet and member",
];

/// How often each thing was reached.
pub type Counts = BTreeMap<&'static str, u64>;

/// Counts what a schedule reaches.
pub fn count(text: &[u8], counts: &mut Counts) {
    let mut reached = |what: &'static str| *counts.entry(what).or_default() += 1;
    let mut lines = text.split_inclusive(|&byte| byte == b'\n');
    let Some(first) = lines.next() else {
        return reached("opening: missing");
    };
    let Some((n, group, resilience)) = play::opening(bare(first)) else {
        return reached("opening: bad line");
    };
    let mut group = match Group::resilient(n, group, resilience) {
        Ok(group) => group,
        Err(Refusal::Resilience) => return reached("opening: refused 24"),
        Err(_) if n < 1 => return reached("opening: refused 18, n below 1"),
        Err(_) => return reached("opening: refused 18, n above 16"),
    };
    match resilience {
        0 if first.iter().filter(|&&byte| byte == b' ').count() == 3 => {
            reached("opening: r 0, written");
        }
        0 => (),
        _ if resilience < n - 1 => reached("opening: r 1 to n-2"),
        _ => reached("opening: r n-1"),
    }
    match n {
        1 => reached("opening: n 1"),
        16 => reached("opening: n 16"),
        _ => (),
    }
    for line in lines {
        let full = group.packets.len() >= PACKETS;
        let Some(event) = play::event(bare(line)) else {
            return reached(if full {
                "end: bad line, 200 packets"
            } else {
                "end: bad line"
            });
        };
        if full {
            return reached("end: no space");
        }
        let before = group.clone();
        let outcome = group.step(&event);
        each(&before, &event, outcome.as_ref(), &group, &mut reached);
    }
    if group.packets.len() >= PACKETS {
        reached("end: 200 packets");
    }
    reached(if text.ends_with(b"\n") {
        "end: with a line feed"
    } else {
        "end: without a line feed"
    });
}

fn bare(line: &[u8]) -> &[u8] {
    line.strip_suffix(b"\n").unwrap_or(line)
}

fn each(
    before: &Group,
    event: &Event,
    outcome: Option<&Outcome>,
    after: &Group,
    reached: &mut impl FnMut(&'static str),
) {
    let answer = outcome.map(|outcome| outcome.answer);
    let question = match answer {
        Some(Answer::Refused(refusal)) => refusal.number(),
        _ => 0,
    };
    match *event {
        Event::Submit {
            member,
            ref payload,
        } => match (answer, question) {
            (None, _) => {
                reached("submit: absent");
                if payload.len() > PAYLOAD {
                    reached("submit: absent, payload over the most");
                }
            }
            (_, 13) => reached(if before.members[member].waiting > 0 {
                "submit: refused 13, one waiting"
            } else {
                "submit: refused 13"
            }),
            (_, 14) => reached("submit: refused 14"),
            (Some(Answer::Queued(_)), _) => {
                reached("submit: queued");
                if after.members[member].waiting == 5 {
                    reached("submit: queued, the fifth");
                }
                match payload.len() {
                    0 => reached("submit: queued, payload of 0"),
                    PAYLOAD => reached("submit: queued, payload of the most bytes"),
                    _ => (),
                }
            }
            _ => {
                reached("submit: sent");
                if has_row(&before.members[member]) {
                    reached("submit: sent, a row held");
                }
                match payload.len() {
                    0 => reached("submit: sent, payload of 0"),
                    PAYLOAD => reached("submit: sent, payload of the most bytes"),
                    _ => (),
                }
            }
        },
        Event::Repeat { member } => match (answer, question) {
            (None, _) => reached("repeat: absent"),
            (_, 15) => reached("repeat: refused 15"),
            _ => {
                reached("repeat: sent");
                let state = &before.members[member];
                if first_count(state) == before.sequencer.counts[member] + 1
                    && !requested(before, member)
                {
                    reached("repeat: sent, one that was queued");
                }
                if has_row(state) {
                    reached("repeat: sent, a row held");
                }
            }
        },
        Event::Take { member } => match answer {
            None => reached("take: absent"),
            Some(Answer::Took { more, .. }) => {
                reached(if more {
                    "take: took, more"
                } else {
                    "take: took, last"
                });
                let waiting = after.members[member].waiting;
                if before.members[member].waiting > waiting {
                    reached("take: took its own");
                    if waiting > 0 {
                        reached("take: took its own, the next is first");
                    }
                }
                if after.members[member].taken <= before.sequencer.floor {
                    reached("take: took what was purged");
                }
                if !more && offered(&after.members[member]) {
                    reached("take: took, last, the next offered");
                }
                if outcome.is_some_and(|outcome| outcome.payload.is_empty()) {
                    reached("take: took an empty payload");
                }
            }
            _ => reached(match &before.members[member] {
                state if state.held == 0 => "take: none, nothing held",
                state if offered(state) => "take: none, offered",
                _ => "take: none, a number above held",
            }),
        },
        Event::Status { member } => match answer {
            None => reached("status: absent"),
            _ => {
                reached("status: sent");
                let state = &before.members[member];
                if has_row(state) {
                    reached("status: sent, a row held");
                    if state.held.count_ones() > state.reach() - state.taken {
                        reached("status: sent, a row held and more behind a hole");
                    }
                }
                if state.reach() > state.row_end() {
                    reached("status: sent, more held in a row than is accepted");
                }
            }
        },
        Event::Poll => reached("poll: sent"),
        Event::Copy { number } => reached(match question {
            17 if number <= before.sequencer.floor => "copy: refused 17, at floor or below",
            17 => "copy: refused 17, above top",
            _ if number > before.sequencer.accepted => "copy: sent, an offer",
            _ => "copy: sent",
        }),
        Event::ToSequencer { packet } => match before.packets.get(packet) {
            None => reached("sequencer: absent packet"),
            Some(_) if question == 8 => reached("sequencer: refused 8"),
            Some(bytes) => at_sequencer(before, bytes, answer, after, reached),
        },
        Event::ToMember { packet, member } => {
            let (packet, state) = (before.packets.get(packet), before.members.get(member));
            match (packet, state) {
                (None, None) => reached("member: absent packet and member"),
                (None, _) => reached("member: absent packet"),
                (_, None) => reached("member: absent member"),
                (Some(bytes), Some(state)) => {
                    let new = &after.members[member];
                    if bytes[0] == packet::OFFER {
                        return reached(offer(bytes, new, outcome));
                    }
                    reached(at_member(bytes, state, answer));
                    let end = new.row_end();
                    let frees = offered(state) && !offered(new);
                    match answer {
                        Some(Answer::Old) if frees => {
                            reached("broadcast: old, it accepts what was offered");
                        }
                        Some(Answer::KeptGap) if frees => {
                            reached("broadcast: keptgap, it accepts what was offered");
                        }
                        Some(Answer::Kept) if end > state.row_end() + 1 => {
                            reached("broadcast: kept, the row jumps");
                        }
                        Some(Answer::KeptGap) if has_row(state) => {
                            reached("broadcast: keptgap, a row held");
                        }
                        Some(Answer::Gap) if has_row(state) => {
                            reached("poll packet: gap, a row held");
                        }
                        Some(Answer::Status) if has_row(state) => {
                            reached("poll packet: status, a row held");
                        }
                        _ => (),
                    }
                }
            }
        }
    }
}

/// The count of the first message that waits.
fn first_count(member: &Member) -> u32 {
    member.submitted - u32::from(member.waiting) + 1
}

/// Whether a packet requests the first message that waits.
fn requested(group: &Group, member: usize) -> bool {
    let count = first_count(&group.members[member]);
    group.packets.iter().any(|bytes| {
        let header = packet::read(bytes).expect("a packet of the group");
        header.kind == packet::REQUEST && usize::from(header.member) == member && header.b == count
    })
}

/// Whether a member holds the next number, which it may not take yet.
fn offered(member: &Member) -> bool {
    member.reach() > member.taken && member.row_end() == member.taken
}

/// Whether a member holds what it could take.
fn has_row(member: &Member) -> bool {
    member.row_end() > member.taken
}

fn at_sequencer(
    before: &Group,
    bytes: &[u8],
    answer: Option<Answer>,
    after: &Group,
    reached: &mut impl FnMut(&'static str),
) {
    let header = packet::read(bytes).expect("a packet of the group");
    let member = usize::from(header.member);
    let (old, new) = (&before.sequencer, &after.sequencer);
    let is_full = old.top - old.floor == 32;
    let state = &before.members[member];
    if header.kind == packet::CONFIRM {
        return reached(confirm(header, old, answer, new));
    }
    if matches!(answer, Some(Answer::Old)) && state.waiting > 0 && header.b == first_count(state) {
        reached("request: old, its message purged and not yet taken");
    }
    reached(match (header.kind, answer) {
        (packet::REQUEST, Some(Answer::Numbered(_))) if is_full => {
            "request: numbered in a place it freed"
        }
        (packet::REQUEST, Some(Answer::Numbered(number))) if number > new.accepted => {
            "request: numbered, an offer"
        }
        (packet::REQUEST, Some(Answer::Numbered(_))) => "request: numbered",
        (packet::REQUEST, Some(Answer::Again(number))) if number > new.accepted => {
            "request: again, an offer"
        }
        (packet::REQUEST, Some(Answer::Again(_))) => "request: again",
        (packet::REQUEST, Some(Answer::Full)) => "request: full",
        (packet::REQUEST, _) if header.b == new.counts[member] => {
            "request: old, the last count, purged"
        }
        (packet::REQUEST, _) => {
            let is_kept = new
                .history
                .iter()
                .any(|place| place.originator == header.member && place.count == header.b);
            if is_kept {
                "request: old, below the last count, kept"
            } else {
                "request: old, below the last count, purged"
            }
        }
        (packet::GAP, Some(Answer::Wanted(first, _))) if first == header.b => "gap: wanted from B",
        (packet::GAP, Some(Answer::Wanted(..))) => "gap: wanted from above floor",
        (packet::GAP, _) => "gap: noted",
        _ if header.a < old.acknowledged[member] => "status packet: noted, late",
        _ if new.floor > old.floor => "status packet: noted, floor grows",
        _ => "status packet: noted, floor stays",
    });
}

fn confirm(
    header: Header,
    old: &Sequencer,
    answer: Option<Answer>,
    new: &Sequencer,
) -> &'static str {
    match answer {
        Some(Answer::Accepted) if new.accepted < header.a => {
            "confirm: accepted, below its own number"
        }
        Some(Answer::Accepted) if new.accepted > old.accepted + 1 => {
            "confirm: accepted, with one before it"
        }
        Some(Answer::Accepted) => "confirm: accepted",
        Some(Answer::Marked) if new.marks == old.marks => "confirm: marked, a second time",
        Some(Answer::Marked) => "confirm: marked",
        _ => "confirm: old",
    }
}

/// An offer; it leaves the member so.
fn offer(bytes: &[u8], member: &Member, outcome: Option<&Outcome>) -> &'static str {
    let header = packet::read(bytes).expect("a packet of the group");
    let answered = outcome.is_some_and(|outcome| outcome.packet.is_some());
    let expected = (1..=member.resilience).contains(&member.number);
    match outcome.map(|outcome| outcome.answer) {
        Some(Answer::Kept) if answered => "offer: kept, answered",
        Some(Answer::Kept) => "offer: kept, not expected",
        Some(Answer::KeptGap) => "offer: keptgap",
        Some(Answer::Old) if answered && header.a <= member.taken => "offer: old, answered, taken",
        Some(Answer::Old) if answered => "offer: old, answered, held",
        Some(Answer::Old) if expected => "offer: old, behind a hole",
        Some(Answer::Old) => "offer: old, not expected",
        Some(Answer::Beyond) => "offer: beyond",
        _ => "offer: beyondgap",
    }
}

fn at_member(bytes: &[u8], member: &Member, answer: Option<Answer>) -> &'static str {
    let header = packet::read(bytes).expect("a packet of the group");
    match answer {
        Some(Answer::Noted) if header.a <= member.accepted => "accept packet: noted, late",
        Some(Answer::Noted) if header.a > member.reach() => {
            "accept packet: noted, before its message"
        }
        Some(Answer::Noted) => "accept packet: noted, all held",
        Some(Answer::Kept) => "broadcast: kept",
        Some(Answer::KeptGap) => "broadcast: keptgap",
        Some(Answer::Old) if header.a <= member.taken => "broadcast: old, taken",
        Some(Answer::Old) => "broadcast: old, held",
        Some(Answer::Beyond) => "broadcast: beyond",
        Some(Answer::BeyondGap) => "broadcast: beyondgap",
        Some(Answer::Gap) => "poll packet: gap",
        Some(Answer::Status) => "poll packet: status",
        _ => "member: refused 8",
    }
}
