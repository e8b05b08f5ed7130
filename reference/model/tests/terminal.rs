//! A terminal's calls: what its member keeps, inviting, making, kinds 9 to 11,
//! and the questions before each of them.

mod common;

use common::*;
use model::Answer::{self, *};
use model::limits::{PACKET, PAYLOAD};
use model::member::Member;
use model::place::{Payload, Place};
use model::sequencer::Sequencer;
use model::terminal::{Kept, Reset, Terminal};

fn fresh(n: u32, number: u32, r: u32) -> Terminal {
    Terminal::fresh(n, number, GROUP, r).unwrap()
}

fn invitation(member: u8, attempt: u32) -> Vec<u8> {
    packet(9, member, [attempt, 0, 0], b"")
}

fn reply(member: u8, attempt: u32, number: u32) -> Vec<u8> {
    packet(10, member, [attempt, number, 0], b"")
}

fn result(member: u8, attempt: u32, elected: u32, number: u32, survivors: u16) -> Vec<u8> {
    let fields = [attempt, elected, number];
    packet(11, member, fields, &survivors.to_be_bytes())
}

/// The same packet under another group number.
fn under(group: u32, mut packet: Vec<u8>) -> Vec<u8> {
    packet[4..8].copy_from_slice(&group.to_be_bytes());
    packet
}

fn tell(state: &mut Terminal, packet: &[u8]) -> (Answer, Vec<u8>) {
    accepted(state, |s, out| s.receive(packet, out))
}

fn tell_refused(state: &Terminal, packet: &[u8]) -> u8 {
    refused(state, |s, out| s.receive(packet, out))
}

fn invite(state: &mut Terminal, number: u32) -> (Answer, Vec<u8>) {
    accepted(state, |s, out| s.invite(number, out))
}

fn make(state: &mut Terminal, demand: u32) -> (Answer, Vec<u8>) {
    accepted(state, |s, out| s.make(demand, out))
}

fn make_refused(state: &Terminal, demand: u32) -> u8 {
    refused(state, |s, out| s.make(demand, out))
}

fn order(state: &mut Terminal, packet: &[u8]) -> (Answer, Vec<u8>) {
    accepted(state, |s, out| s.order(packet, out).unwrap())
}

fn order_refused(state: &Terminal, packet: &[u8]) -> u8 {
    refused(state, |s, out| s.order(packet, out).unwrap())
}

fn taken(state: &mut Terminal) -> (Answer, Vec<u8>) {
    accepted(state, |s, out| s.take(out))
}

/// A message of the order: originator, count and payload of number s.
fn message(number: u32) -> (u8, u32, Vec<u8>) {
    let (originator, count) = ((number - 1) % 3, (number - 1) / 3 + 1);
    (originator as u8, count, number.to_be_bytes().to_vec())
}

fn place(number: u32) -> Place {
    let (originator, count, bytes) = message(number);
    let mut payload = Payload::EMPTY;
    payload.length = bytes.len() as u8;
    payload.bytes[..bytes.len()].copy_from_slice(&bytes);
    Place {
        originator,
        count,
        payload,
    }
}

fn numbered(number: u32, floor: u32) -> Vec<u8> {
    let (originator, count, payload) = message(number);
    broadcast(originator, number, count, floor, &payload)
}

/// Terminal `number` of three, which took the numbers up to `taken` and holds
/// those up to `reach`; it read no floor.
fn member(number: u32, taken_up_to: u32, reach: u32) -> Terminal {
    let mut state = fresh(3, number, 0);
    for number in 1..=reach {
        assert_eq!(tell(&mut state, &numbered(number, 0)).0, Kept);
        if number <= taken_up_to {
            assert!(matches!(taken(&mut state).0, Took { .. }));
        }
    }
    assert_eq!(
        (state.member.taken, state.member.reach()),
        (taken_up_to, reach)
    );
    assert!(state.is_sound());
    state
}

/// Terminal 0 of three, with a sequencer that numbered up to `top`.
fn sequencing(top: u32) -> Terminal {
    let mut state = fresh(3, 0, 0);
    for number in 1..=top {
        let (originator, count, payload) = message(number);
        let asked = request(originator, 0, count, &payload);
        assert_eq!(order(&mut state, &asked).0, Numbered(number));
    }
    state
}

#[test]
fn opening() {
    for n in 1..=16 {
        for number in 0..n {
            for r in 0..n {
                let state = Terminal::fresh(n, number, 9, r).unwrap();
                assert!(state.is_sound());
                assert_eq!(state.member, Member::resilient(n, number, 9, r).unwrap());
                assert_eq!((state.kept, state.reset), (Kept::NOTHING, Reset::NONE));
                assert_eq!((state.sequencing, state.frozen), (number == 0, false));
                let sequencer = Sequencer::resilient(n, 9, r).unwrap();
                let absent = Sequencer::ABSENT;
                assert_eq!(
                    state.sequencer,
                    if number == 0 { sequencer } else { absent }
                );
                let everybody = (1u32 << n) - 1;
                assert_eq!(u32::from(state.member.survivors), everybody);
                assert_eq!(state.member.elected, 0);
            }
        }
        assert_eq!(Terminal::fresh(n, n, 9, 0).unwrap_err().number(), 18);
        assert_eq!(Terminal::fresh(n, 0, 9, n).unwrap_err().number(), 24);
    }
    assert_eq!(Terminal::fresh(0, 0, 9, 0).unwrap_err().number(), 18);
    assert_eq!(Terminal::fresh(17, 0, 9, 0).unwrap_err().number(), 18);
}

#[test]
fn a_take_is_kept() {
    let mut state = member(1, 0, 0);
    for number in 1..=70 {
        tell(&mut state, &numbered(number, number - 1));
        let mut expected = state.clone();
        let (originator, count, payload) = message(number);
        expected.member.taken = number;
        expected.member.held = 0;
        expected.member.places = [Place::EMPTY; 8];
        expected.kept.past[number as usize % 32] = place(number);
        expected.kept.counts[usize::from(originator)] = count;
        let took = Took {
            number,
            originator,
            count,
            more: false,
        };
        assert_eq!(taken(&mut state), (took, payload));
        assert_eq!(state, expected);
        assert!(state.is_sound());
    }
    // The last 32: 39 to 70.
    for number in 39..=70 {
        assert_eq!(*state.message(number), place(number));
    }
    assert_eq!(taken(&mut state), (None, vec![]));
    // A count that does not rise leaves the highest.
    tell(&mut state, &broadcast(1, 71, 2, 0, b""));
    taken(&mut state);
    assert_eq!(state.kept.counts[..4], [24, 23, 23, 0]);
}

#[test]
fn the_highest_floor_read() {
    let mut state = member(1, 3, 5);
    let read = |state: &Terminal| state.kept.read;
    assert_eq!(read(&state), 0);
    // Whatever the answer: Kept, KeptGap, Old, Beyond; polls and offers too.
    for (packet, answer, floor) in [
        (numbered(6, 1), Kept, 1),
        (numbered(8, 2), KeptGap, 2),
        (numbered(8, 3), Old, 3),
        (numbered(2, 1), Old, 3),
        (numbered(30, 4), BeyondGap, 4),
        (poll(6, 5), Status, 5),
        (poll(5, 2), Status, 5),
        (poll(40, 6), Gap, 6),
        (offer(1, 40, 3, 20, b""), BeyondGap, 20),
        (offer(1, 7, 3, 6, b""), Kept, 20),
        (poll(MAX, MAX), Gap, MAX),
        (accept(9), Noted, MAX),
    ] {
        assert_eq!(tell(&mut state, &packet).0, answer);
        assert_eq!(read(&state), floor);
        assert!(state.is_sound());
    }
    // Not of a packet that is refused, nor by the other fields.
    let mut state = member(1, 3, 5);
    for packet in [
        under(8, numbered(6, 1)),
        under(8, poll(6, 5)),
        packet(5, 1, [6, 0, 5], b""),
        packet(2, 3, [6, 1, 5], b""),
        gap(1, 1, 2, 5),
    ] {
        tell_refused(&state, &packet);
        assert_eq!(read(&state), 0);
    }
    tell(&mut state, &accept(9));
    assert_eq!(read(&state), 0);
}

/// The floor is the highest read, but at least reach - 32 and at most reach.
#[test]
fn floors() {
    for (t, reach) in [
        (0, 0),
        (0, 3),
        (5, 5),
        (30, 32),
        (40, 41),
        (40, 48),
        (64, 64),
    ] {
        let mut state = member(1, t, reach);
        let least: u32 = reach.saturating_sub(32);
        for read in [0, 1, least, least + 1, reach, reach + 1, MAX] {
            state.kept.read = read;
            let floor = if read < least {
                least
            } else if read > reach {
                reach
            } else {
                read
            };
            assert_eq!(state.floor(), floor);
            // The elected one's sequencer begins with all above it.
            let mut elected = state.clone();
            invite(&mut elected, 9);
            make(&mut elected, 0);
            let sequencer = &elected.sequencer;
            assert!(elected.is_sound() && sequencer.is_sound());
            assert_eq!((sequencer.floor, sequencer.top), (floor, reach));
            for number in floor + 1..=reach {
                assert_eq!(sequencer.history[number as usize % 32], place(number));
            }
            let kept = sequencer.history.iter().filter(|place| place.count > 0);
            assert_eq!(kept.count() as u32, reach - floor);
            let counts = |i: u32| {
                (1..=reach)
                    .rev()
                    .find(|s| (s - 1) % 3 == i)
                    .map_or(0, |s| message(s).1)
            };
            assert_eq!(sequencer.counts[..4], [counts(0), counts(1), counts(2), 0]);
        }
    }
}

#[test]
fn inviting() {
    // A member replies with its reach, offered messages included.
    let mut state = member(1, 2, 4);
    tell(&mut state, &offer(2, 5, 9, 0, b""));
    tell(&mut state, &offer(2, 7, 10, 0, b""));
    let mut expected = state.clone();
    expected.reset = Reset {
        replied: true,
        attempt: 9,
        number: 5,
        inviting: true,
        invited: 9,
        repliers: 2,
        replies: [0, 5, 0, 0, 0, 0, 0, 0, 0, 0, 0, 0, 0, 0, 0, 0],
    };
    assert_eq!(invite(&mut state, 9), (Sent, invitation(1, 9)));
    assert_eq!(state, expected);
    assert!(state.is_sound());
    // Again, with any number: replies to the first are gone.
    tell(&mut state, &reply(2, 9, 8));
    assert_eq!(state.reset.repliers, 6);
    for number in [0, 7, 9, MAX] {
        assert_eq!(invite(&mut state, number), (Sent, invitation(1, number)));
        (expected.reset.attempt, expected.reset.invited) = (number, number);
        assert_eq!(state, expected);
    }
    // The group's sequencer replies with top, and is frozen.
    let mut state = sequencing(3);
    let mut expected = state.clone();
    expected.frozen = true;
    expected.reset = Reset {
        replied: true,
        attempt: 9,
        number: 3,
        inviting: true,
        invited: 9,
        repliers: 1,
        replies: [3, 0, 0, 0, 0, 0, 0, 0, 0, 0, 0, 0, 0, 0, 0, 0],
    };
    assert_eq!(invite(&mut state, 9), (Sent, invitation(0, 9)));
    assert_eq!(state, expected);
    assert!(state.is_sound());
}

#[test]
fn replying() {
    let mut state = member(1, 2, 4);
    let mut expected = state.clone();
    (expected.reset.replied, expected.reset.attempt) = (true, 9);
    expected.reset.number = 4;
    let answer = (Noted, reply(1, 9, 4));
    assert_eq!(tell(&mut state, &invitation(2, 9)), answer);
    assert_eq!(state, expected);
    // Again, and a newer one, also with the same number by another.
    assert_eq!(tell(&mut state, &invitation(2, 9)), answer);
    assert_eq!(tell(&mut state, &invitation(0, 9)), answer);
    assert_eq!(state, expected);
    assert_eq!(tell(&mut state, &invitation(2, 3)), (Noted, reply(1, 3, 4)));
    expected.reset.attempt = 3;
    assert_eq!(state, expected);
    // A take leaves the number: what is taken is had.
    taken(&mut state);
    assert!(state.is_sound());
    assert_eq!(tell(&mut state, &invitation(2, 3)), (Noted, reply(1, 3, 4)));
    // Its own invitation is closed by another's, not by itself.
    invite(&mut state, 5);
    tell(&mut state, &reply(0, 5, 2));
    let open = state.clone();
    assert_eq!(tell(&mut state, &invitation(1, 5)), (Noted, reply(1, 5, 4)));
    assert_eq!(state, open);
    let mut other = open.clone();
    assert_eq!(tell(&mut other, &invitation(1, 6)), (Noted, reply(1, 6, 4)));
    assert!(other.is_sound());
    assert_eq!((other.reset.attempt, other.reset.invited), (6, 5));
    assert_eq!(other.reset.repliers, 3);
    tell(&mut state, &invitation(0, 5));
    expected.member = state.member.clone();
    expected.kept = state.kept.clone();
    expected.reset.attempt = 5;
    assert_eq!(state, expected);
    assert_eq!(make_refused(&state, 0), 27);
    assert_eq!(tell_refused(&state, &reply(2, 5, 4)), 27);
    // A sequencer's terminal replies with top.
    let mut state = sequencing(6);
    for number in 1..=2 {
        tell(&mut state, &numbered(number, 0));
    }
    assert_eq!(tell(&mut state, &invitation(2, 9)), (Noted, reply(0, 9, 6)));
    assert!(state.frozen && state.is_sound());
}

/// With a reply open the old group's packets are refused with 7 at both ends,
/// and all calls go on under the old number.
#[test]
fn shut_ends() {
    let mut state = sequencing(3);
    tell(&mut state, &numbered(1, 0));
    tell(&mut state, &invitation(2, 9));
    let shut = state.clone();
    for packet in [
        request(1, 0, 2, b""),
        numbered(2, 0),
        gap(1, 0, 1, 2),
        status(1, 0),
        poll(3, 0),
        offer(0, 4, 1, 0, b""),
        confirm(1, 1),
        accept(1),
    ] {
        assert_eq!(tell_refused(&state, &packet), 7);
        assert_eq!(order_refused(&state, &packet), 7);
        assert_eq!(order_refused(&state, &under(9, packet)), 7);
    }
    // Byte 1 comes before, the end and the member behind.
    for kind in [5, 8] {
        let faulty = packet(kind, 1, [3, 0, 0], b"");
        assert_eq!(tell_refused(&state, &faulty), 6);
        assert_eq!(order_refused(&state, &faulty), 6);
    }
    assert_eq!(tell_refused(&state, &broadcast(99, 2, 1, 0, b"")), 7);
    assert_eq!(order_refused(&state, &status(99, 0)), 7);
    // Kinds 9 to 11 are not for a sequencer.
    for packet in [invitation(1, 9), reply(1, 9, 1), result(1, 9, 1, 3, 7)] {
        assert_eq!(order_refused(&state, &packet), 8);
        assert_eq!(order_refused(&state, &under(9, packet)), 7);
    }
    let poll_of = |s: &mut Terminal, out: &mut [u8]| s.poll(out).unwrap();
    assert_eq!(accepted(&mut state, poll_of), (Sent, poll(3, 0)));
    let copy = accepted(&mut state, |s, out| s.copy(2, out).unwrap());
    assert_eq!(copy, (Sent, numbered(2, 0)));
    assert_eq!(refused(&state, |s, out| s.copy(4, out).unwrap()), 17);
    let asked = accepted(&mut state, |s, out| s.submit(b"x", out));
    assert_eq!(asked, (Sent, request(0, 1, 1, b"x")));
    assert_eq!(accepted(&mut state, |s, out| s.repeat(out)), asked);
    let told = accepted(&mut state, |s, out| s.status(out));
    assert_eq!(told, (Sent, status(0, 1)));
    assert!(matches!(taken(&mut state).0, Took { number: 1, .. }));
    assert!(state.is_sound());
    assert_eq!(state.reset, shut.reset);
    // A terminal without a sequencer has none of its calls.
    let mut state = member(1, 0, 0);
    let mut out = [BLANK; PACKET];
    assert_eq!(state.poll(&mut out), Option::None);
    assert_eq!(state.copy(1, &mut out), Option::None);
    assert_eq!(state.order(&status(0, 0), &mut out), Option::None);
}

/// Each one's first reply counts, and itself.
#[test]
fn noting_replies() {
    let mut state = member(1, 2, 4);
    invite(&mut state, 9);
    let mut expected = state.clone();
    assert_eq!(tell(&mut state, &reply(2, 9, 7)), (Noted, vec![]));
    expected.reset.repliers = 6;
    expected.reset.replies[2] = 7;
    assert_eq!(state, expected);
    for packet in [
        reply(2, 9, 7),
        reply(2, 9, 8),
        reply(2, 9, 0),
        reply(1, 9, MAX),
    ] {
        assert_eq!(tell(&mut state, &packet), (Noted, vec![]));
        assert_eq!(state, expected);
    }
    assert_eq!(tell(&mut state, &reply(0, 9, 0)), (Noted, vec![]));
    expected.reset.repliers = 7;
    assert_eq!(state, expected);
    assert!(state.is_sound());
    assert_eq!(tell(&mut state, &reply(0, 9, MAX)), (Noted, vec![]));
    assert_eq!(state, expected);
}

/// The one that makes, a survivor, and the elected one, as sequencer and as
/// member.
#[test]
fn making() {
    let mut maker = member(1, 2, 4);
    tell(&mut maker, &numbered(6, 0));
    invite(&mut maker, 9);
    tell(&mut maker, &reply(2, 9, 7));
    let mut expected = maker.clone();
    expected.member.group = 9;
    (expected.member.survivors, expected.member.elected) = (6, 2);
    expected.member.accepted = 7;
    expected.reset = Reset::NONE;
    let made = result(1, 9, 2, 7, 6);
    assert_eq!(make(&mut maker, 2), (Sent, made.clone()));
    assert_eq!(maker, expected);
    assert!(maker.is_sound());

    // The elected one, with a floor read.
    let mut elected = member(2, 5, 7);
    tell(&mut elected, &poll(7, 3));
    tell(&mut elected, &invitation(1, 9));
    let mut expected = elected.clone();
    expected.member.group = 9;
    (expected.member.survivors, expected.member.elected) = (6, 2);
    expected.reset = Reset::NONE;
    expected.sequencing = true;
    expected.sequencer = Sequencer {
        n: 3,
        group: 9,
        survivors: 6,
        elected: 2,
        top: 7,
        accepted: 7,
        floor: 3,
        ..Sequencer::ABSENT
    };
    expected.sequencer.acknowledged[1..3].copy_from_slice(&[3, 3]);
    expected.sequencer.counts[..3].copy_from_slice(&[3, 2, 2]);
    for number in 4..=7 {
        expected.sequencer.history[number as usize] = place(number);
    }
    assert_eq!(tell(&mut elected, &made), (Noted, vec![]));
    assert_eq!(elected, expected);
    assert!(elected.is_sound());

    // A sequencer becomes the new group's: floor, last counts and history
    // stay, marks and repeats go. Member 2 is lost, and its last count stays.
    let mut state = fresh(3, 0, 2);
    for (member, count) in [(0, 1), (1, 1), (2, 1), (2, 2)] {
        order(&mut state, &request(member, 0, count, b"x"));
    }
    order(&mut state, &confirm(1, 3));
    order(&mut state, &confirm(2, 3));
    order(&mut state, &confirm(1, 4));
    order(&mut state, &request(1, 2, 1, b"x"));
    order(&mut state, &status(0, 1));
    order(&mut state, &status(2, 3));
    let old = state.sequencer.clone();
    assert_eq!((old.floor, old.accepted, old.top), (1, 3, 4));
    assert_eq!((old.marks[4], old.repeats[1]), (2, 1));
    invite(&mut state, 9);
    tell(&mut state, &reply(1, 9, 4));
    assert_eq!(make(&mut state, 1), (Sent, result(0, 9, 0, 4, 3)));
    let expected = Sequencer {
        group: 9,
        survivors: 3,
        accepted: 4,
        acknowledged: [1, 1, 0, 0, 0, 0, 0, 0, 0, 0, 0, 0, 0, 0, 0, 0],
        repeats: [0; 16],
        marks: [0; 32],
        ..old
    };
    assert_eq!(state.sequencer, expected);
    assert_eq!(expected.counts[2], 2);
    assert!(state.sequencing && !state.frozen && state.is_sound());
    assert_eq!((state.member.group, state.member.accepted), (9, 4));
}

/// Another sequencer stays in the old group, and a later reply is the
/// member's.
#[test]
fn another_sequencer_stays() {
    let mut state = sequencing(3);
    for number in 1..=2 {
        tell(&mut state, &numbered(number, 0));
    }
    tell(&mut state, &invitation(1, 9));
    let old = state.sequencer.clone();
    assert_eq!(tell(&mut state, &result(1, 9, 1, 5, 3)), (Noted, vec![]));
    assert_eq!((&state.sequencer, state.frozen), (&old, true));
    assert!(state.sequencing && !state.serves() && state.is_sound());
    assert_eq!((state.member.group, state.member.accepted), (9, 5));
    assert_eq!(order_refused(&state, &status(1, 0)), 7);
    let asked = under(9, invitation(1, 10));
    let answer = under(9, reply(0, 10, 2));
    assert_eq!(tell(&mut state, &asked), (Noted, answer));
    // It is elected as a member then: 1 and 2 are what it has.
    let made = under(9, result(1, 10, 0, 2, 3));
    assert_eq!(tell(&mut state, &made), (Noted, vec![]));
    assert!(!state.frozen && state.serves() && state.is_sound());
    assert_eq!((state.sequencer.top, state.sequencer.floor), (2, 0));
    assert_eq!(state.sequencer.history[2], place(2));
    assert_eq!(state.sequencer.history[3], Place::EMPTY);
}

/// A result drops what is held above its number, and sets what is accepted,
/// also downwards, but not below t.
#[test]
fn entering_a_group() {
    for (number, accepted, held) in [
        (5, 5, vec![4, 5]),
        (7, 7, vec![4, 5, 7]),
        (20, 20, vec![4, 5, 7, 9]),
    ] {
        let mut state = member(1, 3, 5);
        for number in [7, 9] {
            tell(&mut state, &numbered(number, 0));
        }
        tell(&mut state, &invitation(2, 9));
        assert_eq!(state.reset.number, 5);
        assert_eq!(state.member.accepted, 9);
        tell(&mut state, &result(2, 9, 2, number, 6));
        let kept = (4..12).filter(|s| state.member.held >> (s % 8) & 1 == 1);
        assert_eq!(kept.collect::<Vec<u32>>(), held);
        assert_eq!(state.member.accepted, accepted);
        assert!(state.is_sound());
    }
    // A sequencer that numbered less than its member took is sound, though no
    // allowed list leads there; t stays accepted.
    let mut state = fresh(3, 0, 0);
    for number in 1..=5 {
        tell(&mut state, &numbered(number, 0));
        if number <= 3 {
            taken(&mut state);
        }
    }
    invite(&mut state, 9);
    assert_eq!(make(&mut state, 0), (Sent, result(0, 9, 0, 0, 1)));
    assert_eq!((state.member.taken, state.member.accepted), (3, 3));
    assert_eq!((state.member.held, state.sequencer.top), (0, 0));
    assert!(state.is_sound());
    // The last numbers.
    let mut state = fresh(3, 1, 0);
    (state.member.taken, state.member.accepted) = (MAX - 2, MAX - 2);
    for (at, past) in state.kept.past.iter_mut().enumerate() {
        *past = place(1 + at as u32);
        state.kept.counts[usize::from(past.originator)] = past.count;
    }
    for number in [MAX - 1, MAX] {
        tell(&mut state, &broadcast(1, number, number, 0, b"x"));
    }
    let mut other = state.clone();
    assert_eq!(
        tell(&mut other, &invitation(2, 9)),
        (Noted, reply(1, 9, MAX))
    );
    tell(&mut other, &result(2, 9, 2, MAX, 6));
    assert_eq!(other.member.held, 0b1100_0000);
    invite(&mut state, 9);
    tell(&mut state, &reply(2, 9, 0));
    assert_eq!(make(&mut state, 0), (Sent, result(1, 9, 1, MAX, 6)));
    assert_eq!(
        (state.sequencer.top, state.sequencer.floor),
        (MAX, MAX - 32)
    );
    assert_eq!(state.sequencer.counts[1], MAX);
    assert!(state.is_sound() && other.is_sound());
    let next = state.sequencer.counts[2] + 1;
    let asked = under(9, request(2, MAX - 32, next, b""));
    assert_eq!(order_refused(&state, &asked), 16);
}

#[test]
fn every_refusal_of_27() {
    // A making without an open invitation: none, closed by a result (its own
    // or another's), closed by a reply to another's.
    let state = member(1, 2, 4);
    for demand in [0, 1, MAX] {
        assert_eq!(make_refused(&state, demand), 27);
    }
    let mut alone = state.clone();
    invite(&mut alone, 9);
    make(&mut alone, 1);
    assert_eq!(make_refused(&alone, 0), 27);
    let mut other = state.clone();
    invite(&mut other, 9);
    tell(&mut other, &invitation(2, 10));
    assert_eq!(make_refused(&other, 0), 27);
    tell(&mut other, &result(2, 10, 2, 4, 6));
    assert_eq!(make_refused(&other, 0), 27);
    let mut own = state.clone();
    invite(&mut own, 9);
    tell(&mut own, &result(2, 9, 2, 4, 6));
    assert_eq!(make_refused(&own, 0), 27);

    // A reply not to it: no invitation is open, or another number's.
    assert_eq!(tell_refused(&state, &reply(2, 9, 4)), 27);
    assert_eq!(tell_refused(&state, &reply(2, 0, 4)), 27);
    let mut inviting = state.clone();
    invite(&mut inviting, 9);
    for attempt in [0, 7, 8, 10, MAX] {
        assert_eq!(tell_refused(&inviting, &reply(2, attempt, 4)), 27);
    }
    let mut closed = inviting.clone();
    tell(&mut closed, &invitation(2, 9));
    assert_eq!(tell_refused(&closed, &reply(0, 9, 4)), 27);

    // A result not of the last invitation replied to.
    assert_eq!(tell_refused(&state, &result(2, 9, 2, 4, 6)), 27);
    assert_eq!(tell_refused(&state, &result(2, 0, 2, 4, 6)), 27);
    let mut replied = state.clone();
    tell(&mut replied, &invitation(2, 9));
    tell(&mut replied, &invitation(0, 10));
    assert_eq!(tell_refused(&replied, &result(2, 9, 2, 4, 6)), 27);
    assert_eq!(tell_refused(&replied, &result(2, 11, 2, 4, 6)), 27);
    let good = result(0, 10, 2, 4, 7);
    tell(&mut replied.clone(), &good);
    // Leaving the receiver out.
    assert_eq!(tell_refused(&replied, &result(0, 10, 2, 4, 5)), 27);
    // Below its reply.
    for number in [0, 3] {
        assert_eq!(tell_refused(&replied, &result(0, 10, 2, number, 7)), 27);
        assert_eq!(tell_refused(&replied, &result(0, 10, 1, number, 7)), 27);
    }
    // Above it, if it is elected.
    tell(&mut replied.clone(), &result(0, 10, 1, 4, 7));
    for number in [5, MAX] {
        assert_eq!(tell_refused(&replied, &result(0, 10, 1, number, 7)), 27);
        tell(&mut replied.clone(), &result(0, 10, 2, number, 7));
    }
    // Once it has the result, the attempt is over, also under its number.
    tell(&mut replied, &good);
    assert_eq!(tell_refused(&replied, &good), 7);
    assert_eq!(tell_refused(&replied, &under(10, good)), 27);
}

#[test]
fn every_refusal_of_26() {
    let mut state = member(1, 2, 4);
    invite(&mut state, 9);
    for demand in [2, 3, 17, MAX] {
        assert_eq!(make_refused(&state, demand), 26);
    }
    tell(&mut state, &reply(2, 9, 4));
    tell(&mut state, &reply(2, 9, 4));
    for demand in [3, 4, MAX] {
        assert_eq!(make_refused(&state, demand), 26);
    }
    for demand in [0, 1, 2] {
        assert_eq!(make(&mut state.clone(), demand).0, Sent);
    }
    tell(&mut state, &reply(0, 9, 4));
    assert_eq!(make_refused(&state, 4), 26);
    assert_eq!(make(&mut state, 3), (Sent, result(1, 9, 0, 4, 7)));
    // 27 comes before.
    assert_eq!(make_refused(&state, MAX), 27);
}

#[test]
fn packets_go_down_the_questions() {
    // Everything is wrong; each step repairs what was refused.
    let mut state = member(1, 2, 4);
    tell(&mut state, &invitation(2, 9));
    let good = state.clone();
    state.sequencer.top = 1;
    for lent in [0, PACKET - 1] {
        let call = |s: &mut Terminal, out: &mut [u8]| s.receive(&[], out);
        assert_eq!(refused_lent(&state, lent, call), 2);
    }
    let mut bytes = packet(12, 200, [0, 200, 9], &[0; PAYLOAD + 1]);
    bytes[4] = 1;
    assert_eq!(tell_refused(&state, &bytes), 3);
    bytes.truncate(23);
    assert_eq!(tell_refused(&state, &bytes), 4);
    bytes[0] = 11;
    bytes[3] = 3;
    assert_eq!(tell_refused(&state, &bytes), 5);
    bytes.truncate(22);
    assert_eq!(tell_refused(&state, &bytes), 5);
    bytes[3] = 2;
    assert_eq!(tell_refused(&state, &bytes), 6);
    bytes[1] = 3;
    bytes[15] = 3;
    bytes[21] = 8;
    // The whole terminal is asked here.
    assert_eq!(tell_refused(&state, &bytes), 1);
    assert_eq!(tell_refused(&good, &bytes), 7);
    bytes[4] = 0;
    // The sender.
    assert_eq!(tell_refused(&good, &bytes), 9);
    bytes[1] = 2;
    bytes[15] = 2;
    bytes[21] = 12;
    // A survivor that is not named otherwise.
    assert_eq!(tell_refused(&good, &bytes), 9);
    bytes[21] = 4;
    assert_eq!(tell_refused(&good, &bytes), 27);
    bytes[11] = 9;
    assert_eq!(tell_refused(&good, &bytes), 27);
    bytes[21] = 6;
    assert_eq!(tell(&mut good.clone(), &bytes).0, Noted);

    for bytes in [invitation(2, 9), reply(2, 9, 4)] {
        for (at, value, question) in [(19, 1, 6), (4, 1, 7), (1, 3, 9), (1, 255, 9)] {
            let mut faulty = bytes.clone();
            faulty[at] = value;
            assert_eq!(tell_refused(&good, &faulty), question);
            let question = if question == 6 { 6 } else { 1 };
            assert_eq!(tell_refused(&state, &faulty), question);
        }
        // An unsound sequencer does not matter to the member's own packets.
        assert_eq!(tell_refused(&state, &bytes), 1);
    }
    assert_eq!(tell_refused(&state, &numbered(5, 0)), 7);
    assert_eq!(tell_refused(&state, &status(0, 0)), 7);
    let mut state = member(1, 2, 4);
    assert_eq!(tell_refused(&state, &status(0, 0)), 8);
    state.sequencer.top = 1;
    assert_eq!(tell_refused(&state, &status(0, 0)), 8);
    assert_eq!(tell(&mut state, &numbered(5, 0)).0, Kept);
    assert_eq!(taken(&mut state).0, took(3));
    assert_eq!(refused(&state, |s, out| s.invite(9, out)), 1);
    // The ends alone know nothing of kinds 9 to 11.
    let mut state = sequencing(2);
    for packet in [invitation(1, 9), reply(1, 9, 1), result(1, 9, 1, 3, 7)] {
        assert_eq!(give_refused(&state.member, &packet), 8);
        assert_eq!(hand_refused(&state.sequencer, &packet), 8);
        let other = under(9, packet);
        assert_eq!(give_refused(&state.member, &other), 7);
        assert_eq!(hand_refused(&state.sequencer, &other), 7);
    }
    // Inviting and making: 1, 2, then 27.
    let short = |s: &mut Terminal, out: &mut [u8]| s.invite(9, out);
    assert_eq!(refused_lent(&state, PACKET - 1, short), 2);
    let short = |s: &mut Terminal, out: &mut [u8]| s.make(9, out);
    assert_eq!(refused_lent(&state, PACKET - 1, short), 2);
    state.sequencer.top = 40;
    assert_eq!(refused_lent(&state, PACKET - 1, short), 1);
    assert_eq!(make_refused(&state, 0), 1);
}

fn took(number: u32) -> Answer {
    let (originator, count, _) = message(number);
    Took {
        number,
        originator,
        count,
        more: true,
    }
}

type Change = fn(&mut Terminal);

/// Terminal 0 of three, whose sequencer numbered three messages; it took one,
/// holds another, and has invited; 2 replied.
fn busy() -> Terminal {
    let mut state = sequencing(3);
    for number in 1..=2 {
        tell(&mut state, &numbered(number, 0));
    }
    taken(&mut state);
    invite(&mut state, 9);
    tell(&mut state, &reply(2, 9, 1));
    assert!(state.is_sound());
    state
}

/// Clauses of the member's part: all of its calls ask them.
#[test]
fn unsound_members() {
    let changes: &[(&str, Change)] = &[
        ("the member's own", |s| s.member.accepted = 0),
        ("a past originator n", |s| s.kept.past[1].originator = 3),
        ("a past count zero", |s| s.kept.past[1].count = 0),
        ("a past count above the highest", |s| {
            s.kept.past[1].count = 2
        }),
        ("a highest count below", |s| s.kept.counts[0] = 0),
        ("a past length too long", |s| {
            s.kept.past[1].payload.length = PAYLOAD as u8 + 1
        }),
        ("a byte behind the past", |s| {
            s.kept.past[1].payload.bytes[PAYLOAD - 1] = 1
        }),
        ("a past place missing", |s| s.kept.past[1] = Place::EMPTY),
        ("a past place above t", |s| s.kept.past[2] = s.kept.past[1]),
        ("a past place 0", |s| s.kept.past[0] = s.kept.past[1]),
        ("a past place 31", |s| s.kept.past[31].count = 1),
        ("a byte of an unused place", |s| {
            s.kept.past[7].payload.bytes[0] = 1
        }),
        ("a count of member n", |s| s.kept.counts[3] = 1),
        ("a count of member 15", |s| s.kept.counts[15] = 1),
        ("inviting without a reply", |s| {
            s.reset.replied = false;
            (s.reset.attempt, s.reset.number) = (0, 0);
        }),
        ("itself no replier", |s| s.reset.repliers = 4),
        ("its number another's", |s| s.reset.replies[0] = 2),
        ("a replier n", |s| s.reset.repliers |= 8),
        ("a replier 15", |s| s.reset.repliers |= 1 << 15),
        ("a number of no replier", |s| s.reset.replies[1] = 1),
        ("a number of member 15", |s| s.reset.replies[15] = 1),
        ("repliers without an invitation", |s| {
            s.reset.inviting = false;
            s.reset.invited = 0;
        }),
        ("an invited number without an invitation", |s| {
            s.reset = Reset {
                invited: 1,
                ..Reset::NONE
            }
        }),
        ("replies without an invitation", |s| {
            s.reset = Reset::NONE;
            s.reset.replies[2] = 1;
        }),
        ("an attempt without a reply", |s| {
            s.reset = Reset {
                attempt: 1,
                ..Reset::NONE
            }
        }),
        ("a number without a reply", |s| {
            s.reset = Reset {
                number: 1,
                ..Reset::NONE
            }
        }),
    ];
    for (name, change) in changes {
        let mut state = busy();
        change(&mut state);
        assert!(!state.member_is_sound() && !state.is_sound(), "{name}");
        for lent in [0, PACKET] {
            let refusals = [
                refused_lent(&state, lent, |s, out| s.submit(b"x", out)),
                refused_lent(&state, lent, |s, out| s.repeat(out)),
                refused_lent(&state, lent, |s, out| s.status(out)),
                refused_lent(&state, lent, |s, out| s.take(out)),
                refused_lent(&state, lent, |s, out| s.receive(&[], out)),
                refused_lent(&state, lent, |s, out| s.invite(9, out)),
                refused_lent(&state, lent, |s, out| s.make(0, out)),
            ];
            assert_eq!(refusals, [1; 7], "{name}");
        }
        // The sequencer asks itself alone.
        assert_eq!(accepted(&mut state, |s, out| s.poll(out).unwrap()).0, Sent);
    }
}

/// Clauses of the whole terminal: inviting, making and kinds 9 to 11 ask them,
/// the member's other calls do not.
#[test]
fn unsound_terminals() {
    let changes: &[(&str, Change)] = &[
        ("the sequencer's own", |s| s.sequencer.top = 40),
        ("another n", |s| {
            s.sequencer = Sequencer::fresh(4, 9).unwrap();
        }),
        ("a sequencer that is not there", |s| s.sequencing = false),
        ("frozen without a sequencer", |s| {
            (s.sequencing, s.sequencer) = (false, Sequencer::ABSENT);
            (s.reset.number, s.reset.replies[0]) = (2, 2);
        }),
        ("not frozen", |s| s.frozen = false),
        ("a number that is not top", |s| {
            (s.reset.number, s.reset.replies[0]) = (2, 2);
        }),
        ("a number that is not reach", |s| s.sequencer.group = 6),
    ];
    for (name, change) in changes {
        let mut state = busy();
        change(&mut state);
        assert!(state.member_is_sound() && !state.is_sound(), "{name}");
        for lent in [0, PACKET] {
            let call = |s: &mut Terminal, out: &mut [u8]| s.invite(9, out);
            assert_eq!(refused_lent(&state, lent, call), 1, "{name}");
            let call = |s: &mut Terminal, out: &mut [u8]| s.make(0, out);
            assert_eq!(refused_lent(&state, lent, call), 1, "{name}");
        }
        for packet in [invitation(1, 9), reply(1, 9, 1), result(1, 9, 1, 3, 7)] {
            assert_eq!(tell_refused(&state, &packet), 1, "{name}");
        }
        assert_eq!(accepted(&mut state, |s, out| s.status(out)).0, Sent);
        assert!(matches!(taken(&mut state).0, Took { number: 2, .. }));
    }
    // Nothing else is unsound.
    let changes: &[Change] = &[
        |s| s.kept.read = MAX,
        |s| s.kept.counts[..3].copy_from_slice(&[MAX; 3]),
        |s| s.reset.replies[2] = MAX,
        |s| (s.reset.attempt, s.reset.invited) = (0, MAX),
        |s| s.member.survivors = 5,
        |s| (s.member.elected, s.sequencer.elected) = (2, 1),
        |s| {
            // Another group's sequencer may be frozen or not.
            s.sequencer.group = 6;
            (s.reset.number, s.reset.replies[0]) = (2, 2);
            s.frozen = false;
        },
        |s| {
            s.reset = Reset::NONE;
        },
        |s| {
            s.reset = Reset::NONE;
            s.frozen = false;
        },
    ];
    for (at, change) in changes.iter().enumerate() {
        let mut state = busy();
        change(&mut state);
        assert!(state.is_sound(), "{at}");
        assert_eq!(invite(&mut state, 9).0, Sent);
        assert!(state.is_sound(), "{at}");
    }
}

/// The group that was made: byte 1 of a poll and of kind 8 is the elected
/// member, the expected are the lowest others, floor is the survivors', and a
/// lost member's packet is 9.
#[test]
fn the_made_group() {
    let made = |number: u32, r: u32| {
        let mut state = fresh(5, number, r);
        tell(&mut state, &invitation(4, 9));
        // 1 is lost, and 2 is elected.
        tell(&mut state, &result(4, 9, 2, 0, 0b11101));
        state
    };
    let mut sequencer = made(2, 2);
    assert!(sequencer.serves());
    for kind in [1, 3, 4, 7] {
        for (member, verdict) in [(1, 9), (5, 9), (15, 9), (16, 9), (255, 9)] {
            let fields = [[0, 1, 0], [0, 1, 1], [0, 0, 0], [1, 0, 0]];
            let bytes = packet(
                kind,
                member,
                fields[[1, 3, 4, 7].iter().position(|k| *k == kind).unwrap()],
                b"",
            );
            assert_eq!(order_refused(&sequencer, &under(9, bytes)), verdict);
        }
    }
    // Members 0 and 3 are expected, and both are needed.
    let asked = under(9, request(4, 0, 1, b"x"));
    let offers = under(9, offer(4, 1, 1, 0, b"x"));
    assert_eq!(order(&mut sequencer, &asked), (Numbered(1), offers.clone()));
    for (member, answers) in [(0, true), (2, false), (3, true), (4, false)] {
        let answer = under(9, confirm(member, 1));
        let mut state = made(member.into(), 2);
        let expected = if answers { answer.clone() } else { vec![] };
        assert_eq!(tell(&mut state, &offers), (Kept, expected));
        if !answers {
            assert_eq!(order_refused(&sequencer, &answer), 25);
        }
    }
    assert_eq!(order(&mut sequencer, &under(9, confirm(3, 1))).0, Marked);
    let accepts = under(9, packet(8, 2, [1, 0, 0], b""));
    let answer = order(&mut sequencer, &under(9, confirm(0, 1)));
    assert_eq!(answer, (Accepted, accepts.clone()));
    // Byte 1 is asked at both ends, before the group number.
    let polls = accepted(&mut sequencer, |s, out| s.poll(out).unwrap()).1;
    assert_eq!(polls, under(9, packet(5, 2, [1, 0, 0], b"")));
    let mut other = made(3, 2);
    assert_eq!(tell(&mut other, &accepts), (Noted, vec![]));
    assert_eq!(tell(&mut other, &polls).0, Gap);
    for bytes in [accepts, polls] {
        for member in [0, 1, 3, 4, 5, 255] {
            let mut faulty = bytes.clone();
            faulty[1] = member;
            assert_eq!(tell_refused(&other, &faulty), 6);
            assert_eq!(order_refused(&sequencer, &faulty), 6);
            assert_eq!(tell_refused(&other, &under(7, faulty)), 6);
        }
        assert_eq!(order_refused(&sequencer, &bytes), 8);
        assert_eq!(order_refused(&sequencer, &under(7, bytes.clone())), 7);
        assert_eq!(tell_refused(&other, &under(7, bytes)), 7);
    }
    // The survivors' acknowledgements are enough to purge.
    for member in [0, 2, 3, 4] {
        assert_eq!(sequencer.sequencer.floor, 0);
        assert_eq!(order(&mut sequencer, &under(9, status(member, 1))).0, Noted);
    }
    assert_eq!(sequencer.sequencer.floor, 1);
    assert_eq!(sequencer.sequencer.history, [Place::EMPTY; 32]);
    assert!(sequencer.is_sound());
    // With r = 0 a message is accepted when numbered, by whomever.
    let mut sequencer = made(2, 0);
    let broadcasts = under(9, broadcast(4, 1, 1, 0, b"x"));
    assert_eq!(order(&mut sequencer, &asked), (Numbered(1), broadcasts));
    // With four of them expected, and three others, all three are needed.
    let mut sequencer = made(2, 4);
    assert_eq!(order(&mut sequencer, &asked).0, Numbered(1));
    assert_eq!(order(&mut sequencer, &under(9, confirm(0, 1))).0, Marked);
    assert_eq!(order(&mut sequencer, &under(9, confirm(3, 1))).0, Marked);
    assert_eq!(order(&mut sequencer, &under(9, confirm(4, 1))).0, Accepted);
}

/// Every originator among the survivors' members is answered by what it
/// numbered, also where only its count is known.
#[test]
fn requests_behind_a_reset() {
    let mut state = member(1, 40, 44);
    state.kept.read = 42;
    invite(&mut state, 9);
    tell(&mut state, &reply(2, 9, 44));
    tell(&mut state, &reply(0, 9, 43));
    assert_eq!(make(&mut state, 0), (Sent, result(1, 9, 1, 44, 7)));
    // 43 is 0's fifteenth, 44 is 1's; 2's last, 42, is purged.
    assert_eq!(state.sequencer.counts[..3], [15, 15, 14]);
    let ask = |member: u8, count: u32| under(9, request(member, 42, count, b"x"));
    assert_eq!(order(&mut state, &ask(2, 14)).0, Old);
    assert_eq!(order(&mut state, &ask(0, 15)).0, Again(43));
    assert_eq!(order(&mut state, &ask(1, 15)).0, Again(44));
    assert_eq!(order(&mut state, &ask(1, 14)).0, Old);
    assert_eq!(order_refused(&state, &ask(2, 16)), 11);
    assert_eq!(order(&mut state, &ask(2, 15)).0, Numbered(45));
    assert_eq!(state.sequencer.repeats[..3], [1, 2, 1]);
}

/// A terminal of three after a few calls, then changed here and there.
fn changed(random: &mut Random) -> Terminal {
    let reach = random.below(7) as u32;
    let mut state = match random.below(3) {
        0 => {
            let mut state = sequencing(reach);
            for number in 1..=random.below(reach as usize + 1) as u32 {
                tell(&mut state, &numbered(number, 0));
                if random.below(2) == 0 {
                    taken(&mut state);
                }
            }
            state
        }
        _ => member(
            1 + random.below(2) as u32,
            random.below(reach as usize + 1) as u32,
            reach,
        ),
    };
    let mut out = [0; PACKET];
    for _ in 0..random.below(4) {
        let bytes = anything(random, &state);
        match random.below(5) {
            0 => state.invite(8 + random.below(3) as u32, &mut out),
            1 => state.make(0, &mut out),
            2 => state.submit(b"x", &mut out),
            _ => state.receive(&bytes, &mut out),
        };
    }
    assert!(state.is_sound());
    for _ in 0..random.below(3) {
        let small = random.below(8) as u32;
        let any = random.next() as u32;
        match random.below(26) {
            0 => state.member.survivors = random.below(8) as u16,
            1 => state.member.elected = random.below(4) as u8,
            2 => state.member.resilience = random.below(4) as u8,
            3 => state.member.group = 7 + small,
            4 => state.member.accepted = small,
            5 => state.member.accepted = any,
            6 => state.kept.read = small,
            7 => state.kept.read = any,
            8 => state.kept.counts[random.below(4)] = any,
            9 => state.kept.past[random.below(32)].count = small,
            10 => state.reset.replied ^= true,
            11 => state.reset.attempt = 8 + small,
            12 => state.reset.number = small,
            13 => state.reset.inviting ^= true,
            14 => state.reset.invited = 8 + small,
            15 => state.reset.repliers = random.below(16) as u16,
            16 => state.reset.replies[random.below(4)] = if small < 4 { small } else { any },
            17 => state.sequencing ^= true,
            18 => state.frozen ^= true,
            19 => state.sequencer.group = 7 + small,
            20 => state.sequencer.survivors = random.below(8) as u16,
            21 => state.sequencer.elected = random.below(4) as u8,
            22 => state.sequencer.counts[random.below(4)] = any,
            23 => state.sequencer.accepted = small,
            24 => state.sequencer.repeats[random.below(4)] = any,
            _ => state.sequencer.n = 2 + random.below(3) as u8,
        }
    }
    state
}

/// A packet that may fit.
fn anything(random: &mut Random, state: &Terminal) -> Vec<u8> {
    let kind = match random.below(3) {
        0 => 1 + random.below(8) as u8,
        _ => 9 + random.below(3) as u8,
    };
    let number = |random: &mut Random| match random.below(12) {
        0 => random.next() as u32,
        1 => MAX,
        2 => 0,
        3 => state.reset.number,
        _ => random.below(8) as u32,
    };
    let attempt = match random.below(4) {
        0 => 8 + random.below(3) as u32,
        1 => state.reset.attempt,
        _ => state.reset.invited,
    };
    let (a, b, c) = (number(random), number(random), number(random));
    let fields = match kind {
        1 => [a, 1 + b % 8, 0],
        2 | 6 => [a.max(1), 1 + b % 8, c % a.max(1)],
        3 => [a % 4, 4 + b % 4, 7 + c % 4],
        4 => [a, 0, 0],
        5 => [a, 0, c.min(a)],
        7 | 8 => [a.max(1), 0, 0],
        9 => [attempt, 0, 0],
        10 => [attempt, b, 0],
        _ => [attempt, random.below(3) as u32, c],
    };
    let mask = [
        0,
        if random.below(8) == 0 {
            15
        } else {
            random.below(8) as u8
        },
    ];
    let payload = if kind == 11 { &mask[..] } else { b"" };
    let senders = if random.below(8) == 0 { 5 } else { 3 };
    let sender = random.below(senders) as u8;
    let group = [state.member.group, state.sequencer.group, 7, 9][random.below(4)];
    under(group, packet(kind, sender, fields, payload))
}

/// Whatever a state is, every call answers; a sound one stays sound, and what
/// is refused changes nothing.
#[test]
fn every_state_is_answered_and_sound_ones_stay_sound() {
    let (mut sound, mut unsound, mut entered, mut refusals) = (0, 0, 0, [0; 28]);
    for seed in 0..24_000 {
        let mut random = Random::seeded(seed);
        let before = changed(&mut random);
        let bytes = anything(&mut random, &before);
        let (number, demand) = (random.below(12) as u32, random.below(5) as u32);
        let mut out = [BLANK; PACKET];
        for call in 0..10 {
            let mut state = before.clone();
            out.fill(BLANK);
            let told = match call {
                0 => state.submit(b"x", &mut out),
                1 => state.repeat(&mut out),
                2 => state.status(&mut out),
                3 => state.take(&mut out),
                4 => state.invite(number, &mut out),
                5 => state.make(demand, &mut out),
                6 => state.receive(&bytes, &mut out),
                7 => state.poll(&mut out).unwrap_or((None, 0)),
                8 => state.copy(number, &mut out).unwrap_or((None, 0)),
                _ => state.order(&bytes, &mut out).unwrap_or((None, 0)),
            };
            if let Refused(refusal) = told.0 {
                assert_eq!((&state, told.1), (&before, 0));
                assert!(out.iter().all(|&byte| byte == BLANK));
                refusals[usize::from(refusal.number())] += 1;
            }
            if !before.member_is_sound() && call < 7 {
                assert_eq!(told.0.to_string(), "refused 1");
            }
            if before.is_sound() {
                assert!(state.is_sound(), "{seed}: call {call} of {before:?}");
                entered += usize::from(state.member.group != before.member.group);
                assert_ne!(told.0.to_string(), "refused 1");
                sound += 1;
            } else {
                if call == 4 || call == 5 {
                    assert_eq!(told.0.to_string(), "refused 1");
                }
                unsound += 1;
            }
        }
    }
    println!("{sound} of sound states, {unsound} of others, {entered} entered; {refusals:?}");
    assert!(sound > 100_000 && unsound > 10_000 && entered > 500);
    assert!(refusals[26] > 100 && refusals[27] > 100 && refusals[9] > 10);
}
