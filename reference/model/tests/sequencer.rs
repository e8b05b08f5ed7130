//! The sequencer: soundness, refusals in their order, steps, and numbers
//! near the largest.

mod common;

use common::*;
use model::Answer::*;
use model::limits::{PACKET, PAYLOAD};
use model::place::{Payload, Place};
use model::sequencer::Sequencer;

fn payload(bytes: &[u8]) -> Payload {
    let mut payload = Payload::EMPTY;
    payload.length = bytes.len() as u8;
    payload.bytes[..bytes.len()].copy_from_slice(bytes);
    payload
}

fn kept(originator: u8, count: u32, bytes: &[u8]) -> Place {
    Place {
        originator,
        count,
        payload: payload(bytes),
    }
}

/// Three members, 3 to 5 kept.
fn busy() -> Sequencer {
    let mut state = Sequencer::fresh(3, GROUP).unwrap();
    state.top = 5;
    state.accepted = 5;
    state.floor = 2;
    state.acknowledged[..3].copy_from_slice(&[2, 3, 4]);
    state.counts[..3].copy_from_slice(&[2, 1, 9]);
    state.history[3] = kept(0, 2, b"");
    state.history[4] = kept(1, 1, b"ab");
    state.history[5] = kept(2, 7, &[6; PAYLOAD]);
    state.repeats[..3].copy_from_slice(&[0, 11, 4]);
    assert!(state.is_sound());
    state
}

/// One member, the 32 numbers up to `top` kept; `top` is its last count.
fn full(top: u32) -> Sequencer {
    let mut state = Sequencer::fresh(1, GROUP).unwrap();
    state.top = top;
    state.accepted = top;
    state.floor = top - 32;
    state.acknowledged[0] = top - 32;
    state.counts[0] = top;
    for below in top - 32..top {
        state.history[(below + 1) as usize % 32] = kept(0, below + 1, &below.to_be_bytes());
    }
    assert!(state.is_sound());
    state
}

type Change = fn(&mut Sequencer);

#[test]
fn unsound_states_are_refused_by_every_call() {
    let changes: &[(&str, Change)] = &[
        ("n zero", |s| s.n = 0),
        ("n below the entries", |s| s.n = 2),
        ("n above the entries", |s| (s.n, s.survivors) = (4, 15)),
        ("n 17", |s| s.n = 17),
        ("n 255", |s| s.n = 255),
        ("floor too low", |s| s.floor = 1),
        ("floor too high", |s| s.floor = 3),
        ("floor above top", |s| s.floor = 6),
        ("floor largest", |s| s.floor = MAX),
        ("acknowledgement above top", |s| s.acknowledged[2] = 6),
        ("acknowledgement largest", |s| s.acknowledged[1] = MAX),
        ("acknowledgement below floor", |s| s.acknowledged[2] = 1),
        ("top below floor", |s| s.top = 1),
        ("top below an acknowledgement", |s| s.top = 3),
        ("top too low for the history", |s| s.top = 4),
        ("top too high for the history", |s| s.top = 6),
        ("top largest", |s| s.top = MAX),
        ("a kept message missing", |s| s.history[4] = Place::EMPTY),
        ("originator n", |s| s.history[3].originator = 3),
        ("originator 255", |s| s.history[3].originator = 255),
        ("kept count zero", |s| s.history[3].count = 0),
        ("kept count above the last", |s| s.history[3].count = 3),
        ("kept count largest", |s| s.history[5].count = MAX),
        ("last count below the kept", |s| s.counts[2] = 6),
        ("last count zero", |s| s.counts[1] = 0),
        ("length too long", |s| {
            s.history[5].payload.length = PAYLOAD as u8 + 1
        }),
        ("length 255", |s| s.history[5].payload.length = 255),
        ("unused first byte", |s| s.history[3].payload.bytes[0] = 1),
        ("unused byte", |s| s.history[4].payload.bytes[2] = 128),
        ("unused last byte", |s| {
            s.history[4].payload.bytes[PAYLOAD - 1] = 1
        }),
        ("length too short", |s| {
            s.history[5].payload.length = PAYLOAD as u8 - 1
        }),
        ("unused place below", |s| s.history[2] = kept(0, 1, b"x")),
        ("unused place above", |s| s.history[6] = kept(0, 1, b"x")),
        ("unused originator", |s| s.history[6].originator = 1),
        ("unused count", |s| s.history[2].count = 1),
        ("unused length", |s| s.history[0].payload.length = 1),
        ("unused place byte", |s| {
            s.history[31].payload.bytes[PAYLOAD - 1] = 1
        }),
        ("unused acknowledgement", |s| s.acknowledged[3] = 1),
        ("last acknowledgement", |s| s.acknowledged[15] = MAX),
        ("unused last count", |s| s.counts[3] = 1),
        ("last last count", |s| s.counts[15] = 1),
        ("spare repeat count", |s| s.repeats[3] = 1),
        ("last repeat count", |s| s.repeats[15] = 1),
        ("resilience n", |s| s.resilience = 3),
        ("resilience 16", |s| s.resilience = 16),
        ("resilience 255", |s| s.resilience = 255),
        ("accepted below floor", |s| s.accepted = 1),
        ("accepted above top", |s| s.accepted = 6),
        ("accepted largest", |s| s.accepted = MAX),
        ("elected lost", |s| s.elected = 3),
        ("elected 15", |s| s.elected = 15),
        ("elected 16", |s| s.elected = 16),
        ("elected 255", |s| s.elected = 255),
        ("no survivors", |s| s.survivors = 0),
        ("survivors without the elected", |s| s.survivors = 6),
        ("survivor n", |s| s.survivors = 15),
        ("survivor 15", |s| s.survivors = 0x8007),
        ("lost acknowledgement", |s| s.survivors = 3),
        ("lost repeats", |s| {
            (s.survivors, s.acknowledged[2]) = (3, 0)
        }),
        ("floor of the lost", |s| {
            (s.survivors, s.acknowledged[1], s.repeats[1]) = (5, 0, 0);
            (s.acknowledged[0], s.floor) = (3, 2);
        }),
    ];
    for (name, change) in changes {
        let mut state = busy();
        change(&mut state);
        assert!(!state.is_sound(), "{name}");
        every_call_refuses(&state);
    }
    // 33 in the history, which has places for 32 only.
    let mut state = full(40);
    state.acknowledged[0] -= 1;
    state.floor -= 1;
    every_call_refuses(&state);
}

/// Question 1 comes before all others.
fn every_call_refuses(state: &Sequencer) {
    for lent in [0, PACKET - 1, PACKET] {
        for packet in [vec![], vec![9; PACKET + 1], status(0, 0), poll(5, 2)] {
            let call = |s: &mut Sequencer, out: &mut [u8]| s.receive(&packet, out);
            assert_eq!(refused_lent(state, lent, call), 1);
        }
        assert_eq!(refused_lent(state, lent, |s, out| s.poll(out)), 1);
        for number in [0, 4, MAX] {
            assert_eq!(refused_lent(state, lent, |s, out| s.copy(number, out)), 1);
        }
    }
}

#[test]
fn nothing_else_is_unsound() {
    let changes: &[Change] = &[
        |s| s.group = MAX,
        |s| s.repeats[..3].copy_from_slice(&[MAX; 3]),
        // Acknowledgements may lie above the last accepted number, and with
        // no resilience it may lie below top.
        |s| s.accepted = 2,
        |s| s.accepted = 4,
        // Counts need not rise and may be equal.
        |s| s.history[5] = kept(0, 1, b"x"),
        |s| s.history[5] = s.history[3],
        |s| s.counts[..3].copy_from_slice(&[MAX; 3]),
        |s| s.elected = 2,
        // A lost member's last count stays, and its messages.
        |s| (s.survivors, s.acknowledged[2], s.repeats[2]) = (3, 0, 0),
        |s| (s.n, s.counts[3]) = (4, MAX),
        |s| s.history[3].payload = payload(&[0; PAYLOAD]),
        |s| {
            s.acknowledged[..3].copy_from_slice(&[5; 3]);
            s.floor = 5;
            s.history = [Place::EMPTY; 32];
        },
    ];
    for change in changes {
        let mut state = busy();
        change(&mut state);
        assert!(state.is_sound());
        let (answer, _) = accepted(&mut state, |s, out| s.poll(out));
        assert_eq!(answer, Sent);
    }
    for top in [32, 33, 63, 64, 1000, MAX - 1, MAX] {
        assert!(full(top).is_sound());
    }
}

#[test]
fn opening() {
    for n in [0, 17, 18, 255, 256, 257, 272, MAX] {
        assert_eq!(Sequencer::fresh(n, GROUP).unwrap_err().number(), 18);
    }
    for n in 1..=16 {
        let state = Sequencer::fresh(n, 0x0102_0304).unwrap();
        assert!(state.is_sound());
        assert_eq!((u32::from(state.n), state.group), (n, 0x0102_0304));
        assert_eq!((state.top, state.floor, state.all_repeats()), (0, 0, 0));
        assert_eq!((state.acknowledged, state.counts), ([0; 16], [0; 16]));
        assert_eq!(state.repeats, [0; 16]);
        assert_eq!((state.resilience, state.accepted), (0, 0));
        assert_eq!(state.marks, [0; 32]);
        assert_eq!(state.history, [Place::EMPTY; 32]);
    }
}

#[test]
fn short_outputs() {
    let state = busy();
    for lent in [0, 1, 19, 20, 22, PACKET - 1] {
        for packet in [
            vec![],
            vec![0; PACKET + 1],
            status(0, 0),
            request(0, 0, 3, b"x"),
        ] {
            let call = |s: &mut Sequencer, out: &mut [u8]| s.receive(&packet, out);
            assert_eq!(refused_lent(&state, lent, call), 2);
        }
        assert_eq!(refused_lent(&state, lent, |s, out| s.poll(out)), 2);
        for number in [0, 4, MAX] {
            assert_eq!(refused_lent(&state, lent, |s, out| s.copy(number, out)), 2);
        }
    }
}

#[test]
fn packets_go_down_the_questions() {
    // Everything is wrong; each step repairs what was refused.
    let state = busy();
    let mut bytes = packet(12, 200, [MAX, 0, 1], &[0; PAYLOAD + 1]);
    bytes[4] = 1;
    assert_eq!(hand_refused(&state, &bytes), 3);
    bytes.truncate(22);
    assert_eq!(hand_refused(&state, &bytes), 4);
    bytes[0] = 2;
    assert_eq!(hand_refused(&state, &bytes), 5);
    bytes[3] = 2;
    assert_eq!(hand_refused(&state, &bytes), 6);
    bytes[15] = 100;
    assert_eq!(hand_refused(&state, &bytes), 7);
    bytes[4] = 0;
    assert_eq!(hand_refused(&state, &bytes), 8);
    bytes[0] = 1;
    bytes[19] = 0;
    assert_eq!(hand_refused(&state, &bytes), 9);
    bytes[1] = 2;
    assert_eq!(hand_refused(&state, &bytes), 10);
    bytes[8..12].copy_from_slice(&5u32.to_be_bytes());
    assert_eq!(hand_refused(&state, &bytes), 11);
    bytes[15] = 10;
    assert_eq!(hand(&mut state.clone(), &bytes).0, Numbered(6));
}

#[test]
fn single_refusals() {
    let state = busy();
    for length in [0, 19, PACKET + 1, 1000] {
        assert_eq!(hand_refused(&state, &vec![4; length]), 3);
    }
    for kind in [0, 12, 255] {
        assert_eq!(hand_refused(&state, &packet(kind, 0, [0; 3], b"")), 4);
    }
    let mut faulty = status(0, 0);
    faulty[2] = 1;
    assert_eq!(hand_refused(&state, &faulty), 5);
    for kind in [3, 4] {
        assert_eq!(hand_refused(&state, &packet(kind, 0, [0, 1, 2], b"x")), 5);
    }
    for faulty in [
        request(0, 0, 0, b"x"),
        packet(1, 0, [0, 3, 1], b"x"),
        gap(0, 2, 2, 3),
        gap(0, 3, 2, 4),
        gap(0, 2, 4, 3),
        packet(4, 0, [0, 1, 0], b""),
        packet(4, 0, [0, 0, 1], b""),
    ] {
        assert_eq!(hand_refused(&state, &faulty), 6);
    }
    for good in [status(0, 2), request(0, 2, 3, b"x"), gap(0, 2, 3, 5)] {
        hand(&mut state.clone(), &good);
        for at in 4..8 {
            let mut other = good.clone();
            other[at] ^= 0x80;
            assert_eq!(hand_refused(&state, &other), 7);
        }
        for member in [3, 4, 15, 16, 255] {
            let mut other = good.clone();
            other[1] = member;
            assert_eq!(hand_refused(&state, &other), 9);
        }
    }
    assert_eq!(hand_refused(&state, &broadcast(0, 5, 1, 2, b"x")), 8);
    assert_eq!(hand_refused(&state, &poll(5, 2)), 8);
    assert_eq!(hand_refused(&state, &broadcast(99, 9, 1, 2, b"x")), 8);
    for above in [6, 7, MAX] {
        assert_eq!(hand_refused(&state, &status(0, above)), 10);
        assert_eq!(hand_refused(&state, &request(0, above, 9, b"")), 10);
        assert_eq!(hand_refused(&state, &gap(0, 2, 3, above)), 12);
        assert_eq!(hand_refused(&state, &gap(0, 5, 6, above)), 12);
    }
    assert_eq!(hand_refused(&state, &gap(0, 6, 7, 7)), 10);
    for ahead in [4, 5, MAX] {
        assert_eq!(hand_refused(&state, &request(0, 5, ahead, b"")), 11);
    }
    for number in [0, 1, 2, 6, 32, 35, 36, MAX] {
        assert_eq!(refused(&state, |s, out| s.copy(number, out)), 17);
    }
}

#[test]
fn polls_and_copies() {
    let mut state = busy();
    let before = state.clone();
    let poll_packet = accepted(&mut state, |s, out| s.poll(out));
    assert_eq!(poll_packet, (Sent, poll(5, 2)));
    for (number, expected) in [
        (3, broadcast(0, 3, 2, 2, b"")),
        (4, broadcast(1, 4, 1, 2, b"ab")),
        (5, broadcast(2, 5, 7, 2, &[6; PAYLOAD])),
    ] {
        let copy = accepted(&mut state, |s, out| s.copy(number, out));
        assert_eq!(copy, (Sent, expected));
    }
    assert_eq!(state, before);
    // A copy carries today's floor.
    hand(&mut state, &status(0, 3));
    let copy = accepted(&mut state, |s, out| s.copy(4, out));
    assert_eq!(copy, (Sent, broadcast(1, 4, 1, 3, b"ab")));
}

#[test]
fn a_numbered_request() {
    let mut state = busy();
    let mut expected = state.clone();
    let answer = hand(&mut state, &request(0, 4, 3, b"new"));
    assert_eq!(answer, (Numbered(6), broadcast(0, 6, 3, 3, b"new")));
    expected.acknowledged[0] = 4;
    expected.floor = 3;
    expected.history[3] = Place::EMPTY;
    expected.history[6] = kept(0, 3, b"new");
    expected.top = 6;
    expected.accepted = 6;
    expected.counts[0] = 3;
    assert_eq!(state, expected);
}

#[test]
fn repeated_requests() {
    // Member 2's last count is 9 and only its count 7 is kept.
    let mut state = busy();
    let mut expected = state.clone();
    for count in [1, 7, 8, 9] {
        let answer = hand(&mut state, &request(2, 0, count, b"other"));
        assert_eq!(answer, (Old, vec![]));
        expected.repeats[2] += 1;
        assert_eq!(state, expected);
    }
    let answer = hand(&mut state, &request(1, 1, 1, b"other"));
    assert_eq!(answer, (Again(4), broadcast(1, 4, 1, 2, b"ab")));
    expected.repeats[1] += 1;
    assert_eq!(state, expected);
    assert_eq!(state.all_repeats(), 11 + 4 + 5);

    // Looked up after noting, and written with the floor after noting.
    let mut noting = state.clone();
    let answer = hand(&mut noting, &request(0, 3, 2, b""));
    assert_eq!(answer, (Old, vec![]));
    assert_eq!((noting.floor, noting.history[3]), (3, Place::EMPTY));
    state.acknowledged[0] = 3;
    state.acknowledged[1] = 2;
    let answer = hand(&mut state, &request(1, 3, 1, b""));
    assert_eq!(answer, (Again(4), broadcast(1, 4, 1, 3, b"ab")));

    // Of two equal ones the highest number counts.
    let mut twice = busy();
    twice.history[5] = kept(1, 1, b"later");
    let answer = hand(&mut twice, &request(1, 0, 1, b""));
    assert_eq!(answer, (Again(5), broadcast(1, 5, 1, 2, b"later")));
}

/// Two senders that repeat in turn: each has its own count.
#[test]
fn repeats_of_two_senders() {
    let mut state = busy();
    for turn in 1..=3 {
        assert_eq!(hand(&mut state, &request(1, 0, 1, b"")).0, Again(4));
        assert_eq!(state.repeats[..3], [0, 11 + turn, 3 + turn]);
        assert_eq!(hand(&mut state, &request(2, 0, 1, b"")).0, Old);
        assert_eq!(state.repeats[..3], [0, 11 + turn, 4 + turn]);
        assert_eq!(state.all_repeats(), 15 + 2 * turn);
    }
}

/// Nothing but Old and Again changes a repeat count.
#[test]
fn what_is_no_repeat() {
    let packets = [
        (request(0, 0, 3, b"new"), Numbered(6)),
        (status(1, 5), Noted),
        (gap(2, 4, 5, 5), Wanted(5, 5)),
    ];
    for (packet, answer) in packets {
        let mut state = busy();
        assert_eq!(hand(&mut state, &packet).0, answer);
        assert_eq!(state.repeats, busy().repeats);
    }
    let mut state = full(40);
    state.repeats[0] = 5;
    assert_eq!(hand(&mut state, &request(0, 0, 41, b"")).0, Full);
    assert_eq!((state.repeats[0], state.all_repeats()), (5, 5));
    // A refused request: a count too far ahead, and an acknowledgement above top.
    let state = busy();
    for (packet, number) in [(request(1, 0, 3, b""), 11), (request(1, 6, 1, b""), 10)] {
        let call = |s: &mut Sequencer, out: &mut [u8]| s.receive(&packet, out);
        assert_eq!(refused(&state, call), number);
    }
}

/// A repeat count stays at the largest, and so does the sum, whoever repeats.
#[test]
fn the_largest_repeat_counts() {
    let mut state = busy();
    state.repeats[..3].copy_from_slice(&[0, MAX - 1, 0]);
    for _ in 0..3 {
        hand(&mut state, &request(1, 0, 1, b""));
        assert_eq!((state.repeats[1], state.all_repeats()), (MAX, MAX));
    }
    // One at the largest: another one's grows, the sum does not.
    assert_eq!(hand(&mut state, &request(2, 0, 1, b"")).0, Old);
    assert_eq!(state.repeats[..3], [0, MAX, 1]);
    assert_eq!(state.all_repeats(), MAX);
    // Two at the largest.
    state.repeats[2] = MAX;
    for member in [1, 2] {
        hand(&mut state, &request(member, 0, 1, b""));
        assert_eq!(state.repeats[..3], [0, MAX, MAX]);
        assert_eq!(state.all_repeats(), MAX);
    }
    // None at the largest, and a sum that comes there.
    state.repeats[..3].copy_from_slice(&[1, MAX - 3, 1]);
    assert_eq!(state.all_repeats(), MAX - 1);
    for _ in 0..2 {
        hand(&mut state, &request(2, 0, 1, b""));
        assert_eq!(state.all_repeats(), MAX);
    }
    assert_eq!(state.repeats[..3], [1, MAX - 3, 3]);
}

#[test]
fn gaps_and_statuses() {
    let cases = [
        // Asked for from below floor, at floor, above, up to top.
        (gap(2, 0, 1, 5), Wanted(3, 5), 2),
        (gap(2, 0, 1, 3), Wanted(3, 3), 2),
        (gap(2, 0, 4, 5), Wanted(4, 5), 2),
        (gap(2, 0, 5, 5), Wanted(5, 5), 2),
        (gap(2, 0, 1, 2), Noted, 2),
        (gap(2, 0, 1, 1), Noted, 2),
        // Its own acknowledgement moves floor first.
        (gap(0, 3, 4, 4), Wanted(4, 4), 3),
        (gap(0, 4, 5, 5), Wanted(5, 5), 3),
        (status(0, 2), Noted, 2),
        (status(0, 3), Noted, 3),
        (status(0, 5), Noted, 3),
        (status(2, 5), Noted, 2),
    ];
    for (packet, answer, floor) in cases {
        let mut state = busy();
        let mut expected = state.clone();
        assert_eq!(hand(&mut state, &packet), (answer, vec![]));
        let member = usize::from(packet[1]);
        let taken = u32::from(packet[11]);
        expected.acknowledged[member] = taken.max(expected.acknowledged[member]);
        expected.floor = floor;
        if floor == 3 {
            expected.history[3] = Place::EMPTY;
        }
        assert_eq!(state, expected);
    }
    // Everyone but one had everything: one packet clears the whole history.
    let mut state = full(77);
    assert_eq!(hand(&mut state, &status(0, 77)).0, Noted);
    assert_eq!(state.floor, 77);
    assert_eq!(state.history, [Place::EMPTY; 32]);
    // A gap may lie below floor altogether.
    assert_eq!(hand(&mut state, &gap(0, 60, 61, 77)).0, Noted);
}

#[test]
fn the_last_numbers() {
    let mut state = full(MAX - 1);
    // Full as ever.
    let next = request(0, 0, MAX, b"last");
    assert_eq!(hand(&mut state, &next), (Full, poll(MAX - 1, MAX - 33)));
    // The last number is given.
    let next = request(0, MAX - 33, MAX, b"last");
    assert_eq!(hand(&mut state, &next).0, Full);
    let next = request(0, MAX - 32, MAX, b"last");
    let expected = broadcast(0, MAX, MAX, MAX - 32, b"last");
    assert_eq!(hand(&mut state, &next), (Numbered(MAX), expected.clone()));
    assert_eq!((state.top, state.counts[0]), (MAX, MAX));
    // With p the largest every count is one of the past.
    let again = hand(&mut state, &request(0, 0, MAX, b""));
    assert_eq!(again, (Again(MAX), expected.clone()));
    assert_eq!(hand(&mut state, &request(0, 0, MAX - 1, b"")).0, Old);
    assert_eq!(hand(&mut state, &request(0, 0, 1, b"")).0, Old);
    let copy = accepted(&mut state, |s, out| s.copy(MAX, out));
    assert_eq!(copy, (Sent, expected));
    assert_eq!(refused(&state, |s, out| s.copy(0, out)), 17);
    assert_eq!(refused(&state, |s, out| s.copy(MAX - 32, out)), 17);
    assert_eq!(
        hand(&mut state, &gap(0, 0, 1, MAX)).0,
        Wanted(MAX - 31, MAX)
    );

    // Question 16 comes before noting and before Full.
    state.counts[0] = MAX - 1;
    state.history[31].count = MAX - 1;
    assert!(state.is_sound());
    assert_eq!(state.top - state.floor, 32);
    for taken in [0, MAX - 32, MAX - 1, MAX] {
        assert_eq!(hand_refused(&state, &request(0, taken, MAX, b"")), 16);
    }
    assert_eq!(hand(&mut state, &request(0, 0, MAX - 1, b"")).0, Again(MAX));
    assert_eq!(hand(&mut state, &request(0, 0, 5, b"")).0, Old);

    // The history empties up to the largest.
    assert_eq!(hand(&mut state, &status(0, MAX - 1)).0, Noted);
    assert_eq!(
        hand(&mut state, &gap(0, MAX - 1, MAX, MAX)).0,
        Wanted(MAX, MAX)
    );
    assert_eq!(hand(&mut state, &status(0, MAX)).0, Noted);
    assert_eq!(state.floor, MAX);
    assert_eq!(state.history, [Place::EMPTY; 32]);
    assert!(state.is_sound());
    assert_eq!(hand(&mut state, &gap(0, MAX - 1, MAX, MAX)).0, Noted);
    assert_eq!(hand_refused(&state, &request(0, MAX, MAX, b"")), 16);
    assert_eq!(hand(&mut state, &request(0, MAX, MAX - 1, b"")).0, Old);
    assert_eq!(refused(&state, |s, out| s.copy(MAX, out)), 17);
    let polled = accepted(&mut state, |s, out| s.poll(out));
    assert_eq!(polled, (Sent, poll(MAX, MAX)));
}

#[test]
fn numbers_wrap_around_the_places() {
    // Several times round the history, always one to spare.
    let mut state = Sequencer::fresh(2, GROUP).unwrap();
    for number in 1..=200u32 {
        let bytes = number.to_be_bytes();
        let taken = number.saturating_sub(32);
        assert_eq!(hand(&mut state, &status(1, taken)).0, Noted);
        let answer = hand(&mut state, &request(0, taken, number, &bytes));
        assert_eq!(
            answer,
            (
                Numbered(number),
                broadcast(0, number, number, taken, &bytes)
            )
        );
        for kept in taken + 1..=number {
            let copy = accepted(&mut state, |s, out| s.copy(kept, out));
            assert_eq!(copy.1, broadcast(0, kept, kept, taken, &kept.to_be_bytes()));
        }
    }
}
