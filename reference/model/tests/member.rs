//! A member: soundness, refusals in their order, steps, and numbers near
//! the largest.

mod common;

use common::*;
use model::Answer::{self, *};
use model::limits::{PACKET, PAYLOAD};
use model::member::Member;
use model::place::{Payload, Place};

fn payload(bytes: &[u8]) -> Payload {
    let mut payload = Payload::EMPTY;
    payload.length = bytes.len() as u8;
    payload.bytes[..bytes.len()].copy_from_slice(bytes);
    payload
}

fn place(originator: u8, count: u32, bytes: &[u8]) -> Place {
    Place {
        originator,
        count,
        payload: payload(bytes),
    }
}

/// Member 1 of 3 at t, holding the numbers at these distances above t.
fn at(t: u32, distances: &[u32]) -> Member {
    let mut state = Member::fresh(3, 1, GROUP).unwrap();
    state.taken = t;
    state.accepted = t + distances.iter().max().unwrap_or(&0);
    for distance in distances {
        let index = ((t + distance) % 8) as usize;
        state.held |= 1 << index;
        state.places[index] = place(2, t + distance, b"x");
    }
    assert!(state.is_sound());
    state
}

/// Messages 5 and 6 wait; 12, 13 and 15 are held, in places 4, 5 and 7.
fn busy() -> Member {
    let mut state = at(11, &[1, 2, 4]);
    state.submitted = 6;
    state.waiting = 2;
    state.queue[0] = place(1, 5, b"wait");
    state.queue[1] = place(1, 6, b"next");
    state.places[4] = place(0, 3, b"");
    state.places[7] = place(2, 1, &[6; PAYLOAD]);
    assert!(state.is_sound());
    state
}

fn took(number: u32, originator: u8, count: u32, more: bool) -> Answer {
    Took {
        number,
        originator,
        count,
        more,
    }
}

type Change = fn(&mut Member);

#[test]
fn unsound_states_are_refused_by_every_call() {
    let changes: &[(&str, Change)] = &[
        ("n zero", |s| s.n = 0),
        ("n too small for the originators", |s| s.n = 2),
        ("n not above the number", |s| s.n = 1),
        ("n 17", |s| s.n = 17),
        ("n 255", |s| s.n = 255),
        ("number n", |s| s.number = 3),
        ("number 255", |s| s.number = 255),
        ("waiting and nothing submitted", |s| s.submitted = 0),
        ("more waiting than submitted", |s| s.submitted = 1),
        ("six waiting", |s| s.waiting = 6),
        ("255 waiting", |s| s.waiting = 255),
        ("waiting originator another", |s| s.queue[0].originator = 2),
        ("waiting count another", |s| s.queue[0].count = 6),
        ("waiting count of five before", |s| s.queue[1].count = 1),
        ("waiting length too long", |s| {
            s.queue[0].payload.length = PAYLOAD as u8 + 1
        }),
        ("waiting length 255", |s| s.queue[1].payload.length = 255),
        ("byte behind the waiting", |s| {
            s.queue[0].payload.bytes[4] = 1
        }),
        ("last byte behind the waiting", |s| {
            s.queue[1].payload.bytes[PAYLOAD - 1] = 1;
        }),
        ("a message left that does not wait", |s| s.waiting = 1),
        ("none waiting, messages left", |s| s.waiting = 0),
        ("one too many waiting", |s| s.waiting = 3),
        ("free place, originator", |s| s.queue[2].originator = 1),
        ("free place, count", |s| s.queue[3].count = 1),
        ("free place, length", |s| s.queue[4].payload.length = 1),
        ("free place, byte", |s| {
            s.queue[2].payload.bytes[PAYLOAD - 1] = 1
        }),
        ("held originator n", |s| s.places[4].originator = 3),
        ("held originator 255", |s| s.places[5].originator = 255),
        ("held count zero", |s| s.places[7].count = 0),
        ("held length too long", |s| {
            s.places[7].payload.length = PAYLOAD as u8 + 1
        }),
        ("held length 255", |s| s.places[7].payload.length = 255),
        ("held length too short", |s| {
            s.places[7].payload.length = PAYLOAD as u8 - 1
        }),
        ("byte behind the held", |s| s.places[4].payload.bytes[0] = 1),
        ("last byte behind", |s| {
            s.places[5].payload.bytes[PAYLOAD - 1] = 128
        }),
        ("empty place held", |s| s.held |= 1),
        ("full place not held", |s| s.held &= !(1 << 4)),
        ("unused originator", |s| s.places[0].originator = 1),
        ("unused count", |s| s.places[1].count = 1),
        ("unused length", |s| s.places[2].payload.length = 1),
        ("unused byte", |s| {
            s.places[6].payload.bytes[PAYLOAD - 1] = 1
        }),
        // Place 4 would be t+8, or t+5.
        ("held above the largest", |s| {
            s.taken = MAX - 3;
            s.accepted = MAX;
        }),
        ("no number left", |s| {
            s.taken = MAX;
            s.accepted = MAX;
        }),
        ("resilience n", |s| s.resilience = 3),
        ("resilience 16", |s| s.resilience = 16),
        ("resilience 255", |s| s.resilience = 255),
        ("elected lost", |s| (s.survivors, s.elected) = (6, 0)),
        ("elected 16", |s| s.elected = 16),
        ("elected 255", |s| s.elected = 255),
        ("no survivors", |s| s.survivors = 0),
        ("itself lost", |s| s.survivors &= !(1 << s.number)),
        ("survivor n", |s| s.survivors |= 1 << s.n),
        ("survivor 15", |s| s.survivors |= 1 << 15),
        ("accepted below t", |s| s.accepted = 10),
        ("nothing accepted", |s| s.accepted = 0),
    ];
    for (name, change) in changes {
        let mut state = busy();
        change(&mut state);
        assert!(!state.is_sound(), "{name}");
        every_call_refuses(&state);
    }
    // Every held number over the largest, and every one that is not.
    for left in 0..10 {
        for distance in 1..=8 {
            let mut state = at(0, &[]);
            state.taken = MAX - left;
            state.accepted = state.taken;
            let index = state.taken.wrapping_add(distance) as usize % 8;
            state.held = 1 << index;
            state.places[index] = place(0, 1, b"");
            assert_eq!(state.is_sound(), distance <= left);
            if distance > left {
                every_call_refuses(&state);
            }
        }
    }
}

/// Question 1 comes before all others.
fn every_call_refuses(state: &Member) {
    for lent in [0, PACKET - 1, PACKET] {
        for packet in [vec![], vec![9; PACKET + 1], poll(0, 0), status(0, 0)] {
            let call = |s: &mut Member, out: &mut [u8]| s.receive(&packet, out);
            assert_eq!(refused_lent(state, lent, call), 1);
        }
        for length in [0, PAYLOAD + 1] {
            let call = |s: &mut Member, out: &mut [u8]| s.submit(&vec![1; length], out);
            assert_eq!(refused_lent(state, lent, call), 1);
        }
        assert_eq!(refused_lent(state, lent, |s, out| s.repeat(out)), 1);
        assert_eq!(refused_lent(state, lent, |s, out| s.take(out)), 1);
        assert_eq!(refused_lent(state, lent, |s, out| s.status(out)), 1);
    }
}

#[test]
fn nothing_else_is_unsound() {
    let changes: &[Change] = &[
        |s| s.group = MAX,
        // 4294967294 and 4294967295 wait, in places 4 and 0.
        |s| {
            s.submitted = MAX;
            s.queue = [Place::EMPTY; 5];
            s.queue[4] = place(1, MAX - 1, b"wait");
            s.queue[0] = place(1, MAX, b"next");
        },
        // 15 becomes the largest.
        |s| {
            s.taken = MAX - 4;
            s.accepted = MAX;
        },
        |s| s.resilience = 2,
        // What is held need not be accepted, nor what is accepted held.
        |s| s.accepted = 11,
        |s| s.accepted = 12,
        |s| s.accepted = 14,
        |s| s.accepted = MAX,
        |s| s.queue[0].payload = Payload::EMPTY,
        |s| s.queue[0].payload = payload(&[0; PAYLOAD]),
        |s| s.n = 16,
        // Counts need not rise, may be equal and above u.
        |s| s.places[5] = place(1, MAX, b""),
        |s| s.places[5] = s.places[4],
        |s| {
            s.waiting = 0;
            s.queue = [Place::EMPTY; 5];
        },
    ];
    for change in changes {
        let mut state = busy();
        change(&mut state);
        assert!(state.is_sound());
        let (answer, _) = accepted(&mut state, |s, out| s.status(out));
        assert_eq!(answer, Sent);
    }
    at(MAX - 8, &[1, 2, 3, 4, 5, 6, 7, 8]);
    at(MAX - 1, &[1]);
}

#[test]
fn opening() {
    for (n, number) in [
        (0, 0),
        (17, 0),
        (256, 0),
        (272, 0),
        (MAX, 0),
        (1, 1),
        (16, 16),
        (16, 256),
        (16, MAX),
        (0, MAX),
    ] {
        assert_eq!(Member::fresh(n, number, GROUP).unwrap_err().number(), 18);
    }
    for n in 1..=16 {
        for number in 0..n {
            let state = Member::fresh(n, number, 0x0102_0304).unwrap();
            assert!(state.is_sound());
            let opened = (u32::from(state.n), u32::from(state.number), state.group);
            assert_eq!(opened, (n, number, 0x0102_0304));
            assert_eq!((state.taken, state.submitted), (0, 0));
            assert_eq!((state.waiting, state.held), (0, 0));
            assert_eq!((state.accepted, state.resilience), (0, 0));
            assert_eq!(state.queue, [Place::EMPTY; 5]);
            assert_eq!(state.places, [Place::EMPTY; 8]);
        }
    }
}

#[test]
fn short_outputs() {
    for state in [busy(), at(3, &[])] {
        for lent in [0, 1, 19, 20, 22, PACKET - 1] {
            for packet in [
                vec![],
                vec![0; PACKET + 1],
                poll(9, 0),
                broadcast(0, 14, 1, 0, b""),
            ] {
                let call = |s: &mut Member, out: &mut [u8]| s.receive(&packet, out);
                assert_eq!(refused_lent(&state, lent, call), 2);
            }
            for length in [0, PAYLOAD + 1] {
                let call = |s: &mut Member, out: &mut [u8]| s.submit(&vec![1; length], out);
                assert_eq!(refused_lent(&state, lent, call), 2);
            }
            assert_eq!(refused_lent(&state, lent, |s, out| s.repeat(out)), 2);
            assert_eq!(refused_lent(&state, lent, |s, out| s.take(out)), 2);
            assert_eq!(refused_lent(&state, lent, |s, out| s.status(out)), 2);
        }
    }
}

#[test]
fn packets_go_down_the_questions() {
    // Everything is wrong; each step repairs what was refused.
    let state = busy();
    let mut bytes = packet(0, 200, [14, 0, 14], &[0; PAYLOAD + 1]);
    bytes[7] = 8;
    assert_eq!(give_refused(&state, &bytes), 3);
    bytes.truncate(22);
    assert_eq!(give_refused(&state, &bytes), 4);
    bytes[0] = 1;
    assert_eq!(give_refused(&state, &bytes), 5);
    bytes[3] = 2;
    assert_eq!(give_refused(&state, &bytes), 6);
    bytes[15] = 1;
    bytes[19] = 0;
    assert_eq!(give_refused(&state, &bytes), 7);
    bytes[7] = 7;
    assert_eq!(give_refused(&state, &bytes), 8);
    bytes[0] = 2;
    assert_eq!(give_refused(&state, &bytes), 9);
    bytes[1] = 2;
    assert_eq!(give(&mut state.clone(), &bytes), (Kept, vec![]));
}

#[test]
fn single_refusals() {
    let state = busy();
    for length in [0, 19, PACKET + 1, 1000] {
        assert_eq!(give_refused(&state, &vec![5; length]), 3);
    }
    for kind in [0, 12, 255] {
        assert_eq!(give_refused(&state, &packet(kind, 0, [0; 3], b"")), 4);
    }
    let mut faulty = broadcast(0, 14, 1, 0, b"x");
    faulty[3] = 0;
    assert_eq!(give_refused(&state, &faulty), 5);
    assert_eq!(give_refused(&state, &packet(5, 0, [9, 0, 0], b"x")), 5);
    for faulty in [
        broadcast(0, 0, 1, 0, b"x"),
        broadcast(0, 14, 0, 0, b"x"),
        broadcast(0, 14, 1, 14, b"x"),
        broadcast(0, 14, 1, MAX, b"x"),
        packet(5, 1, [9, 0, 0], b""),
        packet(5, 255, [9, 0, 0], b""),
        packet(5, 0, [9, 1, 0], b""),
        poll(9, 10),
    ] {
        assert_eq!(give_refused(&state, &faulty), 6);
    }
    for good in [broadcast(0, 14, 1, 13, b"x"), poll(9, 9)] {
        give(&mut state.clone(), &good);
        for at in 4..8 {
            let mut other = good.clone();
            other[at] ^= 0x80;
            assert_eq!(give_refused(&state, &other), 7);
        }
    }
    for other in [request(1, 0, 1, b"x"), gap(1, 0, 1, 2), status(1, 0)] {
        assert_eq!(give_refused(&state, &other), 8);
    }
    assert_eq!(give_refused(&state, &status(200, 0)), 8);
    for originator in [3, 16, 255] {
        // Even a number long taken.
        for number in [1, 14, 99] {
            let packet = broadcast(originator, number, 1, 0, b"x");
            assert_eq!(give_refused(&state, &packet), 9);
        }
    }
}

#[test]
fn submit_repeat_and_status() {
    let mut state = at(4, &[1]);
    assert_eq!(refused(&state, |s, out| s.repeat(out)), 15);
    assert_eq!(
        refused(&state, |s, out| s.submit(&[1; PAYLOAD + 1], out)),
        13
    );
    let mut expected = state.clone();
    let answer = submit(&mut state, b"one");
    assert_eq!(answer, (Sent, request(1, 5, 1, b"one")));
    expected.submitted = 1;
    expected.waiting = 1;
    expected.queue[1] = place(1, 1, b"one");
    assert_eq!(state, expected);

    // Up to four more wait behind it, and nothing is written.
    for (count, payload) in [(2, "two"), (3, ""), (4, "four"), (5, "five")] {
        let bytes = payload.as_bytes();
        assert_eq!(submit(&mut state, bytes), (Queued(count), vec![]));
        expected.submitted = count;
        expected.waiting = count as u8;
        expected.queue[count as usize % 5] = place(1, count, bytes);
        assert_eq!(state, expected);
    }

    // Question 13 comes before 14.
    assert_eq!(
        refused(&state, |s, out| s.submit(&[1; PAYLOAD + 1], out)),
        13
    );
    assert_eq!(refused(&state, |s, out| s.submit(&[1; PAYLOAD], out)), 14);
    assert_eq!(refused(&state, |s, out| s.submit(b"", out)), 14);

    // A repeat carries today's row end; a take leaves it.
    let answer = accepted(&mut state, |s, out| s.repeat(out));
    assert_eq!(answer, (Sent, request(1, 5, 1, b"one")));
    take(&mut state);
    let answer = accepted(&mut state, |s, out| s.repeat(out));
    assert_eq!(answer, (Sent, request(1, 5, 1, b"one")));
    give(&mut state, &broadcast(0, 6, 1, 0, b""));
    let before = state.clone();
    let answer = accepted(&mut state, |s, out| s.repeat(out));
    assert_eq!(answer, (Sent, request(1, 6, 1, b"one")));
    let answer = accepted(&mut state, |s, out| s.status(out));
    assert_eq!(answer, (Sent, status(1, 6)));
    assert_eq!(state, before);
}

#[test]
fn taking() {
    let mut state = busy();
    let mut expected = state.clone();
    assert_eq!(take(&mut state), (took(12, 0, 3, true), vec![]));
    expected.taken = 12;
    expected.held &= !(1 << 4);
    expected.places[4] = Place::EMPTY;
    assert_eq!(state, expected);
    assert_eq!(take(&mut state), (took(13, 2, 13, false), b"x".to_vec()));
    expected.taken = 13;
    expected.held &= !(1 << 5);
    expected.places[5] = Place::EMPTY;
    assert_eq!(state, expected);
    // 14 is missing.
    assert_eq!(take(&mut state), (None, vec![]));
    assert_eq!(state, expected);
    give(&mut state, &broadcast(0, 14, 4, 0, b""));
    assert_eq!(take(&mut state), (took(14, 0, 4, true), vec![]));
    assert_eq!(take(&mut state), (took(15, 2, 1, false), vec![6; PAYLOAD]));
    assert_eq!((state.held, state.places), (0, [Place::EMPTY; 8]));
    assert_eq!(state.waiting, 2);
    assert_eq!(take(&mut state), (None, vec![]));
}

#[test]
fn only_its_own_first_count_moves_the_queue() {
    // 5 and 6 wait: another's count 5, an own earlier and two later ones.
    for (originator, count, left) in [(0, 5, 2), (1, 4, 2), (1, 6, 2), (1, 7, 2), (1, 5, 1)] {
        let mut state = busy();
        let mut queue = state.queue;
        state.places[4] = place(originator, count, b"wait");
        assert_eq!(take(&mut state).0, took(12, originator, count, true));
        assert_eq!((state.waiting, state.submitted), (left, 6));
        let first = if left == 1 {
            queue[0] = Place::EMPTY;
            request(1, 13, 6, b"next")
        } else {
            request(1, 13, 5, b"wait")
        };
        assert_eq!(state.queue, queue);
        // The following repeat sends the first.
        assert_eq!(accepted(&mut state, |s, out| s.repeat(out)), (Sent, first));
    }
    // Nothing waits: nothing changes.
    let mut state = busy();
    state.waiting = 0;
    state.queue = [Place::EMPTY; 5];
    state.places[4] = place(1, 6, b"wait");
    take(&mut state);
    assert_eq!((state.waiting, state.submitted), (0, 6));
}

#[test]
fn the_queue_drains_in_order() {
    let mut state = at(0, &[]);
    for count in 1..=5u32 {
        submit(&mut state, &[count as u8]);
    }
    for count in 1..=9u32 {
        let packet = request(1, count - 1, count, &[count as u8]);
        // The request is lost, and repeated.
        for _ in 0..2 {
            let answer = accepted(&mut state, |s, out| s.repeat(out));
            assert_eq!(answer, (Sent, packet.clone()));
        }
        give(&mut state, &broadcast(1, count, count, 0, &[count as u8]));
        take(&mut state);
        if count <= 4 {
            let answer = submit(&mut state, &[count as u8 + 5]);
            assert_eq!(answer, (Queued(count + 5), vec![]));
        }
        assert!(state.is_sound());
    }
    assert_eq!((state.waiting, state.queue), (0, [Place::EMPTY; 5]));
    assert_eq!(refused(&state, |s, out| s.repeat(out)), 15);
}

#[test]
fn broadcasts() {
    // 12, 13 and 15 are held.
    for number in [1, 10, 11, 12, 13, 15] {
        let mut state = busy();
        let answer = give(&mut state, &broadcast(1, number, 1, 0, b"other"));
        assert_eq!((answer, state), ((Old, vec![]), busy()));
    }
    for (number, answer) in [
        (14, (Kept, vec![])),
        (16, (KeptGap, gap(1, 13, 14, 15))),
        (17, (KeptGap, gap(1, 13, 14, 16))),
        (19, (KeptGap, gap(1, 13, 14, 18))),
    ] {
        for floor in [0, 13] {
            let mut state = busy();
            let packet = broadcast(1, number, 9, floor, b"new");
            assert_eq!(give(&mut state, &packet), answer);
            let mut expected = busy();
            expected.accepted = number.max(15);
            expected.held |= 1 << (number % 8);
            expected.places[(number % 8) as usize] = place(1, 9, b"new");
            assert_eq!(state, expected);
            assert_eq!(give(&mut state, &packet), (Old, vec![]));
        }
    }
    for number in [20, 21, 1000, MAX] {
        let mut state = busy();
        let answer = give(&mut state, &broadcast(1, number, 9, 0, b"new"));
        assert_eq!(answer, (BeyondGap, gap(1, 13, 14, 19)));
        let mut expected = busy();
        expected.accepted = number;
        assert_eq!(state, expected);
    }
}

#[test]
fn polls() {
    // 12, 13 and 15 are held; 14 and 16 to 19 are missing.
    for (top, answer) in [
        (0, (Status, status(1, 13))),
        (11, (Status, status(1, 13))),
        (12, (Status, status(1, 13))),
        (13, (Status, status(1, 13))),
        (14, (Gap, gap(1, 13, 14, 14))),
        (15, (Gap, gap(1, 13, 14, 15))),
        (18, (Gap, gap(1, 13, 14, 18))),
        (19, (Gap, gap(1, 13, 14, 19))),
        (20, (Gap, gap(1, 13, 14, 19))),
        (MAX, (Gap, gap(1, 13, 14, 19))),
    ] {
        for floor in [0, top] {
            let mut state = busy();
            assert_eq!(give(&mut state, &poll(top, floor)), answer);
            assert_eq!(state, busy());
        }
    }
    // All eight held: nothing up to t+8 is missing, whatever top is.
    let mut state = at(11, &[1, 2, 3, 4, 5, 6, 7, 8]);
    for top in [11, 19, 20, MAX] {
        assert_eq!(give(&mut state, &poll(top, 0)), (Status, status(1, 19)));
    }
}

/// A number that fills a hole: the row jumps to the next hole.
#[test]
fn the_row_jumps() {
    let mut state = at(11, &[2, 3, 5]);
    let says = |state: &Member| accepted(&mut state.clone(), |s, out| s.status(out)).1;
    assert_eq!(says(&state), status(1, 11));
    assert_eq!(give(&mut state, &broadcast(0, 12, 1, 0, b"")).0, Kept);
    assert_eq!(says(&state), status(1, 14));
    assert_eq!(submit(&mut state, b"u").1, request(1, 14, 1, b"u"));
    // What is held behind the hole is not acknowledged, nor is the gap's own broadcast.
    let answer = give(&mut state, &broadcast(0, 17, 1, 0, b""));
    assert_eq!(answer, (KeptGap, gap(1, 14, 15, 16)));
    assert_eq!(give(&mut state, &broadcast(0, 15, 1, 0, b"")).0, Kept);
    assert_eq!(says(&state), status(1, 17));
    // Takes leave it.
    for _ in 12..=17 {
        take(&mut state);
        assert_eq!(says(&state), status(1, 17));
    }
    assert_eq!(take(&mut state).0, None);
}

/// Every set of held numbers at several t, against plain loops.
#[test]
fn every_window() {
    for t in [0u32, 1, 6, 7, 8, 100, MAX - 8, MAX - 9] {
        for held in 0..256u32 {
            let distances: Vec<u32> = (1..=8).filter(|d| held >> (d - 1) & 1 == 1).collect();
            let state = at(t, &distances);
            let missing: Vec<u32> = (1..=8).filter(|d| !distances.contains(d)).collect();
            let end = t + missing.first().map_or(8, |first| first - 1);
            let answer = accepted(&mut state.clone(), |s, out| s.status(out));
            assert_eq!(answer, (Sent, status(1, end)));
            assert_eq!(submit(&mut state.clone(), b"u").1, request(1, end, 1, b"u"));
            let above = |last: u32| missing.iter().copied().find(|&d| d <= last);
            for distance in 1..=9u32 {
                let Some(number) = t.checked_add(distance) else {
                    continue;
                };
                let packet = broadcast(0, number, 5, 0, b"y");
                let expected = if distances.contains(&distance) {
                    (Old, vec![])
                } else if distance == 9 {
                    match above(8) {
                        Some(d) => (BeyondGap, gap(1, end, t + d, t + 8)),
                        Option::None => (Beyond, vec![]),
                    }
                } else {
                    match above(distance - 1) {
                        Some(d) => (KeptGap, gap(1, end, t + d, number - 1)),
                        Option::None => (Kept, vec![]),
                    }
                };
                assert_eq!(give(&mut state.clone(), &packet), expected);

                let expected = match above(distance.min(8)) {
                    Some(d) => (Gap, gap(1, end, t + d, t + distance.min(8))),
                    Option::None => (Status, status(1, end)),
                };
                assert_eq!(give(&mut state.clone(), &poll(number, 0)), expected);
            }
            let expected = if distances.contains(&1) {
                let more = distances.contains(&2);
                (took(t + 1, 2, t + 1, more), b"x".to_vec())
            } else {
                (None, vec![])
            };
            assert_eq!(take(&mut state.clone()), expected);
        }
    }
}

#[test]
fn the_last_numbers() {
    // t+8 is the largest, or one below it.
    let last = broadcast(0, MAX, 1, 0, b"last");
    let answer = give(&mut at(MAX - 8, &[]), &last);
    assert_eq!(answer, (KeptGap, gap(1, MAX - 8, MAX - 7, MAX - 1)));
    let answer = give(&mut at(MAX - 9, &[]), &last);
    assert_eq!(answer, (BeyondGap, gap(1, MAX - 9, MAX - 8, MAX - 1)));
    let mut state = at(MAX - 9, &[1, 2, 3, 4, 5, 6, 7, 8]);
    assert_eq!(give(&mut state, &last), (Beyond, vec![]));
    let answer = give(&mut at(MAX - 8, &[8]), &last);
    assert_eq!(answer, (Old, vec![]));

    // The window reaches past the largest.
    let mut state = at(MAX - 3, &[]);
    let answer = give(&mut state, &last);
    assert_eq!(answer, (KeptGap, gap(1, MAX - 3, MAX - 2, MAX - 1)));
    let answer = give(&mut state, &poll(MAX, MAX));
    assert_eq!(answer, (Gap, gap(1, MAX - 3, MAX - 2, MAX)));
    assert_eq!(take(&mut state).0, None);
    assert_eq!(give(&mut state, &broadcast(0, 1, 1, 0, b"")).0, Old);
    assert_eq!(give(&mut state, &broadcast(0, MAX - 2, 1, 0, b"")).0, Kept);
    assert_eq!(give(&mut state, &broadcast(0, MAX - 1, 1, 0, b"")).0, Kept);
    assert_eq!(give(&mut state, &poll(MAX, 0)), (Status, status(1, MAX)));
    assert_eq!(take(&mut state).0, took(MAX - 2, 0, 1, true));
    assert_eq!(take(&mut state).0, took(MAX - 1, 0, 1, true));
    assert_eq!(take(&mut state), (took(MAX, 0, 1, false), b"last".to_vec()));

    // Everything was taken.
    assert_eq!(state.taken, MAX);
    assert_eq!(take(&mut state).0, None);
    assert_eq!(give(&mut state, &last).0, Old);
    assert_eq!(give(&mut state, &poll(MAX, 0)), (Status, status(1, MAX)));
    assert_eq!(give(&mut state, &poll(0, 0)), (Status, status(1, MAX)));
    let answer = accepted(&mut state, |s, out| s.status(out));
    assert_eq!(answer, (Sent, status(1, MAX)));

    // The last submission.
    state.submitted = MAX - 1;
    assert_eq!(submit(&mut state, b"u").1, request(1, MAX, MAX, b"u"));
    assert_eq!(refused(&state, |s, out| s.submit(b"", out)), 16);
    let answer = accepted(&mut state, |s, out| s.repeat(out));
    assert_eq!(answer, (Sent, request(1, MAX, MAX, b"u")));
    state.waiting = 0;
    state.queue = [Place::EMPTY; 5];
    assert_eq!(
        refused(&state, |s, out| s.submit(&[0; PAYLOAD + 1], out)),
        13
    );
    assert_eq!(refused(&state, |s, out| s.submit(b"", out)), 16);
    assert_eq!(refused(&state, |s, out| s.repeat(out)), 15);
}
