//! Offers: with a resilience degree r a message is offered as kind 6, members
//! 1 to r answer with kind 7, and kind 8 says up to which number all is
//! accepted.

mod common;

use common::*;
use model::Answer::{self, *};
use model::group::{Event, Run};
use model::limits::PACKET;
use model::member::Member;
use model::place::Place;
use model::sequencer::Sequencer;

fn member(n: u32, number: u32, r: u32) -> Member {
    Member::resilient(n, number, GROUP, r).unwrap()
}

/// A sequencer that numbered `top` messages of member 0, and accepted none.
fn offered(n: u32, r: u32, top: u32) -> Sequencer {
    let mut state = Sequencer::resilient(n, GROUP, r).unwrap();
    for count in 1..=top {
        let answer = hand(&mut state, &request(0, 0, count, b"x"));
        let packet = offer(0, count, count, 0, b"x");
        assert_eq!(answer, (Numbered(count), packet));
    }
    assert_eq!((state.accepted, state.marks), (0, [0; 32]));
    state
}

/// Four members, r = 2: 3 to 8 kept, 5 accepted, some answers to 6 and 7.
fn busy() -> Sequencer {
    let mut state = offered(4, 2, 8);
    hand(&mut state, &confirm(1, 5));
    hand(&mut state, &confirm(2, 5));
    for (member, a) in [(0, 2), (1, 5), (2, 4), (3, 3)] {
        hand(&mut state, &status(member, a));
    }
    hand(&mut state, &confirm(2, 7));
    assert_eq!((state.floor, state.accepted, state.top), (2, 5, 8));
    assert_eq!(state.marks, marks(&[(6, 4), (7, 4)]));
    state
}

/// No marks but those.
fn marks(some: &[(usize, u16)]) -> [u16; 32] {
    let mut marks = [0; 32];
    some.iter().for_each(|&(at, mark)| marks[at] = mark);
    marks
}

fn took(number: u32, originator: u8, count: u32, more: bool) -> Answer {
    Took {
        number,
        originator,
        count,
        more,
    }
}

#[test]
fn opening() {
    for n in 1..=16 {
        for r in 0..n {
            let state = Sequencer::resilient(n, GROUP, r).unwrap();
            assert!(state.is_sound());
            assert_eq!((u32::from(state.n), u32::from(state.resilience)), (n, r));
            assert_eq!((state.accepted, state.marks), (0, [0; 32]));
            for number in 0..n {
                let state = member(n, number, r);
                assert!(state.is_sound());
                assert_eq!((u32::from(state.resilience), state.accepted), (r, 0));
            }
        }
        for r in [n, 16, 255, 256, 257, MAX] {
            assert_eq!(Sequencer::resilient(n, 7, r).unwrap_err().number(), 24);
            assert_eq!(Member::resilient(n, 0, 7, r).unwrap_err().number(), 24);
            // Question 18 comes before.
            assert_eq!(Member::resilient(n, n, 7, r).unwrap_err().number(), 18);
            assert_eq!(Run::resilient(n, 7, r).unwrap_err().number(), 24);
        }
    }
    for n in [0, 17, 256, MAX] {
        for r in [0, n, MAX] {
            assert_eq!(Sequencer::resilient(n, 7, r).unwrap_err().number(), 18);
            assert_eq!(Member::resilient(n, 0, 7, r).unwrap_err().number(), 18);
        }
    }
    // Without a degree it is 0.
    assert_eq!(Sequencer::fresh(3, 7), Sequencer::resilient(3, 7, 0));
    assert_eq!(Member::fresh(3, 1, 7), Member::resilient(3, 1, 7, 0));
}

#[test]
fn an_offer_is_lost_repeated_and_confirmed() {
    let mut sequencer = Sequencer::resilient(3, GROUP, 1).unwrap();
    let (mut one, mut two) = (member(3, 1, 1), member(3, 2, 1));
    let (_, asked) = submit(&mut two, b"ab");
    let offers = offer(2, 1, 1, 0, b"ab");
    assert_eq!(hand(&mut sequencer, &asked), (Numbered(1), offers.clone()));
    // It is lost: a repeated request and a copy call write kind 6 again.
    assert_eq!(hand(&mut sequencer, &asked), (Again(1), offers.clone()));
    assert_eq!(sequencer.repeats[..3], [0, 0, 1]);
    let copy = accepted(&mut sequencer, |s, out| s.copy(1, out));
    assert_eq!(copy, (Sent, offers.clone()));
    // Whoever gets it keeps it, and only member 1 answers, each time.
    assert_eq!(give(&mut two, &offers), (Kept, vec![]));
    assert_eq!(give(&mut two, &offers), (Old, vec![]));
    assert_eq!(give(&mut one, &offers), (Kept, confirm(1, 1)));
    let before = one.clone();
    assert_eq!(give(&mut one, &offers), (Old, confirm(1, 1)));
    assert_eq!(one, before);
    for state in [&mut one, &mut two] {
        assert_eq!(take(state), (None, vec![]));
        assert_eq!((state.held, state.accepted), (2, 0));
    }
    // The answer accepts it, and from then on it goes out as kind 2.
    let mut expected = sequencer.clone();
    let answer = hand(&mut sequencer, &confirm(1, 1));
    assert_eq!(answer, (Accepted, accept(1)));
    expected.accepted = 1;
    assert_eq!(sequencer, expected);
    let broadcasts = broadcast(2, 1, 1, 0, b"ab");
    assert_eq!(hand(&mut sequencer, &asked), (Again(1), broadcasts.clone()));
    let copy = accepted(&mut sequencer, |s, out| s.copy(1, out));
    assert_eq!(copy, (Sent, broadcasts.clone()));
    // Both take it, one told by kind 8 and the other by kind 2.
    assert_eq!(give(&mut one, &accept(1)), (Noted, vec![]));
    assert_eq!(give(&mut two, &broadcasts), (Old, vec![]));
    for state in [&mut one, &mut two] {
        assert_eq!(state.accepted, 1);
        assert_eq!(take(state), (took(1, 2, 1, false), b"ab".to_vec()));
    }
    assert_eq!(two.waiting, 0);
    // A late offer of a taken number is answered, and its answer is old.
    assert_eq!(give(&mut one, &offers), (Old, confirm(1, 1)));
    assert_eq!(give(&mut two, &offers), (Old, vec![]));
    let before = sequencer.clone();
    assert_eq!(hand(&mut sequencer, &confirm(1, 1)), (Old, vec![]));
    assert_eq!(sequencer, before);
}

#[test]
fn two_are_accepted_by_one_answer() {
    let mut state = offered(3, 1, 3);
    let answer = hand(&mut state, &confirm(1, 2));
    assert_eq!(answer, (Accepted, accept(2)));
    assert_eq!((state.accepted, state.marks), (2, [0; 32]));
    // The third waits for its own.
    let copies = [1, 2, 3].map(|number| accepted(&mut state, |s, out| s.copy(number, out)).1[0]);
    assert_eq!(copies, [2, 2, 6]);
    assert_eq!(hand(&mut state, &confirm(1, 1)), (Old, vec![]));
    assert_eq!(hand(&mut state, &confirm(1, 3)), (Accepted, accept(3)));
}

/// An answer is marked for its number and those before it, and the highest
/// number with r marks is accepted.
#[test]
fn marks_of_two() {
    let mut state = offered(4, 2, 4);
    let mut expected = state.clone();
    assert_eq!(hand(&mut state, &confirm(1, 3)), (Marked, vec![]));
    expected.marks = marks(&[(1, 2), (2, 2), (3, 2)]);
    assert_eq!(state, expected);
    // The same again is marked again.
    assert_eq!(hand(&mut state, &confirm(1, 3)), (Marked, vec![]));
    assert_eq!(hand(&mut state, &confirm(1, 1)), (Marked, vec![]));
    assert_eq!(state, expected);
    assert_eq!(hand(&mut state, &confirm(2, 2)), (Accepted, accept(2)));
    expected.accepted = 2;
    expected.marks = marks(&[(3, 2)]);
    assert_eq!(state, expected);
    // 4 has one mark, 3 has two.
    assert_eq!(hand(&mut state, &confirm(2, 4)), (Accepted, accept(3)));
    expected.accepted = 3;
    expected.marks = marks(&[(4, 4)]);
    assert_eq!(state, expected);
    assert_eq!(hand(&mut state, &confirm(1, 4)), (Accepted, accept(4)));
    expected.accepted = 4;
    expected.marks = [0; 32];
    assert_eq!(state, expected);
    for number in 1..=4 {
        assert_eq!(hand(&mut state, &confirm(1, number)), (Old, vec![]));
    }
    assert_eq!(state, expected);
}

/// Of the fifteen others of sixteen members all have to answer, or some.
#[test]
fn every_degree() {
    for n in 2..=16 {
        for r in 1..n {
            let mut state = offered(n, r, 1);
            for answers in 1..r {
                let packet = confirm(answers as u8, 1);
                for _ in 0..2 {
                    assert_eq!(hand(&mut state, &packet), (Marked, vec![]));
                }
                assert_eq!(state.marks[1], ((1 << answers) - 1) << 1);
            }
            let packet = confirm(r as u8, 1);
            assert_eq!(hand(&mut state, &packet), (Accepted, accept(1)));
            assert_eq!((state.accepted, state.marks), (1, [0; 32]));
        }
    }
}

/// An answer acknowledges nothing and is no repeat.
#[test]
fn what_an_answer_leaves() {
    for (packet, answer) in [
        (confirm(1, 6), Accepted),
        (confirm(1, 8), Accepted),
        (confirm(2, 8), Marked),
        (confirm(2, 5), Old),
    ] {
        let before = busy();
        let mut state = busy();
        assert_eq!(hand(&mut state, &packet).0, answer);
        state.accepted = before.accepted;
        state.marks = before.marks;
        assert_eq!(state, before);
    }
}

#[test]
fn who_is_not_expected() {
    let state = busy();
    for number in [6, 7, 8] {
        for other in [0, 3] {
            assert_eq!(hand_refused(&state, &confirm(other, number)), 25);
        }
    }
    // For an accepted number anyone below n is old, also far below floor.
    for number in 1..=5 {
        for other in 0..4 {
            let mut after = state.clone();
            assert_eq!(hand(&mut after, &confirm(other, number)), (Old, vec![]));
            assert_eq!(after, state);
        }
    }
    // Questions 9 and 10 come before.
    for other in [4, 5, 15, 16, 255] {
        assert_eq!(hand_refused(&state, &confirm(other, 6)), 9);
        assert_eq!(hand_refused(&state, &confirm(other, 5)), 9);
    }
    for above in [9, 10, MAX] {
        for any in 0..4 {
            assert_eq!(hand_refused(&state, &confirm(any, above)), 10);
        }
    }
    // Members 0 and r+1, and nobody where r is 0.
    for (n, r) in [(3, 1), (5, 3), (16, 14), (16, 1)] {
        let state = offered(n, r, 1);
        for other in [0, r + 1, n - 1] {
            assert_eq!(hand_refused(&state, &confirm(other as u8, 1)), 25);
        }
    }
    let mut state = busy();
    state.resilience = 0;
    state.marks = [0; 32];
    for any in 0..4 {
        assert_eq!(hand_refused(&state, &confirm(any, 6)), 25);
    }
}

/// Kinds 1, 3 and 4 acknowledge accepted numbers alone; a gap may still ask
/// for offered ones.
#[test]
fn acknowledgements_of_accepted_numbers() {
    for packet in [status(3, 5), request(0, 5, 9, b""), gap(3, 5, 6, 8)] {
        hand(&mut busy(), &packet);
    }
    for above in [6, 7, 8, 9, MAX - 1] {
        for packet in [
            status(3, above),
            request(0, above, 9, b""),
            request(0, above, 8, b""),
            gap(3, above, above + 1, above + 1),
        ] {
            assert_eq!(hand_refused(&busy(), &packet), 10);
        }
    }
    assert_eq!(hand_refused(&busy(), &gap(3, 5, 6, 9)), 12);
    let mut state = busy();
    assert_eq!(hand(&mut state, &gap(3, 5, 6, 8)), (Wanted(6, 8), vec![]));
    for (number, kind) in [(4, 2), (5, 2), (6, 6), (7, 6), (8, 6)] {
        let (answer, bytes) = accepted(&mut state, |s, out| s.copy(number, out));
        assert_eq!((answer, bytes[0]), (Sent, kind));
        assert_eq!(bytes[16..20], [0, 0, 0, 2]);
    }
    // Floor comes up to the last accepted number, and no further.
    for any in 0..4 {
        assert_eq!(hand(&mut state, &status(any, 5)), (Noted, vec![]));
    }
    assert_eq!((state.floor, state.accepted, state.top), (5, 5, 8));
    assert!(
        state.history[3..=5]
            .iter()
            .all(|&place| place == Place::EMPTY)
    );
    assert_eq!(state.marks, busy().marks);
}

type Change = fn(&mut Sequencer);

#[test]
fn unsound_marks() {
    let changes: &[(&str, Change)] = &[
        ("member 0 marked", |s| s.marks[6] |= 1),
        ("member r+1 marked", |s| s.marks[6] |= 8),
        ("a member marked that is not there", |s| s.marks[7] |= 16),
        ("the last bit", |s| s.marks[8] |= 1 << 15),
        ("a mark of an accepted number", |s| s.marks[5] = 2),
        ("a mark at floor", |s| s.marks[2] = 2),
        ("a mark above top", |s| s.marks[9] = 2),
        ("a mark in the first place", |s| s.marks[0] = 2),
        ("a mark in the last place", |s| s.marks[31] = 4),
        ("accepted with its marks", |s| s.accepted = 6),
        ("a degree below the marks", |s| s.resilience = 1),
        ("no degree", |s| s.resilience = 0),
        ("degree n", |s| s.resilience = 4),
        ("degree 16", |s| s.resilience = 16),
        ("degree 255", |s| s.resilience = 255),
        ("accepted below floor", |s| s.accepted = 1),
        ("accepted above top", |s| s.accepted = 9),
        ("accepted largest", |s| s.accepted = MAX),
    ];
    for (name, change) in changes {
        let mut state = busy();
        change(&mut state);
        assert!(!state.is_sound(), "{name}");
        for lent in [0, PACKET] {
            let call = |s: &mut Sequencer, out: &mut [u8]| s.receive(&confirm(1, 6), out);
            assert_eq!(refused_lent(&state, lent, call), 1);
            assert_eq!(refused_lent(&state, lent, |s, out| s.poll(out)), 1);
            assert_eq!(refused_lent(&state, lent, |s, out| s.copy(4, out)), 1);
        }
    }
}

#[test]
fn no_other_mark_is_unsound() {
    let changes: &[Change] = &[
        |s| s.marks = [0; 32],
        |s| s.marks[8] = 2,
        // Marks need not be fewer than r, nor fall from number to number.
        |s| s.marks[8] = 6,
        |s| s.marks = marks(&[(6, 6), (7, 6), (8, 6)]),
        |s| s.resilience = 3,
        // Acknowledgements may lie above the last accepted number.
        |s| s.acknowledged[3] = 8,
        |s| s.accepted = 4,
        |s| s.accepted = 2,
        |s| {
            s.accepted = 8;
            s.marks = [0; 32];
        },
    ];
    for change in changes {
        let mut state = busy();
        change(&mut state);
        assert!(state.is_sound());
        assert_eq!(accepted(&mut state, |s, out| s.poll(out)).1, poll(8, 2));
    }
    // The highest with r marks counts, also above the answer's number.
    for (at, mark) in [(6, Accepted), (8, Accepted)] {
        let mut state = busy();
        state.marks[at] = 6;
        let answer = hand(&mut state, &confirm(2, 6));
        assert_eq!(answer, (mark, accept(at as u32)));
        assert_eq!(state.accepted, at as u32);
        let left = if at == 6 { marks(&[(7, 4)]) } else { [0; 32] };
        assert_eq!(state.marks, left);
    }
}

/// Answered with Kept or Old if nothing up to it is missing: not over a hole.
#[test]
fn a_hole_bars_the_answer() {
    let mut state = member(3, 1, 1);
    let offers: Vec<_> = (0..=12)
        .map(|number| offer(0, number, number, 0, b"x"))
        .collect();
    assert_eq!(give(&mut state, &offers[2]), (KeptGap, gap(1, 0, 1, 1)));
    assert_eq!(give(&mut state, &offers[2]), (Old, vec![]));
    assert_eq!(give(&mut state, &offers[9]), (BeyondGap, gap(1, 0, 1, 8)));
    assert_eq!(give(&mut state, &offers[1]), (Kept, confirm(1, 1)));
    assert_eq!(give(&mut state, &offers[2]), (Old, confirm(1, 2)));
    assert_eq!(give(&mut state, &offers[4]), (KeptGap, gap(1, 0, 3, 3)));
    assert_eq!(give(&mut state, &offers[4]), (Old, vec![]));
    // The answer is for the offer that came, not for all that it has.
    assert_eq!(give(&mut state, &offers[3]), (Kept, confirm(1, 3)));
    assert_eq!(give(&mut state, &offers[1]), (Old, confirm(1, 1)));
    assert_eq!(give(&mut state, &offers[4]), (Old, confirm(1, 4)));
    for (number, packet) in (5..).zip(&offers[5..=8]) {
        assert_eq!(give(&mut state, packet), (Kept, confirm(1, number)));
    }
    let before = state.clone();
    assert_eq!(give(&mut state, &offers[9]), (Beyond, vec![]));
    assert_eq!(give(&mut state, &offers[12]), (Beyond, vec![]));
    assert_eq!(state, before);
    // Kinds 2, 5 and 8 are not answered with kind 7.
    assert_eq!(
        give(&mut state, &broadcast(0, 1, 1, 0, b"x")),
        (Old, vec![])
    );
    assert_eq!(give(&mut state, &poll(8, 0)), (Status, status(1, 1)));
    assert_eq!(give(&mut state, &accept(3)), (Noted, vec![]));
}

/// Members 1 to r answer, and nobody else.
#[test]
fn who_answers() {
    for n in 1..=16 {
        for r in 0..n {
            for number in 0..n {
                let answer = give(&mut member(n, number, r), &offer(0, 1, 1, 0, b""));
                let packet = if (1..=r).contains(&number) {
                    confirm(number as u8, 1)
                } else {
                    vec![]
                };
                assert_eq!(answer, (Kept, packet));
            }
        }
    }
}

/// The acknowledged row stops at the last accepted number.
#[test]
fn the_row_of_accepted_messages() {
    let mut state = member(2, 1, 1);
    for number in 1..=3 {
        give(&mut state, &offer(0, number, number, 0, b"x"));
    }
    let says = |state: &Member| accepted(&mut state.clone(), |s, out| s.status(out)).1;
    assert_eq!((state.reach(), state.row_end()), (3, 0));
    assert_eq!(says(&state), status(1, 0));
    assert_eq!(submit(&mut state.clone(), b"u").1, request(1, 0, 1, b"u"));
    // For what is missing offered ones are held.
    assert_eq!(give(&mut state, &poll(3, 0)), (Status, status(1, 0)));
    assert_eq!(give(&mut state, &poll(5, 0)), (Gap, gap(1, 0, 4, 5)));
    give(&mut state, &accept(2));
    assert_eq!((state.reach(), state.row_end()), (3, 2));
    assert_eq!(says(&state), status(1, 2));
    assert_eq!(submit(&mut state.clone(), b"u").1, request(1, 2, 1, b"u"));
    let answer = give(&mut state, &offer(0, 5, 5, 0, b"x"));
    assert_eq!(answer, (KeptGap, gap(1, 2, 4, 4)));
    assert_eq!(give(&mut state, &poll(5, 0)), (Gap, gap(1, 2, 4, 5)));
    // An acceptance above what it has: the row is what it has.
    give(&mut state, &accept(9));
    assert_eq!((state.reach(), state.row_end()), (3, 3));
    assert_eq!(says(&state), status(1, 3));
    // A late one lowers nothing.
    give(&mut state, &accept(1));
    assert_eq!(state.accepted, 9);
}

#[test]
fn take_and_more_of_accepted_messages() {
    let mut state = member(2, 0, 1);
    for number in [1, 2, 3, 5] {
        give(&mut state, &offer(1, number, number, 0, &[number as u8]));
    }
    let before = state.clone();
    assert_eq!(take(&mut state), (None, vec![]));
    assert_eq!(state, before);
    give(&mut state, &accept(1));
    assert_eq!(take(&mut state), (took(1, 1, 1, false), vec![1]));
    assert_eq!(take(&mut state), (None, vec![]));
    give(&mut state, &accept(3));
    assert_eq!(take(&mut state), (took(2, 1, 2, true), vec![2]));
    assert_eq!(take(&mut state), (took(3, 1, 3, false), vec![3]));
    // Accepted and not held.
    give(&mut state, &accept(5));
    assert_eq!(take(&mut state), (None, vec![]));
    give(&mut state, &offer(1, 4, 4, 0, &[4]));
    assert_eq!(take(&mut state), (took(4, 1, 4, true), vec![4]));
    assert_eq!(take(&mut state), (took(5, 1, 5, false), vec![5]));
    assert_eq!((state.taken, state.held), (5, 0));
}

/// Kind 8 accepts what comes later as well.
#[test]
fn an_acceptance_before_its_message() {
    let mut state = member(3, 1, 2);
    let mut expected = state.clone();
    assert_eq!(give(&mut state, &accept(2)), (Noted, vec![]));
    expected.accepted = 2;
    assert_eq!(state, expected);
    assert_eq!(take(&mut state).0, None);
    for number in 1..=3 {
        let answer = give(&mut state, &offer(0, number, number, 0, b""));
        assert_eq!(answer, (Kept, confirm(1, number)));
    }
    assert_eq!(take(&mut state).0, took(1, 0, 1, true));
    assert_eq!(take(&mut state).0, took(2, 0, 2, false));
    assert_eq!(take(&mut state).0, None);
    assert_eq!(give(&mut state, &accept(MAX)), (Noted, vec![]));
    assert_eq!(take(&mut state).0, took(3, 0, 3, false));
}

/// A kind 2 accepts all up to it, whatever its answer.
#[test]
fn a_broadcast_accepts_all_up_to_it() {
    let mut held = member(2, 0, 1);
    for number in [1, 2, 4] {
        give(&mut held, &offer(1, number, number, 0, b"x"));
    }
    for (number, answer) in [
        (1, (Old, vec![])),
        (2, (Old, vec![])),
        (3, (Kept, vec![])),
        (4, (Old, vec![])),
        // The gap packet acknowledges what was just accepted.
        (5, (KeptGap, gap(0, 2, 3, 4))),
        (8, (KeptGap, gap(0, 2, 3, 7))),
        (9, (BeyondGap, gap(0, 2, 3, 8))),
        (MAX, (BeyondGap, gap(0, 2, 3, 8))),
    ] {
        let mut state = held.clone();
        let packet = broadcast(1, number, number, 0, b"x");
        assert_eq!(give(&mut state, &packet), answer);
        assert_eq!(state.accepted, number);
        assert_eq!(take(&mut state).0, took(1, 1, 1, number > 1));
        // One that is refused accepts nothing.
        let mut other = packet.clone();
        other[1] = 2;
        assert_eq!(give_refused(&held, &other), 9);
    }
    for number in [3, 5, 6, 7, 8] {
        give(&mut held, &offer(1, number, number, 0, b"x"));
    }
    let mut expected = held.clone();
    let answer = give(&mut held, &broadcast(1, 9, 9, 0, b"x"));
    assert_eq!(answer, (Beyond, vec![]));
    expected.accepted = 9;
    assert_eq!(held, expected);
    // An earlier one lowers nothing; an offer accepts nothing.
    give(&mut held, &broadcast(1, 4, 4, 0, b"x"));
    give(&mut held, &offer(1, 10, 10, 0, b"x"));
    assert_eq!(held, expected);
}

/// Kinds 6 and 8 go to members, kind 7 to the sequencer.
#[test]
fn the_other_end() {
    let sequencer = busy();
    for packet in [offer(0, 9, 9, 5, b"x"), accept(5), offer(99, 9, 9, 5, b"")] {
        assert_eq!(hand_refused(&sequencer, &packet), 8);
    }
    let state = member(4, 1, 2);
    for packet in [confirm(1, 1), confirm(99, 1)] {
        assert_eq!(give_refused(&state, &packet), 8);
    }
    for originator in [4, 16, 255] {
        assert_eq!(give_refused(&state, &offer(originator, 1, 1, 0, b"")), 9);
    }
    for faulty in [
        offer(0, 0, 1, 0, b"x"),
        offer(0, 1, 0, 0, b"x"),
        offer(0, 1, 1, 1, b"x"),
        accept(0),
        packet(8, 1, [1, 0, 0], b""),
        packet(8, 0, [1, 1, 0], b""),
        packet(8, 0, [1, 0, 1], b""),
        confirm(0, 0),
        packet(7, 1, [1, 1, 0], b""),
        packet(7, 1, [1, 0, 1], b""),
    ] {
        assert_eq!(give_refused(&state, &faulty), 6);
        assert_eq!(hand_refused(&sequencer, &faulty), 6);
    }
    for kind in [7, 8] {
        let faulty = packet(kind, 0, [1, 0, 0], b"x");
        assert_eq!(give_refused(&state, &faulty), 5);
        assert_eq!(hand_refused(&sequencer, &faulty), 5);
    }
}

/// With r = 0 a message is accepted when numbered.
#[test]
fn no_offers() {
    let mut state = Sequencer::resilient(3, GROUP, 0).unwrap();
    for count in 1..=3 {
        let answer = hand(&mut state, &request(0, 0, count, b""));
        assert_eq!(
            answer,
            (Numbered(count), broadcast(0, count, count, 0, b""))
        );
        assert_eq!((state.accepted, state.marks), (count, [0; 32]));
    }
    for any in 0..3 {
        assert_eq!(hand(&mut state, &confirm(any, 3)), (Old, vec![]));
        assert_eq!(hand_refused(&state, &confirm(any, 4)), 10);
    }
    // Even where the state says otherwise, the next accepts all.
    state.accepted = 1;
    assert!(state.is_sound());
    let answer = hand(&mut state, &request(0, 0, 3, b""));
    assert_eq!(answer, (Again(3), offer(0, 3, 3, 0, b"")));
    let answer = hand(&mut state, &request(0, 0, 4, b""));
    assert_eq!(answer, (Numbered(4), broadcast(0, 4, 4, 0, b"")));
    assert_eq!(state.accepted, 4);
}

#[test]
fn the_last_numbers() {
    let mut state = Sequencer::resilient(2, GROUP, 1).unwrap();
    state.top = MAX - 1;
    state.floor = MAX - 1;
    state.accepted = MAX - 1;
    state.acknowledged[..2].copy_from_slice(&[MAX - 1; 2]);
    state.counts[..2].copy_from_slice(&[5, 0]);
    let last = offer(0, MAX, 6, MAX - 1, b"last");
    let answer = hand(&mut state, &request(0, MAX - 1, 6, b"last"));
    assert_eq!(answer, (Numbered(MAX), last.clone()));
    assert_eq!(hand_refused(&state, &status(1, MAX)), 10);
    assert_eq!(hand_refused(&state, &request(0, 0, 7, b"")), 16);
    assert_eq!(hand_refused(&state, &confirm(0, MAX)), 25);
    let mut one = member(2, 1, 1);
    one.taken = MAX - 1;
    one.accepted = MAX - 1;
    assert_eq!(give(&mut one, &last), (Kept, confirm(1, MAX)));
    assert_eq!(take(&mut one).0, None);
    let answer = hand(&mut state, &confirm(1, MAX));
    assert_eq!(answer, (Accepted, accept(MAX)));
    assert_eq!(give(&mut one, &accept(MAX)), (Noted, vec![]));
    assert_eq!(take(&mut one), (took(MAX, 0, 6, false), b"last".to_vec()));
    assert_eq!(give(&mut one, &last), (Old, confirm(1, MAX)));
    for any in 0..2 {
        assert_eq!(hand(&mut state, &status(any, MAX)).0, Noted);
    }
    assert_eq!((state.floor, state.history), (MAX, [Place::EMPTY; 32]));
    assert_eq!(hand(&mut state, &confirm(1, MAX)).0, Old);
}

/// Marks go round the places with their numbers.
#[test]
fn marks_wrap_around_the_places() {
    let mut state = Sequencer::resilient(3, GROUP, 2).unwrap();
    for number in 1..=100 {
        let answer = hand(&mut state, &request(0, number - 1, number, b""));
        let floor = (number - 1) / 20 * 20;
        let packet = offer(0, number, number, floor, b"");
        assert_eq!(answer, (Numbered(number), packet));
        assert_eq!(hand(&mut state, &confirm(2, number)), (Marked, vec![]));
        assert_eq!(state.marks, marks(&[(number as usize % 32, 4)]));
        let answer = hand(&mut state, &confirm(1, number));
        assert_eq!(answer, (Accepted, accept(number)));
        assert_eq!(state.marks, [0; 32]);
        if number % 20 == 0 {
            for any in 0..3 {
                hand(&mut state, &status(any, number));
            }
        }
    }
}

/// A member's message is numbered; its offer.
fn number(run: &mut Run, member: usize) -> usize {
    let payload = vec![member as u8];
    let sent = run.step(Event::Submit { member, payload }).unwrap();
    let packet = sent.packet.unwrap();
    let numbered = run.step(Event::ToSequencer { packet }).unwrap();
    assert!(matches!(numbered.answer, Numbered(_)));
    numbered.packet.unwrap()
}

fn answer(run: &mut Run, event: Event) -> (Answer, Option<usize>) {
    let outcome = run.step(event).unwrap();
    (outcome.answer, outcome.packet)
}

/// Members 1 and 2 have 2, and nobody has 1: were 2 answered over the hole,
/// member 0 would take 1 alone.
#[test]
fn nobody_takes_what_only_member_0_has() {
    let mut run = Run::resilient(3, GROUP, 1).unwrap();
    let first = number(&mut run, 0);
    let second = number(&mut run, 2);
    let to = |packet, member| Event::ToMember { packet, member };
    let (told, gap) = answer(&mut run, to(second, 1));
    assert_eq!(told, KeptGap);
    assert_eq!(run.group.packets[gap.unwrap()][0], 3);
    let old = (Old, Option::None);
    assert_eq!(answer(&mut run, to(second, 1)), old);
    assert_eq!(answer(&mut run, to(first, 0)), (Kept, Option::None));
    assert_eq!(answer(&mut run, Event::Take { member: 0 }).0, None);
    assert_eq!(run.group.sequencer.accepted, 0);
    assert!(run.owed(0).is_empty());
}

/// The expected member takes nothing: once its eight places are full nothing
/// more is accepted, until it takes.
#[test]
fn an_expected_member_sleeps() {
    let mut run = Run::resilient(2, GROUP, 1).unwrap();
    let to = |packet, member| Event::ToMember { packet, member };
    for accepted in 1..=8 {
        let packet = number(&mut run, 0);
        let confirms = answer(&mut run, to(packet, 1)).1.unwrap();
        let (told, accepts) = answer(&mut run, Event::ToSequencer { packet: confirms });
        assert_eq!(told, Accepted);
        answer(&mut run, to(packet, 0));
        for member in 0..2 {
            assert_eq!(answer(&mut run, to(accepts.unwrap(), member)).0, Noted);
        }
        let Took { number, .. } = answer(&mut run, Event::Take { member: 0 }).0 else {
            panic!("accepted and held");
        };
        assert_eq!(number, accepted);
    }
    let ninth = number(&mut run, 0);
    assert_eq!(answer(&mut run, to(ninth, 1)), (Beyond, Option::None));
    assert_eq!(answer(&mut run, to(ninth, 0)), (Kept, Option::None));
    assert_eq!(answer(&mut run, Event::Take { member: 0 }).0, None);
    assert_eq!(run.group.sequencer.accepted, 8);
    // A closing round wakes it, and leaves the ninth in the history.
    run.closing_round();
    let sequencer = &run.group.sequencer;
    assert_eq!(
        (sequencer.floor, sequencer.accepted, sequencer.top),
        (8, 8, 9)
    );
    assert_eq!(
        sequencer
            .history
            .iter()
            .filter(|&&place| place != Place::EMPTY)
            .count(),
        1
    );
    let (told, confirms) = answer(&mut run, to(ninth, 1));
    assert_eq!(told, Kept);
    let packet = confirms.unwrap();
    let (told, _) = answer(&mut run, Event::ToSequencer { packet });
    assert_eq!(told, Accepted);
}
