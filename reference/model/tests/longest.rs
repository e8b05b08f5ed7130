//! The longest closing round: a list for each n that leads to it, and no
//! list that leads to a longer one.

mod common;

use common::{GROUP, MAX, Random};
use model::answer::Answer;
use model::group::{Event, Run};
use model::limits::MEMBERS;
use model::longest::{longest_closing, slowest};
use model::place::Place;

/// A fresh group after a list of events.
fn after(n: usize, group: u32, events: &[Event]) -> Run {
    let mut run = Run::fresh(n as u32, group).unwrap();
    for event in events {
        run.step(event.clone());
    }
    run
}

/// Every event of a run was accepted.
fn all_accepted(run: &Run) -> bool {
    run.log.iter().all(|(_, outcome)| {
        outcome
            .as_ref()
            .is_some_and(|outcome| !matches!(outcome.answer, Answer::Refused(_)))
    })
}

#[test]
fn the_figure() {
    let figures: Vec<usize> = (1..=MEMBERS).map(longest_closing).collect();
    assert_eq!(figures[..4], [5, 114, 223, 332]);
    assert_eq!(figures[15], 1640);
}

/// After the list the round takes exactly as many events as the figure says,
/// every one of them and of the list accepted, and empties the history.
#[test]
fn the_list_reaches_the_figure() {
    for n in 1..=MEMBERS {
        for group in [GROUP, 0, 1, MAX] {
            let events = slowest(n);
            assert_eq!(events.len(), 152 + 8 * n);
            let mut run = after(n, group, &events);
            assert!(all_accepted(&run));
            let sequencer = &run.group.sequencer;
            assert_eq!(sequencer.top, 40);
            assert_eq!(sequencer.floor, if n == 1 { 39 } else { 8 });
            for (member, state) in run.group.members.iter().enumerate() {
                let (taken, end) = match member {
                    0 => (40 - n as u32, 40 - n as u32),
                    _ => (0, 8),
                };
                assert_eq!((state.taken, state.row_end()), (taken, end));
            }

            let order = run.order();
            assert_eq!(run.closing_round(), longest_closing(n));
            assert!(all_accepted(&run));
            assert_eq!(run.group.sequencer.floor, 40);
            assert_eq!(run.group.sequencer.history, [Place::EMPTY; 32]);
            assert_eq!(run.order(), order);
            assert!((0..n).all(|member| run.taken(member) == order));
        }
    }
}

/// An event of any kind.
fn any_event(random: &mut Random, n: usize) -> Event {
    let member = random.below(n);
    let packet = random.below(100);
    match random.below(8) {
        0 => Event::Submit {
            member,
            payload: vec![random.next() as u8],
        },
        1 => Event::Repeat { member },
        2 => Event::Take { member },
        3 => Event::Status { member },
        4 => Event::Poll,
        5 => Event::Copy {
            number: random.below(42) as u32,
        },
        6 => Event::ToMember { packet, member },
        _ => Event::ToSequencer { packet },
    }
}

/// The list with a few events lost, doubled, swapped, put in and appended.
fn changed(random: &mut Random, n: usize) -> Vec<Event> {
    let mut events = slowest(n);
    for _ in 0..1 + random.below(4) {
        let at = random.below(events.len());
        let other = random.below(events.len());
        match random.below(5) {
            0 => drop(events.remove(at)),
            1 => events.insert(other, events[at].clone()),
            2 => events.swap(at, other),
            3 => events.insert(at, any_event(random, n)),
            _ => events.push(any_event(random, n)),
        }
    }
    events
}

/// Lists near the slowest one: some reach the figure, none passes it.
#[test]
fn no_list_near_it_passes_the_figure() {
    for n in 1..=MEMBERS {
        let mut random = Random::seeded(n as u64);
        let mut reached = 0;
        let mut below = 0;
        for _ in 0..400 {
            let events = changed(&mut random, n);
            let mut run = after(n, GROUP, &events);
            let length = run.closing_round();
            assert!(length <= longest_closing(n), "{n}: {length}: {events:?}");
            assert_eq!(run.group.sequencer.history, [Place::EMPTY; 32]);
            if length == longest_closing(n) {
                reached += 1;
            } else {
                below += 1;
            }
        }
        assert!(reached > 20 && below > 20, "{n}: {reached}, {below}");
    }
}
