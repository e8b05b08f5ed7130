//! The schedules of the longest closing round.

use model::group::{Event, Run};
use model::limits::MEMBERS;
use model::longest::{longest_closing, slowest};
use schedules::{Schedule, longest};

/// The events of a schedule.
fn events(schedule: &Schedule) -> Vec<Event> {
    let lines = schedule.text.split(|&byte| byte == b'\n');
    let events = lines.skip(1).filter(|line| !line.is_empty());
    events
        .map(|line| model::play::event(line).unwrap())
        .collect()
}

/// They are the lists that the model has, and the rounds that follow them;
/// the answers are the document's.
#[test]
fn lists_and_rounds() {
    let schedules = longest::schedules();
    assert_eq!(schedules.len(), 5);
    for (schedule, n) in schedules.iter().zip([1, 2, 3, 4, MEMBERS]) {
        let mut run = Run::fresh(n as u32, 7).unwrap();
        for event in slowest(n) {
            run.step(event);
        }
        if n < MEMBERS {
            assert_eq!(run.closing_round(), longest_closing(n));
        }
        let happened: Vec<Event> = run.log.into_iter().map(|(event, _)| event).collect();
        assert_eq!(events(schedule), happened);
        let played = String::from_utf8(schedule.played()).unwrap();
        assert_eq!(Some(played), schedule.expected);
    }
}
