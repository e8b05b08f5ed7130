//! Schedules with resets, for `recover`: written by hand with the answers that
//! the document gives, lines of another form, and random ones.

use crate::Schedule;
use crate::random::Random;
use model::answer::Answer;
use model::group::Outcome;
use model::limits::PAYLOAD;
use model::packet;
use model::play::PACKETS;
use model::terminal::Terminal;
use model::world::{Event, World};
use std::fmt::Write as _;

/// What the reference prints for an input.
pub fn recovered(text: &[u8]) -> Vec<u8> {
    let mut output = Vec::new();
    model::recover::recover(text, &mut output).expect("writing to memory");
    output
}

/// Every stored schedule with resets, in the order of their numbers.
pub fn schedules() -> Vec<Schedule> {
    let mut schedules: Vec<Schedule> = HAND
        .iter()
        .map(|(shows, told)| story(shows, told))
        .collect();
    schedules.push(no_space());
    schedules.extend(malformed());
    schedules.extend((0..8).map(|seed| random(seed, 3 + seed as usize % 3)));
    schedules.extend((8..16).map(|seed| random(seed, 2 * seed as usize - 15)));
    schedules
}

/// A schedule told line by line: each event with its answer behind a bar, then
/// what is printed at the end.
fn story(shows: &str, told: &str) -> Schedule {
    let (mut text, mut expected) = (String::new(), String::new());
    let mut number = 0;
    for line in told.lines() {
        match line.split_once(" | ") {
            Some((event, answer)) => {
                number += 1;
                writeln!(text, "{event}").expect("writing to memory");
                writeln!(expected, "{number} {answer}").expect("writing to memory");
            }
            None if number == 0 => writeln!(text, "{line}").expect("writing to memory"),
            None => writeln!(expected, "{line}").expect("writing to memory"),
        }
    }
    Schedule {
        shows: shows.into(),
        text: text.into(),
        expected: Some(expected),
    }
}

/// What each shows, and the schedule itself.
const HAND: &[(&str, &str)] = &[
    (
        "the sequencer's terminal burns out: two are left, and 2, which has more, goes on",
        "N 3 7\n\
         S 0 6162 | sent 0\n\
         Q 0 0 | numbered 1 1\n\
         M 1 1 | kept\n\
         M 1 2 | kept\n\
         T 2 | took 1 0 1 6162 last\n\
         S 1 63 | sent 2\n\
         Q 2 0 | numbered 2 3\n\
         M 3 2 | kept\n\
         I 1 9 | sent 4\n\
         M 4 2 | noted 5\n\
         M 5 1 | noted\n\
         G 1 2 | sent 6\n\
         M 6 2 | noted\n\
         R 1 | sent 7\n\
         Q 7 2 | again 2 8\n\
         M 8 1 | kept\n\
         T 1 | took 1 0 1 6162 more\n\
         T 1 | took 2 1 1 63 last\n\
         S 2 - | sent 9\n\
         Q 9 2 | numbered 3 10\n\
         P 2 | sent 11\n\
         M 11 1 | gap 12\n\
         Q 12 2 | wanted 3 3\n\
         Q 9 0 | refused 7\n\
         P 0 | sent 13\n\
         M 13 1 | refused 6\n\
         M 11 0 | refused 6\n\
         terminal 0 group 7 taken 0 elected 0 survivors 0 1 2\n\
         sequencer 0 group 7 top 2 floor 0\n\
         terminal 1 group 9 taken 2 elected 2 survivors 1 2\n\
         terminal 2 group 9 taken 1 elected 2 survivors 1 2\n\
         sequencer 2 group 9 top 3 floor 2\n",
    ),
    (
        "all survive: the sequencer stays one, with its history, and nothing is cut",
        "N 3 7 1\n\
         S 2 61 | sent 0\n\
         Q 0 0 | numbered 1 1\n\
         M 1 2 | kept\n\
         I 0 8 | sent 2\n\
         M 2 1 | noted 3\n\
         M 2 2 | noted 4\n\
         M 1 1 | refused 7\n\
         Q 0 0 | refused 7\n\
         C 0 1 | sent 5\n\
         M 3 0 | noted\n\
         M 4 0 | noted\n\
         M 4 0 | noted\n\
         G 0 4 | refused 26\n\
         G 0 3 | sent 6\n\
         M 6 1 | noted\n\
         M 6 2 | noted\n\
         T 2 | took 1 2 1 61 last\n\
         C 0 1 | sent 7\n\
         M 7 1 | kept\n\
         T 1 | took 1 2 1 61 last\n\
         M 5 1 | refused 7\n\
         terminal 0 group 8 taken 0 elected 0 survivors 0 1 2\n\
         sequencer 0 group 8 top 1 floor 0\n\
         terminal 1 group 8 taken 1 elected 0 survivors 0 1 2\n\
         terminal 2 group 8 taken 1 elected 0 survivors 0 1 2\n",
    ),
    (
        "among equals the lowest becomes sequencer, also where the other was one",
        "N 3 7\n\
         S 0 - | sent 0\n\
         Q 0 0 | numbered 1 1\n\
         M 1 2 | kept\n\
         I 1 8 | sent 2\n\
         M 2 2 | noted 3\n\
         M 3 1 | noted\n\
         G 1 2 | sent 4\n\
         M 4 2 | noted\n\
         C 2 1 | sent 5\n\
         M 5 1 | kept\n\
         S 2 63 | sent 6\n\
         I 2 9 | sent 7\n\
         M 7 1 | noted 8\n\
         M 8 2 | noted\n\
         G 2 2 | sent 9\n\
         M 9 1 | noted\n\
         Q 6 2 | refused 7\n\
         R 2 | sent 10\n\
         Q 10 2 | refused 7\n\
         Q 10 1 | numbered 2 11\n\
         M 11 2 | kept\n\
         C 2 1 | sent 12\n\
         M 12 1 | refused 7\n\
         P 2 | sent 13\n\
         M 13 1 | refused 6\n\
         terminal 0 group 7 taken 0 elected 0 survivors 0 1 2\n\
         sequencer 0 group 7 top 1 floor 0\n\
         terminal 1 group 9 taken 0 elected 1 survivors 1 2\n\
         sequencer 1 group 9 top 2 floor 0\n\
         terminal 2 group 9 taken 0 elected 1 survivors 1 2\n\
         sequencer 2 group 8 top 1 floor 0 frozen\n",
    ),
    (
        "a message that its originator holds is purged everywhere: behind the reset its repeat is old",
        "N 3 7\n\
         S 1 6162 | sent 0\n\
         Q 0 0 | numbered 1 1\n\
         M 1 0 | kept\n\
         M 1 1 | kept\n\
         M 1 2 | kept\n\
         A 0 | sent 2\n\
         Q 2 0 | noted\n\
         A 1 | sent 3\n\
         Q 3 0 | noted\n\
         A 2 | sent 4\n\
         Q 4 0 | noted\n\
         P 0 | sent 5\n\
         M 5 1 | status 6\n\
         I 1 8 | sent 7\n\
         M 7 2 | noted 8\n\
         M 8 1 | noted\n\
         G 1 1 | sent 9\n\
         M 9 2 | noted\n\
         R 1 | sent 10\n\
         Q 10 1 | old\n\
         C 1 1 | refused 17\n\
         T 1 | took 1 1 1 6162 last\n\
         R 1 | refused 15\n\
         terminal 0 group 7 taken 0 elected 0 survivors 0 1 2\n\
         sequencer 0 group 7 top 1 floor 1\n\
         terminal 1 group 8 taken 1 elected 1 survivors 1 2\n\
         sequencer 1 group 8 top 1 floor 1\n\
         terminal 2 group 8 taken 0 elected 1 survivors 1 2\n",
    ),
    (
        "an offer that 3 alone has is accepted at all; with 3 lost number 1 is another message",
        "N 4 7 1\n\
         S 0 61 | sent 0\n\
         Q 0 0 | numbered 1 1\n\
         M 1 3 | kept\n\
         I 1 8 | sent 2\n\
         M 2 2 | noted 3\n\
         M 2 3 | noted 4\n\
         M 3 1 | noted\n\
         M 4 1 | noted\n\
         G 1 3 | sent 5\n\
         M 5 2 | noted\n\
         M 5 3 | noted\n\
         T 3 | took 1 0 1 61 last\n\
         I 2 9 | sent 6\n\
         M 6 1 | noted 7\n\
         M 7 2 | noted\n\
         G 2 2 | sent 8\n\
         M 8 1 | noted\n\
         S 1 63 | sent 9\n\
         Q 9 1 | numbered 1 10\n\
         M 10 2 | kept 11\n\
         T 2 | none\n\
         Q 11 1 | accepted 12\n\
         M 12 2 | noted\n\
         T 2 | took 1 1 1 63 last\n\
         terminal 0 group 7 taken 0 elected 0 survivors 0 1 2 3\n\
         sequencer 0 group 7 top 1 floor 0\n\
         terminal 1 group 9 taken 0 elected 1 survivors 1 2\n\
         sequencer 1 group 9 top 1 floor 0\n\
         terminal 2 group 9 taken 1 elected 1 survivors 1 2\n\
         terminal 3 group 8 taken 1 elected 3 survivors 1 2 3\n\
         sequencer 3 group 8 top 1 floor 0\n",
    ),
    (
        "r = 3: all three others answer, then the two that are left, then one, then one is alone",
        "N 4 7 3\n\
         S 0 61 | sent 0\n\
         Q 0 0 | numbered 1 1\n\
         M 1 1 | kept 2\n\
         M 1 2 | kept 3\n\
         Q 2 0 | marked\n\
         Q 3 0 | marked\n\
         I 3 8 | sent 4\n\
         M 4 1 | noted 5\n\
         M 4 2 | noted 6\n\
         M 5 3 | noted\n\
         M 6 3 | noted\n\
         G 3 3 | sent 7\n\
         M 7 1 | noted\n\
         M 7 2 | noted\n\
         S 3 62 | sent 8\n\
         Q 8 1 | numbered 2 9\n\
         M 9 2 | kept 10\n\
         Q 10 1 | marked\n\
         C 1 1 | sent 11\n\
         M 11 3 | kept\n\
         M 9 3 | kept 12\n\
         Q 12 1 | accepted 13\n\
         M 13 3 | noted\n\
         I 3 9 | sent 14\n\
         M 14 2 | noted 15\n\
         M 15 3 | noted\n\
         G 3 2 | sent 16\n\
         M 16 2 | noted\n\
         S 2 63 | sent 17\n\
         Q 17 2 | numbered 3 18\n\
         M 18 3 | kept 19\n\
         Q 19 2 | accepted 20\n\
         M 20 3 | noted\n\
         I 3 10 | sent 21\n\
         G 3 1 | sent 22\n\
         T 3 | took 1 0 1 61 more\n\
         T 3 | took 2 3 1 62 more\n\
         T 3 | took 3 2 1 63 last\n\
         S 3 64 | sent 23\n\
         Q 23 3 | numbered 4 24\n\
         M 24 3 | kept\n\
         T 3 | took 4 3 2 64 last\n\
         A 3 | sent 25\n\
         Q 25 3 | noted\n\
         terminal 0 group 7 taken 0 elected 0 survivors 0 1 2 3\n\
         sequencer 0 group 7 top 1 floor 0\n\
         terminal 1 group 8 taken 0 elected 1 survivors 1 2 3\n\
         sequencer 1 group 8 top 2 floor 0\n\
         terminal 2 group 9 taken 0 elected 2 survivors 2 3\n\
         sequencer 2 group 9 top 3 floor 0\n\
         terminal 3 group 10 taken 4 elected 3 survivors 3\n\
         sequencer 3 group 10 top 4 floor 4\n",
    ),
    (
        "attempts are abandoned; a result is lost, and the next group is made under the old number",
        "N 4 7\n\
         S 0 6162 | sent 0\n\
         Q 0 0 | numbered 1 1\n\
         M 1 3 | kept\n\
         I 1 8 | sent 2\n\
         M 2 2 | noted 3\n\
         M 3 1 | noted\n\
         I 1 9 | sent 4\n\
         M 3 1 | refused 27\n\
         M 4 3 | noted 5\n\
         I 2 10 | sent 6\n\
         M 6 1 | noted 7\n\
         M 5 1 | refused 27\n\
         G 1 0 | refused 27\n\
         M 6 3 | noted 8\n\
         M 7 2 | noted\n\
         M 8 2 | noted\n\
         G 2 3 | sent 9\n\
         G 2 3 | refused 27\n\
         I 3 11 | sent 10\n\
         M 9 3 | refused 27\n\
         M 10 1 | noted 11\n\
         M 9 1 | refused 27\n\
         M 10 2 | refused 7\n\
         M 11 3 | noted\n\
         G 3 2 | sent 12\n\
         M 12 1 | noted\n\
         M 12 1 | refused 7\n\
         M 12 2 | refused 7\n\
         C 3 1 | sent 13\n\
         M 13 1 | kept\n\
         T 1 | took 1 0 1 6162 last\n\
         terminal 0 group 7 taken 0 elected 0 survivors 0 1 2 3\n\
         sequencer 0 group 7 top 1 floor 0\n\
         terminal 1 group 11 taken 1 elected 3 survivors 1 3\n\
         terminal 2 group 10 taken 0 elected 3 survivors 1 2 3\n\
         terminal 3 group 11 taken 0 elected 3 survivors 1 3\n\
         sequencer 3 group 11 top 1 floor 0\n",
    ),
    (
        "held ones above the elected one's number are dropped, and its own message is numbered anew",
        "N 3 7\n\
         S 0 61 | sent 0\n\
         Q 0 0 | numbered 1 1\n\
         S 1 62 | sent 2\n\
         Q 2 0 | numbered 2 3\n\
         M 3 1 | keptgap 4\n\
         M 3 2 | keptgap 5\n\
         I 1 8 | sent 6\n\
         M 6 2 | noted 7\n\
         M 7 1 | noted\n\
         G 1 2 | sent 8\n\
         M 8 2 | noted\n\
         S 2 63 | sent 9\n\
         Q 9 1 | numbered 1 10\n\
         R 1 | sent 11\n\
         Q 11 1 | numbered 2 12\n\
         M 12 2 | keptgap 13\n\
         M 10 2 | kept\n\
         T 2 | took 1 2 1 63 more\n\
         T 2 | took 2 1 1 62 last\n\
         terminal 0 group 7 taken 0 elected 0 survivors 0 1 2\n\
         sequencer 0 group 7 top 2 floor 0\n\
         terminal 1 group 8 taken 0 elected 1 survivors 1 2\n\
         sequencer 1 group 8 top 2 floor 0\n\
         terminal 2 group 8 taken 2 elected 1 survivors 1 2\n",
    ),
    (
        "two that make, though one initiator acts at a time: number 1 is cut off and back",
        "N 4 7\n\
         S 0 6162 | sent 0\n\
         Q 0 0 | numbered 1 1\n\
         M 1 1 | kept\n\
         I 3 9 | sent 2\n\
         M 2 2 | noted 3\n\
         M 3 3 | noted\n\
         I 2 10 | sent 4\n\
         M 4 1 | noted 5\n\
         M 5 2 | noted\n\
         G 3 2 | sent 6\n\
         G 2 2 | sent 7\n\
         M 7 1 | noted\n\
         M 6 2 | refused 7\n\
         terminal 0 group 7 taken 0 elected 0 survivors 0 1 2 3\n\
         sequencer 0 group 7 top 1 floor 0\n\
         terminal 1 group 10 taken 0 elected 1 survivors 1 2\n\
         sequencer 1 group 10 top 1 floor 0\n\
         terminal 2 group 10 taken 0 elected 1 survivors 1 2\n\
         terminal 3 group 9 taken 0 elected 2 survivors 2 3\n",
    ),
    (
        "packets of an earlier attempt, though they are handed over no more: 2 takes what the next group lacks",
        "N 3 7\n\
         S 0 6162 | sent 0\n\
         Q 0 0 | numbered 1 1\n\
         I 0 9 | sent 2\n\
         M 2 1 | noted 3\n\
         M 2 2 | noted 4\n\
         M 3 0 | noted\n\
         M 4 0 | noted\n\
         G 0 3 | sent 5\n\
         I 1 10 | sent 6\n\
         M 6 2 | noted 7\n\
         M 7 1 | noted\n\
         C 0 1 | sent 8\n\
         M 8 2 | refused 7\n\
         M 5 2 | refused 27\n\
         M 2 2 | noted 9\n\
         M 5 2 | noted\n\
         M 8 2 | kept\n\
         T 2 | took 1 0 1 6162 last\n\
         G 1 2 | sent 10\n\
         M 10 2 | refused 7\n\
         terminal 0 group 9 taken 0 elected 0 survivors 0 1 2\n\
         sequencer 0 group 9 top 1 floor 0\n\
         terminal 1 group 10 taken 0 elected 1 survivors 1 2\n\
         sequencer 1 group 10 top 0 floor 0\n\
         terminal 2 group 9 taken 1 elected 0 survivors 0 1 2\n",
    ),
    (
        "nothing there: terminals, packets and sequencers that are absent",
        "N 2 4294967295\n\
         S 2 - | absent\n\
         R 2 | absent\n\
         T 4294967295 | absent\n\
         A 2 | absent\n\
         P 1 | absent\n\
         P 2 | absent\n\
         C 1 1 | absent\n\
         C 2 1 | absent\n\
         I 2 7 | absent\n\
         G 2 0 | absent\n\
         M 0 0 | absent\n\
         A 0 | sent 0\n\
         M 0 2 | absent\n\
         Q 0 1 | absent\n\
         Q 1 0 | absent\n\
         Q 0 0 | noted\n\
         M 0 1 | refused 8\n\
         I 1 4294967294 | sent 1\n\
         Q 1 0 | refused 8\n\
         G 1 1 | sent 2\n\
         Q 2 0 | refused 8\n\
         P 1 | sent 3\n\
         Q 3 1 | refused 8\n\
         M 3 1 | status 4\n\
         terminal 0 group 4294967295 taken 0 elected 0 survivors 0 1\n\
         sequencer 0 group 4294967295 top 0 floor 0\n\
         terminal 1 group 4294967294 taken 0 elected 1 survivors 1\n\
         sequencer 1 group 4294967294 top 0 floor 0\n",
    ),
    (
        "one terminal: it makes a group of itself, again and again, under any number",
        "N 1 7\n\
         G 0 0 | refused 27\n\
         I 0 7 | sent 0\n\
         M 0 0 | noted 1\n\
         M 1 0 | noted\n\
         G 0 2 | refused 26\n\
         G 0 4294967295 | refused 26\n\
         G 0 1 | sent 2\n\
         M 2 0 | refused 27\n\
         S 0 - | sent 3\n\
         Q 3 0 | numbered 1 4\n\
         I 0 0 | sent 5\n\
         Q 3 0 | refused 7\n\
         G 0 0 | sent 6\n\
         Q 3 0 | refused 7\n\
         R 0 | sent 7\n\
         Q 7 0 | again 1 8\n\
         M 8 0 | kept\n\
         T 0 | took 1 0 1 - last\n\
         A 0 | sent 9\n\
         Q 9 0 | noted\n\
         terminal 0 group 0 taken 1 elected 0 survivors 0\n\
         sequencer 0 group 0 top 1 floor 1\n",
    ),
];

/// With 200 packets written there is no space, also not for what writes none.
fn no_space() -> Schedule {
    let invitations: String = (0..200).map(|at| format!("I 1 {at}\n")).collect();
    let sent: String = (0..200)
        .map(|at| format!("{} sent {at}\n", at + 1))
        .collect();
    let end = "terminal 0 group 7 taken 0 elected 0 survivors 0 1\n\
               sequencer 0 group 7 top 0 floor 0\n\
               terminal 1 group 7 taken 0 elected 0 survivors 0 1\n";
    Schedule {
        shows: "200 invitations, and no space".into(),
        text: format!("N 2 7\n{invitations}T 0\nT 0\n").into(),
        expected: Some(format!("{sent}201 no space\n{end}")),
    }
}

/// First lines, and lines of events of another form; those of `play` among
/// them.
fn malformed() -> Vec<Schedule> {
    let first = |line: &str, expected: &str| Schedule {
        shows: format!("first line: {line}"),
        text: format!("{line}\nA 0\n").into(),
        expected: Some(format!("{expected}\n")),
    };
    let mut schedules = Vec::new();
    for line in ["", "N", "N 2", "N 2 7 1 1", "I 1 8", "N 2 7 x"] {
        schedules.push(first(line, "bad line"));
    }
    schedules.push(first("N 0 7", "refused 18"));
    schedules.push(first("N 17 7 17", "refused 18"));
    schedules.push(first("N 2 7 2", "refused 24"));
    for line in [
        "P",
        "P 0 0",
        "C 1",
        "C 0 1 0",
        "Q 0",
        "Q 0 0 0",
        "M 0",
        "I 0",
        "I 0 8 1",
        "I 0 x",
        "I 0 4294967296",
        "I  0 8",
        "i 0 8",
        "G 0",
        "G 0 1 1",
        "G 0 -",
        "G 0 1 ",
        "K 0 1",
        "N 2 7",
        "",
    ] {
        schedules.push(Schedule {
            shows: format!("bad line: {line}"),
            text: format!("N 1 7\nA 0\n{line}\nA 0\n").into(),
            expected: Some(
                "1 sent 0\n\
                 2 bad line\n\
                 terminal 0 group 7 taken 0 elected 0 survivors 0\n\
                 sequencer 0 group 7 top 0 floor 0\n"
                    .into(),
            ),
        });
    }
    schedules
}

/// A random schedule of n terminals: messages get around, and now and then
/// some terminals make a group, within the limits or not.
pub fn random(seed: u64, n: usize) -> Schedule {
    let mut random = Random::seeded(seed ^ 0x7265_7365_7400);
    let r = random.below(n);
    let world = World::fresh(n as u32, 7, r as u32).expect("an allowed opening");
    let mut writer = Writer {
        random,
        world,
        text: format!("N {n} 7 {r}\n"),
        events: 0,
    };
    while writer.events < 300 && writer.world.packets.len() < PACKETS {
        writer.event();
    }
    Schedule {
        shows: format!("random, {n} terminals, r = {r}, seed {seed}"),
        text: writer.text.into(),
        expected: None,
    }
}

/// A schedule that is being written, and the world that it is played in.
struct Writer {
    random: Random,
    world: World,
    text: String,
    events: usize,
}

impl Writer {
    /// An event and its line.
    fn step(&mut self, line: String) -> Option<Outcome> {
        self.events += 1;
        let event = model::recover::event(line.as_bytes()).expect("a line of an event");
        writeln!(self.text, "{line}").expect("writing to memory");
        if self.world.packets.len() < PACKETS {
            self.world.step(&event)
        } else {
            None
        }
    }

    fn terminal(&mut self) -> usize {
        self.random.below(self.world.terminals.len())
    }

    /// One that has a sequencer that is not frozen, if there is one.
    fn sequencing(&mut self) -> usize {
        let is_open = |t: &Terminal| t.serves() && !t.frozen;
        let open: Vec<usize> = (0..self.world.terminals.len())
            .filter(|&i| is_open(&self.world.terminals[i]))
            .collect();
        if open.is_empty() || self.random.below(10) == 0 {
            self.terminal()
        } else {
            open[self.random.below(open.len())]
        }
    }

    fn event(&mut self) {
        match self.random.below(32) {
            0..6 => self.message(),
            6 => {
                let i = self.terminal();
                self.step(format!("R {i}"));
            }
            7..11 => {
                let i = self.terminal();
                self.step(format!("T {i}"));
            }
            11 => {
                let i = self.terminal();
                let written = self
                    .step(format!("A {i}"))
                    .and_then(|outcome| outcome.packet);
                self.hand_over(written);
            }
            12 => {
                let i = self.sequencing();
                self.step(format!("P {i}"));
            }
            13 => {
                let i = self.sequencing();
                let top = self.world.terminals[i].sequencer.top;
                let number = (top + 1).saturating_sub(self.random.below(8) as u32);
                self.step(format!("C {i} {number}"));
            }
            14 if self.random.below(3) == 0 => self.reset(),
            15 if self.random.below(4) == 0 => {
                let i = self.terminal();
                let demand = self.random.below(4);
                self.step(format!("G {i} {demand}"));
            }
            _ => self.hand(),
        }
    }

    /// What was written, if anything, goes to a sequencer.
    fn hand_over(&mut self, packet: Option<usize>) {
        if let Some(packet) = packet {
            let i = self.sequencing();
            self.step(format!("Q {packet} {i}"));
        }
    }

    /// A terminal submits or repeats, and mostly its request is numbered; then
    /// it gets around.
    fn message(&mut self) {
        let i = self.terminal();
        let length = match self.random.below(12) {
            0 => PAYLOAD / 8,
            1 => 0,
            _ => 1 + self.random.below(3),
        };
        let hex: String = (0..length)
            .map(|_| format!("{:02x}", self.random.below(256)))
            .collect();
        let hex = if hex.is_empty() { "-" } else { &hex };
        let waiting = usize::from(self.world.terminals[i].member.waiting);
        let line = if waiting > self.random.below(6) {
            format!("R {i}")
        } else {
            format!("S {i} {hex}")
        };
        let written = self.step(line).and_then(|outcome| outcome.packet);
        let Some(packet) = written else { return };
        if self.random.below(5) == 0 {
            return;
        }
        let sequencer = self.sequencing();
        let outcome = self.step(format!("Q {packet} {sequencer}"));
        let Some(packet) = outcome.and_then(|outcome| outcome.packet) else {
            return;
        };
        for i in 0..self.world.terminals.len() {
            if self.random.below(3) > 0 {
                let told = self.step(format!("M {packet} {i}")).and_then(|o| o.packet);
                if let Some(packet) = told
                    && self.random.below(3) > 0
                {
                    self.step(format!("Q {packet} {sequencer}"));
                }
                self.step(format!("T {i}"));
            }
        }
    }

    /// A packet, mostly a late one, goes where it belongs.
    fn hand(&mut self) {
        let written = self.world.packets.len();
        if written == 0 {
            return;
        }
        let recent = written.min(2 * self.world.terminals.len() + 4);
        let packet = if self.random.below(12) == 0 {
            self.random.below(written + 1)
        } else {
            written - 1 - self.random.below(recent)
        };
        let kind = self.world.packets.get(packet).map_or(1, |bytes| bytes[0]);
        if matches!(kind, 1 | 3 | 4 | 7) != (self.random.below(24) == 0) {
            self.hand_over(Some(packet));
        } else {
            let i = self.terminal();
            let outcome = self.step(format!("M {packet} {i}"));
            // A reply goes to the one that invited, mostly.
            if let Some(Outcome {
                answer: Answer::Noted,
                packet: Some(reply),
                ..
            }) = outcome
                && self.random.below(4) > 0
            {
                let sender = packet::read(&self.world.packets[packet])
                    .expect("an invitation")
                    .member;
                self.step(format!("M {reply} {sender}"));
            }
        }
    }

    /// Someone invites; most of the others reply, and most get the result.
    fn reset(&mut self) {
        let n = self.world.terminals.len();
        let initiator = self.terminal();
        let number = self.random.below(1000);
        let invited = self.step(format!("I {initiator} {number}"));
        let Some(invitation) = invited.and_then(|outcome| outcome.packet) else {
            return;
        };
        for i in (0..n).filter(|&i| i != initiator) {
            if self.random.below(4) == 0 {
                continue;
            }
            let reply = self
                .step(format!("M {invitation} {i}"))
                .and_then(|o| o.packet);
            if let Some(reply) = reply
                && self.random.below(8) > 0
            {
                self.step(format!("M {reply} {initiator}"));
            }
        }
        if self.random.below(6) == 0 {
            return;
        }
        let demand = self.random.below(n + 1);
        let mut made = self
            .step(format!("G {initiator} {demand}"))
            .and_then(|o| o.packet);
        if made.is_none() {
            made = self.step(format!("G {initiator} 1")).and_then(|o| o.packet);
        }
        if let Some(result) = made {
            for i in (0..n).filter(|&i| i != initiator) {
                if self.random.below(8) > 0 {
                    self.step(format!("M {result} {i}"));
                }
            }
        }
    }
}

/// How often each answer comes, by its first word and, of a refusal, its
/// number; for the tests.
pub fn answers(text: &[u8]) -> Vec<String> {
    let printed = recovered(text);
    let printed = String::from_utf8(printed).expect("plain text");
    printed
        .lines()
        .filter_map(|line| {
            let mut words = line.split(' ');
            words.next()?.parse::<u64>().ok()?;
            let word = words.next()?;
            Some(match word {
                "refused" => format!("refused {}", words.next()?),
                _ => word.to_string(),
            })
        })
        .collect()
}

/// The events of a schedule, in their order.
pub fn events(text: &[u8]) -> Vec<Event> {
    text.split(|&byte| byte == b'\n')
        .filter_map(model::recover::event)
        .collect()
}
