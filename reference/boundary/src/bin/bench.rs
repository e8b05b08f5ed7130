//! Times every call of the proved library beside the same call of the
//! reference, in turns, and prints the medians.

use boundary::proved::{MemberState, SequencerState};
use boundary::terminals::TerminalState;
use boundary::{
    FINISH, LINE, Member, Sequencer, Writer, ends, feeds, list, messages, proved, records,
    reference,
};
use model::jobs::{ADD, FETCH, List};
use model::journal::{BLOCK, Message};
use model::limits::{HISTORY, JOBS, PACKET, PAYLOAD, UNITS, WAITING, WINDOW};
use model::packet::{
    self, ACCEPT, BROADCAST, CONFIRM, GAP, Header, INVITATION, OFFER, POLL, REPLY, REQUEST, RESULT,
    STATUS,
};
use model::plan::SET;
use model::terminal::Terminal;
use model::{member, sequencer};
use std::collections::BTreeMap;
use std::hint::black_box;
use std::process::ExitCode;
use std::time::{Duration, Instant};

const GROUP: u32 = 7;
/// Lengths of payloads.
const LENGTHS: [usize; 4] = [0, 30, 96, PAYLOAD];
/// Packets of a list that leave the state as it is.
const SAME: usize = 32;
/// How long the rounds of a sample take, at least.
const SAMPLE: Duration = Duration::from_micros(300);

/// The proved library or the reference.
#[derive(Clone, Copy)]
enum Side {
    Here,
    There,
}

/// A call of a side.
macro_rules! on {
    ($side:expr, $call:ident($($word:expr),*)) => {
        match $side {
            Side::Here => proved::$call($($word),*),
            Side::There => reference::$call($($word),*),
        }
    };
}

/// A call of a sequencer of a side.
macro_rules! on_sequencer {
    ($side:expr, $call:ident($($word:expr),*)) => {
        match $side {
            Side::Here => ends::$call::<SequencerState>($($word),*),
            Side::There => ends::$call::<sequencer::Sequencer>($($word),*),
        }
    };
}

/// A call of a member of a side.
macro_rules! on_member {
    ($side:expr, $call:ident($($word:expr),*)) => {
        match $side {
            Side::Here => ends::$call::<MemberState>($($word),*),
            Side::There => ends::$call::<member::Member>($($word),*),
        }
    };
}

/// A call of a terminal of a side.
macro_rules! on_terminal {
    ($side:expr, $call:ident($($word:expr),*)) => {
        match $side {
            Side::Here => ends::$call::<TerminalState>($($word),*),
            Side::There => ends::$call::<Terminal>($($word),*),
        }
    };
}

/// Rounds, with their calls or without: what is timed is the difference.
#[derive(Clone, Copy)]
struct Rounds {
    many: u32,
    idle: bool,
}

impl Rounds {
    /// So many, none where idle: what comes before the first round is left.
    fn calls(self) -> u32 {
        if self.idle { 0 } else { self.many }
    }

    /// So many calls of a round, none where idle: the copy of the state is left.
    fn each<T: Default>(self, calls: T) -> T {
        if self.idle { T::default() } else { calls }
    }
}

/// Rounds of a call, and a lent output; the sum of the answers.
type Run = Box<dyn Fn(Side, Rounds, &mut [u8]) -> u64>;

struct Case {
    call: &'static str,
    with: String,
    /// Calls of a round.
    calls: usize,
    rounds: Run,
}

struct Options {
    samples: usize,
    only: String,
    table: bool,
}

fn options() -> Option<Options> {
    let mut options = Options {
        samples: 25,
        only: String::new(),
        table: false,
    };
    let mut words = std::env::args().skip(1);
    while let Some(word) = words.next() {
        match word.as_str() {
            "--samples" => options.samples = words.next()?.parse().ok()?,
            "--only" => options.only = words.next()?,
            "--table" => options.table = true,
            _ => return None,
        }
    }
    Some(options)
}

fn main() -> ExitCode {
    let Some(options) = options() else {
        eprintln!("usage: bench [--samples N] [--only CALL] [--table]");
        return ExitCode::FAILURE;
    };
    let mut cases = packets();
    for n in [4, 16] {
        for payload in LENGTHS {
            for kept in [0, HISTORY / 2, HISTORY] {
                cases.extend(sequencer(n, payload, kept));
            }
            for held in [0, WINDOW / 2, WINDOW] {
                cases.extend(member(n, payload, held));
            }
            cases.extend(offers(n, payload));
            cases.extend(terminals(n, payload));
        }
    }
    cases.extend(work_lists());
    cases.extend(schedules());
    cases.extend(loads());
    for length in LENGTHS {
        cases.extend(journals(length));
    }
    for units in [64, UNITS] {
        cases.extend(plans(units));
    }
    let mut calls: BTreeMap<&str, Vec<Times>> = BTreeMap::new();
    for case in cases
        .iter()
        .filter(|case| case.call.contains(&options.only))
    {
        let times = case.times(options.samples);
        let Times { here, there, ratio } = times;
        if !options.table {
            let Case { call, with, .. } = case;
            println!("{call:34} {with:32} {here:8.1} {there:8.1} {ratio:6.2}");
        }
        calls.entry(case.call).or_default().push(times);
    }
    table(&calls);
    let worst = calls.values().flatten().map(|times| times.ratio);
    println!("worst ratio {:.2}", worst.fold(0.0, f64::max));
    ExitCode::SUCCESS
}

/// The table of the document: a line a call, over all that it was called with.
fn table(calls: &BTreeMap<&str, Vec<Times>>) {
    println!();
    println!("| Call | Here, ns | Reference, ns | Ratio, median | Ratio, worst |");
    println!("|---|---|---|---|---|");
    for (call, times) in calls {
        let here = span(times.iter().map(|times| times.here));
        let there = span(times.iter().map(|times| times.there));
        let mut ratios: Vec<f64> = times.iter().map(|times| times.ratio).collect();
        let median = median(&mut ratios);
        let worst = ratios.last().expect("a call was timed");
        println!("| {call} | {here} | {there} | {median:.2} | {worst:.2} |");
    }
    println!();
}

fn span(values: impl Iterator<Item = f64> + Clone) -> String {
    let low = values.clone().fold(f64::INFINITY, f64::min);
    let high = values.fold(0.0, f64::max);
    format!("{low:.0} to {high:.0}")
}

fn median(values: &mut [f64]) -> f64 {
    values.sort_by(f64::total_cmp);
    values[values.len() / 2]
}

/// Nanoseconds of a call, and how the two compare.
#[derive(Clone, Copy)]
struct Times {
    here: f64,
    there: f64,
    /// The median of the ratios of samples that were taken one behind the
    /// other, so that both saw the machine in the same mood.
    ratio: f64,
}

impl Case {
    /// The medians of samples taken in turns.
    fn times(&self, samples: usize) -> Times {
        let rounds = Rounds {
            many: 3,
            idle: false,
        };
        let sums =
            [Side::Here, Side::There].map(|side| (self.rounds)(side, rounds, &mut [0; PACKET]));
        assert_eq!(
            sums[0], sums[1],
            "{} {}: other answers",
            self.call, self.with
        );
        let sides = [Side::Here, Side::There];
        let many = sides.map(|side| self.enough(side)).into_iter().max();
        let many = many.unwrap_or(1);
        let mut times: [Vec<f64>; 3] = Default::default();
        for _ in 0..samples {
            let [here, there] = sides.map(|side| self.sample(side, many));
            for (times, time) in times.iter_mut().zip([here, there, here / there]) {
                times.push(time);
            }
        }
        let [here, there, ratio] = times.each_mut().map(|times| median(times));
        Times { here, there, ratio }
    }

    fn time(&self, side: Side, many: u32, idle: bool) -> Duration {
        let mut out = [0; PACKET];
        let rounds = black_box(Rounds { many, idle });
        let start = Instant::now();
        black_box((self.rounds)(side, rounds, black_box(&mut out)));
        start.elapsed()
    }

    /// So many rounds that their calls take long enough, also beside what is
    /// no call. The shortest of a few times counts: a longer one may have been
    /// held up.
    fn enough(&self, side: Side) -> u32 {
        let shortest = |many, idle| (0..4).map(|_| self.time(side, many, idle)).min();
        let mut many = 1;
        while many < 1 << 24 {
            let begun = shortest(0, true).unwrap_or_default();
            let before = shortest(many, true).unwrap_or_default();
            let all = shortest(many, false).unwrap_or_default();
            if all.saturating_sub(before) >= SAMPLE.max(2 * begun) {
                break;
            }
            many *= 2;
        }
        many
    }

    /// Nanoseconds of a call, without what comes before the first round and
    /// without the copies of the state.
    fn sample(&self, side: Side, many: u32) -> f64 {
        let before = self.time(side, many, true);
        let all = self.time(side, many, false).saturating_sub(before);
        all.as_nanos() as f64 / f64::from(many) / self.calls as f64
    }
}

fn laid(kind: u8, member: u8, group: u32, [a, b, c]: [u32; 3], payload: &[u8]) -> Vec<u8> {
    let header = Header {
        kind,
        member,
        group,
        a,
        b,
        c,
    };
    let mut out = [0; PACKET];
    let length = packet::write(&header, payload, &mut out).expect("an allowed packet");
    out[..length].to_vec()
}

fn payload(length: usize) -> Vec<u8> {
    (1..=length).map(|byte| byte as u8).collect()
}

fn same(packet: Vec<u8>) -> Vec<Vec<u8>> {
    vec![packet; SAME]
}

/// Reading and writing.
fn packets() -> Vec<Case> {
    let mut cases = Vec::new();
    let mut reading = |call, with: &str, packet: Vec<u8>| {
        let packets = list(same(packet));
        cases.push(Case {
            call,
            with: with.into(),
            calls: SAME,
            rounds: Box::new(move |side, rounds, _| {
                on!(side, read_rounds(&packets, rounds.calls()))
            }),
        });
    };
    for length in LENGTHS {
        let packet = laid(REQUEST, 0, GROUP, [5, 1, 0], &payload(length));
        reading("read", &format!("request, payload {length}"), packet);
        let packet = laid(BROADCAST, 0, GROUP, [5, 1, 0], &payload(length));
        reading("read", &format!("broadcast, payload {length}"), packet);
    }
    reading("read", "gap", laid(GAP, 0, GROUP, [5, 6, 7], &[]));
    reading("read", "status", laid(STATUS, 0, GROUP, [5, 0, 0], &[]));
    reading("read", "poll", laid(POLL, 0, GROUP, [5, 0, 0], &[]));
    reading("read refused", "3", vec![1; 19]);
    reading("read refused", "4", vec![0; 20]);
    reading("read refused", "5", vec![1; 20]);
    reading("read refused", "6", [&[1], &[0; 19][..]].concat());

    let mut writing = |call, with: &str, kind, fields, length| {
        let payload = payload(length);
        cases.push(Case {
            call,
            with: with.into(),
            calls: 1,
            rounds: Box::new(move |side, rounds, out| {
                let [b, c] = fields;
                (0..rounds.calls()).fold(0, |sum, a| {
                    let header = Header {
                        kind,
                        member: 0,
                        group: GROUP,
                        a: 1 + a % 8,
                        b,
                        c,
                    };
                    sum + match on!(side, write(black_box(&header), black_box(&payload), out)) {
                        Ok(bytes) => bytes as u64,
                        Err(refusal) => u64::from(refusal),
                    }
                })
            }),
        });
    };
    for length in LENGTHS {
        let with = format!("request, payload {length}");
        writing("write", &with, REQUEST, [1, 0], length);
        let with = format!("broadcast, payload {length}");
        writing("write", &with, BROADCAST, [1, 0], length);
    }
    writing("write", "gap", GAP, [u32::MAX, u32::MAX], 0);
    writing("write", "status", STATUS, [0, 0], 0);
    writing("write", "poll", POLL, [0, 0], 0);
    writing("write refused", "4", 0, [0, 0], 0);
    writing("write refused", "13", REQUEST, [1, 0], PAYLOAD + 1);
    cases
}

/// Feeds of a work list that has so many jobs.
fn work_lists() -> Vec<Case> {
    let mut cases = Vec::new();
    for jobs in [0, JOBS / 2, JOBS] {
        let mut start = List::empty();
        for _ in 0..jobs {
            start.feed(0, &[ADD; PAYLOAD]);
        }
        let start = records(&start.records);
        let messages = [
            ("feed add", vec![ADD; PAYLOAD]),
            ("feed fetch", vec![FETCH]),
        ];
        for (call, payload) in messages {
            let (start, feeds) = (start.clone(), feeds(&vec![(3, payload); SAME]));
            cases.push(Case {
                call,
                with: format!("{jobs} jobs"),
                calls: SAME,
                rounds: Box::new(move |side, rounds, _| {
                    on!(side, feed_rounds(&start, &feeds, rounds.calls()))
                }),
            });
        }
    }
    cases
}

/// Every call of a sequencer that keeps so many messages above number 32.
fn sequencer(n: u8, length: usize, kept: usize) -> Vec<Case> {
    let payload = payload(length);
    let before = HISTORY as u32;
    let top = before + kept as u32;
    let request = |number: u32, taken: u32| {
        let member = ((number - 1) % u32::from(n)) as u8;
        let count = (number - 1) / u32::from(n) + 1;
        laid(REQUEST, member, GROUP, [taken, count, 0], &payload)
    };
    let status = |member: u8, taken: u32| laid(STATUS, member, GROUP, [taken, 0, 0], &[]);
    let gap = |fields| laid(GAP, 0, GROUP, fields, &[]);

    // 32 messages that all have taken, then the kept ones.
    let mut heard: Vec<Vec<u8>> = (1..=before).map(|number| request(number, 0)).collect();
    heard.extend((0..n).map(|member| status(member, before)));
    heard.extend((before + 1..=top).map(|number| request(number, before)));
    // Here all members but the first have taken all.
    let mut others = heard.clone();
    others.extend((1..n).map(|member| status(member, top)));
    let (heard, others) = (list(heard), list(others));

    let mut cases = Vec::new();
    let with = format!("n {n}, payload {length}, history {kept}");
    let mut case = |call, calls, heard: &[u8], rounds: SequencerRounds| {
        let heard = heard.to_vec();
        cases.push(Case {
            call,
            with: with.clone(),
            calls,
            rounds: Box::new(move |side, many, out| {
                let end = Sequencer {
                    n,
                    group: GROUP,
                    resilience: 0,
                    heard: &heard,
                };
                rounds(side, end, many, out)
            }),
        });
    };
    let mut receiving = |call, heard: &[u8], packets: Vec<Vec<u8>>| {
        let (calls, packets) = (packets.len(), list(packets));
        case(
            call,
            calls,
            heard,
            Box::new(move |side, end, rounds, out| {
                on_sequencer!(
                    side,
                    sequencer_receive(end, rounds.each(&packets[..]), rounds.many, out)
                )
            }),
        );
    };
    if kept < HISTORY {
        let next = (top + 1..=before + HISTORY as u32).map(|number| request(number, before));
        receiving("sequencer.receive numbered", &heard, next.collect());
    } else {
        let next = same(request(top + 1, before));
        receiving("sequencer.receive full", &heard, next);
    }
    if kept > 0 {
        // The last message of the member that spoke longest ago.
        let number = (top + 1).saturating_sub(n.into()).max(before + 1);
        let again = same(request(number, before));
        receiving("sequencer.receive again", &heard, again);
        let wanted = same(gap([before, before + 1, top]));
        receiving("sequencer.receive wanted", &heard, wanted);
        let freeing = (before + 1..=top).map(|taken| status(0, taken));
        receiving("sequencer.receive noted, frees", &others, freeing.collect());
    } else {
        let purged = same(request(top, before));
        receiving("sequencer.receive old, purged", &heard, purged);
    }
    receiving("sequencer.receive old", &heard, same(request(1, 0)));
    let noted = same(status(0, before));
    receiving("sequencer.receive noted", &heard, noted);
    let noted = same(gap([before - 2, before - 1, before]));
    receiving("sequencer.receive noted, gap", &heard, noted);
    let other_group = laid(STATUS, 0, GROUP + 1, [0, 0, 0], &[]);
    receiving("sequencer.receive refused", &heard, same(other_group));
    case(
        "sequencer.poll",
        1,
        &heard,
        Box::new(|side, end, rounds, out| {
            on_sequencer!(side, sequencer_poll(end, rounds.calls(), out))
        }),
    );
    let copy = if kept > 0 {
        "sequencer.copy"
    } else {
        "sequencer.copy refused"
    };
    case(
        copy,
        1,
        &heard,
        Box::new(move |side, end, rounds, out| {
            on_sequencer!(side, sequencer_copy(end, top, rounds.calls(), out))
        }),
    );
    cases
}

/// Rounds of a sequencer's call.
type SequencerRounds = Box<dyn Fn(Side, Sequencer<'_>, Rounds, &mut [u8]) -> u64>;
/// Rounds of a member's call.
type MemberRounds = Box<dyn Fn(Side, Member<'_>, Rounds, &mut [u8]) -> u64>;

/// Every call of a member that holds so many messages from number 1 on.
fn member(n: u8, length: usize, held: usize) -> Vec<Case> {
    let text = payload(length);
    let broadcast = |number: u32| laid(BROADCAST, 0, GROUP, [number, number, 0], &text);
    let own = |number: u32| laid(BROADCAST, 1, GROUP, [number, number, 0], &text);
    let poll = |top: u32| laid(POLL, 0, GROUP, [top, 0, 0], &[]);
    let window = WINDOW as u32;
    let last = held as u32;
    let heard = list((1..=last).map(broadcast));
    let owns = list((1..=last).map(own));

    let mut cases = Vec::new();
    let with = format!("n {n}, payload {length}, held {held}");
    let mut case = |call, calls, rounds: MemberRounds| {
        let heard = heard.clone();
        cases.push(Case {
            call,
            with: with.clone(),
            calls,
            rounds: Box::new(move |side, many, out| {
                let (number, group, heard) = (1, GROUP, &heard[..]);
                let end = Member {
                    n,
                    number,
                    group,
                    resilience: 0,
                    heard,
                    takes: 0,
                };
                rounds(side, end, many, out)
            }),
        });
    };
    let mut receiving = |call, packets: Vec<Vec<u8>>| {
        let (calls, packets) = (packets.len(), list(packets));
        case(
            call,
            calls,
            Box::new(move |side, end, rounds, out| {
                on_member!(
                    side,
                    member_receive(end, rounds.each(&packets[..]), rounds.many, out)
                )
            }),
        );
    };
    if held < WINDOW {
        let next = (last + 1..=window).map(broadcast).collect();
        receiving("member.receive kept", next);
        let above = (last + 2..=window).rev().map(broadcast).collect();
        receiving("member.receive keptgap", above);
        let beyond = same(broadcast(window + 1));
        receiving("member.receive beyondgap", beyond);
        receiving("member.receive gap", same(poll(window)));
    } else {
        receiving("member.receive beyond", same(broadcast(window + 1)));
    }
    if held > 0 {
        receiving("member.receive old", same(broadcast(last)));
    }
    receiving("member.receive status", same(poll(last)));
    let other_group = laid(POLL, 0, GROUP + 1, [0, 0, 0], &[]);
    receiving("member.receive refused", same(other_group));

    if held > 0 {
        let first = list(same(broadcast(1)));
        case(
            "member.receive old, taken",
            SAME,
            Box::new(move |side, end, rounds, out| {
                let end = Member { takes: 1, ..end };
                on_member!(
                    side,
                    member_receive(end, rounds.each(&first[..]), rounds.many, out)
                )
            }),
        );
    }
    let submitted = text.clone();
    case(
        "member.submit",
        1,
        Box::new(move |side, end, rounds, out| {
            on_member!(
                side,
                member_submit(end, &submitted, rounds.each(1), rounds.many, out)
            )
        }),
    );
    let (queued, typed) = (text.clone(), text.clone());
    case(
        "member.submit queued",
        1,
        Box::new(move |side, end, rounds, out| {
            on_member!(
                side,
                member_queue(end, &queued, 4, rounds.each(1), rounds.many, out)
            )
        }),
    );
    case(
        "member.repeat",
        1,
        Box::new(move |side, end, rounds, out| {
            on_member!(side, member_repeat(end, &text, rounds.calls(), out))
        }),
    );
    case(
        "member.status",
        1,
        Box::new(|side, end, rounds, out| {
            on_member!(side, member_status(end, rounds.calls(), out))
        }),
    );
    if held > 0 {
        let most = last.min(WAITING as u32);
        case(
            "member.take own",
            last as usize,
            Box::new(move |side, end, rounds, out| {
                let (heard, takes) = (&owns[..], rounds.each(last));
                let end = Member {
                    heard,
                    takes,
                    ..end
                };
                on_member!(side, member_queue(end, &typed, most, 0, rounds.many, out))
            }),
        );
    }
    let (take, calls) = if held > 0 {
        ("member.take", last)
    } else {
        ("member.take none", window)
    };
    case(
        take,
        calls as usize,
        Box::new(move |side, end, rounds, out| {
            on_member!(side, member_take(end, rounds.each(calls), rounds.many, out))
        }),
    );
    cases
}

/// The calls of offers: messages numbered where r is 1, their confirmations, and a member that confirms and hears of acceptances.
fn offers(n: u8, length: usize) -> Vec<Case> {
    let text = payload(length);
    let numbers = 1..=HISTORY as u32;
    let held = 1..=WINDOW as u32;
    let request = |number| laid(REQUEST, 0, GROUP, [0, number, 0], &text);
    let confirm = |number| laid(CONFIRM, 1, GROUP, [number, 0, 0], &[]);
    let offer = |number| laid(OFFER, 0, GROUP, [number, number, 0], &text);
    let accept = |number| laid(ACCEPT, 0, GROUP, [number, 0, 0], &[]);
    let (none, requests) = (Vec::new(), list(numbers.clone().map(request)));
    let confirms = list(numbers.clone().map(confirm));
    let mut cases = Vec::new();
    let with = format!("n {n}, payload {length}");
    let mut numbering = |call, resilience, heard: &[u8], packets: &[u8]| {
        let (heard, packets) = (heard.to_vec(), packets.to_vec());
        cases.push(Case {
            call,
            with: with.clone(),
            calls: HISTORY,
            rounds: Box::new(move |side, rounds, out| {
                let (group, heard) = (GROUP, &heard[..]);
                let end = Sequencer {
                    n,
                    group,
                    resilience,
                    heard,
                };
                on_sequencer!(
                    side,
                    sequencer_receive(end, rounds.each(&packets[..]), rounds.many, out)
                )
            }),
        });
    };
    numbering("sequencer.receive numbered, offered", 1, &none, &requests);
    numbering("sequencer.receive accepted", 1, &requests, &confirms);
    numbering("sequencer.receive marked", 2, &requests, &confirms);
    let mut holding = |call, packets: Vec<u8>| {
        cases.push(Case {
            call,
            with: with.clone(),
            calls: WINDOW,
            rounds: Box::new(move |side, rounds, out| {
                let end = Member {
                    n,
                    number: 1,
                    group: GROUP,
                    resilience: 1,
                    heard: &[],
                    takes: 0,
                };
                on_member!(
                    side,
                    member_receive(end, rounds.each(&packets[..]), rounds.many, out)
                )
            }),
        });
    };
    holding(
        "member.receive kept, confirmed",
        list(held.clone().map(offer)),
    );
    holding("member.receive noted", list(held.map(accept)));
    cases
}

/// A terminal's calls: terminal 1 keeps and takes eight messages, terminal 0's sequencer numbers, and one hears of a reset, replies and is in
/// the new group, or invites, has the replies of all others and makes the group; elected as member, with the messages that it has.
fn terminals(n: u8, length: usize) -> Vec<Case> {
    let text = payload(length);
    let window = WINDOW as u32;
    let broadcast = |number: u32| laid(BROADCAST, 0, GROUP, [number, number, 0], &text);
    let request = |number| laid(REQUEST, 0, GROUP, [0, number, 0], &text);
    let heard = list((1..=window).map(broadcast));
    let all = u16::MAX >> (16 - n);
    let survivors = (all - 1).to_be_bytes();
    let invitation = || laid(INVITATION, 2, GROUP, [GROUP + 1, 0, 0], &[]);
    let result = laid(RESULT, 2, GROUP, [GROUP + 1, 1, window], &survivors);
    let reply = |i: u8| laid(REPLY, i, GROUP, [GROUP + 1, 0, 0], &[]);
    let replies = list((2..n).map(reply));
    let requests = list((1..=HISTORY as u32).map(request));
    let mut cases = Vec::new();
    let with = format!("n {n}, payload {length}");
    let mut case = |call, calls, number, heard: &[u8], rounds: MemberRounds| {
        let heard = heard.to_vec();
        cases.push(Case {
            call,
            with: with.clone(),
            calls,
            rounds: Box::new(move |side, many, out| {
                let end = Member {
                    n,
                    number,
                    group: GROUP,
                    resilience: 0,
                    heard: &heard,
                    takes: 0,
                };
                rounds(side, end, many, out)
            }),
        });
    };
    let mut receiving = |call, calls, heard: &[u8], packets: Vec<u8>| {
        case(
            call,
            calls,
            1,
            heard,
            Box::new(move |side, end, rounds, out| {
                let packets = rounds.each(&packets[..]);
                on_terminal!(side, member_receive(end, packets, rounds.many, out))
            }),
        );
    };
    receiving("terminal.receive kept", WINDOW, &[], heard.clone());
    let invitations = list(same(invitation()));
    receiving("terminal.receive invitation", SAME, &heard, invitations);
    let entered = list([invitation(), result]);
    receiving("terminal.receive invitation, result", 2, &heard, entered);
    case(
        "terminal.take",
        WINDOW,
        1,
        &heard,
        Box::new(move |side, end, rounds, out| {
            on_terminal!(
                side,
                member_take(end, rounds.each(window), rounds.many, out)
            )
        }),
    );
    case(
        "terminal.order numbered",
        HISTORY,
        0,
        &[],
        Box::new(move |side, end, rounds, out| {
            let packets = rounds.each(&requests[..]);
            on_terminal!(side, terminal_order(end, packets, rounds.many, out))
        }),
    );
    case(
        "terminal.invite, replies, make",
        1,
        1,
        &heard,
        Box::new(move |side, end, rounds, out| {
            on_terminal!(
                side,
                terminal_reset(end, &replies, rounds.each(1), rounds.many, out)
            )
        }),
    );
    cases
}

/// A schedule in which members submit in turn: each message is numbered, handed to every member, taken and acknowledged, as long
/// as there is room for the packets.
fn turns(n: usize, size: usize) -> Vec<u8> {
    let payload = if size == 0 {
        "-".into()
    } else {
        "61".repeat(size)
    };
    let mut text = format!("N {n} {GROUP}\n");
    let mut packets = 0;
    for turn in 0..200 / (n + 2) {
        text += &format!("S {} {payload}\nQ {packets}\n", turn % n);
        let broadcast = packets + 1;
        packets += 2;
        for member in 0..n {
            text += &format!("M {broadcast} {member}\nT {member}\nA {member}\nQ {packets}\n");
            packets += 1;
        }
    }
    text.into_bytes()
}

/// Whole schedules; what is timed is an event.
fn schedules() -> Vec<Case> {
    let mut cases = Vec::new();
    let mut case = |with: &str, text: Vec<u8>| {
        let events = text.iter().filter(|&&byte| byte == b'\n').count() - 1;
        cases.push(Case {
            call: "play, an event",
            with: with.into(),
            calls: events,
            rounds: Box::new(move |side, rounds, _| {
                let mut out = vec![0; LINE * (events + 2)];
                (0..rounds.calls()).fold(0, |sum, _| {
                    let length = on!(side, play(black_box(&text), &mut out));
                    sum + length as u64 + u64::from(out[length / 2])
                })
            }),
        });
    };
    for (with, seed) in [("random, seed 5", 5), ("random, seed 6", 6)] {
        case(with, schedules::random::schedule(seed, 400));
    }
    let load = model::load::text(42, 4, GROUP, 400).expect("an allowed opening");
    case("load 42 4 7 400", load);
    for (n, size) in [(2, 0), (2, PAYLOAD), (16, 0), (16, PAYLOAD)] {
        case(&format!("n {n}, payloads of {size}"), turns(n, size));
    }
    case(
        "takes alone",
        [b"N 4 7\n".to_vec(), b"T 1\n".repeat(400)].concat(),
    );
    case(
        "polls alone",
        [b"N 4 7\n".to_vec(), b"P\n".repeat(200)].concat(),
    );
    cases
}

/// The generator, and the lines of a load.
fn loads() -> Vec<Case> {
    let mut cases = vec![Case {
        call: "generator.step, output",
        with: "seed 42".into(),
        calls: 1,
        rounds: Box::new(|side, rounds, _| on!(side, generator(42, rounds.calls()))),
    }];
    cases.extend([1, 4, 16].map(|n| Case {
        call: "load.next",
        with: format!("seed 42, n {n}"),
        calls: 1,
        rounds: Box::new(move |side, rounds, _| on!(side, load_lines(42, n, rounds.calls()))),
    }));
    cases
}

/// Blocks of the journal that is read.
const BLOCKS: usize = 1000;

/// Reading a journal, writing one, and shutdowns; what is timed of reading is a block.
fn journals(length: usize) -> Vec<Case> {
    let text = payload(length);
    let fresh = Writer::after(0, true);
    let message = |number: u32| Message {
        number,
        originator: 1,
        count: number,
        payload: &text,
    };
    let many = (BLOCKS * (BLOCK / (7 + length)) + 1) as u32;
    let mut journal = vec![0; BLOCKS * BLOCK];
    let list = messages((1..=many).map(message));
    reference::journal_write(fresh, &list, 1, &mut journal);
    let with = format!("payload {length}");
    let mut cases = vec![Case {
        call: "journal.read, a block",
        with: with.clone(),
        calls: BLOCKS,
        rounds: Box::new(move |side, rounds, _| on!(side, journal_read(&journal, rounds.calls()))),
    }];
    let mut writing = |call, calls: usize, list: Vec<u8>| {
        cases.push(Case {
            call,
            with: with.clone(),
            calls,
            rounds: Box::new(move |side, rounds, out| {
                on!(side, journal_write(fresh, &list, rounds.calls(), out))
            }),
        });
    };
    writing("journal.write", 200, messages((1..=200).map(message)));
    let closed = (1..=50).flat_map(|number| [message(number), FINISH]);
    writing("journal.write, finish", 50, messages(closed));
    let refused = (0..50).map(|_| message(0));
    writing("journal.write refused", 50, messages(refused));
    cases
}

/// The plan of a journal that sets so many units again and again, and its
/// rewriting; beside them reading it. What is timed is a block of it.
fn plans(units: usize) -> Vec<Case> {
    let mut payloads = Vec::new();
    for number in 0..BLOCKS * (BLOCK / 40) {
        // The units come in no order.
        let unit = (number * 37 % units) as u16;
        let mut payload = vec![SET];
        payload.extend(unit.to_be_bytes());
        payload.extend([number as u8; 30]);
        payloads.push(payload);
    }
    let message = |(number, payload)| Message {
        number,
        originator: 1,
        count: number,
        payload,
    };
    let mut journal = vec![0; BLOCKS * BLOCK];
    let list = messages((1..).zip(payloads.iter().map(Vec::as_slice)).map(message));
    reference::journal_write(Writer::after(0, true), &list, 1, &mut journal);
    let with = format!("{units} units");
    let mut cases = Vec::new();
    let mut case = |call, rounds: Run| {
        cases.push(Case {
            call,
            with: with.clone(),
            calls: BLOCKS,
            rounds,
        });
    };
    // Room for every result: a block for each unit.
    let room = UNITS * BLOCK;
    let read = journal.clone();
    case(
        "journal.read, a block",
        Box::new(move |side, rounds, _| on!(side, journal_read(&read, rounds.calls()))),
    );
    let planned = journal.clone();
    case(
        "plan, a block",
        Box::new(move |side, rounds, _| {
            on!(side, plan(&planned, rounds.calls(), &mut vec![0; room]))
        }),
    );
    case(
        "rewrite, a block",
        Box::new(move |side, rounds, _| {
            on!(side, rewrite(&journal, rounds.calls(), &mut vec![0; room]))
        }),
    );
    cases
}
