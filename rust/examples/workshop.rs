//! Three terminals and a sequencer in one process, over a cable that loses and
//! doubles packets. Terminal 2 is a bench that sleeps for a while. Each
//! terminal feeds a work list what it takes; terminal 0 keeps a journal on a
//! file. At the end every terminal has taken the same messages in the same
//! order, or the program says so and fails.
//!
//!     workshop [SEED [JOURNAL]]

use std::error::Error;
use std::fs::File;
use std::io::Write;
use std::ops::Range;
use warghytes::{
    BLOCK, Holder, Member, PACKET, Received, Refusal, Sequencer, Submitted, WorkList, Writer,
};

const TERMINALS: u8 = 3;
const GROUP: u32 = 7;
const MESSAGES: u32 = 24;
const ROUNDS: u32 = 2000;
const ASLEEP: Range<u32> = 6..30;

/// What decides what is lost, doubled and overtaken.
struct Chance(u32);

impl Chance {
    fn below(&mut self, n: u32) -> u32 {
        self.0 = self.0.wrapping_mul(1_664_525).wrapping_add(1_013_904_223);
        (self.0 >> 8) % n
    }
}

#[derive(Clone, Copy, PartialEq, Eq)]
enum To {
    Sequencer,
    Terminal(u8),
}

/// The packets that are under way.
struct Cable {
    chance: Chance,
    packets: Vec<(To, Vec<u8>)>,
    sent: u32,
    lost: u32,
    doubled: u32,
}

impl Cable {
    /// One packet in four is lost, one in eight comes twice.
    fn send(&mut self, to: To, packet: &[u8]) {
        self.sent += 1;
        let copies = if self.chance.below(4) == 0 {
            self.lost += 1;
            0
        } else if self.chance.below(8) == 0 {
            self.doubled += 1;
            2
        } else {
            1
        };
        for _ in 0..copies {
            self.packets.push((to, packet.to_vec()));
        }
    }

    fn send_to_all(&mut self, packet: &[u8]) {
        for i in 0..TERMINALS {
            self.send(To::Terminal(i), packet);
        }
    }

    /// What came, in any order.
    fn came(&mut self) -> Vec<(To, Vec<u8>)> {
        let mut came = std::mem::take(&mut self.packets);
        for k in (1..came.len()).rev() {
            came.swap(k, self.chance.below(k as u32 + 1) as usize);
        }
        came
    }
}

#[derive(PartialEq, Eq)]
struct Taken {
    number: u32,
    originator: u8,
    count: u32,
    payload: Vec<u8>,
}

struct Terminal {
    member: Member,
    jobs: WorkList,
    order: Vec<Taken>,
}

/// A journal on a file.
struct Journal {
    writer: Writer,
    file: File,
}

impl Journal {
    fn keep(&mut self, m: &Taken) -> Result<(), Box<dyn Error>> {
        let mut out = [0; BLOCK];
        if let Some(block) =
            self.writer
                .write(m.number, m.originator, m.count, &m.payload, &mut out)?
        {
            self.file.write_all(block)?;
        }
        Ok(())
    }

    fn close(mut self) -> Result<(), Box<dyn Error>> {
        let mut out = [0; BLOCK];
        if let Some(block) = self.writer.finish(&mut out)? {
            self.file.write_all(block)?;
        }
        Ok(())
    }
}

fn sequencer_hears(
    sequencer: &mut Sequencer,
    packet: &[u8],
    cable: &mut Cable,
) -> Result<(), Refusal> {
    let mut out = [0; PACKET];
    let received = sequencer.receive(packet, &mut out)?;
    if let Some(packet) = received.packet() {
        cable.send_to_all(packet);
    }
    if let Received::Wanted(numbers) = received {
        for number in numbers {
            if let Ok(copy) = sequencer.copy(number, &mut out) {
                cable.send_to_all(copy);
            }
        }
    }
    Ok(())
}

/// The k-th message of a terminal: 0 adds jobs, 1 fetches them, and the bench says what becomes of a unit.
fn message(i: u8, k: u32) -> Vec<u8> {
    match i {
        0 => format!("\x01board {k}").into_bytes(),
        1 => vec![2],
        _ => [
            &[3, 1, (k % 5 + 1) as u8][..],
            format!("step {k} of the chair").as_bytes(),
        ]
        .concat(),
    }
}

impl Terminal {
    fn take_all(&mut self, mut journal: Option<&mut Journal>) -> Result<(), Box<dyn Error>> {
        let mut out = [0; PACKET];
        while let Some(taken) = self.member.take(&mut out)? {
            let taken = Taken {
                number: taken.number,
                originator: taken.originator,
                count: taken.count,
                payload: taken.payload.to_vec(),
            };
            match self.jobs.feed(taken.originator, &taken.payload) {
                Ok(_) | Err(Refusal::NotForList | Refusal::ListFull) => {}
                Err(refusal) => return Err(refusal.into()),
            }
            if let Some(journal) = &mut journal {
                journal.keep(&taken)?;
            }
            self.order.push(taken);
        }
        Ok(())
    }

    fn works(&mut self, i: u8, cable: &mut Cable) -> Result<(), Refusal> {
        let mut out = [0; PACKET];
        if self.member.submitted() < MESSAGES && cable.chance.below(2) == 0 {
            match self
                .member
                .submit(&message(i, self.member.submitted() + 1), &mut out)
            {
                Ok(Submitted::Sent(request)) => cable.send(To::Sequencer, request),
                Ok(_) | Err(Refusal::AlreadyWaiting) => {}
                Err(refusal) => return Err(refusal),
            }
        } else if self.member.waiting() > 0 {
            cable.send(To::Sequencer, self.member.repeat(&mut out)?);
        }
        Ok(())
    }

    fn finished(&self, top: u32) -> bool {
        self.member.submitted() == MESSAGES
            && self.member.waiting() == 0
            && self.member.taken() == top
    }
}

fn asleep(i: u8, round: u32) -> bool {
    i == 2 && ASLEEP.contains(&round)
}

fn run(
    sequencer: &mut Sequencer,
    terminals: &mut [Terminal],
    cable: &mut Cable,
    journal: &mut Journal,
) -> Result<u32, Box<dyn Error>> {
    let mut out = [0; PACKET];
    for round in 0..ROUNDS {
        let taken = terminals[2].member.taken();
        if round == ASLEEP.start {
            println!("round {round}: the bench falls asleep at number {taken}");
        }
        if round == ASLEEP.end {
            println!(
                "round {round}: the bench wakes at number {taken}; the last is {}",
                sequencer.top()
            );
        }
        for (i, terminal) in (0..)
            .zip(terminals.iter_mut())
            .filter(|&(i, _)| !asleep(i, round))
        {
            terminal.take_all((i == 0).then_some(&mut *journal))?;
            terminal.works(i, cable)?;
        }
        cable.send_to_all(sequencer.poll(&mut out)?);
        for (to, packet) in cable.came() {
            match to {
                To::Sequencer => sequencer_hears(sequencer, &packet, cable)?,
                To::Terminal(i) if asleep(i, round) => {}
                To::Terminal(i) => {
                    if let Some(packet) = terminals[usize::from(i)]
                        .member
                        .receive(&packet, &mut out)?
                        .packet()
                    {
                        cable.send(To::Sequencer, packet);
                    }
                }
            }
        }
        if terminals
            .iter()
            .all(|terminal| terminal.finished(sequencer.top()))
        {
            return Ok(round);
        }
    }
    Err("the terminals did not come to one order".into())
}

/// What a restart finds on the card.
fn restart(name: &str, messages: usize) -> Result<(), Box<dyn Error>> {
    let bytes = std::fs::read(name)?;
    let (found, writer) = warghytes::read(&bytes)?;
    if found.messages != messages {
        return Err("the journal does not have every message".into());
    }
    println!(
        "journal: {} blocks, {} messages, goes on behind number {}",
        found.blocks,
        found.messages,
        writer.last()
    );
    let mut out = [0; 4096];
    let mut plan = warghytes::plan(&bytes, &mut out)?;
    while let Some((&[u, v, k, l], rest)) = plan.split_first_chunk() {
        let (text, rest) = rest.split_at(u16::from_be_bytes([k, l]).into());
        println!(
            "unit {}: {}",
            u16::from_be_bytes([u, v]),
            String::from_utf8_lossy(text)
        );
        plan = rest;
    }
    Ok(())
}

fn main() -> Result<(), Box<dyn Error>> {
    let mut args = std::env::args().skip(1);
    let seed = args.next().map_or(Ok(2026), |seed| seed.parse())?;
    let name = args.next().unwrap_or_else(|| "workshop.journal".into());
    let mut sequencer = Sequencer::open(TERMINALS, GROUP, 0)?;
    let mut terminals = Vec::new();
    for i in 0..TERMINALS {
        terminals.push(Terminal {
            member: Member::open(TERMINALS, i, GROUP, 0)?,
            jobs: WorkList::new(),
            order: Vec::new(),
        });
    }
    let mut cable = Cable {
        chance: Chance(seed),
        packets: Vec::new(),
        sent: 0,
        lost: 0,
        doubled: 0,
    };
    let mut journal = Journal {
        writer: Writer::new(),
        file: File::create(&name)?,
    };
    let rounds = run(&mut sequencer, &mut terminals, &mut cable, &mut journal)?;
    println!(
        "{rounds} rounds: {} packets sent, {} lost, {} doubled",
        cable.sent, cable.lost, cable.doubled
    );
    let waiting = terminals[0]
        .jobs
        .iter()
        .filter(|job| job.holder == Holder::Waiting)
        .count();
    println!(
        "work list: {waiting} jobs wait, {} given",
        terminals[0].jobs.iter().count() - waiting
    );
    journal.close()?;
    restart(&name, terminals[0].order.len())?;
    for (i, terminal) in terminals.iter().enumerate().skip(1) {
        if terminal.order != terminals[0].order || terminal.jobs != terminals[0].jobs {
            return Err(format!("the orders of terminals 0 and {i} differ").into());
        }
    }
    println!(
        "every terminal took the same {} messages in the same order",
        terminals[0].order.len()
    );
    Ok(())
}
