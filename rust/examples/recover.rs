//! Three terminals in one process, over a cable that loses and doubles
//! packets. Terminal 0 has the sequencer, and burns out with all that it
//! holds. Terminal 2 misses its polls, invites, and makes the group anew of
//! those that reply. With a resilience degree of 1 nothing that terminal 0
//! took is lost, and the two that are left take the same messages in the same
//! order, or the program says so and fails.
//!
//!     recover [SEED]

use std::error::Error;
use warghytes::{Fields, PACKET, Received, Refusal, Submitted, Terminal};

const TERMINALS: u8 = 3;
const GROUP: u32 = 7;
const MESSAGES: u32 = 12;
const ROUNDS: u32 = 4000;
const BURNS: u32 = 30;
const PATIENCE: u32 = 12;

/// What decides what is lost, doubled and overtaken.
struct Chance(u32);

impl Chance {
    fn below(&mut self, n: u32) -> u32 {
        self.0 = self.0.wrapping_mul(1_664_525).wrapping_add(1_013_904_223);
        (self.0 >> 8) % n
    }
}

/// The packets that are under way, each for all.
struct Cable {
    chance: Chance,
    packets: Vec<Vec<u8>>,
    sent: u32,
    lost: u32,
}

impl Cable {
    /// One packet in four is lost, one in eight comes twice.
    fn send(&mut self, packet: &[u8]) {
        self.sent += 1;
        let copies = if self.chance.below(4) == 0 {
            self.lost += 1;
            0
        } else if self.chance.below(8) == 0 {
            2
        } else {
            1
        };
        for _ in 0..copies {
            self.packets.push(packet.to_vec());
        }
    }

    /// What came, in any order.
    fn came(&mut self) -> Vec<Vec<u8>> {
        let mut came = std::mem::take(&mut self.packets);
        for k in (1..came.len()).rev() {
            came.swap(k, self.chance.below(k as u32 + 1) as usize);
        }
        came
    }
}

#[derive(PartialEq, Eq)]
struct Taken {
    number: u32,
    originator: u8,
    count: u32,
    payload: Vec<u8>,
}

/// A terminal, and what it took.
struct Bench {
    terminal: Terminal,
    order: Vec<Taken>,
}

impl Bench {
    fn works(&mut self, i: u8, cable: &mut Cable) -> Result<(), Refusal> {
        let mut out = [0; PACKET];
        while let Some(taken) = self.terminal.take(&mut out)? {
            self.order.push(Taken {
                number: taken.number,
                originator: taken.originator,
                count: taken.count,
                payload: taken.payload.to_vec(),
            });
        }
        if self.terminal.submitted() < MESSAGES && cable.chance.below(3) == 0 {
            let text = format!("board {} of terminal {i}", self.terminal.submitted() + 1);
            match self.terminal.submit(text.as_bytes(), &mut out) {
                Ok(Submitted::Sent(request)) => cable.send(request),
                Ok(_) | Err(Refusal::AlreadyWaiting) => {}
                Err(refusal) => return Err(refusal),
            }
        } else if self.terminal.waiting() > 0 {
            cable.send(self.terminal.repeat(&mut out)?);
        }
        if self.terminal.sequencing() {
            cable.send(self.terminal.poll(&mut out)?);
            // the first number that not everybody is known to have taken, in case somebody missed that it is accepted
            if let Ok(copy) = self.terminal.copy(self.terminal.floor() + 1, &mut out) {
                cable.send(copy);
            }
        }
        Ok(())
    }

    /// Every packet goes to the member, and to the sequencer where there is one: each refuses what is not for it.
    fn hears(&mut self, packet: &[u8], cable: &mut Cable) -> Result<(), Refusal> {
        let mut out = [0; PACKET];
        match self.terminal.receive(packet, &mut out) {
            Ok(heard) => heard.packet().into_iter().for_each(|p| cable.send(p)),
            Err(Refusal::UnsoundState) => return Err(Refusal::UnsoundState),
            Err(_) => {}
        }
        if !self.terminal.sequencing() {
            return Ok(());
        }
        match self.terminal.order(packet, &mut out) {
            Ok(Received::Wanted(numbers)) => {
                for number in numbers {
                    if let Ok(copy) = self.terminal.copy(number, &mut out) {
                        cable.send(copy);
                    }
                }
            }
            Ok(received) => received.packet().into_iter().for_each(|p| cable.send(p)),
            Err(Refusal::UnsoundState) => return Err(Refusal::UnsoundState),
            Err(_) => {}
        }
        Ok(())
    }

    fn finished(&self, top: u32) -> bool {
        self.terminal.submitted() == MESSAGES
            && self.terminal.waiting() == 0
            && self.terminal.taken() >= top
    }
}

/// How terminal 2 waits for polls, invites and makes the group anew.
#[derive(Default)]
struct Watch {
    missed: u32,
    invitations: u32,
    result: Vec<u8>,
}

impl Watch {
    fn recovers(
        &mut self,
        round: u32,
        bench: &mut Bench,
        cable: &mut Cable,
    ) -> Result<(), Refusal> {
        let mut out = [0; PACKET];
        if !self.result.is_empty() {
            cable.send(&self.result);
            return Ok(());
        }
        if let Ok(result) = bench.terminal.make(2, &mut out) {
            self.result = result.to_vec();
            println!(
                "round {round}: group {} is made anew, terminal {} is elected",
                bench.terminal.group(),
                bench.terminal.elected()
            );
            return Ok(());
        }
        self.missed += 1;
        if self.missed.is_multiple_of(PATIENCE) {
            self.invitations += 1;
            cable.send(bench.terminal.invite(GROUP + self.invitations, &mut out)?);
        }
        Ok(())
    }
}

fn run(benches: &mut [Bench], cable: &mut Cable) -> Result<u32, Box<dyn Error>> {
    let mut watch = Watch::default();
    for round in 0..ROUNDS {
        let alive = if round < BURNS { 0 } else { 1 };
        if round == BURNS {
            println!(
                "round {round}: terminal 0 burns out, with the sequencer; it had taken {} messages of {}",
                benches[0].order.len(),
                benches[0].terminal.top()
            );
        }
        for (i, bench) in (0..).zip(benches.iter_mut()).skip(alive) {
            bench.works(i, cable)?;
        }
        watch.recovers(round, &mut benches[2], cable)?;
        for packet in cable.came() {
            for (i, bench) in benches.iter_mut().enumerate().skip(alive) {
                if cable.chance.below(8) == 0 {
                    continue;
                }
                if i == 2 && packet[0] == Fields::POLL {
                    watch.missed = 0;
                }
                bench.hears(&packet, cable)?;
            }
        }
        let top = benches[alive..].iter().map(|b| b.terminal.top()).max();
        if alive > 0
            && benches[alive..]
                .iter()
                .all(|b| b.finished(top.unwrap_or(0)))
        {
            return Ok(round);
        }
    }
    Err("the terminals did not come to one order".into())
}

fn main() -> Result<(), Box<dyn Error>> {
    let seed = std::env::args().nth(1).map_or(Ok(2026), |s| s.parse())?;
    let mut benches = Vec::new();
    for i in 0..TERMINALS {
        benches.push(Bench {
            terminal: Terminal::open(TERMINALS, i, GROUP, 1)?,
            order: Vec::new(),
        });
    }
    let mut cable = Cable {
        chance: Chance(seed),
        packets: Vec::new(),
        sent: 0,
        lost: 0,
    };
    let rounds = run(&mut benches, &mut cable)?;
    println!(
        "{rounds} rounds: {} packets sent, {} lost",
        cable.sent, cable.lost
    );
    let (zero, one, two) = (&benches[0].order, &benches[1].order, &benches[2].order);
    if one != two || !one.starts_with(zero) {
        return Err("the orders differ".into());
    }
    println!(
        "terminals 1 and 2 took the same {} messages in the same order, and all {} that terminal 0 took",
        one.len(),
        zero.len()
    );
    Ok(())
}
