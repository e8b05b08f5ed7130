//! Terminals of the proved library beside the reference's, in a world whose
//! packets are lost, doubled and changed at will, with resets: after each call
//! what is told, the state that is left and the output are the reference's.

use super::{laid, lent, near, other_byte, payload, resilience_of};
use boundary::ends::Told;
use boundary::terminals::TerminalState;
use model::limits::{MEMBERS, PACKET};
use model::packet;
use model::terminal::Terminal;
use model::{Answer, Refusal};
use schedules::random::Random;

/// A call of a terminal.
#[derive(Clone, Debug)]
enum Call {
    Submit(Vec<u8>),
    Repeat,
    Take,
    Status,
    Receive(Vec<u8>),
    Order(Vec<u8>),
    Poll,
    Copy(u32),
    Invite(u32),
    Make(u32),
}

fn ask(state: &mut TerminalState, call: &Call, out: &mut [u8]) -> Told {
    match call {
        Call::Submit(payload) => state.submit(payload, out),
        Call::Repeat => state.repeat(out),
        Call::Take => state.take(out),
        Call::Status => state.status(out),
        Call::Receive(packet) => state.receive(packet, out),
        Call::Order(packet) => state.order(packet, out),
        Call::Poll => state.poll(out),
        Call::Copy(number) => state.copy(*number, out),
        Call::Invite(number) => state.invite(*number, out),
        Call::Make(demand) => state.make(*demand, out),
    }
}

/// The same of the reference. Its sequencer is asked whether the terminal is
/// said to have one or not: the world does not ask one that has none.
fn ask_reference(state: &mut Terminal, call: &Call, out: &mut [u8]) -> Told {
    let sequencing = std::mem::replace(&mut state.sequencing, true);
    let answer = match call {
        Call::Order(packet) => state.order(packet, out),
        Call::Poll => state.poll(out),
        Call::Copy(number) => state.copy(*number, out),
        _ => None,
    };
    state.sequencing = sequencing;
    Told::of(answer.unwrap_or_else(|| match call {
        Call::Submit(payload) => state.submit(payload, out),
        Call::Repeat => state.repeat(out),
        Call::Take => state.take(out),
        Call::Status => state.status(out),
        Call::Receive(packet) => state.receive(packet, out),
        Call::Invite(number) => state.invite(*number, out),
        Call::Make(demand) => state.make(*demand, out),
        Call::Order(_) | Call::Poll | Call::Copy(_) => (Answer::Refused(Refusal::Unsound), 0),
    }))
}

/// A call of both on equal states: what is told, or a difference.
fn both(here: &mut TerminalState, call: &Call, lent: &[u8]) -> Result<(Told, Vec<u8>), String> {
    let (before, mut there) = (here.clone(), here.as_reference());
    let (mut out, mut other) = (lent.to_vec(), lent.to_vec());
    let told = ask(here, call, &mut out);
    let said = if before.has_flags() {
        ask_reference(&mut there, call, &mut other)
    } else {
        Told::of((Answer::Refused(Refusal::Unsound), 0))
    };
    let kept = said.code >= 32 || *here == before;
    if told != said || out != other || here.as_reference() != there || !kept {
        return Err(format!(
            "{call:02x?} tells {told:?}, in the reference {said:?}"
        ));
    }
    out.truncate(told.written);
    Ok((told, out))
}

/// Terminals, and the packets that they wrote.
struct World<'a> {
    random: &'a mut Random,
    terminals: Vec<TerminalState>,
    packets: Vec<Vec<u8>>,
    number: u32,
}

impl World<'_> {
    fn terminal(&mut self) -> usize {
        self.random.below(self.terminals.len())
    }

    /// A packet that was written, mostly as it is and of the last ones; else
    /// with a byte changed, or one of a reset with fields near its own.
    fn packet(&mut self, i: usize) -> Vec<u8> {
        let random = &mut *self.random;
        if self.packets.is_empty() || random.percent(4) {
            let state = &self.terminals[i];
            let kind = random.one(&[9, 10, 11, 11]);
            let mask = near(random, state.group.survivors.into()) as u16;
            let sender = random.below(MEMBERS) as u8;
            let attempt = random.one(&[state.attempt, state.invited, self.number]);
            let fields = match kind {
                9 => [attempt, 0, 0],
                10 => [attempt, near(random, state.number), 0],
                _ => {
                    let elected = random.one(&[state.member, sender]);
                    [attempt, elected.into(), near(random, state.number)]
                }
            };
            let survivors = mask.to_be_bytes();
            let payload: &[u8] = if kind == 11 { &survivors } else { &[] };
            return laid(kind, sender, state.group.number, fields, payload);
        }
        let last = self.packets.len();
        let from = if random.percent(80) {
            last.saturating_sub(8)
        } else {
            0
        };
        let mut packet = self.packets[from + random.below(last - from)].clone();
        if random.percent(5) {
            let at = random.below(packet.len());
            packet[at] = other_byte(random, packet[at]);
        }
        packet
    }

    /// A call for terminal i.
    fn call(&mut self, i: usize) -> Call {
        let sequencing = self.terminals[i].sequencing == 1;
        match self.random.below(40) {
            0..4 => Call::Submit(payload(self.random)),
            4 => Call::Repeat,
            5..9 => Call::Take,
            9 => Call::Status,
            10 => Call::Poll,
            11..13 => Call::Copy(near(self.random, self.terminals[i].top)),
            13 => {
                self.number += 1;
                Call::Invite(self.random.one(&[self.number, self.number, 7]))
            }
            14..16 => Call::Make(self.random.below(4) as u32),
            16..24 if sequencing => Call::Order(self.packet(i)),
            _ => Call::Receive(self.packet(i)),
        }
    }
}

/// A list of calls on the terminals of a group, and now and then one on a
/// terminal with some bytes changed, which is then put back.
pub fn resets(seed: u64) -> (u8, Option<String>) {
    let random = &mut Random::seeded(seed ^ 0x7465_726d);
    let n = random.one(&[1, 2, 3, 3, 4, 5, 16]);
    let r = resilience_of(random, n);
    let group = 7;
    let mut terminals = Vec::new();
    for number in 0..n {
        let mut state = TerminalState::closed();
        let told = state.open(n, number, group, r);
        let fresh = Terminal::fresh(n.into(), number.into(), group, r.into());
        if told.code != 39 || fresh.as_ref() != Ok(&state.as_reference()) {
            return (0, Some(format!("opened with {n}, {number}, {r}: {told:?}")));
        }
        terminals.push(state);
    }
    let number = group + 1;
    let mut world = World {
        random,
        terminals,
        packets: Vec::new(),
        number,
    };
    let mut refusal = 0;
    for _ in 0..120 {
        let i = world.terminal();
        let call = world.call(i);
        let lent = match world.random.below(12) {
            0 => lent(world.random),
            _ => vec![0; PACKET],
        };
        if world.random.percent(6) {
            // Another state: bytes changed, or all of them, or an opening.
            let mut forged = world.terminals[i].clone();
            let size = forged.bytes_mut().len();
            for _ in 0..world.random.one(&[1, 1, 1, 2, 3]) {
                // The numbers at the front as often as all that follows them.
                let most = world.random.one(&[80, size]);
                let at = world.random.below(most);
                forged.bytes_mut()[at] = other_byte(world.random, forged.bytes_mut()[at]);
            }
            if let Err(difference) = both(&mut forged, &call, &lent) {
                return (refusal, Some(format!("forged: {difference}")));
            }
            let (n, number) = (world.random.below(20) as u8, world.random.below(20) as u8);
            let r = world.random.below(20) as u8;
            let told = forged.open(n, number, group, r);
            let expected = match Terminal::fresh(n.into(), number.into(), group, r.into()) {
                Ok(fresh) => told.code == 39 && forged.as_reference() == fresh,
                Err(refused) => {
                    told.code == refused.number().into() && forged == TerminalState::closed()
                }
            };
            if !expected {
                return (
                    refusal,
                    Some(format!("opened with {n}, {number}, {r}: {told:?}")),
                );
            }
            continue;
        }
        match both(&mut world.terminals[i], &call, &lent) {
            Ok((told, bytes)) => {
                if !matches!(call, Call::Take) && !bytes.is_empty() {
                    if packet::read(&bytes).is_err() {
                        return (refusal, Some(format!("{call:?} writes {bytes:02x?}")));
                    }
                    world.packets.push(bytes);
                }
                if (26..28).contains(&told.code) {
                    refusal = told.code as u8;
                }
            }
            Err(difference) => return (refusal, Some(difference)),
        }
    }
    (refusal, None)
}
