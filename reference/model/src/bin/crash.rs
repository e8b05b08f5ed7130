//! Ends a writer of journals in the midst of its writes, and tears what it
//! wrote. `crash PROGRAM [STEP]`: the program lists, appends, plans and rewrites
//! as `journal` does; every STEP-th byte of a block is torn, or every one. After
//! each failure the program must list what the reference reads, and go on there;
//! a rewriting that fails must leave what it was to replace.

use model::journal::{self, BLOCK, Message};
use model::{listing, plan};
use std::ffi::OsString;
use std::fs;
use std::io::{self, Write};
use std::path::{Path, PathBuf};
use std::process::{Child, ChildStdin, Command, ExitCode, Stdio};
use std::slice;
use std::thread;
use std::time::{Duration, Instant};

/// How long a program may take over a block.
const PATIENCE: Duration = Duration::from_secs(60);

type Checked<T> = Result<T, String>;

fn main() -> ExitCode {
    let mut words = std::env::args_os().skip(1);
    let program = words.next();
    let step = words
        .next()
        .map_or(Some(1), |word| word.to_str()?.parse().ok())
        .filter(|&step| step > 0);
    let (Some(program), Some(step), None) = (program, step, words.next()) else {
        eprintln!("usage: crash PROGRAM [STEP]");
        return ExitCode::FAILURE;
    };
    match Rig::new(program).and_then(|mut rig| rig.run(step)) {
        Ok(journals) => println!("{journals} journals listed as the reference does"),
        Err(difference) => {
            println!("{difference}");
            return ExitCode::FAILURE;
        }
    }
    ExitCode::SUCCESS
}

/// The program, and a file of its own for the journal.
struct Rig {
    program: OsString,
    folder: PathBuf,
    file: PathBuf,
    listed: usize,
    random: Random,
}

impl Drop for Rig {
    fn drop(&mut self) {
        // There is nobody to tell.
        let _ = fs::remove_dir_all(&self.folder);
    }
}

impl Rig {
    fn new(program: OsString) -> Checked<Rig> {
        let folder = std::env::temp_dir().join(format!("crash.{}", std::process::id()));
        told("temporary folder", fs::create_dir(&folder))?;
        Ok(Rig {
            program,
            file: folder.join("journal"),
            folder,
            listed: 0,
            random: Random(0x9e37_79b9_7f4a_7c15),
        })
    }

    /// Every failure; how many journals were listed.
    fn run(&mut self, step: usize) -> Checked<usize> {
        let plan = Plan::of(&mut self.random, 1, 2500);
        self.store(&[])?;
        self.go_on("an empty journal", &[])?;
        self.must_list("an empty journal")?;
        self.stopped(&plan, 12)?;
        self.overrun(&plan, 12)?;
        self.complete(&plan)?;

        for (first, step) in [(1, step), (u32::MAX - 40, 32 * step)] {
            let plan = Plan::of(&mut self.random, first, 41);
            self.torn(&plan, step)?;
            self.flipped(&plan)?;
            self.store(&plan.journal[..BLOCK])?;
            self.complete(&plan)?;
        }
        // Behind a compacted block any higher number may come.
        let start = rewritten(&units(&mut self.random, 3, 9, 20))?;
        let plan = Plan::behind_of(&mut self.random, &start[..BLOCK], 1000, 41);
        self.torn(&plan, 16 * step)?;
        self.flipped(&plan)?;
        self.store(&plan.journal[..BLOCK])?;
        self.complete(&plan)?;

        self.rewriting()?;
        self.sizes()?;
        Ok(self.listed)
    }

    /// A rewriting that is ended in the midst of its writes, that cannot
    /// write, and that is ended at any moment: the file that it was to replace
    /// holds what it held, or all of the rewritten journal.
    fn rewriting(&mut self) -> Checked<()> {
        let journal = units(&mut self.random, 40, 237, 150);
        let (old, new) = (vec![7; 3 * BLOCK + 1], rewritten(&journal)?);
        self.store(&journal)?;
        let (from, to) = (self.file.clone(), self.folder.join("new"));
        let restored = || told("the old file", fs::write(&to, &old));
        let blocks = new.len() / BLOCK;

        for limit in 0..blocks {
            for ends in [true, false] {
                restored()?;
                // A file may grow to so many blocks: the signal ends the program, or the write fails.
                let trap = if ends { ":" } else { "trap '' XFSZ" };
                let script = format!("{trap}; ulimit -f {limit}; exec \"$@\" 2> /dev/null");
                let mut shell = Command::new("sh");
                shell.args(["-c", &script, "sh"]).arg(&self.program);
                shell.arg("rewrite").args([&from, &to]);
                told("rewrite", shell.output())?;
                let what = format!("{limit} of {blocks} blocks rewritten");
                self.must_be(&what, &to, &old)?;
                self.must_be(&what, &from, &journal)?;
                let left = self.beside()?;
                if !ends && left > 0 {
                    return Err(format!("{what}: {left} files are left"));
                }
            }
        }
        for _ in 0..60 {
            restored()?;
            let mut rewrite = Command::new(&self.program);
            rewrite.arg("rewrite").args([&from, &to]);
            let mut child = told("rewrite", rewrite.stdout(Stdio::null()).spawn())?;
            thread::sleep(Duration::from_micros(self.random.below(3000) as u64));
            end(&mut child)?;
            self.beside()?;
            if told("the new file", fs::read(&to))? != new {
                self.must_be("ended while rewriting", &to, &old)?;
            }
        }
        restored()?;
        let expected = format!("{}\n", listing::totals(&journal::found(&new)));
        self.must_print(&["rewrite".as_ref(), &from, &to], &expected)?;
        self.must_be("rewritten", &to, &new)?;
        for file in [&from, &to] {
            self.must_print(&["plan".as_ref(), file], &planned(&journal))?;
        }
        // In its own place, with a torn block behind it.
        self.store(&[&journal[..], &[1; BLOCK]].concat())?;
        self.must_print(&["rewrite".as_ref(), &from, &from], &expected)?;
        self.must_be("rewritten in its place", &from, &new)?;
        if self.beside()? > 0 {
            return Err("rewritten: other files are left".into());
        }
        told("the new file", fs::remove_file(&to))
    }

    /// Files of the longest size that is planned and rewritten, and longer.
    fn sizes(&mut self) -> Checked<()> {
        let (from, to) = (self.file.clone(), self.folder.join("new"));
        let mut journal = units(&mut self.random, 500, 100, 3000);
        for size in [listing::FILE, listing::FILE + 1, listing::FILE + BLOCK] {
            journal.resize(size, 0);
            self.store(&journal)?;
            told("the new file", fs::write(&to, b"old"))?;
            self.must_print(&["plan".as_ref(), &from], &planned(&journal))?;
            let mut expected = Vec::new();
            let new = listing::rewritten(&journal, &mut expected);
            let new = told("rewriting", new)?.unwrap_or(b"old".to_vec());
            self.must_print(&["rewrite".as_ref(), &from, &to], &lossy(&expected))?;
            self.must_be(&format!("{size} bytes rewritten"), &to, &new)?;
        }
        told("the new file", fs::remove_file(&to))
    }

    /// Ends the writer while it waits for more: block after block must be in
    /// the file once the next record does not fit, and not before.
    fn stopped(&mut self, plan: &Plan, times: usize) -> Checked<()> {
        for _ in 0..times {
            let blocks = self.stored()?.len() / BLOCK;
            let goal = blocks + self.random.below(4);
            // The last of these lines stands in the block behind the goal.
            let lines = &plan.lines[plan.ends[blocks]..];
            let until = plan.ends[goal] - plan.ends[blocks] + 1;
            let (mut child, mut stdin) = self.append()?;
            for line in &lines[..until] {
                let (front, back) = line.as_bytes().split_at(self.random.below(line.len()));
                told("a line", stdin.write_all(front))?;
                if self.random.below(8) == 0 {
                    thread::sleep(Duration::from_micros(300));
                }
                told("a line", stdin.write_all(back))?;
            }
            self.await_blocks(goal)?;
            thread::sleep(Duration::from_millis(2));
            told("half a line", stdin.write_all(b"4294967295 1"))?;
            end(&mut child)?;
            let what = format!("ended with {goal} blocks");
            self.must_hold(&what, &plan.journal[..goal * BLOCK])?;
            self.must_list(&what)?;
        }
        Ok(())
    }

    /// Ends the writer while it writes as fast as it can.
    fn overrun(&mut self, plan: &Plan, times: usize) -> Checked<()> {
        for _ in 0..times {
            let before = journal::found(&self.stored()?);
            let goal = (before.blocks + 40).min(plan.ends.len() - 1);
            let lines = plan.lines[before.messages..plan.ends[goal]].concat();
            // The last block stays in hand as long as more may come.
            let least = (before.blocks + self.random.below(12)).min(goal - 1);
            let (mut child, stdin) = self.append()?;
            let feeder = thread::spawn(move || fed(stdin, &lines));
            let seen = self.await_length(least * BLOCK)?;
            end(&mut child)?;
            drop(feeder.join());

            let stored = self.stored()?;
            let whole = journal::found(&stored).blocks;
            let what = format!("ended at {} bytes", stored.len());
            if stored[..whole * BLOCK] != plan.journal[..whole * BLOCK] {
                return Err(format!("{what}: its blocks are not what was written"));
            }
            // The block in writing is absent, complete or 512 bytes of junk. The
            // file grows before it, so the last one seen may have been in writing.
            let torn = stored.len() - whole * BLOCK;
            if whole + 1 < seen / BLOCK || (torn != 0 && torn != BLOCK) {
                return Err(format!("{what}: {whole} right blocks"));
            }
            self.must_list(&what)?;
        }
        Ok(())
    }

    /// Tears the last block at its bytes: the file cut there, or junk from
    /// there on.
    fn torn(&mut self, plan: &Plan, step: usize) -> Checked<()> {
        let whole = plan.ends.len() - 2;
        let journal = &plan.journal[..whole * BLOCK];
        let (finished, last) = journal.split_at((whole - 1) * BLOCK);
        for at in (0..=BLOCK).step_by(step) {
            let front = [finished, &last[..at]].concat();
            let what = format!("cut at byte {at}");
            self.fails(plan, &what, &front, whole - 1 + at / BLOCK)?;

            let mut junk = front;
            junk.resize_with(whole * BLOCK, || match at % 3 {
                0 => 0,
                1 => 255,
                _ => self.random.next() as u8,
            });
            let right = whole - usize::from(junk != journal);
            // A right block behind a wrong one is not read, and is cut off.
            if at % 16 == 0 && right < whole {
                junk.extend(last);
            }
            self.fails(plan, &format!("junk from byte {at}"), &junk, right)?;
        }
        Ok(())
    }

    /// Flips bits in any block.
    fn flipped(&mut self, plan: &Plan) -> Checked<()> {
        let length = (plan.ends.len() - 2) * BLOCK;
        for _ in 0..40 {
            let mut journal = plan.journal[..length].to_vec();
            let (at, bit) = (self.random.below(length), self.random.below(8));
            journal[at] ^= 1 << bit;
            let what = format!("bit {bit} of byte {at} flipped");
            self.fails(plan, &what, &journal, at / BLOCK)?;
        }
        Ok(())
    }

    /// Appends what is left of a plan: then all of it is there.
    fn complete(&mut self, plan: &Plan) -> Checked<()> {
        let behind = plan.behind(&self.stored()?);
        self.go_on("the last failure", behind)?;
        self.must_hold("every message appended", &plan.journal)?;
        self.must_list("every message appended")
    }

    /// Lists this journal, which has so many right blocks, and goes on; now
    /// and then only a message comes that may not follow.
    fn fails(&mut self, plan: &Plan, what: &str, journal: &[u8], right: usize) -> Checked<()> {
        let found = journal::found(journal).blocks;
        if found != right {
            return Err(format!("{what}: the reference finds {found} blocks"));
        }
        self.store(journal)?;
        self.must_list(what)?;
        let behind = plan.behind(journal);
        match self.random.below(5) {
            4 => {
                let wrong = plan.lines.len() - behind.len() + [0, 2][self.random.below(2)];
                let wrong = wrong.checked_sub(1).and_then(|at| plan.lines.get(at));
                self.go_on(what, wrong.map_or(&[], slice::from_ref))
            }
            lines => self.go_on(what, &behind[..lines.min(behind.len())]),
        }
    }

    /// Appends these lines to what is stored, as the reference would.
    fn go_on(&mut self, what: &str, lines: &[String]) -> Checked<()> {
        let expected = appended(&self.stored()?, lines);
        let (mut child, stdin) = self.append()?;
        drop(told("the lines", fed(stdin, &lines.concat()))?);
        told("the program's end", child.wait())?;
        self.must_hold(
            &format!("{what}, {} lines appended", lines.len()),
            &expected,
        )
    }

    /// Removes the files beside the journal and the rewritten one; how many.
    fn beside(&self) -> Checked<usize> {
        let mut removed = 0;
        for entry in told("the folder", fs::read_dir(&self.folder))? {
            let path = told("the folder", entry)?.path();
            if !path.ends_with("journal") && !path.ends_with("new") {
                told("a file beside", fs::remove_file(path))?;
                removed += 1;
            }
        }
        Ok(removed)
    }

    /// The program must print this.
    fn must_print(&self, words: &[&Path], expected: &str) -> Checked<()> {
        let output = told(
            "the program",
            Command::new(&self.program).args(words).output(),
        )?;
        let printed = lossy(&output.stdout);
        if printed == expected {
            return Ok(());
        }
        let what = words[0].display();
        let mut lines = printed.lines().zip(expected.lines());
        let (got, want) = lines.find(|(a, b)| a != b).unwrap_or(("", ""));
        Err(format!(
            "{what} prints '{got}' for '{want}', {}",
            output.status
        ))
    }

    /// The journal must hold these bytes.
    fn must_hold(&self, what: &str, expected: &[u8]) -> Checked<()> {
        self.must_be(what, &self.file, expected)
    }

    /// A file must hold these bytes.
    fn must_be(&self, what: &str, file: &Path, expected: &[u8]) -> Checked<()> {
        let stored = told("a file", fs::read(file))?;
        if stored == expected {
            return Ok(());
        }
        let same = stored.iter().zip(expected).take_while(|(a, b)| a == b);
        Err(format!(
            "{what}: the file has {} bytes and not {}, alike up to byte {}",
            stored.len(),
            expected.len(),
            same.count(),
        ))
    }

    /// The program must list what is stored as the reference does.
    fn must_list(&mut self, what: &str) -> Checked<()> {
        let mut expected = Vec::new();
        told("a listing", listing::list(&self.stored()?, &mut expected))?;
        let mut list = Command::new(&self.program);
        let output = told("list", list.arg("list").arg(&self.file).output())?;
        self.listed += 1;
        if output.stdout == expected {
            return Ok(());
        }
        let (got, want) = (lossy(&output.stdout), lossy(&expected));
        let mut lines = got.lines().zip(want.lines());
        let (got_line, want_line) = lines.find(|(a, b)| a != b).unwrap_or(("", ""));
        Err(format!(
            "{what}: {} lines listed and not {}: '{got_line}' for '{want_line}', {}",
            got.lines().count(),
            want.lines().count(),
            output.status,
        ))
    }

    /// Waits until the file has so many bytes; how many it then has.
    fn await_length(&self, length: usize) -> Checked<usize> {
        let length_now = || Ok(told("the journal", fs::metadata(&self.file))?.len() as usize);
        awaited("bytes", length, length_now)
    }

    /// Waits until the file has so many right blocks.
    fn await_blocks(&self, blocks: usize) -> Checked<usize> {
        awaited("blocks", blocks, || {
            Ok(journal::found(&self.stored()?).blocks)
        })
    }

    /// Starts the program to append what it is fed.
    fn append(&self) -> Checked<(Child, ChildStdin)> {
        let mut append = Command::new(&self.program);
        append.arg("append").arg(&self.file);
        append.stdin(Stdio::piped()).stdout(Stdio::null());
        let mut child = told("append", append.spawn())?;
        let stdin = child.stdin.take().ok_or("no standard input")?;
        Ok((child, stdin))
    }

    fn stored(&self) -> Checked<Vec<u8>> {
        told("the journal", fs::read(&self.file))
    }

    fn store(&self, journal: &[u8]) -> Checked<()> {
        told("the journal", fs::write(&self.file, journal))
    }
}

/// Waits until what is read is so much; how much it then is.
fn awaited(what: &str, goal: usize, read: impl Fn() -> Checked<usize>) -> Checked<usize> {
    let start = Instant::now();
    loop {
        let found = read()?;
        if found >= goal {
            return Ok(found);
        }
        if start.elapsed() > PATIENCE {
            return Err(format!("{found} {what} written and not {goal}"));
        }
        thread::yield_now();
    }
}

/// Ends a process at once, wherever it is.
fn end(child: &mut Child) -> Checked<()> {
    told("ending it", child.kill())?;
    told("its end", child.wait()).map(drop)
}

/// Feeds a program all of it. One that ended early is told by what it left.
fn fed(mut stdin: ChildStdin, lines: &str) -> io::Result<ChildStdin> {
    match stdin.write_all(lines.as_bytes()) {
        Err(error) if error.kind() != io::ErrorKind::BrokenPipe => Err(error),
        _ => Ok(stdin),
    }
}

/// What the reference makes of a journal and lines appended to it.
fn appended(journal: &[u8], lines: &[String]) -> Vec<u8> {
    let found = journal::found(journal);
    let mut whole = journal[..found.blocks * BLOCK].to_vec();
    let put = |block: &[u8]| {
        whole.extend(block);
        Ok(())
    };
    listing::write(found.tail, lines.concat().as_bytes(), put, io::sink())
        .expect("writing to memory");
    whole
}

/// What the reference rewrites a journal to.
fn rewritten(journal: &[u8]) -> Checked<Vec<u8>> {
    let bytes = told("rewriting", listing::rewritten(journal, &mut io::sink()))?;
    bytes.ok_or_else(|| "too many units".into())
}

/// What the reference prints of a journal's plan.
fn planned(journal: &[u8]) -> String {
    let mut output = Vec::new();
    listing::plan(journal, &mut output).expect("writing to memory");
    lossy(&output)
}

/// A journal whose messages set so many units, with descriptions of up to so
/// many bytes.
fn units(random: &mut Random, units: usize, most: usize, many: u32) -> Vec<u8> {
    let lines: Vec<String> = (1..=many)
        .map(|number| {
            let unit = random.below(units) as u16;
            let mut payload = vec![plan::SET];
            payload.extend(unit.to_be_bytes());
            let length = random.below(most + 1);
            payload.extend((0..length).map(|_| random.next() as u8));
            message_line(number, 0, number, &payload)
        })
        .collect();
    appended(&[], &lines)
}

/// Messages, and the journal of all of them.
struct Plan {
    lines: Vec<String>,
    journal: Vec<u8>,
    /// How many messages stand in the first blocks, for 0 blocks and so on.
    ends: Vec<usize>,
    /// How many stand before those of the lines.
    before: usize,
}

impl Plan {
    fn of(random: &mut Random, first: u32, many: u32) -> Plan {
        Plan::behind_of(random, &[], first, many)
    }

    /// Messages behind those of a journal.
    fn behind_of(random: &mut Random, start: &[u8], first: u32, many: u32) -> Plan {
        let lines: Vec<String> = (0..many).map(|k| line(random, first + k)).collect();
        let journal = appended(start, &lines);
        let blocks = journal.len() / BLOCK;
        let ends = (0..=blocks)
            .map(|blocks| journal::messages(&journal, blocks).count())
            .collect();
        Plan {
            lines,
            journal,
            ends,
            before: journal::found(start).messages,
        }
    }

    /// The lines behind the right blocks of a journal.
    fn behind(&self, journal: &[u8]) -> &[String] {
        let messages = journal::found(journal).messages;
        &self.lines[messages.saturating_sub(self.before)..]
    }
}

/// The line of a message with this number.
fn line(random: &mut Random, number: u32) -> String {
    let length = match random.below(4) {
        0 => 0,
        1 => random.below(8),
        2 => random.below(241),
        _ => 240 - random.below(4),
    };
    let payload: Vec<u8> = (0..length).map(|_| random.next() as u8).collect();
    let (originator, count) = (random.below(16) as u8, random.next() as u32);
    message_line(number, originator, count.max(1), &payload)
}

fn message_line(number: u32, originator: u8, count: u32, payload: &[u8]) -> String {
    let message = Message {
        number,
        originator,
        count,
        payload,
    };
    let mut line = Vec::new();
    listing::message_line(&message, &mut line).expect("writing to memory");
    lossy(&line)
}

fn lossy(bytes: &[u8]) -> String {
    String::from_utf8_lossy(bytes).into_owned()
}

fn told<T>(what: &str, result: io::Result<T>) -> Checked<T> {
    result.map_err(|error| format!("{what}: {error}"))
}

/// Small generator: xorshift.
struct Random(u64);

impl Random {
    fn next(&mut self) -> u64 {
        self.0 ^= self.0 << 13;
        self.0 ^= self.0 >> 7;
        self.0 ^= self.0 << 17;
        self.0
    }

    fn below(&mut self, bound: usize) -> usize {
        (self.next() >> 11) as usize % bound
    }
}
