//! A terminal's work list: jobs that wait or are given out, oldest first. It
//! is fed what the terminal takes, once the take is done.

use crate::answer::Refusal;
use crate::limits::{JOB, JOBS, MEMBERS, PAYLOAD};

/// The first byte of a payload that adds the job behind it.
pub const ADD: u8 = 1;
/// The only byte of a payload that fetches a job.
pub const FETCH: u8 = 2;

/// A record that is not used.
pub const UNUSED: u8 = 0;
/// A record whose job waits.
pub const WAITING: u8 = 1;
/// A record whose job is given to a member.
pub const GIVEN: u8 = 2;

/// A record of the list.
#[derive(Clone, Copy, Debug, PartialEq, Eq)]
pub struct Job {
    /// [`UNUSED`], [`WAITING`] or [`GIVEN`].
    pub state: u8,
    /// Whom it is given to, else 0.
    pub member: u8,
    /// Bytes of the job.
    pub length: u32,
    /// The job, zeros behind it.
    pub bytes: [u8; JOB],
}

impl Job {
    /// A record that is not used.
    pub const EMPTY: Job = Job {
        state: UNUSED,
        member: 0,
        length: 0,
        bytes: [0; JOB],
    };

    /// A job of at most [`JOB`] bytes that waits.
    fn waiting(job: &[u8]) -> Job {
        let mut bytes = [0; JOB];
        bytes[..job.len()].copy_from_slice(job);
        Job {
            state: WAITING,
            member: 0,
            length: job.len() as u32,
            bytes,
        }
    }

    /// The bytes of a sound record's job.
    pub fn as_slice(&self) -> &[u8] {
        &self.bytes[..self.length as usize]
    }

    /// The job is short of the payload limit, zeros lie behind it, and only a
    /// given one names a member, 0 to 15.
    fn is_sound(&self) -> bool {
        let holder = match self.state {
            UNUSED => self.member == 0 && self.length == 0,
            WAITING => self.member == 0,
            GIVEN => usize::from(self.member) < MEMBERS,
            _ => false,
        };
        let behind = self.bytes.get(self.length as usize..);
        holder && behind.is_some_and(|bytes| bytes.iter().all(|&byte| byte == 0))
    }
}

/// The answer of a feed.
#[derive(Clone, Copy, Debug, PartialEq, Eq)]
pub enum Fed {
    /// Every record is as it was.
    Refused(Refusal),
    /// The job waits.
    Added,
    /// The sender has the job at this place.
    Given(usize),
    /// No job waits.
    None,
}

/// A work list.
#[derive(Clone, Debug, PartialEq, Eq)]
pub struct List {
    /// Its records; a sound list has [`JOBS`].
    pub records: Vec<Job>,
}

impl List {
    /// A list without a job.
    pub fn empty() -> List {
        List {
            records: vec![Job::EMPTY; JOBS],
        }
    }

    /// The jobs of a sound list, oldest first.
    pub fn jobs(&self) -> &[Job] {
        let used = self.records.iter().position(|job| job.state == UNUSED);
        &self.records[..used.unwrap_or(self.records.len())]
    }

    /// Question 1.
    pub fn is_sound(&self) -> bool {
        let (used, unused) = self.records.split_at(self.jobs().len());
        let mut holders: Vec<u8> = used
            .iter()
            .filter(|job| job.state == GIVEN)
            .map(|job| job.member)
            .collect();
        let many = holders.len();
        holders.sort_unstable();
        holders.dedup();
        self.records.len() == JOBS
            && unused.iter().all(|job| job.state == UNUSED)
            && self.records.iter().all(Job::is_sound)
            && holders.len() == many
    }

    /// Feeds the list a message that was taken.
    pub fn feed(&mut self, originator: u8, payload: &[u8]) -> Fed {
        self.try_feed(originator, payload)
            .unwrap_or_else(Fed::Refused)
    }

    fn try_feed(&mut self, originator: u8, payload: &[u8]) -> Result<Fed, Refusal> {
        Refusal::Unsound.unless(self.is_sound())?;
        let form = matches!(payload, [ADD, ..] | [FETCH]);
        let fits = usize::from(originator) < MEMBERS && payload.len() <= PAYLOAD;
        Refusal::NotForList.unless(fits && form)?;
        if payload == [FETCH] {
            return Ok(self.fetch(originator));
        }
        let place = self.jobs().len();
        let record = self.records.get_mut(place).ok_or(Refusal::ListFull)?;
        *record = Job::waiting(&payload[1..]);
        Ok(Fed::Added)
    }

    /// Finishes the member's earlier job, and gives it the oldest that waits.
    fn fetch(&mut self, member: u8) -> Fed {
        let held = |job: &Job| job.state == GIVEN && job.member == member;
        if let Some(place) = self.records.iter().position(held) {
            self.records.remove(place);
            self.records.push(Job::EMPTY);
        }
        let waits = |job: &Job| job.state == WAITING;
        let Some(place) = self.records.iter().position(waits) else {
            return Fed::None;
        };
        self.records[place].state = GIVEN;
        self.records[place].member = member;
        Fed::Given(place)
    }
}
