//! The work list of a terminal.

use crate::ffi::{self, code};
use crate::{JOB, JOBS, Refusal};

/// A work list: up to 64 jobs, oldest first. Terminals that took the same messages have the same list.
#[derive(Clone, PartialEq, Eq)]
pub struct WorkList([ffi::Job; JOBS]);

/// What a feed answers.
#[derive(Clone, Copy, Debug, PartialEq, Eq)]
#[non_exhaustive]
pub enum Fed {
    /// A job was added.
    Added,
    /// The originator was given the job at that place.
    Given(usize),
    /// There is no job for the originator.
    None,
}

/// Who has a job.
#[derive(Clone, Copy, Debug, PartialEq, Eq)]
pub enum Holder {
    /// Nobody yet.
    Waiting,
    /// That member.
    Member(u8),
}

/// A job of a list.
#[derive(Clone, Copy, Debug, PartialEq, Eq)]
pub struct Job<'l> {
    /// Who has it.
    pub holder: Holder,
    /// What it says.
    pub bytes: &'l [u8],
}

impl Default for WorkList {
    fn default() -> Self {
        Self::new()
    }
}

impl WorkList {
    /// An empty list.
    #[must_use]
    pub const fn new() -> Self {
        Self(
            [ffi::Job {
                state: 0,
                member: 0,
                length: 0,
                bytes: [0; JOB],
            }; JOBS],
        )
    }

    /// Feeds it a message that was taken: byte 1 and a job adds the job; the single byte 2 finishes the originator's earlier job and
    /// fetches the next.
    ///
    /// # Errors
    ///
    /// [`Refusal::NotForList`] for any other message, [`Refusal::ListFull`].
    ///
    /// ```
    /// use warghytes::{Fed, Holder, Refusal, WorkList};
    ///
    /// let mut list = WorkList::new();
    /// assert_eq!(list.feed(0, b"\x01board"), Ok(Fed::Added));
    /// assert_eq!(list.feed(1, b"\x02"), Ok(Fed::Given(0)));
    /// assert_eq!(list.iter().next().map(|job| (job.holder, job.bytes)), Some((Holder::Member(1), &b"board"[..])));
    /// assert_eq!(list.feed(1, b"\x02"), Ok(Fed::None));
    /// assert_eq!(list.iter().count(), 0);
    /// assert_eq!(list.feed(1, b"news"), Err(Refusal::NotForList));
    /// ```
    pub fn feed(&mut self, originator: u8, payload: &[u8]) -> Result<Fed, Refusal> {
        // SAFETY: list and payload are lent, apart from each other, with their lengths.
        let answer = unsafe {
            ffi::warghytes_jobs_feed(
                self.0.as_mut_ptr(),
                self.0.len(),
                originator,
                payload.as_ptr(),
                payload.len(),
            )
        };
        match answer.code {
            code::ADDED => Ok(Fed::Added),
            code::GIVEN => Ok(Fed::Given(answer.number)),
            code::NONE => Ok(Fed::None),
            code => Err(Refusal::of(code)),
        }
    }

    /// The jobs, oldest first.
    pub fn iter(&self) -> impl Iterator<Item = Job<'_>> {
        self.0
            .iter()
            .take_while(|job| job.state != 0)
            .map(|job| Job {
                holder: if job.state == 1 {
                    Holder::Waiting
                } else {
                    Holder::Member(job.member)
                },
                bytes: &job.bytes[..job.length],
            })
    }
}
