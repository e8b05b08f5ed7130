//! What a call answers, and the questions by which it refuses.

use std::fmt;

/// The first question that was answered "no", by the paper's number.
#[derive(Clone, Copy, Debug, PartialEq, Eq)]
#[repr(u8)]
pub enum Refusal {
    /// The state is not sound.
    Unsound = 1,
    /// The lent output is shorter than 260 bytes.
    ShortOutput = 2,
    /// The packet is not 20 to 260 bytes long.
    PacketSize = 3,
    /// The kind is not 1 to 11.
    Kind = 4,
    /// The length is not 20 + L, or L is not two in kind 11 and zero in kinds
    /// 3, 4, 5 and 7 to 10.
    Length = 5,
    /// A, B, C or the members named in kind 11 do not obey the kind; at an
    /// end, byte 1 of a kind 5 or 8 is not its elected member.
    Fields = 6,
    /// The group number is another's, or the end has replied to an
    /// invitation.
    OtherGroup = 7,
    /// The kind is for the other end.
    OtherEnd = 8,
    /// Byte 1 is not below n, at the sequencer no survivor; a result names a
    /// survivor not below n.
    NoSuchMember = 9,
    /// An acknowledgement above the last accepted number, or a kind 7 above
    /// top.
    NumberAhead = 10,
    /// A request's count above p+1.
    CountAhead = 11,
    /// A gap that ends above top.
    GapAboveTop = 12,
    /// A payload of more than 240 bytes.
    PayloadTooLong = 13,
    /// A submit while five messages wait.
    AlreadyWaiting = 14,
    /// A repeat while nothing waits.
    NothingWaiting = 15,
    /// No next number is left.
    NumbersUsedUp = 16,
    /// A copied number that is not in the history.
    NotInHistory = 17,
    /// Opened with n not 1 to 16, or a member number not below n.
    Opening = 18,
    /// A member over 15, or a payload that is no add and no fetch, or too long.
    NotForList = 19,
    /// An add to a list whose 64 records are used.
    ListFull = 20,
    /// A journal whose length is no multiple of 512; a record or a number
    /// that may not be written.
    WrongJournal = 21,
    /// A journal that sets more than 512 units.
    ManyUnits = 22,
    /// An output shorter than the plan or the rewritten journal.
    NoRoom = 23,
    /// Opened with a resilience degree not below n.
    Resilience = 24,
    /// A kind 7 for an unaccepted number from a member that is not expected
    /// to answer.
    NotExpected = 25,
    /// A making with fewer survivors than it demands.
    FewSurvivors = 26,
    /// A making without an open invitation, a reply not to it, a result not
    /// of the last invitation replied to, or one that does not fit the reply.
    NotOfAttempt = 27,
}

impl Refusal {
    /// The question's number.
    pub fn number(self) -> u8 {
        self as u8
    }

    /// Asks the question: `Err(self)` if the answer is no.
    #[inline(always)]
    pub(crate) fn unless(self, yes: bool) -> Result<(), Refusal> {
        if yes { Ok(()) } else { Err(self) }
    }
}

/// The answer of a call of either end.
#[derive(Clone, Copy, Debug, PartialEq, Eq)]
pub enum Answer {
    /// State and lent bytes are unchanged.
    Refused(Refusal),
    /// A packet was written and there is nothing else to say.
    Sent,
    /// Member: the message waits behind another, with this count.
    Queued(u32),

    /// Sequencer: the message has this number; its broadcast or offer.
    Numbered(u32),
    /// Sequencer: the message already has this number; its broadcast or offer
    /// again.
    Again(u32),
    /// Sequencer: the history is full; a poll.
    Full,
    /// Sequencer: the numbers a member still needs, first and last.
    Wanted(u32, u32),
    /// Sequencer: who answered an offer is marked, and no number has marks
    /// enough.
    Marked,
    /// Sequencer: who answered is marked, and so a number is accepted, with
    /// those before it; a kind 8.
    Accepted,

    /// Either end: an acknowledgement, or what is accepted, was noted.
    Noted,
    /// Either end: the message is already past. Of an offer a member may
    /// write a kind 7.
    Old,

    /// Member: kept, nothing is missing below it. Of an offer it may write a
    /// kind 7.
    Kept,
    /// Member: kept, with a gap packet for what is missing below it.
    KeptGap,
    /// Member: too far ahead to keep, all places are held.
    Beyond,
    /// Member: too far ahead to keep, with a gap packet.
    BeyondGap,
    /// Member: a poll found numbers missing; a gap packet.
    Gap,
    /// Member: a poll found nothing missing; a status packet.
    Status,
    /// Member: the next message in order; its payload is in the output.
    Took {
        /// Its sequence number.
        number: u32,
        /// Who submitted it.
        originator: u8,
        /// The originator's count for it.
        count: u32,
        /// Whether the following number is held and accepted too.
        more: bool,
    },
    /// Member: the next message in order is not held, or not yet accepted.
    None,
}

/// The answer in lower case and its numbers, as `play` prints them.
impl fmt::Display for Answer {
    fn fmt(&self, f: &mut fmt::Formatter<'_>) -> fmt::Result {
        match *self {
            Answer::Refused(refusal) => write!(f, "refused {}", refusal.number()),
            Answer::Sent => f.write_str("sent"),
            Answer::Queued(count) => write!(f, "queued {count}"),
            Answer::Numbered(number) => write!(f, "numbered {number}"),
            Answer::Again(number) => write!(f, "again {number}"),
            Answer::Full => f.write_str("full"),
            Answer::Noted => f.write_str("noted"),
            Answer::Wanted(first, last) => write!(f, "wanted {first} {last}"),
            Answer::Marked => f.write_str("marked"),
            Answer::Accepted => f.write_str("accepted"),
            Answer::Old => f.write_str("old"),
            Answer::Kept => f.write_str("kept"),
            Answer::KeptGap => f.write_str("keptgap"),
            Answer::Beyond => f.write_str("beyond"),
            Answer::BeyondGap => f.write_str("beyondgap"),
            Answer::Gap => f.write_str("gap"),
            Answer::Status => f.write_str("status"),
            Answer::Took {
                number,
                originator,
                count,
                ..
            } => write!(f, "took {number} {originator} {count}"),
            Answer::None => f.write_str("none"),
        }
    }
}

/// An answer and how many bytes went to the front of the output.
pub(crate) type Outcome = Result<(Answer, usize), Refusal>;

/// A refusal is an answer that wrote nothing.
#[inline(always)]
pub(crate) fn settle(outcome: Outcome) -> (Answer, usize) {
    outcome.unwrap_or_else(|refusal| (Answer::Refused(refusal), 0))
}
