//! Why a call refused.

use core::fmt;

macro_rules! refusals {
    ($($(#[$doc:meta])* $name:ident = $number:literal, $text:literal;)*) => {
        /// Why a call refused: the question that said no. The state and the output are then as they were.
        #[derive(Clone, Copy, Debug, PartialEq, Eq, Hash)]
        #[non_exhaustive]
        #[repr(u8)]
        pub enum Refusal { $($(#[$doc])* $name = $number,)* }

        impl Refusal {
            /// All of them, in the order of their numbers.
            pub const ALL: &[Self] = &[$(Self::$name,)*];

            pub(crate) fn of(code: u32) -> Self {
                match code {
                    $($number => Self::$name,)*
                    _ => unreachable!("no call answers the code {code}"),
                }
            }
        }

        impl fmt::Display for Refusal {
            fn fmt(&self, f: &mut fmt::Formatter<'_>) -> fmt::Result {
                f.write_str(match self { $(Self::$name => $text,)* })
            }
        }
    };
}

refusals! {
    /// Question 1.
    UnsoundState = 1, "no calls lead to this state";
    /// Question 2.
    ShortOutput = 2, "the output is too short";
    /// Question 3.
    PacketSize = 3, "the packet is too short or too long";
    /// Question 4.
    UnknownKind = 4, "no such kind of packet";
    /// Question 5.
    PayloadLength = 5, "the packet's length is not what its header says";
    /// Question 6.
    ForbiddenFields = 6, "the packet's fields may not be so";
    /// Question 7.
    OtherGroup = 7, "the packet is of another group";
    /// Question 8.
    OtherEnd = 8, "the packet is for the other end";
    /// Question 9.
    UnknownMember = 9, "the group has no such member";
    /// Question 10.
    AcknowledgedAhead = 10, "a number is acknowledged that was not given or not accepted";
    /// Question 11.
    CountAhead = 11, "the count is not the member's next";
    /// Question 12.
    WantedAhead = 12, "a number is wanted that was not given";
    /// Question 13.
    LongPayload = 13, "the payload is too long";
    /// Question 14.
    AlreadyWaiting = 14, "five messages wait already";
    /// Question 15.
    NothingWaiting = 15, "no message waits";
    /// Question 16.
    NumbersUsedUp = 16, "the numbers are used up";
    /// Question 17.
    NotInHistory = 17, "the number is not in the history";
    /// Question 18.
    Opening = 18, "a group has 1 to 16 members, numbered from 0";
    /// Question 19.
    NotForList = 19, "the message is not for the work list";
    /// Question 20.
    ListFull = 20, "the work list is full";
    /// Question 21.
    WrongJournal = 21, "the journal may not be so, or the message may not follow";
    /// Question 22.
    ManyUnits = 22, "the journal has more than 512 units";
    /// Question 23.
    NoRoom = 23, "the output has no room for the result";
    /// Question 24.
    Resilience = 24, "the resilience degree is not below the number of members";
    /// Question 25.
    NotExpected = 25, "the member is not one that confirms offers";
    /// Question 26.
    FewSurvivors = 26, "fewer members survive than were demanded";
    /// Question 27.
    NotOfAttempt = 27, "it is not of the attempt that is open";
}

impl Refusal {
    /// The number of the question that said no.
    #[must_use]
    pub const fn number(self) -> u8 {
        self as u8
    }
}

impl core::error::Error for Refusal {}
