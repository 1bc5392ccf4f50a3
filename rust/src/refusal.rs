//! The refusals and their numbers.

use core::error::Error;
use core::fmt::{self, Display, Formatter};

/// What a step answers.
pub type Answer = Result<(), Refusal>;

/// Why a step, or a line of a sheet, is refused: the refusal table of the papers. `Display` gives the
/// table's sentence, in its words (see the crate's page).
///
/// ```
/// use lobstercreel::Refusal;
///
/// let refusal = Refusal::OddView;
/// assert_eq!(refusal.number(), 4);
/// assert_eq!(refusal.word(), "odd view");
/// assert_eq!(refusal.to_string(), "a report names a unit beyond n, or lacks its own unit");
/// assert_eq!(Refusal::from_number(4), Some(refusal));
/// ```
#[derive(Clone, Copy, Debug, PartialEq, Eq, Hash)]
#[non_exhaustive]
#[repr(u8)]
pub enum Refusal {
    /// The system is not sound, or the bytes have not the length of an image.
    Unsound = 1,
    /// A process is not 1 to n, or a fresh system is wanted of a wrong size.
    Stranger = 2,
    /// The process that would act has crashed.
    Crashed = 3,
    /// The reported view has a process beyond n, or lacks the one that reports.
    OddView = 4,
    /// Receiving from an empty channel.
    NothingThere = 5,
    /// The proposal would pass the last group index.
    HistoryFull = 6,
    /// A message of this step finds a channel that holds 8.
    ChannelFull = 7,
    /// A line of a sheet, or four bytes of a list of steps, of no known form.
    BadLine = 8,
    /// A sheet of more than 60,000 bytes. Only a sheet prints it.
    LongSheet = 9,
    /// Responding with nothing recorded.
    NoRecord = 10,
    /// Responding to a recorded proposal whose view is not the local view.
    OtherView = 11,
    /// The step would send no more messages than those after which it is cut.
    CutTooLate = 12,
    /// The reported view brings back a process too early.
    EarlyTrust = 13,
    /// A walk over all orders that is too deep. Only the program `runs` prints it.
    TooDeep = 14,
}

impl Refusal {
    /// All of them, by rising number.
    pub const ALL: &'static [Refusal] = &[
        Refusal::Unsound,
        Refusal::Stranger,
        Refusal::Crashed,
        Refusal::OddView,
        Refusal::NothingThere,
        Refusal::HistoryFull,
        Refusal::ChannelFull,
        Refusal::BadLine,
        Refusal::LongSheet,
        Refusal::NoRecord,
        Refusal::OtherView,
        Refusal::CutTooLate,
        Refusal::EarlyTrust,
        Refusal::TooDeep,
    ];

    /// The number in the table.
    pub const fn number(self) -> u8 {
        self as u8
    }

    /// The refusal of this number, if there is one.
    pub fn from_number(number: u8) -> Option<Refusal> {
        // They stand by their numbers.
        Refusal::ALL.get(usize::from(number).checked_sub(1)?).copied()
    }

    /// The word in the table.
    pub const fn word(self) -> &'static str {
        match self {
            Refusal::Unsound => "unsound",
            Refusal::Stranger => "stranger",
            Refusal::Crashed => "stopped",
            Refusal::OddView => "odd view",
            Refusal::NothingThere => "nothing there",
            Refusal::HistoryFull => "history full",
            Refusal::ChannelFull => "line full",
            Refusal::BadLine => "bad line",
            Refusal::LongSheet => "long sheet",
            Refusal::NoRecord => "no record",
            Refusal::OtherView => "other view",
            Refusal::CutTooLate => "cut too late",
            Refusal::EarlyTrust => "early trust",
            Refusal::TooDeep => "too deep",
        }
    }

    const fn sentence(self) -> &'static str {
        match self {
            Refusal::Unsound => "the table is not sound",
            Refusal::Stranger => {
                "a unit number in the step is not 1 to n, or a fresh table is wanted of a wrong size"
            }
            Refusal::Crashed => "the unit that would act has stopped",
            Refusal::OddView => "a report names a unit beyond n, or lacks its own unit",
            Refusal::NothingThere => "taking from an empty line",
            Refusal::HistoryFull => {
                "a report by the least unit of its view with PropOut 32; a Retry that would be acted \
                 on, with new 33"
            }
            Refusal::ChannelFull => {
                "a message of this step goes to a unit that has not stopped, over a line that already \
                 holds 8"
            }
            Refusal::BadLine => "a sheet line, or a step of a list, is of no known form",
            Refusal::LongSheet => "a sheet of more than 60,000 bytes",
            Refusal::NoRecord => "answering with no recorded proposal",
            Refusal::OtherView => "answering a recorded proposal whose view is not the local view",
            Refusal::CutTooLate => "a step is cut after no fewer messages than it would send",
            Refusal::EarlyTrust => {
                "a report brings back a unit whose view has not lacked the reporting one since it was \
                 last suspected"
            }
            Refusal::TooDeep => "all orders are wanted for depth above 8 or more than 2 units",
        }
    }

    /// What a number of the library answers. Its numbers are those of the table: that is proved.
    pub(crate) fn answer(number: u8) -> Answer {
        match number {
            0 => Ok(()),
            _ => Err(Refusal::from_number(number).expect("a number of the refusal table")),
        }
    }
}

impl Display for Refusal {
    fn fmt(&self, f: &mut Formatter<'_>) -> fmt::Result {
        f.pad(self.sentence())
    }
}

impl Error for Refusal {}

impl From<Refusal> for u8 {
    fn from(refusal: Refusal) -> u8 {
        refusal.number()
    }
}
