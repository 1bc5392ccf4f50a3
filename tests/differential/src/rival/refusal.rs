//! The refusal table of document 01.

/// Why a step, or a line of a sheet, is refused.
#[derive(Clone, Copy, Debug, PartialEq, Eq, PartialOrd, Ord)]
#[repr(u8)]
pub enum Refusal {
    /// The system is not sound.
    Unsound = 1,
    /// A process number is not 1 to n, or a wrong n is asked for.
    Stranger = 2,
    /// The process that would act has crashed (document 01: stopped).
    Crashed = 3,
    /// A reported view names a stranger, or lacks the process itself.
    OddView = 4,
    /// Nothing to receive.
    NothingThere = 5,
    /// No group index is left to propose.
    HistoryFull = 6,
    /// A message of the step finds its channel full (document 01: line full).
    ChannelFull = 7,
    /// A sheet line is not of a known form.
    BadLine = 8,
    /// The sheet has too many bytes.
    LongSheet = 9,
    /// Nothing recorded to respond to.
    NoRecord = 10,
    /// What is recorded has another view than the local one.
    OtherView = 11,
    /// The step would not send more messages than it is cut after.
    CutTooLate = 12,
    /// A report brings back a process that has not doubted the reporter.
    EarlyTrust = 13,
}

/// What a step answers.
pub type Outcome = Result<(), Refusal>;

/// The printed number: 0 for a step done.
pub fn number(outcome: Outcome) -> u8 {
    outcome.map_or_else(|refusal| refusal as u8, |()| 0)
}
