//! The refusal table of document 01, and the numbers that document 02 adds.

/// Why a step, or a line of a sheet, is refused.
#[derive(Clone, Copy, Debug, PartialEq, Eq)]
pub enum Refusal {
    /// The system is not sound.
    Unsound,
    /// A process number is not 1 to n, or a wrong n is asked for.
    Stranger,
    /// The process that would act has crashed (document 01: stopped).
    Crashed,
    /// A reported view names a stranger, or lacks the process itself.
    OddView,
    /// Nothing to receive.
    NothingThere,
    /// No group index is left to propose.
    HistoryFull,
    /// A message of the step finds its channel full (document 01: line full).
    ChannelFull,
    /// A sheet line is not of a known form.
    BadLine,
    /// The sheet has too many bytes.
    LongSheet,
    /// Nothing recorded to respond to.
    NoRecord,
    /// What is recorded has another view than the local one.
    OtherView,
    /// The step would not send more messages than it is cut after.
    CutTooLate,
    /// A report brings back a process that may not be trusted yet.
    EarlyTrust,
    /// A walk is wanted deeper than 8, or of more than 2 processes.
    TooDeep,
}

/// What a step answers.
pub type Outcome = Result<(), Refusal>;

/// The printed number: 0 for a step done.
pub fn number(outcome: Outcome) -> u8 {
    match outcome {
        Ok(()) => 0,
        Err(Refusal::Unsound) => 1,
        Err(Refusal::Stranger) => 2,
        Err(Refusal::Crashed) => 3,
        Err(Refusal::OddView) => 4,
        Err(Refusal::NothingThere) => 5,
        Err(Refusal::HistoryFull) => 6,
        Err(Refusal::ChannelFull) => 7,
        Err(Refusal::BadLine) => 8,
        Err(Refusal::LongSheet) => 9,
        Err(Refusal::NoRecord) => 10,
        Err(Refusal::OtherView) => 11,
        Err(Refusal::CutTooLate) => 12,
        Err(Refusal::EarlyTrust) => 13,
        Err(Refusal::TooDeep) => 14,
    }
}

/// Refuses where the case holds.
pub(crate) fn refuse_if(case: bool, refusal: Refusal) -> Outcome {
    match case {
        true => Err(refusal),
        false => Ok(()),
    }
}
