//! What a system says of one process.

use crate::layout::{ENTRIES, HISTORY, PROCESS, PROCESSES, RECORD, RECORDS, TRUST};
use crate::message::Proposal;
use crate::view::{GroupIndex, ProcessId, View};
use crate::IMAGE;
use core::fmt::{self, Debug, Display, Formatter};

/// A process (the papers: unit), as it was when it was read.
///
/// In a damaged image the byte of a crash may stand for nothing. It is read as a live process with
/// `next` 0, which is not sound. `Display` is the line that a sheet prints.
///
/// ```
/// use lobstercreel::{GroupIndex, ProcessId, System, View, WrongSize};
///
/// let system = System::fresh(3)?;
/// let process = system.process(ProcessId(2)).expect("one of three");
/// assert!(!process.crashed);
/// assert_eq!(process.view, View::first(3));
/// assert_eq!(process.next, GroupIndex(2));
/// assert_eq!(process.recorded(ProcessId(1)), None);
/// assert_eq!(process.history.last(), Some((GroupIndex::FIRST, View::first(3))));
/// assert_eq!(process.to_string(), "unit 2 live next 2 1=123");
/// # Ok::<(), WrongSize>(())
/// ```
#[derive(Clone, Copy, PartialEq, Eq, Hash)]
#[non_exhaustive]
pub struct Process {
    /// Its number.
    pub id: ProcessId,
    /// Has it crashed (the papers: stopped)?
    pub crashed: bool,
    /// The local view.
    pub view: View,
    /// Next: the first index that it would still accept.
    pub next: GroupIndex,
    /// PropOut: the index of its last proposal.
    pub propout: GroupIndex,
    /// The last proposed view; empty if there is none.
    pub proposal: View,
    /// Those that have acknowledged that proposal.
    pub acks: View,
    /// Those of the system's processes that it may trust again.
    pub trust: View,
    /// The views agreed upon.
    pub history: History,
    recorded: [Option<Proposal>; 8],
}

impl Process {
    /// It is one of everyone, who are 1 to 8 or fewer.
    pub(crate) fn read(image: &[u8; IMAGE], id: ProcessId, everyone: View) -> Process {
        let place = usize::from(id.0) - 1;
        let bytes = &image[PROCESSES + PROCESS * place..][..PROCESS];
        let mut recorded = [None; 8];
        let known = recorded.iter_mut().take(everyone.len());
        let records = bytes[RECORDS..].chunks(RECORD);
        known.zip(records).for_each(|(known, record)| *known = record_of(record));
        let mut entries = [View::EMPTY; HISTORY];
        let views = bytes[ENTRIES..].iter().map(|&view| View::from_bits(view));
        entries.iter_mut().zip(views).for_each(|(entry, view)| *entry = view);
        Process {
            id,
            crashed: bytes[0] == 1,
            view: View::from_bits(bytes[1]),
            next: GroupIndex(if bytes[0] <= 1 { bytes[2] } else { 0 }),
            propout: GroupIndex(bytes[3]),
            proposal: View::from_bits(bytes[4]),
            acks: View::from_bits(bytes[5]),
            trust: View::from_bits(image[TRUST + place]) & everyone,
            history: History { entries },
            recorded,
        }
    }

    /// The proposal recorded from process q, if there is one.
    ///
    /// In a damaged image its tag may stand for nothing. It is read as a proposal of nobody at index 0,
    /// which is not sound.
    pub fn recorded(&self, q: ProcessId) -> Option<Proposal> {
        let place = usize::from(q.0).checked_sub(1)?;
        *self.recorded.get(place)?
    }

    /// The recorded proposals, each with the process from which it is, rising.
    pub fn records(&self) -> impl Iterator<Item = (ProcessId, Proposal)> + '_ {
        View::first(8).iter().filter_map(|q| Some((q, self.recorded(q)?)))
    }
}

fn record_of(bytes: &[u8]) -> Option<Proposal> {
    match *bytes {
        [0, ..] => None,
        [1, view, index] => Some(Proposal::read(view, index)),
        _ => Some(Proposal::read(0, 0)),
    }
}

/// The line that a sheet prints.
impl Display for Process {
    fn fmt(&self, f: &mut Formatter<'_>) -> fmt::Result {
        let live = if self.crashed { "stopped" } else { "live" };
        write!(f, "unit {} {live} next {}", self.id, self.next)?;
        self.history.iter().try_for_each(|(i, view)| write!(f, " {i}={view}"))
    }
}

impl Debug for Process {
    fn fmt(&self, f: &mut Formatter<'_>) -> fmt::Result {
        f.debug_struct("Process")
            .field("id", &self.id.0)
            .field("crashed", &self.crashed)
            .field("view", &self.view)
            .field("next", &self.next.0)
            .field("propout", &self.propout.0)
            .field("proposal", &self.proposal)
            .field("acks", &self.acks)
            .field("trust", &self.trust)
            .field("records", &Records(self))
            .field("history", &self.history)
            .finish()
    }
}

struct Records<'a>(&'a Process);

impl Debug for Records<'_> {
    fn fmt(&self, f: &mut Formatter<'_>) -> fmt::Result {
        f.debug_map().entries(self.0.records().map(|(q, proposal)| (q.0, proposal))).finish()
    }
}

/// The views agreed upon at group indices 1 to 32.
#[derive(Clone, Copy, PartialEq, Eq, Hash)]
pub struct History {
    /// The empty view where there is none.
    entries: [View; HISTORY],
}

impl History {
    /// The entry at an index, if it is written.
    pub fn get(&self, i: GroupIndex) -> Option<View> {
        let place = usize::from(i.0).checked_sub(1)?;
        self.entries.get(place).copied().filter(|view| !view.is_empty())
    }

    /// The written entries, each with its index, rising.
    pub fn iter(&self) -> impl DoubleEndedIterator<Item = (GroupIndex, View)> + '_ {
        (1..=HISTORY as u8).map(GroupIndex).filter_map(|i| Some((i, self.get(i)?)))
    }

    /// The last written entry, with its index. In a sound system there is always one.
    pub fn last(&self) -> Option<(GroupIndex, View)> {
        self.iter().next_back()
    }
}

impl Debug for History {
    fn fmt(&self, f: &mut Formatter<'_>) -> fmt::Result {
        f.debug_map().entries(self.iter().map(|(i, view)| (i.0, view))).finish()
    }
}
