//! Process numbers and sets of processes.

/// A process's number (document 01: unit). Any byte may be handed in; one
/// outside 1 to n is a stranger.
#[derive(Clone, Copy, Debug, PartialEq, Eq, PartialOrd, Ord, Hash)]
pub struct ProcessId(pub u8);

/// "A view is a set of units, kept as one byte: unit 1 is the lowest bit."
#[derive(Clone, Copy, Debug, PartialEq, Eq, PartialOrd, Ord, Hash)]
pub struct View(pub u8);

impl View {
    pub const EMPTY: View = View(0);

    /// Processes 1 to n, n being at most 8.
    pub fn first(n: u8) -> View {
        (1..=n).map(ProcessId).fold(View::EMPTY, View::with)
    }

    pub fn only(p: ProcessId) -> View {
        View::EMPTY.with(p)
    }

    pub fn contains(self, p: ProcessId) -> bool {
        self.with(p) == self && (1..=8).contains(&p.0)
    }

    /// The view and p, or the view itself for a number that no view holds.
    pub fn with(self, p: ProcessId) -> View {
        match p.0 {
            1..=8 => View(self.0 | 1 << (p.0 - 1)),
            _ => self,
        }
    }

    pub fn without(self, p: ProcessId) -> View {
        self.members().filter(|q| *q != p).fold(View::EMPTY, View::with)
    }

    /// The processes of the view, rising.
    pub fn members(self) -> impl Iterator<Item = ProcessId> {
        (1..=8).map(ProcessId).filter(move |p| self.contains(*p))
    }

    pub fn is_empty(self) -> bool {
        self == View::EMPTY
    }

    pub fn is_subset(self, other: View) -> bool {
        self.members().all(|p| other.contains(p))
    }

    /// The least process, if there is any.
    pub fn min(self) -> Option<ProcessId> {
        self.members().next()
    }
}
