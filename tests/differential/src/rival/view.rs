//! Process numbers and sets of processes.

/// A process's number (document 01: unit), the first being 1. Any byte may
/// be handed in; one outside 1 to n is a stranger.
#[derive(Clone, Copy, Debug, PartialEq, Eq, PartialOrd, Ord)]
pub struct ProcessId(pub u8);

impl ProcessId {
    /// The place in an array of processes. Only for numbers from 1 on.
    pub(super) fn slot(self) -> usize {
        usize::from(self.0) - 1
    }
}

/// A set of processes, process 1 being the lowest bit.
#[derive(Clone, Copy, Debug, PartialEq, Eq)]
pub struct View(pub u8);

impl View {
    pub const EMPTY: View = View(0);

    /// Processes 1 to n; all eight for any larger n.
    pub fn first(n: u8) -> View {
        match n {
            0..=7 => View((1 << n) - 1),
            _ => View(u8::MAX),
        }
    }

    /// The one process, or nobody for a number that no view can hold.
    pub fn only(p: ProcessId) -> View {
        match p.0 {
            1..=8 => View(1 << (p.0 - 1)),
            _ => View::EMPTY,
        }
    }

    pub fn is_empty(self) -> bool {
        self.0 == 0
    }

    pub fn contains(self, p: ProcessId) -> bool {
        self.0 & View::only(p).0 != 0
    }

    pub fn is_subset(self, other: View) -> bool {
        self.0 & !other.0 == 0
    }

    pub fn union(self, other: View) -> View {
        View(self.0 | other.0)
    }

    pub fn with(self, p: ProcessId) -> View {
        self.union(View::only(p))
    }

    pub fn without(self, p: ProcessId) -> View {
        View(self.0 & !View::only(p).0)
    }

    /// The least process, if there is any.
    pub fn min(self) -> Option<ProcessId> {
        if self.is_empty() {
            None
        } else {
            Some(ProcessId(self.0.trailing_zeros() as u8 + 1))
        }
    }

    /// The processes of the view, rising.
    pub fn members(self) -> impl Iterator<Item = ProcessId> {
        let mut rest = self;
        std::iter::from_fn(move || {
            let least = rest.min()?;
            rest = View(rest.0 & (rest.0 - 1));
            Some(least)
        })
    }
}
