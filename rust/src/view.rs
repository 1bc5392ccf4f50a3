//! Processes, group indices and views.

use core::fmt::{self, Display, Formatter};
use core::iter::FusedIterator;
use core::ops::{BitAnd, BitAndAssign, BitOr, BitOrAssign, Sub, SubAssign};

/// The number of a process, counted from 1 (the papers: unit).
///
/// It may be any number. A step of a process that is not one of the system's is refused with
/// [`Refusal::Stranger`](crate::Refusal::Stranger).
#[derive(Clone, Copy, Debug, PartialEq, Eq, PartialOrd, Ord, Hash)]
pub struct ProcessId(pub u8);

/// A place in a history, counted from 1 (the papers: position).
///
/// It may be any number: `Next` goes up to 33, and a damaged image holds anything.
#[derive(Clone, Copy, Debug, PartialEq, Eq, PartialOrd, Ord, Hash)]
pub struct GroupIndex(pub u8);

impl GroupIndex {
    /// The first place of a history.
    pub const FIRST: GroupIndex = GroupIndex(1);
    /// The last place of a history.
    pub const LAST: GroupIndex = GroupIndex(32);
}

impl Display for ProcessId {
    fn fmt(&self, f: &mut Formatter<'_>) -> fmt::Result {
        self.0.fmt(f)
    }
}

impl Display for GroupIndex {
    fn fmt(&self, f: &mut Formatter<'_>) -> fmt::Result {
        self.0.fmt(f)
    }
}

/// A set of processes 1 to 8.
///
/// A process of another number is in no view: adding it changes nothing.
///
/// ```
/// use lobstercreel::{ProcessId, View};
///
/// let (a, b) = (View::first(3), View::from([ProcessId(3), ProcessId(4)]));
/// assert_eq!(a | b, View::first(4));
/// assert_eq!(a & b, View::only(ProcessId(3)));
/// assert_eq!(a - b, View::first(2));
/// assert_eq!(a.least(), Some(ProcessId(1)));
/// assert!(a.iter().eq([1, 2, 3].map(ProcessId)));
/// assert_eq!(format!("{a} {:?} {}", b, View::EMPTY), "123 {3, 4} -");
/// ```
#[derive(Clone, Copy, Default, PartialEq, Eq, Hash)]
pub struct View(u8);

impl View {
    /// The view of nobody.
    pub const EMPTY: View = View(0);

    /// The view that a byte stands for: bit k - 1 is process k.
    pub const fn from_bits(bits: u8) -> View {
        View(bits)
    }

    /// The byte that stands for the view: bit k - 1 is process k.
    pub const fn bits(self) -> u8 {
        self.0
    }

    /// Processes 1 to n; all eight for a greater n.
    pub const fn first(n: u8) -> View {
        match n {
            0..=7 => View((1 << n) - 1),
            _ => View(u8::MAX),
        }
    }

    /// The view of process p alone.
    pub const fn only(p: ProcessId) -> View {
        match p.0 {
            1..=8 => View(1 << (p.0 - 1)),
            _ => View::EMPTY,
        }
    }

    /// Is p in the view?
    pub const fn contains(self, p: ProcessId) -> bool {
        !self.is_disjoint(View::only(p))
    }

    /// The view and p.
    #[must_use]
    pub const fn with(self, p: ProcessId) -> View {
        self.union(View::only(p))
    }

    /// The view and not p.
    #[must_use]
    pub const fn without(self, p: ProcessId) -> View {
        self.difference(View::only(p))
    }

    /// Adds p. False if the view had it already, and for a number that no view has.
    pub fn insert(&mut self, p: ProcessId) -> bool {
        let before = *self;
        *self = self.with(p);
        *self != before
    }

    /// Removes p. False if the view did not have it.
    pub fn remove(&mut self, p: ProcessId) -> bool {
        let before = *self;
        *self = self.without(p);
        *self != before
    }

    /// Those in either view; also `|`.
    #[must_use]
    pub const fn union(self, other: View) -> View {
        View(self.0 | other.0)
    }

    /// Those in both views; also `&`.
    #[must_use]
    pub const fn intersection(self, other: View) -> View {
        View(self.0 & other.0)
    }

    /// Those in this view and not in the other; also `-`.
    #[must_use]
    pub const fn difference(self, other: View) -> View {
        View(self.0 & !other.0)
    }

    /// Is each process of this view in the other?
    pub const fn is_subset(self, other: View) -> bool {
        self.difference(other).is_empty()
    }

    /// Is each process of the other view in this one?
    pub const fn is_superset(self, other: View) -> bool {
        other.is_subset(self)
    }

    /// Is no process in both?
    pub const fn is_disjoint(self, other: View) -> bool {
        self.intersection(other).is_empty()
    }

    /// Is nobody in the view?
    pub const fn is_empty(self) -> bool {
        self.0 == 0
    }

    /// How many processes are in the view.
    pub const fn len(self) -> usize {
        self.0.count_ones() as usize
    }

    /// The least process of the view: it proposes.
    pub const fn least(self) -> Option<ProcessId> {
        match self.0 {
            0 => None,
            bits => Some(ProcessId(bits.trailing_zeros() as u8 + 1)),
        }
    }

    /// The processes of the view, rising.
    pub const fn iter(self) -> Members {
        Members(self)
    }
}

impl BitOr for View {
    type Output = View;

    fn bitor(self, other: View) -> View {
        self.union(other)
    }
}

impl BitAnd for View {
    type Output = View;

    fn bitand(self, other: View) -> View {
        self.intersection(other)
    }
}

impl Sub for View {
    type Output = View;

    fn sub(self, other: View) -> View {
        self.difference(other)
    }
}

impl BitOrAssign for View {
    fn bitor_assign(&mut self, other: View) {
        *self = *self | other;
    }
}

impl BitAndAssign for View {
    fn bitand_assign(&mut self, other: View) {
        *self = *self & other;
    }
}

impl SubAssign for View {
    fn sub_assign(&mut self, other: View) {
        *self = *self - other;
    }
}

impl Extend<ProcessId> for View {
    fn extend<I: IntoIterator<Item = ProcessId>>(&mut self, processes: I) {
        processes.into_iter().for_each(|p| *self = self.with(p));
    }
}

impl FromIterator<ProcessId> for View {
    fn from_iter<I: IntoIterator<Item = ProcessId>>(processes: I) -> View {
        let mut view = View::EMPTY;
        view.extend(processes);
        view
    }
}

impl<const N: usize> From<[ProcessId; N]> for View {
    fn from(processes: [ProcessId; N]) -> View {
        processes.into_iter().collect()
    }
}

impl IntoIterator for View {
    type Item = ProcessId;
    type IntoIter = Members;

    fn into_iter(self) -> Members {
        self.iter()
    }
}

/// As on a sheet: its digits, rising, or `-` for nobody.
impl Display for View {
    fn fmt(&self, f: &mut Formatter<'_>) -> fmt::Result {
        if self.is_empty() {
            return f.write_str("-");
        }
        self.iter().try_for_each(|p| write!(f, "{p}"))
    }
}

/// A set of numbers, on one line.
impl fmt::Debug for View {
    fn fmt(&self, f: &mut Formatter<'_>) -> fmt::Result {
        f.write_str("{")?;
        for (k, p) in self.iter().enumerate() {
            write!(f, "{}{p}", if k == 0 { "" } else { ", " })?;
        }
        f.write_str("}")
    }
}

/// The processes of a view, rising ([`View::iter`]).
#[derive(Clone, Debug)]
pub struct Members(View);

impl Iterator for Members {
    type Item = ProcessId;

    fn next(&mut self) -> Option<ProcessId> {
        let p = self.0.least()?;
        self.0.remove(p);
        Some(p)
    }

    fn size_hint(&self) -> (usize, Option<usize>) {
        (self.0.len(), Some(self.0.len()))
    }
}

impl DoubleEndedIterator for Members {
    fn next_back(&mut self) -> Option<ProcessId> {
        let p = ProcessId(8 - self.0.bits().leading_zeros() as u8);
        self.0.remove(p).then_some(p)
    }
}

impl ExactSizeIterator for Members {}

impl FusedIterator for Members {}
