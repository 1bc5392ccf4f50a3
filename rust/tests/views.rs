//! Views beside the sets of the standard library: every view, and every two.

mod common;

use common::{hash, ids};
use lobstercreel::{GroupIndex, ProcessId, View};
use std::collections::BTreeSet;

fn views() -> impl Iterator<Item = View> {
    (0..=u8::MAX).map(View::from_bits)
}

fn set(view: View) -> BTreeSet<ProcessId> {
    ids().filter(|&p| view.contains(p)).collect()
}

#[test]
fn one_view() {
    for view in views() {
        let set = set(view);
        assert_eq!(
            set,
            (1..=8).filter(|p| view.bits() >> (p - 1) & 1 == 1).map(ProcessId).collect()
        );
        assert!(view.iter().eq(set.iter().copied()));
        assert!(view.into_iter().rev().eq(set.iter().rev().copied()));
        let mut ends = view.iter();
        let (first, last) = (ends.next(), ends.next_back());
        assert_eq!(first, set.first().copied());
        assert_eq!(last, set.last().copied().filter(|_| set.len() > 1));
        assert_eq!(ends.len(), set.len().saturating_sub(2));
        assert_eq!((view.iter().len(), view.len()), (set.len(), set.len()));
        assert_eq!(view.least(), set.first().copied());
        assert_eq!(view.is_empty(), set.is_empty());
        assert_eq!(set.into_iter().collect::<View>(), view);
        assert_eq!(view == View::EMPTY, view == View::default());
    }
}

#[test]
fn a_view_and_a_process() {
    for (view, p) in views().flat_map(|view| ids().map(move |p| (view, p))) {
        let there = (1..=8).contains(&p.0);
        let (with, without) = (view.with(p), view.without(p));
        assert_eq!(with.contains(p), there);
        assert!(!without.contains(p));
        assert_eq!((with.without(p), without.with(p)), (without, with));
        assert!(view == with || view == without);
        let (mut added, mut removed) = (view, view);
        assert_eq!(added.insert(p), there && !view.contains(p));
        assert_eq!(removed.remove(p), view.contains(p));
        assert_eq!((added, removed), (with, without));
    }
    assert!(ids().all(|p| View::only(p) == View::EMPTY.with(p)));
    assert_eq!(View::from([ProcessId(0), ProcessId(3), ProcessId(9)]), View::only(ProcessId(3)));
}

#[test]
fn two_views() {
    let sets: Vec<BTreeSet<ProcessId>> = views().map(set).collect();
    let set = |view: View| &sets[usize::from(view.bits())];
    for (a, b) in views().flat_map(|a| views().map(move |b| (a, b))) {
        let (x, y) = (set(a), set(b));
        assert_eq!(*set(a | b), x | y);
        assert_eq!(*set(a & b), x & y);
        assert_eq!(*set(a - b), x - y);
        assert_eq!((a.union(b), a.intersection(b), a.difference(b)), (a | b, a & b, a - b));
        assert_eq!(a.is_subset(b), x.is_subset(y));
        assert_eq!(a.is_superset(b), x.is_superset(y));
        assert_eq!(a.is_disjoint(b), x.is_disjoint(y));
        assert!(a != b || hash(&a) == hash(&b));
        let (mut or, mut and, mut minus, mut extended) = (a, a, a, a);
        or |= b;
        and &= b;
        minus -= b;
        extended.extend(b);
        assert_eq!((or, and, minus, extended), (a | b, a & b, a - b, a | b));
    }
}

#[test]
fn the_first() {
    for n in 0..=u8::MAX {
        assert!(View::first(n).iter().eq((1..=n.min(8)).map(ProcessId)));
    }
}

/// As on a sheet, and for a reader.
#[test]
fn words() {
    let view = View::from([1, 3, 8].map(ProcessId));
    assert_eq!((view.to_string(), View::EMPTY.to_string()), ("138".into(), "-".into()));
    assert_eq!(format!("{view:?} {:?} {view:#?}", View::EMPTY), "{1, 3, 8} {} {1, 3, 8}");
    assert_eq!(format!("{:?} {}", ProcessId(3), ProcessId(3)), "ProcessId(3) 3");
    assert_eq!(format!("{:?} {:>3}", GroupIndex(3), GroupIndex(3)), "GroupIndex(3)   3");
    assert!(ProcessId(1) < ProcessId(2) && GroupIndex::FIRST < GroupIndex::LAST);
    assert_eq!((GroupIndex::FIRST, GroupIndex::LAST), (GroupIndex(1), GroupIndex(32)));
}
