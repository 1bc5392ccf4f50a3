//! Systems are equal if they say the same: bytes that mean nothing may differ, and no others.

mod common;

use common::*;
use lobstercreel::{Action, ProcessId, System, IMAGE};
use std::collections::HashSet;

/// Are the two equal? Equal ones have the same hash, and are told alike.
fn same(a: &Image, b: &Image) -> bool {
    let (a, b) = (System::from_image(*a), System::from_image(*b));
    let equal = a == b;
    assert_eq!(equal, b == a);
    assert!(!equal || hash(&a) == hash(&b));
    assert_eq!(equal, format!("{a:?}") == format!("{b:?}"));
    equal
}

/// The places that docs/IMAGE.md leaves without a meaning in an image whose tags and lengths are good,
/// each with the bits that mean nothing.
fn unused(image: &Image) -> Vec<(usize, u8)> {
    let n = image[0];
    let mut places = Vec::new();
    let mut add = |from: usize, to: usize| places.extend((from..to).map(|at| (at, 255)));
    for (q, p) in pairs(8) {
        let (record, channel) = (record_at(p, q), channel_at(q, p));
        let length = usize::from(image[channel + LENGTH]);
        if q > n || p > n {
            add(record, record + 3);
            add(channel, channel + 25);
            continue;
        }
        if image[record] == 0 {
            add(record + 1, record + 3);
        }
        for slot in (0..length).map(|k| channel + 3 * k).filter(|&slot| image[slot] == ACC) {
            add(slot + 2, slot + 3);
        }
        add(channel + 3 * length, channel + LENGTH);
    }
    for p in n + 1..=8 {
        add(process_at(p), process_at(p) + 6);
        add(entry_at(p, 1), entry_at(p, 32) + 1);
    }
    let past = if n < 8 { 255 << n } else { 0 };
    places.extend((1..=8).map(|p| (trust_at(p), if p > n { 255 } else { past })));
    places
}

/// Images of 0 to 8 processes, as steps leave them.
fn reached() -> Vec<Image> {
    let mut images: Vec<Image> = (1..=8).map(image).collect();
    images.push(*System::fresh(0).unwrap_err().system().image());
    let mut chance = Chance::new(5);
    for n in [1, 2, 3, 8] {
        let mut system = System::fresh(n).unwrap();
        for at in 0..400 {
            let [p, q] = [(); 2].map(|()| ProcessId(1 + chance.below(n.into()) as u8));
            let view = lobstercreel::View::first(n)
                - lobstercreel::View::from_bits(chance.byte() & chance.byte());
            let action = match chance.below(4) {
                0 => Action::Report { p, view: view.with(p) },
                1 => Action::Respond { p, to: q },
                _ => Action::Receive { from: p, at: q },
            };
            let _ = system.perform(action);
            if at % 50 == 49 {
                images.push(*system.image());
            }
        }
    }
    let mut full = image(2);
    for message in [[PROPOSE, 3, 2], [RETRY, 2, 3], [ACC, 2, 9], [COMMIT, 3, 2]].repeat(2) {
        send(&mut full, 1, 2, message);
    }
    images.push(full);
    images
}

/// Every bit of every byte, turned over: the system is another just if the bit means something.
#[test]
fn every_bit() {
    let mut met = [0; 2];
    for before in reached() {
        let mut idle = [0; IMAGE];
        unused(&before).into_iter().for_each(|(place, bits)| idle[place] |= bits);
        for place in 0..IMAGE {
            for bit in (0..8).map(|k| 1 << k) {
                let mut after = before;
                after[place] ^= bit;
                let equal = System::from_image(after) == System::from_image(before);
                // A higher bit of a tag or of n is another thing that is damaged, and is seen too.
                assert_eq!(equal, idle[place] & bit != 0, "bit {bit} of {place}");
                met[usize::from(equal)] += 1;
            }
        }
    }
    assert!(met.iter().all(|&times| times > 10_000), "{met:?}");
}

/// Any bytes in all those places at once: the same system, with the same hash, and so after a step.
#[test]
fn any_junk() {
    let mut chance = Chance::new(7);
    for before in reached() {
        for _ in 0..20 {
            let mut after = before;
            for (place, bits) in unused(&before) {
                after[place] ^= chance.byte() & bits;
            }
            assert!(same(&before, &after));
            let [mut a, mut b] = [before, after].map(System::from_image);
            assert_eq!(HashSet::from([a.clone(), b.clone()]).len(), 1);
            for (q, p) in pairs(3).map(|(q, p)| (ProcessId(q), ProcessId(p))) {
                for action in [Action::Receive { from: q, at: p }, Action::Respond { p, to: q }] {
                    assert_eq!(a.perform(action), b.perform(action));
                    assert_eq!((&a, hash(&a)), (&b, hash(&b)));
                }
            }
            assert_eq!(a.settle(), b.settle());
            assert_eq!((&a, hash(&a)), (&b, hash(&b)));
        }
    }
}

/// In a damaged image, what a tag that stands for nothing is read as: no tag like it differs.
#[test]
fn damaged_tags() {
    // Of a crash: whatever tag, and Next is read as 0.
    let mut base = image(2);
    base[process_at(1)] = 2;
    let crash = |tag, next| {
        let mut bytes = base;
        bytes[process_at(1)] = tag;
        bytes[process_at(1) + 2] = next;
        bytes
    };
    assert!(same(&base, &crash(255, 2)) && same(&base, &crash(77, 9)) && same(&base, &crash(0, 0)));
    assert!(!same(&base, &crash(0, 2)) && !same(&base, &crash(1, 0)) && !same(&base, &image(2)));
    // Of a record: a proposal of nobody at index 0.
    let record = |bytes: [u8; 3]| {
        let mut image = image(2);
        image[record_at(1, 2)..][..3].copy_from_slice(&bytes);
        image
    };
    let base = record([2, 3, 2]);
    assert!(same(&base, &record([255, 1, 9])) && same(&base, &record([1, 0, 0])));
    assert!(!same(&base, &record([1, 3, 2])) && !same(&base, &record([0, 0, 0])));
    // Of a message: an Acc at index 0.
    let message = |bytes| {
        let mut image = image(2);
        send(&mut image, 1, 2, bytes);
        image
    };
    let base = message([4, 3, 2]);
    assert!(same(&base, &message([255, 9, 9])) && same(&base, &message([ACC, 0, 7])));
    assert!(!same(&base, &message([ACC, 3, 2])) && !same(&base, &message([PROPOSE, 0, 0])));
}

/// Lengths and sizes that there cannot be: each is another; all of the eight slots and processes count.
#[test]
fn damaged_lengths() {
    let length = |length| {
        let mut bytes = image(2);
        bytes[channel_at(1, 2) + LENGTH] = length;
        bytes
    };
    assert!(!same(&length(8), &length(9)) && !same(&length(9), &length(10)));
    let mut slot = length(9);
    slot[channel_at(1, 2) + 21] = COMMIT;
    assert!(!same(&length(9), &slot));
    let size = |n| {
        let mut bytes = image(8);
        bytes[0] = n;
        bytes
    };
    assert!(!same(&size(8), &size(9)) && !same(&size(9), &size(255)));
    let mut process = size(9);
    process[entry_at(8, 3)] = 1;
    assert!(!same(&size(9), &process));
    // Of no processes there is nothing more to say.
    let mut none = [255; IMAGE];
    none[0] = 0;
    assert!(same(&size(0), &none));
}
