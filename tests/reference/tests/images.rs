//! The byte image of a system.

mod common;

use common::*;
use reference::image::{
    channel_at, decode, encode, entry_in, marks_at, process_at, record_in, Image, SIZE,
};
use reference::*;

/// A system of seven in which every record, every position and every slot of
/// every channel is filled, each with something of its own where it can be.
fn full() -> System {
    let mut system = system(7);
    for p in (1..=7).map(id) {
        let process = system.process_mut(p);
        process.next = index(20 + p.0);
        process.propout = index(10 + p.0);
        process.proposal = View(3).with(p);
        process.acks = View::only(p);
        for q in (1..=7).map(id) {
            process.set_recorded(q, Some(at(View::only(p).with(q).0, 2 + p.0 + q.0)));
        }
        for i in 1..=32 {
            process.set_entry(index(i), View(i));
        }
        for q in 1..=7 {
            let view = View::only(id(q)).with(p).0;
            let messages = [2, 3, 4, 5, 6, 7, 8, 9].map(|i| match (i + q) % 3 {
                0 => propose(view, i + 7),
                1 => retry(i, i + p.0 + q),
                _ => commit(view, i + q),
            });
            put(&mut system, q, p.0, &messages);
            system.set_mark(p, id(q), (p.0 + q) % 2 == 0);
        }
    }
    assert!(sound(&system));
    system
}

#[test]
fn fresh_image() {
    let image = encode(&system(2));
    assert_eq!(image.len(), 2105);
    assert_eq!(image[0], 2);
    for p in 0..2 {
        let mut expected = [0; 62];
        expected[1] = 3;
        expected[2] = 2;
        expected[3] = 1;
        expected[30] = 3;
        assert_eq!(image[1 + 62 * p..][..62], expected);
    }
    assert!(image[125..].iter().all(|&byte| byte == 0));
    assert_eq!(decode(&image), system(2));
}

#[test]
fn zero_image() {
    let none = fresh(77).1;
    assert_eq!(encode(&none), [0; SIZE]);
    assert_eq!(decode(&[0; SIZE]), none);
}

#[test]
fn sizes_that_are_none() {
    for n in 9..=255 {
        let mut image = encode(&full());
        image[0] = n;
        assert!(!sound(&decode(&image)), "{n}");
    }
}

#[test]
fn places() {
    let mut system = system(8);
    system.process_mut(id(2)).set_recorded(id(3), Some(at(9, 10)));
    system.process_mut(id(2)).set_entry(index(32), View(77));
    put(&mut system, 2, 3, &[propose(1, 2), retry(3, 4), acc(5), commit(6, 7)]);
    let image = encode(&system);
    let process = &image[1 + 62..][..62];
    assert_eq!(process[6 + 3 * 2..][..3], [1, 9, 10]);
    assert_eq!(process[61], 77);
    let channel = &image[497 + 25 * (8 + 2)..][..25];
    assert_eq!(channel[..12], [0, 1, 2, 1, 3, 4, 2, 5, 0, 3, 6, 7]);
    assert_eq!(channel[24], 4);
    assert_eq!(decode(&image), system);
    system.set_mark(id(2), id(3), true);
    system.set_mark(id(8), id(1), true);
    assert_eq!(encode(&system)[2097..], [0, 4, 0, 0, 0, 0, 0, 1]);
    assert_eq!(decode(&encode(&system)), system);
}

#[test]
fn full_and_back() {
    let system = full();
    assert_eq!(decode(&encode(&system)), system);
}

/// Does the byte belong to a table of seven, all of it filled?
fn within(at: usize) -> bool {
    at < 1 + 62 * 7 && !(1..=7).any(|p| at >= 1 + 62 * (p - 1) + 27 && at < 1 + 62 * (p - 1) + 30)
        || at >= 497 && (at - 497) / 200 < 7 && (at - 497) % 200 < 175
}

/// With 255 in any byte of the table there is no sound system any more, marks
/// apart: "either value is sound". Any other byte may be anything.
#[test]
fn each_byte() {
    let (system, clean) = (full(), encode(&full()));
    for p in (1..=7).map(id) {
        let mut image = clean;
        image[marks_at(p)] = 255;
        let read = decode(&image);
        assert!(sound(&read));
        assert!((1..=7).map(id).all(|q| read.mark(p, q)));
    }
    for place in (0..SIZE).filter(|&place| !(2097..2104).contains(&place)) {
        let mut image = clean;
        image[place] = 255;
        match within(place) {
            true => assert!(!sound(&decode(&image)), "at {place}"),
            false => assert_eq!(decode(&image), system, "at {place}"),
        }
    }
}

/// A byte of the table that stands for nothing is kept apart from those that
/// stand for another value.
#[test]
fn tags() {
    let mut places: Vec<(usize, u8)> = Vec::new();
    for p in (1..=7).map(id) {
        places.push((process_at(p), 1));
        for q in (1..=7).map(id) {
            places.push((process_at(p) + record_in(q), 1));
            places.extend((0..8).map(|slot| (channel_at(q, p) + 3 * slot, 3)));
        }
    }
    for (place, highest) in places {
        let mut image = encode(&full());
        for byte in 0..=255 {
            image[place] = byte;
            assert_eq!(decode(&image).unreadable, byte > highest, "{byte} at {place}");
        }
    }
}

/// The image of a fresh system of one, with one byte changed.
fn changed(place: usize, byte: u8) -> Image {
    let mut image = encode(&system(1));
    image[place] = byte;
    image
}

#[test]
fn bytes_that_mean_nothing() {
    let one = id(1);
    // The view in a record of nothing; a record from nobody; slots past the
    // length; processes and channels past n.
    let places = [
        process_at(one) + record_in(one) + 1,
        process_at(one) + record_in(id(2)),
        process_at(id(2)),
        process_at(id(8)) + entry_in(index(32)),
        channel_at(one, one),
        channel_at(one, one) + 23,
        channel_at(one, id(2)) + 24,
        channel_at(id(8), id(8)) + 24,
        marks_at(id(2)),
        marks_at(id(8)),
    ];
    for place in places {
        assert_eq!(decode(&changed(place, 255)), system(1), "at {place}");
    }
    // The second operand of an Acc.
    let mut with_acc = system(1);
    put(&mut with_acc, 1, 1, &[acc(5)]);
    let mut image = encode(&with_acc);
    image[channel_at(one, one) + 2] = 200;
    assert_eq!(decode(&image), with_acc);
    // Marks of processes past n.
    assert_eq!(decode(&changed(marks_at(one), 254)), system(1));
}
