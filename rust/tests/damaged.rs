//! Random bytes: nothing panics, what is not sound is refused with 1 and stays, and the readers hold
//! together. The seeds are fixed.

mod common;

use common::{hash, ids, image, Chance, Image};
use lobstercreel::{Action, GroupIndex, ProcessId, Refusal, Step, System, View, CAPACITY, IMAGE};

/// Any bytes; or a fresh image with some bytes changed.
fn damaged(chance: &mut Chance) -> Image {
    if chance.one_in(3) {
        let mut bytes = [0; IMAGE];
        let small = chance.one_in(2);
        bytes.fill_with(|| chance.byte() & if small { 3 } else { 255 });
        if chance.one_in(2) {
            bytes[0] = 1 + chance.below(8) as u8;
        }
        return bytes;
    }
    let mut bytes = image(1 + chance.below(8) as u8);
    let most = if chance.one_in(2) { 2 } else { 40 };
    for _ in 0..=chance.below(most) {
        let limit = if chance.one_in(2) { 200 } else { IMAGE };
        let place = chance.below(limit);
        bytes[place] = if chance.one_in(2) { chance.byte() } else { chance.byte() % 5 };
    }
    bytes
}

fn any_step(chance: &mut Chance) -> Step {
    let process = |chance: &mut Chance| {
        let odd = chance.one_in(8);
        ProcessId(if odd { chance.byte() } else { 1 + chance.below(8) as u8 })
    };
    let (p, q) = (process(chance), process(chance));
    let action = match chance.below(10) {
        0..=2 => Action::Report { p, view: View::from_bits(chance.byte()).with(p) },
        3..=5 => Action::Receive { from: p, at: q },
        6..=8 => Action::Respond { p, to: q },
        _ => Action::Crash { p },
    };
    if chance.one_in(4) {
        action.cut_after(chance.byte() % 10)
    } else {
        action.whole()
    }
}

/// All readers, of every number.
fn read(system: &System) {
    let known = usize::from(system.n().min(8));
    assert_eq!(system.everyone().len(), known);
    assert_eq!(system.processes().len(), known);
    assert_eq!(system.processes().count(), known);
    assert_eq!(system.processes().rev().count(), known);
    assert_eq!(system.channels().count(), known * known);
    assert_eq!(system.channels().rev().count(), known * known);
    let some = || (0..=10).chain([128, 255]).map(ProcessId);
    assert!(ids().all(|p| system.process(p).is_some() == system.everyone().contains(p)));
    for p in some() {
        let process = system.process(p);
        for q in some() {
            let channel = system.channel(p, q);
            assert_eq!(channel.is_some(), process.is_some() && system.everyone().contains(q));
            assert!(channel.is_none_or(|channel| channel.messages().len() <= CAPACITY));
            let _ = process.and_then(|process| process.recorded(q));
        }
        let entries = (0..=u8::MAX).filter(|&i| system.entry(p, GroupIndex(i)).is_some()).count();
        assert_eq!(entries, process.map_or(0, |process| process.history.iter().count()));
    }
    let said = format!("{system:?}{system:#?}");
    assert!(said.starts_with("System { n: "));
    assert!(system.processes().all(|process| process.to_string().starts_with("unit ")));
    assert_eq!(system, &system.clone());
    assert_eq!(hash(system), hash(&system.clone()));
}

#[test]
fn random_bytes() {
    let (mut sound, mut unsound, mut done) = (0, 0, 0);
    for seed in 0..400 {
        let mut chance = Chance::new(seed);
        let bytes = damaged(&mut chance);
        let mut system = System::from_image(bytes);
        read(&system);
        let is_sound = system.is_sound();
        assert_eq!(*system.image(), bytes);
        if is_sound {
            sound += 1;
        } else {
            unsound += 1;
        }
        for _ in 0..50 {
            let (step, before) = (any_step(&mut chance), system.clone());
            let answer = system.perform(step);
            assert_eq!(answer == Err(Refusal::Unsound), !is_sound);
            if answer.is_ok() {
                done += 1;
                assert!(system.is_sound());
            } else {
                assert_eq!(system.image(), before.image());
            }
            let mut listed = before;
            let mut answers = [Ok(())];
            assert_eq!(listed.perform_into(&[step], &mut answers), 1);
            assert_eq!((answers[0], listed.image()), (answer, system.image()));
        }
        read(&system);
        assert_eq!(system.settle().is_ok(), is_sound);
        assert_eq!(system.is_sound(), is_sound);
        read(&system);
    }
    assert!(sound > 30 && unsound > 200 && done > 300, "{sound} {unsound} {done}");
}

/// Two random images are equal just if they are told alike, and then they have one hash.
#[test]
fn told_alike() {
    let mut equal = 0;
    for seed in 0..2_000 {
        let mut chance = Chance::new(seed);
        let before = damaged(&mut chance);
        let mut after = before;
        for _ in 0..=chance.below(3) {
            after[chance.below(IMAGE)] = chance.byte();
        }
        let [a, b] = [before, after].map(System::from_image);
        assert_eq!(a == b, format!("{a:?}") == format!("{b:?}"), "seed {seed}");
        assert!(a != b || hash(&a) == hash(&b), "seed {seed}");
        assert!(a != b || a.is_sound() == b.is_sound(), "seed {seed}");
        equal += u64::from(a == b && before != after);
    }
    assert!(equal > 500, "{equal}");
}

/// Random bytes for a sheet.
#[test]
fn random_sheets() {
    let mut out = vec![0; 40_000];
    for seed in 0..2_000 {
        let mut chance = Chance::new(seed);
        let any = chance.one_in(2);
        let mut sheet = if any { vec![] } else { b"u 3\n".to_vec() };
        let letters = b"ratsuq 123cut-\n\n4";
        let length = chance.below(300);
        sheet.extend((0..length).map(|_| match any {
            true => chance.byte(),
            false => letters[chance.below(letters.len())],
        }));
        let written = lobstercreel::run_sheet_into(&sheet, &mut out);
        assert!(written.is_ascii() && written.len() < 40_000);
        #[cfg(feature = "alloc")]
        assert_eq!(lobstercreel::run_sheet(&sheet).as_bytes(), written);
    }
}
