//! Random steps from fresh systems: soundness is kept, and demand 3 holds,
//! told from the steps alone.

mod common;

use common::*;
use reference::image::{decode, encode, Image, SIZE};
use reference::*;
use std::collections::BTreeSet;

/// A small generator (xorshift), and how many steps in a hundred it reports.
struct Dice {
    state: u64,
    reports: u8,
}

impl Dice {
    fn roll(&mut self, sides: u64) -> u8 {
        self.state ^= self.state << 13;
        self.state ^= self.state >> 7;
        self.state ^= self.state << 17;
        ((self.state >> 11) % sides) as u8
    }

    /// Mostly good numbers, now and then a stranger.
    fn process(&mut self, n: u8) -> ProcessId {
        if self.roll(50) == 0 {
            id(self.roll(12))
        } else {
            id(1 + self.roll(n.into()))
        }
    }

    /// A step, rolled again a few times while it would be refused.
    fn likely_step(&mut self, system: &System) -> Action {
        let mut step = self.step(system.n);
        for _ in 0..self.roll(6) {
            if Step::from(step).next(system).is_ok() {
                break;
            }
            step = self.step(system.n);
        }
        step
    }

    fn step(&mut self, n: u8) -> Action {
        let (p, q) = (self.process(n), self.process(n));
        match self.roll(100) {
            roll if roll < self.reports => {
                let view = View(self.roll(1 << n)).with(p);
                let view = if self.roll(4) != 0 { View::first(n) } else { view };
                let odd = View(self.roll(256));
                Action::Report { p, view: if self.roll(40) == 0 { odd } else { view } }
            }
            0..=64 => Action::Receive { from: q, at: p },
            65..=98 => Action::Respond { p, to: q },
            _ if self.roll(40) == 0 => Action::Crash { p },
            _ => Action::Receive { from: p, at: p },
        }
    }
}

/// Who has accepted which view where.
type Accepted = BTreeSet<(ProcessId, View, GroupIndex)>;

/// What a step done on this system accepts: an answer to a proposal that is
/// not below Next.
fn accepts(system: &System, step: Action) -> Option<(ProcessId, View, GroupIndex)> {
    let Action::Respond { p, to } = step else { return None };
    let Proposal { view, index } = system.process(p).recorded(to)?;
    (index >= system.process(p).next).then_some((p, view, index))
}

/// Demand 3: the written entries are those of some agreements, made lowest
/// position first; two at one position share no process.
fn book_holds(system: &System, accepted: &Accepted) {
    for i in (2..=32).map(index) {
        let holders =
            |view| system.everyone().members().filter(move |p| system.process(*p).entry(i) == view);
        let written: BTreeSet<View> =
            system.everyone().members().map(|p| system.process(p).entry(i)).collect();
        let mut taken = View::EMPTY;
        for view in written.into_iter().filter(|view| !view.is_empty()) {
            for p in view.members() {
                assert!(accepted.contains(&(p, view, i)), "{p:?} accepted {view:?} at {i:?}");
                assert!(!taken.contains(p), "{p:?} in two views at {i:?}");
                taken = taken.with(p);
            }
            assert!(holders(view).all(|p| view.contains(p)), "{view:?} at {i:?} at a stranger");
        }
    }
}

/// An entry that is written stays as it is.
fn entries_stay(before: &System, after: &System) {
    for p in before.everyone().members() {
        for (i, view) in before.process(p).entries().filter(|(_, view)| !view.is_empty()) {
            assert_eq!(after.process(p).entry(i), view, "{p:?} at {i:?}");
        }
    }
}

#[test]
fn steps_from_fresh() {
    let mut dice = Dice { state: 0x9e3779b97f4a7c15, reports: 0 };
    let mut seen = [0u32; 32];
    let mut written = 0;
    for run in 0..160 {
        let n = 1 + (run % 8) as u8;
        dice.reports = [2, 10, 50][run % 3];
        let mut system = system(n);
        let mut accepted = Accepted::new();
        for _ in 0..400 {
            let step = dice.likely_step(&system);
            let before = system.clone();
            let outcome = step.run(&mut system);
            assert!(sound(&system), "after {step:?}");
            assert!(outcome.is_err() || system != before || changes_nothing(&before, step));
            accepted.extend(outcome.ok().and_then(|()| accepts(&before, step)));
            entries_stay(&before, &system);
            seen[usize::from(number(outcome))] += 1;
        }
        book_holds(&system, &accepted);
        assert_eq!(decode(&encode(&system)), system);
        let entries = system.everyone().members().flat_map(|p| system.process(p).entries());
        written += entries.filter(|(i, view)| i.0 > 1 && !view.is_empty()).count();
    }
    // The runs reach every answer that a step has but 1, and commit views.
    for (number, &count) in seen.iter().enumerate() {
        assert_eq!(count > 0, matches!(number, 0 | 2..=7 | 10 | 11 | 13), "{number}: {seen:?}");
    }
    assert!(written > 300, "{written}");
}

/// Only a report that proposes nothing, of the view that p has, is done and
/// changes nothing: whoever it lacks may trust p already.
fn changes_nothing(system: &System, step: Action) -> bool {
    matches!(step, Action::Report { p, view } if view.min() != Some(p) && system.process(p).view == view)
}

/// What S-5 says of p and q, told from the views at each moment, the latest
/// last: "at some moment since p's latest suspicion of q (that moment
/// counted), q's local view lacked p".
fn doubted_since(moments: &[System], p: ProcessId, q: ProcessId) -> bool {
    let lacks = |system: &System, p, q| !system.process(p).view.contains(q);
    moments.iter().rev().take_while(|&now| lacks(now, p, q)).any(|now| lacks(now, q, p))
}

/// A mark means just that, while p suspects q; and a report is refused with 13
/// for nothing else.
#[test]
fn marks_from_fresh() {
    let mut dice = Dice { state: 0x5eed, reports: 60 };
    let (mut on, mut off, mut early) = (0, 0, 0);
    for run in 0..120 {
        let n = 2 + (run % 7) as u8;
        let mut moments = vec![system(n)];
        for _ in 0..200 {
            let mut next = moments[moments.len() - 1].clone();
            let step = dice.likely_step(&next);
            let outcome = step.run(&mut next);
            if let Action::Report { p, view } = step {
                let known = |q: ProcessId| (1..=n).contains(&q.0);
                if known(p) && view.is_subset(next.everyone()) && view.contains(p) {
                    let now = &moments[moments.len() - 1];
                    let back = view.members().filter(|&q| !now.process(p).view.contains(q));
                    let told = back.into_iter().all(|q| doubted_since(&moments, p, q));
                    let stopped = now.process(p).crashed;
                    assert_eq!(outcome == Err(Refusal::EarlyTrust), !told && !stopped);
                    early += u32::from(!told && !stopped);
                }
            }
            moments.push(next);
            let now = &moments[moments.len() - 1];
            for (p, q) in now.pairs().filter(|&(p, q)| !now.process(p).view.contains(q)) {
                assert_eq!(now.mark(p, q), doubted_since(&moments, p, q), "{p:?} {q:?}");
                *if now.mark(p, q) { &mut on } else { &mut off } += 1;
            }
        }
    }
    assert!(on > 1000 && off > 1000 && early > 1000, "{on} {off} {early}");
}

/// S-6: at rest, the live units that all have one and the same local view,
/// which names just them, have it as their last entry, at one position.
#[test]
fn quiet_is_agreed() {
    let mut dice = Dice { state: 0x9d1e7, reports: 30 };
    let (mut views, mut stopped) = (0, 0);
    for run in 0..800 {
        let n = 1 + (run % 8) as u8;
        let mut now = system(n);
        for _ in 0..40 {
            let action = dice.likely_step(&now);
            let whole = Step::from(action);
            let _ = if dice.roll(30) == 0 { action.cut(dice.roll(3)) } else { whole }.run(&mut now);
            if dice.roll(8) == 0 && settle(&mut now).ending == Ending::Rest {
                for byte in 1..=now.everyone().0 {
                    let view = View(byte);
                    if view
                        .members()
                        .all(|p| !now.process(p).crashed && now.process(p).view == view)
                    {
                        let last = |p: ProcessId| {
                            now.process(p).entries().filter(|(_, v)| !v.is_empty()).last()
                        };
                        let least = view.min().map(|p| now.process(p).propout);
                        for p in view.members() {
                            assert_eq!(last(p), least.map(|i| (i, view)), "{p:?}");
                        }
                        views += 1;
                        stopped +=
                            u32::from(now.everyone().members().any(|p| now.process(p).crashed));
                    }
                }
            }
        }
    }
    assert!(views > 1000 && stopped > 50, "{views} {stopped}");
}

/// S-7: "it must follow that sent equals taken plus waiting plus lost", after
/// each step; and no proposal is committed by two broadcasts, so that to count
/// these is to count proposals.
#[test]
fn tallies_from_fresh() {
    let mut dice = Dice { state: 0x7a11e5, reports: 0 };
    let mut all = Tally::default();
    for run in 0..400 {
        let n = 1 + (run % 8) as u8;
        dice.reports = [5, 15, 40][run % 3];
        let (mut now, mut told, mut broadcasts) = (system(n), Vec::new(), 0);
        for _ in 0..120 {
            let action = dice.likely_step(&now);
            let step =
                if dice.roll(20) == 0 { action.cut(dice.roll(3)) } else { Step::from(action) };
            let before = told.len();
            if dice.roll(80) == 0 {
                settle_told(&mut now, dice.roll(100).into(), &mut told);
            } else if step.run_told(&mut now, &mut told).is_err() {
                assert_eq!(told.len(), before);
            }
            let mut last = None;
            for event in &told[before..] {
                let commit = match *event {
                    Event::Sent {
                        from, message: Message::Commit(Proposal { index, .. }), ..
                    } => Some((from, index)),
                    _ => None,
                };
                broadcasts += usize::from(commit.is_some() && commit != last);
                last = commit;
            }
            let tally = Tally::of(&told, Some(&now));
            assert_eq!(tally.sent, tally.taken + tally.waiting + tally.lost);
            assert_eq!(tally.committed, broadcasts);
            assert!(tally.committed <= tally.proposals);
        }
        all.add(Tally::of(&told, Some(&now)));
    }
    let Tally { taken, waiting, lost, proposals, committed, .. } = all;
    assert!(taken > 9_000 && waiting > 1_000 && lost > 400, "{all:?}");
    assert!(proposals > 3_000 && committed > 400, "{all:?}");
}

/// Some bytes of the image, changed.
fn damage(dice: &mut Dice, image: &mut Image) {
    for _ in 0..dice.roll(6) {
        let place = usize::from(dice.roll(256)) * 256 + usize::from(dice.roll(256));
        image[place % SIZE] = dice.roll(256);
    }
}

/// On what is still sound, a step done leaves it sound.
#[test]
fn steps_on_damaged_images() {
    let mut dice = Dice { state: 12345, reports: 10 };
    let mut seen = [0u32; 32];
    for run in 0..4000 {
        let n = 1 + (run % 8) as u8;
        let mut start = system(n);
        for _ in 0..run % 60 {
            let _ = dice.likely_step(&start).run(&mut start);
        }
        let mut image = encode(&start);
        damage(&mut dice, &mut image);
        let system = decode(&image);
        for _ in 0..20 {
            let mut after = system.clone();
            let outcome = dice.step(n).run(&mut after);
            assert!(outcome.is_err() || sound(&after));
            seen[usize::from(number(outcome))] += 1;
        }
    }
    assert!(
        [0, 1, 2, 3, 4, 5, 10, 13].iter().all(|&number: &usize| seen[number] > 100),
        "{seen:?}"
    );
}
