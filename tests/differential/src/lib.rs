//! What the differential test and the benchmark share: steps, sheets and images by chance, from a
//! seed, the ways to each number, and the benchmark's rival.

pub mod classes;
pub mod dice;
pub mod faults;
pub mod lines;
pub mod litter;
pub mod poised;
pub mod rival;
pub mod settled;
pub mod sheets;
pub mod tallied;
pub mod told;
pub mod ways;

use lobstercreel as ours;
use reference::{Action, ProcessId, Step};
use std::thread;

/// The step as the library's wrapper has it.
pub fn our_step(step: Step) -> ours::Step {
    let id = |p: ProcessId| ours::ProcessId(p.0);
    let action = match step.action {
        Action::Report { p, view } => {
            ours::Action::Report { p: id(p), view: ours::View::from_bits(view.0) }
        }
        Action::Receive { from, at } => ours::Action::Receive { from: id(from), at: id(at) },
        Action::Respond { p, to } => ours::Action::Respond { p: id(p), to: id(to) },
        Action::Crash { p } => ours::Action::Crash { p: id(p) },
    };
    step.cut.map_or(action.whole(), |k| action.cut_after(k))
}

/// What the work gives for 0 and for 1, done side by side. A difference found in either ends the test.
pub fn halves<T: Send>(work: impl Fn(u64) -> T + Sync) -> [T; 2] {
    thread::scope(|scope| {
        let odd = scope.spawn(|| work(1));
        [work(0), odd.join().expect("a half that found no difference")]
    })
}
