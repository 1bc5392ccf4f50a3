//! The same algorithm once more, tuned for speed, as the benchmark's rival:
//! it works in place, tests soundness only where it may be missing, and
//! looks at a message before it takes it off. What it does is compared with
//! the reference by the differential test, as the library is.

pub mod image;

mod algorithm;
mod channel;
mod message;
mod process;
mod refusal;
mod settle;
mod sheet;
mod soundness;
mod step;
mod system;
mod view;

pub use refusal::number;
pub use settle::Ending;
pub use sheet::run_sheet_onto;
use soundness::sound;
pub use step::{Action, Step};
pub use view::{ProcessId, View};

/// What is printed for a sheet.
pub fn run_sheet(sheet: &[u8]) -> Vec<u8> {
    let mut out = Vec::new();
    run_sheet_onto(&mut out, sheet);
    out
}

/// Does a step on an image; answers its number.
pub fn step_on(image: &mut image::Image, step: Step) -> u8 {
    let Some(mut system) = image::decode(image) else {
        return 1;
    };
    let number = number(step.run(&mut system));
    if number == 0 {
        *image = image::encode(&system);
    }
    number
}

/// Does a list of steps on an image, soundness tested once; the numbers go into the slice.
pub fn steps_on(image: &mut image::Image, steps: &[Step], numbers: &mut [u8]) {
    match image::decode(image).filter(sound) {
        None => numbers.fill(1),
        Some(mut system) => {
            for (step, answer) in steps.iter().zip(numbers) {
                *answer = number(step.run_on_sound(&mut system));
            }
            *image = image::encode(&system);
        }
    }
}

/// Settles the system of an image; answers the number, the steps done and how it ended.
pub fn settle_on(image: &mut image::Image) -> (u8, u16, Ending) {
    match image::decode(image).filter(sound) {
        None => (1, 0, Ending::Held),
        Some(mut system) => {
            let (steps, ending) = settle::settle(&mut system);
            if steps > 0 {
                *image = image::encode(&system);
            }
            (0, steps, ending)
        }
    }
}

/// The step as the rival has it.
pub fn rival_step(step: reference::Step) -> Step {
    let action = match step.action {
        reference::Action::Report { p, view } => {
            Action::Report { p: ProcessId(p.0), view: View(view.0) }
        }
        reference::Action::Receive { from, at } => {
            Action::Receive { from: ProcessId(from.0), at: ProcessId(at.0) }
        }
        reference::Action::Respond { p, to } => {
            Action::Respond { p: ProcessId(p.0), to: ProcessId(to.0) }
        }
        reference::Action::Crash { p } => Action::Crash { p: ProcessId(p.0) },
    };
    Step { action, cut: step.cut }
}
