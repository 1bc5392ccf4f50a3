//! One agreement of two processes, step by step: `cargo run --example agreement` in rust/, after
//! `bash tools/build library`.

use lobstercreel::{Action, GroupIndex, ProcessId, Refusal, System, View};

fn main() -> Result<(), Refusal> {
    let (p, q) = (ProcessId(1), ProcessId(2));
    let both = View::from([p, q]);
    let mut system = System::fresh(2)?;
    // The least process of the view proposes it.
    system.perform(Action::Report { p, view: both })?;
    for member in both {
        system.perform(Action::Receive { from: p, at: member })?;
        system.perform(Action::Respond { p: member, to: p })?;
    }
    // It has accepted itself, and so has the other: it commits.
    for member in both {
        system.perform(Action::Receive { from: member, at: p })?;
    }
    for member in both {
        system.perform(Action::Receive { from: p, at: member })?;
        assert_eq!(system.entry(member, GroupIndex(2)), Some(both));
    }
    for process in system.processes() {
        println!("{process}");
    }
    // Nothing is left to do.
    let refusal = system.perform(Action::Receive { from: p, at: q }).unwrap_err();
    println!("refused with {}, {}: {refusal}", refusal.number(), refusal.word());
    Ok(())
}
