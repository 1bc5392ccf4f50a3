//! One agreement of three processes, in two calls: `cargo run --example settling` in rust/, after
//! `bash tools/build library`.

use lobstercreel::{Action, Ending, GroupIndex, ProcessId, Refusal, System, View};

fn main() -> Result<(), Refusal> {
    let all = View::first(3);
    let mut system = System::fresh(3)?;
    system.perform(Action::Report { p: ProcessId(1), view: all })?;
    let settling = system.settle()?;
    assert_eq!(settling.ending, Ending::Rest);
    println!("{} after {} steps", settling.ending, settling.steps);
    for process in system.processes() {
        assert_eq!(process.history.last(), Some((GroupIndex(2), all)));
        println!("{process}");
    }
    Ok(())
}
