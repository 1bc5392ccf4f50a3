//! The proved library and its rival side by side, in one run: whole sheets, single steps through the
//! image, lists of steps, and settling runs. Nothing is judged. With two arguments also the tally
//! programs that they name: the proved one and the reference's.

use differential::dice::Dice;
use differential::lines::line;
use differential::our_step;
use differential::rival::{self, rival_step};
use lobstercreel as ours;
use ours::raw;
use reference::image::{decode, encode, Image};
use reference::{Action, ProcessId, Step, System, View};
use std::ffi::OsStr;
use std::fs::{self, File};
use std::hint::black_box;
use std::path::Path;
use std::process::{self, Command};
use std::time::{Duration, Instant};
use std::{array, env};

/// How long each figure's rounds go on.
const PATIENCE: Duration = Duration::from_millis(800);

/// Lines in one timed round of whole sheets, about.
const LINES: usize = 20_000;

/// Images in one timed round of single steps.
const IMAGES: usize = 128;

const HELP: &str = "\
Both sides are built for release and called in this one process. Their rounds take turns, and the
best round counts. ns: for one step, on a sheet one line. ratio: our time by the rival's.
Cleared before each round, outside the clock: the output buffer that is lent to each side,
overwritten with zeros; the images, copied anew, one for each step. Not cleared: the processor's
caches, which are warm on both sides.
Inside the clock, on both sides: reading the sheet and writing its output; or reading the image,
the soundness test, the step, and writing the image if the step is done. Of a list of steps: the
image read, tested and written once, and each step's number. Of a settling run: the same, what is
tried in vain and its ending.
refused: lines with another number than 0. quiet: reports that only change a local view.
A history ends at position 32: after some hundred lines a sheet has little else left.
Of a class: both are programs, started and waited for, with the sheets in the system's cache; the
other is the reference, which is not tuned. The library alone runs the same sheets in this process:
it prints all their lines and counts nothing.
";

fn main() {
    print!("{HELP}");
    println!();
    heading("whole sheets");
    for n in [1, 2, 4, 8] {
        sheets(n, 150);
    }
    for lines in [20, 200, 1_000, 2_500, 5_000] {
        sheets(8, lines);
    }
    println!();
    heading("single steps through the image");
    for n in [1, 2, 4, 8] {
        steps(n, true);
    }
    steps(8, false);
    println!();
    heading("a list of 1,000 steps on one image");
    for n in [1, 2, 4, 8] {
        list(n);
    }
    println!();
    println!(
        "settling runs of 8 processes{:>18} {:>10} {:>10}  ratio",
        "steps", "ours, us", "rival, us"
    );
    let eight = |p: ProcessId, view: View| vec![Action::Report { p, view }; 8];
    let all = View::first(8);
    let not_below = |p: ProcessId| View(all.0 >> (p.0 - 1) << (p.0 - 1));
    settling("1 has proposed all, 8 times", &eight(ProcessId(1), all));
    let each: Vec<Action> = all.members().flat_map(|p| eight(p, not_below(p))).collect();
    settling("each p has proposed p to 8, 8 times", &each);
    settling("fresh, nothing to do", &[]);
    let programs: Vec<_> = env::args_os().skip(1).collect();
    if let [ours, reference] = &programs[..] {
        println!();
        class(ours, reference);
    }
}

fn heading(what: &str) {
    println!("{what:<41} {:>17} {:>17}", "ours", "rival");
    println!("{:41} {:>6} {:>10} {:>6} {:>10}  ratio", "", "ns", "steps/s", "ns", "steps/s");
}

fn row(what: String, count: usize, (ours, rival): (Duration, Duration)) {
    let each = |time: Duration| time.as_secs_f64() / count as f64;
    let nanoseconds = |time| 1e9 * each(time);
    let rate = |time| 1.0 / each(time);
    let ratio = each(ours) / each(rival);
    println!(
        "{what:<41} {:>6.0} {:>10.0} {:>6.0} {:>10.0} {ratio:>6.2}",
        nanoseconds(ours),
        rate(ours),
        nanoseconds(rival),
        rate(rival),
    );
}

/// The best times of ours and of the rival's work, each after its own clearing.
fn best<A, B>(
    mut clear_ours: impl FnMut() -> A,
    mut ours: impl FnMut(&mut A),
    mut clear_rival: impl FnMut() -> B,
    mut rival: impl FnMut(&mut B),
) -> (Duration, Duration) {
    let mut best = (Duration::MAX, Duration::MAX);
    let start = Instant::now();
    while start.elapsed() < PATIENCE {
        best.0 = best.0.min(timed(&mut clear_ours, &mut ours));
        best.1 = best.1.min(timed(&mut clear_rival, &mut rival));
    }
    best
}

fn timed<T>(clear: &mut impl FnMut() -> T, work: &mut impl FnMut(&mut T)) -> Duration {
    let mut cleared = clear();
    let start = Instant::now();
    work(&mut cleared);
    start.elapsed()
}

/// A buffer whose every byte was written.
fn zeros(length: usize) -> Vec<u8> {
    let mut out = vec![u8::MAX; length];
    black_box(&mut out).fill(0);
    out
}

/// A run from a fresh system in which steps are done as long as there are any: it takes what waits
/// and answers what can be answered, by chance, and reports when there is nothing of this, and now
/// and then before. Each step stands with the system before it.
fn busy_run(n: u8, steps: usize) -> Vec<(System, Step)> {
    let mut dice = Dice::new(n.into());
    let mut system = reference::fresh(n).1;
    let mut run = Vec::with_capacity(steps);
    while run.len() < steps {
        let due = due(&system);
        let step = match due.is_empty() || dice.one_in(40) {
            true => report(&mut dice, &system),
            false => dice.pick(&due),
        };
        run.push((system.clone(), step));
        let _ = step.run(&mut system);
    }
    run
}

fn is_done(system: &System, step: Step) -> bool {
    step.next(system).is_ok()
}

/// The takes and answers that would be done.
fn due(system: &System) -> Vec<Step> {
    let mut due = Vec::new();
    for p in system.everyone().members() {
        for q in system.everyone().members() {
            if !system.channel(q, p).is_empty() {
                due.push(Step::from(Action::Receive { from: q, at: p }));
            }
            if system.process(p).recorded(q).is_some() {
                due.push(Action::Respond { p, to: q }.into());
            }
        }
    }
    due.retain(|step| is_done(system, *step));
    due
}

/// A report, if possible one that is done.
fn report(dice: &mut Dice, system: &System) -> Step {
    let mut step = Step::from(Action::Report { p: ProcessId(1), view: system.everyone() });
    for _ in 0..20 {
        if is_done(system, step) {
            break;
        }
        let p = dice.one_of(system.n);
        let view = if dice.one_in(2) { system.everyone() } else { dice.some_of(system.n).with(p) };
        step = Action::Report { p, view }.into();
    }
    step
}

fn sheets(n: u8, lines: usize) {
    let run = busy_run(n, lines);
    let mut text = format!("u {n}\n");
    run.iter().for_each(|(_, step)| text += &(line(*step) + "\n"));
    let sheet = text.as_bytes();
    assert!(sheet.len() <= reference::SHEET_LIMIT, "{lines} lines are too many");
    let output = reference::run_sheet(sheet);
    assert!(ours::run_sheet(sheet).as_bytes() == output && rival::run_sheet(sheet) == output);
    let times = 1 + LINES / lines;
    let time = best(
        || zeros(output.len() + 1),
        |out| {
            for _ in 0..times {
                black_box(raw::run(sheet, out));
            }
        },
        || zeros(output.len() + 1),
        |out| {
            for _ in 0..times {
                out.clear();
                rival::run_sheet_onto(out, sheet);
                black_box(&out);
            }
        },
    );
    let share = |count: usize| 100 * count / lines;
    let refused = share(run.iter().filter(|(system, step)| !is_done(system, *step)).count());
    let quiet = share(run.iter().filter(|(_, step)| is_quiet(*step)).count());
    let what = format!("n {n}, {lines} lines, {refused}% refused, {quiet}% quiet");
    row(what, times * lines, time);
}

fn is_quiet(step: Step) -> bool {
    matches!(step.action, Action::Report { p, view } if view.min() != Some(p))
}

/// Steps that are done, or answers that find nothing to answer.
fn steps(n: u8, done: bool) {
    let nothing = Step::from(Action::Respond { p: ProcessId(n), to: ProcessId(n) });
    let mut run = busy_run(n, 150 * usize::from(n));
    if !done {
        run.iter_mut().for_each(|(_, step)| *step = nothing);
    }
    run.retain(|(system, step)| is_done(system, *step) == done);
    let apart = (run.len() / IMAGES).max(1);
    let chosen: Vec<(Image, Step)> = run
        .iter()
        .step_by(apart)
        .take(IMAGES)
        .map(|(system, step)| (encode(system), *step))
        .collect();
    let time = best(
        || chosen.clone(),
        |images| {
            for (image, step) in images {
                black_box(raw::perform(image, our_step(*step)));
            }
        },
        || chosen.clone(),
        |images| {
            for (image, step) in images {
                black_box(rival::step_on(image, rival_step(*step)));
            }
        },
    );
    row(format!("n {n}, {}", if done { "done" } else { "refused with 10" }), chosen.len(), time);
}

/// One settling run of 8 processes after some steps.
fn settling(what: &str, before: &[Action]) {
    const TIMES: usize = 20;
    let mut system = reference::fresh(8).1;
    before.iter().for_each(|step| assert_eq!(step.run(&mut system), Ok(()), "{step:?}"));
    let start = encode(&system);
    let wanted = reference::settle(&mut system);
    let (mut ours_after, mut rivals_after) = (start, start);
    let mut told = [0; 2];
    assert_eq!(raw::settle(&mut ours_after, &mut told), 0, "a sound image");
    let (number, steps, _) = rival::settle_on(&mut rivals_after);
    assert!(number == 0 && usize::from(steps) == wanted.steps);
    assert!(told[0] == steps && decode(&ours_after) == system && decode(&rivals_after) == system);
    let images = || vec![start; TIMES];
    let (ours, rival) = best(
        images,
        |images| {
            for image in images {
                black_box(raw::settle(image, &mut [0; 2]));
            }
        },
        images,
        |images| {
            for image in images {
                black_box(rival::settle_on(image));
            }
        },
    );
    let each = |time: Duration| 1e6 * time.as_secs_f64() / TIMES as f64;
    let ratio = each(ours) / each(rival);
    println!("{what:<37} {steps:>8} {:>10.1} {:>10.1} {ratio:>6.2}", each(ours), each(rival));
}

/// The tally programs on a class of 64 sheets of 1,000 lines, eight of each size.
fn class(ours: &OsStr, reference: &OsStr) {
    const TIMES: usize = 5;
    let folder = env::temp_dir().join(format!("class-{}", process::id()));
    fs::create_dir_all(&folder).expect("a new folder");
    let sheets: [String; 8] = array::from_fn(|at| {
        let n = at as u8 + 1;
        let lines = busy_run(n, 1_000).into_iter().map(|(_, step)| line(step) + "\n");
        format!("u {n}\n") + &lines.collect::<String>()
    });
    for (name, sheet) in (1..).zip(&sheets) {
        fs::write(folder.join(name.to_string()), sheet).expect("a new file");
    }
    let names: String = (0..64).map(|at| format!("{}\n", 1 + at % 8)).collect();
    fs::write(folder.join("names"), &names).expect("a new file");
    let wanted = reference::class_output(names.as_bytes(), |name| {
        Some(sheets[usize::from(name[0] - b'1')].clone().into_bytes())
    });
    let mut best = [Duration::MAX; 3];
    for _ in 0..TIMES {
        best[0] = best[0].min(tallied(ours, &folder, &wanted));
        best[1] = best[1].min(tallied(reference, &folder, &wanted));
        let mut out = zeros(100_000);
        let start = Instant::now();
        for sheet in sheets.iter().cycle().take(64) {
            black_box(raw::run(sheet.as_bytes(), &mut out));
        }
        best[2] = best[2].min(start.elapsed());
    }
    fs::remove_dir_all(&folder).expect("its own folder");
    let [ours, reference, library] = best.map(|time| 1e3 * time.as_secs_f64());
    println!(
        "a class of 64 sheets of 1,000 lines{:>11} {:>14}  ratio",
        "tally, ms", "reference, ms"
    );
    println!("{ours:>46.1} {reference:>14.1} {:>6.3}", ours / reference);
    println!("the library alone, running the same sheets: {library:.1} ms");
}

/// The time of a program's run.
fn tallied(program: &OsStr, folder: &Path, wanted: &[u8]) -> Duration {
    let program = fs::canonicalize(program).expect("a program");
    let names = File::open(folder.join("names")).expect("the names");
    let mut command = Command::new(program);
    let start = Instant::now();
    let run = command.current_dir(folder).stdin(names).output().expect("a run");
    let time = start.elapsed();
    assert!(run.stdout == wanted, "another output than the reference's");
    time
}

/// One call with a list of steps, from a fresh image.
fn list(n: u8) {
    let run = busy_run(n, 1_000);
    let refused = run.iter().filter(|(system, step)| !is_done(system, *step)).count() / 10;
    let quiet = run.iter().filter(|(_, step)| is_quiet(*step)).count() / 10;
    let steps: Vec<Step> = run.into_iter().map(|(_, step)| step).collect();
    let bytes: Vec<u8> = steps.iter().flat_map(|&step| our_step(step).to_bytes()).collect();
    let rivals: Vec<rival::Step> = steps.iter().map(|&step| rival_step(step)).collect();
    let start = encode(&reference::fresh(n).1);
    let (mut ours_after, mut rivals_after) = (start, start);
    let (mut ours_numbers, mut rivals_numbers) = ([0; 1_000], [0; 1_000]);
    raw::steps(&mut ours_after, &bytes, &mut ours_numbers);
    rival::steps_on(&mut rivals_after, &rivals, &mut rivals_numbers);
    assert!(ours_numbers == rivals_numbers && decode(&ours_after) == decode(&rivals_after));
    let images = || vec![(start, [0; 1_000]); 20];
    let time = best(
        images,
        |images| {
            for (image, numbers) in images {
                black_box(raw::steps(image, &bytes, numbers));
            }
        },
        images,
        |images| {
            for (image, numbers) in images {
                rival::steps_on(image, &rivals, black_box(numbers));
            }
        },
    );
    row(format!("n {n}, {refused}% refused, {quiet}% quiet"), 20 * steps.len(), time);
}
