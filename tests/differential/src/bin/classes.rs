//! `classes PROGRAM...`: each program tallies classes by chance, in a folder of its own, and has to print what the
//! reference does. The seeds are fixed; a difference is told with its seed, and a way to a count that was met too
//! seldom fails the test.

use differential::classes::{Class, DIRECTORY};
use differential::dice::Dice;
use differential::halves;
use differential::tallied::Met;
use differential::ways::AT_LEAST;
use std::env;
use std::fs::{self, File};
use std::path::{Path, PathBuf};
use std::process::{self, Command};

/// How many classes, with the seeds 0 to one less.
const CLASSES: u64 = 500;

fn main() {
    let programs: Vec<PathBuf> = env::args_os()
        .skip(1)
        .map(|program| fs::canonicalize(&program).unwrap_or_else(|_| panic!("no {program:?}")))
        .collect();
    assert!(!programs.is_empty(), "usage: classes PROGRAM...");
    let [mut met, odd] = halves(|half| {
        let mut met = Met::default();
        (half..CLASSES).step_by(2).for_each(|seed| class(seed, &programs, &mut met));
        met
    });
    met.add(odd);
    println!("classes: seeds 0 to {}", CLASSES - 1);
    assert!(met.all_met(), "a way was met less than {AT_LEAST} times");
    println!("no difference; each way met {AT_LEAST} times or more");
}

/// One class by chance, in a folder of its own.
fn class(seed: u64, programs: &[PathBuf], met: &mut Met) {
    let folder = env::temp_dir().join(format!("class-{}-{seed}", process::id()));
    let class = Class::by_chance(&mut Dice::new(seed ^ 0xc1a55), met);
    lay_out(&class, &folder);
    let wanted = reference::class_output(&class.names, |name| found(&class, name));
    for program in programs {
        compare(program, &folder, &wanted, seed);
    }
    fs::remove_dir_all(&folder).expect("its own folder");
}

/// What the papers' program would find by a name, told from the class and not from the folder.
fn found(class: &Class, name: &[u8]) -> Option<Vec<u8>> {
    let name = std::str::from_utf8(name).expect("names are of text");
    let file = name.rsplit('/').next()?;
    class.sheets.get(file).map(|sheet| sheet.text.clone())
}

fn lay_out(class: &Class, folder: &Path) {
    fs::create_dir_all(folder.join(DIRECTORY)).expect("a new folder");
    for (name, sheet) in &class.sheets {
        fs::write(folder.join(name), &sheet.text).expect("a new file");
    }
    fs::write(folder.join("names"), &class.names).expect("a new file");
}

/// On a difference the folder stays.
fn compare(program: &Path, folder: &Path, wanted: &[u8], seed: u64) {
    let names = File::open(folder.join("names")).expect("the names");
    let run = Command::new(program).current_dir(folder).stdin(names).output().expect("a run");
    let told = || format!("{}, seed {seed}, in {}", program.display(), folder.display());
    assert!(run.status.success() && run.stderr.is_empty(), "{}: it fails", told());
    let lines = |text: &[u8]| -> Vec<String> {
        let lines = text.split_inclusive(|&byte| byte == b'\n');
        lines.map(|line| String::from_utf8_lossy(line).into_owned()).collect()
    };
    let (got, want) = (lines(&run.stdout), lines(wanted));
    for (number, (got, want)) in got.iter().zip(&want).enumerate() {
        assert!(got == want, "{}, line {}: {got:?}, and not {want:?}", told(), number + 1);
    }
    assert!(run.stdout == wanted, "{}: {} lines, and not {}", told(), got.len(), want.len());
}
