//! The proved library, and the benchmark's rival, beside the reference, on the same sheets and images.
//! The seeds are fixed; a difference is told with its seed, and a way to a number that was met too
//! seldom fails the test.

use differential::dice::Dice;
use differential::faults::{DAMAGES, FAULTS};
use differential::halves;
use differential::litter::litter;
use differential::our_step;
use differential::poised::{disturb, poise};
use differential::rival;
use differential::settled::{crowd, jam, race, rivals, settling_way, Turn};
use differential::sheets::{line_count, written, Sheet};
use differential::told::{alike, tells};
use differential::ways::{way, By, Ways, AT_LEAST};
use lobstercreel as ours;
use ours::raw;
use reference::image::{decode, encode, Image, SIZE};
use reference::{number, sound, Action, Ending, ProcessId, Settling, Step, System, SHEET_LIMIT};

/// How many of each part, with the seeds 0 to one less.
const RUNS: u64 = 4_000;
const HANDED_IN: u64 = 30_000;
const DAMAGED: u64 = 500;
const SETTLED: u64 = 6_000;
const SHEETS: u64 = 16_000;

/// A sheet of so many bytes is counted as a long one that is run.
const LONG: usize = 40_000;

/// What stands around an image and an output, and must stay.
const GUARD: u8 = 0xa5;
const MARGIN: usize = 64;

fn main() {
    println!("seeds: runs 0 to {}, images handed in 0 to {}", RUNS - 1, HANDED_IN - 1);
    println!("       damaged images 0 to {} each, settled 0 to {}", DAMAGED - 1, SETTLED - 1);
    println!("       sheets 0 to {}", SHEETS - 1);
    let mut ways = Ways::default();
    fresh_systems(&mut ways);
    ways.add(each(RUNS, run));
    ways.add(each(HANDED_IN, handed_in));
    ways.add(each(DAMAGED, damaged));
    ways.add(each(SETTLED, settled));
    wrong_lengths(&mut ways);
    ways.add(each(SHEETS, sheet));
    every_room(&mut ways);
    let met = ways.all_met();
    assert!(met, "a way was met less than {AT_LEAST} times");
    println!("no difference; each way met {AT_LEAST} times or more");
}

/// The part for each of its seeds, the even and the odd ones side by side.
fn each(seeds: u64, part: fn(u64, &mut Ways)) -> Ways {
    let [even, odd] = halves(|half| {
        let mut ways = Ways::default();
        (half..seeds).step_by(2).for_each(|seed| part(seed, &mut ways));
        ways
    });
    let mut ways = even;
    ways.add(odd);
    ways
}

/// What the papers say of a step on an image: the number, and the system after it.
fn expected(image: &Image, step: Step, ways: &mut Ways) -> (u8, System) {
    let before = decode(image);
    let mut after = before.clone();
    let number = number(step.run(&mut after));
    if number != 1 {
        ways.count(By::Image, way(&before, step, number));
    }
    (number, after)
}

/// Does the step on the image, which lies between bytes that must stay.
fn our_answer(image: &mut Image, step: Step) -> u8 {
    let mut memory = [GUARD; SIZE + 2 * MARGIN];
    let lent = &mut memory[MARGIN..MARGIN + SIZE];
    lent.copy_from_slice(image);
    let number = raw::perform(lent, our_step(step));
    image.copy_from_slice(lent);
    assert!(memory[..MARGIN].iter().chain(&memory[MARGIN + SIZE..]).all(|&byte| byte == GUARD));
    number
}

/// Does the step on the image; the library's and the rival's answers are those of the papers.
fn compare(image: &mut Image, step: Step, seed: u64, ways: &mut Ways) -> u8 {
    let (before, wanted) = (*image, expected(image, step, ways));
    let mut rivals = *image;
    let answer = (our_answer(image, step), *image);
    judge("the library", &before, answer, &wanted, step, seed);
    alike(&before, image, seed);
    let answer = (rival::step_on(&mut rivals, rival::rival_step(step)), rivals);
    judge("the rival", &before, answer, &wanted, step, seed);
    wanted.0
}

/// The number is right; and so is the image, up to bytes that mean nothing. Refused, it is the same.
fn judge(
    who: &str,
    before: &Image,
    (number, after): (u8, Image),
    wanted: &(u8, System),
    step: Step,
    seed: u64,
) {
    assert_eq!(number, wanted.0, "seed {seed}: {who}, {step:?}");
    let right = if number == 0 { decode(&after) == wanted.1 } else { after == *before };
    assert!(right, "seed {seed}: {who} left another image, {step:?}");
}

/// Settles the image, which lies between bytes that must stay: the number, the steps and the ending.
fn our_settling(image: &mut Image) -> (u8, [u16; 2]) {
    let mut memory = [GUARD; SIZE + 2 * MARGIN];
    let lent = &mut memory[MARGIN..MARGIN + SIZE];
    lent.copy_from_slice(image);
    let mut told = [u16::MAX; 2];
    let number = raw::settle(lent, &mut told);
    let mut system = ours::System::from_image(*image);
    let result = system.settle().map(|told| (told.steps, told.ending));
    image.copy_from_slice(lent);
    assert!(image == system.image());
    assert!(memory[..MARGIN].iter().chain(&memory[MARGIN + SIZE..]).all(|&byte| byte == GUARD));
    // The wrapper's words are those numbers.
    let word = [ours::Ending::Rest, ours::Ending::Held, ours::Ending::Budget][usize::from(told[1])];
    let wanted = ours::Refusal::from_number(number).map_or(Ok((told[0], word)), Err);
    assert_eq!(result, wanted);
    (number, told)
}

/// Settles the image; what the library and the rival answer and leave is what the papers say.
fn compare_settling(image: &mut Image, seed: u64, ways: &mut Ways) {
    let before = *image;
    let mut wanted = decode(image);
    let settling = reference::settle(&mut wanted);
    ways.count(
        By::Image,
        match settling.outcome {
            Ok(()) => settling_way(&decode(image), settling, &wanted),
            Err(_) => "1 settling",
        },
    );
    let Settling { outcome, steps, ending } = settling;
    let ending_number = match ending {
        Ending::Rest => 0,
        Ending::Held => 1,
        Ending::Budget => 2,
    };
    let wanted_numbers = (number(outcome), [steps as u16, ending_number]);
    let right = |after: &Image| match steps {
        0 => *after == before,
        _ => decode(after) == wanted,
    };
    assert_eq!(our_settling(image), wanted_numbers, "seed {seed}: the library settles");
    assert!(right(image), "seed {seed}: the library settles and leaves another image");
    let mut rivals = before;
    let (number, steps, ending) = rival::settle_on(&mut rivals);
    let told = [steps, ending as u16];
    assert_eq!((number, told), wanted_numbers, "seed {seed}: the rival settles");
    assert!(right(&rivals), "seed {seed}: the rival settles and leaves another image");
}

/// Systems of all sorts, settled again and again with some steps between.
fn settled(seed: u64, ways: &mut Ways) {
    let mut dice = Dice::new(seed ^ 0x5e77_1e);
    let n = dice.one_of(8).0;
    let mut system = match dice.roll(6) {
        0 => turned(n, race(&mut dice, n)),
        1 => turned(n, crowd(&mut dice, n)),
        2 => turned(n, dice.opening(n).into_iter().map(Turn::Step).collect()),
        _ => reached(&mut dice, n),
    };
    match dice.roll(6) {
        0 if n > 1 => jam(&mut dice, &mut system),
        1 => rivals(&mut dice, &mut system),
        2 => drop(poise(&mut dice, &mut system)),
        3 => (0..dice.roll(8)).for_each(|_| disturb(&mut dice, &mut system)),
        _ => (),
    }
    let mut image = encode(&system);
    if dice.one_in(40) {
        image[dice.roll(SIZE)] = dice.byte();
    }
    let mix = dice.mix(n);
    for _ in 0..=dice.roll(3) {
        if dice.one_in(4) {
            litter(&mut dice, &mut image);
            ways.count(By::Image, "settling among stray bytes");
        }
        compare_settling(&mut image, seed, ways);
        if !sound(&decode(&image)) {
            return;
        }
        for _ in 0..dice.roll(12) {
            let step = dice.likely_step(&decode(&image), mix);
            compare(&mut image, step, seed, ways);
        }
    }
}

/// The system after these turns from a fresh one.
fn turned(n: u8, turns: Vec<Turn>) -> System {
    let mut system = reference::fresh(n).1;
    for turn in turns {
        match turn {
            Turn::Step(step) => drop(step.run(&mut system)),
            Turn::Settle => drop(reference::settle(&mut system)),
        }
    }
    system
}

fn fresh_systems(ways: &mut Ways) {
    for n in 0..=u8::MAX {
        let (outcome, system) = reference::fresh(n);
        let mut image = [GUARD; SIZE];
        assert_eq!(raw::fresh(&mut image, n), number(outcome), "fresh {n}");
        assert!(decode(&image) == system, "fresh {n}");
        // The wrapper gives the same system, in its error too.
        let ours = ours::System::fresh(n);
        assert_eq!(ours.is_err(), outcome.is_err(), "fresh {n}");
        let ours = ours.unwrap_or_else(|wrong| wrong.system());
        assert!(decode(ours.image()) == system, "fresh {n}");
        tells(ours.image(), n.into());
        if outcome.is_err() {
            ways.count(By::Image, "2 fresh");
        }
    }
}

/// Steps from a fresh system, each handed the image that the one before left.
fn run(seed: u64, ways: &mut Ways) {
    let mut dice = Dice::new(seed);
    let n = 1 + (seed % 8) as u8;
    let mut image = encode(&reference::fresh(n).1);
    let mut done = Vec::new();
    if dice.one_in(4) {
        for step in dice.opening(n) {
            done.push((step, compare(&mut image, step, seed, ways)));
        }
    }
    let (mix, tidy) = (dice.mix(n), dice.one_in(2));
    for _ in 0..300 {
        let step = dice.likely_step(&decode(&image), mix);
        let number = if !tidy && dice.one_in(4) {
            littered(&mut dice, &mut image, step, seed, ways)
        } else {
            compare(&mut image, step, seed, ways)
        };
        done.push((step, number));
    }
    tells(&image, seed);
    as_lists(&mut dice, encode(&reference::fresh(n).1), &done, &decode(&image), seed, ways);
}

/// The same steps in lists, one after the other, of bytes that now and then are no step: the numbers and
/// the system are those of the steps one by one.
fn as_lists(
    dice: &mut Dice,
    mut image: Image,
    done: &[(Step, u8)],
    end: &System,
    seed: u64,
    ways: &mut Ways,
) {
    let mut rest = done;
    while !rest.is_empty() {
        let (part, later) = rest.split_at(1 + dice.roll(rest.len()));
        let (mut list, mut wanted) = (Vec::new(), Vec::new());
        for &(step, number) in part {
            if dice.one_in(20) {
                list.extend([4 + dice.roll(252) as u8, dice.byte(), dice.byte(), dice.byte()]);
                wanted.push(8);
                ways.count(By::Image, "8 unknown kind in a list");
            }
            list.extend(our_step(step).to_bytes());
            wanted.push(number);
        }
        if dice.one_in(4) {
            list.extend(&[dice.roll(4) as u8, 1, 1][..1 + dice.roll(3)]);
            wanted.push(8);
            ways.count(By::Image, "8 list that breaks off");
        }
        // Where places lack, only so many are done, and nothing past them is written.
        let past = dice.roll(3);
        let mut numbers = vec![GUARD; wanted.len() + past];
        let count = raw::steps(&mut image, &list, &mut numbers);
        assert_eq!(count, wanted.len(), "seed {seed}: how many of a list");
        wanted.resize(count + past, GUARD);
        assert_eq!(numbers, wanted, "seed {seed}: the numbers of a list");
        ways.count(By::Image, "list of steps");
        rest = later;
    }
    assert!(decode(&image) == *end, "seed {seed}: lists leave another system");
    places_lack(dice, &image, done, seed, ways);
}

/// As many steps of a list are done as there are places for their numbers.
fn places_lack(dice: &mut Dice, image: &Image, list: &[(Step, u8)], seed: u64, ways: &mut Ways) {
    let bytes: Vec<u8> = list.iter().flat_map(|&(step, _)| our_step(step).to_bytes()).collect();
    let places = dice.roll(list.len());
    let mut system = decode(image);
    let wanted: Vec<u8> =
        list[..places].iter().map(|&(step, _)| number(step.run(&mut system))).collect();
    let (mut after, mut numbers) = (*image, vec![GUARD; places]);
    assert_eq!(raw::steps(&mut after, &bytes, &mut numbers), places, "seed {seed}");
    assert!(numbers == wanted && decode(&after) == system, "seed {seed}: {places} places");
    ways.count(By::Image, "list with too few places");
}

/// Does the step on an image with any bytes where they mean nothing.
fn littered(dice: &mut Dice, image: &mut Image, step: Step, seed: u64, ways: &mut Ways) -> u8 {
    let before = *image;
    litter(dice, image);
    tells(image, seed);
    alike(&before, image, seed);
    let number = compare(image, step, seed, ways);
    let done = number == 0;
    ways.count(By::Image, if done { "0 among stray bytes" } else { "refused among stray bytes" });
    number
}

/// A system of n processes that some steps have left.
fn reached(dice: &mut Dice, n: u8) -> System {
    let mut system = reference::fresh(n).1;
    let mix = dice.mix(n);
    for _ in 0..dice.roll(60) {
        let _ = dice.likely_step(&system, mix).run(&mut system);
    }
    system
}

/// Some steps, each on the same image that no run has left: sound or not, an image or not.
fn handed_in(seed: u64, ways: &mut Ways) {
    let mut dice = Dice::new(!seed);
    let n = dice.one_of(8).0;
    let mut system = reached(&mut dice, n);
    for _ in 0..dice.roll(4) {
        disturb(&mut dice, &mut system);
    }
    let due = if dice.one_in(2) { poise(&mut dice, &mut system) } else { dice.any_step(n) };
    let mut image = encode(&system);
    if dice.one_in(8) {
        for _ in 0..=dice.roll(4) {
            image[dice.roll(SIZE)] = if dice.one_in(2) { dice.byte() } else { dice.roll(4) as u8 };
        }
    }
    if dice.one_in(50) {
        image.iter_mut().for_each(|byte| *byte = dice.byte());
        image[0] = if dice.one_in(2) { n } else { image[0] };
        return refused_with_1(&mut dice, image, seed, "1 any bytes", ways);
    }
    tells(&image, seed);
    alike(&encode(&system), &image, seed);
    compare(&mut image.clone(), due, seed, ways);
    littered(&mut dice, &mut image.clone(), due, seed, ways);
    for _ in 0..10 {
        let step = dice.any_step(n);
        compare(&mut image.clone(), step, seed, ways);
    }
}

/// One sentence of soundness broken, in a sound system or in its image: each step gives 1.
fn damaged(seed: u64, ways: &mut Ways) {
    let mut dice = Dice::new(seed ^ 0xda3a6ed);
    let n = dice.one_of(8).0;
    let (p, q) = (dice.one_of(n), dice.one_of(n));
    let mut system = reached(&mut dice, n);
    system.process_mut(p).crashed = false;
    assert!(sound(&system), "seed {seed}");
    for (name, fault) in FAULTS {
        let mut broken = system.clone();
        fault(&mut dice, &mut broken, p, q);
        // With eight units there is none beyond.
        assert_eq!(sound(&broken), n == 8 && name.ends_with("beyond n"), "seed {seed}: {name}");
        if !sound(&broken) {
            refused_with_1(&mut dice, encode(&broken), seed, name, ways);
        }
    }
    for (name, damage) in DAMAGES {
        let mut image = encode(&system);
        damage(&mut dice, &mut image, p, q);
        assert!(!sound(&decode(&image)), "seed {seed}: {name}");
        refused_with_1(&mut dice, image, seed, name, ways);
    }
}

fn refused_with_1(dice: &mut Dice, image: Image, seed: u64, name: &'static str, ways: &mut Ways) {
    tells(&image, seed);
    for _ in 0..4 {
        let step = dice.any_step(8);
        assert_eq!(compare(&mut image.clone(), step, seed, ways), 1, "seed {seed}: {name}");
    }
    compare_settling(&mut image.clone(), seed, ways);
    ways.count(By::Image, name);
}

/// Anything of another length is refused with 1 and left as it was.
fn wrong_lengths(ways: &mut Ways) {
    let good = encode(&reference::fresh(3).1);
    for length in (0..3 * SIZE).filter(|&length| length != SIZE) {
        let before: Vec<u8> = good.iter().cycle().take(length + MARGIN).copied().collect();
        let mut memory = before.clone();
        let image = &mut memory[..length];
        let (one, two) = (ProcessId(1), ProcessId(2));
        for step in [
            Action::Report { p: one, view: reference::View(7) },
            Action::Receive { from: one, at: two },
            Action::Respond { p: one, to: two },
            Action::Crash { p: one },
        ] {
            assert_eq!(raw::perform(image, our_step(step.into())), 1, "length {length}");
        }
        assert_eq!(raw::fresh(image, 3), 1, "length {length}");
        let mut told = [u16::MAX; 2];
        assert_eq!(raw::settle(image, &mut told), 1, "length {length}");
        assert_eq!(told, [0, 1], "length {length}");
        assert!(memory == before, "length {length}");
        ways.count(By::Image, "1 wrong length");
    }
}

/// A whole sheet: the outputs are the same, and so are they in a buffer of any room.
fn sheet(seed: u64, ways: &mut Ways) {
    let mut dice = Dice::new(seed ^ 0x5eed);
    let sheet = written(&mut dice, 1 + (seed % 8) as u8);
    let wanted = reference::run_sheet(&sheet.text);
    assert!(ours::run_sheet(&sheet.text).as_bytes() == wanted, "seed {seed}: the outputs differ");
    assert!(rival::run_sheet(&sheet.text) == wanted, "seed {seed}: the rival's output differs");
    count_lines(&sheet, &wanted, seed, ways);
    let short = dice.roll(wanted.len() + 1);
    let room = dice.pick(&[0, short, wanted.len(), wanted.len() + 9]);
    in_room(&sheet.text, &wanted, room, ways);
}

/// Counts the ways of a sheet's lines, each of which has its number.
fn count_lines(sheet: &Sheet, wanted: &[u8], seed: u64, ways: &mut Ways) {
    let mut count = |way| ways.count(By::Sheet, way);
    match sheet.text.len() {
        0 => count("no line at all"),
        SHEET_LIMIT => count("60,000 bytes"),
        length if (LONG..SHEET_LIMIT).contains(&length) => count("40,000 bytes and more"),
        length if length > SHEET_LIMIT => {
            assert!(wanted == b"0 9\n", "seed {seed}");
            let one = length == SHEET_LIMIT + 1;
            return count(if one { "9 one byte too many" } else { "9 many bytes too many" });
        }
        _ => (),
    }
    if sheet.text.last().is_some_and(|&byte| byte != b'\n') {
        count("no line feed at the end");
    }
    assert_eq!(sheet.lines.len(), line_count(&sheet.text), "seed {seed}");
    let printed: Vec<&[u8]> = wanted.split_inclusive(|&byte| byte == b'\n').collect();
    let unprinted = usize::from(sheet.n.is_some());
    let numbered = sheet.lines.len() - unprinted;
    assert_eq!(printed.len(), numbered + usize::from(sheet.n.unwrap_or(0)), "seed {seed}");
    let lines = sheet.lines.iter().zip(1..).skip(unprinted);
    for (((way, told), at), printed) in lines.zip(&printed[..numbered]) {
        let known = match told.strip_suffix('?') {
            Some(beginning) => printed.starts_with(format!("{at} {beginning}").as_bytes()),
            None => *printed == format!("{at} {told}\n").as_bytes(),
        };
        assert!(known, "seed {seed}, line {at}");
        count(way);
    }
    assert!(printed[numbered..].iter().all(|line| line.starts_with(b"unit ")), "seed {seed}");
}

/// A buffer gets as much of the output as it has room for, and nothing past that is written.
fn in_room(sheet: &[u8], wanted: &[u8], room: usize, ways: &mut Ways) {
    let mut memory = vec![GUARD; room + MARGIN];
    let written = raw::run(sheet, &mut memory[..room]);
    assert_eq!(written, room.min(wanted.len()), "room {room}");
    assert!(memory[..written] == wanted[..written], "room {room}");
    assert!(memory[written..].iter().all(|&byte| byte == GUARD), "room {room}");
    ways.count(
        By::Sheet,
        match room {
            0 => "buffer of no bytes",
            _ if room < wanted.len() => "buffer too short",
            _ if room == wanted.len() => "buffer just long enough",
            _ => "buffer longer than needed",
        },
    );
}

/// One small sheet, with every room up to more than is needed.
fn every_room(ways: &mut Ways) {
    let sheet = b"u 8\nr 1 12345678\nt 1 1\nx\n";
    let wanted = reference::run_sheet(sheet);
    (0..wanted.len() + MARGIN).for_each(|room| in_room(sheet, &wanted, room, ways));
}
