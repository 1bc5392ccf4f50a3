//! The steps by the wrapper's types: every refusal, the order of the arguments, cuts, lists, settling
//! runs, and systems of every size.

mod common;

use common::{channel_at, image, record_at, send, Image, ACC, COMMIT, LENGTH, RETRY};
use lobstercreel::{
    raw, Action, Answer, Ending, GroupIndex, ProcessId, Refusal, Settling, Step, System, View,
    MOST_STEPS,
};
use std::error::Error;

fn report(p: u8, view: u8) -> Action {
    Action::Report { p: ProcessId(p), view: View::from_bits(view) }
}

fn receive(from: u8, at: u8) -> Action {
    Action::Receive { from: ProcessId(from), at: ProcessId(at) }
}

fn respond(p: u8, to: u8) -> Action {
    Action::Respond { p: ProcessId(p), to: ProcessId(to) }
}

fn crash(p: u8) -> Action {
    Action::Crash { p: ProcessId(p) }
}

/// A system of every size; and for each other number the refusal and the system of no processes.
#[test]
fn sizes() {
    for n in 0..=u8::MAX {
        let mut renewed = System::from_image([7; lobstercreel::IMAGE]);
        let answer = renewed.renew(n);
        match System::fresh(n) {
            Ok(system) => {
                assert!((1..=8).contains(&n) && system.n() == n && system.is_sound());
                assert_eq!(system.processes().len(), n.into());
                assert!(system.processes().all(|process| process.view == View::first(n)));
                assert_eq!((answer, renewed), (Ok(()), system));
            }
            Err(wrong) => {
                assert!(!(1..=8).contains(&n) && wrong.n() == n);
                assert_eq!(wrong.refusal(), Refusal::Stranger);
                assert_eq!(Refusal::from(wrong), Refusal::Stranger);
                let said = format!("a fresh system has 1 to 8 processes, not {n}");
                assert_eq!(wrong.to_string(), said);
                assert_eq!(wrong.source().unwrap().to_string(), Refusal::Stranger.to_string());
                let mut none = wrong.system();
                assert_eq!((none.n(), none.processes().len(), none.channels().count()), (0, 0, 0));
                assert!(!none.is_sound());
                assert_eq!((answer, &renewed), (Err(Refusal::Stranger), &none));
                let before = *none.image();
                for p in [0, 1, 9] {
                    for action in [report(p, 1), receive(p, 1), respond(p, 1), crash(p)] {
                        assert_eq!(none.perform(action), Err(Refusal::Unsound));
                        assert_eq!(none.perform(action.cut_after(0)), Err(Refusal::Unsound));
                    }
                }
                assert_eq!(none.settle(), Err(Refusal::Unsound));
                assert_eq!(*none.image(), before);
            }
        }
    }
}

/// Who acts and who is acted upon: an answer goes from p to q, a message is taken from q at p.
#[test]
fn arguments() {
    let mut system = System::fresh(3).unwrap();
    let view = 0b110;
    assert_eq!(system.perform(report(2, view)), Ok(()));
    assert_eq!(system.perform(receive(3, 2)), Err(Refusal::NothingThere));
    assert_eq!(system.perform(receive(2, 3)), Ok(()));
    assert_eq!(system.perform(report(3, view)), Ok(()));
    assert_eq!(system.perform(respond(2, 3)), Err(Refusal::NoRecord));
    assert_eq!(system.perform(respond(3, 2)), Ok(()));
    assert_eq!(system.perform(crash(2)), Ok(()));
    assert_eq!(system.perform(report(2, view)), Err(Refusal::Crashed));
    assert_eq!(system.perform(report(3, view)), Ok(()));
}

/// Every refusal that a step can give, on an image where it is due; and the image stays.
#[test]
fn refusals() {
    let mut full = image(2);
    (0..8).for_each(|_| send(&mut full, 1, 2, [ACC, 2, 0]));
    let mut last = image(2);
    last[1 + 3] = 32;
    last[1 + 4] = 1;
    let mut stopped = image(2);
    stopped[1] = 1;
    let mut unsound = image(2);
    unsound[1 + 2] = 34;
    let mut other = image(2);
    other[1 + 1] = 1;
    other[record_at(1, 2)..][..3].copy_from_slice(&[1, 3, 2]);
    let mut alone = image(2);
    alone[1 + 1] = 1;
    let whole: [(Image, Action, Refusal); 12] = [
        (unsound, report(1, 3), Refusal::Unsound),
        (image(2), report(3, 3), Refusal::Stranger),
        (image(2), report(0, 3), Refusal::Stranger),
        (image(2), respond(1, 9), Refusal::Stranger),
        (stopped, report(1, 3), Refusal::Crashed),
        (image(2), report(1, 2), Refusal::OddView),
        (image(2), receive(1, 2), Refusal::NothingThere),
        (last, report(1, 3), Refusal::HistoryFull),
        (full, report(1, 3), Refusal::ChannelFull),
        (image(2), respond(1, 2), Refusal::NoRecord),
        (other, respond(1, 2), Refusal::OtherView),
        (alone, report(1, 3), Refusal::EarlyTrust),
    ];
    let cut = (image(2), report(1, 3).cut_after(2), Refusal::CutTooLate);
    let cases = whole.map(|(image, action, refusal)| (image, action.whole(), refusal));
    let mut met = Vec::new();
    for (bytes, refused, refusal) in cases.into_iter().chain([cut]) {
        let mut system = System::from_image(bytes);
        assert_eq!(system.perform(refused), Err(refusal), "{refused:?}");
        assert_eq!(*system.image(), bytes);
        // In a list it is the same.
        let mut answers = [Ok(())];
        assert_eq!(system.perform_into(&[refused], &mut answers), 1);
        assert_eq!(answers, [Err(refusal)], "{refused:?}");
        assert_eq!(*system.image(), bytes);
        assert_eq!(raw::perform(&mut bytes.clone(), refused), refusal.number());
        met.push(refusal);
    }
    // The others are no step's: a line, a sheet, a walk.
    for refusal in Refusal::ALL {
        let no_step = [Refusal::BadLine, Refusal::LongSheet, Refusal::TooDeep].contains(refusal);
        assert_eq!(met.contains(refusal), !no_step, "{refusal:?}");
    }
}

/// 8 of a list and of a sheet, 9 of a sheet.
#[test]
fn refusals_of_no_step() {
    let mut numbers = [77];
    raw::steps(&mut image(1), &[4, 1, 1, 255], &mut numbers);
    assert_eq!(Refusal::from_number(numbers[0]), Some(Refusal::BadLine));
    let mut out = [0; 40];
    assert_eq!(lobstercreel::run_sheet_into("x", &mut out), b"1 8 1\n");
    assert_eq!(lobstercreel::run_sheet_into(vec![b'\n'; 60_001], &mut out), b"0 9\n");
}

/// Numbers, words and sentences; and that it is an error like others.
#[test]
fn table_of_refusals() {
    let wanted = [
        (1, "unsound", "the table is not sound"),
        (2, "stranger", "a unit number in the step is not 1 to n, or a fresh table is wanted of a wrong size"),
        (3, "stopped", "the unit that would act has stopped"),
        (4, "odd view", "a report names a unit beyond n, or lacks its own unit"),
        (5, "nothing there", "taking from an empty line"),
        (6, "history full", "a report by the least unit of its view with PropOut 32; a Retry that would be acted on, with new 33"),
        (7, "line full", "a message of this step goes to a unit that has not stopped, over a line that already holds 8"),
        (8, "bad line", "a sheet line, or a step of a list, is of no known form"),
        (9, "long sheet", "a sheet of more than 60,000 bytes"),
        (10, "no record", "answering with no recorded proposal"),
        (11, "other view", "answering a recorded proposal whose view is not the local view"),
        (12, "cut too late", "a step is cut after no fewer messages than it would send"),
        (13, "early trust", "a report brings back a unit whose view has not lacked the reporting one since it was last suspected"),
        (14, "too deep", "all orders are wanted for depth above 8 or more than 2 units"),
    ];
    let told: Vec<_> = Refusal::ALL
        .iter()
        .map(|refusal| (refusal.number(), refusal.word(), refusal.to_string()))
        .collect();
    assert_eq!(told, wanted.map(|(number, word, sentence)| (number, word, sentence.to_string())));
    for number in 0..=u8::MAX {
        let refusal = Refusal::from_number(number);
        assert_eq!(refusal.is_some(), (1..=14).contains(&number));
        assert!(refusal.is_none_or(|refusal| u8::from(refusal) == number));
    }
    let error: Box<dyn Error + Send + Sync> = Refusal::Crashed.into();
    assert_eq!(error.to_string(), "the unit that would act has stopped");
    assert_eq!(format!("{:?}", Refusal::Crashed), "Crashed");
    assert_eq!(size_of::<Answer>(), 1);
}

/// A list of steps does what its steps do one by one, in parts of any size, and no more than there are
/// places for.
#[test]
fn lists() {
    let some = [
        report(2, 0b110),
        receive(3, 2),
        receive(2, 3),
        report(3, 0b110),
        respond(3, 2),
        crash(2),
        crash(2),
    ];
    let list: Vec<Step> = some.map(Step::from).into_iter().cycle().take(100).collect();
    let mut one_by_one = System::fresh(3).unwrap();
    let wanted: Vec<Answer> = list.iter().map(|&step| one_by_one.perform(step)).collect();
    let (empty, stopped) = (Err(Refusal::NothingThere), Err(Refusal::Crashed));
    assert_eq!(wanted[..7], [Ok(()), empty, Ok(()), Ok(()), Ok(()), Ok(()), stopped]);
    for places in [0, 1, 31, 32, 33, 64, 99, 100, 101] {
        let mut at_once = System::fresh(3).unwrap();
        let mut answers = vec![Err(Refusal::TooDeep); places];
        let done = at_once.perform_into(&list, &mut answers);
        assert_eq!(done, places.min(100));
        assert_eq!(answers[..done], wanted[..done]);
        assert!(answers[done..].iter().all(|&answer| answer == Err(Refusal::TooDeep)));
        for &step in &list[done..] {
            let _ = at_once.perform(step);
        }
        assert_eq!(at_once.image(), one_by_one.image());
    }
    #[cfg(feature = "alloc")]
    {
        let mut at_once = System::fresh(3).unwrap();
        assert_eq!(at_once.perform_all(&list), wanted);
        assert_eq!(at_once.image(), one_by_one.image());
        assert_eq!(at_once.perform_all(&[]), []);
    }
}

/// The bytes of a step in a list.
#[test]
fn bytes_of_steps() {
    assert_eq!(report(2, 6).whole().to_bytes(), [0, 2, 6, 255]);
    assert_eq!(receive(3, 4).cut_after(1).to_bytes(), [1, 3, 4, 1]);
    assert_eq!(respond(5, 6).cut_after(254).to_bytes(), [2, 5, 6, 254]);
    assert_eq!(crash(255).cut_after(255).to_bytes(), [3, 255, 0, 254]);
}

/// A step cut after k messages: those are placed, in rising order, and the process stops.
#[test]
fn cuts() {
    for k in 0..=9 {
        let mut system = System::fresh(5).unwrap();
        let report = report(1, 0b11111);
        if k >= 5 {
            assert_eq!(system.perform(report.cut_after(k)), Err(Refusal::CutTooLate), "{k}");
            continue;
        }
        assert_eq!(system.perform(report.cut_after(k)), Ok(()), "{k}");
        assert_eq!(system.perform(report), Err(Refusal::Crashed), "{k}");
        for p in 2..=5 {
            let taken = system.perform(receive(1, p));
            let sent = p <= k;
            assert_eq!(taken, if sent { Ok(()) } else { Err(Refusal::NothingThere) }, "{p} of {k}");
        }
        // A cut answer is given and not sent.
        if k >= 2 {
            assert_eq!(system.perform(respond(2, 1).cut_after(1)), Err(Refusal::CutTooLate));
            assert_eq!(system.perform(respond(2, 1).cut_after(0)), Ok(()));
            assert_eq!(system.perform(crash(2)), Err(Refusal::Crashed));
        }
    }
    let mut system = System::fresh(1).unwrap();
    assert_eq!(system.perform(crash(1).cut_after(0)), Err(Refusal::CutTooLate));
    assert_eq!(system.perform(receive(1, 1).cut_after(0)), Err(Refusal::NothingThere));
    // 255 is a count like any other above 8, in a list too.
    for action in [report(1, 1), crash(1)] {
        let mut answers = [Ok(())];
        assert_eq!(system.perform(action.cut_after(255)), Err(Refusal::CutTooLate));
        assert_eq!(system.perform_into(&[action.cut_after(255)], &mut answers), 1);
        assert_eq!(answers, [Err(Refusal::CutTooLate)]);
    }
    assert_eq!(*system.image(), image(1));
}

/// A receive that sends, cut: a Commit goes to the first of two.
#[test]
fn cut_receive() {
    let mut system = System::fresh(2).unwrap();
    for step in [report(1, 3), receive(1, 1), receive(1, 2), respond(1, 1), respond(2, 1)] {
        assert_eq!(system.perform(step), Ok(()));
    }
    assert_eq!(system.perform(receive(1, 1).cut_after(0)), Err(Refusal::CutTooLate));
    assert_eq!(system.perform(receive(1, 1)), Ok(()));
    assert_eq!(system.perform(receive(2, 1).cut_after(2)), Err(Refusal::CutTooLate));
    assert_eq!(system.perform(receive(2, 1).cut_after(1)), Ok(()));
    // The one went to process 1, which has crashed by that.
    assert_eq!(system.perform(receive(1, 2)), Err(Refusal::NothingThere));
    assert!(system.process(ProcessId(1)).unwrap().crashed);
}

/// A settling run: its steps, how it ends, and what it leaves.
#[test]
fn settling() {
    for n in 1..=8 {
        let mut system = System::fresh(n).unwrap();
        let rest = |steps| Ok(Settling { steps, ending: Ending::Rest });
        assert_eq!(system.settle(), rest(0));
        assert_eq!(*system.image(), image(n));
        let everyone = View::first(n);
        assert_eq!(system.perform(report(1, everyone.bits())), Ok(()));
        // n Proposes, Accs and Commits are received, and n responses given.
        assert_eq!(system.settle(), rest(4 * u16::from(n)));
        let last = Some((GroupIndex(2), everyone));
        assert!(system.processes().all(|process| process.history.last() == last));
        assert_eq!(system.settle(), rest(0));
    }
    assert_eq!(u32::from(MOST_STEPS), 124 * 8 * 8);
    // Held up by a Retry to 33; the other process is done with before.
    let mut held = image(2);
    held[1 + 3] = 5;
    held[1 + 4] = 3;
    send(&mut held, 2, 1, [RETRY, 5, 33]);
    send(&mut held, 1, 2, [COMMIT, 3, 4]);
    let mut system = System::from_image(held);
    assert_eq!(system.settle(), Ok(Settling { steps: 1, ending: Ending::Held }));
    assert_eq!(system.entry(ProcessId(2), GroupIndex(4)), Some(View::first(2)));
    // What is not sound is refused and stays.
    held[1 + 2] = 34;
    let mut system = System::from_image(held);
    assert_eq!(system.settle(), Err(Refusal::Unsound));
    assert_eq!(*system.image(), held);
    assert_eq!(
        [Ending::Rest, Ending::Held, Ending::Budget].map(|end| end.to_string()),
        ["rest", "held", "budget"]
    );
}

/// Bytes that mean nothing may hold anything, and a refused step leaves them too.
#[test]
fn stray_bytes() {
    let mut bytes = image(2);
    bytes[1 + 62 * 2..497].fill(255);
    for (q, p) in common::pairs(8) {
        let channel = channel_at(q, p);
        bytes[channel..channel + LENGTH].fill(255);
        bytes[channel + LENGTH] = if q <= 2 && p <= 2 { 0 } else { 255 };
    }
    let mut system = System::from_image(bytes);
    assert_eq!(system, System::fresh(2).unwrap());
    assert_eq!(system.perform(receive(1, 2)), Err(Refusal::NothingThere));
    assert_eq!(*system.image(), bytes);
    assert_eq!(system.perform(report(1, 3)), Ok(()));
    assert_eq!(system.perform(receive(1, 2)), Ok(()));
    assert_eq!(system.entry(ProcessId(3), GroupIndex(1)), None);
}

/// To an image and back.
#[test]
fn conversions() {
    let bytes: Image = std::array::from_fn(|at| at as u8);
    let system = System::from(bytes);
    assert_eq!(*system.image(), bytes);
    assert_eq!(Image::from(system.clone()), bytes);
    assert_eq!(*System::try_from(&bytes[..]).unwrap().image(), bytes);
    assert_eq!(System::try_from(&bytes[1..]), Err(Refusal::Unsound));
    assert_eq!(System::try_from(&[][..]), Err(Refusal::Unsound));
}
