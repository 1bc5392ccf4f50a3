//! Every refusal of a step by its number, and which comes first.

mod common;

use common::*;
use reference::*;

/// The step is refused with this number, and the system stays.
fn refused(system: &System, step: Action, wanted: u8) {
    let mut after = system.clone();
    assert_eq!(number(step.run(&mut after)), wanted, "{step:?}");
    assert_eq!(&after, system, "{step:?}");
}

fn done(system: &mut System, step: Action) {
    assert_eq!(number(step.run(system)), 0, "{step:?}");
}

fn report_by(p: u8, view: u8) -> Action {
    Action::Report { p: id(p), view: View(view) }
}

fn receive_by(q: u8, p: u8) -> Action {
    Action::Receive { from: id(q), at: id(p) }
}

fn respond_by(p: u8, q: u8) -> Action {
    Action::Respond { p: id(p), to: id(q) }
}

fn crash_of(p: u8) -> Action {
    Action::Crash { p: id(p) }
}

#[test]
fn numbers_of_the_table() {
    let table = [
        Refusal::Unsound,
        Refusal::Stranger,
        Refusal::Crashed,
        Refusal::OddView,
        Refusal::NothingThere,
        Refusal::HistoryFull,
        Refusal::ChannelFull,
        Refusal::BadLine,
        Refusal::LongSheet,
        Refusal::NoRecord,
        Refusal::OtherView,
        Refusal::CutTooLate,
        Refusal::EarlyTrust,
        Refusal::TooDeep,
    ];
    let numbers = [1, 2, 3, 4, 5, 6, 7, 8, 9, 10, 11, 12, 13, 14];
    assert_eq!(table.map(|refusal| number(Err(refusal))), numbers);
    assert_eq!(number(Ok(())), 0);
}

#[test]
fn unsound_first() {
    let mut system = system(2);
    system.process_mut(id(2)).next = index(1);
    for step in [report_by(9, 0), receive_by(0, 9), respond_by(1, 2), crash_of(1)] {
        refused(&system, step, 1);
    }
}

#[test]
fn stranger_before_stopped() {
    let mut system = system(2);
    done(&mut system, crash_of(1));
    for step in [
        report_by(0, 1),
        report_by(3, 1),
        receive_by(3, 1),
        receive_by(1, 3),
        receive_by(0, 1),
        respond_by(1, 3),
        respond_by(0, 1),
        respond_by(255, 1),
        crash_of(0),
        crash_of(3),
    ] {
        refused(&system, step, 2);
    }
}

#[test]
fn stopped_before_the_rest() {
    let mut system = system(2);
    done(&mut system, crash_of(1));
    for step in [report_by(1, 2), report_by(1, 0), receive_by(2, 1), respond_by(1, 2), crash_of(1)]
    {
        refused(&system, step, 3);
    }
}

#[test]
fn odd_view_before_full() {
    let mut system = system(2);
    proposed(&mut system, 1, 3, 32);
    put(&mut system, 1, 1, &[acc(2); 8]);
    for view in [0, 2, 4, 5, 255] {
        refused(&system, report_by(1, view), 4);
    }
}

#[test]
fn nothing_there() {
    let mut system = system(2);
    refused(&system, receive_by(1, 2), 5);
    refused(&system, respond_by(1, 1), 10);
    // A record that does not match waits, and is asked before room.
    system.process_mut(id(1)).set_recorded(id(1), Some(at(1, 2)));
    put(&mut system, 1, 1, &[acc(2); 8]);
    refused(&system, respond_by(1, 1), 11);
}

#[test]
fn history_full() {
    let mut system = system(2);
    proposed(&mut system, 1, 3, 32);
    put(&mut system, 1, 1, &[acc(2); 8]);
    refused(&system, report_by(1, 1), 6);
    // A Retry that would be acted on; the own channel is full too.
    put(&mut system, 2, 1, &[retry(32, 33)]);
    refused(&system, receive_by(2, 1), 6);
    // One that is not acted on is done.
    proposed(&mut system, 1, 3, 31);
    done(&mut system, receive_by(2, 1));
    // So is a report that proposes nothing.
    proposed(&mut system, 2, 2, 32);
    done(&mut system, report_by(2, 3));
}

#[test]
fn channel_full() {
    let mut system = system(2);
    proposed(&mut system, 1, 3, 5);
    put(&mut system, 1, 2, &[acc(2); 8]);
    refused(&system, report_by(1, 3), 7);
    // Retry and Acc, both from itself and from the other.
    put(&mut system, 1, 1, &[retry(5, 6)]);
    refused(&system, receive_by(1, 1), 7);
    put(&mut system, 2, 1, &[acc(5)]);
    system.process_mut(id(1)).acks = View(1);
    refused(&system, receive_by(2, 1), 7);
    // A response.
    system.process_mut(id(1)).set_recorded(id(2), Some(at(3, 2)));
    refused(&system, respond_by(1, 2), 7);
    // A view without the other needs no room there.
    done(&mut system, report_by(1, 1));
}

#[test]
fn own_channel_full_and_message_from_another() {
    let mut system = system(2);
    proposed(&mut system, 1, 3, 5);
    put(&mut system, 1, 1, &[acc(2); 8]);
    put(&mut system, 2, 1, &[retry(5, 6)]);
    refused(&system, receive_by(2, 1), 7);
    done(&mut system, receive_by(1, 1));
    done(&mut system, receive_by(2, 1));
}

#[test]
fn on_one_sheet() {
    // 1 is only for handed-in systems, 6 is at K4, 8 at the bad lines, 9 at the long sheet.
    let filled = "; r 1 12".repeat(8);
    let sheet = format!("u 2; s 3{filled}; r 1 12; t 2 1; r 1 2; a 2 1; s 1; s 1");
    check(&sheet, "2 00000000 7 5 4 a 0 3", "unit 1 stopped next 2 1=12; unit 2 live next 2 1=12");
}

/// S-2, with its own example: "after the third message of five".
#[test]
fn cut_steps() {
    let mut system = system(5);
    let report = report_by(1, 31);
    assert_eq!(number(report.cut(5).run(&mut system.clone())), 12);
    assert_eq!(number(report.cut(3).run(&mut system)), 0);
    assert!(system.process(id(1)).crashed);
    assert_eq!(system.process(id(1)).propout, index(2));
    // To itself the message is placed too, and cleared by the stop.
    let waits = [1, 2, 3, 4, 5].map(|p| waiting(&system, 1, p).len());
    assert_eq!(waits, [0, 1, 1, 0, 0]);
    refused(&system, report, 3);
    // A stopped unit counts among the first.
    let mut other = common::system(5);
    done(&mut other, crash_of(2));
    assert_eq!(number(report.cut(3).run(&mut other)), 0);
    assert_eq!([1, 2, 3, 4, 5].map(|p| waiting(&other, 1, p).len()), [0, 0, 1, 0, 0]);
    // Room is asked for those k only, and 12 stands before 7.
    let mut full = common::system(2);
    put(&mut full, 1, 2, &[acc(2); 8]);
    assert_eq!(number(report_by(1, 3).cut(2).run(&mut full.clone())), 12);
    assert_eq!(number(report_by(1, 3).run(&mut full.clone())), 7);
    assert_eq!(number(report_by(1, 3).cut(1).run(&mut full)), 0);
    // A step that sends nothing is never cut, and nothing changes.
    let mut silent = common::system(2);
    assert_eq!(number(report_by(2, 3).cut(0).run(&mut silent)), 12);
    assert_eq!(silent, common::system(2));
}
