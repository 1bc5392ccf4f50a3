//! The functions with plain numbers: bytes of any length, lists of steps in bytes, and buffers.

mod common;

use common::{image, send, COMMIT, RETRY};
use lobstercreel::{raw, run_sheet_into, Action, ProcessId, View, IMAGE, OUTPUT};

#[test]
fn only_an_image_of_its_length() {
    let p = ProcessId(1);
    let report = Action::Report { p, view: View::only(p) };
    let receive = Action::Receive { from: p, at: p };
    let respond = Action::Respond { p, to: p };
    let crash = Action::Crash { p };
    for length in [0, 1, IMAGE - 1, IMAGE + 1, 2 * IMAGE] {
        let before = vec![7; length];
        let mut bytes = before.clone();
        assert_eq!(raw::fresh(&mut bytes, 2), 1, "{length}");
        for action in [report, receive, respond, crash] {
            assert_eq!(raw::perform(&mut bytes, action), 1, "{length}");
            assert_eq!(raw::perform(&mut bytes, action.cut_after(0)), 1, "{length}");
        }
        let mut told = [77; 2];
        assert_eq!(raw::settle(&mut bytes, &mut told), 1, "{length}");
        assert_eq!(told, [0, 1]);
        assert_eq!(bytes, before);
    }
}

#[test]
fn sizes() {
    for n in 0..=u8::MAX {
        let mut bytes = [7; IMAGE];
        let good = (1..=8).contains(&n);
        assert_eq!(raw::fresh(&mut bytes, n), if good { 0 } else { 2 });
        assert_eq!(bytes[0], if good { n } else { 0 });
    }
}

/// What is no step is refused with 8; and as many are done as there are places.
#[test]
fn lists() {
    let mut bytes = image(2);
    let mut numbers = [77; 6];
    let list = [3, 1, 0, 255, 4, 1, 0, 255, 3, 1, 9, 255, 3, 2, 0];
    assert_eq!(raw::steps(&mut bytes, &list, &mut numbers), 4);
    assert_eq!(numbers, [0, 8, 3, 8, 77, 77]);
    assert_eq!(raw::steps(&mut bytes, &[3, 2, 0, 255, 3, 2, 0, 255], &mut numbers[..1]), 1);
    assert_eq!(numbers, [0, 8, 3, 8, 77, 77]);
    assert_eq!(raw::steps(&mut bytes, &[3, 2, 0, 255, 255], &mut numbers), 2);
    assert_eq!(numbers, [3, 8, 3, 8, 77, 77]);
    assert_eq!(raw::steps(&mut bytes, &[], &mut numbers), 0);
    assert_eq!(raw::steps(&mut bytes, &[3, 2, 0, 255], &mut []), 0);
    assert_eq!(raw::steps(&mut bytes[1..], &[3, 2, 0, 255, 7, 7, 7, 7], &mut numbers), 2);
    assert_eq!(numbers, [1, 8, 3, 8, 77, 77]);
}

/// What a settling run tells, at rest, held up by a Retry to 33, and of a system that is not sound.
#[test]
fn settling() {
    let mut told = [77; 2];
    assert_eq!(raw::settle(&mut image(2), &mut told), 0);
    assert_eq!(told, [0, 0]);
    let mut held = image(2);
    held[1 + 3] = 5;
    held[1 + 4] = 3;
    send(&mut held, 2, 1, [RETRY, 5, 33]);
    send(&mut held, 1, 2, [COMMIT, 3, 4]);
    assert_eq!(raw::settle(&mut held, &mut told), 0);
    assert_eq!(told, [1, 1]);
    held[1 + 2] = 34;
    let before = held;
    assert_eq!(raw::settle(&mut held, &mut told), 1);
    assert_eq!(told, [0, 1]);
    assert_eq!(held, before);
}

/// A small buffer gets the beginning of the output; nothing past it is written.
#[test]
fn buffers() {
    let mut out = [7; 10];
    assert_eq!(raw::run(b"u 1\ns 1\ns 1\n", &mut out[..6]), 6);
    assert_eq!(&out, b"2 0\n3 \x07\x07\x07\x07");
    assert_eq!(run_sheet_into("u 1\ns 1\ns 1\n", &mut out[..5]), b"2 0\n3");
    assert_eq!(run_sheet_into("", &mut out), b"");
    assert_eq!(run_sheet_into("u 1", &mut []), b"");
}

/// The longest output.
#[test]
fn longest_output() {
    let mut sheet = vec![b'\n'; 60_000];
    sheet[..3].copy_from_slice(b"u 8");
    let mut wanted: String = (2..=59_997).map(|line| format!("{line} 8 1\n")).collect();
    (1..=8).for_each(|p| wanted += &format!("unit {p} live next 2 1=12345678\n"));
    assert!(wanted.len() < OUTPUT);
    let mut out = vec![0; OUTPUT];
    assert!(run_sheet_into(&sheet, &mut out) == wanted.as_bytes());
    sheet.push(b'\n');
    assert_eq!(run_sheet_into(&sheet, &mut out), b"0 9\n");
    #[cfg(feature = "alloc")]
    {
        assert_eq!(lobstercreel::run_sheet(&sheet), "0 9\n");
        sheet.pop();
        assert!(lobstercreel::run_sheet(&sheet) == wanted);
        assert_eq!(lobstercreel::run_sheet(""), "");
    }
}
