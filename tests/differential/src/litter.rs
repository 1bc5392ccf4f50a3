//! Bytes of an image that mean nothing: what stands in them changes no answer.

use crate::dice::Dice;
use reference::image::{
    channel_at, decode, marks_at, process_at, record_in, Image, CHANNEL_BYTES, LENGTH_IN,
    PROCESS_BYTES,
};
use reference::{Message, ProcessId};

/// The places that mean nothing in an image of a system of 1 to 8 processes: processes past n and
/// channels at them, records of them, their marks, records of nothing, slots past a channel's length,
/// and the second operand of an Acc.
fn unused(image: &Image) -> Vec<usize> {
    let system = decode(image);
    let mut places = Vec::new();
    let mut add = |from: usize, length: usize| places.extend(from..from + length);
    for p in (1..=8).map(ProcessId) {
        if p.0 > system.n {
            add(process_at(p), PROCESS_BYTES);
            add(marks_at(p), 1);
        }
        for q in (1..=8).map(ProcessId) {
            let (record, channel) = (process_at(p) + record_in(q), channel_at(q, p));
            if p.0 > system.n || q.0 > system.n {
                if p.0 <= system.n {
                    add(record, 3);
                }
                add(channel, CHANNEL_BYTES);
                continue;
            }
            if system.process(p).recorded(q).is_none() {
                add(record + 1, 2);
            }
            let waiting = system.channel(q, p);
            for (slot, message) in waiting.iter().enumerate() {
                if matches!(message, Message::Acc(_)) {
                    add(channel + 3 * slot + 2, 1);
                }
            }
            add(channel + 3 * waiting.len(), LENGTH_IN - 3 * waiting.len());
        }
    }
    places
}

/// Puts any bytes into some of those places, or into all of them, if the image is of a system.
pub fn litter(dice: &mut Dice, image: &mut Image) {
    let before = decode(image);
    if before.unreadable || !(1..=8).contains(&before.n) {
        return;
    }
    let apart = dice.pick(&[1, 1, 2, 50]);
    for place in unused(image) {
        if dice.one_in(apart) {
            image[place] = if dice.one_in(3) { 255 } else { dice.byte() };
        }
    }
    // Marks of processes past n stand beside those that mean something.
    for p in before.everyone().members() {
        let stray = if dice.one_in(apart) { dice.byte() & !before.everyone().0 } else { 0 };
        image[marks_at(p)] |= stray;
    }
    assert!(decode(image) == before);
}
