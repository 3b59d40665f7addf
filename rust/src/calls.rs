//! The calls, each with its own answer.

use crate::{lent, Checked, Judged, Numbers, Planned, Reading, Room, Written};

/// Checks the room of a text.
pub fn check(text: &[u8]) -> Checked {
    Checked::of(numbers(|numbers| lent::check(text, numbers)))
}

/// Plans the room of a text in a table with anything in it; the plan is laid at the start of its buffer.
pub fn plan<'a>(text: &[u8], table: &mut [u64], buffer: &'a mut [u16]) -> Planned<'a> {
    let reply = numbers(|numbers| lent::plan(text, table, buffer, numbers));
    Planned::of(reply, buffer)
}

/// Judges a past, a row of masks from slot 0, in the room of a text.
pub fn judge(text: &[u8], table: &mut [u64], past: &[u16]) -> Judged {
    Judged::of(numbers(|numbers| lent::judge(text, table, past, numbers)))
}

/// Reads a room text.
pub fn read(text: &[u8]) -> Reading {
    let mut bytes = [0; Room::BYTES];
    let reply = numbers(|numbers| lent::read(text, &mut bytes, numbers));
    Reading::of(reply, &bytes)
}

/// Writes a room as its text, at the start of a buffer.
pub fn write<'a>(room: &Room, buffer: &'a mut [u8]) -> Written<'a> {
    let reply = numbers(|numbers| lent::write(&room.to_bytes(), buffer, numbers));
    Written::of(reply, buffer)
}

/// The five numbers that a call lays down.
pub fn numbers(call: impl FnOnce(&mut [u64; 5]) -> u64) -> Numbers {
    let mut numbers = [0; 5];
    call(&mut numbers);
    numbers.into()
}
