//! The exported functions on slices, with lent numbers; each returns the code. Every call has slices of its own for memory,
//! and the exported functions keep to their lengths.

use crate::exported::*;
use crate::Room;

/// Checks the room of a text.
pub fn check(text: &[u8], numbers: &mut [u64; 5]) -> u64 {
    unsafe { stoerwjok_check(text.as_ptr(), text.len(), numbers) }
}

/// Plans the room of a text.
pub fn plan(text: &[u8], table: &mut [u64], plan: &mut [u16], numbers: &mut [u64; 5]) -> u64 {
    unsafe {
        stoerwjok_plan(
            text.as_ptr(),
            text.len(),
            table.as_mut_ptr(),
            table.len(),
            plan.as_mut_ptr(),
            plan.len(),
            numbers,
        )
    }
}

/// Judges a past in the room of a text.
pub fn judge(text: &[u8], table: &mut [u64], past: &[u16], numbers: &mut [u64; 5]) -> u64 {
    unsafe {
        stoerwjok_judge(
            text.as_ptr(),
            text.len(),
            table.as_mut_ptr(),
            table.len(),
            past.as_ptr(),
            past.len(),
            numbers,
        )
    }
}

/// Reads a room text into the bytes of a room.
pub fn read(text: &[u8], room: &mut [u8; Room::BYTES], numbers: &mut [u64; 5]) -> u64 {
    unsafe { stoerwjok_read(text.as_ptr(), text.len(), room, numbers) }
}

/// Writes the bytes of a room as its text.
pub fn write(room: &[u8; Room::BYTES], text: &mut [u8], numbers: &mut [u64; 5]) -> u64 {
    unsafe { stoerwjok_write(room, text.as_mut_ptr(), text.len(), numbers) }
}
