//! The exported functions as they are; `include/stoerwjok.h` says what each returns and needs.

use crate::Room;

extern "C" {
    pub fn stoerwjok_check(text: *const u8, text_length: usize, numbers: &mut [u64; 5]) -> u64;

    pub fn stoerwjok_plan(
        text: *const u8,
        text_length: usize,
        table: *mut u64,
        table_length: usize,
        plan: *mut u16,
        plan_length: usize,
        numbers: &mut [u64; 5],
    ) -> u64;

    pub fn stoerwjok_judge(
        text: *const u8,
        text_length: usize,
        table: *mut u64,
        table_length: usize,
        past: *const u16,
        past_length: usize,
        numbers: &mut [u64; 5],
    ) -> u64;

    pub fn stoerwjok_read(
        text: *const u8,
        text_length: usize,
        room: &mut [u8; Room::BYTES],
        numbers: &mut [u64; 5],
    ) -> u64;

    pub fn stoerwjok_write(
        room: &[u8; Room::BYTES],
        text: *mut u8,
        text_length: usize,
        numbers: &mut [u64; 5],
    ) -> u64;
}
