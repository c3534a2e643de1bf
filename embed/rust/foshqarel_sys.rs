//! The declarations of `foshqarel.h` in Rust. What each means, and what a caller owes, the header says.
#![allow(non_camel_case_types)]

pub const DONE: u32 = 0;
pub const REFUSED: u32 = 1;
pub const SHORT: u32 = 2;
pub const NO_MEMORY: u32 = 3;
pub const NOWHERE: u64 = u64::MAX;

#[repr(C)]
#[derive(Clone, Copy, Debug, Default, PartialEq, Eq)]
pub struct foshqarel_told {
    pub size: u64,
    pub next_size: u64,
    pub place: u64,
    pub function: u64,
    pub subject: u32,
    pub number: u32,
}

#[repr(C)]
#[derive(Clone, Copy, Debug, Default, PartialEq, Eq)]
pub struct foshqarel_cell {
    pub key: u64,
    pub number: u64,
    pub contract: u32,
    pub kind: u32,
}

#[repr(C)]
#[derive(Clone, Copy, Debug, Default, PartialEq, Eq)]
pub struct foshqarel_receipt {
    pub fuel: u64,
    pub value: i64,
    pub call: u32,
    pub asks: u32,
    pub outcome: u32,
    pub code: u32,
}

#[repr(C)]
#[derive(Clone, Copy, Debug, Default, PartialEq, Eq)]
pub struct foshqarel_change {
    pub key: u64,
    pub before: u64,
    pub later: u64,
    pub contract: u32,
    pub kind: u32,
    pub mode: u32,
    pub presence: u32,
}

unsafe extern "C" {
    pub fn foshqarel_check(module: *const u8, module_size: usize, sentence: *mut u8, sentence_room: usize, told: *mut foshqarel_told) -> u32;
    pub fn foshqarel_assemble(text: *const u8, text_size: usize, module: *mut u8, module_room: usize, told: *mut foshqarel_told) -> u32;
    pub fn foshqarel_text(module: *const u8, module_size: usize, text: *mut u8, text_room: usize, told: *mut foshqarel_told) -> u32;
    pub fn foshqarel_world_new(world: *mut u8, world_room: usize, told: *mut foshqarel_told) -> u32;
    pub fn foshqarel_world_extend(
        world: *const u8, world_size: usize, module: *const u8, module_size: usize, next: *mut u8, next_room: usize, told: *mut foshqarel_told,
    ) -> u32;
    pub fn foshqarel_world_digest(world: *const u8, world_size: usize, digest: *mut u8, digest_room: usize, told: *mut foshqarel_told) -> u32;
    pub fn foshqarel_world_cell(
        world: *const u8, world_size: usize, cell: *mut foshqarel_cell, sentence: *mut u8, sentence_room: usize, told: *mut foshqarel_told,
    ) -> u32;
    pub fn foshqarel_world_cells(
        world: *const u8, world_size: usize, from: u64, cells: *mut foshqarel_cell, cells_room: usize, sentence: *mut u8, sentence_room: usize,
        told: *mut foshqarel_told,
    ) -> u32;
    pub fn foshqarel_calls(calls: *const u8, calls_size: usize, sentence: *mut u8, sentence_room: usize, told: *mut foshqarel_told) -> u32;
    pub fn foshqarel_mine(
        world: *const u8, world_size: usize, calls: *const u8, calls_size: usize, fuel: u64, block: *mut u8, block_room: usize, next: *mut u8,
        next_room: usize, told: *mut foshqarel_told,
    ) -> u32;
    pub fn foshqarel_verify(
        world: *const u8, world_size: usize, calls: *const u8, calls_size: usize, fuel: u64, block: *const u8, block_size: usize, next: *mut u8,
        next_room: usize, told: *mut foshqarel_told,
    ) -> u32;
    pub fn foshqarel_receipts(
        block: *const u8, block_size: usize, from: u64, receipts: *mut foshqarel_receipt, receipts_room: usize, sentence: *mut u8,
        sentence_room: usize, told: *mut foshqarel_told,
    ) -> u32;
    pub fn foshqarel_call(
        world: *const u8, world_size: usize, calls: *const u8, calls_size: usize, number: u32, receipt: *mut foshqarel_receipt,
        changes: *mut foshqarel_change, changes_room: usize, sentence: *mut u8, sentence_room: usize, told: *mut foshqarel_told,
    ) -> u32;
}
