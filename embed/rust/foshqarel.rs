//! Safe Rust over the library. Each function is one of `foshqarel.h`, with buffers that grow to the size that the library tells.
//!
//! Nothing checks the declarations of `foshqarel_sys` against the library. Each `unsafe` block passes the pointers and lengths of slices that are borrowed for the call,
//! and none of what is written to is anything else that is passed.

use foshqarel_sys as sys;
pub use foshqarel_sys::{foshqarel_cell as Cell, foshqarel_change as Change, foshqarel_receipt as Receipt};

/// What is refused: the second word of the program's line.
#[derive(Clone, Copy, Debug, PartialEq, Eq)]
pub enum Subject {
    Load,
    Check,
    Deploy,
    Assemble,
    Text,
    World,
    Calls,
    Block,
}

/// Why the library does not do what it is asked.
#[derive(Clone, Debug, PartialEq, Eq)]
pub enum Error {
    /// What was passed is refused.
    Refused {
        subject: Subject,
        number: u32,
        place: Option<u64>,
        function: Option<u64>,
        sentence: String,
    },
    /// Memory was refused.
    NoMemory,
}

pub type Result<T> = std::result::Result<T, Error>;

fn subject_of(number: u32) -> Subject {
    match number {
        1 => Subject::Load,
        2 => Subject::Check,
        3 => Subject::Deploy,
        4 => Subject::Assemble,
        5 => Subject::Text,
        6 => Subject::World,
        7 => Subject::Calls,
        _ => Subject::Block,
    }
}

fn somewhere(place: u64) -> Option<u64> {
    (place != sys::NOWHERE).then_some(place)
}

fn refused(told: &sys::foshqarel_told, sentence: &[u8]) -> Error {
    Error::Refused {
        subject: subject_of(told.subject),
        number: told.number,
        place: somewhere(told.place),
        function: somewhere(told.function),
        sentence: String::from_utf8_lossy(sentence).into_owned(),
    }
}

/// Calls with a buffer until that is large enough: what is told then, and the buffer's bytes.
fn grown(mut room: usize, mut call: impl FnMut(&mut [u8], &mut sys::foshqarel_told) -> u32) -> Result<(sys::foshqarel_told, Vec<u8>)> {
    let mut told = sys::foshqarel_told::default();
    loop {
        let mut bytes = vec![0; room];
        match call(&mut bytes, &mut told) {
            sys::DONE => return Ok((told, bytes)),
            sys::REFUSED => return Err(refused(&told, &bytes[..told.size as usize])),
            sys::SHORT => room = told.size as usize,
            _ => return Err(Error::NoMemory),
        }
    }
}

/// Bytes that are given.
fn given(room: usize, call: impl FnMut(&mut [u8], &mut sys::foshqarel_told) -> u32) -> Result<Vec<u8>> {
    let (told, mut bytes) = grown(room, call)?;
    bytes.truncate(told.size as usize);
    Ok(bytes)
}

/// A number that is given; the buffer is for a sentence.
fn counted(call: impl FnMut(&mut [u8], &mut sys::foshqarel_told) -> u32) -> Result<u64> {
    grown(0, call).map(|(told, _sentence)| told.size)
}

/// All items of a list: first how many they are, then they.
fn listed<T: Clone + Default>(mut call: impl FnMut(&mut [T], &mut [u8], &mut sys::foshqarel_told) -> u32) -> Result<Vec<T>> {
    let many = counted(|sentence, told| call(&mut [], sentence, told))?;
    let mut items = vec![T::default(); many as usize];
    counted(|sentence, told| call(&mut items, sentence, told))?;
    Ok(items)
}

/// How many functions a valid module defines.
pub fn check(module: &[u8]) -> Result<u64> {
    counted(|out, told| unsafe { sys::foshqarel_check(module.as_ptr(), module.len(), out.as_mut_ptr(), out.len(), told) })
}

/// The module that a text names, in its shortest spelling.
pub fn assemble(text: &[u8]) -> Result<Vec<u8>> {
    given(0, |out, told| unsafe { sys::foshqarel_assemble(text.as_ptr(), text.len(), out.as_mut_ptr(), out.len(), told) })
}

/// A text that names a valid module.
pub fn text(module: &[u8]) -> Result<Vec<u8>> {
    given(0, |out, told| unsafe { sys::foshqarel_text(module.as_ptr(), module.len(), out.as_mut_ptr(), out.len(), told) })
}

/// The world of no contracts and no cells.
pub fn new_world() -> Result<Vec<u8>> {
    given(0, |out, told| unsafe { sys::foshqarel_world_new(out.as_mut_ptr(), out.len(), told) })
}

/// A world with the contract that a module is behind its own.
pub fn extend(world: &[u8], module: &[u8]) -> Result<Vec<u8>> {
    given(world.len() + module.len() + 64, |out, told| unsafe {
        sys::foshqarel_world_extend(world.as_ptr(), world.len(), module.as_ptr(), module.len(), out.as_mut_ptr(), out.len(), told)
    })
}

/// SHA-256 of a world.
pub fn digest(world: &[u8]) -> Result<Vec<u8>> {
    given(32, |out, told| unsafe { sys::foshqarel_world_digest(world.as_ptr(), world.len(), out.as_mut_ptr(), out.len(), told) })
}

/// The cells of a world.
pub fn cells(world: &[u8]) -> Result<Vec<Cell>> {
    listed(|cells: &mut [Cell], out, told| unsafe {
        sys::foshqarel_world_cells(world.as_ptr(), world.len(), 0, cells.as_mut_ptr(), cells.len(), out.as_mut_ptr(), out.len(), told)
    })
}

/// What the cell of this contract, kind and key holds, where it is there. Kind 0 is a map, 1 a counter.
pub fn cell(world: &[u8], contract: u32, kind: u32, key: u64) -> Result<Option<u64>> {
    let mut cell = Cell { key, number: 0, contract, kind };
    let found = counted(|out, told| unsafe { sys::foshqarel_world_cell(world.as_ptr(), world.len(), &mut cell, out.as_mut_ptr(), out.len(), told) })?;
    Ok((found == 1).then_some(cell.number))
}

/// How many calls a text spells.
pub fn calls(text: &[u8]) -> Result<u64> {
    counted(|out, told| unsafe { sys::foshqarel_calls(text.as_ptr(), text.len(), out.as_mut_ptr(), out.len(), told) })
}

/// The block of the calls of a text over a world, in the list's order, with this fuel; and the world after it.
pub fn mine(world: &[u8], calls: &[u8], fuel: u64) -> Result<(Vec<u8>, Vec<u8>)> {
    let mut next = vec![0; world.len() + 4_096];
    loop {
        let mut next_size = 0;
        let mut is_short = false;
        let (told, mut block) = grown(65_536, |out, told| unsafe {
            let status = sys::foshqarel_mine(
                world.as_ptr(), world.len(), calls.as_ptr(), calls.len(), fuel, out.as_mut_ptr(), out.len(), next.as_mut_ptr(), next.len(), told,
            );
            next_size = told.next_size as usize;
            is_short = status == sys::SHORT && told.subject == 0 && next.len() < next_size;
            // a world that is too large for its buffer is mined once more, with a larger one
            if is_short { sys::DONE } else { status }
        })?;
        if is_short {
            next = vec![0; next_size];
            continue;
        }
        block.truncate(told.size as usize);
        next.truncate(next_size);
        return Ok((block, next));
    }
}

/// The world after a block of the calls of a text over a world, where the block is accepted.
pub fn verify(world: &[u8], calls: &[u8], fuel: u64, block: &[u8]) -> Result<Vec<u8>> {
    given(world.len() + 4_096, |out, told| unsafe {
        sys::foshqarel_verify(
            world.as_ptr(), world.len(), calls.as_ptr(), calls.len(), fuel, block.as_ptr(), block.len(), out.as_mut_ptr(), out.len(), told,
        )
    })
}

/// The receipts of a block, in its order. It is not verified.
pub fn receipts(block: &[u8]) -> Result<Vec<Receipt>> {
    listed(|receipts: &mut [Receipt], out, told| unsafe {
        sys::foshqarel_receipts(block.as_ptr(), block.len(), 0, receipts.as_mut_ptr(), receipts.len(), out.as_mut_ptr(), out.len(), told)
    })
}

/// What the call of this number of a text comes to alone over a world: its receipt, and the cells that it asked for.
pub fn call(world: &[u8], calls: &[u8], number: u32) -> Result<(Receipt, Vec<Change>)> {
    let mut receipt = Receipt::default();
    let changes = listed(|changes: &mut [Change], out, told| unsafe {
        sys::foshqarel_call(
            world.as_ptr(), world.len(), calls.as_ptr(), calls.len(), number, &mut receipt, changes.as_mut_ptr(), changes.len(), out.as_mut_ptr(),
            out.len(), told,
        )
    })?;
    Ok((receipt, changes))
}
