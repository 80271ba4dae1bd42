//! The proved library through its exported functions. Nothing checks these declarations against the Rattle sources, so
//! they are few, and each is wrapped by a safe function at once.
pub mod lists;
pub mod spots;

use crate::plain::codes::{Cell, Code};

unsafe extern "C" {
    fn spot_ring_encode(side: u32, px: u32, py: u32, x: u32, y: u32) -> u64;
    fn spot_row_encode(side: u32, px: u32, py: u32, x: u32, y: u32) -> u64;
    fn spot_ring_decode(side: u32, px: u32, py: u32, number: u64) -> u64;
    fn spot_row_decode(side: u32, px: u32, py: u32, number: u64) -> u64;
    fn spot_ring_encode_each(side: u32, px: u32, py: u32, cells: *mut u64, len: usize);
    fn spot_row_encode_each(side: u32, px: u32, py: u32, cells: *mut u64, len: usize);
    fn spot_ring_decode_each(side: u32, px: u32, py: u32, numbers: *mut u64, len: usize);
    fn spot_row_decode_each(side: u32, px: u32, py: u32, numbers: *mut u64, len: usize);
}

/// What stands for no cell, and above which a refusal's number stands.
const NONE: u64 = u64::MAX;
const REFUSED: u64 = 1 << 63;

/// A cell as one number, the column in the upper half.
pub fn joined(cell: Cell) -> u64 {
    u64::from(cell.x) << 32 | u64::from(cell.y)
}

pub fn encode(code: Code, side: u32, parent: Cell, cell: Cell) -> Result<u64, u8> {
    let told = unsafe {
        match code {
            Code::Ring => spot_ring_encode(side, parent.x, parent.y, cell.x, cell.y),
            Code::Row => spot_row_encode(side, parent.x, parent.y, cell.x, cell.y),
        }
    };
    if told < REFUSED { Ok(told) } else { Err((told - REFUSED) as u8) }
}

pub fn decode(code: Code, side: u32, parent: Cell, number: u64) -> Option<Cell> {
    let told = unsafe {
        match code {
            Code::Ring => spot_ring_decode(side, parent.x, parent.y, number),
            Code::Row => spot_row_decode(side, parent.x, parent.y, number),
        }
    };
    (told != NONE).then_some(Cell { x: (told >> 32) as u32, y: told as u32 })
}

/// Puts the number of each cell in its place.
pub fn encode_each(code: Code, side: u32, parent: Cell, cells: &mut [u64]) {
    let (first, len) = (cells.as_mut_ptr(), cells.len());
    unsafe {
        match code {
            Code::Ring => spot_ring_encode_each(side, parent.x, parent.y, first, len),
            Code::Row => spot_row_encode_each(side, parent.x, parent.y, first, len),
        }
    }
}

/// Puts the cell of each number in its place.
pub fn decode_each(code: Code, side: u32, parent: Cell, numbers: &mut [u64]) {
    let (first, len) = (numbers.as_mut_ptr(), numbers.len());
    unsafe {
        match code {
            Code::Ring => spot_ring_decode_each(side, parent.x, parent.y, first, len),
            Code::Row => spot_row_decode_each(side, parent.x, parent.y, first, len),
        }
    }
}
