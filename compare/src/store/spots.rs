//! Packing by a make.
use crate::plain::codes::Cell;
use crate::plain::spots::Make;

unsafe extern "C" {
    fn spot_pack(
        code: u32, bits: u32, cuts: *const u32, cuts_len: usize, number: u16, side: u32, hits: *const u64, hits_len: usize,
        cells: *mut Lent, cells_len: usize, scratch: *mut u64, scratch_len: usize, out: *mut u8, out_len: usize,
    ) -> u64;
}

/// A cell of the memory that is lent, in the layout of C.
#[repr(C)]
#[derive(Clone, Copy, PartialEq, Eq, Debug)]
pub struct Lent {
    x: u32,
    y: u32,
}

impl From<Cell> for Lent {
    fn from(cell: Cell) -> Lent {
        Lent { x: cell.x, y: cell.y }
    }
}

/// The memory that a sheet and its packing are lent.
#[derive(Clone)]
pub struct Memory {
    pub cells: Vec<Lent>,
    pub scratch: Vec<u64>,
}

/// Puts hits, each as one number, on a new sheet in the memory, and packs it. The bytes of the spot, or the refusal above
/// 2^63.
pub fn pack(make: &Make, side: u32, hits: &[u64], memory: &mut Memory, out: &mut [u8]) -> u64 {
    let (cuts, cells, scratch) = (&make.cuts, &mut memory.cells, &mut memory.scratch);
    unsafe {
        spot_pack(
            make.code, make.fixed, cuts.as_ptr(), cuts.len(), make.number, side, hits.as_ptr(), hits.len(),
            cells.as_mut_ptr(), cells.len(), scratch.as_mut_ptr(), scratch.len(), out.as_mut_ptr(), out.len(),
        )
    }
}
