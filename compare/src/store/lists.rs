//! Number lists by the widths of their piles.

/// Above it the number of a refusal stands.
pub const REFUSED: u64 = 1 << 63;

unsafe extern "C" {
    fn spot_list_write(
        bits: u32, cuts: *const u32, cuts_len: usize, numbers: *const u64, len: usize, out: *mut u8, out_len: usize,
    ) -> u64;
    fn spot_list_open(bits: u32, cuts: *const u32, cuts_len: usize, bytes: *const u8, len: usize, count: usize) -> u64;
    fn spot_list_read(
        bits: u32, cuts: *const u32, cuts_len: usize, bytes: *const u8, len: usize, count: usize, places: *mut u64,
        places_len: usize,
    ) -> u64;
}

/// The width of a fixed list and those of the cuts over it, the lowest first; also widths of which no pile is made.
#[derive(Clone, Debug)]
pub struct Widths {
    pub fixed: u32,
    pub cuts: Vec<u32>,
}

impl Widths {
    pub fn write(&self, numbers: &[u64], out: &mut [u8]) -> u64 {
        let cuts = &self.cuts;
        unsafe {
            spot_list_write(
                self.fixed, cuts.as_ptr(), cuts.len(), numbers.as_ptr(), numbers.len(), out.as_mut_ptr(), out.len(),
            )
        }
    }

    pub fn open(&self, bytes: &[u8], count: usize) -> u64 {
        let cuts = &self.cuts;
        unsafe { spot_list_open(self.fixed, cuts.as_ptr(), cuts.len(), bytes.as_ptr(), bytes.len(), count) }
    }

    /// Puts the number at each place in that place, up to the first refusal.
    pub fn read(&self, bytes: &[u8], count: usize, places: &mut [u64]) -> u64 {
        let cuts = &self.cuts;
        unsafe {
            spot_list_read(
                self.fixed, cuts.as_ptr(), cuts.len(), bytes.as_ptr(), bytes.len(), count, places.as_mut_ptr(),
                places.len(),
            )
        }
    }
}
