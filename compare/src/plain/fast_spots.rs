//! Arranging and packing written for speed, to time the proved packing against: the standard library's selection on the
//! straightforward recursion, ring codes, and the list written by words.
use super::codes::Cell;
use super::fast_lists::{self, Widths};


fn by_x(cell: &Cell) -> u64 {
    u64::from(cell.x) << 32 | u64::from(cell.y)
}

fn by_y(cell: &Cell) -> u64 {
    u64::from(cell.y) << 32 | u64::from(cell.x)
}

/// Puts hits, each as one number, into the cells, and packs them at the front of the bytes. None where a hit is off the
/// grid, or where there is too little of something.
#[inline(never)]
pub fn pack(widths: Widths, number: u16, side: u32, hits: &[u64], cells: &mut [Cell], scratch: &mut [u64], out: &mut [u8]) -> Option<usize> {
    let (tree, codes) = (cells.get_mut(..hits.len())?, scratch.get_mut(..hits.len())?);
    for (cell, &hit) in tree.iter_mut().zip(hits) {
        *cell = Cell { x: (hit >> 32) as u32, y: hit as u32 };
        if cell.x >= side || cell.y >= side {
            return None;
        }
    }
    arrange_x(tree);
    let root = *tree.get(tree.len().saturating_sub(1) / 2).unwrap_or(&Cell { x: 0, y: 0 });
    put_codes(root, tree, codes);
    let room = out.len().checked_sub(24)?;
    let length = fast_lists::write(widths, codes, &mut out[..room])?;
    let fields = [length as u32, tree.len() as u32, root.x, root.y, side, 1 << 16 | u32::from(number)];
    for (bytes, field) in out[length..].chunks_exact_mut(4).zip(fields) {
        bytes.copy_from_slice(&field.to_le_bytes());
    }
    Some(length + 24)
}

fn arrange_x(part: &mut [Cell]) {
    cut(part, by_x, arrange_y);
}

fn arrange_y(part: &mut [Cell]) {
    cut(part, by_y, arrange_x);
}

/// Brings the middle hit into its place, and then arranges both sides.
#[inline(always)]
fn cut(part: &mut [Cell], key: impl Fn(&Cell) -> u64, sides: fn(&mut [Cell])) {
    if part.len() < 2 {
        return;
    }
    let (left, _, right) = part.select_nth_unstable_by((part.len() - 1) / 2, |a, b| key(a).cmp(&key(b)));
    sides(left);
    sides(right);
}

fn put_codes(parent: Cell, part: &[Cell], codes: &mut [u64]) {
    if part.is_empty() {
        return;
    }
    let middle = (part.len() - 1) / 2;
    let cell = part[middle];
    codes[middle] = ring(i64::from(cell.x) - i64::from(parent.x), i64::from(cell.y) - i64::from(parent.y));
    put_codes(cell, &part[..middle], &mut codes[..middle]);
    put_codes(cell, &part[middle + 1..], &mut codes[middle + 1..]);
}

/// The number of a place on the square spiral around (0, 0).
fn ring(dx: i64, dy: i64) -> u64 {
    let d = dx.abs().max(dy.abs());
    if d == 0 {
        return 0;
    }
    let step = if dx == d && dy > -d {
        d - dy
    } else if dy == -d && dx > -d {
        3 * d - dx
    } else if dx == -d && dy < d {
        5 * d + dy
    } else {
        7 * d + dx
    };
    ((2 * d - 1) * (2 * d - 1) + step) as u64
}
