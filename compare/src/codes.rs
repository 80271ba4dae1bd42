//! Cell codes: every small case, and random and adversarial ones.
use crate::plain::codes::{self as plain, Cell, Code, MOST_SIDE};
use crate::random::Random;
use crate::store;

const BOTH: [Code; 2] = [Code::Ring, Code::Row];
const RANDOM_ROUNDS: u64 = 200_000;

/// Compares, and tells how many operations agreed, or where one did not.
pub fn compare(random: &mut Random) -> Result<u64, String> {
    Ok(small_grids()? + random_cells(random)? + random_numbers(random)?)
}

/// Each parent, cell and number of small grids, those just off them too.
fn small_grids() -> Result<u64, String> {
    let mut operations = 0;
    for code in BOTH {
        for side in 0..=6 {
            for parent in square(side + 1) {
                for cell in square(side + 1) {
                    same_encode(code, side, parent, cell)?;
                    operations += 1;
                }
                for number in 0..=200 {
                    same_decode(code, side, parent, number)?;
                    operations += 1;
                }
            }
        }
    }
    Ok(operations)
}

fn square(side: u32) -> impl Iterator<Item = Cell> {
    (0..side).flat_map(move |x| (0..side).map(move |y| Cell { x, y }))
}

/// Cells of any grid, most of them on it, there and back.
fn random_cells(random: &mut Random) -> Result<u64, String> {
    for _ in 0..RANDOM_ROUNDS {
        let code = random.pick(&BOTH);
        let side = any_side(random);
        let (parent, cell) = (any_cell(random, side), any_cell(random, side));
        same_encode(code, side, parent, cell)?;
        if let Ok(number) = plain::encode(code, side, parent, cell) {
            if store::decode(code, side, parent, number) != Some(cell) {
                return Err(format!("{code:?} {side} {parent:?}: {number} does not give back {cell:?}"));
            }
        }
    }
    Ok(2 * RANDOM_ROUNDS)
}

/// Numbers of any size, and those beside the first and the last of a ring.
fn random_numbers(random: &mut Random) -> Result<u64, String> {
    for _ in 0..RANDOM_ROUNDS {
        let code = random.pick(&BOTH);
        let side = any_side(random);
        let parent = any_cell(random, side);
        let number = match random.below(4) {
            0 => random.any(),
            1 => ((1 << 42) - 3 + random.below(6)).wrapping_add(random.pick(&[0, u64::MAX - (1 << 42)])),
            2 => random.below(u64::from(side.max(1)).pow(2) * 4 + 9),
            _ => {
                let root = random.any() >> 32;
                (root * root).wrapping_add(random.below(5)).wrapping_sub(2)
            }
        };
        same_decode(code, side, parent, number)?;
    }
    Ok(RANDOM_ROUNDS)
}

fn same_encode(code: Code, side: u32, parent: Cell, cell: Cell) -> Result<(), String> {
    let (ours, theirs) = (store::encode(code, side, parent, cell), plain::encode(code, side, parent, cell));
    if ours == theirs { Ok(()) } else { Err(format!("encode {code:?} {side} {parent:?} {cell:?}: {ours:?}, plain {theirs:?}")) }
}

fn same_decode(code: Code, side: u32, parent: Cell, number: u64) -> Result<(), String> {
    let (ours, theirs) = (store::decode(code, side, parent, number), plain::decode(code, side, parent, number));
    if ours == theirs { Ok(()) } else { Err(format!("decode {code:?} {side} {parent:?} {number}: {ours:?}, plain {theirs:?}")) }
}

fn any_side(random: &mut Random) -> u32 {
    match random.below(4) {
        0 => random.pick(&[0, 1, 2, 3, 16, MOST_SIDE - 1, MOST_SIDE, MOST_SIDE + 1, u32::MAX]),
        _ => 1 + (random.any() % u64::from(MOST_SIDE)) as u32,
    }
}

/// A cell that mostly lies on the grid, often at its edge.
fn any_cell(random: &mut Random, side: u32) -> Cell {
    let mut coordinate = || match random.below(16) {
        0 => 0,
        1 => side.wrapping_sub(1),
        2 => side,
        3 => random.next() as u32,
        _ => (random.next() % u64::from(side.max(1))) as u32,
    };
    Cell { x: coordinate(), y: coordinate() }
}
