//! Cell codes of many cells.
use super::{best_of, report};
use crate::plain::codes::{self as plain, Cell, Code};
use crate::random::Random;
use crate::store;
use std::hint::black_box;

const ITEMS: usize = 1 << 16;
const ROUNDS: usize = 41;

pub fn run() {
    for (name, spread) in [("near the parent (rings to 64)", 64), ("anywhere on 1,048,576", 1 << 20)] {
        println!("{name}");
        for code in [Code::Ring, Code::Row] {
            codes(code, spread);
        }
    }
}

/// Encodes and decodes cells that lie about a parent in the middle of the largest grid.
fn codes(code: Code, spread: u64) {
    let side = plain::MOST_SIDE;
    let parent = Cell { x: side / 2, y: side / 2 };
    let mut random = Random::new(7);
    let mut near = || (u64::from(side / 2) + random.below(spread) - spread / 2) as u32;
    let cells: Vec<u64> = (0..ITEMS).map(|_| store::joined(Cell { x: near(), y: near() })).collect();
    let numbers: Vec<u64> = cells.iter().map(|&c| encode_one(code, side, parent, c)).collect();

    let encode = side_by_side(
        &cells,
        |items| store::encode_each(code, side, parent, items),
        |items| encode_each(code, side, parent, items),
    );
    report(&format!("  {code:?} encode"), encode);
    let decode = side_by_side(
        &numbers,
        |items| store::decode_each(code, side, parent, items),
        |items| decode_each(code, side, parent, items),
    );
    report(&format!("  {code:?} decode"), decode);
    if code == Code::Ring {
        let tuned = side_by_side(
            &numbers,
            |items| store::decode_each(code, side, parent, items),
            |items| tuned_decode_each(side, parent, items),
        );
        report("  Ring decode, plain tuned", tuned);
    }
}

fn encode_one(code: Code, side: u32, parent: Cell, cell: u64) -> u64 {
    let cell = Cell { x: (cell >> 32) as u32, y: cell as u32 };
    plain::encode(code, side, parent, cell).unwrap_or(u64::MAX)
}

#[inline(never)]
fn encode_each(code: Code, side: u32, parent: Cell, cells: &mut [u64]) {
    for item in cells {
        *item = encode_one(code, side, parent, *item);
    }
}

#[inline(never)]
fn decode_each(code: Code, side: u32, parent: Cell, numbers: &mut [u64]) {
    for item in numbers {
        *item = plain::decode(code, side, parent, *item).map_or(u64::MAX, store::joined);
    }
}

/// Ring decoding in plain Rust as fast as it was found to go: the root by floating point, the place without branches.
#[inline(never)]
fn tuned_decode_each(side: u32, parent: Cell, numbers: &mut [u64]) {
    for item in numbers {
        *item = tuned_decode(side, parent, *item).map_or(u64::MAX, store::joined);
    }
}

fn tuned_decode(side: u32, parent: Cell, number: u64) -> Option<Cell> {
    if side == 0 || side > plain::MOST_SIDE || !plain::on(side, parent) || number >= 1 << 42 {
        return None;
    }
    let number = number as i64;
    let mut root = (number as f64).sqrt() as i64;
    root -= i64::from(root * root > number);
    let d = (root + 1) / 2;
    let step = number - (2 * d - 1).max(0).pow(2);
    let dx = (3 * d - step).min(d).max(-d).max(step - 7 * d);
    let dy = (step - 5 * d).max(-d).min(d).max(d - step);
    let (x, y) = (i64::from(parent.x) + dx, i64::from(parent.y) + dy);
    let inside = |v: i64| (0..i64::from(side)).contains(&v);
    (inside(x) && inside(y)).then_some(Cell { x: x as u32, y: y as u32 })
}

/// The times of both sides over copies of the same items, after a test that they agree.
fn side_by_side(items: &[u64], store: impl Fn(&mut [u64]), plain: impl Fn(&mut [u64])) -> (f64, f64) {
    let (mut ours, mut theirs) = (items.to_vec(), items.to_vec());
    store(&mut ours);
    plain(&mut theirs);
    assert!(ours == theirs, "the two sides differ");
    let over = |copy: &mut [u64], work: &dyn Fn(&mut [u64])| {
        copy.copy_from_slice(items);
        work(black_box(copy));
    };
    best_of(ROUNDS, items.len(), || over(&mut ours, &store), || over(&mut theirs, &plain))
}
