//! Packing whole sheets: hits put, arranged, coded and written by cut 8 over cut 8 over a fixed list of 26 bits.
use super::{best_of, report};
use crate::plain::codes::Cell;
use crate::plain::fast_lists::Widths;
use crate::plain::fast_spots as plain;
use crate::plain::spots::Make;
use crate::random::Random;
use crate::shapes::{Shape, hits};
use crate::store::joined;
use crate::store::spots::{Lent, Memory, pack};

const SIDE: u32 = 1 << 20;
const MOST: usize = 1 << 20;

/// Random hits of three numbers, and other shapes of the largest; these also beside our own time of random hits.
pub fn run() {
    println!("packing, ns a hit");
    let mut random = 0.0;
    for (count, rounds) in [(1 << 10, 301), (1 << 16, 21), (MOST, 7)] {
        random = shape(Shape::Random, count, rounds);
    }
    for other in [Shape::OneCell, Shape::OneRow, Shape::Sorted, Shape::Reversed, Shape::OrganPipe, Shape::FewValues] {
        let time = shape(other, MOST, 5);
        println!("{:<28} {:>10} {:>10} {:>7.2}", "    beside random hits", "", "", time / random);
    }
}

/// The time of the store for hits of a shape, reported beside that of plain Rust.
fn shape(shape: Shape, count: usize, rounds: usize) -> f64 {
    let cells = hits(shape, SIDE, count, &mut Random::new(5));
    let hits: Vec<u64> = cells.iter().map(|&cell| joined(cell)).collect();
    let make = Make { code: 0, fixed: 26, cuts: vec![8, 8], number: 1 };
    let widths = Widths { top: 8, middle: 8, fixed: 26 };
    let none = Cell { x: 0, y: 0 };
    let mut memory = Memory { cells: vec![Lent::from(none); count], scratch: vec![0; count] };
    let (mut lent, mut scratch) = (vec![none; count], vec![0; count]);
    let (mut one, mut other) = (vec![0; 8 * count + 64], vec![0; 8 * count + 64]);

    let length = pack(&make, SIDE, &hits, &mut memory, &mut one) as usize;
    let also = plain::pack(widths, 1, SIDE, &hits, &mut lent, &mut scratch, &mut other);
    assert!(also == Some(length) && one == other, "the two sides differ");
    let ours = || pack(&make, SIDE, &hits, &mut memory, &mut one);
    let theirs = || plain::pack(widths, 1, SIDE, &hits, &mut lent, &mut scratch, &mut other);
    let times = best_of(rounds, count, ours, theirs);
    report(&format!("  {shape:?}, {count}"), times);
    times.0
}
