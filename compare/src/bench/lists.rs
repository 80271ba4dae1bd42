//! A number list as a packed spot is going to have it: cut 8 over cut 8 over a fixed list of 26 bits.
use super::{best_of, report};
use crate::plain::fast_lists as plain;
use crate::random::Random;
use crate::store::lists::Widths;

const COUNT: usize = 1 << 20;
const ROUNDS: usize = 15;

/// Writes, opens and reads 1,048,576 numbers that are shaped like ring codes of near cells: mostly small, each size of up
/// to 42 bits seven eighths as frequent as the size below it.
pub fn run() {
    println!("number lists, 8 over 8 over 26 (sizes fall off as those of near cells)");
    let mut random = Random::new(11);
    let numbers: Vec<u64> = (0..COUNT).map(|_| near(&mut random)).collect();
    let places: Vec<u64> = (0..COUNT).map(|_| random.below(COUNT as u64)).collect();
    let ours = Widths { fixed: 26, cuts: vec![8, 8] };
    let theirs = plain::Widths { top: 8, middle: 8, fixed: 26 };

    let (mut one, mut other) = (vec![0; 8 * COUNT], vec![0; 8 * COUNT]);
    let length = ours.write(&numbers, &mut one) as usize;
    assert!(Some(length) == plain::write(theirs, &numbers, &mut other) && one == other, "the two sides differ");
    report("  write", best_of(ROUNDS, COUNT, || ours.write(&numbers, &mut one), || plain::write(theirs, &numbers, &mut other)));

    let bytes = &one[..length];
    assert!(ours.open(bytes, COUNT) as usize == length && plain::open(theirs, bytes, COUNT) == Some(length), "the two sides differ");
    report("  open", best_of(ROUNDS, COUNT, || ours.open(bytes, COUNT), || plain::open(theirs, bytes, COUNT)));

    let (mut found, mut also) = (places.clone(), places.clone());
    let done = ours.read(bytes, COUNT, &mut found) == 0 && plain::read_each(theirs, bytes, COUNT, &mut also).is_some();
    assert!(done && found == also && places.iter().zip(&found).all(|(p, n)| numbers[*p as usize] == *n), "the two sides differ");
    let read_ours = || {
        found.copy_from_slice(&places);
        ours.read(bytes, COUNT, &mut found)
    };
    let read_theirs = || {
        also.copy_from_slice(&places);
        plain::read_each(theirs, bytes, COUNT, &mut also)
    };
    report("  read, any place", best_of(ROUNDS, COUNT, read_ours, read_theirs));
}

fn near(random: &mut Random) -> u64 {
    let size = (0..42).take_while(|_| random.below(8) > 0).count();
    if size == 0 { 0 } else { random.next() >> (64 - size) }
}
