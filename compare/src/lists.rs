//! Number lists: piles of all kinds, there and back, and damaged bytes.
use crate::plain::lists::{MOST_CUTS, MOST_NUMBERS, Pile, Refusal};
use crate::random::Random;
use crate::store::lists::{REFUSED, Widths};
use std::collections::BTreeSet;

const ROUNDS: u64 = 20_000;
const DAMAGED_ROUNDS: u64 = 800;
const COUNTS: [usize; 8] = [0, 1, 2, 255, 256, 257, 511, 512];

/// Compares, and tells how many operations agreed, or where one did not.
pub fn compare(random: &mut Random) -> Result<u64, String> {
    let mut run = Run { random, operations: 0, faults: BTreeSet::new() };
    for _ in 0..ROUNDS {
        run.there_and_back()?;
    }
    for round in 0..DAMAGED_ROUNDS {
        let cuts = round as usize % (MOST_CUTS + 1);
        run.damaged(cuts)?;
    }
    run.largest()?;
    run.every_test()?;
    Ok(run.operations)
}

struct Run<'a> {
    random: &'a mut Random,
    operations: u64,
    /// The levels and tests at which bytes of a pile of three cuts failed.
    faults: BTreeSet<(u64, u64)>,
}

impl Run<'_> {
    /// Any pile, any numbers: writing into bytes of several lengths, and the string opened and read.
    fn there_and_back(&mut self) -> Result<(), String> {
        let widths = self.any_widths();
        let reach = Pile::new(widths.fixed, &widths.cuts).map_or(40, |pile| pile.reach());
        let count = if self.random.below(4) == 0 { self.random.pick(&COUNTS) } else { self.random.below(700) as usize };
        let numbers = self.numbers(reach, count);
        let length = self.length(&widths, &numbers);
        for room in [length, length.saturating_sub(1), length + self.random.below(9) as usize, 0] {
            self.same_write(&widths, &numbers, room)?;
        }
        let mut bytes = vec![0; length];
        widths.write(&numbers, &mut bytes);
        bytes.extend(self.noise(9));
        let other = self.random.pick(&[count + 1, count.saturating_sub(1), MOST_NUMBERS, MOST_NUMBERS + 1, usize::MAX]);
        for count in [count, other] {
            self.same_open(&widths, &bytes, count)?;
            self.same_read(&widths, &bytes, count)?;
        }
        Ok(())
    }

    /// A small string with each bit turned, each number of bytes left out, and bytes exchanged.
    fn damaged(&mut self, cuts: usize) -> Result<(), String> {
        let widths = self.narrow_widths(cuts);
        let reach = widths.fixed + widths.cuts.iter().sum::<u32>();
        let count = self.random.pick(&[1, 3, 7, 8, 13, 21, 257]);
        let numbers = self.numbers(reach.min(64), count);
        let mut bytes = vec![0; self.length(&widths, &numbers)];
        widths.write(&numbers, &mut bytes);
        let bits = 8 * bytes.len();
        for bit in (0..bits).step_by(1 + bits / 500) {
            bytes[bit / 8] ^= 1 << (bit % 8);
            self.same_bytes(&widths, &bytes, count)?;
            bytes[bit / 8] ^= 1 << (bit % 8);
        }
        for length in (0..bytes.len()).step_by(1 + bytes.len() / 100) {
            self.same_bytes(&widths, &bytes[..length], count)?;
        }
        for _ in 0..40 {
            let mut edited = bytes.clone();
            edited.extend(self.noise(4));
            for _ in 0..1 + self.random.below(4) {
                let at = self.random.below(edited.len().max(1) as u64) as usize;
                edited.get_mut(at).into_iter().for_each(|byte| *byte = self.random.next() as u8);
            }
            self.same_bytes(&widths, &edited, count)?;
        }
        Ok(())
    }

    /// As many numbers as there may be, and one more.
    fn largest(&mut self) -> Result<(), String> {
        let widths = Widths { fixed: 26, cuts: vec![8, 8] };
        let numbers = self.numbers(42, MOST_NUMBERS + 1);
        let length = self.length(&widths, &numbers[1..]);
        self.same_write(&widths, &numbers, 2 * length)?;
        self.same_write(&widths, &numbers[1..], length)?;
        let mut bytes = vec![0; length];
        widths.write(&numbers[1..], &mut bytes);
        self.same_open(&widths, &bytes, MOST_NUMBERS)?;
        self.same_read(&widths, &bytes, MOST_NUMBERS)
    }

    /// Every test failed at every level of a pile of three cuts; a fixed list has the first two tests only.
    fn every_test(&self) -> Result<(), String> {
        let cuts = (0..3).flat_map(|level| (1..=4).map(move |test| (level, test)));
        match cuts.chain([(3, 1), (3, 2)]).find(|fault| !self.faults.contains(fault)) {
            Some((level, test)) => Err(format!("no bytes failed test {test} of level {level}: the comparison is too weak")),
            None => Ok(()),
        }
    }

    /// Opening and reading bytes that may be no string.
    fn same_bytes(&mut self, widths: &Widths, bytes: &[u8], count: usize) -> Result<(), String> {
        self.same_open(widths, bytes, count)?;
        self.same_read(widths, bytes, count)
    }

    fn same_write(&mut self, widths: &Widths, numbers: &[u64], room: usize) -> Result<(), String> {
        let mut ours = self.noise(room);
        ours.resize(room, 0xa5);
        let mut theirs = ours.clone();
        let told = widths.write(numbers, &mut ours);
        let pile = Pile::new(widths.fixed, &widths.cuts);
        let plain = told_of(pile.and_then(|pile| pile.write(numbers, &mut theirs)));
        self.operations += 1;
        if told == plain && ours == theirs {
            return Ok(());
        }
        Err(format!("write {widths:?} into {room} bytes: {told:x}, plain {plain:x}, of {numbers:?}"))
    }

    fn same_open(&mut self, widths: &Widths, bytes: &[u8], count: usize) -> Result<(), String> {
        let told = widths.open(bytes, count);
        let plain = Pile::new(widths.fixed, &widths.cuts).and_then(|pile| pile.open(bytes, count));
        if let (Err(Refusal::Faulty { level, test }), 3) = (&plain, widths.cuts.len()) {
            self.faults.insert((*level, *test));
        }
        let plain = told_of(plain.map(|(length, _)| length));
        self.operations += 1;
        if told == plain { Ok(()) } else { Err(format!("open {widths:?} {count}: {told:x}, plain {plain:x}, of {bytes:?}")) }
    }

    /// Accepted bytes give the numbers of the plain list; others a number or a fault, which is no fault of this test.
    fn same_read(&mut self, widths: &Widths, bytes: &[u8], count: usize) -> Result<(), String> {
        let places = self.places(count);
        let mut found = places.clone();
        let told = widths.read(bytes, count, &mut found);
        self.operations += places.len() as u64;
        let fine = match Pile::new(widths.fixed, &widths.cuts).and_then(|pile| pile.open(bytes, count)) {
            Ok((_, numbers)) => (told, found) == read_each(&numbers, places),
            Err(Refusal::Faulty { .. }) => told == 0 || told == told_of(Err(Refusal::Range)) || is_fault(told, widths),
            Err(refusal) => told == told_of(Err(refusal)) && found == places,
        };
        if fine { Ok(()) } else { Err(format!("read {widths:?} {count}: {told:x}, of {bytes:?}")) }
    }

    /// Places of which most are below the count; now and then one is not.
    fn places(&mut self, count: usize) -> Vec<u64> {
        let mut places: Vec<u64> = (0..40).map(|_| self.random.below(count.max(1) as u64)).collect();
        if self.random.below(8) == 0 {
            let at = self.random.below(40) as usize;
            places[at] = self.random.pick(&[count as u64, count as u64 + 1, 1 << 32, u64::MAX]);
        }
        places
    }

    /// The length of the string; some number where there is none.
    fn length(&self, widths: &Widths, numbers: &[u64]) -> usize {
        let mut room = vec![0; (numbers.len() + 16) * 8];
        let pile = Pile::new(widths.fixed, &widths.cuts);
        pile.and_then(|pile| pile.write(numbers, &mut room)).unwrap_or(numbers.len())
    }

    /// Numbers of each size up to the reach alike; in a few lists one number is too large.
    fn numbers(&mut self, reach: u32, count: usize) -> Vec<u64> {
        let mut number = || match self.random.below(u64::from(reach) + 1) {
            0 => 0,
            bits => self.random.next() >> (64 - bits),
        };
        let mut numbers: Vec<u64> = (0..count).map(|_| number()).collect();
        if reach < 64 && count > 0 && count < MOST_NUMBERS && self.random.below(16) == 0 {
            let at = self.random.below(count as u64) as usize;
            numbers[at] = self.random.pick(&[1 << reach, u64::MAX]);
        }
        numbers
    }

    /// Up to so many bytes of any value.
    fn noise(&mut self, most: usize) -> Vec<u8> {
        (0..self.random.below(most as u64 + 1)).map(|_| self.random.next() as u8).collect()
    }

    /// Mostly widths of which a pile is made.
    fn any_widths(&mut self) -> Widths {
        let cuts = if self.random.below(16) == 0 { 5 } else { self.random.below(5) as usize };
        let mut widths = self.narrow_widths(cuts);
        match self.random.below(12) {
            0 => widths.fixed = self.random.pick(&[0, 1, 47, 48, 49, u32::MAX]),
            1 if cuts > 0 => {
                let at = self.random.below(cuts as u64) as usize;
                widths.cuts[at] = self.random.pick(&[0, 1, 16, 17, u32::MAX]);
            }
            2 => widths.fixed = 1 + self.random.below(48) as u32,
            _ => (),
        }
        widths
    }

    fn narrow_widths(&mut self, cuts: usize) -> Widths {
        let fixed = 1 + self.random.below(30) as u32;
        Widths { fixed, cuts: (0..cuts).map(|_| 1 + self.random.below(8) as u32).collect() }
    }
}

/// An answer in one number, as the exported functions tell it.
fn told_of(answer: Result<usize, Refusal>) -> u64 {
    match answer {
        Ok(length) => length as u64,
        Err(Refusal::NoRoom) => REFUSED + 5,
        Err(Refusal::Width) => REFUSED + 10,
        Err(Refusal::Range) => REFUSED + 11,
        Err(Refusal::Faulty { level, test }) => REFUSED + 13 + 256 * test + 65_536 * level,
    }
}

/// Whether an answer is a fault of a level that the pile has.
fn is_fault(told: u64, widths: &Widths) -> bool {
    let levels = 0..=widths.cuts.len() as u64;
    levels.flat_map(|level| (1..=4).map(move |test| (level, test))).any(|(level, test)| told == told_of(Err(Refusal::Faulty { level, test })))
}

/// The numbers at places, up to the first that is none.
fn read_each(numbers: &[u64], mut places: Vec<u64>) -> (u64, Vec<u64>) {
    for place in &mut places {
        match numbers.get(*place as usize) {
            Some(number) => *place = *number,
            None => return (told_of(Err(Refusal::Range)), places),
        }
    }
    (0, places)
}
