//! Packed spots: hits of all shapes by many makes, refusals, and one spot byte by byte.
use crate::plain::codes::Cell;
use crate::plain::spots::{self as plain, Loan, Make, Packed};
use crate::random::Random;
use crate::shapes::{SHAPES, hits};
use crate::store::joined;
use crate::store::lists::REFUSED;
use crate::store::spots::{Lent, Memory, pack};
use std::collections::BTreeSet;

const ROUNDS: u64 = 3_000;
const LARGE: usize = 100_000;
const SIDES: [u32; 5] = [1, 2, 3, 16, 1 << 20];
/// Bytes, places and scratch that are behind what is needed: they are kept.
const BEHIND: usize = 7;
const FILLED: u8 = 0xa5;

/// Compares, and tells how many operations agreed, or where one did not.
pub fn compare(random: &mut Random) -> Result<u64, String> {
    let mut run = Run { random, operations: 0, refusals: BTreeSet::new() };
    run.seven_hits()?;
    for round in 0..ROUNDS {
        let side = run.any_side(round);
        let count = run.any_count(round);
        run.shape(round as usize, side, count)?;
    }
    run.shape(0, 1 << 20, LARGE)?;
    for _ in 0..ROUNDS {
        run.refused()?;
    }
    run.every_refusal()?;
    Ok(run.operations)
}

struct Run<'a> {
    random: &'a mut Random,
    operations: u64,
    /// The numbers of the refusals that were met.
    refusals: BTreeSet<u8>,
}

impl Run<'_> {
    /// Hits of one shape: packed, refused for want of a byte, of scratch and of a place, and in another order.
    fn shape(&mut self, round: usize, side: u32, count: usize) -> Result<(), String> {
        let shape = SHAPES[round % SHAPES.len()];
        let make = self.any_make(round / SHAPES.len());
        let mut cells = hits(shape, side, count, self.random);
        let enough = Loan { places: count, scratch: count };
        let (first, length) = self.same(&make, side, &cells, enough, 10 * (count + 16))?;
        self.same(&make, side, &cells, enough, length)?;
        self.same(&make, side, &cells, enough, length - 1)?;
        if count > 0 {
            self.same(&make, side, &cells, Loan { places: count + BEHIND, scratch: count - 1 }, length + BEHIND)?;
            self.same(&make, side, &cells, Loan { places: count - 1, scratch: count }, length)?;
        }
        self.shuffle(&mut cells);
        let (second, _) = self.same(&make, side, &cells, Loan { places: count + BEHIND, scratch: count + BEHIND }, length + BEHIND)?;
        if first[..length] == second[..length] {
            return Ok(());
        }
        Err(format!("another order of {count} hits, {shape:?}, side {side}, {make:?}: other bytes"))
    }

    /// What is refused before packing: sides, widths, reaches, codes, and hits off the grid.
    fn refused(&mut self) -> Result<(), String> {
        let round = self.random.below(64);
        let (mut make, mut side) = (self.any_make(round as usize), self.any_side(round));
        let count = self.random.below(20) as usize;
        let mut cells = hits(SHAPES[0], side, count, self.random);
        for _ in 0..1 + self.random.below(2) {
            match self.random.below(6) {
                0 => side = self.random.pick(&[0, (1 << 20) + 1, u32::MAX]),
                1 => make.fixed = self.random.pick(&[0, 1, 41, 48, 49, u32::MAX]),
                2 => make.cuts.push(self.random.pick(&[0, 1, 16, 17, u32::MAX])),
                3 => make = Make { fixed: 33 + self.random.below(2) as u32, cuts: vec![8], ..make },
                4 => make.code = self.random.pick(&[2, 3, u32::MAX]),
                _ => {
                    let off = Cell { x: self.random.pick(&[0, side, u32::MAX]), y: self.random.pick(&[0, side, u32::MAX]) };
                    let at = self.random.below(count as u64 + 1) as usize;
                    cells.insert(at, off);
                }
            }
        }
        let places = self.random.below(40) as usize;
        let scratch = self.random.below(40) as usize;
        let room = self.random.below(200) as usize;
        self.same(&make, side, &cells, Loan { places, scratch }, room).map(|_| ())
    }

    /// Packs by both, into bytes and places that are filled before; the bytes and the length that the spot has.
    fn same(&mut self, make: &Make, side: u32, cells: &[Cell], loan: Loan, room: usize) -> Result<(Vec<u8>, usize), String> {
        let filler = Lent::from(Cell { x: u32::MAX, y: 7 });
        let mut memory = Memory { cells: vec![filler; loan.places], scratch: vec![3; loan.scratch] };
        let (mut ours, mut theirs) = (vec![FILLED; room], vec![FILLED; room]);
        let hits: Vec<u64> = cells.iter().map(|&cell| joined(cell)).collect();
        let told = pack(make, side, &hits, &mut memory, &mut ours);
        let plain = plain::pack(make, side, cells, loan, &mut theirs);
        self.operations += 1;
        let behind = memory.cells.iter().skip(cells.len()).all(|&cell| cell == filler);
        let agree = match &plain {
            Ok(Packed { tree, length }) => told == *length as u64 && same_cells(tree, &memory.cells),
            Err(number) => told == REFUSED + u64::from(*number),
        };
        if !(agree && behind && ours == theirs) {
            let (plain, few) = (plain.map(|packed| packed.length), &cells[..cells.len().min(40)]);
            return Err(format!("pack {make:?}, side {side}, {loan:?}, {room} bytes: {told:x}, plain {plain:?}, of {} hits, {few:?}", cells.len()));
        }
        match plain {
            Ok(Packed { length, .. }) => Ok((ours, length)),
            Err(number) => {
                self.refusals.insert(number);
                Ok((ours, 0))
            }
        }
    }

    /// Seven hits whose spot is known byte by byte, and the spot of no hit.
    fn seven_hits(&mut self) -> Result<(), String> {
        let make = Make { code: 0, fixed: 26, cuts: vec![8, 8], number: 1 };
        let cells = [(8, 6), (4, 7), (10, 3), (2, 11), (5, 3), (12, 8), (2, 5)].map(|(x, y)| Cell { x, y });
        let (bytes, length) = self.same(&make, 16, &cells, Loan { places: 7, scratch: 7 }, 100)?;
        let none = self.same(&make, 16, &[], Loan { places: 0, scratch: 0 }, 24)?;
        if bytes[..length] == SEVEN && none.1 == 24 && none.0[..] == NONE {
            return Ok(());
        }
        Err(format!("the spot of seven hits is {:x?}, and that of none {none:x?}", &bytes[..length]))
    }

    fn every_refusal(&self) -> Result<(), String> {
        match [1, 2, 3, 5, 6, 10, 11].iter().find(|number| !self.refusals.contains(number)) {
            Some(number) => Err(format!("nothing was refused with {number}: the comparison is too weak")),
            None => Ok(()),
        }
    }

    fn any_side(&mut self, round: u64) -> u32 {
        match SIDES.get(round as usize % 7) {
            Some(&side) => side,
            None => {
                let bits = 1 + self.random.below(20);
                1 + self.random.below(1 << bits) as u32
            }
        }
    }

    /// Mostly few hits, which tell apart the corner cases; now and then a few thousand.
    fn any_count(&mut self, round: u64) -> usize {
        let most = if round % 40 == 39 { 4_000 } else { self.random.pick(&[3, 9, 40, 300]) };
        self.random.below(most + 1) as usize
    }

    /// Each make of a list in turn, and then one of any widths that reach from 42 to 64 bits.
    fn any_make(&mut self, round: usize) -> Make {
        const MAKES: [(u32, u32, &[u32]); 9] = [
            (0, 26, &[8, 8]), (1, 42, &[]), (0, 48, &[]), (1, 45, &[]), (1, 30, &[12]), (0, 48, &[16]), (0, 20, &[6, 8, 8]),
            (0, 16, &[4, 6, 8, 16]), (1, 10, &[16, 12, 8, 8]),
        ];
        let number = self.random.next() as u16;
        match MAKES.get(round % (MAKES.len() + 3)) {
            Some(&(code, fixed, cuts)) => Make { code, fixed, cuts: cuts.to_vec(), number },
            None => {
                let cuts: Vec<u32> = (0..self.random.below(3)).map(|_| 1 + self.random.below(8) as u32).collect();
                let fixed = 42 - cuts.iter().sum::<u32>() + self.random.below(7) as u32;
                Make { code: self.random.below(2) as u32, fixed, cuts, number }
            }
        }
    }

    fn shuffle(&mut self, cells: &mut [Cell]) {
        for i in (1..cells.len()).rev() {
            cells.swap(i, self.random.below(i as u64 + 1) as usize);
        }
    }
}

/// Whether the front of the memory holds the tree.
fn same_cells(tree: &[Cell], memory: &[Lent]) -> bool {
    tree.len() <= memory.len() && tree.iter().zip(memory).all(|(&cell, &lent)| Lent::from(cell) == lent)
}

/// The trailer's numbers: the length of the list, the hits, the root, the side, and the make with the edition.
const SEVEN: [u8; 36] = [
    0x11, 0x4c, 0x4b, 0x00, 0x20, 0x19, 0x33, 0x00, 0, 0, 0, 0, //
    12, 0, 0, 0, 7, 0, 0, 0, 5, 0, 0, 0, 3, 0, 0, 0, 16, 0, 0, 0, 1, 0, 1, 0,
];

const NONE: [u8; 24] = [0, 0, 0, 0, 0, 0, 0, 0, 0, 0, 0, 0, 0, 0, 0, 0, 16, 0, 0, 0, 1, 0, 1, 0];
