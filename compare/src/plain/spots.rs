//! The packed spot: hits on a sheet, arranged as a tree, and the bytes of the tree.
use super::codes::{self, Cell, Code, MOST_SIDE};
use super::lists::{Pile, Refusal};

/// The most hits of a sheet.
const MOST_HITS: usize = 1 << 20;
/// The fewest bits that a list must reach to hold any cell code.
const CODE_BITS: u32 = 42;
const TRAILER_BYTES: usize = 24;
const EDITION: u16 = 1;

/// How a spot is packed; also what no make is made of.
#[derive(Clone, Debug)]
pub struct Make {
    pub code: u32,
    pub fixed: u32,
    pub cuts: Vec<u32>,
    pub number: u16,
}

/// What the caller lends: places for hits, numbers of scratch.
#[derive(Clone, Copy, Debug)]
pub struct Loan {
    pub places: usize,
    pub scratch: usize,
}

/// A spot that was packed: its tree and its length in bytes.
#[derive(PartialEq, Eq, Debug)]
pub struct Packed {
    pub tree: Vec<Cell>,
    pub length: usize,
}

/// Puts hits on a new sheet and packs it at the front of the bytes, or tells the number of the first refusal.
pub fn pack(make: &Make, side: u32, hits: &[Cell], loan: Loan, out: &mut [u8]) -> Result<Packed, u8> {
    if side == 0 || side > MOST_SIDE {
        return Err(1);
    }
    let (code, pile) = opened(make)?;
    let mut tree = sheet(side, hits, loan.places)?;
    if loan.scratch < tree.len() {
        return Err(6);
    }
    arrange(&mut tree, |cell| (cell.x, cell.y), |cell| (cell.y, cell.x));
    let bytes = spot(code, &pile, make.number, side, &tree);
    out.get_mut(..bytes.len()).ok_or(5)?.copy_from_slice(&bytes);
    Ok(Packed { tree, length: bytes.len() })
}

/// The code and the list of a make.
fn opened(make: &Make) -> Result<(Code, Pile), u8> {
    let pile = Pile::new(make.fixed, &make.cuts).map_err(|refusal| if refusal == Refusal::Width { 10 } else { 11 })?;
    let code = match make.code {
        0 => Code::Ring,
        1 => Code::Row,
        _ => return Err(11),
    };
    if pile.reach() < CODE_BITS { Err(11) } else { Ok((code, pile)) }
}

/// The hits that a sheet with so many places holds after all are put.
fn sheet(side: u32, hits: &[Cell], places: usize) -> Result<Vec<Cell>, u8> {
    let mut held = Vec::new();
    for &hit in hits {
        if !codes::on(side, hit) {
            return Err(2);
        }
        if held.len() >= places.min(MOST_HITS) {
            return Err(3);
        }
        held.push(hit);
    }
    Ok(held)
}

/// The place of the middle hit of a part that is not empty.
fn middle<T>(part: &[T]) -> usize {
    (part.len() - 1) / 2
}

/// Sorts a part by one key, so that its middle hit is in place, and then both sides by the other key first.
fn arrange<K: Ord>(part: &mut [Cell], key: fn(&Cell) -> K, other: fn(&Cell) -> K) {
    if part.len() > 1 {
        part.sort_by_key(key);
        let (left, rest) = part.split_at_mut(middle(part));
        arrange(left, other, key);
        arrange(&mut rest[1..], other, key);
    }
}

/// The list of the codes, and then the trailer.
fn spot(code: Code, pile: &Pile, number: u16, side: u32, tree: &[Cell]) -> Vec<u8> {
    let root = if tree.is_empty() { Cell { x: 0, y: 0 } } else { tree[middle(tree)] };
    let mut numbers = Vec::new();
    put_codes(code, side, root, tree, &mut numbers);
    let mut bytes = vec![0; 10 * (tree.len() + 16)];
    let length = pile.write(&numbers, &mut bytes).expect("codes of 42 bits in a list that reaches them");
    bytes.truncate(length);
    for field in [length as u32, tree.len() as u32, root.x, root.y, side] {
        bytes.extend(field.to_le_bytes());
    }
    bytes.extend(number.to_le_bytes());
    bytes.extend(EDITION.to_le_bytes());
    assert!(bytes.len() == length + TRAILER_BYTES);
    bytes
}

/// The codes of a part in order of places.
fn put_codes(code: Code, side: u32, parent: Cell, part: &[Cell], numbers: &mut Vec<u64>) {
    if part.is_empty() {
        return;
    }
    let (left, rest) = part.split_at(middle(part));
    put_codes(code, side, rest[0], left, numbers);
    numbers.push(codes::encode(code, side, parent, rest[0]).expect("a hit lies on the grid"));
    put_codes(code, side, rest[0], &rest[1..], numbers);
}
