//! Grids, cells and cell codes.

/// The longest side of a grid.
pub const MOST_SIDE: u32 = 1 << 20;

#[derive(Clone, Copy, PartialEq, Eq, Debug)]
pub struct Cell {
    pub x: u32,
    pub y: u32,
}

pub fn on(side: u32, cell: Cell) -> bool {
    cell.x < side && cell.y < side
}

#[derive(Clone, Copy, PartialEq, Eq, Debug)]
pub enum Code {
    Ring,
    Row,
}

/// The number of a cell from a parent, or the refusal's number.
pub fn encode(code: Code, side: u32, parent: Cell, cell: Cell) -> Result<u64, u8> {
    if side == 0 || side > MOST_SIDE {
        return Err(1);
    }
    if !on(side, parent) || !on(side, cell) {
        return Err(2);
    }
    Ok(match code {
        Code::Row => u64::from(cell.y) * u64::from(side) + u64::from(cell.x),
        Code::Ring => ring(i64::from(cell.x) - i64::from(parent.x), i64::from(cell.y) - i64::from(parent.y)),
    })
}

/// The cell of a number from a parent, if there is one.
pub fn decode(code: Code, side: u32, parent: Cell, number: u64) -> Option<Cell> {
    if side == 0 || side > MOST_SIDE || !on(side, parent) {
        return None;
    }
    let (x, y) = match code {
        Code::Row => ((number % u64::from(side)) as i64, i64::try_from(number / u64::from(side)).ok()?),
        Code::Ring => {
            if number >= 1 << 62 {
                return None;
            }
            let (dx, dy) = unring(number as i64);
            (i64::from(parent.x) + dx, i64::from(parent.y) + dy)
        }
    };
    let inside = |v: i64| (0..i64::from(side)).contains(&v);
    (inside(x) && inside(y)).then_some(Cell { x: x as u32, y: y as u32 })
}

/// The number of a place on the square spiral around (0, 0).
fn ring(dx: i64, dy: i64) -> u64 {
    let d = dx.abs().max(dy.abs());
    if d == 0 {
        return 0;
    }
    let step = if dx == d && dy > -d {
        d - dy
    } else if dy == -d && dx > -d {
        3 * d - dx
    } else if dx == -d && dy < d {
        5 * d + dy
    } else {
        7 * d + dx
    };
    ((2 * d - 1) * (2 * d - 1) + step) as u64
}

/// The place of a number on the square spiral.
fn unring(number: i64) -> (i64, i64) {
    if number == 0 {
        return (0, 0);
    }
    let d = (root(number) + 1) / 2;
    let step = number - (2 * d - 1) * (2 * d - 1);
    let along = step % (2 * d);
    match step / (2 * d) {
        0 => (d, d - along),
        1 => (d - along, -d),
        2 => (-d, along - d),
        _ => (along - d, d),
    }
}

/// The whole square root.
fn root(number: i64) -> i64 {
    let mut root = (number as f64).sqrt() as i64;
    while root * root > number {
        root -= 1;
    }
    while (root + 1) * (root + 1) <= number {
        root += 1;
    }
    root
}
