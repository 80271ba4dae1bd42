//! Hits in shapes that are hard for selecting a middle.
use crate::plain::codes::Cell;
use crate::random::Random;

#[derive(Clone, Copy, PartialEq, Eq, Debug)]
pub enum Shape {
    Random,
    Sorted,
    Reversed,
    OneRow,
    OneCell,
    OrganPipe,
    FewValues,
    Clustered,
}

pub const SHAPES: [Shape; 8] = [
    Shape::Random, Shape::Sorted, Shape::Reversed, Shape::OneRow, Shape::OneCell, Shape::OrganPipe, Shape::FewValues,
    Shape::Clustered,
];

/// So many hits of a shape on a grid, which has a side of at least 1.
pub fn hits(shape: Shape, side: u32, count: usize, random: &mut Random) -> Vec<Cell> {
    let near = (side / 64).max(1);
    let mut centre = anywhere(side, random);
    let mut cells: Vec<Cell> = (0..count).map(|i| match shape {
        Shape::OneRow => Cell { x: below(side, random), y: side / 2 },
        Shape::OneCell => Cell { x: side / 2, y: side / 3 },
        Shape::FewValues => Cell { x: below(side.min(4), random), y: below(side.min(3), random) },
        Shape::Clustered => {
            if i % 100 == 0 {
                centre = anywhere(side, random);
            }
            let beside = |v: u32, random: &mut Random| (v + below(near, random)).min(side - 1);
            Cell { x: beside(centre.x, random), y: beside(centre.y, random) }
        }
        _ => anywhere(side, random),
    }).collect();
    match shape {
        Shape::Sorted => cells.sort_by_key(|cell| (cell.x, cell.y)),
        Shape::Reversed => cells.sort_by_key(|cell| std::cmp::Reverse((cell.x, cell.y))),
        Shape::OrganPipe => {
            cells.sort_by_key(|cell| (cell.x, cell.y));
            let (up, down): (Vec<_>, Vec<_>) = cells.iter().enumerate().partition(|(i, _)| i % 2 == 0);
            cells = up.into_iter().chain(down.into_iter().rev()).map(|(_, cell)| *cell).collect();
        }
        _ => (),
    }
    cells
}

fn anywhere(side: u32, random: &mut Random) -> Cell {
    Cell { x: below(side, random), y: below(side, random) }
}

fn below(bound: u32, random: &mut Random) -> u32 {
    random.below(u64::from(bound)) as u32
}
