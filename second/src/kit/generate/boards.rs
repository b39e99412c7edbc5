//! Instances: boards of points under all five rules, and free tables.

use crate::kit::generate::rng::Rng;
use crate::lengths::{edge_count, measure};
use crate::marks::PENDING;

/// Where a table comes from.
#[derive(Clone, Debug)]
pub struct Measured {
    pub rule: u32,
    pub coordinates: Vec<u32>,
}

#[derive(Clone, Debug)]
pub struct Board {
    pub n: u16,
    pub table: Vec<u32>,
    /// None for a free table.
    pub measured: Option<Measured>,
}

impl Board {
    pub fn from_points(rule: u32, coordinates: Vec<u32>) -> Board {
        let n = (coordinates.len() / 2) as u16;
        let mut table = vec![0; edge_count(n)];
        measure(u32::from(n), rule, &coordinates, &mut table).expect("a board within the limits");
        Board { n, table, measured: Some(Measured { rule, coordinates }) }
    }

    fn from_lengths(n: u16, mut length: impl FnMut() -> u32) -> Board {
        Board { n, table: (0..edge_count(n)).map(|_| length()).collect(), measured: None }
    }
}

/// A number of points from 4 to 180, mostly small.
fn size(rng: &mut Rng) -> u16 {
    let (low, high) = match rng.below(100) {
        0..=49 => (4, 9),
        50..=79 => (10, 20),
        80..=92 => (21, 60),
        _ => (61, 180),
    };
    rng.between(low, high) as u16
}

/// Any of the kinds of instance.
pub fn board(rng: &mut Rng) -> Board {
    match rng.below(10) {
        0 => tiny_grid(rng),
        1 => few_coordinates(rng),
        2 => grid(rng),
        3 => random_points(rng, 30),
        4 => random_points(rng, 1000),
        5 => random_points(rng, 1_000_000),
        6 => free_table(rng, 2_000_000),
        7 => {
            let most = rng.between(1, 6) as u32;
            free_table(rng, most)
        }
        8 => bent_table(rng),
        _ => corners(rng),
    }
}

pub fn rule(rng: &mut Rng) -> u32 {
    rng.between(1, 5) as u32
}

fn grid_points(rng: &mut Rng, width: usize, height: usize, step: u32) -> Board {
    let mut points: Vec<[u32; 2]> =
        (0..width * height).map(|i| [(i % width) as u32 * step, (i / width) as u32 * step]).collect();
    if rng.chance(50) {
        rng.shuffle(&mut points);
    }
    Board::from_points(rule(rng), points.concat())
}

/// 2 × 2 to 4 × 4.
fn tiny_grid(rng: &mut Rng) -> Board {
    let (width, height) = (rng.between(2, 4), rng.between(2, 4));
    let step = rng.pick(&[1, 1, 2, 3, 10, 100_000]);
    grid_points(rng, width, height, step)
}

/// Up to 180 points.
fn grid(rng: &mut Rng) -> Board {
    let width = rng.between(2, 13);
    let height = usize::from(size(rng)).div_ceil(width).max(2).min(180 / width);
    let step = rng.pick(&[1, 5, 10, 1000, 10_000]);
    grid_points(rng, width, height, step)
}

/// Coordinates of few values: ties and several points at one place.
fn few_coordinates(rng: &mut Rng) -> Board {
    let n = rng.between(4, 12);
    let most = rng.between(1, 4);
    let step = rng.pick(&[1, 7, 250_000]);
    let coordinates = (0..2 * n).map(|_| rng.between(0, most) as u32 * step).collect();
    Board::from_points(rule(rng), coordinates)
}

/// Few points at and next to the corners of the largest square.
fn corners(rng: &mut Rng) -> Board {
    let n = rng.between(4, 12);
    let coordinates = corner_coordinates(rng, n);
    Board::from_points(rule(rng), coordinates)
}

/// Coordinates of n points, mostly 0 and 1,000,000.
pub fn corner_coordinates(rng: &mut Rng, n: usize) -> Vec<u32> {
    (0..2 * n).map(|_| rng.pick(&[0, 0, 0, 1, 999_999, 1_000_000, 1_000_000, 1_000_000])).collect()
}

fn random_points(rng: &mut Rng, most: usize) -> Board {
    let n = size(rng);
    points_of(rng, n, most)
}

/// n points with coordinates from 0 to `most`.
pub fn points_of(rng: &mut Rng, n: u16, most: usize) -> Board {
    let coordinates = random_coordinates(rng, usize::from(n), most);
    Board::from_points(rule(rng), coordinates)
}

/// Coordinates of n points, from 0 to `most`.
pub fn random_coordinates(rng: &mut Rng, n: usize, most: usize) -> Vec<u32> {
    (0..2 * n).map(|_| rng.between(0, most) as u32).collect()
}

/// Free lengths from 0 to `most`.
fn free_table(rng: &mut Rng, most: u32) -> Board {
    let n = size(rng);
    Board::from_lengths(n, || rng.between(0, most as usize) as u32)
}

/// Measured lengths, each bent a little, so that the triangle inequality breaks here and there.
fn bent_table(rng: &mut Rng) -> Board {
    let board = random_points(rng, 200);
    let bend = rng.between(1, 40);
    let table = board.table.iter().map(|&l| l + rng.between(0, bend) as u32).collect();
    Board { table, measured: None, ..board }
}

/// A byte set in which each edge is open with the chance `per_hundred`.
pub fn random_marks(rng: &mut Rng, n: u16, per_hundred: usize) -> Vec<u8> {
    (0..edge_count(n)).map(|_| u8::from(rng.chance(per_hundred))).collect()
}

/// Makes marks pending with the chance `per_hundred`.
pub fn some_pending(rng: &mut Rng, bytes: &mut [u8], per_hundred: usize) {
    bytes.iter_mut().filter(|_| rng.chance(per_hundred)).for_each(|mark| *mark = PENDING);
}

/// A byte set in which an edge is open if one end is among the other's `near` nearest points.
pub fn near_marks(board: &Board, near: usize) -> Vec<u8> {
    let lengths = crate::lengths::Lengths::new(board.n, &board.table);
    let mut marks = vec![0; edge_count(board.n)];
    for a in 1..=board.n {
        let mut others: Vec<u16> = (1..=board.n).filter(|&b| b != a).collect();
        others.sort_by_key(|&b| lengths.between(a, b));
        for &b in others.iter().take(near) {
            marks[lengths.order.place(a, b)] = 1;
        }
    }
    marks
}
