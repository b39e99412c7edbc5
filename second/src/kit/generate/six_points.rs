//! Six points on which a new order of a segment strikes an edge of a tour that three exchanges cannot shorten: it is
//! not shortest, and so it need not be kept (02, Paper 10).

use crate::kit::generate::boards::Board;
use crate::sheet::Record;

const COORDINATES: [u32; 12] = [16, 0, 13, 10, 16, 13, 0, 14, 2, 6, 9, 8];

/// The tour, 56 long; no exchange of at most three edges shortens it.
pub const TOUR: [u16; 6] = [1, 2, 3, 4, 5, 6];

/// The only shorter one, 55 long.
pub const SHORTEST: [u16; 6] = [1, 3, 2, 6, 4, 5];

/// Strikes 1-2: the splits at 3 and at 6 leave one pair each, and the path 4-3-2-1-6-5 that they make, 48 long, is 47
/// long in the order 4-6-2-3-1-5.
pub const SHEET: [Record; 7] = [
    [1, 1, 2, 0, 0, 3, 2, 0],
    [2, 2, 4, 0, 0, 6, 3, 0],
    [4, 1, 5, 4, 5, 0, 4, 0],
    [5, 6, 0, 0, 0, 0, 0, 5],
    [5, 2, 0, 0, 0, 0, 0, 6],
    [5, 3, 0, 0, 0, 0, 0, 7],
    [5, 1, 0, 0, 0, 0, 0, 0],
];

/// The board, by EUC_2D.
pub fn board() -> Board {
    Board::from_points(1, COORDINATES.to_vec())
}
