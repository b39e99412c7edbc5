//! The search for tours that three exchanges cannot shorten, against all tours up to nine points and against all
//! exchanges of three edges up to thirty.

use second::kit::generate::boards::{self, Board};
use second::kit::generate::rng::Rng;
use second::kit::oracle::brute;
use second::kit::oracle::three_opt::{edges, length, search, shortened, MOST_POINTS};
use second::lengths::{edge_count, EdgeOrder, Lengths};

type Edge = (u16, u16);

/// Every tour once each way, from point 1 on.
fn all_tours(n: u16) -> Vec<Vec<u16>> {
    let mut tours = vec![vec![1]];
    for _ in 1..n {
        let longer = |tour: Vec<u16>| {
            let free: Vec<u16> = (1..=n).filter(|v| !tour.contains(v)).collect();
            free.into_iter().map(move |v| [&tour[..], &[v]].concat())
        };
        tours = tours.into_iter().flat_map(longer).collect();
    }
    tours
}

/// Paper 9's words: some shorter tour lacks at most three edges of this one.
fn shortened_by_some_tour(lengths: &Lengths, tours: &[Vec<u16>], tour: &[u16]) -> bool {
    let mut has = vec![false; edge_count(lengths.order.n)];
    edges(tour).for_each(|(a, b)| has[lengths.order.place(a, b)] = true);
    let lacks = |other: &[u16]| edges(other).filter(|&(a, b)| !has[lengths.order.place(a, b)]).count();
    let least = length(lengths, tour);
    tours.iter().any(|other| length(lengths, other) < least && lacks(other) <= 3)
}

/// Every choice of three.
fn threes(items: &[Edge]) -> Vec<[Edge; 3]> {
    let mut threes = Vec::new();
    for (i, &e) in items.iter().enumerate() {
        for (j, &f) in items.iter().enumerate().skip(i + 1) {
            threes.extend(items[j + 1..].iter().map(|&g| [e, f, g]));
        }
    }
    threes
}

/// Whether a walk along the edges, each used once, comes to as many different points.
fn is_tour(mut edges: Vec<Edge>) -> bool {
    let (n, mut at, mut points) = (edges.len(), 1, Vec::new());
    while let Some(i) = edges.iter().position(|&(a, b)| a == at || b == at) {
        let (a, b) = edges.swap_remove(i);
        at = a + b - at;
        points.push(at);
    }
    points.sort();
    points.dedup();
    points.len() == n && at == 1
}

/// Takes out any three edges and puts in any three between their ends, the same ones too.
fn shortened_by_some_exchange(lengths: &Lengths, tour: &[u16]) -> bool {
    let all: Vec<Edge> = edges(tour).collect();
    let sum = |three: &[Edge; 3]| three.iter().map(|&(a, b)| lengths.between(a, b)).sum::<i32>();
    threes(&all).iter().any(|taken| {
        let mut ends: Vec<u16> = taken.iter().flat_map(|&(a, b)| [a, b]).collect();
        ends.sort();
        ends.dedup();
        let between: Vec<Edge> = ends.iter().flat_map(|&a| ends.iter().map(move |&b| (a, b))).collect();
        let between: Vec<Edge> = between.into_iter().filter(|(a, b)| a < b).collect();
        let rest: Vec<Edge> = all.iter().filter(|edge| !taken.contains(edge)).copied().collect();
        let mut shorter = threes(&between).into_iter().filter(|put_in| sum(put_in) < sum(taken));
        shorter.any(|put_in| is_tour([&rest[..], &put_in].concat()))
    })
}

/// Boards of so many points at most.
fn some_boards(seed: u64, cases: u64, most: u16) -> impl Iterator<Item = (Rng, Board)> {
    let board = move |case| {
        let mut rng = Rng::new(seed, case);
        let board = boards::board(&mut rng);
        (rng, board)
    };
    (0..cases).map(board).filter(move |(_, board)| board.n <= most)
}

/// The search's own test answers as the words do, for every tour.
#[test]
fn all_tours_of_small_boards() {
    let mut seen = 0;
    for (_, board) in some_boards(21, 300, 7) {
        let (lengths, tours) = (Lengths::new(board.n, &board.table), all_tours(board.n));
        for tour in &tours {
            let own = shortened(&lengths, tour);
            assert_eq!(own.is_some(), shortened_by_some_tour(&lengths, &tours, tour), "{board:?} {tour:?}");
            assert!(own.is_none_or(|shorter| length(&lengths, &shorter) < length(&lengths, tour)));
        }
        seen += 1;
    }
    assert!(seen > 50, "only {seen} boards");
}

/// Shortest tours pass, and tours that are found are tours that no other one near them is shorter than.
#[test]
fn tours_found_on_boards_up_to_nine_points() {
    let (mut found, mut longer) = (0, 0);
    for (mut rng, board) in some_boards(22, 500, brute::MOST_POINTS) {
        let (lengths, tours) = (Lengths::new(board.n, &board.table), all_tours(board.n));
        let least = brute::Shortest::of(&lengths).length;
        for tour in tours.iter().filter(|tour| length(&lengths, tour) == least) {
            assert_eq!(shortened(&lengths, tour), None, "{board:?}");
        }
        for _ in 0..8 {
            let tour = search(&mut rng, &lengths);
            assert!(is_tour(edges(&tour).collect()) && tour.len() == usize::from(board.n), "{board:?} {tour:?}");
            assert!(!shortened_by_some_tour(&lengths, &tours, &tour), "{board:?} {tour:?}");
            found += 1;
            longer += u64::from(length(&lengths, &tour) > least);
        }
    }
    assert!(found > 400 && longer > 10, "{found} tours, {longer} of them not shortest");
}

/// No exchange of three edges shortens a tour that is found; one shortens each tour on the way to it.
#[test]
fn tours_found_on_boards_up_to_thirty_points() {
    let mut large = 0;
    for (mut rng, board) in some_boards(23, 60, MOST_POINTS) {
        let lengths = Lengths::new(board.n, &board.table);
        let mut tour: Vec<u16> = (1..=board.n).collect();
        rng.shuffle(&mut tour);
        while let Some(shorter) = shortened(&lengths, &tour) {
            assert!(shortened_by_some_exchange(&lengths, &tour), "{board:?} {tour:?}");
            tour = shorter;
        }
        assert!(!shortened_by_some_exchange(&lengths, &tour), "{board:?} {tour:?}");
        large += u64::from(board.n > 20);
    }
    assert!(large > 0, "no large board");
}

/// Four edges of 9 make a shorter tour than 1, 2, .., 12; no three do.
#[test]
fn a_tour_that_only_four_exchanges_shorten() {
    let (order, tour) = (EdgeOrder::new(12), (1..=12).collect::<Vec<u16>>());
    let mut table = [100; 66];
    edges(&tour).for_each(|(a, b)| table[order.place(a, b)] = 10);
    [(3, 10), (12, 7), (9, 4), (6, 1)].iter().for_each(|&(a, b)| table[order.place(a, b)] = 9);
    let lengths = Lengths::new(12, &table);
    assert_eq!((shortened(&lengths, &tour), length(&lengths, &tour)), (None, 120));
    assert_eq!(length(&lengths, &[1, 2, 3, 10, 11, 12, 7, 8, 9, 4, 5, 6]), 116);
}
