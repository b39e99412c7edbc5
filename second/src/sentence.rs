//! A reason in words (02, Paper 6).

use crate::reasons::Reason;

/// The most bytes of a sentence, its newline among them.
pub const SENTENCE_BYTES: usize = 128;

/// A piece of a sentence.
enum Piece<'a> {
    Words(&'static str),
    Number(u32),
    /// Points with "-" between.
    Path(&'a [u16]),
}

use Piece::{Number, Path, Words};

fn put_number(text: &mut Vec<u8>, mut number: u32) {
    let mut digits = [0; 10];
    let mut first = digits.len();
    loop {
        first -= 1;
        digits[first] = b'0' + (number % 10) as u8;
        number /= 10;
        if number == 0 {
            return text.extend_from_slice(&digits[first..]);
        }
    }
}

fn put(text: &mut Vec<u8>, pieces: &[Piece]) {
    for piece in pieces {
        match piece {
            Words(words) => text.extend_from_slice(words.as_bytes()),
            Number(number) => put_number(text, *number),
            Path(points) => {
                for (at, &point) in points.iter().enumerate() {
                    put(text, &[Words(if at == 0 { "" } else { "-" }), Number(u32::from(point))]);
                }
            }
        }
    }
}

/// A point, and a saving, which is above 0 where it is told.
fn point(point: u16) -> Piece<'static> {
    Number(u32::from(point))
}

fn saved(saving: i64) -> Piece<'static> {
    Number(saving as u32)
}

/// What the sentence begins with.
fn put_reason(text: &mut Vec<u8>, reason: &Reason) {
    match *reason {
        Reason::Struck { edge: (u, v) } => put(text, &[Words("Struck edge "), Path(&[u, v])]),
        Reason::ThirdEdge { point: at } => put(text, &[Words("Third edge at "), point(at)]),
        Reason::Loop { ref points } => put(text, &[Words("Loop "), Path(points)]),
        Reason::Exchange { leg: (p, q), edge: (u, v), saving } => put(
            text,
            &[Words("Exchanging "), Path(&[p, q]), Words(" and "), Path(&[u, v]), Words(" saves "), saved(saving)],
        ),
        Reason::Move { point: at, edge: (u, v), saving } => put(
            text,
            &[
                Words("Moving "),
                point(at),
                Words(" between "),
                point(u),
                Words(" and "),
                point(v),
                Words(" saves "),
                saved(saving),
            ],
        ),
        Reason::Crossing { edge: (p, q), centres: (r, s), saving } => put(
            text,
            &[
                Words("Crossing "),
                Path(&[p, q]),
                Words(" with centres "),
                point(r),
                Words(" and "),
                point(s),
                Words(" saves "),
                saved(saving),
            ],
        ),
        Reason::Split { point: at } => put(text, &[Words("Further split at "), point(at)]),
        Reason::NewOrder { ref points, saving } => {
            put(text, &[Words("New order "), Path(points), Words(" saves "), saved(saving)])
        }
    }
}

/// What joins the reason to the pair.
fn verb(reason: &Reason) -> &'static str {
    match reason {
        Reason::Struck { .. } | Reason::ThirdEdge { .. } | Reason::Loop { .. } => " shuts out ",
        Reason::Exchange { .. } | Reason::Move { .. } => " and shuts out ",
        Reason::Split { .. } => " settles ",
        Reason::Crossing { .. } | Reason::NewOrder { .. } => " and settles ",
    }
}

/// Adds the sentence of the pair x, y at c, a line of its own.
pub fn put_sentence(text: &mut Vec<u8>, reason: &Reason, c: u16, (x, y): (u16, u16)) {
    put_reason(text, reason);
    put(
        text,
        &[Words(verb(reason)), point(x), Words(" and "), point(y), Words(" as neighbours of "), point(c), Words(".\n")],
    );
}
