//! "Say where in the line" (change K2): the first byte at which no good line could go on, by a table of states. From every state some good
//! line can still be reached, so that byte is the first that the table has no row for.

use crate::lists::{self, Line};
use crate::{at, claims, Refusal};

/// The forms of a line. An edge line and a claim line of numbers are both two identifiers with one space between.
#[derive(Clone, Copy, Debug, PartialEq, Eq)]
pub enum Form {
    Vertex,
    Pair,
    Coefficient,
}

/// What stands before the next byte of a line.
#[derive(Clone, Copy)]
enum State {
    /// Of the first or the second identifier: nothing, its `-`, a lone `0`, or a digit 1 to 9 and more.
    Ident(u8),
    Minus(u8),
    Zero(u8),
    Number(u8),
    /// Of a decimal: nothing, a lone `0`, or the digits so far; with its point; with a digit behind the point.
    Decimal,
    Nought,
    Whole(u8),
    Point(u8),
    Fraction(u8),
    /// Its `e`, the sign, one digit and two.
    Power,
    Sign,
    Tens,
    Ones,
    /// The line's LF.
    Ended,
}

/// One byte more. A digit may follow while the decimal has fewer than 17 before any `e`, and so may the point, which asks for one.
fn step(form: Form, state: State, byte: u8) -> Option<State> {
    use State::*;
    Some(match (state, byte) {
        (Ident(k), b'-') => Minus(k),
        (Ident(k), b'0') => Zero(k),
        (Ident(k) | Minus(k), b'1'..=b'9') => Number(k),
        (Number(k), b'0'..=b'9') => Number(k),
        (Zero(1) | Number(1), b' ') if form == Form::Pair => Ident(2),
        (Zero(1) | Number(1), b' ') if form == Form::Coefficient => Decimal,
        (Zero(1) | Number(1), b'\n') if form == Form::Vertex => Ended,
        (Zero(2) | Number(2), b'\n') => Ended,
        (Decimal, b'0') => Nought,
        (Decimal, b'1'..=b'9') => Whole(1),
        (Whole(n), b'0'..=b'9') if n < 17 => Whole(n + 1),
        (Nought, b'.') => Point(1),
        (Whole(n), b'.') if n < 17 => Point(n),
        (Point(n) | Fraction(n), b'0'..=b'9') if n < 17 => Fraction(n + 1),
        (Nought | Whole(_) | Fraction(_), b'e') => Power,
        (Power, b'+' | b'-') => Sign,
        (Sign, b'0'..=b'9') => Tens,
        (Tens, b'0'..=b'9') => Ones,
        (Nought | Whole(_) | Fraction(_) | Ones, b'\n') => Ended,
        _ => return None,
    })
}

/// The column of that byte, from 1; the end of the file counts as one more byte, which no good line has. 0 of a line of the right form.
pub fn column(form: Form, line: &Line) -> u64 {
    let mut state = State::Ident(1);
    let mut read = 0;
    for &byte in line.bytes.iter().chain(if line.ended { &b"\n"[..] } else { b"" }) {
        read += 1;
        match step(form, state, byte) {
            Some(next) => state = next,
            None => return read,
        }
    }
    if line.ended {
        0
    } else {
        read + 1
    }
}

/// The refusal at a line of a vertex, edge or claim file: 2 has a column, and no other.
pub fn refused(number: u64, file: u64, place: usize, form: Form, line: &Line) -> Refusal {
    Refusal { column: if number == 2 { column(form, line) } else { 0 }, ..at(number, file, place) }
}

/// What a line by itself is refused by, number and column; 0 and 0 of a good line.
pub fn fault(form: Form, line: &Line) -> (u64, u64) {
    let number = match form {
        Form::Vertex => lists::vertex_line(line).err(),
        Form::Pair => lists::edge_line(line).err(),
        Form::Coefficient => claims::coefficient_line(line).err(),
    };
    (number.unwrap_or(0), if number == Some(2) { column(form, line) } else { 0 })
}
