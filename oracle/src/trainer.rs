// The trainer of document 02, from the request alone: the hint on a shown board, and what a row of calls prints, its score by the calls before it.

use crate::board::{neighbours, size_allowed};
use crate::picture::{last_board, SHOWN};

pub type Cell = (usize, usize);

/// A cell with its number's cell, or nothing to show; or the number of a refusal.
pub type Hint = Result<Option<(Cell, Cell)>, u16>;

const CLOSED: u8 = 10;
const FLAG: u8 = 11;

pub fn hint(rows: usize, columns: usize, shown: &[u8]) -> Hint {
    if !size_allowed(rows, columns) {
        return Err(20);
    }
    if shown.len() != rows * columns {
        return Err(21);
    }
    if !shown.iter().all(|&value| SHOWN.contains(&value.into())) {
        return Err(261);
    }
    let at = |(row, column): Cell| shown[row * columns + column];
    let around = |cell, value| neighbours(rows, columns, cell).filter(move |&near| at(near) == value);
    let justifies = |&cell: &Cell| (1..=8).contains(&at(cell)) && around(cell, FLAG).count() == usize::from(at(cell));
    let numbers = (0..rows * columns).map(|cell| (cell / columns, cell % columns)).filter(justifies);
    // Pairs are ordered by the cell and then by its number, both in row order.
    Ok(numbers.flat_map(|number| around(number, CLOSED).map(move |cell| (cell, number))).min())
}

/// What is printed of a book: the hint for its last shown board, or its refusal.
pub fn hint_of_book(bytes: &[u8]) -> String {
    match last_board(bytes) {
        Ok(board) => {
            let shown: Vec<u8> = board.iter().flatten().map(|&value| value as u8).collect();
            words(hint(board.len(), board[0].len(), &shown)) + "\n"
        }
        Err(refusal) => refusal,
    }
}

fn words(hint: Hint) -> String {
    match hint {
        Ok(Some(((row, column), (by_row, by_column)))) => format!("cell {row} {column} by {by_row} {by_column}"),
        Ok(None) => "nothing".into(),
        Err(number) => format!("refused {number}"),
    }
}

enum Call {
    Question(Hint),
    Report { pointer: Cell, opened: u16 },
}

impl Call {
    /// No hint from before it lives after it.
    fn ends_hints(&self) -> bool {
        match self {
            Call::Question(hint) => hint.is_ok(),
            Call::Report { opened, .. } => *opened > 0,
        }
    }

    fn follows(&self, hint: Cell) -> bool {
        matches!(self, Call::Report { pointer, .. } if *pointer == hint)
    }
}

/// What is printed of a practice: a line for each call, with the counts after it.
pub fn practice(bytes: &[u8]) -> String {
    let Some((start, mut rest)) = bytes.split_first_chunk::<4>() else {
        return "broken 0\n".into();
    };
    let [asked, followed] = [[start[0], start[1]], [start[2], start[3]]].map(u16::from_le_bytes);
    let mut calls = Vec::new();
    let mut lines = String::new();
    while !rest.is_empty() {
        let Some((call, after)) = first(rest) else {
            return lines + &format!("broken {}\n", bytes.len() - rest.len());
        };
        let said = match call {
            Call::Question(hint) => words(hint),
            Call::Report { .. } => "reported".into(),
        };
        calls.push(call);
        let asked = most(asked, calls.iter().filter(|call| matches!(call, Call::Question(Ok(_)))).count());
        lines += &format!("{said} {asked} {}\n", most(followed, followings(&calls)));
        rest = after;
    }
    lines
}

/// The first call, and the bytes after it; none where it is broken.
fn first(bytes: &[u8]) -> Option<(Call, &[u8])> {
    let (&[kind, row, column, low, high], rest) = bytes.split_first_chunk::<5>()?;
    let (row, column, number) = (row.into(), column.into(), u16::from_le_bytes([low, high]));
    match kind {
        0 => {
            let (shown, rest) = rest.split_at_checked(number.into())?;
            Some((Call::Question(hint(row, column, shown)), rest))
        }
        1 => Some((Call::Report { pointer: (row, column), opened: number }, rest)),
        _ => None,
    }
}

/// Hints whose next call that ends hints is a report at their cell.
fn followings(calls: &[Call]) -> usize {
    let followed = |(at, call): &(usize, &Call)| match call {
        Call::Question(Ok(Some((cell, _)))) => {
            calls[at + 1..].iter().find(|call| call.ends_hints()).is_some_and(|call| call.follows(*cell))
        }
        _ => false,
    };
    calls.iter().enumerate().filter(followed).count()
}

/// Both counts stop at 65,535.
fn most(start: u16, more: usize) -> usize {
    (usize::from(start) + more).min(65_535)
}
