// The rows of opening: refresh_board alone, on boards of one kind.
use crate::boards::{same, Board};
use crate::library;
use crate::measure::{row, Side, Way};

/// The cells to open on each board, one call a cell.
type Calls = Vec<usize>;

struct Theirs<'a> {
    boards: &'a [(Board, Calls)],
    shown: Vec<Vec<Vec<i32>>>,
}

struct Ours<'a> {
    boards: &'a [(Board, Calls)],
    shown: Vec<Vec<u8>>,
    work: Vec<u16>,
    opened: u32,
}

impl Side for Theirs<'_> {
    fn prepare(&mut self) {
        self.shown = self.boards.iter().map(|(board, _)| board.closed()).collect();
    }

    fn play(&mut self) {
        for ((board, calls), shown) in self.boards.iter().zip(&mut self.shown) {
            for &cell in calls {
                let place = (cell / board.columns, cell % board.columns);
                original::utils::refresh_board(&board.theirs, shown, vec![place]);
            }
        }
    }
}

impl Side for Ours<'_> {
    fn prepare(&mut self) {
        self.shown = self.boards.iter().map(|(board, _)| vec![10; board.cells()]).collect();
        self.opened = 0;
    }

    fn play(&mut self) {
        for ((board, calls), shown) in self.boards.iter().zip(&mut self.shown) {
            for &cell in calls {
                self.opened += library::refresh_board(board, shown, &mut self.work, cell);
            }
        }
    }
}

/// The first cell of the largest opening.
fn largest(board: &Board) -> Calls {
    let mut best = (0, 0);
    let mut seen = board.closed();
    for cell in 0..board.cells() {
        let (row, column) = (cell / board.columns, cell % board.columns);
        if board.theirs[row][column] == 0 && seen[row][column] == 10 {
            let before = seen.iter().flatten().filter(|&&value| value == 10).count();
            original::utils::refresh_board(&board.theirs, &mut seen, vec![(row, column)]);
            let after = seen.iter().flatten().filter(|&&value| value == 10).count();
            if best.0 < before - after {
                best = (before - after, cell);
            }
        }
    }
    vec![best.1]
}

/// Every safe cell that is closed when its turn comes, in row order: the whole board.
fn every(board: &Board) -> Calls {
    let mut seen = board.closed();
    let mut calls = Vec::new();
    for cell in 0..board.cells() {
        let (row, column) = (cell / board.columns, cell % board.columns);
        if board.theirs[row][column] != -1 && seen[row][column] == 10 {
            original::utils::refresh_board(&board.theirs, &mut seen, vec![(row, column)]);
            calls.push(cell);
        }
    }
    calls
}

fn one(way: Way, name: &str, size: (usize, usize), mines: usize, calls: fn(&Board) -> Calls) {
    let count = if mines == 0 { 1 } else { 10 };
    let boards: Vec<(Board, Calls)> = (1..=count)
        .map(|seed| {
            let board = Board::new(size.0, size.1, mines, seed);
            let calls = calls(&board);
            (board, calls)
        })
        .collect();
    let mut theirs = Theirs { boards: &boards, shown: Vec::new() };
    let mut ours = Ours { boards: &boards, shown: Vec::new(), work: vec![0; 8 * size.0 * size.1 + 8], opened: 0 };
    row(way, &format!("opening, {} x {}, {name}", size.0, size.1), [&mut theirs, &mut ours]);
    assert!(theirs.shown.iter().zip(&ours.shown).all(|(theirs, ours)| same(theirs, ours)), "{name}: the boards differ");
    let open = ours.shown.iter().flatten().filter(|&&value| value <= 8).count();
    assert!(ours.opened as usize == open, "{name}: the counts differ");
    assert!(ours.work.iter().all(|&value| value == 0), "{name}: the work is not 0 again");
}

pub fn rows(way: Way) {
    one(way, "no mine", (16, 30), 0, largest);
    one(way, "20 mines, the largest opening", (16, 30), 20, largest);
    one(way, "99 mines, the largest opening", (16, 30), 99, largest);
    one(way, "99 mines, every safe cell", (16, 30), 99, every);
    one(way, "no mine", (64, 32), 0, largest);
    one(way, "85 mines, the largest opening", (64, 32), 85, largest);
    one(way, "422 mines, every safe cell", (64, 32), 422, every);
}
