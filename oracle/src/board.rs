// What the papers say of boards beside the game: sizes, modes, numbering, the 3BV total, and what is left to solve of it.

pub const LARGEST_SIDE: usize = 64;
pub const MOST_CELLS: usize = 2048;

/// A board's cells: -1 for a mine, else its count of mine neighbours.
pub type Rows = Vec<Vec<i32>>;

pub fn size_allowed(rows: usize, columns: usize) -> bool {
    let side = 1..=LARGEST_SIDE;
    side.contains(&rows) && side.contains(&columns) && rows * columns <= MOST_CELLS
}

pub fn mode_allowed(mode: u16) -> bool {
    matches!(mode, 0..=5 | 11..=16)
}

pub fn rules_allowed(rules: u8) -> bool {
    rules == 1 || rules == 2
}

/// The cells around a cell, in row order.
pub fn neighbours(rows: usize, columns: usize, (row, column): (usize, usize)) -> impl Iterator<Item = (usize, usize)> {
    let down = row.saturating_sub(1)..=(row + 1).min(rows - 1);
    let across = column.saturating_sub(1)..=(column + 1).min(columns - 1);
    down.flat_map(move |i| across.clone().map(move |j| (i, j))).filter(move |&near| near != (row, column))
}

pub fn numbered(rows: usize, columns: usize, mines: &[(usize, usize)]) -> Rows {
    let mut board = vec![vec![0; columns]; rows];
    for &(row, column) in mines {
        board[row][column] = -1;
    }
    for &mine in mines {
        for (i, j) in neighbours(rows, columns, mine) {
            if board[i][j] >= 0 {
                board[i][j] += 1;
            }
        }
    }
    board
}

/// 3BV total: openings plus numbers without a 0 neighbour.
pub fn total(board: &Rows) -> usize {
    openings(board).len() + lone_numbers(board).count()
}

/// Left to solve: openings with at least one 0 cell not open, plus numbers without a 0 neighbour not open. Open cells show 0 to 8.
pub fn left_to_solve(board: &Rows, shown: &Rows) -> usize {
    let not_open = |&(row, column): &(usize, usize)| !(0..=8).contains(&shown[row][column]);
    let openings = openings(board).iter().filter(|zeros| zeros.iter().any(not_open)).count();
    openings + lone_numbers(board).filter(not_open).count()
}

fn lone_numbers(board: &Rows) -> impl Iterator<Item = (usize, usize)> + '_ {
    let (rows, columns) = (board.len(), board[0].len());
    let lone = move |cell| neighbours(rows, columns, cell).all(|(i, j)| board[i][j] != 0);
    cells(board).filter(move |&(row, column)| board[row][column] > 0 && lone((row, column)))
}

/// The 0 cells of each opening.
fn openings(board: &Rows) -> Vec<Vec<(usize, usize)>> {
    let mut seen = vec![vec![false; board[0].len()]; board.len()];
    let mut openings = Vec::new();
    for (row, column) in cells(board) {
        if board[row][column] == 0 && !seen[row][column] {
            openings.push(flood(board, &mut seen, (row, column)));
        }
    }
    openings
}

/// The 0 cells joined to this one over eight neighbours, which are then seen.
fn flood(board: &Rows, seen: &mut [Vec<bool>], start: (usize, usize)) -> Vec<(usize, usize)> {
    seen[start.0][start.1] = true;
    let mut zeros = vec![start];
    let mut next = 0;
    while next < zeros.len() {
        for (i, j) in neighbours(board.len(), board[0].len(), zeros[next]) {
            if board[i][j] == 0 && !seen[i][j] {
                seen[i][j] = true;
                zeros.push((i, j));
            }
        }
        next += 1;
    }
    zeros
}

fn cells(board: &Rows) -> impl Iterator<Item = (usize, usize)> {
    let (rows, columns) = (board.len(), board[0].len());
    (0..rows * columns).map(move |cell| (cell / columns, cell % columns))
}
