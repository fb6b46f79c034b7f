// Boards by seed: mines laid by chance, numbered, in the Rust's form and in ours.

/// A mine board: the Rust's rows of numbers, and one signed byte a cell.
pub struct Board {
    pub rows: usize,
    pub columns: usize,
    pub theirs: Vec<Vec<i32>>,
    pub ours: Vec<i8>,
}

/// Numbers by chance (splitmix64).
pub struct Chance(pub u64);

impl Chance {
    pub fn below(&mut self, n: usize) -> usize {
        self.0 = self.0.wrapping_add(0x9e37_79b9_7f4a_7c15);
        let mut z = self.0;
        z = (z ^ (z >> 30)).wrapping_mul(0xbf58_476d_1ce4_e5b9);
        z = (z ^ (z >> 27)).wrapping_mul(0x94d0_49bb_1331_11eb);
        ((z ^ (z >> 31)) % n as u64) as usize
    }
}

impl Board {
    pub fn new(rows: usize, columns: usize, mines: usize, seed: u64) -> Board {
        let mut chance = Chance(seed);
        let mut theirs = vec![vec![0; columns]; rows];
        let mut laid = 0;
        while laid < mines {
            let cell = chance.below(rows * columns);
            let place = &mut theirs[cell / columns][cell % columns];
            if *place == 0 {
                *place = -1;
                laid += 1;
            }
        }
        for row in 0..rows {
            for column in 0..columns {
                if theirs[row][column] == 0 {
                    theirs[row][column] = mines_around(&theirs, row, column);
                }
            }
        }
        let ours = theirs.iter().flatten().map(|&value| value as i8).collect();
        Board { rows, columns, theirs, ours }
    }

    pub fn cells(&self) -> usize {
        self.rows * self.columns
    }

    /// Every cell closed, in the Rust's form.
    pub fn closed(&self) -> Vec<Vec<i32>> {
        vec![vec![10; self.columns]; self.rows]
    }
}

fn mines_around(board: &[Vec<i32>], row: usize, column: usize) -> i32 {
    let mut count = 0;
    for line in &board[row.saturating_sub(1)..board.len().min(row + 2)] {
        for &value in &line[column.saturating_sub(1)..line.len().min(column + 2)] {
            count += i32::from(value == -1);
        }
    }
    count
}

/// Whether the two shown boards agree.
pub fn same(theirs: &[Vec<i32>], ours: &[u8]) -> bool {
    theirs.iter().flatten().copied().eq(ours.iter().map(|&value| i32::from(value)))
}
