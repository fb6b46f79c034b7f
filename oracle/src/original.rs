// The Rust's own module, its text unchanged, beside the few names that it takes from its own crate.
// Assumes that oracle/build names the module's file in ORIGINAL_MODULE and refresh_board's in ORIGINAL_REFRESH_BOARD.

/// What the module asks of a mine board. The game is played on rows of numbers.
pub mod safe_board {
    pub trait BoardSize {
        fn get_row(&self) -> usize;
        fn get_column(&self) -> usize;
    }

    pub trait EmptyBoard {
        fn empty_board(row: usize, column: usize) -> Self;
    }

    pub trait ReplaceBoard {
        fn to_vec_vec(&self) -> Vec<Vec<i32>>;
        fn replace_with(&mut self, board: Vec<Vec<i32>>);
    }

    impl BoardSize for Vec<Vec<i32>> {
        fn get_row(&self) -> usize {
            self.len()
        }

        fn get_column(&self) -> usize {
            self.first().map_or(0, Vec::len)
        }
    }

    impl EmptyBoard for Vec<Vec<i32>> {
        fn empty_board(row: usize, column: usize) -> Self {
            vec![vec![0; column]; row]
        }
    }

    impl ReplaceBoard for Vec<Vec<i32>> {
        fn to_vec_vec(&self) -> Vec<Vec<i32>> {
            self.clone()
        }

        fn replace_with(&mut self, board: Vec<Vec<i32>>) {
            *self = board;
        }
    }
}

/// Laying mines anew belongs to modes 6 to 10, which are left behind: no game of ours comes here.
pub mod videos {
    pub mod relayout {
        type Cells = [(usize, usize)];

        pub fn relayout(
            _board: &[Vec<i32>],
            _shown: &[Vec<i32>],
            _must_not_mine: &Cells,
            _must_mine: &Cells,
            _require_solvable: bool,
            _trials: usize,
        ) -> Option<Vec<Vec<i32>>> {
            unreachable!("modes 6 to 10 are left behind")
        }

        pub fn has_provable_safe_cell(_shown: &[Vec<i32>]) -> bool {
            unreachable!("modes 6 to 10 are left behind")
        }
    }
}

#[allow(clippy::all)]
pub mod utils {
    use crate::safe_board;
    use std::cmp::{max, min};

    include!(env!("ORIGINAL_REFRESH_BOARD"));
}

#[allow(unused_imports, unexpected_cfgs, clippy::all)]
pub mod minesweeper_board {
    include!(env!("ORIGINAL_MODULE"));

    /// The private fields that are part of a position. The win pointer is not: at (0, 0) it is always right.
    pub struct Hidden {
        pub flagged: Vec<(usize, usize)>,
        pub pre_flag_num: usize,
        pub middle_hold: bool,
    }

    impl MinesweeperBoard<Vec<Vec<i32>>> {
        pub fn hidden(&self) -> Hidden {
            Hidden { flagged: self.flaged_list.clone(), pre_flag_num: self.pre_flag_num, middle_hold: self.middle_hold }
        }

        pub fn set_hidden(&mut self, hidden: Hidden) {
            self.flaged_list = hidden.flagged;
            self.pre_flag_num = hidden.pre_flag_num;
            self.middle_hold = hidden.middle_hold;
            self.pointer_x = 0;
            self.pointer_y = 0;
        }
    }
}

pub use minesweeper_board::{GameBoardState, Hidden, MouseState};

/// The game as this project plays it: on a board of plain rows.
pub type Original = minesweeper_board::MinesweeperBoard<Vec<Vec<i32>>>;
