// A position and what is lent with it, as document 01 has them: put into the Rust's board, and taken out again.

use crate::board::Rows;
use crate::game::{Game, Settings};
use crate::lawful::unopened;
use original::{GameBoardState, Hidden, MouseState, Original};

pub const GAME_STATES: [GameBoardState; 5] = [
    GameBoardState::Ready,
    GameBoardState::Playing,
    GameBoardState::Win,
    GameBoardState::Loss,
    GameBoardState::PreFlaging,
];

pub const MOUSE_STATES: [MouseState; 7] = [
    MouseState::UpUp,
    MouseState::UpDown,
    MouseState::UpDownNotFlag,
    MouseState::DownUp,
    MouseState::Chording,
    MouseState::ChordingNotFlag,
    MouseState::DownUpAfterChording,
];

#[derive(Clone, PartialEq)]
pub struct Position {
    pub settings: Settings,
    pub game: GameBoardState,
    pub mouse: MouseState,
    pub middle: bool,
    pub preflag: usize,
    pub events: usize,
    pub left: usize,
    pub right: usize,
    pub double: usize,
    pub lce: usize,
    pub rce: usize,
    pub dce: usize,
    pub flag: usize,
    pub solved_left: usize,
    pub solved_chord: usize,
    /// safe cells that do not show 0 to 8; the Rust keeps no such number, so it is counted from its board
    pub unopened: usize,
}

/// The mine board, the shown board and the flagged-before bits, flat, in row order.
#[derive(Clone, PartialEq)]
pub struct Lent {
    pub mines: Vec<i8>,
    pub shown: Vec<u8>,
    pub bits: Vec<u8>,
}

impl Position {
    /// The twenty numbers of a position, in the order that a step has them.
    pub fn numbers(&self) -> [usize; 20] {
        [
            self.settings.rows,
            self.settings.columns,
            self.settings.mode.into(),
            self.settings.question.into(),
            self.game as usize,
            self.mouse as usize,
            self.middle.into(),
            self.preflag,
            self.events,
            self.left,
            self.right,
            self.double,
            self.lce,
            self.rce,
            self.dce,
            self.flag,
            self.solved_left,
            self.solved_chord,
            self.settings.rules.into(),
            self.unopened,
        ]
    }

    /// And back; None where a state, a yes or a no is none.
    pub fn from_numbers(numbers: [usize; 20]) -> Option<Position> {
        let [rows, columns, mode, question, game, mouse, middle, preflag, events, counts @ ..] = numbers;
        let [left, right, double, lce, rce, dce, flag, solved_left, solved_chord, rules, unopened] = counts;
        let (mode, rules) = (mode.try_into().ok()?, rules.try_into().ok()?);
        Some(Position {
            settings: Settings { rows, columns, mode, question: yes_or_no(question)?, rules },
            game: *GAME_STATES.get(game)?,
            mouse: *MOUSE_STATES.get(mouse)?,
            middle: yes_or_no(middle)?,
            preflag,
            events,
            left,
            right,
            double,
            lce,
            rce,
            dce,
            flag,
            solved_left,
            solved_chord,
            unopened,
        })
    }
}

fn yes_or_no(number: usize) -> Option<bool> {
    (number <= 1).then_some(number == 1)
}

impl Lent {
    pub fn bit(&self, cell: usize) -> bool {
        self.bits[cell / 8] >> (cell % 8) & 1 == 1
    }

    pub fn set_bit(&mut self, cell: usize) {
        self.bits[cell / 8] |= 1 << (cell % 8);
    }
}

impl Game {
    pub fn from_position(position: &Position, lent: &Lent) -> Game {
        let columns = position.settings.columns;
        let mut board = Original::new(rows_of(&lent.mines, columns));
        board.game_board = rows_of(&lent.shown, columns);
        board.set_mode(position.settings.mode);
        board.use_question = position.settings.question;
        board.game_board_state = position.game;
        board.mouse_state = position.mouse;
        board.left = position.left;
        board.right = position.right;
        board.double = position.double;
        board.lce = position.lce;
        board.rce = position.rce;
        board.dce = position.dce;
        board.flag = position.flag;
        board.bbbv_solved_left = position.solved_left;
        board.bbbv_solved_chord = position.solved_chord;
        board.set_hidden(Hidden {
            flagged: flagged(lent, columns),
            pre_flag_num: position.preflag,
            middle_hold: position.middle,
        });
        Game { board, events: position.events, rules: position.settings.rules }
    }

    pub fn position(&self) -> Position {
        let board = &self.board;
        let hidden = board.hidden();
        Position {
            settings: Settings {
                rows: board.row,
                columns: board.column,
                mode: board.mode,
                question: board.use_question,
                rules: self.rules,
            },
            game: board.game_board_state,
            mouse: board.mouse_state,
            middle: hidden.middle_hold,
            preflag: hidden.pre_flag_num,
            events: self.events,
            left: board.left,
            right: board.right,
            double: board.double,
            lce: board.lce,
            rce: board.rce,
            dce: board.dce,
            flag: board.flag,
            solved_left: board.bbbv_solved_left,
            solved_chord: board.bbbv_solved_chord,
            unopened: unopened(&self.lent()),
        }
    }

    pub fn lent(&self) -> Lent {
        let mines: Vec<i8> = self.board.board.iter().flatten().map(|&cell| cell as i8).collect();
        let shown = self.board.game_board.iter().flatten().map(|&cell| cell as u8).collect();
        let bits = vec![0; mines.len().div_ceil(8)];
        let mut lent = Lent { mines, shown, bits };
        for (row, column) in self.board.hidden().flagged {
            lent.set_bit(row * self.board.column + column);
        }
        lent
    }
}

fn rows_of<T: Copy + Into<i32>>(cells: &[T], columns: usize) -> Rows {
    cells.chunks(columns).map(|row| row.iter().map(|&cell| cell.into()).collect()).collect()
}

fn flagged(lent: &Lent, columns: usize) -> Vec<(usize, usize)> {
    (0..lent.mines.len()).filter(|&cell| lent.bit(cell)).map(|cell| (cell / columns, cell % columns)).collect()
}
