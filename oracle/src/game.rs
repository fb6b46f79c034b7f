// A game: the Rust's board with what the papers add around its step, the refusals and the count of events, the league's rules, and the two calls
// that the step is split into.

use crate::board::{mode_allowed, numbered, rules_allowed, size_allowed};
use original::{GameBoardState, Hidden, MouseState, Original};

pub const MOST_EVENTS: usize = 65_535;

pub const CODES: [&str; 12] = ["lc", "lr", "rc", "rr", "mv", "mc", "mr", "cc", "pf", "l", "r", "m"];

pub const LC: u8 = 0;
pub const LR: u8 = 1;
pub const RC: u8 = 2;
pub const RR: u8 = 3;
pub const MV: u8 = 4;
pub const MC: u8 = 5;
pub const MR: u8 = 6;
pub const CC: u8 = 7;
pub const PF: u8 = 8;
pub const L: u8 = 9;
pub const R: u8 = 10;
pub const M: u8 = 11;

/// A code that no paper knows.
const UNKNOWN: u8 = 12;

#[derive(Clone, Copy, PartialEq)]
pub struct Settings {
    pub rows: usize,
    pub columns: usize,
    pub mode: u16,
    pub question: bool,
    pub rules: u8,
}

#[derive(Clone)]
pub struct Game {
    pub board: Original,
    pub events: usize,
    pub rules: u8,
}

impl Game {
    /// Tests 20, 24, 25 and 45; the mines are cells of the board, none twice.
    pub fn setup(settings: Settings, mines: &[(usize, usize)]) -> Result<Game, u16> {
        let Settings { rows, columns, mode, question, rules } = settings;
        if !size_allowed(rows, columns) {
            return Err(20);
        }
        if mines.len() == rows * columns {
            return Err(24);
        }
        if !mode_allowed(mode) {
            return Err(25);
        }
        if !rules_allowed(rules) {
            return Err(45);
        }
        let mut board = Original::new(numbered(rows, columns, mines));
        board.set_mode(mode);
        board.use_question = question;
        Ok(Game { board, events: 0, rules })
    }

    /// An event of a game, `l`, `r` and `m` among them, as a book has it. The Rust resolves it.
    pub fn step(&mut self, code: u8, row: usize, column: usize) -> u16 {
        self.play(self.to_the_rust(code), row, column)
    }

    /// The plain step of Req 07: `l`, `r` and `m` are unknown codes.
    pub fn step_plain(&mut self, code: u8, row: usize, column: usize) -> u16 {
        self.play(if is_toggle(code) { UNKNOWN } else { code }, row, column)
    }

    /// The step of Req 10's no-flag class: 34 for a forbidden event, after 31 and before 32.
    pub fn step_noflag(&mut self, code: u8, row: usize, column: usize) -> u16 {
        match self.refusal(row, column) {
            Some(number) => number,
            None if is_forbidden(code) => 34,
            None => self.step(code, row, column),
        }
    }

    /// The resolving call of Req 07: the plain code, or 30 or 31. It counts no event.
    pub fn resolve(&mut self, code: u8, row: usize, column: usize) -> Result<u8, u16> {
        if let Some(number) = self.refusal(row, column) {
            return Err(number);
        }
        let (down, press, release) = match code {
            L => (self.left_is_down(), LC, LR),
            R => (self.right_is_down(), RC, RR),
            M => (self.flip_middle(), MC, MR),
            _ => return Ok(code),
        };
        Ok(if down { release } else { press })
    }

    /// `l` is a release in the mouse states 3 to 6.
    fn left_is_down(&self) -> bool {
        matches!(self.mouse_number(), 3..=6)
    }

    /// `r` is a release in the mouse states 1, 4 and 5, by rules 2 in 2 too.
    fn right_is_down(&self) -> bool {
        matches!(self.mouse_number(), 1 | 4 | 5) || self.released_by_rules_2()
    }

    /// Whether the middle button was down before it.
    fn flip_middle(&mut self) -> bool {
        let hidden = self.board.hidden();
        let down = hidden.middle_hold;
        self.board.set_hidden(Hidden { middle_hold: !down, ..hidden });
        down
    }

    /// Tests 30 to 33. The Rust changes nothing before an Err, and `steps` holds it to that, so 33 needs no undoing.
    fn play(&mut self, code: u8, row: usize, column: usize) -> u16 {
        if let Some(number) = self.refusal(row, column) {
            return number;
        }
        if code == PF && self.panics_at_pf(row, column) {
            return 32;
        }
        match self.board.step(name(code), (row, column)) {
            Ok(answer) => {
                self.events += 1;
                answer.into()
            }
            Err(()) => 33,
        }
    }

    /// 30 and 31, which ask nothing of the code.
    fn refusal(&self, row: usize, column: usize) -> Option<u16> {
        if !self.on_board(row, column) && !self.off_board(row, column) {
            return Some(30);
        }
        (self.events == MOST_EVENTS).then_some(31)
    }

    /// Rules 2 are the league's and not the Rust's: where `r` is a release by them alone, the Rust is handed `rr`.
    fn to_the_rust(&self, code: u8) -> u8 {
        if code == R && self.released_by_rules_2() {
            RR
        } else {
            code
        }
    }

    fn released_by_rules_2(&self) -> bool {
        self.rules == 2 && self.board.mouse_state == MouseState::UpDownNotFlag
    }

    pub fn on_board(&self, row: usize, column: usize) -> bool {
        row < self.board.row && column < self.board.column
    }

    pub fn off_board(&self, row: usize, column: usize) -> bool {
        row == self.board.row && column == self.board.column
    }

    fn panics_at_pf(&self, row: usize, column: usize) -> bool {
        let before_play = matches!(self.state(), GameBoardState::Ready | GameBoardState::PreFlaging);
        before_play && (!self.on_board(row, column) || self.board.game_board[row][column] != 10)
    }

    pub fn state(&self) -> GameBoardState {
        self.board.game_board_state
    }

    /// The paper's number of the game state; the Rust's enum has the paper's order.
    pub fn state_number(&self) -> usize {
        self.board.game_board_state as usize
    }

    /// The paper's number of the mouse state; the Rust's enum has the paper's order.
    pub fn mouse_number(&self) -> usize {
        self.board.mouse_state as usize
    }

    pub fn ended(&self) -> bool {
        matches!(self.state(), GameBoardState::Win | GameBoardState::Loss)
    }
}

/// The codes of the right button, which Req 10 forbids.
pub fn is_forbidden(code: u8) -> bool {
    matches!(code, RC | RR | CC | PF | R)
}

fn is_toggle(code: u8) -> bool {
    matches!(code, L | R | M)
}

/// The Rust's word for a code; all unknown codes are alike to it.
pub fn name(code: u8) -> &'static str {
    CODES.get(usize::from(code)).copied().unwrap_or("unknown")
}
