// Events by chance, written while the game is played: by a player who knows the mines, or by one who only fidgets.

use crate::board::neighbours;
use crate::book::MOST_BOOK_EVENTS;
use crate::game::*;
use crate::random::Random;
use original::{GameBoardState, MouseState};

pub type Record = [u8; 3];

type Cell = (usize, usize);

pub struct Player<'a> {
    random: &'a mut Random,
    game: Game,
    events: Vec<Record>,
    refused: bool,
    habits: Habits,
}

/// How often a player does what, in hundredths.
struct Habits {
    /// any event at all, in the middle of whatever is going on
    fidget: usize,
    /// a flag on a safe cell
    wrong_flag: usize,
    /// opening a mine
    blunder: usize,
    /// `l`, `r`, `m` in place of the explicit codes
    toggle: usize,
    /// the pointer slips off the board
    slip: usize,
}

impl Habits {
    fn sensible(random: &mut Random) -> Habits {
        Habits {
            fidget: random.pick(&[0, 0, 1, 4]),
            wrong_flag: random.pick(&[0, 0, 0, 1]),
            blunder: random.pick(&[0, 0, 0, 1]),
            toggle: random.pick(&[0, 20, 100]),
            slip: random.pick(&[0, 1]),
        }
    }

    fn careless(random: &mut Random) -> Habits {
        Habits {
            fidget: random.pick(&[5, 20]),
            wrong_flag: random.pick(&[5, 20]),
            blunder: random.pick(&[0, 2, 10]),
            toggle: random.pick(&[0, 30, 100]),
            slip: random.pick(&[0, 5, 15]),
        }
    }
}

impl<'a> Player<'a> {
    fn new(random: &'a mut Random, game: Game, habits: Habits) -> Player<'a> {
        Player { random, game, events: Vec::new(), refused: false, habits }
    }

    fn over(&self, turns_end: usize) -> bool {
        self.refused || self.game.ended() || self.events.len() >= turns_end
    }

    fn put(&mut self, code: u8, (row, column): Cell) {
        if self.events.len() == MOST_BOOK_EVENTS {
            return;
        }
        self.events.push([code, row as u8, column as u8]);
        if !self.refused {
            self.refused = self.game.step(code, row, column) >= 20;
        }
    }
}

/// A game that goes deep: to its end, or to so many events.
pub fn good_game(random: &mut Random, game: Game, length: usize) -> Vec<Record> {
    let habits = Habits::sensible(random);
    played(Player::new(random, game, habits), length)
}

pub fn careless_game(random: &mut Random, game: Game, length: usize) -> Vec<Record> {
    let habits = Habits::careless(random);
    played(Player::new(random, game, habits), length)
}

fn played(mut player: Player, length: usize) -> Vec<Record> {
    while !player.over(length) {
        player.turn();
    }
    player.afterwards();
    player.events
}

/// Every code in every state: a stream of events by chance that seldom asks for a refusal.
pub fn fidgeting(random: &mut Random, game: Game, length: usize) -> Vec<Record> {
    let habits = Habits::careless(random);
    let mut player = Player::new(random, game, habits);
    if player.chance(60) {
        player.open_some(Player::closed_safe);
    }
    while !player.over(length) {
        player.fidget();
    }
    player.afterwards();
    player.events
}

/// As many events as asked for: moves and presses that end nothing.
pub fn long_game(random: &mut Random, game: Game, length: usize) -> Vec<Record> {
    let habits = Habits::sensible(random);
    let mut player = Player::new(random, game, habits);
    while player.events.len() < length {
        let cell = player.any_cell();
        let code = player.random.pick(&[LC, LR, RC, RR, MV, MC, MR, M]);
        // In PreFlaging a second `rc` is refused; the move in its place keeps the game going.
        let code = if player.would_be_refused(code, cell) { MV } else { code };
        player.put(code, cell);
    }
    player.events
}

impl Player<'_> {
    fn turn(&mut self) {
        if self.chance(self.habits.fidget) {
            return self.fidget();
        }
        if !self.chance(self.habits.fidget / 2) {
            self.let_go();
        }
        if self.game.state() == GameBoardState::Playing {
            self.playing_turn();
        } else {
            self.first_turn();
        }
    }

    /// Ready and PreFlaging: some flags, a look around, then the first opening.
    fn first_turn(&mut self) {
        match self.random.below(12) {
            0 => self.flag_some(Player::closed_mine),
            1 => self.flag_some(Player::flagged),
            2 => self.flag_some(Player::any),
            3 => self.pre_flag(),
            4 => self.move_about(),
            5 => self.chord_some(Player::any),
            6 => self.open_some(Player::not_closed),
            _ => self.open_some(Player::closed_safe),
        }
    }

    fn playing_turn(&mut self) {
        if self.chance(self.habits.wrong_flag) {
            return self.flag_some(Player::closed_safe);
        }
        if self.chance(self.habits.blunder) {
            return self.open_some(Player::closed_mine);
        }
        match self.random.below(33) {
            0..=9 => self.chord_some(Player::useful_chord),
            10..=17 => self.flag_some(Player::mine_at_the_edge),
            18..=24 => self.open_some(Player::closed_safe),
            25 => self.flag_some(Player::flagged_safe),
            26 => self.flag_some(Player::questioned),
            27 => self.open_some(Player::not_closed),
            28 => self.chord_some(Player::open),
            29 => self.flag_some(Player::open),
            30 => self.flag_some(Player::flagged),
            _ => self.move_about(),
        }
    }

    /// A game that has ended takes events still; a few follow, then at times one that is refused.
    fn afterwards(&mut self) {
        for _ in 0..self.random.below(5) {
            self.fidget();
        }
        if self.chance(10) {
            let code = self.any_code();
            let pointer = bad_pointer(self.random, &self.game);
            self.put(code, (pointer.0.into(), pointer.1.into()));
        }
    }

    /// Lets go of the buttons off the board, where it does nothing.
    fn let_go(&mut self) {
        use MouseState::*;
        let away = self.away();
        if matches!(self.game.board.mouse_state, UpDown | UpDownNotFlag | Chording | ChordingNotFlag) {
            self.put(RR, away);
        }
        if matches!(self.game.board.mouse_state, DownUp | DownUpAfterChording) {
            self.put(LR, away);
        }
    }

    fn open_some(&mut self, wanted: fn(&Self, Cell) -> bool) {
        let Some(cell) = self.find(wanted) else { return self.move_about() };
        let press = self.either(LC, L);
        self.put(press, cell);
        self.drag();
        let spot = self.slipped(cell);
        let release = self.either(LR, L);
        self.put(release, spot);
    }

    fn flag_some(&mut self, wanted: fn(&Self, Cell) -> bool) {
        let Some(cell) = self.find(wanted) else { return self.move_about() };
        let spot = self.slipped(cell);
        let press = self.either(RC, R);
        self.put(press, spot);
        self.drag();
        let release = self.either(RR, R);
        self.put(release, cell);
    }

    fn pre_flag(&mut self) {
        if let Some(cell) = self.find(Player::closed) {
            self.put(PF, cell);
        }
    }

    fn chord_some(&mut self, wanted: fn(&Self, Cell) -> bool) {
        match self.find(wanted) {
            Some(cell) => self.chord(cell),
            None => self.open_some(Player::closed_safe),
        }
    }

    /// A chord by both buttons in any order, by `cc`, or by the middle button, also with other buttons held.
    fn chord(&mut self, cell: Cell) {
        let (lc, lr) = (self.either(LC, L), self.either(LR, L));
        let (rc, rr) = (self.either(RC, R), self.either(RR, R));
        let (mc, mr) = (self.either(MC, M), self.either(MR, M));
        let gesture: &[u8] = match self.random.below(15) {
            0 => &[lc, rc, lr, rr],
            1 => &[lc, rc, rr, lr],
            2 => &[rc, lc, lr, rr],
            3 => &[rc, lc, rr, lr],
            4 => &[CC, lr, rr],
            5 => &[CC, rr, lr],
            6 => &[lc, CC, rr, lr],
            7 => &[rc, CC, lr, rr],
            8 => &[lc, rc, mc, mr],
            9 => &[lc, mr, lr],
            10 => &[rc, mr, rr],
            11 => &[rc, lc, mr],
            12 => &[rc, CC, mr],
            13 => &[CC, mr],
            _ => &[mc, mr],
        };
        for &code in gesture {
            let spot = self.slipped(cell);
            self.put(code, spot);
        }
    }

    fn move_about(&mut self) {
        let spot = self.any_spot();
        self.put(MV, spot);
    }

    fn drag(&mut self) {
        if self.chance(8) {
            self.move_about();
        }
    }

    /// Any event; one that would be refused is mostly thought better of, or books would be short.
    fn fidget(&mut self) {
        let code = self.any_code();
        let (row, column) = any_pointer(self.random, &self.game, 12, 1);
        let pointer = (row.into(), column.into());
        if self.chance(90) && self.would_be_refused(code, pointer) {
            return self.move_about();
        }
        self.put(code, pointer);
    }

    fn would_be_refused(&self, code: u8, (row, column): Cell) -> bool {
        self.game.clone().step(code, row, column) >= 20
    }

    fn any_code(&mut self) -> u8 {
        if self.chance(4) {
            unknown_code(self.random)
        } else {
            self.random.below(CODES.len()) as u8
        }
    }

    fn chance(&mut self, percent: usize) -> bool {
        self.random.chance(percent)
    }

    fn either(&mut self, plain: u8, toggle: u8) -> u8 {
        if self.chance(self.habits.toggle) {
            toggle
        } else {
            plain
        }
    }

    fn slipped(&mut self, cell: Cell) -> Cell {
        if self.chance(self.habits.slip) {
            self.any_spot()
        } else {
            cell
        }
    }

    fn away(&self) -> Cell {
        (self.game.board.row, self.game.board.column)
    }

    fn any_cell(&mut self) -> Cell {
        (self.random.below(self.game.board.row), self.random.below(self.game.board.column))
    }

    fn any_spot(&mut self) -> Cell {
        if self.chance(30) {
            self.away()
        } else {
            self.any_cell()
        }
    }

    /// The first wanted cell from a place by chance on, around the board's end.
    fn find(&mut self, wanted: fn(&Self, Cell) -> bool) -> Option<Cell> {
        let (rows, columns) = self.away();
        let start = self.random.below(rows * columns);
        let mut cells = (start..rows * columns).chain(0..start).map(|cell| (cell / columns, cell % columns));
        cells.find(|&cell| wanted(self, cell))
    }

    fn shows(&self, (row, column): Cell) -> i32 {
        self.game.board.game_board[row][column]
    }

    fn is_mine(&self, (row, column): Cell) -> bool {
        self.game.board.board[row][column] == -1
    }

    fn any(&self, _: Cell) -> bool {
        true
    }

    fn closed(&self, cell: Cell) -> bool {
        self.shows(cell) == 10
    }

    fn not_closed(&self, cell: Cell) -> bool {
        !self.closed(cell)
    }

    fn open(&self, cell: Cell) -> bool {
        self.shows(cell) < 9
    }

    fn closed_safe(&self, cell: Cell) -> bool {
        self.closed(cell) && !self.is_mine(cell)
    }

    fn closed_mine(&self, cell: Cell) -> bool {
        self.closed(cell) && self.is_mine(cell)
    }

    fn mine_at_the_edge(&self, cell: Cell) -> bool {
        let (rows, columns) = self.away();
        self.closed_mine(cell) && neighbours(rows, columns, cell).any(|near| self.open(near))
    }

    fn flagged(&self, cell: Cell) -> bool {
        self.shows(cell) == 11
    }

    fn flagged_safe(&self, cell: Cell) -> bool {
        self.flagged(cell) && !self.is_mine(cell)
    }

    fn questioned(&self, cell: Cell) -> bool {
        self.shows(cell) == 17
    }

    fn useful_chord(&self, cell: Cell) -> bool {
        chordable(&self.game, cell)
    }
}

/// An open number with that many flags around it and a neighbour showing 10.
pub fn chordable(game: &Game, cell: Cell) -> bool {
    let shown = &game.board.game_board;
    let number = shown[cell.0][cell.1];
    if number > 7 {
        return false;
    }
    let near = || neighbours(game.board.row, game.board.column, cell).map(|(i, j)| shown[i][j]);
    near().filter(|&look| look == 11).count() == number as usize && near().any(|look| look == 10)
}

pub fn unknown_code(random: &mut Random) -> u8 {
    if random.chance(50) {
        CODES.len() as u8
    } else {
        random.between(CODES.len(), 255) as u8
    }
}

/// A pointer: off the board or a bad one, each so often in a hundred, else a cell.
pub fn any_pointer(random: &mut Random, game: &Game, off_board: usize, bad: usize) -> (u8, u8) {
    let (rows, columns) = (game.board.row, game.board.column);
    match random.below(100) {
        n if n < off_board => (rows as u8, columns as u8),
        n if n < off_board + bad => bad_pointer(random, game),
        _ => (random.below(rows) as u8, random.below(columns) as u8),
    }
}

/// Neither a cell nor exactly (rows, columns).
fn bad_pointer(random: &mut Random, game: &Game) -> (u8, u8) {
    let (rows, columns) = (game.board.row as u8, game.board.column as u8);
    random.pick(&[
        (rows, 0),
        (0, columns),
        (rows, columns - 1),
        (rows - 1, columns),
        (rows + 1, columns),
        (rows, columns + 1),
        (rows + 1, columns + 1),
        (0, 255),
        (255, 0),
        (255, 255),
    ])
}
