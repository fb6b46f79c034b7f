// Recorded games by seed: a player who knows the board plays it through to its win, as a hand with a mouse would.
use crate::boards::{Board, Chance};
use original::{GameBoardState, Original};

/// A code, a row and a column.
pub type Event = (u8, usize, usize);

pub const LC: u8 = 0;
pub const LR: u8 = 1;
pub const RC: u8 = 2;
pub const RR: u8 = 3;
pub const MV: u8 = 4;

/// The Rust's words for the codes that the player uses.
pub const WORDS: [&str; 5] = ["lc", "lr", "rc", "rr", "mv"];

/// Moves to a click of two events: most before the button goes down, some before it comes up. Thirty to each event, as recordings have them;
/// half as many where a game would have more events than it may.
const MOVES: [[usize; 2]; 2] = [[55, 5], [27, 3]];

/// The most events of a game.
const MOST: usize = 65_535;

#[derive(Clone, Copy, PartialEq)]
pub enum Kind {
    Number,
    Zero,
    Flag,
    Chord,
}

/// One thing that the hand does, with how many cells were open before.
pub struct Action {
    pub kind: Kind,
    pub cell: (usize, usize),
    pub opened: usize,
}

impl Action {
    /// Its presses and releases. A chord is the left button, then the right one, both released.
    pub fn events(&self) -> Vec<Event> {
        let (row, column) = self.cell;
        let codes: &[u8] = match self.kind {
            Kind::Number | Kind::Zero => &[LC, LR],
            Kind::Flag => &[RC, RR],
            Kind::Chord => &[LC, RC, LR, RR],
        };
        codes.iter().map(|&code| (code, row, column)).collect()
    }
}

/// A new game in the Rust's form.
pub fn original(board: &Board, mode: u8) -> Original {
    let mut game = Original::new(board.theirs.clone());
    game.set_mode(u16::from(mode));
    game
}

/// The actions that win the game: the cell nearest to the mouse first. With flags a mine beside an open number is flagged,
/// and a number whose flags are complete is chorded; without, every safe cell is opened by itself.
pub fn actions(board: &Board, mode: u8, flags: bool, chance: &mut Chance) -> Vec<Action> {
    let mut game = original(board, mode);
    let mut mouse = first(board, chance);
    let mut kind = kind_of(board, mouse);
    let mut actions = Vec::new();
    while game.game_board_state != GameBoardState::Win {
        let opened = game.game_board.iter().flatten().filter(|&&value| value < 10).count();
        let action = Action { kind, cell: mouse, opened };
        for (code, row, column) in action.events() {
            game.step(WORDS[usize::from(code)], (row, column)).expect("the player's events are accepted");
        }
        actions.push(action);
        assert!(game.game_board_state != GameBoardState::Loss, "the player knows the board");
        if let Some(next) = next(board, &game.game_board, flags, mouse) {
            (kind, mouse) = next;
        }
    }
    actions
}

fn kind_of(board: &Board, cell: (usize, usize)) -> Kind {
    if board.theirs[cell.0][cell.1] == 0 {
        Kind::Zero
    } else {
        Kind::Number
    }
}

/// A 0 by chance; a safe cell where there is none.
fn first(board: &Board, chance: &mut Chance) -> (usize, usize) {
    let safe = |most: i32| -> Vec<(usize, usize)> {
        let cells = (0..board.cells()).map(|cell| (cell / board.columns, cell % board.columns));
        cells.filter(|&(row, column)| (0..=most).contains(&board.theirs[row][column])).collect()
    };
    let zeros = safe(0);
    let cells = if zeros.is_empty() { safe(8) } else { zeros };
    cells[chance.below(cells.len())]
}

/// Around the mouse, ring by ring: a chord that opens, a mine to flag, a safe cell at the border, any safe cell.
fn next(board: &Board, shown: &[Vec<i32>], flags: bool, mouse: (usize, usize)) -> Option<(Kind, (usize, usize))> {
    let around =
        |cell, wanted: &dyn Fn(i32) -> bool| ring(board, cell, 1).filter(|&(i, j)| wanted(shown[i][j])).count();
    let open = |value: i32| value < 10;
    let chord = |(i, j): (usize, usize)| {
        let value = shown[i][j];
        (1..8).contains(&value) && around((i, j), &|v| v == 11) == value as usize && around((i, j), &|v| v == 10) > 0
    };
    let mine = |(i, j): (usize, usize)| board.theirs[i][j] == -1 && shown[i][j] == 10 && around((i, j), &open) > 0;
    let safe = |(i, j): (usize, usize)| board.theirs[i][j] != -1 && shown[i][j] == 10;
    if flags {
        if let Some(cell) = nearest(board, mouse, &chord) {
            return Some((Kind::Chord, cell));
        }
        if let Some(cell) = nearest(board, mouse, &mine) {
            return Some((Kind::Flag, cell));
        }
    }
    let cell = nearest(board, mouse, &|cell| safe(cell) && around(cell, &open) > 0)
        .or_else(|| nearest(board, mouse, &safe))?;
    Some((kind_of(board, cell), cell))
}

fn nearest(board: &Board, mouse: (usize, usize), wanted: &dyn Fn((usize, usize)) -> bool) -> Option<(usize, usize)> {
    (0..board.rows.max(board.columns)).find_map(|far| ring(board, mouse, far).find(|&cell| wanted(cell)))
}

/// The cells of the board that are so far from one, in row order.
fn ring(board: &Board, cell: (usize, usize), far: usize) -> impl Iterator<Item = (usize, usize)> {
    let (rows, columns) = (board.rows, board.columns);
    let (row, column) = cell;
    let whole = move |i: usize| i.abs_diff(row) == far;
    (row.saturating_sub(far)..rows.min(row + far + 1)).flat_map(move |i| {
        let step = if whole(i) || far == 0 { 1 } else { 2 * far };
        let left = column as isize - far as isize;
        (0..=2 * far)
            .step_by(step)
            .map(move |k| left + k as isize)
            .filter(move |&j| 0 <= j && j < columns as isize)
            .map(move |j| (i, j as usize))
    })
}

/// The events of some actions without a move.
pub fn clicks(actions: &[Action]) -> Vec<Event> {
    actions.iter().flat_map(Action::events).collect()
}

/// A recording: before each press and each release the mouse moves from where it was.
pub fn recording(actions: &[Action]) -> Vec<Event> {
    MOVES
        .iter()
        .map(|moves| moved(actions, moves))
        .find(|events| events.len() <= MOST)
        .expect("a game with room for its moves")
}

fn moved(actions: &[Action], moves: &[usize; 2]) -> Vec<Event> {
    let mut events = Vec::new();
    let mut mouse = actions[0].cell;
    for action in actions {
        for pair in action.events().chunks(2) {
            for (event, moves) in pair.iter().zip(moves) {
                let between = |from: usize, to: usize, k: usize| (from * (moves - k) + to * k) / moves;
                events.extend((1..=*moves).map(|k| (MV, between(mouse.0, event.1, k), between(mouse.1, event.2, k))));
                events.push(*event);
                mouse = action.cell;
            }
        }
    }
    events
}
