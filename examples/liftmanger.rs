//! The library from Rust, safe, without an allocator: core alone.
//!
//! The one-owner rule in types. A `Game` owns the memory that the calls are lent: whoever steps holds it by `&mut`, so no second core can
//! write in that time. A display is handed a `View`, which borrows the game, so nothing steps while it is looked at; it holds what a player may
//! know and has no way to the mines, the bits, the 3BV and the secret counts. Those come from `over`, once the game is won or lost.

/// The calls as the archive exports them (include/liftmanger.h). A slice passes as pointer and length.
mod raw {
    #[repr(C)]
    #[derive(Clone, Copy)]
    pub struct Position {
        pub rows: u8,
        pub columns: u8,
        pub mode: u8,
        pub question: u8,
        pub game: u8,
        pub mouse: u8,
        pub middle: u8,
        pub rules: u8,
        pub preflags: u32,
        pub events: u32,
        pub left: u32,
        pub right: u32,
        pub doubles: u32,
        pub lce: u32,
        pub dce: u32,
        pub flag: u32,
        pub unopened: u32,
        pub rce: u32,
        pub solved_left: u32,
        pub solved_chord: u32,
    }

    #[repr(C)]
    pub struct Answer {
        pub number: u16,
        pub row: u8,
        pub column: u8,
        pub position: Position,
        pub value: u32,
    }

    #[repr(C)]
    pub struct Value {
        pub number: u16,
        pub row: u8,
        pub column: u8,
        pub value: u32,
    }

    /// The row and the column beside a number that has no place.
    pub const NOWHERE: [u8; 2] = [255, 255];

    const _: () = assert!(size_of::<Position>() == 56 && size_of::<Answer>() == 64 && size_of::<Value>() == 8);

    extern "C" {
        pub fn lm_number_mines(r: u8, c: u8, list: *const u8, list_n: usize, mines: *mut i8, mines_n: usize) -> u32;
        pub fn lm_total_3bv(r: u8, c: u8, mines: *const i8, mines_n: usize, work: *mut u16, work_n: usize) -> Value;
        pub fn lm_setup(
            rows: u8,
            columns: u8,
            mode: u8,
            question: u8,
            rules: u8,
            mines: *const i8,
            mines_n: usize,
            shown: *mut u8,
            shown_n: usize,
            bits: *mut u8,
            bits_n: usize,
        ) -> Answer;
        pub fn lm_reset(
            position: Position,
            mines: *const i8,
            mines_n: usize,
            shown: *mut u8,
            shown_n: usize,
            bits: *mut u8,
            bits_n: usize,
        ) -> Answer;
        pub fn lm_resolve(
            position: Position,
            code: u8,
            row: u8,
            column: u8,
            mines: *const i8,
            mines_n: usize,
            shown: *const u8,
            shown_n: usize,
            bits: *const u8,
            bits_n: usize,
        ) -> Answer;
        pub fn lm_step(
            position: Position,
            code: u8,
            row: u8,
            column: u8,
            mines: *const i8,
            mines_n: usize,
            shown: *mut u8,
            shown_n: usize,
            bits: *mut u8,
            bits_n: usize,
            work: *mut u16,
            work_n: usize,
        ) -> Answer;
        pub fn lm_step_flow(
            position: Position,
            events: *const u8,
            events_n: usize,
            mines: *const i8,
            mines_n: usize,
            shown: *mut u8,
            shown_n: usize,
            bits: *mut u8,
            bits_n: usize,
            work: *mut u16,
            work_n: usize,
        ) -> Answer;
        pub fn lm_step_game_state(
            position: Position,
            mines: *const i8,
            mines_n: usize,
            shown: *const u8,
            shown_n: usize,
            bits: *const u8,
            bits_n: usize,
            event: u8,
        ) -> Answer;
        pub fn lm_left_to_solve(
            position: Position,
            mines: *const i8,
            mines_n: usize,
            shown: *const u8,
            shown_n: usize,
            bits: *const u8,
            bits_n: usize,
            work: *mut u16,
            work_n: usize,
        ) -> Answer;
    }
}

/// A refusal's number, 20 and above: see the header. Beside 22 and 23 stands the faulty cell of the mine board, its row and its column.
#[derive(Clone, Copy, Debug, PartialEq, Eq)]
pub struct Refusal {
    pub number: u32,
    pub place: Option<[u8; 2]>,
}

/// What an accepted event answers.
#[derive(Clone, Copy, Debug, PartialEq, Eq)]
pub enum Answer {
    Nothing,
    Flagged,
    Opened,
    Chorded,
    Hit,
}

/// An accepted event: its answer, and how many cells it opened, the automatic passes' too. The buzzer ticks once for each.
#[derive(Clone, Copy, Debug, PartialEq, Eq)]
pub struct Step {
    pub answer: Answer,
    pub opened: u32,
}

#[derive(Clone, Copy, Debug, PartialEq, Eq)]
pub enum GameState {
    Ready,
    Playing,
    Win,
    Loss,
    PreFlaging,
}

/// The left and the right button, up or down.
#[derive(Clone, Copy, Debug, PartialEq, Eq)]
pub enum MouseState {
    UpUp,
    UpDown,
    UpDownNotFlag,
    DownUp,
    Chording,
    ChordingNotFlag,
    DownUpAfterChording,
}

/// An event's code. `L`, `R` and `M` say that a button changed, and are resolved into a press or a release.
#[derive(Clone, Copy, Debug, PartialEq, Eq)]
pub enum Code {
    Lc = 0,
    Lr = 1,
    Rc = 2,
    Rr = 3,
    Mv = 4,
    Mc = 5,
    Mr = 6,
    Cc = 7,
    Pf = 8,
    L = 9,
    R = 10,
    M = 11,
}

/// Where an event happens.
#[derive(Clone, Copy, Debug, PartialEq, Eq)]
pub enum Pointer {
    Cell(u8, u8),
    Off,
}

/// What a board is played with.
#[derive(Clone, Copy, Debug, PartialEq, Eq)]
pub struct Settings {
    pub rows: u8,
    pub columns: u8,
    pub mode: u8,
    pub question: bool,
    /// the league's rules, 1 or 2
    pub rules: u8,
}

/// What a display may be handed during a game. While one lives, nothing steps.
#[derive(Clone, Copy, Debug, PartialEq, Eq)]
pub struct View<'a> {
    pub settings: Settings,
    pub game: GameState,
    pub mouse: MouseState,
    pub middle: bool,
    pub preflags: u32,
    pub events: u32,
    pub left: u32,
    pub right: u32,
    pub doubles: u32,
    pub lce: u32,
    pub dce: u32,
    pub flag: u32,
    /// safe cells that do not show 0 to 8
    pub unopened: u32,
    pub shown: &'a [u8],
}

impl View<'_> {
    /// How many cells are open: they show 0 to 8.
    pub fn open(&self) -> usize {
        self.shown.iter().filter(|&&cell| cell <= 8).count()
    }
}

/// What may be shown once the game is over.
#[derive(Clone, Copy, Debug, PartialEq, Eq)]
pub struct Over<'a> {
    pub won: bool,
    pub rce: u32,
    pub solved_left: u32,
    pub solved_chord: u32,
    pub total_3bv: u32,
    pub left_to_solve: u32,
    pub mines: &'a [i8],
}

/// A game with all its memory, for boards of exactly `CELLS` cells.
pub struct Game<const CELLS: usize, const BITS: usize, const WORK: usize> {
    position: raw::Position,
    mines: [i8; CELLS],
    shown: [u8; CELLS],
    bits: [u8; BITS],
    work: [u16; WORK],
}

/// 9 × 9, 16 × 16, 16 × 30, and the most cells that there may be.
pub type Beginner = Game<81, 11, 656>;
pub type Intermediate = Game<256, 32, 2056>;
pub type Expert = Game<480, 60, 3848>;
pub type Largest = Game<2048, 256, 16392>;

impl<const CELLS: usize, const BITS: usize, const WORK: usize> Game<CELLS, BITS, WORK> {
    /// A new game from a list of mines, row and column each, rising in row order.
    pub fn new(settings: Settings, list: &[[u8; 2]]) -> Result<Self, Refusal> {
        let mut mines = [0; CELLS];
        let list = list.as_flattened();
        // SAFETY: each pointer is to an array or a slice that lives here, beside its length; the written one is this function's own.
        let number = unsafe {
            raw::lm_number_mines(
                settings.rows,
                settings.columns,
                list.as_ptr(),
                list.len(),
                mines.as_mut_ptr(),
                mines.len(),
            )
        };
        accepted(number, raw::NOWHERE)?;
        Self::from_board(settings, mines)
    }

    /// A new game from a mine board with its numbers, -1 for a mine. A wrong value or number is refused with its place.
    pub fn from_board(settings: Settings, mines: [i8; CELLS]) -> Result<Self, Refusal> {
        const { assert!(BITS == CELLS.div_ceil(8) && WORK >= 8 * CELLS + 8) }
        let Settings { rows, columns, mode, question, rules } = settings;
        let (mut shown, mut bits) = ([0; CELLS], [0; BITS]);
        // SAFETY: as in `new`.
        let a = unsafe {
            raw::lm_setup(
                rows,
                columns,
                mode,
                question.into(),
                rules,
                mines.as_ptr(),
                mines.len(),
                shown.as_mut_ptr(),
                shown.len(),
                bits.as_mut_ptr(),
                bits.len(),
            )
        };
        accepted(a.number.into(), [a.row, a.column])?;
        Ok(Game { position: a.position, mines, shown, bits, work: [0; WORK] })
    }

    /// One event: `L`, `R` and `M` are resolved first, a plain code is stepped with as it is. The work of a game fits, so a refused event has
    /// changed nothing.
    pub fn step(&mut self, code: Code, pointer: Pointer) -> Result<Step, Refusal> {
        let (row, column) = match pointer {
            Pointer::Cell(row, column) => (row, column),
            Pointer::Off => (self.position.rows, self.position.columns),
        };
        let code = match code {
            Code::L | Code::R | Code::M => self.resolve(code, row, column)?,
            plain => plain as u8,
        };
        self.step_plain(code, row, column)
    }

    /// The plain code of a button that changed; the middle flag has then flipped, where it is the middle one.
    fn resolve(&mut self, code: Code, row: u8, column: u8) -> Result<u8, Refusal> {
        // SAFETY: each pointer is to an array of this game, beside its length; all is only read.
        let a = unsafe {
            raw::lm_resolve(
                self.position,
                code as u8,
                row,
                column,
                self.mines.as_ptr(),
                self.mines.len(),
                self.shown.as_ptr(),
                self.shown.len(),
                self.bits.as_ptr(),
                self.bits.len(),
            )
        };
        accepted(a.number.into(), [a.row, a.column])?;
        self.position = a.position;
        Ok(a.value as u8)
    }

    fn step_plain(&mut self, code: u8, row: u8, column: u8) -> Result<Step, Refusal> {
        // SAFETY: each pointer is to an array of this game, beside its length; `&mut self` says that nobody else has any of them.
        let a = unsafe {
            raw::lm_step(
                self.position,
                code,
                row,
                column,
                self.mines.as_ptr(),
                self.mines.len(),
                self.shown.as_mut_ptr(),
                self.shown.len(),
                self.bits.as_mut_ptr(),
                self.bits.len(),
                self.work.as_mut_ptr(),
                self.work.len(),
            )
        };
        self.take(a)
    }

    /// A row of events as a book has them, code, row and column each, up to the first refused one; the steps before it are kept.
    /// `View::open` before and after it tells how many cells the row opened.
    pub fn step_flow(&mut self, events: &[[u8; 3]]) -> Result<(), Refusal> {
        let events = events.as_flattened();
        // SAFETY: as in `step_plain`; the events are the caller's and only read.
        let a = unsafe {
            raw::lm_step_flow(
                self.position,
                events.as_ptr(),
                events.len(),
                self.mines.as_ptr(),
                self.mines.len(),
                self.shown.as_mut_ptr(),
                self.shown.len(),
                self.bits.as_mut_ptr(),
                self.bits.len(),
                self.work.as_mut_ptr(),
                self.work.len(),
            )
        };
        self.take(a).map(|_| ())
    }

    /// The player gives up: Loss.
    pub fn give_up(&mut self) {
        // SAFETY: as in `step_plain`; all is only read.
        let a = unsafe {
            raw::lm_step_game_state(
                self.position,
                self.mines.as_ptr(),
                self.mines.len(),
                self.shown.as_ptr(),
                self.shown.len(),
                self.bits.as_ptr(),
                self.bits.len(),
                1,
            )
        };
        self.position = a.position;
    }

    /// The same board anew.
    pub fn reset(&mut self) {
        // SAFETY: as in `step_plain`.
        let a = unsafe {
            raw::lm_reset(
                self.position,
                self.mines.as_ptr(),
                self.mines.len(),
                self.shown.as_mut_ptr(),
                self.shown.len(),
                self.bits.as_mut_ptr(),
                self.bits.len(),
            )
        };
        self.position = a.position;
    }

    /// What a display may be handed.
    pub fn view(&self) -> View<'_> {
        let p = &self.position;
        View {
            settings: Settings {
                rows: p.rows,
                columns: p.columns,
                mode: p.mode,
                question: p.question == 1,
                rules: p.rules,
            },
            game: game_at(p.game),
            mouse: mouse_at(p.mouse),
            middle: p.middle == 1,
            preflags: p.preflags,
            events: p.events,
            left: p.left,
            right: p.right,
            doubles: p.doubles,
            lce: p.lce,
            dce: p.dce,
            flag: p.flag,
            unopened: p.unopened,
            shown: &self.shown,
        }
    }

    /// The secrets, once the game is won or lost. Counting the 3BV takes the work, so the game is held for it.
    pub fn over(&mut self) -> Option<Over<'_>> {
        let p = self.position;
        let won = match game_at(p.game) {
            GameState::Win => true,
            GameState::Loss => false,
            _ => return None,
        };
        // SAFETY: as in `step_plain`.
        let total = unsafe {
            raw::lm_total_3bv(
                p.rows,
                p.columns,
                self.mines.as_ptr(),
                self.mines.len(),
                self.work.as_mut_ptr(),
                self.work.len(),
            )
        };
        // SAFETY: as in `step_plain`.
        let left = unsafe {
            raw::lm_left_to_solve(
                p,
                self.mines.as_ptr(),
                self.mines.len(),
                self.shown.as_ptr(),
                self.shown.len(),
                self.bits.as_ptr(),
                self.bits.len(),
                self.work.as_mut_ptr(),
                self.work.len(),
            )
        };
        Some(Over {
            won,
            rce: p.rce,
            solved_left: p.solved_left,
            solved_chord: p.solved_chord,
            total_3bv: total.value,
            left_to_solve: left.value,
            mines: &self.mines,
        })
    }

    /// A refusal gives the position back, so it is taken either way.
    fn take(&mut self, a: raw::Answer) -> Result<Step, Refusal> {
        self.position = a.position;
        let answer = accepted(a.number.into(), [a.row, a.column])?;
        Ok(Step { answer, opened: a.value })
    }
}

fn accepted(number: u32, place: [u8; 2]) -> Result<Answer, Refusal> {
    match number {
        0 => Ok(Answer::Nothing),
        1 => Ok(Answer::Flagged),
        2 => Ok(Answer::Opened),
        3 => Ok(Answer::Chorded),
        4 => Ok(Answer::Hit),
        number => Err(Refusal { number, place: (place != raw::NOWHERE).then_some(place) }),
    }
}

/// The library hands out bytes that mean something, so the last arm is the last state.
fn game_at(n: u8) -> GameState {
    match n {
        0 => GameState::Ready,
        1 => GameState::Playing,
        2 => GameState::Win,
        3 => GameState::Loss,
        _ => GameState::PreFlaging,
    }
}

fn mouse_at(n: u8) -> MouseState {
    match n {
        0 => MouseState::UpUp,
        1 => MouseState::UpDown,
        2 => MouseState::UpDownNotFlag,
        3 => MouseState::DownUp,
        4 => MouseState::Chording,
        5 => MouseState::ChordingNotFlag,
        _ => MouseState::DownUpAfterChording,
    }
}
