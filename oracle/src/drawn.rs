// Lawful positions by chance, reachable or not, events for them and the calls that these go by, and ways to spoil them.

use crate::board::numbered;
use crate::game::*;
use crate::lawful::{showing, unopened, work_room};
use crate::layout::Layout;
use crate::player::{any_pointer, chordable, unknown_code, Record};
use crate::position::{Lent, Position, GAME_STATES, MOUSE_STATES};
use crate::random::Random;
use crate::steps::Call;
use original::{GameBoardState, MouseState};

pub fn lawful(random: &mut Random) -> (Position, Lent) {
    let layout = layout(random);
    let settings = layout.settings;
    let game = game_state(random);
    let lent = lent(random, &layout, game);
    let mouse = mouse_state(random, game);
    (position(random, settings, game, mouse, &lent), lent)
}

fn layout(random: &mut Random) -> Layout {
    match random.below(200) {
        0 => Layout::large(random),
        1..=9 => Layout::standard(random),
        _ => Layout::small(random),
    }
}

/// Playing is where most of the rules are.
fn game_state(random: &mut Random) -> GameBoardState {
    if random.chance(50) {
        GameBoardState::Playing
    } else {
        random.pick(&GAME_STATES)
    }
}

fn mouse_state(random: &mut Random, game: GameBoardState) -> MouseState {
    let mouse = random.pick(&MOUSE_STATES);
    if game == GameBoardState::Ready && not_flag(mouse) {
        MouseState::UpUp
    } else {
        mouse
    }
}

fn not_flag(mouse: MouseState) -> bool {
    matches!(mouse, MouseState::UpDownNotFlag | MouseState::ChordingNotFlag)
}

/// How much of a board is open, flagged and questioned, in hundredths.
struct Look {
    open: usize,
    flag_on_mine: usize,
    flag_on_safe: usize,
    question: usize,
    hit: usize,
}

fn look(random: &mut Random, question: bool, game: GameBoardState) -> Look {
    let before_play = matches!(game, GameBoardState::Ready | GameBoardState::PreFlaging);
    let ready = game == GameBoardState::Ready;
    Look {
        open: if before_play { 0 } else { random.pick(&[10, 50, 80, 95]) },
        flag_on_mine: if ready { 0 } else { random.pick(&[0, 30, 80, 100]) },
        flag_on_safe: if ready { 0 } else { random.pick(&[0, 0, 10, 40]) },
        question: if question { random.pick(&[0, 10, 40]) } else { 0 },
        hit: if game == GameBoardState::Loss { random.pick(&[0, 10, 50]) } else { 0 },
    }
}

fn lent(random: &mut Random, layout: &Layout, game: GameBoardState) -> Lent {
    let settings = layout.settings;
    let look = look(random, settings.question, game);
    let board = numbered(settings.rows, settings.columns, &layout.mines);
    let mines: Vec<i8> = board.iter().flatten().map(|&cell| cell as i8).collect();
    let shown = mines.iter().map(|&mine| shown_cell(random, mine, &look)).collect();
    let bits = vec![0; mines.len().div_ceil(8)];
    let mut lent = Lent { mines, shown, bits };
    suit_game(random, &mut lent, game);
    set_some_bits(random, &mut lent);
    lent
}

fn shown_cell(random: &mut Random, mine: i8, look: &Look) -> u8 {
    if mine != -1 && random.chance(look.open) {
        return mine as u8;
    }
    if mine == -1 && random.chance(look.hit) {
        return 15;
    }
    let flag = if mine == -1 { look.flag_on_mine } else { look.flag_on_safe };
    if random.chance(flag) {
        11
    } else if random.chance(look.question) {
        17
    } else {
        10
    }
}

/// Playing has a safe cell unopened and Win has none; wrong flags show as 14 only beside a mine hit.
fn suit_game(random: &mut Random, lent: &mut Lent, game: GameBoardState) {
    let safe: Vec<usize> = (0..lent.mines.len()).filter(|&cell| lent.mines[cell] != -1).collect();
    match game {
        GameBoardState::Playing if safe.iter().all(|&cell| lent.shown[cell] <= 8) => {
            let closed = random.pick(&safe);
            lent.shown[closed] = random.pick(&[10, 11]);
        }
        GameBoardState::Win => {
            for cell in safe {
                lent.shown[cell] = lent.mines[cell] as u8;
            }
        }
        GameBoardState::Loss if lent.shown.contains(&15) => {
            for cell in safe {
                if lent.shown[cell] == 11 && random.chance(80) {
                    lent.shown[cell] = 14;
                }
            }
        }
        _ => (),
    }
}

fn set_some_bits(random: &mut Random, lent: &mut Lent) {
    let share = random.pick(&[0, 20, 50, 100]);
    for cell in 0..lent.mines.len() {
        if lent.mines[cell] == -1 && random.chance(share) {
            lent.set_bit(cell);
        }
    }
}

fn position(random: &mut Random, settings: Settings, game: GameBoardState, mouse: MouseState, lent: &Lent) -> Position {
    let flags = showing(lent, |shown| shown == 11);
    let least_preflag = if game == GameBoardState::PreFlaging { flags } else { 0 };
    let least_right = usize::from(not_flag(mouse));
    let drawn = events(random);
    let events = drawn.max(least_preflag).max(least_right);
    let open = showing(lent, |shown| shown <= 8);
    let solved = count(random, 0, open);
    let solved_left = count(random, 0, solved);
    Position {
        settings,
        game,
        mouse,
        middle: random.chance(50),
        preflag: if game == GameBoardState::Ready { 0 } else { count(random, least_preflag, events) },
        events,
        left: count(random, 0, events),
        right: count(random, least_right, events),
        double: count(random, 0, events + open + showing(lent, |shown| shown == 15)),
        lce: count(random, 0, events),
        rce: count(random, 0, events),
        dce: count(random, 0, events),
        flag: flags + showing(lent, |shown| shown == 14),
        solved_left,
        solved_chord: solved - solved_left,
        unopened: unopened(lent),
    }
}

fn events(random: &mut Random) -> usize {
    match random.below(20) {
        0 => MOST_EVENTS,
        1 => MOST_EVENTS - 1,
        2 => random.between(0, MOST_EVENTS),
        _ => random.below(12),
    }
}

/// A count within its bounds, often at one of them.
fn count(random: &mut Random, low: usize, high: usize) -> usize {
    match random.below(4) {
        0 => low,
        1 => high,
        _ => random.between(low, high),
    }
}

/// An event for a position, often one that can do something there.
pub fn event(random: &mut Random, game: &Game) -> Record {
    let aimed = match random.below(4) {
        0 => chord(random, game),
        1 => click(random, game),
        _ => None,
    };
    aimed.unwrap_or_else(|| any_event(random, game))
}

fn any_event(random: &mut Random, game: &Game) -> Record {
    let code = if random.chance(4) { unknown_code(random) } else { random.below(CODES.len()) as u8 };
    let (row, column) = any_pointer(random, game, 10, 4);
    [code, row, column]
}

/// What may chord, on a cell where a chord can run.
fn chord(random: &mut Random, game: &Game) -> Option<Record> {
    let (row, column) = any_cell_with(random, game, |cell| chordable(game, cell))?;
    Some([random.pick(&[MR, M, LR, RR, L, R]), row as u8, column as u8])
}

/// What may open or flag with the buttons as they are, on a closed cell.
fn click(random: &mut Random, game: &Game) -> Option<Record> {
    let (row, column) = any_cell_with(random, game, |(row, column)| game.board.game_board[row][column] == 10)?;
    let code = match game.board.mouse_state {
        MouseState::UpUp => random.pick(&[RC, R, PF]),
        MouseState::DownUp => random.pick(&[LR, L]),
        _ => return None,
    };
    Some([code, row as u8, column as u8])
}

fn any_cell_with(random: &mut Random, game: &Game, wanted: impl Fn((usize, usize)) -> bool) -> Option<(usize, usize)> {
    let (rows, columns) = (game.board.row, game.board.column);
    let cells = (0..rows * columns).map(|cell| (cell / columns, cell % columns));
    let found: Vec<_> = cells.filter(|&cell| wanted(cell)).collect();
    (!found.is_empty()).then(|| random.pick(&found))
}

/// The call that an event goes by, the pair most often; where it is another, the event is often `l`, `r` or `m`, which they part on.
pub fn call(random: &mut Random, event: &mut Record) -> Call {
    let call = match random.below(10) {
        0 | 1 => Call::Resolve,
        2 | 3 => Call::Plain,
        _ => Call::Pair,
    };
    if call != Call::Pair && random.chance(30) {
        event[0] = random.pick(&[L, R, M]);
    }
    call
}

/// How much work is lent: what a step takes, at times a little more.
pub fn work(random: &mut Random, position: &Position) -> usize {
    work_room(position) + random.pick(&[0, 0, 1, 9])
}

/// Nothing but too little work: resolve, which is lent none, accepts, and for `m` it flips.
pub fn starve(random: &mut Random, position: &Position, event: &mut Record, work: &mut usize) {
    *work = random.below(work_room(position));
    if random.chance(50) {
        event[0] = M;
    }
}

/// Changes one thing; what comes out may be unlawful in one way or several, or lawful still.
pub fn spoil(random: &mut Random, position: &mut Position, lent: &mut Lent) {
    match random.below(29) {
        0 => spoil_size(random, position, lent),
        1 => position.settings.mode = random.pick(&[6, 7, 8, 9, 10, 17, 18, 255]),
        2 => spoil_cells(random, lent, &[-128, -2, -1, 0, 8, 9, 10, 127]),
        3 => spoil_cells(random, lent, &[-1, 0, 1, 2, 3, 8]),
        4 => lent.mines = vec![-1; lent.mines.len()],
        5 => position.settings.question = false,
        6..=9 => spoil_shown(random, position, lent),
        10 | 11 => spoil_bits(random, lent),
        12 => position.flag = near(random, position.flag),
        13..=15 => spoil_count(random, position),
        16 => position.double = position.events + near(random, showing(lent, |shown| shown <= 8 || shown == 15)),
        17 => spoil_solved(random, position, lent),
        18 => position.events = random.pick(&[0, MOST_EVENTS, MOST_EVENTS + 1]),
        19 => position.right = 0,
        20 => position.preflag = near(random, showing(lent, |shown| shown == 11)),
        21 | 22 => position.mouse = random.pick(&MOUSE_STATES),
        23 => position.settings.rules = random.pick(&[0, 3, 4, 255]),
        24 | 25 => position.unopened = near(random, position.unopened),
        _ => position.game = random.pick(&GAME_STATES),
    }
}

fn near(random: &mut Random, count: usize) -> usize {
    random.between(count.saturating_sub(1), count + 1)
}

fn spoil_size(random: &mut Random, position: &mut Position, lent: &mut Lent) {
    let sizes = [(0, 1), (1, 0), (0, 0), (65, 1), (1, 65), (64, 33), (33, 64), (46, 45), (255, 2), (2, 255)];
    (position.settings.rows, position.settings.columns) = random.pick(&sizes);
    let cells = position.settings.rows * position.settings.columns;
    *lent = Lent { mines: vec![0; cells], shown: vec![10; cells], bits: vec![0; cells.div_ceil(8)] };
}

/// What `spoil` counts on, so it comes after that, and not often: the lengths, and that no count is at its type's end.
pub fn spoil_ground(random: &mut Random, position: &mut Position, lent: &mut Lent, work: &mut usize) {
    match random.below(20) {
        0 => spoil_length(random, lent, work),
        1 => spoil_by_far(random, position),
        _ => (),
    }
}

/// One length off by one, or work that a smaller board would take.
fn spoil_length(random: &mut Random, lent: &mut Lent, work: &mut usize) {
    let Lent { mines, shown, bits } = lent;
    match random.below(4) {
        0 => mines.resize(near(random, mines.len()), 0),
        1 => shown.resize(near(random, shown.len()), 10),
        2 => bits.resize(near(random, bits.len()), 0),
        _ => *work = random.below(*work),
    }
}

fn any_cell(random: &mut Random, lent: &Lent) -> Option<usize> {
    (!lent.mines.is_empty()).then(|| random.below(lent.mines.len()))
}

/// Up to three cells, so that the first fault has others after it.
fn spoil_cells(random: &mut Random, lent: &mut Lent, values: &[i8]) {
    for _ in 0..random.between(1, 3) {
        let Some(cell) = any_cell(random, lent) else { return };
        lent.mines[cell] = random.pick(values);
    }
}

/// The flag count and the safe cells not open follow the new look every second time, so that one fault does not hide behind another.
fn spoil_shown(random: &mut Random, position: &mut Position, lent: &mut Lent) {
    let Some(cell) = any_cell(random, lent) else { return };
    lent.shown[cell] = match random.below(5) {
        0 => random.byte(),
        1 => random.pick(&[10, 11, 17]),
        2 => random.pick(&[9, 12, 13, 16, 18]),
        3 => random.pick(&[14, 15]),
        _ => lent.mines[cell].unsigned_abs(),
    };
    if random.chance(50) {
        position.flag = showing(lent, |shown| shown == 11 || shown == 14);
        position.unopened = unopened(lent);
    }
}

fn spoil_bits(random: &mut Random, lent: &mut Lent) {
    if let Some(bit) = (!lent.bits.is_empty()).then(|| random.below(8 * lent.bits.len())) {
        lent.set_bit(bit);
    }
}

fn spoil_count(random: &mut Random, position: &mut Position) {
    let bound = near(random, position.events);
    let p = position;
    let counts = [&mut p.left, &mut p.right, &mut p.lce, &mut p.rce, &mut p.dce, &mut p.preflag];
    *counts[random.below(6)] = bound;
}

/// The largest number that a count can hold.
fn spoil_by_far(random: &mut Random, p: &mut Position) {
    let counts = [
        &mut p.preflag,
        &mut p.events,
        &mut p.left,
        &mut p.right,
        &mut p.double,
        &mut p.lce,
        &mut p.rce,
        &mut p.dce,
        &mut p.flag,
        &mut p.solved_left,
        &mut p.solved_chord,
        &mut p.unopened,
    ];
    *counts[random.below(12)] = u32::MAX as usize;
}

fn spoil_solved(random: &mut Random, position: &mut Position, lent: &Lent) {
    let sum = near(random, showing(lent, |shown| shown <= 8));
    position.solved_left = count(random, 0, sum);
    position.solved_chord = sum - position.solved_left;
}
