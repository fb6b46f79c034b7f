// The tests 20 to 264 of a position and what is lent with it, written from documents 01 and 02 alone.

use crate::board::{mode_allowed, neighbours, rules_allowed, size_allowed};
use crate::game::MOST_EVENTS;
use crate::position::{Lent, Position};
use original::{GameBoardState, MouseState};

type Test = fn(&Position, &Lent) -> bool;

/// A number, and for 22 and 23 the row and the column of the first faulty cell.
pub struct Refusal {
    pub number: u16,
    pub place: Option<(usize, usize)>,
}

impl Refusal {
    fn nowhere(number: u16) -> Refusal {
        Refusal { number, place: None }
    }
}

/// `work` is how many numbers of work are lent, None for a call that is lent no work.
pub fn refusal(position: &Position, lent: &Lent, work: Option<usize>) -> Option<Refusal> {
    let (rows, columns) = (position.settings.rows, position.settings.columns);
    if !size_allowed(rows, columns) {
        return Some(Refusal::nowhere(20));
    }
    if !boards_fit(position, lent) || work.is_some_and(|work| work < work_room(position)) {
        return Some(Refusal::nowhere(21));
    }
    let at = |number, cell: usize| Refusal { number, place: Some((cell / columns, cell % columns)) };
    if let Some(cell) = lent.mines.iter().position(|value| !(-1..=8).contains(value)) {
        return Some(at(22, cell));
    }
    if let Some(cell) = (0..lent.mines.len()).find(|&cell| miscounted(rows, columns, lent, cell)) {
        return Some(at(23, cell));
    }
    let tests: [(u16, Test); 6] = [
        (24, |_, lent| lent.mines.iter().any(|&cell| cell != -1)),
        (25, |position, _| mode_allowed(position.settings.mode)),
        (261, shown_values),
        (262, |_, lent| bits(lent)),
        (263, counts),
        (264, states),
    ];
    tests.iter().find(|(_, passes)| !passes(position, lent)).map(|&(number, _)| Refusal::nowhere(number))
}

fn boards_fit(position: &Position, lent: &Lent) -> bool {
    let cells = position.settings.rows * position.settings.columns;
    lent.mines.len() == cells && lent.shown.len() == cells && lent.bits.len() == cells.div_ceil(8)
}

/// The least work that a step takes.
pub fn work_room(position: &Position) -> usize {
    8 * position.settings.rows * position.settings.columns + 8
}

/// A safe cell whose number is not its count of mine neighbours.
fn miscounted(rows: usize, columns: usize, lent: &Lent, cell: usize) -> bool {
    let near = neighbours(rows, columns, (cell / columns, cell % columns));
    let mines = near.filter(|&(row, column)| lent.mines[row * columns + column] == -1).count();
    lent.mines[cell] != -1 && lent.mines[cell] as usize != mines
}

fn shown_values(position: &Position, lent: &Lent) -> bool {
    let lost = position.game == GameBoardState::Loss;
    let mine_hit = lent.shown.contains(&15);
    lent.mines.iter().zip(&lent.shown).all(|(&mine, &shown)| match shown {
        0..=8 => mine == shown as i8,
        10 | 11 => true,
        14 => lost && mine != -1 && mine_hit,
        15 => lost && mine == -1,
        17 => position.settings.question,
        _ => false,
    })
}

/// Bits only on mines, spare bits 0.
fn bits(lent: &Lent) -> bool {
    (0..8 * lent.bits.len()).all(|cell| !lent.bit(cell) || lent.mines.get(cell) == Some(&-1))
}

fn counts(position: &Position, lent: &Lent) -> bool {
    let p = position;
    let open = showing(lent, |shown| shown <= 8);
    let open_or_hit = open + showing(lent, |shown| shown == 15);
    p.events <= MOST_EVENTS
        && [p.left, p.right, p.lce, p.rce, p.dce, p.preflag].iter().all(|&count| count <= p.events)
        && p.double <= p.events + open_or_hit
        && p.solved_left + p.solved_chord <= open
        && p.flag == showing(lent, |shown| shown == 11 || shown == 14)
        && p.unopened == unopened(lent)
}

fn states(position: &Position, lent: &Lent) -> bool {
    let flags = showing(lent, |shown| shown == 11);
    let nothing_open = showing(lent, |shown| shown <= 8) == 0;
    let not_flag = matches!(position.mouse, MouseState::UpDownNotFlag | MouseState::ChordingNotFlag);
    let by_game = match position.game {
        GameBoardState::Ready => flags == 0 && position.preflag == 0 && !not_flag && nothing_open,
        GameBoardState::PreFlaging => nothing_open && flags <= position.preflag,
        GameBoardState::Playing => unopened(lent) > 0,
        GameBoardState::Win => unopened(lent) == 0,
        _ => true,
    };
    by_game && (!not_flag || position.right >= 1) && rules_allowed(position.settings.rules)
}

/// How many safe cells are not open.
pub fn unopened(lent: &Lent) -> usize {
    lent.mines.iter().zip(&lent.shown).filter(|&(&mine, &shown)| mine != -1 && shown > 8).count()
}

pub fn showing(lent: &Lent, asked: impl Fn(u8) -> bool) -> usize {
    lent.shown.iter().filter(|&&shown| asked(shown)).count()
}
