// The rows of whole games, of clicks in the midst of a game, and of single checked steps.
use crate::boards::{Board, Chance};
use crate::flow::{one, By, Played};
use crate::measure::Way;
use crate::play::{actions, clicks, recording, Action, Kind, MV};
use std::ops::Range;

const GAMES: u64 = 10;

pub struct Size {
    pub rows: usize,
    pub columns: usize,
    pub mines: usize,
}

pub const SIZES: [Size; 4] = [
    Size { rows: 9, columns: 9, mines: 10 },
    Size { rows: 16, columns: 16, mines: 40 },
    Size { rows: 16, columns: 30, mines: 99 },
    Size { rows: 64, columns: 32, mines: 422 },
];

fn boards(size: &Size) -> Vec<Board> {
    (1..=GAMES).map(|seed| Board::new(size.rows, size.columns, size.mines, seed)).collect()
}

fn games(boards: &[Board], mode: u8, flags: bool) -> Vec<Vec<Action>> {
    let play = |(seed, board): (usize, &Board)| actions(board, mode, flags, &mut Chance(seed as u64));
    boards.iter().enumerate().map(play).collect()
}

fn whole(way: Way) {
    for size in &SIZES {
        let boards = boards(size);
        for flags in [false, true] {
            for mode in [0, 11, 12, 13] {
                let games = games(&boards, mode, flags);
                let played = |(board, actions): (_, &Vec<Action>)| Played {
                    board,
                    mode,
                    before: Vec::new(),
                    events: recording(actions),
                };
                let played: Vec<Played> = boards.iter().zip(&games).map(played).collect();
                let hand = if flags { "flags" } else { "no flags" };
                one(
                    way,
                    &format!("game, {} x {}, mode {mode}, {hand}", size.rows, size.columns),
                    By::StepFlow,
                    &played,
                );
            }
        }
    }
}

/// The action of some kinds, among the game's actions of a range, whose position is nearest to half of the safe cells opened.
fn midst(board: &Board, actions: &[Action], range: Range<usize>, kinds: &[Kind]) -> Option<usize> {
    let safe = board.ours.iter().filter(|&&value| value != -1).count();
    let candidates = range.filter(|&n| kinds.contains(&actions[n].kind));
    candidates.min_by_key(|&n| (2 * actions[n].opened).abs_diff(safe))
}

const CLICKS: [(&str, u8, bool, Kind); 8] = [
    ("left on a number", 0, false, Kind::Number),
    ("left on a 0", 0, false, Kind::Zero),
    ("right", 0, true, Kind::Flag),
    ("chord", 0, true, Kind::Chord),
    ("chord, mode 11", 11, true, Kind::Chord),
    ("right, mode 12", 12, true, Kind::Flag),
    ("chord, mode 12", 12, true, Kind::Chord),
    ("right, mode 13", 13, true, Kind::Flag),
];

fn in_midst(way: Way) {
    for size in &SIZES[2..] {
        let boards = boards(size);
        for (name, mode, flags, kind) in CLICKS {
            let games = games(&boards, mode, flags);
            let played = |(board, actions): (_, &Vec<Action>)| {
                let n = midst(board, actions, 1..actions.len(), &[kind])?;
                Some(Played { board, mode, before: clicks(&actions[..n]), events: actions[n].events() })
            };
            let played: Vec<Played> = boards.iter().zip(&games).filter_map(played).collect();
            assert!(!played.is_empty(), "{name}: no game has one");
            one(way, &format!("click, {} x {}, {name}", size.rows, size.columns), By::StepFlow, &played);
        }
        // The passes of mode 13 leave no chord to the player: one on the cell that a left click opened makes both run.
        let games = games(&boards, 13, true);
        let played = |(board, actions): (_, &Vec<Action>)| {
            let n = midst(board, actions, 0..actions.len() - 1, &[Kind::Number, Kind::Zero])?;
            let chord = Action { kind: Kind::Chord, ..actions[n] };
            Some(Played { board, mode: 13, before: clicks(&actions[..=n]), events: chord.events() })
        };
        let played: Vec<Played> = boards.iter().zip(&games).filter_map(played).collect();
        assert!(!played.is_empty(), "mode 13: no game has a cell to chord");
        one(way, &format!("click, {} x {}, chord, mode 13", size.rows, size.columns), By::StepFlow, &played);
    }
}

fn checked(way: Way) {
    for size in &SIZES {
        let boards = boards(size);
        let games = games(&boards, 0, true);
        let played = |(board, actions): (_, &Vec<Action>)| {
            let n = midst(board, actions, 1..actions.len(), &[Kind::Flag]).expect("a flag");
            let (row, column) = actions[n].cell;
            Played { board, mode: 0, before: clicks(&actions[..n]), events: vec![(MV, row, column)] }
        };
        let played: Vec<Played> = boards.iter().zip(&games).map(played).collect();
        one(way, &format!("checked step, {} x {}, a move", size.rows, size.columns), By::Step, &played);
    }
}

/// One click is too short for the clock beside what was played before it.
pub fn rows(way: Way) {
    whole(way);
    if let Way::Instructions = way {
        in_midst(way);
        checked(way);
    }
}
