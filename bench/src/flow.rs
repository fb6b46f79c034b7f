// Rows of events: the Rust's `step` on each, against our `step_flow`, or against our `step` for one event.
use crate::boards::{same, Board};
use crate::library::{self, Lent};
use crate::measure::{row, Side, Way};
use crate::play::{original, Event, WORDS};
use original::Original;

/// A game: what is played before anything counts, and what counts.
pub struct Played<'a> {
    pub board: &'a Board,
    pub mode: u8,
    pub before: Vec<Event>,
    pub events: Vec<Event>,
}

#[derive(Clone, Copy, PartialEq)]
pub enum By {
    StepFlow,
    Step,
}

struct Theirs<'a> {
    games: &'a [Played<'a>],
    events: Vec<Vec<(&'static str, (usize, usize))>>,
    originals: Vec<Original>,
}

/// Our calls begin with a setup: the same calls without the events that count are the base.
struct Ours<'a> {
    games: &'a [Played<'a>],
    by: By,
    before: Vec<Vec<u8>>,
    all: Vec<Vec<u8>>,
    lent: Vec<Lent>,
}

fn words(events: &[Event]) -> Vec<(&'static str, (usize, usize))> {
    events.iter().map(|&(code, row, column)| (WORDS[usize::from(code)], (row, column))).collect()
}

fn bytes(events: &[Event]) -> Vec<u8> {
    events.iter().flat_map(|&(code, row, column)| [code, row as u8, column as u8]).collect()
}

/// The Rust's game when its events begin to count.
fn begun(game: &Played) -> Original {
    let mut board = original(game.board, game.mode);
    for (word, place) in words(&game.before) {
        board.step(word, place).expect("accepted");
    }
    board
}

impl Side for Theirs<'_> {
    fn prepare(&mut self) {
        self.originals = self.games.iter().map(begun).collect();
    }

    fn play(&mut self) {
        for (original, events) in self.originals.iter_mut().zip(&self.events) {
            for &(word, place) in events {
                let _ = original.step(word, place);
            }
        }
    }
}

impl Side for Ours<'_> {
    fn prepare(&mut self) {
        self.lent = self.games.iter().map(|game| Lent::new(game.board)).collect();
    }

    fn base(&mut self) {
        for ((game, events), lent) in self.games.iter().zip(&self.before).zip(&mut self.lent) {
            lent.number = library::flow(game.board, game.mode, events, lent);
        }
    }

    fn play(&mut self) {
        for ((game, events), lent) in self.games.iter().zip(&self.all).zip(&mut self.lent) {
            lent.number = match self.by {
                By::StepFlow => library::flow(game.board, game.mode, events, lent),
                By::Step => library::step(game.board, game.mode, events, lent),
            };
        }
    }
}

pub fn one(way: Way, name: &str, by: By, games: &[Played]) {
    let before: Vec<Vec<u8>> = games.iter().map(|game| bytes(&game.before)).collect();
    let all = games.iter().zip(&before).map(|(game, before)| [&before[..], &bytes(&game.events)].concat()).collect();
    let events = games.iter().map(|game| words(&game.events)).collect();
    let mut theirs = Theirs { games, events, originals: Vec::new() };
    let mut ours = Ours { games, by, before, all, lent: Vec::new() };
    row(way, name, [&mut theirs, &mut ours]);
    for ((game, theirs), ours) in games.iter().zip(&theirs.originals).zip(&ours.lent) {
        assert!(by == By::Step || ours.number == 0, "{name}: refused by {}", ours.number);
        assert!(same(&theirs.game_board, &ours.shown), "{name}: the boards differ");
        let opened = if by == By::Step { open(theirs) - open(&begun(game)) } else { 0 };
        assert!(counts(theirs, opened) == ours.counts, "{name}: the counts differ");
        assert!(ours.work.iter().all(|&value| value == 0), "{name}: the work is not 0 again");
    }
}

fn counts(o: &Original, opened: usize) -> [u32; 10] {
    [o.left, o.right, o.double, o.lce, o.rce, o.dce, o.flag, o.bbbv_solved_left, o.bbbv_solved_chord, opened]
        .map(|n| n as u32)
}

fn open(o: &Original) -> usize {
    o.game_board.iter().flatten().filter(|&&value| value <= 8).count()
}
