// The reference printout of a game book, byte for byte as document 01 has it, with left to solve as document 02 (Req 04) has it.

use crate::board::{left_to_solve, total};
use crate::book::{self, Book, Fault};
use crate::game::Game;
use std::fmt::Write;

/// An event: its code, row and column, and what it is answered.
pub type Step = fn(&mut Game, u8, usize, usize) -> u16;

pub fn printout(bytes: &[u8]) -> String {
    printout_by(book::read(bytes), Game::step)
}

/// What a game of such steps prints of a book, or of its fault.
pub fn printout_by(read: Result<Book, Fault>, step: Step) -> String {
    let mut out = String::new();
    match read {
        Ok(book) => game(&mut out, &book, step),
        Err(fault) => line(&mut out, format_args!("refused {} at {}", fault.number, fault.place)),
    }
    out
}

fn line(out: &mut String, text: std::fmt::Arguments) {
    writeln!(out, "{text}").expect("a string takes every line");
}

fn game(out: &mut String, book: &Book, step: Step) {
    let s = book.settings;
    let mut game = Game::setup(s, &book.mines).expect("the book's reader has tested what setup tests");
    line(out, format_args!("game {} {} {} {}", s.rows, s.columns, s.mode, u8::from(s.question)));
    events(out, &mut game, book.events, step);
    counts(out, &game);
    bv(out, &game);
    shown(out, &game);
}

fn events(out: &mut String, game: &mut Game, records: &[u8], step: Step) {
    for (before, record) in records.chunks_exact(3).enumerate() {
        let answer = step(game, record[0], record[1].into(), record[2].into());
        line(out, format_args!("{} {} {} {}", before + 1, answer, game.state_number(), game.mouse_number()));
        if answer >= 20 {
            return;
        }
    }
}

fn counts(out: &mut String, game: &Game) {
    let b = &game.board;
    assert_eq!(b.get_bbbv_solved(), b.bbbv_solved_left + b.bbbv_solved_chord); // the Rust's own sum
    let counts = [b.left, b.right, b.double, b.lce, b.rce, b.dce, b.flag, b.bbbv_solved_left, b.bbbv_solved_chord];
    line(out, format_args!("counts {}", spaced(&counts)));
}

fn bv(out: &mut String, game: &Game) {
    let b = &game.board;
    line(out, format_args!("bv {} {}", total(&b.board), left_to_solve(&b.board, &b.game_board)));
}

fn shown(out: &mut String, game: &Game) {
    for row in &game.board.game_board {
        line(out, format_args!("{}", spaced(row)));
    }
}

/// Numbers between single spaces.
pub fn spaced<T: ToString>(numbers: &[T]) -> String {
    numbers.iter().map(T::to_string).collect::<Vec<_>>().join(" ")
}
