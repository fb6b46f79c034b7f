// The rows of the slider: one drag over a book of 8,192 events with a position kept after every 64. The Rust keeps none, so its side plays the first n
// events from the start.
use crate::boards::Board;
use crate::book::read;
use crate::game::Game;
use crate::library::{drag, Slides};
use crate::measure::{row, Side, Way};
use crate::replay::{book, MOST};

const K: usize = 64;

struct Theirs<'a> {
    book: &'a [u8],
    n: usize,
    shown: Vec<u8>,
}

struct Ours<'a> {
    book: &'a [u8],
    before: &'a [usize],
    n: usize,
    slides: Slides,
}

impl Side for Theirs<'_> {
    fn prepare(&mut self) {}

    fn play(&mut self) {
        let book = read(self.book).ok().expect("a whole book");
        let mut game = Game::setup(book.settings, &book.mines).expect("an accepted board");
        for record in book.events.chunks_exact(3).take(self.n) {
            game.step(record[0], record[1].into(), record[2].into());
        }
        self.shown = game.board.game_board.concat().iter().map(|&value| value as u8).collect();
    }
}

impl Side for Ours<'_> {
    fn prepare(&mut self) {
        self.slides.kept = 0;
        for &n in self.before {
            drag(self.book, n, K, &mut self.slides);
        }
    }

    fn play(&mut self) {
        drag(self.book, self.n, K, &mut self.slides);
    }
}

pub fn rows(way: Way) {
    let board = Board::new(16, 30, 99, 1);
    let book = book(&board, 0, true, 1);
    let events = read(&book).ok().expect("a whole book").events.len() / 3;
    assert_eq!(events, MOST, "a book that is full");
    for (n, before, name) in [
        (events, &[][..], "first drag to the end"),
        (events - 10, &[events][..], "back by 10"),
        (events, &[events, events - 10][..], "to the end again"),
    ] {
        let mut theirs = Theirs { book: &book, n, shown: Vec::new() };
        let mut ours = Ours { book: &book, before, n, slides: Slides::new(16, 30, events / K) };
        let name = format!("drag, 16 x 30, k {K}, {name}");
        row(way, &name, [&mut theirs, &mut ours]);
        assert!(theirs.shown == ours.slides.shown, "{name}: the shown boards differ");
    }
}
