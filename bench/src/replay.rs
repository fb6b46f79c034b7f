// The rows of `replay` as a whole: a book is read, set up, played and printed. The Rust's side is the oracle's printout over the original.
use crate::boards::{Board, Chance};
use crate::games::SIZES;
use crate::library::{print_book, Rooms};
use crate::measure::{row, Side, Way};
use crate::play::{actions, recording};
use crate::printout::printout;

const BOOKS: u64 = 3;

/// The most events that a book holds.
pub const MOST: usize = 8_192;

/// The book of a recorded game, which is cut off where a book is full.
pub fn book(board: &Board, mode: u8, flags: bool, seed: u64) -> Vec<u8> {
    let mut events = recording(&actions(board, mode, flags, &mut Chance(seed)));
    events.truncate(MOST);
    let mines: Vec<usize> = (0..board.cells()).filter(|&cell| board.ours[cell] == -1).collect();
    let length = |n: usize| [n as u8, (n >> 8) as u8];
    let mut bytes = vec![4, board.rows as u8, board.columns as u8, mode, 0];
    bytes.extend(length(mines.len()));
    bytes.extend(mines.iter().flat_map(|cell| [(cell / board.columns) as u8, (cell % board.columns) as u8]));
    bytes.extend(length(events.len()));
    bytes.extend(events.iter().flat_map(|&(code, row, column)| [code, row as u8, column as u8]));
    bytes
}

struct Theirs<'a> {
    books: &'a [Vec<u8>],
    texts: Vec<String>,
}

struct Ours<'a> {
    books: &'a [Vec<u8>],
    rooms: Rooms,
    texts: Vec<Vec<u8>>,
}

impl Side for Theirs<'_> {
    fn prepare(&mut self) {
        self.texts.clear();
    }

    fn play(&mut self) {
        for book in self.books {
            self.texts.push(printout(book));
        }
    }
}

impl Side for Ours<'_> {
    fn prepare(&mut self) {
        self.texts.clear();
    }

    fn play(&mut self) {
        for book in self.books {
            let length = print_book(book, &mut self.rooms);
            self.texts.push(self.rooms.text[..length].to_vec());
        }
    }
}

pub fn rows(way: Way) {
    for size in &SIZES {
        for (mode, flags, hand) in [(0, false, "no flags"), (0, true, "flags"), (13, true, "flags")] {
            let books = |seed| book(&Board::new(size.rows, size.columns, size.mines, seed), mode, flags, seed);
            let books: Vec<Vec<u8>> = (1..=BOOKS).map(books).collect();
            let mut theirs = Theirs { books: &books, texts: Vec::new() };
            let mut ours = Ours { books: &books, rooms: Rooms::new(), texts: Vec::new() };
            let name = format!("replay, {} x {}, mode {mode}, {hand}", size.rows, size.columns);
            row(way, &name, [&mut theirs, &mut ours]);
            let same = theirs.texts.iter().zip(&ours.texts).all(|(theirs, ours)| theirs.as_bytes() == ours);
            assert!(same && theirs.texts.len() == ours.texts.len(), "{name}: the printouts differ");
        }
    }
}
