// The picture of document 02, plain PGM, from the request alone: what is drawn of a book, and what is printed of any bytes that are read as a picture.

use crate::board::{size_allowed, Rows};
use crate::book;
use crate::game::Game;
use crate::printout::spaced;

/// The values that a cell can show.
pub const SHOWN: [u64; 14] = [0, 1, 2, 3, 4, 5, 6, 7, 8, 10, 11, 14, 15, 17];

/// A book's last shown board, or the line of its refusal.
pub fn last_board(bytes: &[u8]) -> Result<Rows, String> {
    let book = book::read(bytes).map_err(|fault| format!("refused {} at {}\n", fault.number, fault.place))?;
    let mut game = Game::setup(book.settings, &book.mines).expect("the book's reader has tested what setup tests");
    for record in book.events.chunks_exact(3) {
        if game.step(record[0], record[1].into(), record[2].into()) >= 20 {
            break;
        }
    }
    Ok(game.board.game_board)
}

/// The picture of a book's last shown board, or its refusal.
pub fn draw(bytes: &[u8]) -> String {
    let board = match last_board(bytes) {
        Ok(board) => board,
        Err(refusal) => return refusal,
    };
    let mut picture = format!("P2\n{}\n{}\n17\n", board[0].len(), board.len());
    for cell in board.iter().flatten() {
        picture += &format!("{cell}\n");
    }
    picture
}

/// A picture's rows, or its refusal.
pub fn view(bytes: &[u8]) -> String {
    match cells(bytes) {
        Ok(rows) => rows.iter().map(|row| spaced(row) + "\n").collect(),
        Err(number) => format!("refused {number}\n"),
    }
}

fn cells(bytes: &[u8]) -> Result<Vec<Vec<u64>>, u16> {
    let Some(rest) = bytes.strip_prefix(b"P2") else {
        return Err(60);
    };
    if !rest.first().is_none_or(|&byte| space(byte) || byte == b'#') {
        return Err(60);
    }
    let mut reader = Reader { rest };
    let width = reader.number(61, true, true)?;
    let height = reader.number(61, true, true)?;
    let (Ok(columns), Ok(rows)) = (usize::try_from(width), usize::try_from(height)) else {
        return Err(61);
    };
    if columns > 64 || rows > 64 || !size_allowed(rows, columns) {
        return Err(61);
    }
    if reader.number(62, true, false)? != 17 {
        return Err(62);
    }
    let mut board = Vec::new();
    for _ in 0..rows {
        let mut row = Vec::new();
        for _ in 0..columns {
            let value = reader.number(63, false, false)?;
            if !SHOWN.contains(&value) {
                return Err(63);
            }
            row.push(value);
        }
        board.push(row);
    }
    if reader.rest.iter().all(|&byte| space(byte)) {
        Ok(board)
    } else {
        Err(64)
    }
}

fn space(byte: u8) -> bool {
    matches!(byte, b' ' | b'\t' | b'\r' | b'\n')
}

struct Reader<'a> {
    rest: &'a [u8],
}

impl Reader<'_> {
    fn drop_while(&mut self, test: impl Fn(u8) -> bool) -> usize {
        let count = self.rest.iter().take_while(|&&byte| test(byte)).count();
        self.rest = &self.rest[count..];
        count
    }

    /// The next number, at most the largest there is; `comments` may stand before it, and `#` ends it.
    fn number(&mut self, fault: u16, comments: bool, hash_ends: bool) -> Result<u64, u16> {
        self.drop_while(space);
        while comments && self.rest.first() == Some(&b'#') {
            self.drop_while(|byte| byte != b'\n' && byte != b'\r');
            self.drop_while(space);
        }
        if self.rest.is_empty() {
            return Err(64);
        }
        let from = self.rest;
        let digits = &from[..self.drop_while(|byte| byte.is_ascii_digit())];
        let ended = self.rest.first().is_none_or(|&byte| space(byte) || hash_ends && byte == b'#');
        if digits.is_empty() || !ended {
            return Err(fault);
        }
        Ok(digits.iter().fold(0, |n: u64, &digit| n.saturating_mul(10).saturating_add(u64::from(digit - b'0'))))
    }
}
