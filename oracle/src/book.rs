// Reading a game book: three sections, front to back; the first fault answers with its number and byte place.

use crate::board::{mode_allowed, rules_allowed, size_allowed};
use crate::game::Settings;

pub const MOST_BOOK_EVENTS: usize = 8_192;

pub struct Book<'a> {
    pub settings: Settings,
    pub mines: Vec<(usize, usize)>,
    /// The records, three bytes each: code, row, column.
    pub events: &'a [u8],
}

pub struct Fault {
    pub number: u16,
    pub place: usize,
}

pub fn read(bytes: &[u8]) -> Result<Book<'_>, Fault> {
    read_modes(bytes, mode_allowed)
}

/// A book whose mode passes a test of the caller's.
pub fn read_modes(bytes: &[u8], allowed: fn(u16) -> bool) -> Result<Book<'_>, Fault> {
    let (book, end) = sections_of(bytes, allowed)?;
    if end < bytes.len() {
        return fault(43, end);
    }
    Ok(book)
}

/// The three sections, and where the last event ends.
pub fn sections(bytes: &[u8]) -> Result<(Book<'_>, usize), Fault> {
    sections_of(bytes, mode_allowed)
}

fn sections_of(bytes: &[u8], allowed: fn(u16) -> bool) -> Result<(Book<'_>, usize), Fault> {
    let mut reader = Reader { bytes, at: 0 };
    let settings = reader.settings(allowed)?;
    let mines = reader.mines(&settings)?;
    let events = reader.events()?;
    Ok((Book { settings, mines, events }, reader.at))
}

struct Reader<'a> {
    bytes: &'a [u8],
    at: usize,
}

fn fault<T>(number: u16, place: usize) -> Result<T, Fault> {
    Err(Fault { number, place })
}

impl<'a> Reader<'a> {
    fn take(&mut self, count: usize) -> Result<&'a [u8], Fault> {
        let Some(part) = self.bytes.get(self.at..self.at + count) else {
            return fault(40, self.bytes.len());
        };
        self.at += count;
        Ok(part)
    }

    fn count(&mut self) -> Result<usize, Fault> {
        let part = self.take(2)?;
        Ok(usize::from(part[0]) + 256 * usize::from(part[1]))
    }

    fn settings(&mut self, allowed: fn(u16) -> bool) -> Result<Settings, Fault> {
        let count = self.take(1)?[0];
        if count != 4 && count != 5 {
            return fault(41, 0);
        }
        let part = self.take(count.into())?;
        let (rows, columns, mode) = (usize::from(part[0]), usize::from(part[1]), u16::from(part[2]));
        let rules = if count == 5 { part[4] } else { 1 };
        if part[3] > 1 {
            return fault(41, 4);
        }
        if !size_allowed(rows, columns) {
            return fault(20, 1);
        }
        if !allowed(mode) {
            return fault(25, 3);
        }
        if !rules_allowed(rules) {
            return fault(45, 5);
        }
        Ok(Settings { rows, columns, mode, question: part[3] == 1, rules })
    }

    fn mines(&mut self, settings: &Settings) -> Result<Vec<(usize, usize)>, Fault> {
        let start = self.at;
        let count = self.count()?;
        if count >= settings.rows * settings.columns {
            return fault(24, start);
        }
        let mut mines = Vec::with_capacity(count);
        for _ in 0..count {
            let place = self.at;
            let part = self.take(2)?;
            let mine = (usize::from(part[0]), usize::from(part[1]));
            let on_board = mine.0 < settings.rows && mine.1 < settings.columns;
            if !on_board || mines.last().is_some_and(|&before| before >= mine) {
                return fault(42, place);
            }
            mines.push(mine);
        }
        Ok(mines)
    }

    fn events(&mut self) -> Result<&'a [u8], Fault> {
        let start = self.at;
        let count = self.count()?;
        if count > MOST_BOOK_EVENTS {
            return fault(44, start);
        }
        self.take(3 * count)
    }
}
