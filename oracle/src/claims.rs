// Claims, as document 02 (Req 13) has them: the line of the checker, what the second program writes, and visiting books by chance.

use crate::book::{self, Book, Fault};
use crate::books::{self, Kind};
use crate::game::Game;
use crate::random::Random;

/// The count byte, nine counts of four bytes each, one byte of game state.
const SECTION: usize = 1 + 9 * 4 + 1;

type Values = [u32; 10];

pub fn check(bytes: &[u8]) -> String {
    match checked(bytes) {
        Ok(()) => "accepted\n".into(),
        Err(refusal) => refusal + "\n",
    }
}

fn checked(bytes: &[u8]) -> Result<(), String> {
    let (book, end) = book::sections(bytes).map_err(refused)?;
    let claims = section(bytes, end).map_err(refused)?;
    let values = values(&play(&book)?);
    match (0..10).find(|&i| claims[i] != values[i]) {
        Some(i) => Err(format!("refused 83 claim {} says {} is {}", i + 1, claims[i], values[i])),
        None => Ok(()),
    }
}

/// What the second program writes: the book with its claims, or the line of its refusal.
pub fn claim(bytes: &[u8]) -> Vec<u8> {
    match claimed(bytes) {
        Ok(values) => with_section(bytes, 9, values),
        Err(refusal) => (refusal + "\n").into_bytes(),
    }
}

fn claimed(bytes: &[u8]) -> Result<Values, String> {
    let book = book::read(bytes).map_err(refused)?;
    let game = play(&book)?;
    if !game.ended() {
        return Err("refused 82".into());
    }
    Ok(values(&game))
}

fn refused(fault: Fault) -> String {
    format!("refused {} at {}", fault.number, fault.place)
}

/// The game after a book's last event, or the refusal of the first event that is refused.
fn play(book: &Book) -> Result<Game, String> {
    let mut game = Game::setup(book.settings, &book.mines).expect("the book's reader has tested what setup tests");
    for (before, record) in book.events.chunks_exact(3).enumerate() {
        if game.step(record[0], record[1].into(), record[2].into()) >= 20 {
            return Err(format!("refused 81 event {}", before + 1));
        }
    }
    Ok(game)
}

/// The nine counts as in the printout, then the game state.
fn values(game: &Game) -> Values {
    let b = &game.board;
    let counts = [b.left, b.right, b.double, b.lce, b.rce, b.dce, b.flag, b.bbbv_solved_left, b.bbbv_solved_chord];
    let mut values = [0; 10];
    for (value, count) in values.iter_mut().zip(counts) {
        *value = count as u32;
    }
    values[9] = game.state_number() as u32;
    values
}

/// The claims that stand at a place of the bytes, up to their end.
fn section(bytes: &[u8], at: usize) -> Result<Values, Fault> {
    let short = || Fault { number: 40, place: bytes.len() };
    if *bytes.get(at).ok_or_else(short)? != 9 {
        return Err(Fault { number: 80, place: at });
    }
    let claims = bytes.get(at + 1..at + SECTION).ok_or_else(short)?;
    if bytes.len() > at + SECTION {
        return Err(Fault { number: 43, place: at + SECTION });
    }
    let mut values = [0; 10];
    for (value, four) in values.iter_mut().zip(claims.chunks_exact(4)) {
        *value = four.iter().rev().fold(0, |all, &byte| 256 * all + u32::from(byte));
    }
    values[9] = claims[36].into();
    Ok(values)
}

fn with_section(book: &[u8], count: u8, values: Values) -> Vec<u8> {
    let mut bytes = book.to_vec();
    bytes.push(count);
    for value in &values[..9] {
        bytes.extend(value.to_le_bytes());
    }
    bytes.push(values[9] as u8);
    bytes
}

/// A book that another club sends: right claims, wrong ones, or a section that is broken.
pub fn visiting(seed: u64, number: u64) -> Vec<u8> {
    let random = &mut Random::new(seed.wrapping_add(13), number);
    let book = books::book(seed, number, Kind::Mixed);
    let right = book::read(&book).ok().and_then(|read| play(&read).ok()).map_or([0; 10], |game| values(&game));
    match random.below(12) {
        0 => book,
        1 => with_section(&book, random.byte(), right),
        2 => {
            let mut bytes = with_section(&book, 9, right);
            bytes.truncate(book.len() + random.between(1, SECTION - 1));
            bytes
        }
        3 => {
            let mut bytes = with_section(&book, 9, right);
            bytes.extend((0..random.between(1, 40)).map(|_| random.byte()));
            bytes
        }
        4..=8 => {
            let mut values = right;
            for _ in 0..random.between(1, 3) {
                let value = &mut values[random.below(10)];
                *value = random.pick(&[0, 1, value.wrapping_add(1), value.wrapping_add(256), value.wrapping_add(65_536), !*value, u32::MAX]);
            }
            with_section(&book, 9, values)
        }
        _ => with_section(&book, 9, right),
    }
}
