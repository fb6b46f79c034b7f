// The slider of Req 11: drags by chance, and what is told of each, every one played from the start.

use crate::book::{read, Book};
use crate::game::Game;
use crate::printout::spaced;
use crate::random::Random;

/// The bytes of a kept position before its cells and bits.
const HEAD: usize = 56;

/// What `scrub` prints of a book for these words: K, ROOM, and numbers of events or `reset`.
pub fn told(bytes: &[u8], words: &[&str]) -> Result<String, String> {
    let book = match read(bytes) {
        Ok(book) => book,
        Err(fault) => return Ok(format!("refused {} at {}\n", fault.number, fault.place)),
    };
    let [k, room, drags @ ..] = words else {
        return Err("K and ROOM are missing".into());
    };
    let (k, room) = (number(k)?, number(room)?);
    let cells = book.settings.rows * book.settings.columns;
    let size = HEAD + cells + cells.div_ceil(8);
    let mut kept = 0;
    let mut out = String::new();
    for word in drags {
        if *word == "reset" {
            kept = 0;
            out += "reset\n";
            continue;
        }
        let n = number(word)?;
        let refusal = if n > book.events.len() / 3 {
            70
        } else if k == 0 {
            71
        } else if room != 0 && room < size {
            72
        } else {
            let (game, answer) = played(&book, n);
            out += &line(kept.min(n / k) * k, answer, &game);
            kept = kept.max((room / size).min(game.events / k));
            continue;
        };
        out += &format!("refused {refusal}\n");
    }
    Ok(out)
}

/// The first n events, up to a refused one, whose number is told.
fn played(book: &Book, n: usize) -> (Game, u16) {
    let mut game = Game::setup(book.settings, &book.mines).expect("the book's reader has tested what setup tests");
    for record in book.events.chunks_exact(3).take(n) {
        let answer = game.step(record[0], record[1].into(), record[2].into());
        if answer >= 20 {
            return (game, answer);
        }
    }
    (game, 0)
}

fn line(start: usize, answer: u16, game: &Game) -> String {
    let b = &game.board;
    let hidden = b.hidden();
    let counts = [b.left, b.right, b.double, b.lce, b.rce, b.dce, b.flag, b.bbbv_solved_left, b.bbbv_solved_chord, hidden.pre_flag_num];
    let states = format!("{} {} {}", game.state_number(), game.mouse_number(), u8::from(hidden.middle_hold));
    let mut out = format!("{start} {answer} {states} {} {}\n", spaced(&counts), game.events);
    for row in &b.game_board {
        out += &(spaced(row) + "\n");
    }
    out
}

fn number(word: &str) -> Result<usize, String> {
    word.parse().map_err(|_| format!("{word} is not a number"))
}

/// Words for a book: few or many events between kept positions, room for none to ten, and drags to and fro.
pub fn words(seed: u64, case: u64, bytes: &[u8]) -> String {
    let random = &mut Random::new(seed.rotate_left(17), case);
    let (events, size) = match read(bytes) {
        Ok(book) => {
            let cells = book.settings.rows * book.settings.columns;
            (book.events.len() / 3, HEAD + cells + cells.div_ceil(8))
        }
        Err(_) => (9, 99),
    };
    let k = if random.chance(5) { 0 } else { random.between(1, 2 + events / 3) };
    let room = if random.chance(5) { random.below(size) } else { size * random.below(11) + random.below(size) };
    let mut out = format!("{k} {room}");
    for _ in 0..random.between(1, 9) {
        if random.chance(10) {
            out += " reset";
        } else {
            out += &format!(" {}", random.below(events + 1 + events / 20 + 1));
        }
    }
    out + "\n"
}
