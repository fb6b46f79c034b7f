// What generated books reach, as tables: codes in every state, answers, refusals, and how games end in each mode.

use crate::book;
use crate::books::{self, Kind};
use crate::game::{Game, CODES};
use crate::layout::MODES;
use crate::position::{GAME_STATES, MOUSE_STATES};
use original::{GameBoardState, MouseState};
use std::collections::BTreeMap;

const KNOWN_AND_UNKNOWN: usize = CODES.len() + 1;

#[derive(Default)]
struct Coverage {
    /// by game state, mouse state and code, the unknown codes together in the last place
    events: [[[usize; KNOWN_AND_UNKNOWN]; 7]; 5],
    /// by answer and code
    answers: BTreeMap<u16, [usize; KNOWN_AND_UNKNOWN]>,
    /// by game state, what the event was pointed at, and code
    looks: BTreeMap<(usize, i32), [usize; KNOWN_AND_UNKNOWN]>,
    /// by the refusal that a whole book gets
    refused: BTreeMap<u16, usize>,
    /// by mode, then by the game state at the end
    ends: BTreeMap<u16, [usize; 5]>,
    /// by mode: a hand that answers 0, 1 or 3 while a pass loses the game
    lost_by_pass: BTreeMap<u16, usize>,
    longest_game: usize,
    longest_book: usize,
}

const OFF_BOARD: i32 = -1;

pub fn report(seed: u64, count: u64, kind: Kind) {
    let mut coverage = Coverage::default();
    for number in 0..count {
        coverage.add(&books::book(seed, number, kind));
    }
    coverage.print();
}

impl Coverage {
    fn add(&mut self, bytes: &[u8]) {
        self.longest_book = self.longest_book.max(bytes.len());
        match book::read(bytes) {
            Err(fault) => *self.refused.entry(fault.number).or_default() += 1,
            Ok(book) => {
                let game =
                    Game::setup(book.settings, &book.mines).expect("the book's reader has tested what setup tests");
                self.play(game, book.events);
            }
        }
    }

    fn play(&mut self, mut game: Game, records: &[u8]) {
        let mode = game.board.mode;
        for record in records.chunks_exact(3) {
            let answer = self.step(&mut game, record);
            if answer >= 20 {
                break;
            }
        }
        self.ends.entry(mode).or_default()[game.state_number()] += 1;
        self.longest_game = self.longest_game.max(game.events);
    }

    fn step(&mut self, game: &mut Game, record: &[u8]) -> u16 {
        let (row, column) = (record[1].into(), record[2].into());
        let code = usize::from(record[0]).min(CODES.len());
        self.events[game.state_number()][game.mouse_number()][code] += 1;
        let look = if game.on_board(row, column) { game.board.game_board[row][column] } else { OFF_BOARD };
        self.looks.entry((game.state_number(), look)).or_default()[code] += 1;
        let was_playing = game.state() == GameBoardState::Playing;
        let answer = game.step(record[0], row, column);
        self.answers.entry(answer).or_default()[code] += 1;
        if was_playing && game.state() == GameBoardState::Loss && answer != 4 {
            *self.lost_by_pass.entry(game.board.mode).or_default() += 1;
        }
        answer
    }

    fn print(&self) {
        head("game state, mouse state");
        for (game, by_mouse) in GAME_STATES.iter().zip(&self.events) {
            for (mouse, by_code) in MOUSE_STATES.iter().zip(by_mouse) {
                row(&format!("{game:?} {mouse:?}"), by_code);
            }
        }
        println!();
        head("answer");
        self.answers.iter().for_each(|(answer, by_code)| row(&answer.to_string(), by_code));
        println!();
        head("game state, pointed at");
        for ((game, look), by_code) in &self.looks {
            row(&format!("{:?} {}", GAME_STATES[*game], look_name(*look)), by_code);
        }
        println!("\nrefused books: {:?}", self.refused);
        println!("\nmode, books that end in {GAME_STATES:?}, of the Losses by a pass");
        for mode in MODES {
            let lost_by_pass = self.lost_by_pass.get(&mode).unwrap_or(&0);
            println!("{mode:>4} {:?} {lost_by_pass}", self.ends.get(&mode).unwrap_or(&[0; 5]));
        }
        println!("\nlongest game {} events, longest book {} bytes", self.longest_game, self.longest_book);
        println!("states and codes not reached: {}", self.not_reached());
    }

    /// Ready knows no NotFlag mouse, so those two rows are not asked for.
    fn not_reached(&self) -> usize {
        let rows = GAME_STATES.iter().zip(&self.events).flat_map(|(game, by_mouse)| {
            by_mouse.iter().zip(MOUSE_STATES).map(move |(by_code, mouse)| (*game, mouse, by_code))
        });
        rows.filter(|&(game, mouse, _)| game != GameBoardState::Ready || !not_flag(mouse))
            .map(|(_, _, by_code)| by_code.iter().filter(|&&count| count == 0).count())
            .sum()
    }
}

fn not_flag(mouse: MouseState) -> bool {
    matches!(mouse, MouseState::UpDownNotFlag | MouseState::ChordingNotFlag)
}

fn look_name(look: i32) -> String {
    if look == OFF_BOARD {
        "off the board".into()
    } else {
        look.to_string()
    }
}

fn head(name: &str) {
    let codes: String = CODES.iter().chain(&["other"]).map(|code| format!("{code:>9}")).collect();
    println!("{name:<30}{codes}");
}

fn row(name: &str, counts: &[usize]) {
    let counts: String = counts.iter().map(|count| format!("{count:>9}")).collect();
    println!("{name:<30}{counts}");
}
