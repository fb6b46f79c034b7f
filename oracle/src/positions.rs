// The P and Run positions of document 01, and of document 02 the league's rules, the split step and the questions that mislead a pass, played on the
// Rust; each holds what was seen beside what the paper tells.

use crate::game::*;
use crate::position::{GAME_STATES, MOUSE_STATES};
use crate::printout::{printout, spaced};
use original::{GameBoardState, Hidden, MouseState};
use std::panic::{catch_unwind, set_hook, take_hook};

struct Told {
    name: &'static str,
    seen: String,
    told: String,
}

/// Prints a line a position; true if the Rust agrees with all of them.
pub fn agree() -> bool {
    let positions = positions();
    let mut differences = 0;
    for position in &positions {
        if position.seen == position.told {
            println!("agrees   {}", position.name);
        } else {
            differences += 1;
            println!("differs  {}\n  told {}\n  seen {}", position.name, position.told, position.seen);
        }
    }
    if differences == 0 {
        println!("{} positions agree", positions.len());
    } else {
        println!("{} of {} positions differ", differences, positions.len());
    }
    differences == 0
}

fn positions() -> Vec<Told> {
    vec![
        worked_printout(),
        chord_wins(),
        chord_loses(),
        pass_loses(),
        pre_flags_with_questions(),
        eight_flags(),
        eight_is_never_chorded(),
        negative_remainder(),
        pointers(),
        r_in_up_down_not_flag(),
        one_safe_cell(),
        one_mine(),
        largest_size(),
        size_too_large(),
        last_event(),
        pf_while_playing(),
        panics(),
        books_by_rules(),
        faults_of_five_settings(),
        r_by_rules(),
        r_by_rules_before_play(),
        setup_by_rules(),
        resolve_l(),
        resolve_m(),
        resolve_m_at_pointers(),
        resolve_m_after_the_last_event(),
        resolve_r_by_rules(),
        resolve_unknown_code(),
        plain_step_of_toggles(),
        pair_is_the_rust(),
        question_misleads(),
        question_loses(),
    ]
}

fn position(name: &'static str, seen: impl ToString, told: impl ToString) -> Told {
    Told { name, seen: seen.to_string(), told: told.to_string() }
}

const WORKED_BOOK: [u8; 29] = [
    4, 1, 3, 0, 0, 1, 0, 0, 1, 6, 0, // settings, one mine, six events
    0, 0, 0, 1, 0, 0, 2, 0, 1, 3, 0, 1, 0, 0, 2, 1, 0, 2,
];

const WORKED_PRINTOUT: &str = "game 1 3 0 0
1 0 4 3
2 2 1 0
3 1 1 1
4 0 1 0
5 0 1 3
6 2 2 0
counts 2 1 0 2 1 0 1 2 0
bv 2 0
1 11 1
";

fn worked_printout() -> Told {
    position("P: the printout", printout(&WORKED_BOOK), WORKED_PRINTOUT)
}

fn chord_wins() -> Told {
    let mut game = new(2, 2, 0, &[(0, 0)]);
    game.open(1, 1);
    game.flag(0, 0);
    let answer = game.step(MR, 1, 1);
    let board = &game.board;
    position(
        "P: 2x2, mine (0,0); open (1,1), flag (0,0), mr (1,1)",
        format!("{answer} {:?} solved {} {}", game.state(), board.bbbv_solved_left, board.bbbv_solved_chord),
        "3 Win solved 1 2",
    )
}

fn chord_loses() -> Told {
    let mut game = new(3, 3, 0, &[(2, 2)]);
    game.open(1, 1);
    game.flag(2, 0);
    let answer = game.step(MR, 1, 1);
    position(
        "P: 3x3, mine (2,2); open (1,1), flag (2,0), mr (1,1)",
        format!("{answer}, {}, solved_chord {}", game.rows(), game.board.bbbv_solved_chord),
        "4, 0 0 0 / 0 1 1 / 14 1 15, solved_chord 1",
    )
}

fn pass_loses() -> Told {
    let mut game = new(1, 3, 11, &[(0, 0)]);
    game.open(0, 1);
    game.flag(0, 2);
    let answer = game.step(MR, 0, 0);
    position(
        "P: 1x3, mine (0,0), mode 11; open (0,1), flag (0,2), mr (0,0)",
        format!("{answer} {:?} {}, dce {}", game.state(), game.rows(), game.board.dce),
        "0 Loss 15 1 14, dce 0",
    )
}

fn pre_flags_with_questions() -> Told {
    let settings = Settings { rows: 1, columns: 3, mode: 0, question: true, rules: 1 };
    let mut game = Game::setup(settings, &[(0, 1)]).expect("a lawful setup");
    for column in [0, 2, 0, 2] {
        game.flag(0, column);
    }
    let answer = game.step(RC, 0, 0);
    position(
        "P: 1x3, mine (0,1), questions on; rc, rr on (0,0), (0,2), (0,0), (0,2), then rc (0,0)",
        format!("{answer} {:?}, right {}, {}", game.state(), game.board.right, game.rows()),
        "1 Ready, right 0, 10 10 17",
    )
}

const AROUND_1_1: [(usize, usize); 8] = [(0, 0), (0, 1), (0, 2), (1, 0), (1, 2), (2, 0), (2, 1), (2, 2)];

fn ring_of_mines() -> Game {
    let mut game = new(3, 4, 12, &AROUND_1_1);
    game.open(1, 1);
    game.flag(0, 0);
    game
}

fn eight_flags() -> Told {
    let game = ring_of_mines();
    position(
        "P: 3x4, all eight around (1,1) mined, mode 12; open (1,1), flag (0,0)",
        format!("{}, flag {}, rce {}", game.rows(), game.board.flag, game.board.rce),
        "11 11 11 10 / 11 8 11 10 / 11 11 11 10, flag 8, rce 1",
    )
}

fn eight_is_never_chorded() -> Told {
    position("P: the same board; mr (1,1)", ring_of_mines().step(MR, 1, 1), 0)
}

fn negative_remainder() -> Told {
    let mut game = new(1, 4, 12, &[(0, 0)]);
    game.open(0, 1);
    game.flag(0, 2);
    game.flag(0, 0);
    position("P: 1x4, mine (0,0), mode 12; open (0,1), flag (0,2), flag (0,0)", game.rows(), "11 1 11 10")
}

fn pointers() -> Told {
    let mut game = new(1, 3, 0, &[(0, 1)]);
    let answers = [(1, 3), (0, 3), (1, 2)].map(|(row, column)| game.step(MV, row, column));
    position("P: 1x3 pointers (1,3), (0,3), (1,2)", format!("{answers:?}"), "[0, 30, 30]")
}

fn r_in_up_down_not_flag() -> Told {
    let mut game = new(1, 3, 0, &[(0, 1)]);
    game.open(0, 0);
    game.step(RC, 0, 0);
    let before = (game.state(), game.board.mouse_state);
    let answer = game.step(R, 0, 0);
    let after = (game.state(), game.board.mouse_state);
    position(
        "P: Playing, UpDownNotFlag, r",
        format!("{answer} {before:?} {after:?}"),
        "0 (Playing, UpDownNotFlag) (Playing, UpDownNotFlag)",
    )
}

fn one_safe_cell() -> Told {
    let mut game = new(1, 1, 0, &[]);
    game.open(0, 0);
    position("P: 1x1 safe, open", format!("{:?}", game.state()), "Win")
}

fn one_mine() -> Told {
    position("P: 1x1 mine", setup_answer(1, 1, &[(0, 0)]), 24)
}

fn largest_size() -> Told {
    position("Run: 64x32", setup_answer(64, 32, &[]), 0)
}

fn size_too_large() -> Told {
    position("Run: 64x33", setup_answer(64, 33, &[]), 20)
}

fn last_event() -> Told {
    let mut game = new(1, 1, 0, &[]);
    for _ in 1..MOST_EVENTS {
        game.step(MV, 0, 0);
    }
    let answers = [game.step(MV, 0, 0), game.step(MV, 0, 0)];
    position("Run: event 65,535 and the next", format!("{answers:?}"), "[0, 31]")
}

fn pf_while_playing() -> Told {
    let mut game = new(1, 3, 0, &[(0, 1)]);
    game.open(0, 0);
    position("Run: pf while Playing", format!("{:?} {}", game.state(), game.step(PF, 0, 2)), "Playing 33")
}

/// Why 30 and 32 stand before the Rust's step: it panics there.
fn panics() -> Told {
    let usual = take_hook();
    set_hook(Box::new(|_| ()));
    let seen = [("mv", (0, 3)), ("pf", (1, 3)), ("pf", (0, 2))].map(|(event, pointer)| {
        let mut game = new(1, 3, 0, &[(0, 1)]);
        game.flag(0, 2);
        catch_unwind(move || game.board.step(event, pointer)).is_err()
    });
    set_hook(usual);
    position(
        "Run: the Rust panics at a pointer of 30, pf off the board, pf on a flag",
        format!("{seen:?}"),
        "[true, true, true]",
    )
}

/// The worked book with five settings bytes.
fn worked_by(rules: u8) -> String {
    printout(&[&[5, 1, 3, 0, 0, rules], &WORKED_BOOK[5..]].concat())
}

fn books_by_rules() -> Told {
    let told = [WORKED_PRINTOUT, WORKED_PRINTOUT, "refused 45 at 5\n", "refused 45 at 5\n"].concat();
    position("Req 06: the printout by rules 1, 2, 0 and 3", [1, 2, 0, 3].map(worked_by).concat(), told)
}

fn faults_of_five_settings() -> Told {
    let books: [(&[u8], &str); 12] = [
        (&[5], "40 at 1"),
        (&[5, 1, 3, 0, 7], "40 at 5"),
        (&[5, 0, 3, 99, 7, 9], "41 at 4"),
        (&[5, 0, 3, 99, 1, 9], "20 at 1"),
        (&[5, 1, 3, 99, 1, 9], "25 at 3"),
        (&[5, 1, 3, 0, 1, 9], "45 at 5"),
        (&[5, 1, 3, 0, 1, 2], "40 at 6"),
        (&[5, 1, 3, 0, 0, 2, 3, 0], "24 at 6"),
        (&[5, 1, 3, 0, 0, 2, 1, 0, 1, 0], "42 at 8"),
        (&[6, 1, 3, 0, 0, 2], "41 at 0"),
        (&[4, 1, 3, 0, 1], "40 at 5"),
        (&[4, 1, 3, 0, 1, 3, 0], "24 at 5"),
    ];
    let seen = books.map(|(book, _)| printout(book)).concat();
    position(
        "Req 06: the faults of five settings bytes",
        seen,
        books.map(|(_, told)| format!("refused {told}\n")).concat(),
    )
}

/// The answer and the states of the last of these events, by rules 1 and by rules 2.
fn last_by_rules(events: &[(u8, usize, usize)]) -> String {
    let by = |rules| {
        let settings = Settings { rows: 1, columns: 3, mode: 0, question: false, rules };
        let mut game = Game::setup(settings, &[(0, 0)]).expect("a lawful setup");
        let answers = events.iter().map(|&(code, row, column)| game.step(code, row, column));
        let last = answers.last().expect("some event");
        format!("{last} {} {}", game.state_number(), game.mouse_number())
    };
    format!("{}, {}", by(1), by(2))
}

fn r_by_rules() -> Told {
    let seen = last_by_rules(&[(LC, 0, 1), (LR, 0, 1), (RC, 0, 1), (R, 0, 1)]);
    position("Req 06: 1x3, mine (0,0); open (0,1), rc (0,1), r (0,1)", seen, "0 1 2, 0 1 0")
}

fn r_by_rules_before_play() -> Told {
    let seen = last_by_rules(&[(RC, 0, 1), (RR, 0, 1), (RC, 1, 3), (R, 0, 0)]);
    position("Req 06: 1x3, mine (0,0); rc, rr (0,1), rc off the board, r (0,0)", seen, "33 4 2, 0 4 0")
}

fn setup_by_rules() -> Told {
    let answer = |mode| {
        let settings = Settings { rows: 1, columns: 3, mode, question: false, rules: 3 };
        Game::setup(settings, &[(0, 0)]).err().unwrap_or(0)
    };
    position("Req 06: setup by rules 3, mode 6 and mode 0", format!("{} {}", answer(6), answer(0)), "25 45")
}

/// 3 × 3, mine (2,2), every cell closed; a NotFlag state has a right click behind it.
fn closed(game: GameBoardState, mouse: MouseState, middle: bool, rules: u8) -> Game {
    let settings = Settings { rows: 3, columns: 3, mode: 0, question: false, rules };
    let mut closed = Game::setup(settings, &[(2, 2)]).expect("a lawful setup");
    closed.board.game_board_state = game;
    closed.board.mouse_state = mouse;
    closed.events = usize::from(matches!(mouse, MouseState::UpDownNotFlag | MouseState::ChordingNotFlag));
    closed.board.right = closed.events;
    closed.board.set_hidden(Hidden { middle_hold: middle, ..closed.board.hidden() });
    closed
}

fn fresh() -> Game {
    closed(GameBoardState::Ready, MouseState::UpUp, false, 1)
}

/// The number, the value and the middle flag that resolve leaves.
fn resolving(mut game: Game, code: u8, row: usize, column: usize) -> String {
    let (number, value) = match game.resolve(code, row, column) {
        Ok(plain) => (0, plain),
        Err(number) => (number, 0),
    };
    format!("{number} {value} {}", u8::from(game.board.hidden().middle_hold))
}

fn resolve_l() -> Told {
    let seen = [MouseState::UpUp, MouseState::DownUp]
        .map(|mouse| resolving(closed(GameBoardState::Ready, mouse, false, 1), L, 0, 0));
    position("Req 07: 3x3, mine (2,2), fresh; resolve l (0,0), in DownUp too", seen.join(", "), "0 0 0, 0 1 0")
}

fn resolve_m() -> Told {
    let seen = [GameBoardState::Ready, GameBoardState::Loss].map(|game| {
        [false, true].map(|middle| resolving(closed(game, MouseState::UpUp, middle, 1), M, 0, 0)).join(", ")
    });
    position("Req 07: resolve m (0,0), middle 0 and 1, in Loss too", seen.join("; "), "0 5 1, 0 6 0; 0 5 1, 0 6 0")
}

fn resolve_m_at_pointers() -> Told {
    let seen = [(0, 3), (3, 3)].map(|(row, column)| resolving(fresh(), M, row, column));
    position("Req 07: resolve m (0,3) and (3,3)", seen.join(", "), "30 0 0, 0 5 1")
}

fn resolve_m_after_the_last_event() -> Told {
    let seen = [MOST_EVENTS - 1, MOST_EVENTS].map(|events| resolving(Game { events, ..fresh() }, M, 0, 0));
    position("Req 07: resolve m (0,0) after 65,534 events and after 65,535", seen.join(", "), "0 5 1, 31 0 0")
}

fn resolve_r_by_rules() -> Told {
    let seen = [1, 2]
        .map(|rules| resolving(closed(GameBoardState::Playing, MouseState::UpDownNotFlag, false, rules), R, 0, 0));
    position("Req 07: resolve r (0,0) in UpDownNotFlag, by rules 1 and 2", seen.join(", "), "0 2 0, 0 3 0")
}

fn resolve_unknown_code() -> Told {
    position("Req 07: resolve code 200 (0,0)", resolving(fresh(), 200, 0, 0), "0 200 0")
}

/// Ready, Playing, Win, Loss, PreFlaging; the answer, the middle flag and the events after it.
fn plain_step_of_toggles() -> Told {
    let seen = [L, R, M].map(|code| {
        GAME_STATES
            .map(|state| {
                let mut game = closed(state, MouseState::UpUp, false, 1);
                let answer = game.step_plain(code, 0, 0);
                format!("{answer} {} {}", u8::from(game.board.hidden().middle_hold), game.events)
            })
            .join(", ")
    });
    position(
        "Req 07: the plain step with 9, 10 and 11",
        seen.join("; "),
        ["33 0 0, 33 0 0, 0 0 1, 0 0 1, 33 0 0"; 3].join("; "),
    )
}

/// Every code in every state: where resolve and the plain step one after the other leave something else than the Rust's own step.
fn pair_is_the_rust() -> Told {
    let mut differ = Vec::new();
    for code in 0..=CODES.len() as u8 {
        for (state, mouse) in GAME_STATES.iter().flat_map(|&state| MOUSE_STATES.map(|mouse| (state, mouse))) {
            for (middle, rules) in [(false, 1), (false, 2), (true, 1), (true, 2)] {
                for (row, column) in [(0, 0), (2, 2), (3, 3), (0, 3)] {
                    let mut whole = closed(state, mouse, middle, rules);
                    let mut split = whole.clone();
                    let answer = whole.step(code, row, column);
                    let answers = split
                        .resolve(code, row, column)
                        .map_or_else(|number| number, |plain| split.step_plain(plain, row, column));
                    if answer != answers || whole.position() != split.position() || whole.lent() != split.lent() {
                        differ.push(format!("{} {state:?} {mouse:?} {middle} {rules} ({row},{column})", name(code)));
                    }
                }
            }
        }
    }
    position(
        "Req 07: resolve and the plain step are the Rust's step, for every code in every state",
        differ.join("; "),
        "",
    )
}

/// A row in mode 13 with question marks on, the first cell a mine with a question on it, these cells opened, then a chord by hand: the last answer, the
/// game state and the shown cells before the chord and after it.
fn questioned(columns: usize, mines: &[(usize, usize)], opened: &[usize], chord: usize) -> String {
    let settings = Settings { rows: 1, columns, mode: 13, question: true, rules: 1 };
    let mut game = Game::setup(settings, mines).expect("a lawful setup");
    game.flag(0, 0);
    game.flag(0, 0);
    opened.iter().for_each(|&column| game.open(0, column));
    let before = game.rows();
    let answer = game.step(MR, 0, chord);
    format!("{before}, {answer} {}, {}", game.state_number(), game.rows())
}

fn question_misleads() -> Told {
    let seen = questioned(3, &[(0, 0)], &[1], 1);
    position("Req 09: 1x3, mine (0,0), mode 13; question (0,0), open (0,1), mr (0,1)", seen, "17 1 10, 0 1, 17 1 11")
}

fn question_loses() -> Told {
    let seen = questioned(5, &[(0, 0), (0, 4)], &[1, 3], 0);
    position("Req 09: 1x5, mines (0,0) and (0,4), mode 13; question (0,0), open (0,1) and (0,3), mr (0,0)", seen, "17 1 10 1 10, 0 3, 17 1 14 1 15")
}

fn new(rows: usize, columns: usize, mode: u16, mines: &[(usize, usize)]) -> Game {
    Game::setup(Settings { rows, columns, mode, question: false, rules: 1 }, mines).expect("a lawful setup")
}

fn setup_answer(rows: usize, columns: usize, mines: &[(usize, usize)]) -> u16 {
    Game::setup(Settings { rows, columns, mode: 0, question: false, rules: 1 }, mines).err().unwrap_or(0)
}

impl Game {
    fn open(&mut self, row: usize, column: usize) {
        self.step(LC, row, column);
        self.step(LR, row, column);
    }

    fn flag(&mut self, row: usize, column: usize) {
        self.step(RC, row, column);
        self.step(RR, row, column);
    }

    fn rows(&self) -> String {
        self.board.game_board.iter().map(|row| spaced(row)).collect::<Vec<_>>().join(" / ")
    }
}
