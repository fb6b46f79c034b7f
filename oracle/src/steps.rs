// Single steps of the Rust. A step is a position, an event, the call that it goes by, and what is lent; packed (`packed_steps.rs`), it is
//
//   position   rows columns mode question game mouse middle                   7 numbers of one byte
//              preflag events left right double lce rce dce flag
//              solved_left solved_chord                                       11 numbers of four bytes
//   event      code row column                                                3 numbers of one byte
//   position   rules                                                          1 number of one byte
//   call       0 the pair, 1 resolve alone, 2 the plain step alone            1 number of one byte; any other is taken as 0
//   position   unopened, the safe cells not open                              1 number of four bytes
//   reserved   0, not read                                                    12 bytes
//   lengths    of the mine board, the shown board, the bits and the work      4 numbers of two bytes
//   mines      the mine board, 255 for a mine                                 its length in bytes
//   shown      the shown board                                                its length in bytes
//   bits       the flagged-before bytes                                       their length in bytes
//
// with the low byte of a number first. What stands in the work is left open, so it is not packed. A mine board value of a spoiled step
// stands as its byte: 254 is -2. The outcome is a line of decimal numbers between single spaces:
//
//   answer     0 to 4, or the refusal                                         1 number
//   place      row and column of the faulty cell, or 255 255                  2 numbers
//   value      cells that show 0 to 8 after the step and did not before;
//              of resolve alone the plain code, 0 beside a refusal            1 number
//   position   after the step, as above, the rules and unopened last          20 numbers
//   shown      after the step                                                 as many as were lent
//   bits       after the step                                                 as many as were lent
//
// and a whole line has the numbers of the step itself in front, in the order that it is packed.
//
// The pair is resolve and, where that answers 0, the plain step with the plain code at the position that came back; where resolve refuses, the line is
// its answer. Resolve is lent no work.

use crate::drawn;
use crate::game::Game;
use crate::lawful::{refusal, work_room, Refusal};
use crate::player::Record;
use crate::position::{Lent, Position};
use crate::printout::spaced;
use crate::random::Random;

/// From lawful positions alone, or from ones that may have been spoiled (20 to 264).
#[derive(Clone, Copy, PartialEq)]
pub enum Start {
    Lawful,
    Spoiled,
}

impl Start {
    pub fn named(name: &str) -> Option<Start> {
        match name {
            "lawful" => Some(Start::Lawful),
            "spoiled" => Some(Start::Spoiled),
            _ => None,
        }
    }
}

#[derive(Clone, Copy, PartialEq)]
pub enum Call {
    Pair,
    Resolve,
    Plain,
}

impl Call {
    pub fn number(self) -> usize {
        match self {
            Call::Pair => 0,
            Call::Resolve => 1,
            Call::Plain => 2,
        }
    }

    pub fn of_number(number: usize) -> Call {
        match number {
            1 => Call::Resolve,
            2 => Call::Plain,
            _ => Call::Pair,
        }
    }
}

pub struct Step {
    pub position: Position,
    pub event: Record,
    pub call: Call,
    pub lent: Lent,
    /// how many numbers of work are lent
    pub work: usize,
}

/// What a step leaves.
#[derive(PartialEq)]
struct Outcome {
    answer: u16,
    place: Option<(usize, usize)>,
    value: usize,
    position: Position,
    lent: Lent,
}

/// One step by chance; Err if it was to be lawful and is not.
pub fn step(seed: u64, number: u64, start: Start) -> Result<Step, String> {
    let random = &mut Random::new(seed, number);
    let (mut position, mut lent) = drawn::lawful(random);
    let mut event = drawn::event(random, &Game::from_position(&position, &lent));
    let mut work = drawn::work(random, &position);
    let call = drawn::call(random, &mut event);
    if start == Start::Lawful {
        if refusal(&position, &lent, Some(work)).is_some() {
            return Err(format!("step {}: the drawn position is not lawful", number + 1));
        }
    } else if random.chance(8) {
        drawn::starve(random, &position, &mut event, &mut work);
    } else {
        for _ in 0..random.between(1, 2) {
            drawn::spoil(random, &mut position, &mut lent);
        }
        drawn::spoil_ground(random, &mut position, &mut lent, &mut work);
    }
    Ok(Step { position, event, call, lent, work })
}

impl Step {
    /// The line of the step's outcome; Err if the Rust breaks a promise of the papers there.
    pub fn outcome_line(&self) -> Result<String, String> {
        Ok(spaced(&self.outcome()?.numbers()))
    }

    /// The same, with the step itself in front.
    pub fn whole_line(&self) -> Result<String, String> {
        let outcome = self.outcome()?.numbers();
        Ok(spaced(&[self.numbers(), outcome].concat()))
    }

    fn outcome(&self) -> Result<Outcome, String> {
        let after = self.played();
        match self.broken_promise(&after) {
            Some(promise) => Err(format!("{promise}\n{}\n{}", spaced(&self.numbers()), spaced(&after.numbers()))),
            None => Ok(after),
        }
    }

    fn played(&self) -> Outcome {
        match self.call {
            Call::Pair => self.paired(),
            Call::Resolve => self.resolved(),
            Call::Plain => self.stepped(Game::step_plain),
        }
    }

    fn paired(&self) -> Outcome {
        let resolved = self.resolved();
        if resolved.answer != 0 {
            return resolved;
        }
        let [_, row, column] = self.event;
        let event = [resolved.value as u8, row, column];
        Step { position: resolved.position, event, call: Call::Plain, lent: resolved.lent, work: self.work }.played()
    }

    fn resolved(&self) -> Outcome {
        if let Some(refusal) = refusal(&self.position, &self.lent, None) {
            return self.refused(refusal);
        }
        let mut game = Game::from_position(&self.position, &self.lent);
        let [code, row, column] = self.event;
        let (answer, value) = match game.resolve(code, row.into(), column.into()) {
            Ok(plain) => (0, plain.into()),
            Err(number) => (number, 0),
        };
        Outcome { answer, place: None, value, position: game.position(), lent: game.lent() }
    }

    /// By a step that resolves, the Rust's own, or by one that does not.
    fn stepped(&self, step: fn(&mut Game, u8, usize, usize) -> u16) -> Outcome {
        if let Some(refusal) = refusal(&self.position, &self.lent, Some(self.work)) {
            return self.refused(refusal);
        }
        let mut game = Game::from_position(&self.position, &self.lent);
        let [code, row, column] = self.event;
        let answer = step(&mut game, code, row.into(), column.into());
        let after = game.lent();
        let value = opened(&self.lent.shown, &after.shown);
        Outcome { answer, place: None, value, position: game.position(), lent: after }
    }

    fn refused(&self, refusal: Refusal) -> Outcome {
        let (position, lent) = (self.position.clone(), self.lent.clone());
        Outcome { answer: refusal.number, place: refusal.place, value: 0, position, lent }
    }

    fn broken_promise(&self, after: &Outcome) -> Option<&'static str> {
        let refused = after.answer >= 20;
        let fits = self.work >= work_room(&self.position);
        let flipped = self.position.middle != after.position.middle;
        let but_for_middle = Position { middle: self.position.middle, ..after.position.clone() };
        if (refused || self.call == Call::Resolve) && (but_for_middle != self.position || after.lent != self.lent) {
            return Some("a refused call, or resolve, changed more than the middle flag");
        }
        if refused && flipped && (fits || self.call != Call::Pair) {
            return Some("a refused call flipped the middle flag, and it was no pair with too little work");
        }
        if !refused && refusal(&after.position, &after.lent, None).is_some() {
            return Some("an accepted call left the lawful positions");
        }
        if self.call != Call::Resolve && open(&self.lent.shown) + after.value != open(&after.lent.shown) {
            return Some("what a step opened is not the open cells after less those before");
        }
        if self.call == Call::Pair && fits && *after != self.stepped(Game::step) {
            return Some("resolve and the plain step are not the Rust's own step");
        }
        None
    }

    fn numbers(&self) -> Vec<usize> {
        let Lent { mines, shown, bits } = &self.lent;
        let [before @ .., rules, unopened] = self.position.numbers();
        let mut numbers = before.to_vec();
        extend(&mut numbers, &self.event);
        numbers.extend([rules, self.call.number(), unopened, mines.len(), shown.len(), bits.len(), self.work]);
        numbers.extend(mines.iter().map(|&cell| usize::from(cell as u8)));
        extend(&mut numbers, shown);
        extend(&mut numbers, bits);
        numbers
    }
}

impl Outcome {
    fn numbers(&self) -> Vec<usize> {
        let (row, column) = self.place.unwrap_or((255, 255));
        let mut numbers = vec![self.answer.into(), row, column, self.value];
        numbers.extend(self.position.numbers());
        extend(&mut numbers, &self.lent.shown);
        extend(&mut numbers, &self.lent.bits);
        numbers
    }
}

/// How many cells went from closed to showing 0 to 8, cell by cell.
fn opened(before: &[u8], after: &[u8]) -> usize {
    before.iter().zip(after).filter(|&(&before, &after)| before > 8 && after <= 8).count()
}

/// How many cells show 0 to 8.
fn open(shown: &[u8]) -> usize {
    shown.iter().filter(|&&cell| cell <= 8).count()
}

fn extend(numbers: &mut Vec<usize>, bytes: &[u8]) {
    numbers.extend(bytes.iter().map(|&byte| usize::from(byte)));
}
