// The no-flag class of Req 10: books for it by chance, and what it prints of a book.

use crate::book::{read, read_modes};
use crate::books::{self, Kind};
use crate::game::{is_forbidden, Game, L, LC, LR, M, MR, MV};
use crate::printout::printout_by;
use crate::random::Random;

/// Mode 0 only, and the class's step.
pub fn printout(bytes: &[u8]) -> String {
    printout_by(read_modes(bytes, |mode| mode == 0), Game::step_noflag)
}

/// A book of every kind, most in mode 0 and with few events of the right button, so that it is played on.
pub fn book(seed: u64, number: u64) -> Vec<u8> {
    let mut bytes = books::book(seed, number, Kind::Mixed);
    let random = &mut Random::new(!seed, number);
    if let Some(mode) = bytes.get_mut(3).filter(|_| random.chance(90)) {
        *mode = 0;
    }
    let events = read(&bytes).map_or(0, |book| book.events.len());
    let start = bytes.len() - events;
    for record in bytes[start..].chunks_exact_mut(3) {
        if is_forbidden(record[0]) && random.chance(98) {
            record[0] = random.pick(&[LC, LR, MV, MR, L, M]);
        }
    }
    bytes
}
