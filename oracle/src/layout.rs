// Boards by chance: sizes, mine lists, modes, rules.

use crate::board::{LARGEST_SIDE, MOST_CELLS};
use crate::game::Settings;
use crate::random::Random;

pub const MODES: [u16; 12] = [0, 1, 2, 3, 4, 5, 11, 12, 13, 14, 15, 16];

pub type Mines = Vec<(usize, usize)>;

/// A board to play on: its settings and its mines, rising in row order.
pub struct Layout {
    pub settings: Settings,
    pub mines: Mines,
}

impl Layout {
    fn new(random: &mut Random, (rows, columns): (usize, usize), mine_count: usize) -> Layout {
        // Every second board has an automatic mode: the passes are where games differ most.
        let mode = if random.chance(50) { random.pick(&MODES[6..]) } else { random.pick(&MODES) };
        let settings = Settings { rows, columns, mode, question: random.chance(40), rules: random.pick(&[1, 2]) };
        Layout { settings, mines: mines(random, rows, columns, mine_count) }
    }

    /// 1×1 to 5×5, or a strip of one or two rows or columns.
    pub fn small(random: &mut Random) -> Layout {
        let size = match random.below(5) {
            0 => (random.between(1, 2), random.between(1, 12)),
            1 => (random.between(1, 12), random.between(1, 2)),
            _ => (random.between(1, 5), random.between(1, 5)),
        };
        let count = any_count(random, size.0 * size.1);
        Layout::new(random, size, count)
    }

    /// The three boards that leagues play, with about their number of mines.
    pub fn standard(random: &mut Random) -> Layout {
        let (size, usual) = random.pick(&[((9, 9), 10), ((9, 9), 10), ((16, 16), 40), ((16, 30), 99)]);
        let count = random.between(usual / 2, usual + usual / 10);
        Layout::new(random, size, count)
    }

    /// At the limits of the sizes, or anything between.
    pub fn large(random: &mut Random) -> Layout {
        let size = match random.below(3) {
            0 => random.pick(&[(64, 32), (32, 64), (45, 45), (1, 64), (64, 1), (2, 64), (64, 2), (63, 32), (31, 64)]),
            1 => random.pick(&[(9, 9), (16, 16), (16, 30), (30, 16)]),
            _ => {
                let rows = random.between(1, LARGEST_SIDE);
                (rows, random.between(1, LARGEST_SIDE.min(MOST_CELLS / rows)))
            }
        };
        let count = any_count(random, size.0 * size.1);
        Layout::new(random, size, count)
    }
}

/// Mostly a board worth playing; at times no mine at all, or one safe cell, or so many that 7 and 8 are common.
fn any_count(random: &mut Random, cells: usize) -> usize {
    match random.below(12) {
        0 => 0,
        1 => cells - 1,
        2 => random.below(cells),
        3 => random.between((cells - 1) * 3 / 4, cells - 1),
        _ => random.below(cells / 4 + 1),
    }
}

/// So many mines, each set of cells as likely as any other.
fn mines(random: &mut Random, rows: usize, columns: usize, count: usize) -> Mines {
    let cells = rows * columns;
    let mut mines = Vec::with_capacity(count);
    for cell in 0..cells {
        if random.below(cells - cell) < count - mines.len() {
            mines.push((cell / columns, cell % columns));
        }
    }
    mines
}
