// Writing a game book section by section, and ways to damage one.

use crate::book::MOST_BOOK_EVENTS;
use crate::layout::Layout;
use crate::player::Record;
use crate::random::Random;

/// A book before it is bytes. The counts stand apart from what they count, so that they can be wrong.
pub struct Sections {
    settings_count: u8,
    settings: Vec<u8>,
    mine_count: u16,
    mines: Vec<[u8; 2]>,
    event_count: u16,
    events: Vec<Record>,
    left_over: Vec<u8>,
}

impl Sections {
    /// Rules 1 may be said or not.
    pub fn new(random: &mut Random, layout: &Layout, events: Vec<Record>) -> Sections {
        let s = layout.settings;
        let mut settings = vec![s.rows as u8, s.columns as u8, s.mode as u8, s.question.into()];
        if s.rules != 1 || random.chance(30) {
            settings.push(s.rules);
        }
        Sections {
            settings_count: settings.len() as u8,
            settings,
            mine_count: layout.mines.len() as u16,
            mines: layout.mines.iter().map(|&(row, column)| [row as u8, column as u8]).collect(),
            event_count: events.len() as u16,
            events,
            left_over: Vec::new(),
        }
    }

    pub fn bytes(&self) -> Vec<u8> {
        let mut bytes = vec![self.settings_count];
        bytes.extend(&self.settings);
        bytes.extend(self.mine_count.to_le_bytes());
        bytes.extend(self.mines.concat());
        bytes.extend(self.event_count.to_le_bytes());
        bytes.extend(self.events.concat());
        bytes.extend(&self.left_over);
        bytes
    }

    /// One fault; several together show in which order the tests stand.
    pub fn damage(&mut self, random: &mut Random) {
        match random.below(15) {
            0 => self.settings_count = random.pick(&[0, 1, 3, 4, 5, 6, 9, 255]),
            1 => self.settings[3] = random.pick(&[2, 3, 17, 128, 255]),
            2 => self.damage_size(random),
            3 => self.settings[2] = random.pick(&[6, 7, 8, 9, 10, 17, 18, 255]),
            4 => self.mine_count = self.near_cells(random),
            5 => self.mine_count = beside(random, self.mine_count),
            6 => self.mine_off_board(random),
            7 | 8 => self.mines_not_rising(random),
            9 => self.event_count = beside(random, self.event_count),
            10 => self.event_count = random.pick(&[MOST_BOOK_EVENTS as u16, MOST_BOOK_EVENTS as u16 + 1, 65_535]),
            11 => self.left_over = vec![random.byte(); random.between(1, 4)],
            12 => self.damage_rules(random),
            _ => self.any_byte(random),
        }
    }

    fn damage_size(&mut self, random: &mut Random) {
        let (rows, columns) =
            random.pick(&[(0, 5), (5, 0), (65, 1), (1, 65), (64, 33), (33, 64), (46, 45), (255, 255)]);
        self.settings[0] = rows;
        self.settings[1] = columns;
    }

    /// A rules byte where there was none, too.
    fn damage_rules(&mut self, random: &mut Random) {
        self.settings.resize(4, 0);
        self.settings.push(random.pick(&[0, 0, 3, 3, 4, 255]));
        self.settings_count = 5;
    }

    /// As many mines as cells is the least that 24 answers; one fewer is allowed.
    fn near_cells(&self, random: &mut Random) -> u16 {
        let cells = u16::from(self.settings[0]) * u16::from(self.settings[1]);
        random.pick(&[cells, cells, cells.saturating_sub(1), cells.saturating_add(1), 65_535])
    }

    fn mine_off_board(&mut self, random: &mut Random) {
        let (rows, columns) = (self.settings[0], self.settings[1]);
        let mine = random.pick(&[[rows, 0], [0, columns], [rows, columns], [255, 255]]);
        if self.mines.is_empty() {
            self.mine_count = 1;
            self.mines = vec![mine];
        } else {
            let place = random.below(self.mines.len());
            self.mines[place] = mine;
        }
    }

    /// Two neighbours in the list change places, or the second repeats the first.
    fn mines_not_rising(&mut self, random: &mut Random) {
        if self.mines.len() < 2 {
            return;
        }
        let second = random.between(1, self.mines.len() - 1);
        if random.chance(50) {
            self.mines.swap(second - 1, second);
        } else {
            self.mines[second] = self.mines[second - 1];
        }
    }

    fn any_byte(&mut self, random: &mut Random) {
        let byte = match random.below(3) {
            0 => any_of(random, &mut self.settings),
            1 => any_of(random, self.mines.as_flattened_mut()),
            _ => any_of(random, self.events.as_flattened_mut()),
        };
        if let Some(byte) = byte {
            *byte = random.byte();
        }
    }
}

fn any_of<'a>(random: &mut Random, bytes: &'a mut [u8]) -> Option<&'a mut u8> {
    match bytes.len() {
        0 => None,
        length => bytes.get_mut(random.below(length)),
    }
}

/// One fewer or one more.
fn beside(random: &mut Random, count: u16) -> u16 {
    random.pick(&[count.saturating_sub(1), count.saturating_add(1)])
}
