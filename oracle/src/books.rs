// Game books by chance, of several kinds; the same seed, number and kind give the same bytes.

use crate::book::MOST_BOOK_EVENTS;
use crate::game::Game;
use crate::layout::Layout;
use crate::player::{careless_game, fidgeting, good_game, long_game};
use crate::random::Random;
use crate::sections::Sections;

#[derive(Clone, Copy)]
pub enum Kind {
    /// 1×1 to 5×5 and strips, with every event in every state
    Small,
    /// boards at the limits of the sizes
    Large,
    /// standard boards, played to the end
    Deep,
    /// books with faults, one or several
    Damaged,
    /// a blend of them all
    Mixed,
}

impl Kind {
    pub fn named(name: &str) -> Option<Kind> {
        match name {
            "small" => Some(Kind::Small),
            "large" => Some(Kind::Large),
            "deep" => Some(Kind::Deep),
            "damaged" => Some(Kind::Damaged),
            "mixed" => Some(Kind::Mixed),
            _ => None,
        }
    }
}

pub fn book(seed: u64, number: u64, kind: Kind) -> Vec<u8> {
    let random = &mut Random::new(seed, number);
    of_kind(random, kind)
}

fn of_kind(random: &mut Random, kind: Kind) -> Vec<u8> {
    match kind {
        Kind::Small => small(random).bytes(),
        Kind::Large => large(random).bytes(),
        Kind::Deep => deep(random).bytes(),
        Kind::Damaged => damaged(random),
        Kind::Mixed => mixed(random),
    }
}

/// Large and deep books are seldom: each is as long as a hundred small ones.
fn mixed(random: &mut Random) -> Vec<u8> {
    let kind = match random.below(100) {
        0 => Kind::Large,
        1..=3 => Kind::Deep,
        4..=24 => Kind::Damaged,
        _ => Kind::Small,
    };
    of_kind(random, kind)
}

fn small(random: &mut Random) -> Sections {
    let layout = Layout::small(random);
    let game = fresh(&layout);
    let length = random.between(0, 60);
    let events = match random.below(3) {
        0 => fidgeting(random, game, length),
        1 => careless_game(random, game, length),
        _ => good_game(random, game, length),
    };
    Sections::new(random, &layout, events)
}

fn large(random: &mut Random) -> Sections {
    let layout = Layout::large(random);
    let game = fresh(&layout);
    let events = match random.below(20) {
        0 => long_game(random, game, MOST_BOOK_EVENTS),
        1..=3 => fidgeting(random, game, 200),
        4..=7 => careless_game(random, game, 400),
        _ => good_game(random, game, MOST_BOOK_EVENTS),
    };
    Sections::new(random, &layout, events)
}

fn deep(random: &mut Random) -> Sections {
    let layout = Layout::standard(random);
    let game = fresh(&layout);
    let events = good_game(random, game, MOST_BOOK_EVENTS);
    Sections::new(random, &layout, events)
}

fn damaged(random: &mut Random) -> Vec<u8> {
    if random.chance(3) {
        let length = random.below(40);
        return (0..length).map(|_| random.byte()).collect();
    }
    let mut sections = small(random);
    for _ in 0..random.pick(&[0, 1, 1, 2, 3]) {
        sections.damage(random);
    }
    let mut bytes = sections.bytes();
    if random.chance(25) {
        bytes.truncate(random.below(bytes.len()));
    }
    bytes
}

fn fresh(layout: &Layout) -> Game {
    Game::setup(layout.settings, &layout.mines).expect("a layout is always lawful")
}
