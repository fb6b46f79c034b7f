// E0616: a count that knows hidden mines, read during the game.
#[path = "../liftmanger.rs"]
mod liftmanger;
use liftmanger::Beginner;

fn peek(game: &Beginner) -> u32 {
    game.position.rce
}
