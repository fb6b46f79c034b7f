// E0502: a step while a display holds the view.
#[path = "../liftmanger.rs"]
mod liftmanger;
use liftmanger::{Beginner, Code, Pointer};

fn tick(game: &mut Beginner) -> u8 {
    let view = game.view();
    let _ = game.step(Code::Lc, Pointer::Off);
    view.shown[0]
}
