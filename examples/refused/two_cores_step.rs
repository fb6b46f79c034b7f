// E0499: two threads that both step.
#[path = "../liftmanger.rs"]
mod liftmanger;
use liftmanger::{Beginner, Code, Pointer};

fn race(game: &mut Beginner) {
    std::thread::scope(|s| {
        s.spawn(|| game.step(Code::Lc, Pointer::Off));
        s.spawn(|| game.step(Code::Lr, Pointer::Off));
    });
}
