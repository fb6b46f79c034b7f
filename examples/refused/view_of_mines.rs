// E0609: a display that looks for the mines.
#[path = "../liftmanger.rs"]
mod liftmanger;
use liftmanger::View;

fn peek(view: View<'_>) -> i8 {
    view.mines[0]
}
