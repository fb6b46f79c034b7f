// The rows of the bench, each played by the Rust and by the library in this one process; bench/run builds and reads it.
mod boards;
mod flow;
mod games;
mod library;
mod measure;
mod opening;
mod play;
mod replay;
mod scrub;

// The oracle's printout, over the original as it is released.
#[path = "../../oracle/src/board.rs"]
#[allow(dead_code)]
mod board;
#[path = "../../oracle/src/book.rs"]
#[allow(dead_code)]
mod book;
#[path = "../../oracle/src/game.rs"]
#[allow(dead_code)]
mod game;
#[path = "../../oracle/src/printout.rs"]
mod printout;

use measure::Way;

fn main() {
    let way = match std::env::args().nth(1).as_deref() {
        Some("instructions") => Way::Instructions,
        Some("time") => Way::Time,
        _ => {
            eprintln!("usage: bench instructions (under callgrind, by bench/run) | time");
            std::process::exit(2);
        }
    };
    opening::rows(way);
    games::rows(way);
    replay::rows(way);
    scrub::rows(way);
}
