// Measuring one row: callgrind counts what runs between `counter_start` and `counter_stop` (counter.c), or the clock is read.
use std::ffi::{c_char, CString};
use std::time::{Duration, Instant};

extern "C" {
    fn counter_start();
    fn counter_stop(name: *const c_char);
}

/// One side of a row: makes its boards anew, and then plays on them. Only the play is measured, less what `base` takes on new boards.
pub trait Side {
    fn prepare(&mut self);
    fn base(&mut self) {}
    fn play(&mut self);
}

#[derive(Clone, Copy)]
pub enum Way {
    Instructions,
    Time,
}

/// Measures the Rust's side and ours. Callgrind's files bear the name and the side; the clock's findings are printed behind the name.
pub fn row(way: Way, name: &str, mut sides: [&mut dyn Side; 2]) {
    for side in &mut sides {
        side.prepare();
        side.play(); // the first call pays for what later ones find ready
    }
    match way {
        Way::Instructions => {
            for (side, word) in sides.iter_mut().zip(["theirs", "ours"]) {
                side.prepare();
                counted(&format!("{word}-base {name}"), || side.base());
                side.prepare();
                counted(&format!("{word} {name}"), || side.play());
            }
        }
        Way::Time => println!("{name}\t{}", clock(&mut sides)),
    }
}

fn counted(label: &str, run: impl FnOnce()) {
    let label = CString::new(label).unwrap();
    // SAFETY: the two calls only speak to callgrind; the label ends in 0 and lives on.
    unsafe { counter_start() };
    run();
    unsafe { counter_stop(label.as_ptr()) };
}

/// Both medians in nanoseconds, then the tenth and the ninetieth of a hundred ratios of neighbouring plays.
fn clock(sides: &mut [&mut dyn Side; 2]) -> String {
    let mut times = [Vec::new(), Vec::new()];
    let mut ratios = Vec::new();
    let end = Instant::now() + Duration::from_millis(600);
    while ratios.len() < 25 || Instant::now() < end {
        for (side, times) in sides.iter_mut().zip(&mut times) {
            side.prepare();
            let base = timed(|| side.base());
            side.prepare();
            times.push(timed(|| side.play()) - base);
        }
        ratios.push(times[1][ratios.len()] / times[0][ratios.len()]);
    }
    let [theirs, ours] = &mut times;
    format!("{}\t{}\t{:.3}\t{:.3}", share(theirs, 50), share(ours, 50), share(&mut ratios, 10), share(&mut ratios, 90))
}

fn timed(run: impl FnOnce()) -> f64 {
    let start = Instant::now();
    run();
    start.elapsed().as_nanos() as f64
}

fn share(values: &mut [f64], hundredth: usize) -> f64 {
    values.sort_by(f64::total_cmp);
    values[(values.len() - 1) * hundredth / 100]
}
