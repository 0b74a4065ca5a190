//! How a row is measured: both programs on the same inputs, in alternating windows.

use std::hint::black_box;
use std::time::{Duration, Instant};

/// Inputs of a row; the most windows of each program in it, and the time that they may take together.
pub const INPUTS: usize = 256;
const WINDOWS: usize = 3000;
const TIME: Duration = Duration::from_secs(3);

const METHOD: &str = "\
method: one process, one thread; both programs take the same inputs in the same order, each through a call that is
not inlined. A window is one pass over a row's inputs; the windows of the two programs alternate, and each figure is
the best window of 3000, or of as many as fit into 3 seconds, divided by its calls. Buffers are lent as the call before
left them, not cleared. Answers go through black_box. ratio = ours / second: below 1.00 ours is the quicker.
";

/// A run: the rows whose name has a word.
pub struct Bench {
    word: String,
}

impl Bench {
    /// Prints what stands above the rows.
    pub fn start(word: String) -> Bench {
        println!("{METHOD}\nprocessor: {}\n", std::env::consts::ARCH);
        println!(
            "{:<44} {:>9} {:>9} {:>7} {:>10} {:>10}",
            "row", "ours ns", "second ns", "ratio", "ours MB/s", "second MB/s"
        );
        Bench { word }
    }

    /// Measures and prints a row that is wanted; a window has so many calls. `bytes` is the text of one call where its
    /// rate means something.
    pub fn row(&self, name: &str, calls: usize, bytes: Option<usize>, windows: impl FnOnce() -> [f64; 2]) {
        if !name.contains(&self.word) {
            return;
        }
        let [ours, second] = windows().map(|window| window / calls as f64);
        let rate = |ns: f64| bytes.map_or(String::new(), |bytes| format!("{:.0}", bytes as f64 / ns * 1000.0));
        println!("{name:<44} {ours:>9.2} {second:>9.2} {:>7.2} {:>10} {:>10}", ours / second, rate(ours), rate(second));
    }
}

/// Nanoseconds of the best window of each program.
pub fn best(ours: impl FnMut(), second: impl FnMut()) -> [f64; 2] {
    best_of(WINDOWS, ours, second)
}

/// The same of so many windows at the most.
pub fn best_of(windows: usize, mut ours: impl FnMut(), mut second: impl FnMut()) -> [f64; 2] {
    let began = Instant::now();
    let mut best = [f64::MAX; 2];
    for _ in 0..windows {
        best[0] = best[0].min(window(&mut ours));
        best[1] = best[1].min(window(&mut second));
        if began.elapsed() > TIME {
            break;
        }
    }
    best
}

fn window(pass: &mut impl FnMut()) -> f64 {
    let began = Instant::now();
    pass();
    began.elapsed().as_nanos() as f64
}

/// One pass of a call over its inputs.
pub fn pass<I, A>(inputs: &[I], mut call: impl FnMut(&I) -> A) {
    for input in inputs {
        black_box(&call(black_box(input)));
    }
}
