//! Times of the proved library beside plain Rust, in one run. Machines are noisy: the ratio is the figure to read.
mod codes;
mod lists;
mod spots;

use std::hint::black_box;
use std::time::Instant;

pub fn run() {
    println!("{:<28} {:>10} {:>10} {:>7}", "", "store ns", "plain ns", "ratio");
    codes::run();
    lists::run();
    spots::run();
}

/// The best times of many rounds in nanoseconds an item, the two sides in turn.
fn best_of<A, B>(rounds: usize, items: usize, mut store: impl FnMut() -> A, mut plain: impl FnMut() -> B) -> (f64, f64) {
    let mut best = (f64::MAX, f64::MAX);
    for _ in 0..rounds {
        best.0 = best.0.min(time(&mut store));
        best.1 = best.1.min(time(&mut plain));
    }
    (best.0 / items as f64, best.1 / items as f64)
}

fn time<T>(work: &mut impl FnMut() -> T) -> f64 {
    let start = Instant::now();
    black_box(work());
    start.elapsed().as_nanos() as f64
}

fn report(name: &str, (store, plain): (f64, f64)) {
    println!("{name:<28} {store:>10.2} {plain:>10.2} {:>7.2}", store / plain);
}
