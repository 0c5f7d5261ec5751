//! Lines of the table: the product and ordinary Rust doing the same, timed in turns.

use std::fmt;
use std::hint::black_box;
use std::time::{Duration, Instant};

/// About how many bytes are timed together.
const BATCH_BYTES: usize = 65_536;

/// One of two ways to do the same with an input. It gives a number, on which the two must agree.
pub type Way<'a, T> = Box<dyn FnMut(&T) -> usize + 'a>;

/// Something done by the product and by Rust.
pub struct Task<'a, T> {
    pub what: &'static str,
    pub product: Way<'a, T>,
    pub rust: Way<'a, T>,
}

/// What one input takes on average.
#[derive(Clone, Copy)]
pub struct Line {
    pub what: &'static str,
    bytes: usize,
    pub product: Duration,
    rust: Duration,
}

/// Runs all tasks, by the product and by Rust in turns, over each batch of inputs, so often. A batch counts with the
/// least of its times, so that what else the machine does weighs little.
pub fn measured<T, const N: usize>(
    inputs: &[T],
    bytes: impl Fn(&T) -> usize,
    repetitions: usize,
    mut tasks: [Task<T>; N],
) -> [Line; N] {
    for Task { what, product, rust } in &mut tasks {
        assert!(inputs.iter().all(|input| product(input) == rust(input)), "the two differ on an input of: {what}");
    }
    let bytes: usize = inputs.iter().map(bytes).sum();
    let mut totals = [[Duration::ZERO; 2]; N];
    for batch in inputs.chunks((BATCH_BYTES * inputs.len() / bytes).max(1)) {
        let mut least = [[Duration::MAX; 2]; N];
        for _ in 0..repetitions {
            for (task, least) in tasks.iter_mut().zip(&mut least) {
                least[0] = least[0].min(timed(batch, &mut task.product));
                least[1] = least[1].min(timed(batch, &mut task.rust));
            }
        }
        for (total, least) in totals.as_flattened_mut().iter_mut().zip(least.as_flattened()) {
            *total += *least;
        }
    }
    let count = inputs.len();
    let each = |total: Duration| total / count as u32;
    std::array::from_fn(|i| Line::new(tasks[i].what, bytes / count, totals[i].map(each)))
}

fn timed<T>(batch: &[T], run: &mut Way<T>) -> Duration {
    let begun = Instant::now();
    for input in batch {
        black_box(run(black_box(input)));
    }
    begun.elapsed()
}

impl Line {
    /// An input of so many bytes on average, and what it takes the product and Rust.
    pub fn new(what: &'static str, bytes: usize, [product, rust]: [Duration; 2]) -> Line {
        Line { what, bytes, product, rust }
    }

    pub fn heading() -> String {
        format!(
            "{:<48} {:>7} {:>11} {:>9} {:>13} {:>10} {:>6}",
            "what", "bytes", "product µs", "Rust µs", "product MB/s", "Rust MB/s", "ratio"
        )
    }

    /// The product's time by that of Rust.
    pub fn ratio(&self) -> f64 {
        self.product.as_secs_f64() / self.rust.as_secs_f64()
    }

    /// What is left of both times without a part of them.
    pub fn without(self, what: &'static str, part: Line) -> Line {
        let rest = |whole: Duration, part: Duration| whole.saturating_sub(part);
        Line { what, product: rest(self.product, part.product), rust: rest(self.rust, part.rust), ..self }
    }
}

impl fmt::Display for Line {
    /// Bytes and times are those of an input on average; the ratio is the product's time by that of Rust.
    fn fmt(&self, out: &mut fmt::Formatter) -> fmt::Result {
        let micros = |time: Duration| time.as_secs_f64() * 1e6;
        let (product, rust) = (micros(self.product), micros(self.rust));
        let rate = |micros: f64| self.bytes as f64 / micros;
        write!(
            out,
            "{:<48} {:>7} {product:>11.1} {rust:>9.1} {:>13.0} {:>10.0} {:>6.2}",
            self.what,
            self.bytes,
            rate(product),
            rate(rust),
            self.ratio()
        )
    }
}
