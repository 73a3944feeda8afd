//! Measured times, and the one loop in which every call of both sides is measured.

use std::hint::black_box;
use std::time::Instant;

/// ns per call, a number for each round.
#[derive(Default, Clone)]
pub struct Times(Vec<f64>);

/// The times of both sides on the same inputs, and how many inputs there are.
pub struct Pair {
    pub inputs: usize,
    pub sides: [Times; 2],
}

impl Times {
    /// One round: one pass over the inputs, short enough that few are disturbed by other programs. The loop knows neither the
    /// input that it reads nor whether the answer is used; both are handed over by reference, so that neither is copied for
    /// the measurement. Not inlined: each call has a function with this loop and nothing else.
    #[inline(never)]
    pub fn measure<T, R>(&mut self, inputs: &[T], call: impl Fn(&T) -> R) {
        let start = Instant::now();
        for input in inputs {
            let answer = call(black_box(input));
            black_box(&answer);
        }
        let nanoseconds = start.elapsed().as_nanos() as f64;
        self.0.push(nanoseconds / inputs.len() as f64);
    }

    /// Round by round.
    pub fn less(&self, other: &Times) -> Times {
        let both = self.0.iter().zip(&other.0);
        Times(both.map(|(it, other)| it - other).collect())
    }

    pub fn median(&self) -> f64 {
        let mut sorted = self.0.clone();
        sorted.sort_by(f64::total_cmp);
        sorted[sorted.len() / 2]
    }

    pub fn least(&self) -> f64 {
        self.0.iter().copied().fold(f64::INFINITY, f64::min)
    }
}

/// Both sides in turn, each on its form of the same inputs. Before the first round each is asked once, whereby every year gets
/// into the original's cache.
pub fn in_turn<A, B, X, Y>(
    rounds: usize,
    (firsts, first): (&[A], impl Fn(&A) -> X + Copy),
    (seconds, second): (&[B], impl Fn(&B) -> Y + Copy),
) -> Pair {
    assert_eq!(firsts.len(), seconds.len());
    Times::default().measure(firsts, first);
    Times::default().measure(seconds, second);
    let mut sides = [Times::default(), Times::default()];
    for _ in 0..rounds {
        sides[0].measure(firsts, first);
        sides[1].measure(seconds, second);
    }
    Pair {
        inputs: firsts.len(),
        sides,
    }
}

/// Of the medians, or of the least times.
pub fn mean<'a>(
    times: impl ExactSizeIterator<Item = &'a Times>,
    of: impl Fn(&Times) -> f64,
) -> f64 {
    let count = times.len() as f64;
    times.map(of).sum::<f64>() / count
}
