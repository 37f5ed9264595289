//! Measuring calls side by side.

use std::time::{Duration, Instant};

/// The least time of one run: a call that takes less is repeated in it, so
/// that the step of the clock does not matter.
const LEAST: Duration = Duration::from_millis(20);

/// A call to be measured, given the memory that it may write to.
pub type Call<'a> = &'a dyn Fn(&mut [u8]);

/// The memory that measured calls write to, the same for every side. All of
/// it is written once before the first call, so that no call is the first to
/// touch a page of it.
pub struct Memory<'a> {
    bytes: Vec<u8>,
    /// What is copied to its front before each call.
    fresh: &'a [u8],
}

impl<'a> Memory<'a> {
    /// No memory, for calls that only read.
    pub fn none() -> Memory<'a> {
        Memory::room(0)
    }

    /// Room for an output. A call finds there what the one before has left.
    pub fn room(length: usize) -> Memory<'a> {
        Memory {
            bytes: vec![b'#'; length],
            fresh: &[],
        }
    }

    /// A copy of these bytes, made again before each call.
    pub fn copy_of(bytes: &'a [u8]) -> Memory<'a> {
        Memory {
            bytes: bytes.to_vec(),
            fresh: bytes,
        }
    }

    /// The memory as a call has to find it.
    pub fn renewed(&mut self) -> &mut [u8] {
        self.bytes[..self.fresh.len()].copy_from_slice(self.fresh);
        &mut self.bytes
    }
}

/// The seconds that a call of each side took, round by round.
pub struct Times<const N: usize>(Vec<[f64; N]>);

impl<const N: usize> Times<N> {
    /// The best of a side.
    pub fn best(&self, side: usize) -> f64 {
        let of_side = self.0.iter().map(|round| round[side]);
        of_side.fold(f64::INFINITY, f64::min)
    }

    /// The times of some of the sides.
    pub fn of<const M: usize>(&self, sides: [usize; M]) -> Times<M> {
        let rounds = self.0.iter();
        Times(rounds.map(|round| sides.map(|side| round[side])).collect())
    }

    /// The best of one side by the best of another.
    pub fn ratio(&self, above: usize, below: usize) -> f64 {
        self.best(above) / self.best(below)
    }

    /// The median of the ratios of the single rounds. Where their number is
    /// even it is the mean of the middle two.
    pub fn median_ratio(&self, above: usize, below: usize) -> f64 {
        let ratios = self.0.iter().map(|round| round[above] / round[below]);
        let mut ratios: Vec<f64> = ratios.collect();
        ratios.sort_by(f64::total_cmp);
        let last = ratios.len() - 1;
        (ratios[last / 2] + ratios[last.div_ceil(2)]) / 2.0
    }
}

/// Measures the calls in turn, round after round, so that a change of the
/// machine's speed meets all of them alike. Before the first round each call
/// is made twice, and the second says how often a run repeats it.
pub fn side_by_side<const N: usize>(
    rounds: usize,
    memory: &mut Memory,
    calls: [Call; N],
) -> Times<N> {
    let repeats = calls.map(|call| {
        run(call, memory, 1);
        let once = run(call, memory, 1);
        (LEAST.as_secs_f64() / once).ceil().max(1.0) as u32
    });
    let round = |_| std::array::from_fn(|side| run(calls[side], memory, repeats[side]));
    Times((0..rounds).map(round).collect())
}

/// The seconds of one call, as the mean of so many. Only the calls are
/// measured, and not what renews their memory.
fn run(call: Call, memory: &mut Memory, repeats: u32) -> f64 {
    let mut time = Duration::ZERO;
    for _ in 0..repeats {
        let bytes = memory.renewed();
        let start = Instant::now();
        call(bytes);
        time += start.elapsed();
    }
    time.as_secs_f64() / f64::from(repeats)
}

#[cfg(test)]
mod tests {
    use super::*;
    use std::cell::RefCell;

    #[test]
    fn best_and_median_are_those_of_the_rounds() {
        let times = Times(vec![[3.0, 1.0], [2.0, 2.0], [8.0, 4.0]]);
        assert_eq!((times.best(0), times.best(1)), (2.0, 1.0));
        assert_eq!(times.ratio(0, 1), 2.0);
        assert_eq!(times.median_ratio(0, 1), 2.0);
        let even = Times(vec![[3.0, 1.0], [2.0, 2.0]]);
        assert_eq!(even.median_ratio(0, 1), 2.0);
        let turned = times.of([1, 0]);
        assert_eq!((turned.best(0), turned.best(1)), (1.0, 2.0));
        assert_eq!(turned.median_ratio(0, 1), 0.5);
    }

    #[test]
    fn the_calls_take_turns_and_each_finds_a_fresh_copy() {
        let order = RefCell::new(String::new());
        let call = |name: char| {
            let order = &order;
            move |bytes: &mut [u8]| {
                assert_eq!(bytes, b"flow");
                bytes.fill(b'x');
                order.borrow_mut().push(name);
                std::thread::sleep(LEAST);
            }
        };
        let times = side_by_side(2, &mut Memory::copy_of(b"flow"), [&call('a'), &call('b')]);
        assert_eq!(order.into_inner(), "aabbabab");
        assert!(times.best(0) >= LEAST.as_secs_f64());
    }
}
