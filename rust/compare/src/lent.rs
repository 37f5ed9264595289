//! What is lent to a call: buffers with guards around them, and the eight
//! entries of the answer.

use mav::raw::Entries;
use oracle::rng::Rng;

/// The fewest units in front of a buffer, and those after it.
const GUARD: usize = 16;

/// What a buffer is made of: bytes, or the numbers of a working memory.
pub trait Unit: Copy + Eq + 'static {
    /// At least so many of any value.
    fn marks(least: usize, rng: &mut Rng) -> Vec<Self>;
}

impl Unit for u8 {
    fn marks(least: usize, rng: &mut Rng) -> Vec<u8> {
        let words = least.div_ceil(8);
        (0..words).flat_map(|_| rng.bits().to_le_bytes()).collect()
    }
}

impl Unit for u16 {
    fn marks(least: usize, rng: &mut Rng) -> Vec<u16> {
        let mut marks = vec![0; least.next_multiple_of(4)];
        // Four at a time: a working memory is long.
        for four in marks.as_chunks_mut::<4>().0 {
            let bits = rng.bits();
            *four = [0, 16, 32, 48].map(|by| (bits >> by) as u16);
        }
        marks
    }
}

/// Bytes or numbers lent to a call, in the middle of a larger allocation, so
/// that one written beside them is seen.
#[derive(Clone, Debug, Eq, PartialEq)]
pub struct Buffer<T = u8> {
    units: Vec<T>,
    start: usize,
    len: usize,
}

impl<T: Unit> Buffer<T> {
    /// A buffer with these contents.
    pub fn new(contents: &[T], rng: &mut Rng) -> Buffer<T> {
        let mut buffer = Buffer::marked(contents.len(), rng);
        buffer.put(contents);
        buffer
    }

    /// A buffer of random contents, so that a unit not written is told from
    /// one written. Its offset is any of eight, so that its start is aligned
    /// only at times.
    pub fn marked(len: usize, rng: &mut Rng) -> Buffer<T> {
        let start = GUARD + rng.index(8);
        let units = T::marks(start + len + GUARD, rng);
        Buffer { units, start, len }
    }

    /// What is lent.
    pub fn lent(&self) -> &[T] {
        &self.units[self.start..self.start + self.len]
    }

    /// What is lent, to be written.
    pub fn lent_mut(&mut self) -> &mut [T] {
        &mut self.units[self.start..self.start + self.len]
    }

    /// How far the start is from an aligned one.
    pub fn offset(&self) -> usize {
        self.start - GUARD
    }

    /// Puts these at the front of what is lent, as far as there is room.
    pub fn put(&mut self, contents: &[T]) {
        let len = self.len.min(contents.len());
        self.lent_mut()[..len].copy_from_slice(&contents[..len]);
    }

    /// Lends only the first `len` from now on.
    pub fn shorten(&mut self, len: usize) {
        self.len = self.len.min(len);
    }

    /// This buffer with the first `written` lent as they are `after` a call,
    /// and all others as before it.
    pub fn with_front(&self, after: &Buffer<T>, written: usize) -> Buffer<T> {
        let mut buffer = self.clone();
        buffer.put(&after.lent()[..written.min(after.len)]);
        buffer
    }

    /// The first unit in which two buffers of one place differ, counted from
    /// the first one lent, with both values. Those in front of what is lent
    /// have negative numbers.
    pub fn first_difference(&self, other: &Buffer<T>) -> Option<(isize, T, T)> {
        let mut pairs = self.units.iter().zip(&other.units);
        let index = pairs.position(|(one, other)| one != other)?;
        let place = index as isize - self.start as isize;
        Some((place, self.units[index], other.units[index]))
    }
}

impl Buffer {
    /// Makes blanks of the bytes from `from` up to `to`, counted from the
    /// first one lent. They may be after those lent.
    pub fn blank(&mut self, from: usize, to: usize) {
        if let Some(bytes) = self.units.get_mut(self.start + from..self.start + to) {
            bytes.fill(b' ');
        }
    }
}

impl Buffer<u16> {
    /// This working memory with every number lent zero, and the guards as
    /// they are.
    pub fn zeroed(&self) -> Buffer<u16> {
        let mut buffer = self.clone();
        buffer.lent_mut().fill(0);
        buffer
    }
}

/// What only the calls on two flows are lent: the input is last night's.
#[derive(Clone, Debug, Eq, PartialEq)]
pub struct Tonight {
    pub flow: Buffer,
    pub work: Buffer<u16>,
}

impl Tonight {
    /// Tonight's flow and a working memory of so many numbers, marked with
    /// random contents.
    pub fn new(flow: &[u8], work: usize, rng: &mut Rng) -> Tonight {
        Tonight {
            flow: Buffer::new(flow, rng),
            work: Buffer::marked(work, rng),
        }
    }
}

/// Everything lent to one call.
#[derive(Clone, Debug, Eq, PartialEq)]
pub struct Lent {
    pub input: Buffer,
    pub tonight: Option<Tonight>,
    /// Without room where the call has no output.
    pub output: Buffer,
    pub entries: Entries,
}

impl Lent {
    /// An input, an output with this room and the entries, both marked with
    /// random contents.
    pub fn new(input: Buffer, room: usize, rng: &mut Rng) -> Lent {
        Lent {
            input,
            tonight: None,
            output: Buffer::marked(room, rng),
            entries: std::array::from_fn(|_| rng.bits()),
        }
    }

    /// What a side is given of it.
    pub fn memory(&mut self) -> Memory<'_> {
        let (new, work) = match &mut self.tonight {
            Some(tonight) => (tonight.flow.lent_mut(), tonight.work.lent_mut()),
            None => (&mut [][..], &mut [][..]),
        };
        Memory {
            input: self.input.lent_mut(),
            new,
            work,
            output: self.output.lent_mut(),
            answer: &mut self.entries,
        }
    }
}

/// The memory lent to a call, as a side is given it. A call leaves alone what
/// it has no use for.
pub struct Memory<'a> {
    /// A field, a list or a flow; last night's flow where there are two.
    pub input: &'a mut [u8],
    /// Tonight's flow where there are two, and nothing otherwise.
    pub new: &'a mut [u8],
    /// The working memory of a comparison, and nothing otherwise.
    pub work: &'a mut [u16],
    /// The output, or the account of a comparison.
    pub output: &'a mut [u8],
    pub answer: &'a mut Entries,
}

impl Memory<'_> {
    /// The same memory with another input.
    pub fn with_input<'a>(&'a mut self, input: &'a mut [u8]) -> Memory<'a> {
        Memory {
            input,
            new: self.new,
            work: self.work,
            output: self.output,
            answer: self.answer,
        }
    }
}

#[cfg(test)]
mod tests {
    use super::*;

    #[test]
    fn a_guard_byte_is_seen() {
        let before = Buffer::new(b"abc", &mut Rng::new(1));
        for index in 0..before.units.len() {
            let mut after = before.clone();
            after.units[index] ^= 1;
            let place = index as isize - before.start as isize;
            let (found, _, _) = before.first_difference(&after).expect("one byte differs");
            assert_eq!(found, place);
            let front = before.with_front(&after, 2);
            assert_eq!(front == after, (0..2).contains(&place));
        }
    }

    #[test]
    fn a_guard_number_is_seen() {
        let before: Buffer<u16> = Buffer::marked(5, &mut Rng::new(3));
        assert_eq!(before.lent().len(), 5);
        for index in 0..before.units.len() {
            let mut after = before.zeroed();
            after.units[index] ^= 1;
            assert_ne!(after, before.zeroed());
            let place = index as isize - before.start as isize;
            let (found, _, _) = before.zeroed().first_difference(&after).unwrap();
            assert_eq!(found, place);
        }
        // No number lent was zero before, and no guard is changed.
        let places =
            (0..before.units.len()).filter(|&i| before.units[i] != before.zeroed().units[i]);
        assert!(places.eq(before.start..before.start + 5));
    }

    #[test]
    fn the_lent_part_stays_in_its_place() {
        let mut buffer = Buffer::new(b"abcdef", &mut Rng::new(2));
        assert_eq!(buffer.lent(), b"abcdef");
        buffer.shorten(2);
        buffer.blank(2, 6);
        assert_eq!(buffer.lent(), b"ab");
        assert_eq!(&buffer.units[buffer.start..][..6], b"ab    ");
    }
}
