//! The pass that only sums bytes: the time that bringing a flow from memory
//! takes, with next to nothing done to it.

/// Bytes added at once, each in a lane of its own.
const LANES: usize = 64;
/// Rows added to the lanes before they are emptied. With `PARTS` bytes of at
/// most 255 each, a lane of 16 bits is not exceeded: 64 * 4 * 255 = 65,280.
const ROWS: usize = 64;
const BLOCK: usize = LANES * ROWS;
/// The places at which the pass reads at the same time.
const PARTS: usize = 4;

/// The sum of all bytes.
///
/// A plain `iter().map(u64::from).sum()` widens every byte to 64 bits, and is
/// held up by the processor and not by the memory. Here a byte is widened to
/// 16 bits only, and the 64 lanes are eight vector registers, added to by
/// `paddw` of SSE2, which every x86-64 has; they are widened to 64 bits once a
/// block. The bytes are cut into four parts that are read together, because
/// memory gives more bytes a second where several places are asked for at once
/// than where one is.
pub fn sum(bytes: &[u8]) -> u64 {
    let blocks = bytes.len() / PARTS / BLOCK;
    let (whole, rest) = bytes.split_at(PARTS * BLOCK * blocks);
    let (whole, _) = whole.as_chunks::<BLOCK>();
    let mut total = 0;
    for index in 0..blocks {
        let parts: [&[u8; BLOCK]; PARTS] =
            std::array::from_fn(|part| &whole[part * blocks + index]);
        total += sum_blocks(parts);
    }
    total + rest.iter().copied().map(u64::from).sum::<u64>()
}

fn sum_blocks(parts: [&[u8; BLOCK]; PARTS]) -> u64 {
    let [a, b, c, d] = parts.map(|part| part.as_chunks::<LANES>().0);
    let mut lanes = [0_u16; LANES];
    for (((a, b), c), d) in a.iter().zip(b).zip(c).zip(d) {
        for (lane, sum) in lanes.iter_mut().enumerate() {
            *sum += [a, b, c, d]
                .map(|row| u16::from(row[lane]))
                .iter()
                .sum::<u16>();
        }
    }
    lanes.into_iter().map(u64::from).sum()
}

#[cfg(test)]
mod tests {
    use super::*;

    #[test]
    fn every_byte_is_counted_once() {
        for length in [0, 1, BLOCK, 4 * BLOCK - 1, 4 * BLOCK, 9 * BLOCK + 77] {
            let bytes: Vec<u8> = (0..length).map(|i| (i * i % 251) as u8).collect();
            let due: u64 = bytes.iter().map(|&byte| u64::from(byte)).sum();
            assert_eq!(sum(&bytes), due, "{length} bytes");
        }
    }

    #[test]
    fn the_largest_bytes_do_not_exceed_a_lane() {
        assert_eq!(sum(&[255; 4 * BLOCK]), 255 * 4 * 4_096);
    }
}
