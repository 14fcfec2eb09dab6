//! The search for the end of a line, which the proved text makes by the crate `memchr`.

const ONES: u64 = u64::MAX / 255;

/// Returns the position of the first line feed. Compares eight bytes in one step: a line feed becomes zero, and one less
/// than zero has its highest bit. The lowest of these bits is that of the first line feed.
pub(crate) fn line_feed(input: &[u8]) -> Option<usize> {
    let mut at = 0;
    while let Some(bytes) = input[at..].first_chunk() {
        let others = u64::from_le_bytes(*bytes) ^ (ONES * u64::from(b'\n'));
        let feeds = others.wrapping_sub(ONES) & !others & (ONES << 7);
        if feeds != 0 {
            return Some(at + feeds.trailing_zeros() as usize / 8);
        }
        at += 8;
    }
    let rest = input[at..].iter().position(|byte| *byte == b'\n')?;
    Some(at + rest)
}

#[cfg(test)]
mod tests {
    use super::line_feed;

    #[test]
    fn the_first_line_feed_is_found_at_every_place() {
        for len in 0..70 {
            assert_eq!(line_feed(&vec![b'a'; len]), None);
            for first in 0..len {
                let mut input = vec![b'\r'; len];
                input[first] = b'\n';
                assert_eq!(line_feed(&input), Some(first));
                input[len - 1] = b'\n';
                assert_eq!(line_feed(&input), Some(first));
            }
        }
    }
}
