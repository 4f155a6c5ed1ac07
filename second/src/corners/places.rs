//! The places that a comparison asks for.

use crate::random::Random;

/// Cut to 32 bits such a place is one of the ring's.
pub const BEYOND_32_BITS: usize = 1 << 32;

/// What a place in the ring is added to, so that it is one no more. Whoever cuts off the upper bits, or takes
/// the highest for a sign, finds a corner there.
const FAR_OUT: [usize; 8] =
    [BEYOND_32_BITS, BEYOND_32_BITS, BEYOND_32_BITS, BEYOND_32_BITS, 1 << 8, 1 << 16, 1 << 31, 1 << 63];

/// Every place of a ring of `n`, the two behind it, the largest, and one more that is far out.
pub fn places(n: usize, random: &mut Random) -> impl Iterator<Item = usize> {
    let far_out = random.pick(&FAR_OUT) + random.below(n.max(1));
    (0..n + 2).chain([usize::MAX, far_out])
}
