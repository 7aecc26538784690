//! Lengths that suffice for the lists of a call.

use crate::{MAX_DIMENSION, MAX_ENTRIES};

/// The number of pairs (row, column) with row ≥ column in dimension n, n(n+1)/2; `usize::MAX` where it is more.
pub const fn pair_total(n: usize) -> usize {
    let total = n as u128 * (n as u128 + 1) / 2;
    if total > usize::MAX as u128 {
        usize::MAX
    } else {
        total as usize
    }
}

/// The result places that suffice for a dimension and a limit: the lesser of the limit and [`pair_total`].
pub const fn result_places(n: usize, limit: usize) -> usize {
    let total = pair_total(n);
    if limit < total {
        limit
    } else {
        total
    }
}

/// The scratch words that a pattern list needs, one bit for each pair: [`pair_total`] / 32, rounded up.
pub const fn mark_words(n: usize) -> usize {
    pair_total(n).div_ceil(32)
}

/// The scratch words that a call that fills result lists needs: [`mark_words`] + [`pair_total`] + 4n.
pub const fn scratch_words(n: usize) -> usize {
    mark_words(n)
        .saturating_add(pair_total(n))
        .saturating_add(n.saturating_mul(4))
}

/// The scratch words that [`dependency_chain`](super::dependency_chain) needs: 2·[`pair_total`] + 4n.
pub const fn chain_words(n: usize) -> usize {
    pair_total(n).saturating_mul(2).saturating_add(n.saturating_mul(4))
}

/// The chain places that suffice for a dimension: 2n − 1, as row + column rises from pair to pair of a chain; 0 for n = 0.
pub const fn chain_places(n: usize) -> usize {
    n.saturating_mul(2).saturating_sub(1)
}

/// The limit that a call without one applies: 10 times the stored entries.
pub const fn default_limit(stored_entries: usize) -> usize {
    stored_entries.saturating_mul(10)
}

/// The places that suffice for the requests of a file: one for each line end, but no fewer than
/// [`MAX_DIMENSION`], as a file without entries means every diagonal cell, and no more than [`MAX_ENTRIES`].
pub fn request_places(text: &[u8]) -> usize {
    // The header and the size line are lines too, so the last entry may do without an end.
    let line_ends = text.iter().filter(|byte| **byte == b'\n').count();
    line_ends.clamp(MAX_DIMENSION, MAX_ENTRIES)
}

/// The bytes that suffice for a file of so many distinct pairs: 69 for the header and the size line, and 10 for each
/// pair.
pub const fn request_file_bytes(pairs: usize) -> usize {
    pairs.saturating_mul(10).saturating_add(69)
}

/// The runs of `width` cells that a track of so many has: cells − width + 1, and 0 for a width that a call refuses.
pub const fn track_runs(cells: usize, width: usize) -> usize {
    if width == 0 || width > cells {
        0
    } else {
        cells - width + 1
    }
}
