//! Indices and counts as the library's 32-bit words.

/// A word that does not fit becomes the largest one. That is above every dimension that the library accepts, so it is
/// refused as the index itself would be.
pub(crate) fn word(index: usize) -> u32 {
    u32::try_from(index).unwrap_or(u32::MAX)
}

pub(crate) fn words(indices: &[usize]) -> Vec<u32> {
    indices.iter().copied().map(word).collect()
}

pub(crate) fn indices(words: &[u32]) -> Vec<usize> {
    words.iter().map(|word| *word as usize).collect()
}
