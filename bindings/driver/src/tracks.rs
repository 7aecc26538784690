//! Document 02's variances along a track, each the full sum over its run's entries, in 128-bit numbers.

use crate::call::Call;
use crate::rules::entry;
use crate::subjects::TrackLists;

/// The pairs of cells that some run needs, those less than the width apart in the track.
pub fn pairs(track: &TrackLists) -> impl Iterator<Item = (usize, usize)> + '_ {
    let cells = &track.cells;
    let near = move |at: usize| at..cells.len().min(at + track.width);
    (0..cells.len()).flat_map(move |at| near(at).map(move |other| (cells[at] as usize, cells[other] as usize)))
}

/// The variance of each run of an accepted call.
pub fn sums(call: &Call) -> Vec<i128> {
    call.track.cells.windows(call.track.width).map(|run| sum(call, run)).collect()
}

fn sum(call: &Call, run: &[u32]) -> i128 {
    let mut sum = 0;
    for &a in run {
        for &b in run {
            let z = entry(&call.whole_entries, a as usize, b as usize).expect("not refused");
            sum += i128::from(z);
        }
    }
    sum
}
