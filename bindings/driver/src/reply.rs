//! What a function replies.

use redstartgilt::sys;

/// The fields of a function's reply; those that it has not, and all but refusal and looks where it refuses, are 0.
#[derive(Clone, Copy, Debug, Default)]
pub struct Reply {
    pub refusal: u32,
    pub status: u32,
    pub requested: usize,
    pub closure: usize,
    pub factor: usize,
    pub limit: usize,
    pub ratio: f64,
    pub value: f64,
    pub whole: i64,
    pub low: i64,
    pub high: i64,
    pub looks: usize,
    pub pairs: usize,
    pub floor: f64,
    pub hits: usize,
    pub negative: usize,
    pub least: f64,
    pub dimension: usize,
    pub requests: usize,
    pub bytes: usize,
}

impl Reply {
    pub fn refused(refusal: u32) -> Self {
        Reply { refusal, ..Reply::default() }
    }

    pub fn complete(&self) -> bool {
        self.refusal == 0 && self.status == sys::REDSTARTGILT_COMPLETE
    }

    /// Equal, all NaNs taken as one.
    pub fn same(&self, other: &Self) -> bool {
        let numbers = |r: &Self| {
            let counts = [r.requested, r.closure, r.factor, r.limit, r.pairs, r.hits, r.negative];
            (r.refusal, r.status, counts, [r.dimension, r.requests, r.bytes, r.looks], [r.whole, r.low, r.high])
        };
        let values = |r: &Self| {
            [r.ratio, r.value, r.floor, r.least].map(|x| if x.is_nan() { f64::NAN.to_bits() } else { x.to_bits() })
        };
        numbers(self) == numbers(other) && values(self) == values(other)
    }
}

/// A refusal's number alone.
impl From<u32> for Reply {
    fn from(refusal: u32) -> Self {
        Reply::refused(refusal)
    }
}

impl From<sys::redstartgilt_selected> for Reply {
    fn from(r: sys::redstartgilt_selected) -> Self {
        Reply {
            refusal: r.refusal,
            status: r.status,
            requested: r.requested_pairs,
            closure: r.closure_pairs,
            factor: r.factor_pairs,
            limit: r.closure_limit,
            ratio: r.closure_over_factor,
            ..Reply::default()
        }
    }
}

impl From<sys::redstartgilt_pairs> for Reply {
    fn from(r: sys::redstartgilt_pairs) -> Self {
        Reply { refusal: r.refusal, pairs: r.pairs, ..Reply::default() }
    }
}

impl From<sys::redstartgilt_requests> for Reply {
    fn from(r: sys::redstartgilt_requests) -> Self {
        Reply { refusal: r.refusal, dimension: r.dimension, requests: r.requests, ..Reply::default() }
    }
}

impl From<sys::redstartgilt_bytes> for Reply {
    fn from(r: sys::redstartgilt_bytes) -> Self {
        Reply { refusal: r.refusal, bytes: r.bytes, ..Reply::default() }
    }
}

impl From<sys::redstartgilt_floored> for Reply {
    fn from(r: sys::redstartgilt_floored) -> Self {
        Reply { refusal: r.refusal, floor: r.floor, hits: r.floor_hits, ..Reply::default() }
    }
}

impl From<sys::redstartgilt_least> for Reply {
    fn from(r: sys::redstartgilt_least) -> Self {
        Reply { negative: r.num_negative, least: r.min_value, ..Reply::default() }
    }
}

impl From<sys::redstartgilt_entry> for Reply {
    fn from(r: sys::redstartgilt_entry) -> Self {
        Reply { refusal: r.refusal, value: r.value, ..Reply::default() }
    }
}

impl From<sys::redstartgilt_whole_entry> for Reply {
    fn from(r: sys::redstartgilt_whole_entry) -> Self {
        Reply { refusal: r.refusal, whole: r.value, ..Reply::default() }
    }
}

impl From<sys::redstartgilt_variance_bounds> for Reply {
    fn from(r: sys::redstartgilt_variance_bounds) -> Self {
        Reply { refusal: r.refusal, low: r.low, high: r.high, ..Reply::default() }
    }
}

impl From<sys::redstartgilt_counted_entry> for Reply {
    fn from(r: sys::redstartgilt_counted_entry) -> Self {
        Reply { refusal: r.refusal, value: r.value, looks: r.looks, ..Reply::default() }
    }
}
