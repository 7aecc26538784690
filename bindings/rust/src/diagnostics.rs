//! Status and counts of an answer.

use crate::sys;
use crate::Error;

/// Whether an answer has entries.
#[derive(Debug, Clone, Copy, PartialEq, Eq, Hash)]
pub enum SelectedInverseStatus {
    /// The closed set is within the limit, and its entries are given.
    Complete,
    /// The closed set passes the limit; no entries are given.
    ClosureTooLarge,
}

/// The counts of an answer.
#[derive(Debug, Clone, PartialEq)]
pub struct SelectedInverseDiagnostics {
    /// Distinct requested pairs.
    pub requested_pairs: usize,
    /// Pairs of the closed set: the requests and all that the recurrence needs for them. Where it passes the limit,
    /// limit + 1.
    pub closure_pairs: usize,
    /// Entries of the factor on or below its diagonal that are not 0.0; of a factor with pivots, those below its diagonal
    /// and one for each column.
    pub factor_pairs: usize,
    /// `closure_pairs / max(factor_pairs, 1)`.
    pub closure_over_factor: f64,
    /// The limit that was applied, as it was given.
    pub closure_limit: usize,
    /// Whether the entries are given.
    pub status: SelectedInverseStatus,
}

impl SelectedInverseDiagnostics {
    /// Whether the entries are given.
    pub fn is_complete(&self) -> bool {
        self.status == SelectedInverseStatus::Complete
    }

    pub(crate) fn of_reply(reply: sys::redstartgilt_selected) -> Result<Self, Error> {
        Error::check(reply.refusal)?;
        Ok(Self {
            requested_pairs: reply.requested_pairs,
            closure_pairs: reply.closure_pairs,
            factor_pairs: reply.factor_pairs,
            closure_over_factor: reply.closure_over_factor,
            closure_limit: reply.closure_limit,
            status: if reply.status == sys::REDSTARTGILT_COMPLETE {
                SelectedInverseStatus::Complete
            } else {
                SelectedInverseStatus::ClosureTooLarge
            },
        })
    }
}
