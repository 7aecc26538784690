//! The C interface as it is: the declarations of `include/redstartgilt.h`, with its names, orders and widths.
//!
//! The rest of this crate calls these with lists that it has allocated itself; use them directly to lend lists of
//! your own. Lists are a pointer and a length. A pointer must never be null, not even for a list of length 0, and must
//! be aligned; those of a slice are. Lists lent for writing must not overlap any other list of the call. What each
//! function does, which lengths it needs and in which order it refuses is in the header.

mod chains;
mod covariances;
mod factors;
mod files;
mod floors;
mod ldl;
mod patterns;
mod permutations;
mod refusals;
mod results;
mod selected_entries;
mod variances;
mod whole_variances;
mod wholes;

pub use chains::*;
pub use covariances::*;
pub use factors::*;
pub use files::*;
pub use floors::*;
pub use ldl::*;
pub use patterns::*;
pub use permutations::*;
pub use refusals::*;
pub use results::*;
pub use selected_entries::*;
pub use variances::*;
pub use whole_variances::*;
pub use wholes::*;
