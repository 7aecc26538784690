//! A factor of gmrf-rs, handed over to this library. gmrf-rs is not needed here: module `gmrf` stands in for it, with the names
//! and shapes of its `SparseCholeskyFactor` and `Permutation`.
//!
//!     cargo run --example gmrf_bridge

use redstartgilt::{
    lent, selected_inverse_entries, selected_inverse_entries_with_limit, CholeskyFactor, Error, Permutation,
    SelectedInverseStatus, SparseSymmetricPattern,
};

/// What a program with gmrf-rs has from `gmrf_rs`.
mod gmrf {
    /// Its place in factor order of each cell, and the cell at each place.
    pub struct Permutation {
        pub orig_to_perm: Vec<usize>,
        pub perm_to_orig: Vec<usize>,
    }

    /// A supernodal factor of one block: every number of a square, column by column, zeros and those above the diagonal too.
    pub struct SparseCholeskyFactor {
        pub n: usize,
        pub values: Vec<f64>,
    }

    impl SparseCholeskyFactor {
        pub fn dimension(&self) -> usize {
            self.n
        }

        /// All numbers stored.
        pub fn nnz(&self) -> usize {
            self.values.len()
        }

        pub fn permutation(&self) -> Permutation {
            let reversed = (0..self.n).rev().collect::<Vec<_>>();
            Permutation {
                orig_to_perm: reversed.clone(),
                perm_to_orig: reversed,
            }
        }

        /// The entries on or below the diagonal that are not 0.0, in factor order.
        pub fn lower_triplets(&self) -> Vec<(usize, usize, f64)> {
            let stored = self.values.iter().enumerate();
            stored
                .map(|(place, value)| (place % self.n, place / self.n, *value))
                .filter(|(row, column, value)| row >= column && *value != 0.0)
                .collect()
        }
    }
}

/// The factor with its permutation. Its kept entries are the same, so all entries of the inverse are; those dropped are not
/// handed over, so it stores fewer.
fn from_gmrf(factor: &gmrf::SparseCholeskyFactor) -> Result<CholeskyFactor, Error> {
    let order = factor.permutation();
    CholeskyFactor::from_triplets(factor.dimension(), &factor.lower_triplets())?
        .with_permutation(Permutation::new(order.orig_to_perm, order.perm_to_orig)?)
}

/// The limit that gmrf-rs applies where none is given: 10 times what it stores itself.
fn gmrf_limit(factor: &gmrf::SparseCholeskyFactor) -> usize {
    lent::default_limit(factor.nnz())
}

fn main() -> Result<(), Error> {
    // Ones on the diagonal and in the first column. A factorisation of L·Lᵀ, which has no zeros, stores all 1,600 numbers.
    let n = 40;
    let one = |place: usize| place < n || place % n == place / n;
    let values = (0..n * n).map(|place| f64::from(one(place))).collect();
    let theirs = gmrf::SparseCholeskyFactor { n, values };
    let factor = from_gmrf(&theirs)?;
    assert_eq!((theirs.nnz(), factor.nnz()), (1_600, 79));

    // All variances need all 820 pairs, which is within 10 times what gmrf-rs stores and not within 10 times what is left.
    let requested = SparseSymmetricPattern::diagonal(n);
    let short = selected_inverse_entries(&factor, &requested)?.diagnostics;
    assert_eq!(short.status, SelectedInverseStatus::ClosureTooLarge);
    let selected = selected_inverse_entries_with_limit(&factor, &requested, gmrf_limit(&theirs))?;
    assert_eq!(selected.diagnostics.closure_pairs, 820);
    let inverse = selected.inverse.expect("the limit is that of gmrf-rs");

    // In the order of the cells, as gmrf-rs has it: the factor's first column is the last cell.
    let variances = factor.permute_factor_to_original_marked(&inverse.diag())?;
    assert_eq!((variances[0], variances[n - 1]), (Some(1.0), Some(40.0)));
    println!("variance of the last cell: {:?}", variances[n - 1]);
    Ok(())
}

#[test]
fn bridge() {
    main().unwrap();
}
