//! The order of the factor, from a list that goes the one way or the other.

use crate::cell_lists;
use crate::failure::Failure;
use crate::files;
use crate::options::Options;
use redstartgilt::Permutation;

pub const HELP: &str = "  --cell-to-place FILE
      another name for --permutation: line i has the place of cell i in the
      factor
  --place-to-cell FILE
      the same the other way round: line k has the cell at place k of the
      factor. Most programs give this one, some counted from 0, which is to be
      made from 1:
        CHOLMOD       factor->Perm        from 0  --place-to-cell
        R, Matrix     Cholesky(Q)@perm    from 0  --place-to-cell
        R             attr(U, \"pivot\")    from 1  --place-to-cell
        scikit-sparse cholesky(Q).P()     from 0  --place-to-cell
        SciPy         splu(Q).perm_r      from 0  --cell-to-place
        MATLAB        [L, flag, p]        from 1  --place-to-cell
        gmrf-rs       orig_to_perm        from 0  --cell-to-place
                      perm_to_orig        from 0  --place-to-cell
      where U = chol(Q, pivot = TRUE) is upper, and is to be transposed, and
      [L, flag, p] = chol(Q, 'lower', 'vector').
      A list that is taken for the other gives a wrong map; --precision tells
";

/// The order that the options give, for a factor of dimension n.
pub fn read(options: &Options, n: usize) -> Result<Option<Permutation>, Failure> {
    if let Some(list) = &options.permutation {
        return cell_lists::permutation(list, &files::read(list)?, n).map(Some);
    }
    if let Some(list) = &options.cell_to_place {
        return cell_lists::permutation(list, &files::read_apart(list)?, n).map(Some);
    }
    let Some(list) = &options.place_to_cell else {
        return Ok(None);
    };
    match cell_lists::permutation(list, &files::read_apart(list)?, n) {
        Ok(order) => Ok(Some(reversed(order))),
        Err(failure) => Err(Failure {
            message: format!("{}; {PLACE_TO_CELL}", failure.message),
            ..failure
        }),
    }
}

const PLACE_TO_CELL: &str = "--place-to-cell has the cell at each place of the factor";

/// The order of a list that is read the other way.
pub fn reversed(order: Permutation) -> Permutation {
    Permutation {
        orig_to_perm: order.perm_to_orig,
        perm_to_orig: order.orig_to_perm,
    }
}
