//! The factor of Q by SuiteSparse's CHOLMOD, where the command was built with it.

use crate::failure::Failure;
use redstartgilt::{CholeskyFactor, Precision};
use std::path::Path;

#[cfg(not(cholmod))]
pub fn factor(_: &Path, _: &Precision) -> Result<CholeskyFactor, Failure> {
    Err(Failure {
        message:
            "--precision without FACTOR needs CHOLMOD, and this command was built without it: install SuiteSparse \
                  (Debian: apt-get install libsuitesparse-dev) and build the command again with \
                  REDSTARTGILT_CHOLMOD=on, or factorise Q yourself and give FACTOR too"
                .to_string(),
        status: crate::failure::BAD_USAGE,
    })
}

/// The factor of Q, with the order that CHOLMOD chooses; `file` is for messages.
#[cfg(cholmod)]
pub fn factor(file: &Path, precision: &Precision) -> Result<CholeskyFactor, Failure> {
    use redstartgilt::Permutation;

    let refused = |error| Failure::refused_at(file.display(), error);
    let n = precision.dimension();
    let factorised = match n {
        0 => sys::Factorised::default(),
        _ => sys::factorise(precision).map_err(|fault| match fault {
            sys::Fault::NotPositiveDefinite(cell) => Failure::in_file(
                file,
                format!(
                    "Q is not positive definite, so it has no factor and no variances: CHOLMOD comes upon it at cell {}",
                    cell + 1
                ),
            ),
            sys::Fault::Failed => Failure::in_file(file, "CHOLMOD cannot factorise Q"),
        })?,
    };
    let indices = |words: Vec<u32>| words.into_iter().map(|word| word as usize).collect::<Vec<_>>();
    let order = Permutation::from_orig_to_perm(indices(factorised.cells)).map_err(refused)?;
    CholeskyFactor::new(n, factorised.starts, factorised.rows, factorised.values)
        .and_then(|factor| factor.with_permutation(crate::order::reversed(order)))
        .map_err(refused)
}

#[cfg(cholmod)]
mod sys {
    use redstartgilt::Precision;
    use std::ffi::c_int;

    #[repr(C)]
    struct Cholmod {
        _opaque: [u8; 0],
    }

    // build/cholmod.c
    extern "C" {
        fn redstartgilt_cholmod_begin() -> *mut Cholmod;
        fn redstartgilt_cholmod_end(cholmod: *mut Cholmod);
        fn redstartgilt_cholmod_factorise(
            cholmod: *mut Cholmod,
            n: c_int,
            starts: *const c_int,
            rows: *const c_int,
            values: *const f64,
            cell: *mut c_int,
        ) -> c_int;
        fn redstartgilt_cholmod_copy(
            cholmod: *const Cholmod,
            starts: *mut u32,
            rows: *mut u32,
            values: *mut f64,
            cells: *mut u32,
        );
    }

    /// A factor in compressed columns, and the cell at each of its places.
    pub struct Factorised {
        pub starts: Vec<u32>,
        pub rows: Vec<u32>,
        pub values: Vec<f64>,
        pub cells: Vec<u32>,
    }

    impl Default for Factorised {
        /// That of no cells.
        fn default() -> Self {
            Self {
                starts: vec![0],
                rows: Vec::new(),
                values: Vec::new(),
                cells: Vec::new(),
            }
        }
    }

    pub enum Fault {
        NotPositiveDefinite(usize),
        Failed,
    }

    /// CHOLMOD's memory, freed at the end.
    struct Handle(*mut Cholmod);

    impl Drop for Handle {
        fn drop(&mut self) {
            // SAFETY: it is what `redstartgilt_cholmod_begin` gave, not null, and ended once.
            unsafe { redstartgilt_cholmod_end(self.0) }
        }
    }

    /// The factor of a matrix of at least one cell.
    pub fn factorise(precision: &Precision) -> Result<Factorised, Fault> {
        let whole = |word: &u32| c_int::try_from(*word).map_err(|_| Fault::Failed);
        let starts = precision.starts().iter().map(whole).collect::<Result<Vec<_>, _>>()?;
        let rows = precision.rows().iter().map(whole).collect::<Result<Vec<_>, _>>()?;
        let n = precision.dimension();
        // SAFETY: it takes nothing.
        let handle = Handle(unsafe { redstartgilt_cholmod_begin() });
        if handle.0.is_null() {
            std::mem::forget(handle);
            return Err(Fault::Failed);
        }
        let mut cell = 0;
        let dimension = c_int::try_from(n).map_err(|_| Fault::Failed)?;
        // SAFETY: the lists are those of a checked matrix: n + 1 starts, and as many rows and values as the last one says,
        // each row below n. They are only read, and while the call lasts.
        let count = unsafe {
            redstartgilt_cholmod_factorise(
                handle.0,
                dimension,
                starts.as_ptr(),
                rows.as_ptr(),
                precision.values().as_ptr(),
                &mut cell,
            )
        };
        let count = match count {
            -1 => return Err(Fault::NotPositiveDefinite(cell as usize)),
            count => usize::try_from(count).map_err(|_| Fault::Failed)?,
        };
        let mut factorised = Factorised {
            starts: vec![0; n + 1],
            rows: vec![0; count],
            values: vec![0.0; count],
            cells: vec![0; n],
        };
        // SAFETY: the factor has n columns and `count` entries, and the lists have room for them.
        unsafe {
            redstartgilt_cholmod_copy(
                handle.0,
                factorised.starts.as_mut_ptr(),
                factorised.rows.as_mut_ptr(),
                factorised.values.as_mut_ptr(),
                factorised.cells.as_mut_ptr(),
            );
        }
        Ok(factorised)
    }
}
