/* The sparse Cholesky factor of a matrix by SuiteSparse's CHOLMOD: L of L·L' in the order that CHOLMOD chooses. */
#include <stdlib.h>
#include <suitesparse/cholmod.h>

struct redstartgilt_cholmod {
    cholmod_factor *factor;
    cholmod_common common;
};

/* NULL where there is no memory. */
struct redstartgilt_cholmod *redstartgilt_cholmod_begin(void) {
    struct redstartgilt_cholmod *cholmod = calloc(1, sizeof *cholmod);
    if (cholmod != NULL) cholmod_start(&cholmod->common);
    return cholmod;
}

void redstartgilt_cholmod_end(struct redstartgilt_cholmod *cholmod) {
    cholmod_free_factor(&cholmod->factor, &cholmod->common);
    cholmod_finish(&cholmod->common);
    free(cholmod);
}

/* Factorises the matrix of dimension n > 0 whose lower triangle has these compressed columns, once. The number of the
   factor's entries; -1 where the matrix is not positive definite, `*cell` then being where that shows; -2 where CHOLMOD
   fails otherwise. */
int redstartgilt_cholmod_factorise(struct redstartgilt_cholmod *cholmod, int n, const int *starts, const int *rows,
                                   const double *values, int *cell) {
    cholmod_common *common = &cholmod->common;
    cholmod_factor *factor;
    cholmod_sparse q = {0};
    const int *lengths;
    int column, count = 0;
    common->print = 0;
    common->supernodal = CHOLMOD_SIMPLICIAL;
    common->final_asis = 0;
    common->final_ll = 1;
    q.nrow = q.ncol = (size_t)n;
    q.nzmax = (size_t)starts[n];
    q.p = (void *)starts, q.i = (void *)rows, q.x = (void *)values;
    q.stype = -1, q.itype = CHOLMOD_INT, q.xtype = CHOLMOD_REAL, q.dtype = CHOLMOD_DOUBLE;
    q.sorted = q.packed = 1;
    cholmod->factor = factor = cholmod_analyze(&q, common);
    if (factor == NULL || !cholmod_factorize(&q, factor, common)) return -2;
    if (factor->minor < (size_t)n) {
        *cell = ((const int *)factor->Perm)[factor->minor];
        return -1;
    }
    if (common->status != CHOLMOD_OK || !factor->is_ll || factor->is_super || factor->xtype != CHOLMOD_REAL) return -2;
    lengths = factor->nz;
    for (column = 0; column < n; column++) count += lengths[column];
    return count;
}

/* Fills the n + 1 starts, the rows and values of each column, ascending, and the cell at each of the n places. */
void redstartgilt_cholmod_copy(const struct redstartgilt_cholmod *cholmod, unsigned *starts, unsigned *rows,
                               double *values, unsigned *cells) {
    const cholmod_factor *factor = cholmod->factor;
    const int *from = factor->p, *lengths = factor->nz, *order = factor->Perm, *indices = factor->i;
    const double *numbers = factor->x;
    size_t column;
    unsigned place = 0;
    for (column = 0; column < factor->n; column++) {
        int entry;
        starts[column] = place;
        cells[column] = (unsigned)order[column];
        for (entry = from[column]; entry < from[column] + lengths[column]; entry++, place++)
            rows[place] = (unsigned)indices[entry], values[place] = numbers[entry];
    }
    starts[factor->n] = place;
}
