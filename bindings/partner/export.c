/* A partner's export: the L·D·L' factor of a grid's precision matrix by SuiteSparse, as text files.

   export cholmod|ldl SIDE FOLDER

   The matrix is the five-point Laplacian of SIDE x SIDE cells with 0.25 more on its diagonal. `cholmod` factorises it by
   CHOLMOD in simplicial L·D·L' form in the order that CHOLMOD chooses, and writes the ones on L's diagonal; `ldl` by the
   package LDL in AMD's order, whose L has no diagonal at all. Files in FOLDER, indices from 1:
     Q.mtx  the matrix's lower triangle         (Matrix Market, coordinate real symmetric)
     L.mtx  the unit lower factor               (Matrix Market, coordinate real general)
     D.txt  the pivots, one a line
     P.txt  line i has the place of cell i in the factor
   Numbers are written with 17 digits, which give back the same doubles. */
#include <stdio.h>
#include <stdlib.h>
#include <string.h>
#include <suitesparse/amd.h>
#include <suitesparse/cholmod.h>
#include <suitesparse/ldl.h>

static const char *folder;

static void fail(const char *what) {
    fprintf(stderr, "export: %s\n", what);
    exit(1);
}

static FILE *file(const char *name) {
    char path[4096];
    FILE *out;
    if (snprintf(path, sizeof path, "%s/%s", folder, name) >= (int)sizeof path) fail("the folder's name is too long");
    out = fopen(path, "w");
    if (out == NULL) fail(path);
    return out;
}

static void written(FILE *out) {
    if (ferror(out) || fclose(out) != 0) fail("a file could not be written");
}

/* The lower triangle of the matrix, by columns. */
static cholmod_sparse *precision(int side, cholmod_common *common) {
    int n = side * side, cell, p = 0;
    cholmod_sparse *q = cholmod_allocate_sparse(n, n, 3 * (size_t)n, 1, 1, -1, CHOLMOD_REAL, common);
    int *starts = q->p, *rows = q->i;
    double *values = q->x;
    for (cell = 0; cell < n; cell++) {
        int x = cell % side, y = cell / side;
        starts[cell] = p;
        rows[p] = cell;
        values[p++] = 0.25 + (x > 0) + (x + 1 < side) + (y > 0) + (y + 1 < side);
        if (x + 1 < side) rows[p] = cell + 1, values[p++] = -1.0;
        if (y + 1 < side) rows[p] = cell + side, values[p++] = -1.0;
    }
    starts[n] = p;
    return q;
}

static void write_precision(const cholmod_sparse *q) {
    int n = q->ncol, column, p;
    const int *starts = q->p, *rows = q->i;
    const double *values = q->x;
    FILE *out = file("Q.mtx");
    fprintf(out, "%%%%MatrixMarket matrix coordinate real symmetric\n%d %d %d\n", n, n, starts[n]);
    for (column = 0; column < n; column++)
        for (p = starts[column]; p < starts[column + 1]; p++)
            fprintf(out, "%d %d %.17g\n", rows[p] + 1, column + 1, values[p]);
    written(out);
}

/* The order: order[k] is the cell at place k. */
static void write_places(int n, const int *order) {
    int *place = malloc(n * sizeof *place), k;
    FILE *out = file("P.txt");
    if (place == NULL) fail("no memory");
    for (k = 0; k < n; k++) place[order[k]] = k;
    for (k = 0; k < n; k++) fprintf(out, "%d\n", place[k] + 1);
    free(place);
    written(out);
}

static void by_cholmod(cholmod_sparse *q, cholmod_common *common) {
    int n = q->ncol, column, p, count = 0;
    const int *starts, *lengths, *rows;
    const double *values;
    cholmod_factor *factor;
    FILE *out, *pivots;
    common->supernodal = CHOLMOD_SIMPLICIAL;
    common->final_ll = 0;
    factor = cholmod_analyze(q, common);
    if (factor == NULL || !cholmod_factorize(q, factor, common) || factor->minor < (size_t)n) fail("CHOLMOD failed");
    if (factor->is_ll || factor->is_super) fail("CHOLMOD gave another form than L·D·L'");
    starts = factor->p, lengths = factor->nz, rows = factor->i, values = factor->x;
    for (column = 0; column < n; column++) count += lengths[column];
    out = file("L.mtx"), pivots = file("D.txt");
    fprintf(out, "%%%%MatrixMarket matrix coordinate real general\n%d %d %d\n", n, n, count);
    for (column = 0; column < n; column++) {
        /* the first entry of a column is its pivot, where L has 1 */
        fprintf(pivots, "%.17g\n", values[starts[column]]);
        fprintf(out, "%d %d 1\n", column + 1, column + 1);
        for (p = starts[column] + 1; p < starts[column] + lengths[column]; p++)
            fprintf(out, "%d %d %.17g\n", rows[p] + 1, column + 1, values[p]);
    }
    written(out);
    written(pivots);
    write_places(n, factor->Perm);
    cholmod_free_factor(&factor, common);
}

static void by_ldl(cholmod_sparse *q, cholmod_common *common) {
    int n = q->ncol, column, p, *order, *place, *tree, *lengths, *flag, *pattern, *starts, *rows;
    double *pivots, *work, *values;
    FILE *out, *list;
    cholmod_sparse *both = cholmod_copy(q, 0, 1, common);
    const int *qp = both->p, *qi = both->i;
    order = malloc(n * sizeof *order), place = malloc(n * sizeof *place), tree = malloc(n * sizeof *tree);
    lengths = malloc(n * sizeof *lengths), flag = malloc(n * sizeof *flag), pattern = malloc(n * sizeof *pattern);
    starts = malloc((n + 1) * sizeof *starts), pivots = malloc(n * sizeof *pivots), work = malloc(n * sizeof *work);
    if (!order || !place || !tree || !lengths || !flag || !pattern || !starts || !pivots || !work) fail("no memory");
    if (amd_order(n, qp, qi, order, NULL, NULL) < AMD_OK) fail("AMD failed");
    ldl_symbolic(n, (int *)qp, (int *)qi, starts, tree, lengths, flag, order, place);
    rows = malloc(starts[n] * sizeof *rows), values = malloc(starts[n] * sizeof *values);
    if (!rows || !values) fail("no memory");
    if (ldl_numeric(n, (int *)qp, (int *)qi, both->x, starts, tree, lengths, rows, values, pivots, work, pattern, flag,
                    order, place) != n)
        fail("LDL failed");
    out = file("L.mtx"), list = file("D.txt");
    fprintf(out, "%%%%MatrixMarket matrix coordinate real general\n%d %d %d\n", n, n, starts[n]);
    for (column = 0; column < n; column++) {
        fprintf(list, "%.17g\n", pivots[column]);
        for (p = starts[column]; p < starts[column + 1]; p++)
            fprintf(out, "%d %d %.17g\n", rows[p] + 1, column + 1, values[p]);
    }
    written(out);
    written(list);
    write_places(n, order);
    free(order), free(place), free(tree), free(lengths), free(flag), free(pattern), free(starts), free(pivots), free(work);
    free(rows), free(values);
    cholmod_free_sparse(&both, common);
}

int main(int argc, char **argv) {
    cholmod_common common;
    cholmod_sparse *q;
    int side = argc == 4 ? atoi(argv[2]) : 0;
    int cholmod = argc == 4 && strcmp(argv[1], "cholmod") == 0;
    if (side < 1 || side > 64 || (!cholmod && strcmp(argv[1], "ldl") != 0)) {
        fprintf(stderr, "usage: export cholmod|ldl SIDE FOLDER, SIDE from 1 to 64\n");
        return 2;
    }
    folder = argv[3];
    cholmod_start(&common);
    q = precision(side, &common);
    write_precision(q);
    if (cholmod)
        by_cholmod(q, &common);
    else
        by_ldl(q, &common);
    cholmod_free_sparse(&q, &common);
    cholmod_finish(&common);
    return 0;
}
