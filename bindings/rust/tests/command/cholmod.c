/* What CHOLMOD gives of the matrix in Q.mtx, in files of the folder it is run in, as its users write them:
     Q.mtx is written again, as symmetric
     L.mtx   the lower factor of L·L'          U.mtx   the same transposed
     LD.mtx  the factor of L·D·L', CHOLMOD's default, by cholmod_factor_to_sparse: D is on its diagonal
     P.txt   its permutation, the cell at each place, from 1; it is the same for both factors */
#include <stdio.h>
#include <stdlib.h>
#include <suitesparse/cholmod.h>

static cholmod_common common;

static void fail(const char *what) {
    fprintf(stderr, "cholmod.c: %s\n", what);
    exit(1);
}

static FILE *file(const char *name, const char *mode) {
    FILE *opened = fopen(name, mode);
    if (opened == NULL) fail(name);
    return opened;
}

static void write_matrix(const char *name, cholmod_sparse *matrix) {
    FILE *out = file(name, "w");
    if (cholmod_write_sparse(out, matrix, NULL, NULL, &common) < 0 || fclose(out) != 0) fail(name);
}

static void factorise(cholmod_sparse *q, int final_ll, const char *lower, const char *upper) {
    cholmod_factor *factor;
    cholmod_sparse *matrix, *transposed;
    size_t place;
    FILE *out;
    common.final_ll = final_ll;
    factor = cholmod_analyze(q, &common);
    if (factor == NULL || !cholmod_factorize(q, factor, &common) || factor->minor < factor->n) fail("no factor");
    out = file("P.txt", "w");
    for (place = 0; place < factor->n; place++) fprintf(out, "%d\n", ((int *)factor->Perm)[place] + 1);
    if (fclose(out) != 0) fail("P.txt");
    matrix = cholmod_factor_to_sparse(factor, &common);
    transposed = cholmod_transpose(matrix, 1, &common);
    if (matrix == NULL || transposed == NULL) fail("no matrix of the factor");
    write_matrix(lower, matrix);
    if (upper != NULL) write_matrix(upper, transposed);
    cholmod_free_sparse(&matrix, &common);
    cholmod_free_sparse(&transposed, &common);
    cholmod_free_factor(&factor, &common);
}

int main(void) {
    FILE *in = file("Q.mtx", "r");
    cholmod_sparse *q;
    cholmod_start(&common);
    common.supernodal = CHOLMOD_SIMPLICIAL;
    q = cholmod_read_sparse(in, &common);
    if (q == NULL || q->stype == 0) fail("Q.mtx is no symmetric matrix");
    fclose(in);
    write_matrix("Q.mtx", q);
    factorise(q, 1, "L.mtx", "U.mtx");
    factorise(q, 0, "LD.mtx", NULL);
    cholmod_free_sparse(&q, &common);
    cholmod_finish(&common);
    return 0;
}
