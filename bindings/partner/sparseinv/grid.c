/* Cholesky factors of square grids: the order of the cells, the matrix, and a dense factorisation that passes over zeros. */
#include "grid.h"
#include <math.h>
#include <stdio.h>
#include <stdlib.h>

void fail(const char *what) {
    fprintf(stderr, "benchmark: %s\n", what);
    exit(1);
}

void *list(size_t length, size_t size) {
    void *made = calloc(length, size);
    if (made == NULL) fail("no memory");
    return made;
}

/* Puts the cells of a part of the grid at the next places: both halves, then the line between them; parts of at most 9
   cells as they are. Answers the place after them. */
static uint32_t dissect(size_t x0, size_t x1, size_t y0, size_t y1, size_t side, uint32_t place, uint32_t *orig_to_perm) {
    size_t x, y, wide = x1 - x0, high = y1 - y0;
    if (wide * high <= 9) {
        for (y = y0; y < y1; y++)
            for (x = x0; x < x1; x++) orig_to_perm[y * side + x] = place++;
    } else if (wide >= high) {
        x = x0 + wide / 2;
        place = dissect(x0, x, y0, y1, side, place, orig_to_perm);
        place = dissect(x + 1, x1, y0, y1, side, place, orig_to_perm);
        for (y = y0; y < y1; y++) orig_to_perm[y * side + x] = place++;
    } else {
        y = y0 + high / 2;
        place = dissect(x0, x1, y0, y, side, place, orig_to_perm);
        place = dissect(x0, x1, y + 1, y1, side, place, orig_to_perm);
        for (x = x0; x < x1; x++) orig_to_perm[y * side + x] = place++;
    }
    return place;
}

/* An entry of a lower triangle that is stored column after column. */
static double *at(double *lower, size_t n, size_t row, size_t column) {
    return lower + column * (2 * n - column - 1) / 2 + row;
}

static void couple(double *lower, size_t n, size_t a, size_t b) {
    *at(lower, n, a, a) += 1.0;
    *at(lower, n, b, b) += 1.0;
    *at(lower, n, a > b ? a : b, a > b ? b : a) = -1.0;
}

/* Makes a lower triangle its Cholesky factor. Below the diagonal every number is at most 0.0 at every step, so that none
   cancels: the entries other than 0.0 are the factor's pattern. Answers their number. */
static size_t cholesky(double *lower, size_t n) {
    size_t column, row, a, b, count, entries = 0;
    size_t *below = list(n, sizeof *below);
    for (column = 0; column < n; column++) {
        double diagonal = sqrt(*at(lower, n, column, column));
        *at(lower, n, column, column) = diagonal;
        for (count = 0, row = column + 1; row < n; row++)
            if (*at(lower, n, row, column) != 0.0) {
                *at(lower, n, row, column) /= diagonal;
                below[count++] = row;
            }
        for (a = 0; a < count; a++)
            for (b = a; b < count; b++)
                *at(lower, n, below[b], below[a]) -= *at(lower, n, below[a], column) * *at(lower, n, below[b], column);
        entries += 1 + count;
    }
    free(below);
    return entries;
}

struct grid grid_factor(size_t side, int nested) {
    struct grid made;
    size_t n = side * side, cell, row, column, entry = 0;
    double *lower = list(n * (n + 1) / 2, sizeof *lower);
    uint32_t *place = made.orig_to_perm = list(n, sizeof *place);
    if (nested)
        dissect(0, side, 0, side, side, 0, place);
    else
        for (cell = 0; cell < n; cell++) place[cell] = cell;
    for (cell = 0; cell < n; cell++) {
        *at(lower, n, place[cell], place[cell]) += 0.25;
        if (cell % side + 1 < side) couple(lower, n, place[cell], place[cell + 1]);
        if (cell + side < n) couple(lower, n, place[cell], place[cell + side]);
    }
    made.n = n;
    made.entries = cholesky(lower, n);
    made.starts = list(n + 1, sizeof *made.starts);
    made.rows = list(made.entries, sizeof *made.rows);
    made.values = list(made.entries, sizeof *made.values);
    for (column = 0; column < n; column++) {
        for (row = column; row < n; row++)
            if (*at(lower, n, row, column) != 0.0) {
                made.rows[entry] = row;
                made.values[entry++] = *at(lower, n, row, column);
            }
        made.starts[column + 1] = entry;
    }
    free(lower);
    return made;
}

void grid_free(struct grid *grid) {
    free(grid->starts), free(grid->rows), free(grid->values), free(grid->orig_to_perm);
}
