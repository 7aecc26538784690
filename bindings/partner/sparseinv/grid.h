/* Cholesky factors of square grids, as the driver's benchmarks have them. */
#ifndef GRID_H
#define GRID_H

#include <stddef.h>
#include <stdint.h>

struct grid {
    size_t n, entries;
    /* the factor by columns, the rows of each ascending from its diagonal */
    uint32_t *starts, *rows;
    double *values;
    /* the place of each cell in the factor */
    uint32_t *orig_to_perm;
};

/* The factor of the five-point Laplacian of a grid with 0.25 more on its diagonal, its cells row by row or by nested
   dissection. */
struct grid grid_factor(size_t side, int nested);

void grid_free(struct grid *grid);

/* A list of zeros; the program ends where there is no memory. */
void *list(size_t length, size_t size);

void fail(const char *what);

#endif
