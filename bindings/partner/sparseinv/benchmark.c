/* The library's call for all diagonals beside SuiteSparse's sparseinv, on the same factors of grids, in one process.

   benchmark SIDE..

   Timed are the library's whole call, its lists allocated before, and sparseinv alone, its lists, pattern of the inverse
   and workspace made before. sparseinv is compiled twice, for any machine (`sparseinv`) and for this one
   (`sparseinv_native`), as either may be the faster. All fill the inverse at the factor's pattern; every entry and every
   diagonal in original order is compared before, and a relative difference above 1e-12 ends the program. */
#include "grid.h"
#include "redstartgilt.h"
#include "sparseinv.h"
#include <math.h>
#include <stdio.h>
#include <stdlib.h>
#include <string.h>
#include <time.h>

enum { ROUNDS = 5, RUNS = 15 };
#define GREATEST_DIFFERENCE 1e-12

/* The lists that the library's call is lent. */
struct library_lists {
    const struct grid *grid;
    size_t places, scratch_words;
    uint32_t *result_starts, *result_rows, *scratch;
    double *result_values, *output;
};

static struct library_lists library_lists(const struct grid *grid) {
    struct library_lists lists;
    lists.grid = grid;
    lists.places = redstartgilt_result_places(grid->n, redstartgilt_default_limit(grid->entries));
    lists.scratch_words = redstartgilt_scratch_words(grid->n);
    lists.result_starts = list(grid->n + 1, sizeof *lists.result_starts);
    lists.result_rows = list(lists.places, sizeof *lists.result_rows);
    lists.result_values = list(lists.places, sizeof *lists.result_values);
    lists.scratch = list(lists.scratch_words, sizeof *lists.scratch);
    lists.output = list(grid->n, sizeof *lists.output);
    return lists;
}

static void call_library(void *lent) {
    struct library_lists *lists = lent;
    const struct grid *grid = lists->grid;
    size_t n = grid->n;
    redstartgilt_selected reply = redstartgilt_selected_inverse_diag_with_diagnostics(
        n, grid->starts, n + 1, grid->rows, grid->entries, grid->values, grid->entries, grid->orig_to_perm, n,
        lists->result_starts, n + 1, lists->result_rows, lists->places, lists->result_values, lists->places,
        lists->scratch, lists->scratch_words, lists->output, n);
    if (reply.refusal != REDSTARTGILT_ACCEPTED || reply.closure_pairs != grid->entries)
        fail("the library refuses the factor, or fills another pattern");
}

static void library_free(struct library_lists *lists) {
    free(lists->result_starts), free(lists->result_rows), free(lists->result_values);
    free(lists->scratch), free(lists->output);
}

/* As sparseinv.h declares it. */
typedef ptrdiff_t sparseinv_function(
    ptrdiff_t n, ptrdiff_t *Lp, ptrdiff_t *Li, double *Lx, double *d, ptrdiff_t *Up, ptrdiff_t *Uj, double *Ux,
    ptrdiff_t *Zp, ptrdiff_t *Zi, double *Zx, double *z, ptrdiff_t *Zdiagp, ptrdiff_t *Lmunch);
sparseinv_function sparseinv_native;

/* sparseinv's lists, by its names: the factor as L·D·U, where L and U have ones on their diagonals that are not stored.
   U by rows is L by columns, so both are the same lists. */
struct sparseinv_lists {
    sparseinv_function *function;
    ptrdiff_t n, *Lp, *Li, *Zp, *Zi, *Zdiagp, *Lmunch;
    double *Lx, *d, *Zx, *z;
};

static struct sparseinv_lists sparseinv_lists(const struct grid *grid, sparseinv_function *function) {
    struct sparseinv_lists lists;
    size_t n = grid->n, column, entry;
    ptrdiff_t place = 0, *next = list(n, sizeof *next);
    lists.function = function;
    lists.n = n;
    lists.Lp = list(n + 1, sizeof *lists.Lp), lists.Zp = list(n + 1, sizeof *lists.Zp);
    lists.Zdiagp = list(n, sizeof *lists.Zdiagp), lists.Lmunch = list(n, sizeof *lists.Lmunch);
    lists.d = list(n, sizeof *lists.d), lists.z = list(n, sizeof *lists.z);
    lists.Li = list(grid->entries, sizeof *lists.Li), lists.Lx = list(grid->entries, sizeof *lists.Lx);
    lists.Zi = list(2 * grid->entries - n, sizeof *lists.Zi), lists.Zx = list(2 * grid->entries - n, sizeof *lists.Zx);
    for (column = 0; column < n; column++) {
        size_t first = grid->starts[column];
        double diagonal = grid->values[first];
        lists.d[column] = diagonal * diagonal;
        lists.Zp[column + 1] += grid->starts[column + 1] - first;
        for (entry = first + 1; entry < grid->starts[column + 1]; entry++) {
            lists.Li[place] = grid->rows[entry];
            lists.Lx[place++] = grid->values[entry] / diagonal;
            lists.Zp[grid->rows[entry] + 1]++;
        }
        lists.Lp[column + 1] = place;
    }
    for (column = 0; column < n; column++) {
        lists.Zp[column + 1] += lists.Zp[column];
        next[column] = lists.Zp[column];
    }
    /* the rows above the diagonal of a column come from the columns before it, in their order */
    for (column = 0; column < n; column++)
        for (entry = grid->starts[column]; entry < grid->starts[column + 1]; entry++) {
            size_t row = grid->rows[entry];
            lists.Zi[next[column]++] = row;
            if (row != column) lists.Zi[next[row]++] = column;
        }
    free(next);
    return lists;
}

static void call_sparseinv(void *lent) {
    struct sparseinv_lists *lists = lent;
    if (lists->function(lists->n, lists->Lp, lists->Li, lists->Lx, lists->d, lists->Lp, lists->Li, lists->Lx, lists->Zp,
                        lists->Zi, lists->Zx, lists->z, lists->Zdiagp, lists->Lmunch) < 0)
        fail("sparseinv fails");
}

static void sparseinv_free(struct sparseinv_lists *lists) {
    free(lists->Lp), free(lists->Li), free(lists->Lx), free(lists->d), free(lists->Zp), free(lists->Zi), free(lists->Zx);
    free(lists->z), free(lists->Zdiagp), free(lists->Lmunch);
}

/* Raises `greatest` to the relative difference of two entries; a NaN is too great a difference, as one above 1e-12. */
static void compare_entries(double ours, double theirs, double *greatest) {
    double difference = fabs(ours - theirs) / fabs(theirs);
    if (!(difference <= GREATEST_DIFFERENCE)) {
        fprintf(stderr, "ours %.17g, sparseinv %.17g\n", ours, theirs);
        fail("the entries differ");
    }
    if (difference > *greatest) *greatest = difference;
}

/* Compares the entries at the factor's pattern and the diagonals in original order. */
static void compare(
    const struct grid *grid, const struct library_lists *ours, const struct sparseinv_lists *theirs, double *greatest) {
    size_t n = grid->n, column, cell, entry;
    if (memcmp(ours->result_starts, grid->starts, (n + 1) * sizeof *grid->starts) != 0 ||
        memcmp(ours->result_rows, grid->rows, grid->entries * sizeof *grid->rows) != 0)
        fail("the result has another pattern than the factor");
    for (column = 0; column < n; column++) {
        const double *lower = theirs->Zx + theirs->Zdiagp[column];
        for (entry = grid->starts[column]; entry < grid->starts[column + 1]; entry++)
            compare_entries(ours->result_values[entry], lower[entry - grid->starts[column]], greatest);
    }
    for (cell = 0; cell < n; cell++)
        compare_entries(ours->output[cell], theirs->Zx[theirs->Zdiagp[grid->orig_to_perm[cell]]], greatest);
}

static int ascending(const void *a, const void *b) {
    double x = *(const double *)a, y = *(const double *)b;
    return (x > y) - (x < y);
}

/* Processor time in ms. */
static double now(void) {
    struct timespec spent;
    clock_gettime(CLOCK_PROCESS_CPUTIME_ID, &spent);
    return spent.tv_sec * 1e3 + spent.tv_nsec * 1e-6;
}

/* The median time of a call after one that is not counted. */
static double median_time(void (*call)(void *), void *lists) {
    double times[RUNS];
    int run;
    call(lists);
    for (run = 0; run < RUNS; run++) {
        double before = now();
        call(lists);
        times[run] = now() - before;
    }
    qsort(times, RUNS, sizeof *times, ascending);
    return times[RUNS / 2];
}

static void table_row(size_t side, int nested) {
    struct grid grid = grid_factor(side, nested);
    struct library_lists ours = library_lists(&grid);
    struct sparseinv_lists any = sparseinv_lists(&grid, sparseinv), native = sparseinv_lists(&grid, sparseinv_native);
    double greatest = 0.0, times[ROUNDS], any_times[ROUNDS], native_times[ROUNDS], ratios[ROUNDS];
    int round;
    call_library(&ours);
    call_sparseinv(&any);
    call_sparseinv(&native);
    compare(&grid, &ours, &any, &greatest);
    compare(&grid, &ours, &native, &greatest);
    for (round = 0; round < ROUNDS; round++) {
        times[round] = median_time(call_library, &ours);
        any_times[round] = median_time(call_sparseinv, &any);
        native_times[round] = median_time(call_sparseinv, &native);
        ratios[round] = times[round] / fmin(any_times[round], native_times[round]);
    }
    qsort(times, ROUNDS, sizeof *times, ascending);
    qsort(any_times, ROUNDS, sizeof *any_times, ascending);
    qsort(native_times, ROUNDS, sizeof *native_times, ascending);
    qsort(ratios, ROUNDS, sizeof *ratios, ascending);
    printf("| %zux%zu-%s | %zu | %.3f | %.3f | %.3f | %.2f | %.2f to %.2f | %.1e |\n", side, side,
           nested ? "nd" : "natural", grid.entries, times[ROUNDS / 2], any_times[ROUNDS / 2], native_times[ROUNDS / 2],
           ratios[ROUNDS / 2], ratios[0], ratios[ROUNDS - 1], greatest);
    fflush(stdout);
    library_free(&ours);
    sparseinv_free(&any);
    sparseinv_free(&native);
    grid_free(&grid);
}

int main(int argc, char **argv) {
    int argument;
    for (argument = 1; argument < argc; argument++)
        if (atoi(argv[argument]) < 1 || atoi(argv[argument]) > 64) {
            fprintf(stderr, "usage: benchmark SIDE.., each from 1 to 64\n");
            return 2;
        }
    puts("| all diagonals | pairs | ours | sparseinv | for this machine | ours / faster | least to greatest | difference |");
    puts("|---|---|---|---|---|---|---|---|");
    for (argument = 1; argument < argc; argument++) {
        table_row(atoi(argv[argument]), 0);
        table_row(atoi(argv[argument]), 1);
    }
    return 0;
}
