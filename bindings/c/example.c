/* Selected entries of a factor of two columns, (1, 2) and (1): the inverse of L times its transpose is
 * (5, -2; -2, 1).
 *
 * Built and run from the top of the repository, after `rt lib` in crates/redstartgilt:
 *   gcc bindings/c/example.c crates/redstartgilt/out/libredstartgilt.a -o example && ./example
 * After `bash bindings/c/install.sh PREFIX`, with PREFIX/lib/pkgconfig in PKG_CONFIG_PATH:
 *   gcc bindings/c/example.c $(pkg-config --cflags --libs redstartgilt) -o example && ./example
 */
#include <stdio.h>
#include <stdlib.h>

#include "../../include/redstartgilt.h"

#define COUNT(list) (sizeof(list) / sizeof((list)[0]))

int main(void)
{
    const uint32_t starts[] = {0, 2, 3};
    const uint32_t rows[] = {0, 1, 1};
    const double values[] = {1.0, 2.0, 1.0};
    const uint32_t request_rows[] = {0};
    const uint32_t request_columns[] = {0};
    uint32_t result_starts[3];
    uint32_t result_rows[3]; /* redstartgilt_result_places(2, 3): the lesser of the limit, 3, and T, which is 3 */
    double result_values[3];
    double diagonal[2];
    uint8_t marks[2];

    /* Scratch, as long as the header says for two columns: 12 words, and 14 of a chain. */
    size_t scratch_len = redstartgilt_scratch_words(2);
    size_t chain_scratch_len = redstartgilt_chain_words(2);
    uint32_t *scratch = malloc(scratch_len * sizeof *scratch);
    uint32_t *chain_scratch = malloc(chain_scratch_len * sizeof *chain_scratch);
    if (scratch == NULL || chain_scratch == NULL)
        return 1;

    /* The factor's lists may be checked before they are used; rows that do not ascend are refused with 3. */
    const uint32_t falling[] = {1, 0, 1};
    uint32_t refusal = redstartgilt_check_factor(
        2, starts, COUNT(starts), rows, COUNT(rows), values, COUNT(values));
    printf("factor: refusal %u\n", (unsigned)refusal);
    refusal = redstartgilt_check_factor(
        2, starts, COUNT(starts), falling, COUNT(falling), values, COUNT(values));
    printf("factor with falling rows: refusal %u\n", (unsigned)refusal);

    redstartgilt_selected reply = redstartgilt_selected_inverse_entries_with_limit(
        2, starts, COUNT(starts), rows, COUNT(rows), values, COUNT(values),
        2, request_rows, COUNT(request_rows), request_columns, COUNT(request_columns),
        3,
        result_starts, COUNT(result_starts), result_rows, COUNT(result_rows), result_values, COUNT(result_values),
        scratch, scratch_len);
    if (reply.refusal != REDSTARTGILT_ACCEPTED) {
        printf("refusal %u\n", (unsigned)reply.refusal);
        return 1;
    }
    printf("%s: %zu requested, %zu computed, %zu in the factor, limit %zu, ratio %.17g\n",
        reply.status == REDSTARTGILT_COMPLETE ? "Complete" : "ClosureTooLarge",
        reply.requested_pairs, reply.closure_pairs, reply.factor_pairs, reply.closure_limit,
        reply.closure_over_factor);
    if (reply.status != REDSTARTGILT_COMPLETE)
        return 1;
    for (size_t column = 0; column < 2; column++)
        for (uint32_t place = result_starts[column]; place < result_starts[column + 1]; place++)
            printf("(%u, %zu) %.17g\n", (unsigned)result_rows[place], column, result_values[place]);

    /* Row and column of a lookup may be exchanged; a pair that is not there is refused with 8. */
    redstartgilt_entry entry = redstartgilt_get(
        result_starts, COUNT(result_starts), result_rows, COUNT(result_rows), result_values, COUNT(result_values), 0, 1);
    printf("lookup (0, 1): refusal %u, %.17g\n", (unsigned)entry.refusal, entry.value);
    entry = redstartgilt_get(
        result_starts, COUNT(result_starts), result_rows, COUNT(result_rows), result_values, COUNT(result_values), 2, 0);
    printf("lookup (2, 0): refusal %u\n", (unsigned)entry.refusal);

    /* A diagonal stands first in its column, and is found at the first look. */
    for (size_t row = 0; row < 2; row++) {
        redstartgilt_counted_entry counted = redstartgilt_get_counted(
            result_starts, COUNT(result_starts), result_rows, COUNT(result_rows), result_values, COUNT(result_values),
            row, 0);
        printf("lookup (%zu, 0): refusal %u, %.17g, looks %zu\n",
            row, (unsigned)counted.refusal, counted.value, counted.looks);
    }

    /* Lists that the library has filled are well formed; those from elsewhere are checked once, before all lookups. */
    entry = redstartgilt_get_well_formed(
        result_starts, COUNT(result_starts), result_rows, COUNT(result_rows), result_values, COUNT(result_values), 0, 1);
    printf("lookup (0, 1) in a well-formed result: refusal %u, %.17g\n", (unsigned)entry.refusal, entry.value);
    const uint32_t falling_rows[] = {1, 0, 1};
    refusal = redstartgilt_check_result(
        result_starts, COUNT(result_starts), result_rows, COUNT(result_rows), result_values, COUNT(result_values));
    printf("result: refusal %u", (unsigned)refusal);
    refusal = redstartgilt_check_result(
        result_starts, COUNT(result_starts), falling_rows, COUNT(falling_rows), result_values, COUNT(result_values));
    printf(", with falling rows: refusal %u\n", (unsigned)refusal);

    /* The marks tell a cell that was not computed from one of variance 0. */
    refusal = redstartgilt_diag(
        result_starts, COUNT(result_starts), result_rows, COUNT(result_rows), result_values, COUNT(result_values),
        diagonal, COUNT(diagonal), marks, COUNT(marks));
    redstartgilt_least least = redstartgilt_count_and_least(diagonal, COUNT(diagonal));
    printf("diagonal: refusal %u, %.17g %.17g, marks %u %u, %zu negative, least %.17g\n",
        (unsigned)refusal, diagonal[0], diagonal[1], (unsigned)marks[0], (unsigned)marks[1],
        least.num_negative, least.min_value);

    /* With (1, 1) alone requested (0, 0) is not computed. Values and marks are put in original order together: cell 0 is
     * the factor's second column. */
    const uint32_t last[] = {1};
    const uint32_t orig_to_perm[] = {1, 0};
    double cells[2];
    uint8_t cell_marks[2];
    reply = redstartgilt_selected_inverse_entries_with_limit(
        2, starts, COUNT(starts), rows, COUNT(rows), values, COUNT(values),
        2, last, COUNT(last), last, COUNT(last),
        3,
        result_starts, COUNT(result_starts), result_rows, COUNT(result_rows), result_values, COUNT(result_values),
        scratch, scratch_len);
    if (reply.refusal != REDSTARTGILT_ACCEPTED || reply.status != REDSTARTGILT_COMPLETE)
        return 1;
    refusal = redstartgilt_diag(
        result_starts, COUNT(result_starts), result_rows, COUNT(result_rows), result_values, COUNT(result_values),
        diagonal, COUNT(diagonal), marks, COUNT(marks));
    if (refusal == REDSTARTGILT_ACCEPTED)
        refusal = redstartgilt_permute_factor_to_original_marked(
            orig_to_perm, COUNT(orig_to_perm), diagonal, COUNT(diagonal), marks, COUNT(marks),
            cells, COUNT(cells), cell_marks, COUNT(cell_marks));
    printf("cells: refusal %u", (unsigned)refusal);
    for (size_t cell = 0; refusal == REDSTARTGILT_ACCEPTED && cell < COUNT(cells); cell++) {
        if (cell_marks[cell])
            printf(", %.17g", cells[cell]);
        else
            printf(", not computed");
    }
    printf("\n");

    /* Two areas: A's rows are cell 0 and the sum of both cells, B's row is three times cell 1. Their covariances. */
    const uint32_t a_starts[] = {0, 1, 3};
    const uint32_t a_columns[] = {0, 0, 1};
    const double a_weights[] = {1.0, 1.0, 1.0};
    const uint32_t b_starts[] = {0, 1};
    const uint32_t b_columns[] = {1};
    const double b_weights[] = {3.0};
    const uint32_t a_rows[] = {0, 1}; /* row pairs: (0, 0) and (1, 0) */
    const uint32_t b_rows[] = {0, 0};
    double covariances[2];
    reply = redstartgilt_selected_inverse_transformed_covariances(
        2, starts, COUNT(starts), rows, COUNT(rows), values, COUNT(values),
        2, a_starts, COUNT(a_starts), a_columns, COUNT(a_columns), a_weights, COUNT(a_weights),
        2, b_starts, COUNT(b_starts), b_columns, COUNT(b_columns), b_weights, COUNT(b_weights),
        a_rows, COUNT(a_rows), b_rows, COUNT(b_rows),
        result_starts, COUNT(result_starts), result_rows, COUNT(result_rows), result_values, COUNT(result_values),
        scratch, scratch_len, covariances, COUNT(covariances));
    if (reply.refusal != REDSTARTGILT_ACCEPTED || reply.status != REDSTARTGILT_COMPLETE)
        return 1;
    printf("covariances: %zu requested, %zu computed, %.17g %.17g\n",
        reply.requested_pairs, reply.closure_pairs, covariances[0], covariances[1]);

    /* The variances of A's rows with a limit of all 3 pairs, and of one fewer: then there are none, and no output. */
    double variances[2];
    for (size_t limit = 3; limit >= 2; limit--) {
        reply = redstartgilt_selected_inverse_transformed_diag_with_limit(
            2, starts, COUNT(starts), rows, COUNT(rows), values, COUNT(values),
            2, a_starts, COUNT(a_starts), a_columns, COUNT(a_columns), a_weights, COUNT(a_weights), limit,
            result_starts, COUNT(result_starts), result_rows, COUNT(result_rows), result_values, COUNT(result_values),
            scratch, scratch_len, variances, COUNT(variances));
        if (reply.refusal != REDSTARTGILT_ACCEPTED)
            return 1;
        printf("limit %zu: status %u", reply.closure_limit, (unsigned)reply.status);
        if (reply.status == REDSTARTGILT_COMPLETE)
            printf(", %.17g %.17g", variances[0], variances[1]);
        printf("\n");
    }

    /* Why (1, 1) is computed for (0, 0): a chain from the request to it. With (1, 1) alone requested nothing leads to
     * (1, 0), and 0 pairs say so. */
    uint32_t chain_rows[3]; /* redstartgilt_chain_places(2), enough for every chain */
    uint32_t chain_columns[3];
    redstartgilt_pairs chain = redstartgilt_dependency_chain(
        2, starts, COUNT(starts), rows, COUNT(rows), values, COUNT(values),
        2, request_rows, COUNT(request_rows), request_columns, COUNT(request_columns),
        1, 1, chain_scratch, chain_scratch_len, chain_rows, COUNT(chain_rows), chain_columns, COUNT(chain_columns));
    printf("chain to (1, 1): refusal %u, %zu pairs:", (unsigned)chain.refusal, chain.pairs);
    for (size_t place = 0; place < chain.pairs; place++)
        printf(" (%u, %u)", (unsigned)chain_rows[place], (unsigned)chain_columns[place]);
    chain = redstartgilt_dependency_chain(
        2, starts, COUNT(starts), rows, COUNT(rows), values, COUNT(values),
        2, last, COUNT(last), last, COUNT(last),
        1, 0, chain_scratch, chain_scratch_len, chain_rows, COUNT(chain_rows), chain_columns, COUNT(chain_columns));
    printf("\nchain to (1, 0) from (1, 1): refusal %u, %zu pairs\n", (unsigned)chain.refusal, chain.pairs);

    /* Requests from the bytes of a Matrix Market file, counted from 0; the end of the C text is no part of them. */
    const char file[] = "%%MatrixMarket matrix coordinate pattern symmetric\n% cells\n2 2 2\n2 1\n1 1\n";
    uint32_t read_rows[2], read_columns[2];
    redstartgilt_requests requests = redstartgilt_read_requests(
        (const uint8_t *)file, sizeof(file) - 1, read_rows, COUNT(read_rows), read_columns, COUNT(read_columns));
    printf("file: refusal %u, dimension %zu, %zu requests:",
        (unsigned)requests.refusal, requests.dimension, requests.requests);
    for (size_t place = 0; place < requests.requests; place++)
        printf(" (%u, %u)", (unsigned)read_rows[place], (unsigned)read_columns[place]);
    printf("\n");

    /* The same requests as a file again, each pair once, by column then row; the scratch has a bit for each of 3 pairs. */
    size_t output_len = redstartgilt_request_file_bytes(requests.requests);
    size_t pair_marks_len = redstartgilt_mark_words(requests.dimension);
    uint8_t *output = malloc(output_len);
    uint32_t *pair_marks = malloc(pair_marks_len * sizeof *pair_marks);
    if (output == NULL || pair_marks == NULL)
        return 1;
    redstartgilt_bytes written = redstartgilt_write_requests(
        requests.dimension, read_rows, requests.requests, read_columns, requests.requests,
        output, output_len, pair_marks, pair_marks_len);
    printf("written: refusal %u, %zu bytes:\n%.*s",
        (unsigned)written.refusal, written.bytes, (int)written.bytes, (const char *)output);
    free(output);
    free(pair_marks);

    /* The matrix (4, 8; 8, 17), whose inverse is (4.25, -2; -2, 1), in both forms: as L times its transpose, of the columns
     * (2, 4) and (1); and as L times D times the transpose of L, which has 2 below a diagonal of ones and the pivots 4 and 1. The
     * ones need not be stored. */
    const double cholesky_values[] = {2.0, 4.0, 1.0};
    const uint32_t ldl_starts[] = {0, 1, 1};
    const uint32_t ldl_rows[] = {1};
    const double ldl_values[] = {2.0};
    const double pivots[] = {4.0, 1.0};
    reply = redstartgilt_selected_inverse_entries_with_limit(
        2, starts, COUNT(starts), rows, COUNT(rows), cholesky_values, COUNT(cholesky_values),
        2, request_rows, COUNT(request_rows), request_columns, COUNT(request_columns),
        3,
        result_starts, COUNT(result_starts), result_rows, COUNT(result_rows), result_values, COUNT(result_values),
        scratch, scratch_len);
    printf("L times its transpose: refusal %u, %zu in the factor: %.17g %.17g %.17g\n",
        (unsigned)reply.refusal, reply.factor_pairs, result_values[0], result_values[1], result_values[2]);
    reply = redstartgilt_selected_inverse_entries_ldl_with_limit(
        2, ldl_starts, COUNT(ldl_starts), ldl_rows, COUNT(ldl_rows), ldl_values, COUNT(ldl_values),
        pivots, COUNT(pivots),
        2, request_rows, COUNT(request_rows), request_columns, COUNT(request_columns),
        3,
        result_starts, COUNT(result_starts), result_rows, COUNT(result_rows), result_values, COUNT(result_values),
        scratch, scratch_len);
    printf("with pivots: refusal %u, %zu in the factor: %.17g %.17g %.17g\n",
        (unsigned)reply.refusal, reply.factor_pairs, result_values[0], result_values[1], result_values[2]);

    /* With the default limit; the ones are stored here. A diagonal of 2 is refused with 23, a pivot of 0 with 6, and one
     * pivot for two columns with 4. */
    const double unit_values[] = {1.0, 2.0, 1.0};
    const double no_pivot[] = {4.0, 0.0};
    const struct { const char *name; const double *values; const double *pivots; size_t pivots_len; } with_pivots[] = {
        {"ones stored", unit_values, pivots, 2},
        {"a diagonal of 2", cholesky_values, pivots, 2},
        {"a pivot of 0", unit_values, no_pivot, 2},
        {"one pivot", unit_values, pivots, 1},
    };
    for (size_t place = 0; place < COUNT(with_pivots); place++) {
        reply = redstartgilt_selected_inverse_entries_ldl(
            2, starts, COUNT(starts), rows, COUNT(rows), with_pivots[place].values, 3,
            with_pivots[place].pivots, with_pivots[place].pivots_len,
            2, request_rows, COUNT(request_rows), request_columns, COUNT(request_columns),
            result_starts, COUNT(result_starts), result_rows, COUNT(result_rows), result_values, COUNT(result_values),
            scratch, scratch_len);
        printf("%s: refusal %u, limit %zu\n", with_pivots[place].name, (unsigned)reply.refusal, reply.closure_limit);
    }

    /* In whole numbers, exact: the factor of columns (1, -3) and (1), whose inverse is (10, 3; 3, 1). */
    const int64_t whole_values[] = {1, -3, 1};
    int64_t whole_result[3];
    int64_t work[3]; /* as many places as the result values */
    refusal = redstartgilt_check_whole_factor(
        2, starts, COUNT(starts), rows, COUNT(rows), whole_values, COUNT(whole_values));
    reply = redstartgilt_selected_inverse_entries_whole_with_limit(
        2, starts, COUNT(starts), rows, COUNT(rows), whole_values, COUNT(whole_values),
        2, request_rows, COUNT(request_rows), request_columns, COUNT(request_columns),
        3,
        result_starts, COUNT(result_starts), result_rows, COUNT(result_rows), whole_result, COUNT(whole_result),
        scratch, scratch_len, work, COUNT(work));
    redstartgilt_whole_entry whole_entry = redstartgilt_get_whole(
        result_starts, COUNT(result_starts), result_rows, COUNT(result_rows), whole_result, COUNT(whole_result), 0, 1);
    printf("whole numbers: refusal %u of the factor, %u of the call, %zu computed: %lld %lld %lld\n",
        (unsigned)refusal, (unsigned)reply.refusal, reply.closure_pairs,
        (long long)whole_result[0], (long long)whole_result[1], (long long)whole_result[2]);
    printf("lookup (0, 1): refusal %u, %lld\n", (unsigned)whole_entry.refusal, (long long)whole_entry.value);

    /* Cell 0 with a weight from -1 to 2, and cell 1 with a weight of 1: bounds on the variance of the sum. No choice of the
     * weight has a variance below 0, which the bounds do not tell. A low end above its high end is refused with 21. */
    const uint32_t cells_of_row[] = {0, 1};
    const int64_t lows[] = {-1, 1};
    const int64_t highs[] = {2, 1};
    redstartgilt_variance_bounds bounds = redstartgilt_variance_bounds_whole(
        result_starts, COUNT(result_starts), result_rows, COUNT(result_rows), whole_result, COUNT(whole_result),
        cells_of_row, COUNT(cells_of_row), lows, COUNT(lows), highs, COUNT(highs));
    printf("weights within ranges: refusal %u, variance from %lld to %lld\n",
        (unsigned)bounds.refusal, (long long)bounds.low, (long long)bounds.high);
    bounds = redstartgilt_variance_bounds_whole(
        result_starts, COUNT(result_starts), result_rows, COUNT(result_rows), whole_result, COUNT(whole_result),
        cells_of_row, COUNT(cells_of_row), highs, COUNT(highs), lows, COUNT(lows));
    printf("ends exchanged: refusal %u\n", (unsigned)bounds.refusal);

    /* Along the cells 0, 1, 1, the variances of the runs of two cells; runs of four are refused with 22. */
    const uint32_t track[] = {0, 1, 1};
    int64_t along[2]; /* redstartgilt_track_runs(3, 2) */
    refusal = redstartgilt_track_variances_whole(
        result_starts, COUNT(result_starts), result_rows, COUNT(result_rows), whole_result, COUNT(whole_result),
        track, COUNT(track), 2, along, COUNT(along));
    printf("runs of two cells: refusal %u, %lld %lld\n", (unsigned)refusal, (long long)along[0], (long long)along[1]);
    refusal = redstartgilt_track_variances_whole(
        result_starts, COUNT(result_starts), result_rows, COUNT(result_rows), whole_result, COUNT(whole_result),
        track, COUNT(track), 4, along, COUNT(along));
    printf("runs of four cells: refusal %u\n", (unsigned)refusal);

    /* A diagonal of 2 is refused with 19. The square of 2^27 is beyond 2^53: 20, and the result is as it was. */
    const int64_t other_diagonal[] = {1, -3, 2};
    const int64_t too_steep[] = {1, 134217728, 1};
    const int64_t *refused[] = {other_diagonal, too_steep};
    for (size_t place = 0; place < COUNT(refused); place++) {
        reply = redstartgilt_selected_inverse_entries_whole(
            2, starts, COUNT(starts), rows, COUNT(rows), refused[place], 3,
            2, request_rows, COUNT(request_rows), request_columns, COUNT(request_columns),
            result_starts, COUNT(result_starts), result_rows, COUNT(result_rows), whole_result, COUNT(whole_result),
            scratch, scratch_len, work, COUNT(work));
        printf("%s: refusal %u, the first value is still %lld\n", place == 0 ? "a diagonal of 2" : "an entry of 2^27",
            (unsigned)reply.refusal, (long long)whole_result[0]);
    }

    /* A list too short is refused with 7, and nothing is written. */
    reply = redstartgilt_selected_inverse_entries(
        2, starts, COUNT(starts), rows, COUNT(rows), values, COUNT(values),
        2, request_rows, COUNT(request_rows), request_columns, COUNT(request_columns),
        result_starts, COUNT(result_starts), result_rows, COUNT(result_rows), result_values, COUNT(result_values),
        scratch, scratch_len - 1);
    printf("scratch one word short: refusal %u\n", (unsigned)reply.refusal);
    printf("in words: %s\n", redstartgilt_refusal_words(reply.refusal));
    free(scratch);
    free(chain_scratch);
    return 0;
}
