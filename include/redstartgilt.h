/* Redstartgilt: a proved selected inverse of a sparse Cholesky factor.
 *
 * A factor L of dimension n is in compressed columns: n + 1 starts, then for each column its row indices, ascending,
 * and its values. Lists are a pointer and a length, in that order; a list of length 0 may have any pointer but NULL
 * that is aligned for its elements. Lists lent for writing must not overlap any other list of the call. The library
 * allocates nothing and keeps nothing: a call reads and writes the lists that it is lent, and no others, and ends. It
 * needs at most 128 KiB of stack, whatever n is; the deepest call takes 117. So much must be free where it is made: a
 * thread with a smaller stack is ended by the system, not refused.
 *
 * A call that cannot be answered is refused by a number (REDSTARTGILT_*), the lowest of its steps that fails, and
 * leaves every list as it was unless its paragraph says otherwise. A list may be longer than needed; places past those
 * filled keep their contents. T is n(n+1)/2.
 *
 * Dimensions, limits, lengths and counts are size_t, of 64 bits. None is cut: a limit of 2^32 + 5 is not 5, and the
 * reply has the limit as it was given, up to 2^64 - 1. At n = 4,096, the largest dimension, T is 8,390,656; the scratch
 * of selected entries is 8,669,248 words (34.7 MB), that of a pattern list 262,208 (1.05 MB), that of a chain 16,797,696
 * (67.2 MB); result rows and values are at most 100.7 MB, 12 bytes for each of the lesser of limit and T pairs, and
 * work, in whole numbers, 67.1 MB, 8 bytes for each.
 */
#ifndef REDSTARTGILT_H
#define REDSTARTGILT_H

#include <stddef.h>
#include <stdint.h>

/* The version, as text and as numbers; the Rust crate has the same. */
#define REDSTARTGILT_VERSION "0.1.0"
#define REDSTARTGILT_VERSION_MAJOR 0
#define REDSTARTGILT_VERSION_MINOR 1
#define REDSTARTGILT_VERSION_PATCH 0

/* The largest dimension, permutation and number of operator rows; the largest number of stored entries, requests, operator
 * terms, row pairs and variances; the bytes of stack that a call needs at most. */
#define REDSTARTGILT_MAX_DIMENSION 4096
#define REDSTARTGILT_MAX_ENTRIES 1048576
#define REDSTARTGILT_STACK_BYTES 131072

#ifdef __cplusplus
extern "C" {
#endif

/* Where size_t does not have 64 bits, this type of negative length is an error. */
typedef char redstartgilt_size_t_has_64_bits[sizeof(size_t) == 8 ? 1 : -1];

/* Refusals; 0 is none. Those from 19 on:
 *   19  a kept diagonal other than 1 of a factor of whole numbers
 *   20  a number too large in size: beyond 2^53 in selected entries in whole numbers; an entry beyond 2^30 in the bounds on
 *       a row's variance, beyond 2^40 in the variances along a track
 *   21  weights: a low one above its high one, one beyond 1,024 in size, or more than 64 terms
 *   22  a width of 0, above 1,024 or above the track's length
 *   23  a kept diagonal other than 1 of a factor with pivots
 *   24  an empty request list of a dimension above 0 that is to be written as a file */
enum {
    REDSTARTGILT_ACCEPTED = 0,
    REDSTARTGILT_TOO_LARGE = 1,
    REDSTARTGILT_BROKEN_STARTS = 2,
    REDSTARTGILT_BROKEN_ROWS = 3,
    REDSTARTGILT_DIMENSION_MISMATCH = 4,
    REDSTARTGILT_REQUEST_OUT_OF_RANGE = 5,
    REDSTARTGILT_NON_POSITIVE_DEFINITE = 6,
    REDSTARTGILT_TOO_SHORT = 7,
    REDSTARTGILT_NOT_COVERED = 8,
    REDSTARTGILT_BROKEN_OPERATOR = 9,
    REDSTARTGILT_INDEX_TOO_LARGE = 10,
    REDSTARTGILT_DUPLICATE_ENTRY = 11,
    REDSTARTGILT_NOT_INVERSE = 12,
    REDSTARTGILT_NOT_FINITE = 13,
    REDSTARTGILT_BAD_SCALE = 14,
    REDSTARTGILT_OTHER_HEADER = 15,
    REDSTARTGILT_MALFORMED_FILE = 16,
    REDSTARTGILT_FILE_INDEX_OUTSIDE = 17,
    REDSTARTGILT_NOT_FINITE_ENTRY = 18,
    REDSTARTGILT_DIAGONAL_NOT_ONE = 19,
    REDSTARTGILT_NUMBER_TOO_LARGE = 20,
    REDSTARTGILT_BAD_WEIGHTS = 21,
    REDSTARTGILT_BAD_WIDTH = 22,
    REDSTARTGILT_PIVOT_DIAGONAL_NOT_ONE = 23,
    REDSTARTGILT_NO_REQUESTS = 24
};

/* Statuses of a call that is not refused. */
enum { REDSTARTGILT_COMPLETE = 0, REDSTARTGILT_CLOSURE_TOO_LARGE = 1 };

/* Lengths that suffice for the lists of a call. They are functions of this header alone, and call nothing. No argument makes
 * them overflow: a sum or product past SIZE_MAX is SIZE_MAX, so scratch is then SIZE_MAX words, of marks SIZE_MAX / 32 rounded
 * up, and a chain SIZE_MAX - 1 places. No list is so long, and a call of such a dimension is refused with 1 whatever is
 * lent. Allocate for dimensions up to REDSTARTGILT_MAX_DIMENSION. */
static inline size_t redstartgilt_sum_or_max(size_t a, size_t b) { return a > SIZE_MAX - b ? SIZE_MAX : a + b; }
static inline size_t redstartgilt_product_or_max(size_t a, size_t b) { return b != 0 && a > SIZE_MAX / b ? SIZE_MAX : a * b; }

/* T, the number of pairs (row, column) with row >= column: n(n+1)/2. */
static inline size_t redstartgilt_pair_total(size_t n) {
    /* The even one of n and n + 1 is halved before they are multiplied. */
    return n % 2 == 0 ? redstartgilt_product_or_max(n / 2, n + 1) : redstartgilt_product_or_max(n, n / 2 + 1);
}

/* Places of result rows, result values and work: the lesser of limit and T. */
static inline size_t redstartgilt_result_places(size_t n, size_t limit) {
    size_t total = redstartgilt_pair_total(n);
    return limit < total ? limit : total;
}

/* Scratch of a pattern list, and of requests to be written as a file: ceil(T/32), a bit for each pair. */
static inline size_t redstartgilt_mark_words(size_t n) {
    size_t total = redstartgilt_pair_total(n);
    return total / 32 + (total % 32 != 0);
}

/* Scratch of a call that fills result lists: ceil(T/32) + T + 4n. */
static inline size_t redstartgilt_scratch_words(size_t n) {
    size_t pairs = redstartgilt_sum_or_max(redstartgilt_mark_words(n), redstartgilt_pair_total(n));
    return redstartgilt_sum_or_max(pairs, redstartgilt_product_or_max(n, 4));
}

/* Scratch of a chain: 2T + 4n. */
static inline size_t redstartgilt_chain_words(size_t n) {
    size_t pairs = redstartgilt_product_or_max(redstartgilt_pair_total(n), 2);
    return redstartgilt_sum_or_max(pairs, redstartgilt_product_or_max(n, 4));
}

/* Places of either list of a chain: 2n - 1, and 0 for n = 0. */
static inline size_t redstartgilt_chain_places(size_t n) {
    return n == 0 ? 0 : redstartgilt_product_or_max(n, 2) - 1;
}

/* The limit of a call that is given none: 10 times the stored entries, rows_len. */
static inline size_t redstartgilt_default_limit(size_t stored_entries) { return redstartgilt_product_or_max(stored_entries, 10); }

/* Places of either list of the requests of a file: its LFs, but no fewer than 4,096 and no more than 1,048,576. It reads
 * the whole text. */
static inline size_t redstartgilt_request_places(const uint8_t *text, size_t text_len) {
    size_t line_ends = 0;
    for (size_t place = 0; place < text_len; place++)
        line_ends += text[place] == '\n';
    if (line_ends < REDSTARTGILT_MAX_DIMENSION)
        return REDSTARTGILT_MAX_DIMENSION;
    return line_ends < REDSTARTGILT_MAX_ENTRIES ? line_ends : REDSTARTGILT_MAX_ENTRIES;
}

/* Bytes of a file of so many distinct pairs: 69, and 10 for each. */
static inline size_t redstartgilt_request_file_bytes(size_t pairs) {
    return redstartgilt_sum_or_max(redstartgilt_product_or_max(pairs, 10), 69);
}

/* Runs of so many cells that a track has, which are the places of its output: cells - width + 1, and 0 for a width of 0 or
 * above the cells. */
static inline size_t redstartgilt_track_runs(size_t cells, size_t width) {
    return width == 0 || width > cells ? 0 : cells - width + 1;
}

/* The reply of a call that selects entries: a refusal, or the status and the counts. On a refusal all other fields are 0. */
typedef struct {
    uint32_t refusal;
    uint32_t status;
    size_t requested_pairs;
    size_t closure_pairs;
    size_t factor_pairs;
    size_t closure_limit;
    double closure_over_factor;
} redstartgilt_selected;

/* The reply of a lookup: a refusal, or the value. */
typedef struct { uint32_t refusal; double value; } redstartgilt_entry;

/* The reply of a lookup in a result of whole numbers: a refusal, or the value. */
typedef struct { uint32_t refusal; int64_t value; } redstartgilt_whole_entry;

/* The reply of the bounds on a row's variance: a refusal, or the low and the high bound. On a refusal both are 0. */
typedef struct { uint32_t refusal; int64_t low; int64_t high; } redstartgilt_variance_bounds;

/* The reply of a lookup that counts: a refusal, or the value; and how many places of the column its search looked at,
 * also where the pair is absent. */
typedef struct { uint32_t refusal; double value; size_t looks; } redstartgilt_counted_entry;

/* The reply of a pattern list or of a chain: a refusal, or the number of pairs written. On a refusal that is 0. */
typedef struct { uint32_t refusal; size_t pairs; } redstartgilt_pairs;

/* The reply of the floor: a refusal, or the floor and how many values were raised to it. */
typedef struct { uint32_t refusal; double floor; size_t floor_hits; } redstartgilt_floored;

/* The reply of reading a request file: a refusal, or the dimension and the number of requests written. On a refusal both
 * are 0. */
typedef struct { uint32_t refusal; size_t dimension; size_t requests; } redstartgilt_requests;

/* The reply of writing requests as a file: a refusal, or how many bytes the file has. On a refusal these are 0. */
typedef struct { uint32_t refusal; size_t bytes; } redstartgilt_bytes;

/* How many values are negative, and the least of all. */
typedef struct { size_t num_negative; double min_value; } redstartgilt_least;

/* Selected entries. Fills the result lists with the entries of the inverse of L times its transpose on the closed set
 * of the requests: the requested pairs, put in order row >= column, and all pairs that Takahashi's recurrence needs for
 * them. Entries of L above the diagonal and those of 0.0 of either sign are dropped, here and in every call that takes
 * a factor. The result is in the factor's layout: n + 1 starts, then the rows, ascending, and values of each column;
 * redstartgilt_get reads it. Requests are two lists of equal length, of indices below the dimension, in any order, and
 * may repeat.
 *
 * Lengths needed: result_starts n + 1, result_rows and result_values the lesser of limit and T, scratch
 * ceil(T/32) + T + 4n, of any contents. Refuses, in this order:
 *   1   n above 4,096, or more than 1,048,576 rows or request rows
 *   2   starts not n + 1, the first not 0, a falling one, the last not rows_len, or values_len not rows_len
 *   3   a row index of n or more, or not above the one before it in its column
 *   18  an entry that is kept and is NaN or infinite, in any column; one above the diagonal may be either
 *   4   dimension not n, or request lists of unequal length
 *   5   a request index of n or more
 *   6   a column without a diagonal entry that is kept, or with one at most 0.0
 *   7   a list too short
 * Otherwise the status is COMPLETE, or CLOSURE_TOO_LARGE where the closed set has more than limit pairs; closure_pairs
 * is then limit + 1, and the result lists are left as they were. Either status leaves the first ceil(T/32) + T + 4n
 * words of the scratch 0, and later words as they were. requested_pairs counts distinct requests, factor_pairs the kept
 * entries of L, and closure_over_factor is closure_pairs / max(factor_pairs, 1). */
redstartgilt_selected redstartgilt_selected_inverse_entries_with_limit(
    size_t n, const uint32_t *starts, size_t starts_len, const uint32_t *rows, size_t rows_len, const double *values, size_t values_len,
    size_t dimension, const uint32_t *request_rows, size_t request_rows_len, const uint32_t *request_columns, size_t request_columns_len,
    size_t limit,
    uint32_t *result_starts, size_t result_starts_len, uint32_t *result_rows, size_t result_rows_len, double *result_values, size_t result_values_len,
    uint32_t *scratch, size_t scratch_len);

/* Selected entries with the default limit, 10 times rows_len; dropped entries count. Otherwise as the call above:
 * result_rows and result_values need the lesser of that limit and T. */
redstartgilt_selected redstartgilt_selected_inverse_entries(
    size_t n, const uint32_t *starts, size_t starts_len, const uint32_t *rows, size_t rows_len, const double *values, size_t values_len,
    size_t dimension, const uint32_t *request_rows, size_t request_rows_len, const uint32_t *request_columns, size_t request_columns_len,
    uint32_t *result_starts, size_t result_starts_len, uint32_t *result_rows, size_t result_rows_len, double *result_values, size_t result_values_len,
    uint32_t *scratch, size_t scratch_len);

/* Selected entries of a factor with pivots. A factor is given in one of two forms:
 *   L times its transpose: the diagonal of L is stored, and positive. All other calls of this header take this one.
 *   L times D times the transpose of L: L has ones on its diagonal, stored or not, and D is a list of pivots, one for each
 *   column. The two calls below take this one.
 * They fill the result lists with the entries Z of the inverse of L times D times the transpose of L. Z(i, j) is -S for
 * i > j, and Z(j, j) is 1 / pivot j - S'. S and S' are sums from 0.0, over the kept L(k, j) with k > j, k ascending, of
 * L(k, j) * Z(i, k), the indices put in order, and of L(k, j) * Z(k, j). Each product, sum, quotient and difference is
 * rounded once; where S is 0.0 the entry is -0.0.
 *
 * A diagonal of 0.0 of either sign is dropped, as every entry of 0.0, and so is as one that is not stored. Closed set,
 * status, result, scratch and counts are as in selected entries, but each column counts one kept pair for its diagonal,
 * stored or not: factor_pairs is n and the number of kept entries below the diagonal.
 *
 * Lengths needed: as selected entries. Refuses, in this order:
 *   1, 2, 3, 18   as selected entries does
 *   4   pivots_len not n, however long the list is
 *   18  a pivot that is NaN or infinite
 *   4   dimension not n, or request lists of unequal length
 *   5   a request index of n or more
 *   23  a diagonal entry that is kept and is not 1, in any column
 *   6   a pivot at most 0.0, in any column; a column without a diagonal entry is accepted
 *   7   a list too short
 *
 * Of the matrix (4, 8; 8, 17), whose inverse is (4.25, -2; -2, 1). As L times its transpose, L has the columns (2, 4) and
 * (1), and for redstartgilt_selected_inverse_entries_with_limit its lists are
 *   const uint32_t starts[] = {0, 2, 3}, rows[] = {0, 1, 1};
 *   const double values[] = {2.0, 4.0, 1.0};
 * As L times D times the transpose of L, L has 2 below its diagonal of ones, and the pivots are 4 and 1:
 *   const uint32_t starts[] = {0, 1, 1}, rows[] = {1}, request_rows[] = {0}, request_columns[] = {0};
 *   const double values[] = {2.0}, pivots[] = {4.0, 1.0};
 *   uint32_t result_starts[3], result_rows[3], scratch[12];
 *   double result_values[3];
 *   redstartgilt_selected reply = redstartgilt_selected_inverse_entries_ldl_with_limit(
 *       2, starts, 3, rows, 1, values, 1, pivots, 2, 2, request_rows, 1, request_columns, 1, 3,
 *       result_starts, 3, result_rows, 3, result_values, 3, scratch, 12);
 * gives refusal 0, COMPLETE, and the entries 4.25, -2 and 1. */
redstartgilt_selected redstartgilt_selected_inverse_entries_ldl_with_limit(
    size_t n, const uint32_t *starts, size_t starts_len, const uint32_t *rows, size_t rows_len, const double *values, size_t values_len,
    const double *pivots, size_t pivots_len,
    size_t dimension, const uint32_t *request_rows, size_t request_rows_len, const uint32_t *request_columns, size_t request_columns_len,
    size_t limit,
    uint32_t *result_starts, size_t result_starts_len, uint32_t *result_rows, size_t result_rows_len, double *result_values, size_t result_values_len,
    uint32_t *scratch, size_t scratch_len);

/* Selected entries of a factor with pivots with the default limit, 10 times rows_len; dropped entries count, diagonals that
 * are not stored do not. So where nothing is stored every request is past the limit, and a limit must be given. Otherwise
 * as the call above: result_rows and result_values need the lesser of that limit and T. */
redstartgilt_selected redstartgilt_selected_inverse_entries_ldl(
    size_t n, const uint32_t *starts, size_t starts_len, const uint32_t *rows, size_t rows_len, const double *values, size_t values_len,
    const double *pivots, size_t pivots_len,
    size_t dimension, const uint32_t *request_rows, size_t request_rows_len, const uint32_t *request_columns, size_t request_columns_len,
    uint32_t *result_starts, size_t result_starts_len, uint32_t *result_rows, size_t result_rows_len, double *result_values, size_t result_values_len,
    uint32_t *scratch, size_t scratch_len);

/* Selected entries in whole numbers, for a factor whose diagonal is 1 and whose entries are whole: exact, or refused
 * where a number is too large for that. Values are signed 64-bit numbers. Entries of L above the diagonal and those of 0
 * are dropped. Set, status, counts, starts and rows are those of selected entries for the same positions; the values are
 * the inverse's own entries, and never rounded. Where it is COMPLETE, selected entries is COMPLETE too for the same
 * factor as doubles, requests and limit, and each of its entries is equal to the one here.
 *
 * Lengths needed: as selected entries, and work, of any contents, as many places as result_values: the lesser of limit
 * and T. Refuses, in this order:
 *   1, 2, 3, 4, 5   as selected entries does
 *   19  a diagonal entry that is kept and is not 1, in any column
 *   6   a column without a diagonal entry that is kept
 *   7   a list too short, work among them
 *   20  the closed set has at most limit pairs, and a kept entry of L, in any column, or a product, a running sum or an
 *       entry of the exact recurrence over the set is beyond 2^53 in size; 2^53 and -2^53 are accepted. Dropped entries
 *       may be of any size. The result lists are as they were, and scratch and work 0 as after an answer
 * A set of more than limit pairs is CLOSURE_TOO_LARGE, whatever the sizes; closure_pairs is then limit + 1, and the
 * result lists are left as they were. Either status leaves the first ceil(T/32) + T + 4n words of the scratch 0 and the lesser
 * of limit and T places of work 0, and later words and places as they were. 1 to 7 and 19 touch no list.
 *
 * Of the factor with columns (1, -3) and (1), whose inverse is (10, 3; 3, 1):
 *   const uint32_t starts[] = {0, 2, 3}, rows[] = {0, 1, 1}, request_rows[] = {0}, request_columns[] = {0};
 *   const int64_t values[] = {1, -3, 1};
 *   uint32_t result_starts[3], result_rows[3], scratch[12];
 *   int64_t result_values[3], work[3];
 *   redstartgilt_selected reply = redstartgilt_selected_inverse_entries_whole_with_limit(
 *       2, starts, 3, rows, 3, values, 3, 2, request_rows, 1, request_columns, 1, 3,
 *       result_starts, 3, result_rows, 3, result_values, 3, scratch, 12, work, 3);
 * gives refusal 0, COMPLETE, and the entries 10, 3 and 1. */
redstartgilt_selected redstartgilt_selected_inverse_entries_whole_with_limit(
    size_t n, const uint32_t *starts, size_t starts_len, const uint32_t *rows, size_t rows_len, const int64_t *values, size_t values_len,
    size_t dimension, const uint32_t *request_rows, size_t request_rows_len, const uint32_t *request_columns, size_t request_columns_len,
    size_t limit,
    uint32_t *result_starts, size_t result_starts_len, uint32_t *result_rows, size_t result_rows_len, int64_t *result_values, size_t result_values_len,
    uint32_t *scratch, size_t scratch_len, int64_t *work, size_t work_len);

/* Selected entries in whole numbers with the default limit, 10 times rows_len; dropped entries count. Otherwise as the
 * call above: result_rows, result_values and work need the lesser of that limit and T. */
redstartgilt_selected redstartgilt_selected_inverse_entries_whole(
    size_t n, const uint32_t *starts, size_t starts_len, const uint32_t *rows, size_t rows_len, const int64_t *values, size_t values_len,
    size_t dimension, const uint32_t *request_rows, size_t request_rows_len, const uint32_t *request_columns, size_t request_columns_len,
    uint32_t *result_starts, size_t result_starts_len, uint32_t *result_rows, size_t result_rows_len, int64_t *result_values, size_t result_values_len,
    uint32_t *scratch, size_t scratch_len, int64_t *work, size_t work_len);

/* Whether a factor's lists are well formed and its kept entries finite, which every call with a factor checks first.
 * Refuses with 1 for n above 4,096 or more than 1,048,576 rows, then with 2, 3 and 18 as selected entries does. It reads
 * every start, row and value. Writes nothing. A factor that it accepts may still be refused with 6 by a call that needs
 * the diagonal of each column. */
uint32_t redstartgilt_check_factor(
    size_t n, const uint32_t *starts, size_t starts_len, const uint32_t *rows, size_t rows_len, const double *values, size_t values_len);

/* Whether the lists of a factor of whole numbers are well formed. Refuses with 1, 2 and 3 as the call above. It reads
 * every start and every row; of the values it sees how many there are. Writes nothing. A factor that it accepts may still
 * be refused with 19, 6 and 20. */
uint32_t redstartgilt_check_whole_factor(
    size_t n, const uint32_t *starts, size_t starts_len, const uint32_t *rows, size_t rows_len, const int64_t *values, size_t values_len);

/* The entry at (row, column) of a filled result; the two may be exchanged. The dimension is starts_len - 1, so lend only
 * the n + 1 filled starts; rows and values may be longer than filled. Refuses with 2 where there are no starts, then
 * with 8 where the lesser index is outside; then, of the column looked in, with 2 for starts that fall or pass rows or
 * values and with 3 for a row not above the one before it; then with 8 where the pair is absent or outside. The value
 * is 0.0 on a refusal. Writes nothing. To find 3 it reads every row of the column; redstartgilt_get_well_formed does not. */
redstartgilt_entry redstartgilt_get(
    const uint32_t *starts, size_t starts_len, const uint32_t *rows, size_t rows_len, const double *values, size_t values_len,
    size_t row, size_t column);

/* The same lookup, with a count: refusal and value are those of redstartgilt_get, at the same cost, and looks is how many
 * places the search in the column looks at, repeats included. The search looks at the first place of its part and,
 * unless the row stands there, at place m/2, rounded down, of its m; then it goes on in what lies below that place, the
 * first among it, or above. So looks is 1 where the row stands first in its column, as a diagonal of a filled result
 * does where it is present, and never more than twice the binary digits of the column's number of rows. An absent row has its looks too;
 * looks is 0 where the search is not reached, which is on 2, on 3 and for an index outside. */
redstartgilt_counted_entry redstartgilt_get_counted(
    const uint32_t *starts, size_t starts_len, const uint32_t *rows, size_t rows_len, const double *values, size_t values_len,
    size_t row, size_t column);

/* Whether a result is well formed, so that the call below may be used on it. Refuses with 2 where there are no starts;
 * then, column by column, with 2 for starts that fall or pass rows or values and with 3 for a row not above the one
 * before it; the first column at fault decides. It reads every start and every row once, and no value: a result of whole
 * numbers is checked by the same call, its values lent as (const double *)values. Writes nothing. */
uint32_t redstartgilt_check_result(
    const uint32_t *starts, size_t starts_len, const uint32_t *rows, size_t rows_len, const double *values, size_t values_len);

/* The lookup in a result that is known to be well formed: redstartgilt_check_result has accepted it, or a call of this
 * library has filled it, and nothing else has written to its lists since; they are lent as above. Refusal and value are
 * then those of redstartgilt_get, bit for bit, but the column is not checked: of its rows the first is read; unless that
 * is the one sought, the last; and then the row's own place where they are one run of consecutive numbers, otherwise
 * about log2 of them. Refuses with 8 alone, where the pair is absent or outside; the value is then 0.0. Writes nothing.
 *
 * On any other lists it ends, stays inside them and always gives the same answer, but does not tell that they are broken:
 * a value that it gives stands in that column beside that row, and 8 may also mean that there are no starts, that the
 * column's starts fall or pass rows or values, or that the search has passed the row by. */
redstartgilt_entry redstartgilt_get_well_formed(
    const uint32_t *starts, size_t starts_len, const uint32_t *rows, size_t rows_len, const double *values, size_t values_len,
    size_t row, size_t column);

/* The lookup in a result of whole numbers: refuses as redstartgilt_get does for the same starts, rows and number of values.
 * The value is 0 on a refusal. Writes nothing. It reads every row of the column. */
redstartgilt_whole_entry redstartgilt_get_whole(
    const uint32_t *starts, size_t starts_len, const uint32_t *rows, size_t rows_len, const int64_t *values, size_t values_len,
    size_t row, size_t column);

/* Bounds on the variance of a row whose weights are known within ranges, over a result of whole numbers: the weight of
 * the cell columns[a] is from lows[a] to highs[a], and the variance is the sum of weight a * weight b * entry over all
 * ordered pairs of places a and b. low is the sum of the least values that each of these terms can have, high that of
 * the greatest. For two different places a term's ends are among the four products of the ends of their weights, each
 * times the entry; a place with itself is a square, whose least value is 0 where its range has 0 in it. Entries below 0
 * exchange the two ends.
 *
 * Every choice of weights within the ranges, fractions too, has its variance from low to high. The bounds need not be the
 * variance of one choice: each term has its least or greatest value by a choice of its own, so low may be less than the
 * least variance, and also less than 0, and high more than the greatest. Equal ends give low and high both the exact
 * variance, and wider ranges never narrower bounds. No term gives 0 and 0.
 *
 * The dimension n is starts_len - 1, so lend only the n + 1 filled starts; rows and values may be longer than filled.
 * Refuses, in this order, all of one number before any of the next:
 *   2, 3   as redstartgilt_check_result, column by column
 *   9   lists of unequal length, a column of n or more, or one listed twice
 *   21  more than 64 terms, an end beyond 1,024 in size, or a low end above its high end
 *   8   a pair of the columns, also one with itself, that is absent from the result
 *   20  an entry at a pair of the columns beyond 2^30 in size
 * Writes nothing. Beside the check of the result, which reads every start and every row once, each ordered pair is looked
 * up twice, each time in about log2 of its column's rows.
 *
 * Of the entries 10, 3 and 1 of the inverse (10, 3; 3, 1), cell 0 with a weight from -1 to 2 and cell 1 with one of 1:
 *   const uint32_t starts[] = {0, 2, 3}, rows[] = {0, 1, 1}, columns[] = {0, 1};
 *   const int64_t values[] = {10, 3, 1}, lows[] = {-1, 1}, highs[] = {2, 1};
 *   redstartgilt_variance_bounds bounds = redstartgilt_variance_bounds_whole(
 *       starts, 3, rows, 3, values, 3, columns, 2, lows, 2, highs, 2);
 * gives refusal 0, low -5 and high 53: 10 times 0 to 4, twice 3 times -1 to 2, and 1. */
redstartgilt_variance_bounds redstartgilt_variance_bounds_whole(
    const uint32_t *starts, size_t starts_len, const uint32_t *rows, size_t rows_len, const int64_t *values, size_t values_len,
    const uint32_t *columns, size_t columns_len, const int64_t *lows, size_t lows_len, const int64_t *highs, size_t highs_len);

/* Variances along a track, over a result of whole numbers: output[i] is the variance of the sum of the cells track[i] to
 * track[i + width - 1], which is the sum of the width * width entries at their ordered pairs. A cell may be on the track
 * any number of times, and counts each time. The track may be of any length.
 *
 * Output needs track_len - width + 1 places, one for each run; later places keep their contents. The dimension n is
 * starts_len - 1, so lend only the n + 1 filled starts; rows and values may be longer than filled. Refuses, in this order,
 * all of one number before any of the next, over the whole track; output is then as it was:
 *   2, 3   as redstartgilt_check_result, column by column
 *   22  a width of 0, above 1,024 or above track_len
 *   8   a pair of cells of one run, also a cell with itself, that is absent from the result, as it is for a cell of n or
 *       more. Cells at places width or more apart are in no run together, and need no entry
 *   20  an entry at cells of one run beyond 2^40 in size
 *   7   output too short
 * Each run after the first is made from the one before it. Beside the check of the result, which reads every start and
 * every row once, each pair of places less than width apart is looked up twice, once to find 8 and 20 and once to sum,
 * each time in about log2 of its column's rows. No scratch is needed.
 *
 * Of the entries 10, 3 and 1 of the inverse (10, 3; 3, 1), the runs of two cells along the cells 0, 1, 1:
 *   const uint32_t starts[] = {0, 2, 3}, rows[] = {0, 1, 1}, track[] = {0, 1, 1};
 *   const int64_t values[] = {10, 3, 1};
 *   int64_t output[2];
 *   uint32_t refusal = redstartgilt_track_variances_whole(starts, 3, rows, 3, values, 3, track, 3, 2, output, 2);
 * gives 0, and the variances 17 and 4. */
uint32_t redstartgilt_track_variances_whole(
    const uint32_t *starts, size_t starts_len, const uint32_t *rows, size_t rows_len, const int64_t *values, size_t values_len,
    const uint32_t *track, size_t track_len, size_t width, int64_t *output, size_t output_len);

/* The diagonal of a filled result, with marks: where the lookup finds (c, c), output[c] is its value and marks[c] 1, also
 * for a value of 0.0, -0.0 or NaN; where it does not, output[c] is 0.0 and marks[c] 0. So a cell that was not computed is
 * told by its mark alone. The dimension n is starts_len - 1, as above. Output and marks need n places each. Refuses with
 * 2 and 3 as the lookup does, column by column, then with 7 for either list too short; both are then as they were. */
uint32_t redstartgilt_diag(
    const uint32_t *starts, size_t starts_len, const uint32_t *rows, size_t rows_len, const double *values, size_t values_len,
    double *output, size_t output_len, uint8_t *marks, size_t marks_len);

/* The diagonal in original order: the selected entries of all n diagonals with the default limit, 10 times rows_len,
 * then output[i] is the entry at (orig_to_perm[i], orig_to_perm[i]). The result lists are filled as by selected entries,
 * and need as much; output needs n places. Refuses, in this order:
 *   1, 2, 3, 18   as selected entries does
 *   4   orig_to_perm_len not n, also one above 4,096
 *   10, 11   an index of n or more, or one that came before; the first fault in the list decides
 *   6   as above
 *   7   a list too short
 *   8   the closed set passes the limit; the scratch is then 0 as after an answer, the other lists as they were
 * The status of an answer is COMPLETE. */
redstartgilt_selected redstartgilt_selected_inverse_diag_with_diagnostics(
    size_t n, const uint32_t *starts, size_t starts_len, const uint32_t *rows, size_t rows_len, const double *values, size_t values_len,
    const uint32_t *orig_to_perm, size_t orig_to_perm_len,
    uint32_t *result_starts, size_t result_starts_len, uint32_t *result_rows, size_t result_rows_len, double *result_values, size_t result_values_len,
    uint32_t *scratch, size_t scratch_len, double *output, size_t output_len);

/* The diagonal in original order with the given limit: result_rows and result_values need the lesser of it and T.
 * Otherwise as the call above. */
redstartgilt_selected redstartgilt_selected_inverse_diag_with_limit(
    size_t n, const uint32_t *starts, size_t starts_len, const uint32_t *rows, size_t rows_len, const double *values, size_t values_len,
    const uint32_t *orig_to_perm, size_t orig_to_perm_len,
    size_t limit,
    uint32_t *result_starts, size_t result_starts_len, uint32_t *result_rows, size_t result_rows_len, double *result_values, size_t result_values_len,
    uint32_t *scratch, size_t scratch_len, double *output, size_t output_len);

/* Operator variances: the operator's row r is the weighted sum of the cells columns[row_starts[r]] to
 * columns[row_starts[r + 1] - 1], in factor order, and output[r] its variance: from 0.0, for each term a, for each term
 * b, (weight a * weight b) * entry is added. The requests are all pairs of columns of each row, the limit is the default
 * one, 10 times rows_len, and the result lists are filled as by selected entries, and need as much; output needs a place
 * for each operator row. A column may repeat in a row. Weights are not checked. Refuses, in this order:
 *   1   as selected entries does, or more than 4,096 operator rows or 1,048,576 columns
 *   2, 3, 18   as selected entries does
 *   4   ncols not n
 *   9   no row starts, the first not 0, a falling one, the last not columns_len, weights_len not columns_len, or a column
 *       of n or more
 *   6   as above
 *   7   a list too short
 * CLOSURE_TOO_LARGE leaves the result lists and the output as they were; either status carries the counts. */
redstartgilt_selected redstartgilt_selected_inverse_transformed_diag(
    size_t n, const uint32_t *starts, size_t starts_len, const uint32_t *rows, size_t rows_len, const double *values, size_t values_len,
    size_t ncols, const uint32_t *row_starts, size_t row_starts_len, const uint32_t *columns, size_t columns_len, const double *weights, size_t weights_len,
    uint32_t *result_starts, size_t result_starts_len, uint32_t *result_rows, size_t result_rows_len, double *result_values, size_t result_values_len,
    uint32_t *scratch, size_t scratch_len, double *output, size_t output_len);

/* Operator variances with the given limit: result_rows and result_values need the lesser of it and T. Otherwise as the
 * call above. */
redstartgilt_selected redstartgilt_selected_inverse_transformed_diag_with_limit(
    size_t n, const uint32_t *starts, size_t starts_len, const uint32_t *rows, size_t rows_len, const double *values, size_t values_len,
    size_t ncols, const uint32_t *row_starts, size_t row_starts_len, const uint32_t *columns, size_t columns_len, const double *weights, size_t weights_len,
    size_t limit,
    uint32_t *result_starts, size_t result_starts_len, uint32_t *result_rows, size_t result_rows_len, double *result_values, size_t result_values_len,
    uint32_t *scratch, size_t scratch_len, double *output, size_t output_len);

/* Covariances of rows of two operators: output[k] is the covariance of A's row a_rows[k] with B's row b_rows[k]. From
 * 0.0, for each term a of A's row, for each term b of B's row, (weight a * weight b) * entry is added. Operators are as
 * in operator variances, in factor order; their rows may be in any number of row pairs, also in none. The requests are,
 * for each row pair, all columns of A's row with all columns of B's row, put in order; the two may be one operator, and
 * a row with itself gives its variance. The limit is the default one, 10 times rows_len, and the result lists are filled
 * as by selected entries, and need as much; output needs a place for each row pair. Weights are not checked. Refuses, in
 * this order:
 *   1   as selected entries does, or of either operator more than 4,096 rows or 1,048,576 columns, or more than 1,048,576
 *       row pairs, counted by a_rows_len
 *   2, 3, 18   as selected entries does
 *   4   a_ncols or b_ncols not n, or a_rows_len not b_rows_len
 *   9   A broken as an operator of operator variances is, B broken, or a row pair outside: a_rows[k] not below the number
 *       of A's rows, or b_rows[k] not below that of B's. Rows that no row pair names are checked too
 *   6   as above
 *   7   a list too short
 * CLOSURE_TOO_LARGE leaves the result lists and the output as they were; either status carries the counts. Without row
 * pairs the status is COMPLETE with 0 pairs.
 *
 * Beside the cost of selected entries, each row pair costs the terms of A's row times those of B's row, once to mark the
 * requests and once to sum; a row pair that repeats costs that again.
 *
 * Of the factor with columns (1, 2) and (1), whose inverse is (5, -2; -2, 1), cell 0 with cell 1, and the sum of both
 * with itself:
 *   const uint32_t starts[] = {0, 2, 3}, rows[] = {0, 1, 1};
 *   const double values[] = {1.0, 2.0, 1.0};
 *   const uint32_t a_starts[] = {0, 1, 3}, a_columns[] = {0, 0, 1}, b_starts[] = {0, 1, 3}, b_columns[] = {1, 0, 1};
 *   const double a_weights[] = {1.0, 1.0, 1.0}, b_weights[] = {1.0, 1.0, 1.0};
 *   const uint32_t a_rows[] = {0, 1}, b_rows[] = {0, 1};
 *   uint32_t result_starts[3], result_rows[3], scratch[12];
 *   double result_values[3], output[2];
 *   redstartgilt_selected reply = redstartgilt_selected_inverse_transformed_covariances(
 *       2, starts, 3, rows, 3, values, 3,
 *       2, a_starts, 3, a_columns, 3, a_weights, 3, 2, b_starts, 3, b_columns, 3, b_weights, 3, a_rows, 2, b_rows, 2,
 *       result_starts, 3, result_rows, 3, result_values, 3, scratch, 12, output, 2);
 * gives refusal 0, COMPLETE, and the covariances -2 and 2. */
redstartgilt_selected redstartgilt_selected_inverse_transformed_covariances(
    size_t n, const uint32_t *starts, size_t starts_len, const uint32_t *rows, size_t rows_len, const double *values, size_t values_len,
    size_t a_ncols, const uint32_t *a_row_starts, size_t a_row_starts_len, const uint32_t *a_columns, size_t a_columns_len, const double *a_weights, size_t a_weights_len,
    size_t b_ncols, const uint32_t *b_row_starts, size_t b_row_starts_len, const uint32_t *b_columns, size_t b_columns_len, const double *b_weights, size_t b_weights_len,
    const uint32_t *a_rows, size_t a_rows_len, const uint32_t *b_rows, size_t b_rows_len,
    uint32_t *result_starts, size_t result_starts_len, uint32_t *result_rows, size_t result_rows_len, double *result_values, size_t result_values_len,
    uint32_t *scratch, size_t scratch_len, double *output, size_t output_len);

/* Covariances with the given limit: result_rows and result_values need the lesser of it and T. Otherwise as the call
 * above. */
redstartgilt_selected redstartgilt_selected_inverse_transformed_covariances_with_limit(
    size_t n, const uint32_t *starts, size_t starts_len, const uint32_t *rows, size_t rows_len, const double *values, size_t values_len,
    size_t a_ncols, const uint32_t *a_row_starts, size_t a_row_starts_len, const uint32_t *a_columns, size_t a_columns_len, const double *a_weights, size_t a_weights_len,
    size_t b_ncols, const uint32_t *b_row_starts, size_t b_row_starts_len, const uint32_t *b_columns, size_t b_columns_len, const double *b_weights, size_t b_weights_len,
    const uint32_t *a_rows, size_t a_rows_len, const uint32_t *b_rows, size_t b_rows_len,
    size_t limit,
    uint32_t *result_starts, size_t result_starts_len, uint32_t *result_rows, size_t result_rows_len, double *result_values, size_t result_values_len,
    uint32_t *scratch, size_t scratch_len, double *output, size_t output_len);

/* Why a pair is in the closed set of the requests: a chain from a requested pair to it, each pair a dependency of the one
 * before. The dependencies of a pair (r, c), r >= c, are the pairs (r, d), put in order, for each kept entry (d, c) of L
 * below the diagonal. Pair k of the chain is (chain_rows[k], chain_columns[k]), row >= column: the first is a requested
 * one, the last is (row, column), exchanged if row < column. No chain to it has fewer pairs. Of those with as few it is
 * the one whose pair before the last is lowest by column then row, then the pair before that, and so on back. The chain
 * of a requested pair is that pair. Requests are as in selected entries; no limit is applied.
 *
 * The reply has the number of pairs; 0 is the answer for a pair that is not in the set. The chain lists are then as they
 * were, and may be of any length. Otherwise each needs a place for each pair of the chain. Row + column rises from pair to
 * pair, so 2n - 1 places are enough for every chain. Scratch needs 2T + 4n words, of any contents. Refuses, in this
 * order:
 *   1, 2, 3, 18, 4, 5, 6   as selected entries does
 *   7   scratch too short
 *   5   row or column n or more, as every one is where n is 0
 *   7   a chain list shorter than the chain; the scratch is then 0 as after an answer, the chain lists as they were
 * An answer, also 0 pairs, leaves the first 2T + 4n words of the scratch 0, and later words as they were.
 *
 * The cost is that of the whole closed set, whichever pair is asked for: each request once, for each pair of the set the
 * stored entries of its column, and clearing the scratch. Then each pair of the chain costs at most the stored entries of
 * the columns up to its own.
 *
 * Of the factor with columns (1, 2, 3), (1) and (1), with (0, 0) requested, the chain to (2, 1):
 *   const uint32_t starts[] = {0, 3, 4, 5}, rows[] = {0, 1, 2, 1, 2}, request_rows[] = {0}, request_columns[] = {0};
 *   const double values[] = {1.0, 2.0, 3.0, 1.0, 1.0};
 *   uint32_t scratch[24], chain_rows[5], chain_columns[5];
 *   redstartgilt_pairs reply = redstartgilt_dependency_chain(
 *       3, starts, 4, rows, 5, values, 5, 3, request_rows, 1, request_columns, 1, 2, 1,
 *       scratch, 24, chain_rows, 5, chain_columns, 5);
 * gives refusal 0 and 3 pairs, (0, 0), (1, 0) and (2, 1). */
redstartgilt_pairs redstartgilt_dependency_chain(
    size_t n, const uint32_t *starts, size_t starts_len, const uint32_t *rows, size_t rows_len, const double *values, size_t values_len,
    size_t dimension, const uint32_t *request_rows, size_t request_rows_len, const uint32_t *request_columns, size_t request_columns_len,
    size_t row, size_t column,
    uint32_t *scratch, size_t scratch_len, uint32_t *chain_rows, size_t chain_rows_len, uint32_t *chain_columns, size_t chain_columns_len);

/* Requests from a Matrix Market file. The text is the whole file, of any length:
 *   the header, which is the first line, exactly %%MatrixMarket matrix coordinate pattern symmetric
 *   any number of comment lines, each with % as its first byte
 *   the size line: rows, columns and entry count
 *   so many entry lines: row and column, counted from 1, on or below the diagonal.
 * Lines end in LF, the last perhaps without it; a CR is not part of an end. Lines after the header that are empty or only
 * spaces and tabs are skipped. A number is one or more digits, however many; spaces and tabs part the numbers of a line
 * and may also stand around them.
 *
 * Request k is (rows[k], columns[k]): the indices of entry k, each less 1, in file order, repeats kept. A file without
 * entries means every diagonal cell: request k is then (k, k), for each k below the size. With the reply's dimension and
 * its number of requests for both lengths they are a request of selected entries. Both lists need a place for each
 * request: 1,048,576 places are enough for every file, so is the greater of 4,096 and the number of LFs in the text, and
 * the size line has the number itself, its entry count or, where that is 0, its size. Refuses, in this order, each step
 * for the whole file before the next:
 *   15  another first line, or none
 *   16  a size or entry line that is missing or not of this form, unequal sizes, a size above 4,096, an entry count that
 *       is above 1,048,576 or not the number of entry lines
 *   17  an index of 0 or above the size, or a row less than its column
 *   7   a list too short
 *
 *   const char text[] = "%%MatrixMarket matrix coordinate pattern symmetric\n3 3 2\n3 1\n2 2\n";
 *   uint32_t rows[2], columns[2];
 *   redstartgilt_requests read = redstartgilt_read_requests((const uint8_t *)text, sizeof text - 1, rows, 2, columns, 2);
 * gives refusal 0, dimension 3 and 2 requests, (2, 0) and (1, 1). */
redstartgilt_requests redstartgilt_read_requests(
    const uint8_t *text, size_t text_len, uint32_t *rows, size_t rows_len, uint32_t *columns, size_t columns_len);

/* Requests as a Matrix Market file, at the front of the output: the header, the size line with the number of distinct
 * pairs, and an entry line for each pair, once, by column then row, its indices counted from 1; no comments, single
 * spaces, no leading zeros, LF after every line. Requests that are one set of pairs of one dimension give equal bytes, in
 * any order and with any repeats; the call above reads the file back as that set. Row and column are not exchanged. T is
 * that of the dimension; the scratch needs ceil(T/32) words. A file has at most 69 bytes and 10 for each distinct pair.
 * Refuses, in this order, each step for the whole list before the next:
 *   1   a dimension above 4,096, or rows_len above 1,048,576
 *   4   rows_len not columns_len
 *   5   an index of the dimension or more, or a row less than its column
 *   24  no requests, of a dimension above 0
 *   7   fewer than ceil(T/32) words of scratch
 *   7   an output shorter than the file
 * The first ceil(T/32) words of the scratch are 0 after an answer and after a short output, which is as it was. The time
 * is that of the words of scratch, the requests and the bytes.
 *
 *   const uint32_t rows[] = {1, 0, 1}, columns[] = {0, 0, 0};
 *   uint32_t scratch[1];
 *   uint8_t output[96];
 *   redstartgilt_bytes written = redstartgilt_write_requests(2, rows, 3, columns, 3, output, 96, scratch, 1);
 * gives refusal 0 and 65 bytes, whose lines behind the header are 2 2 2, 1 1 and 2 1. */
redstartgilt_bytes redstartgilt_write_requests(
    size_t dimension, const uint32_t *rows, size_t rows_len, const uint32_t *columns, size_t columns_len,
    uint8_t *output, size_t output_len, uint32_t *scratch, size_t scratch_len);

/* The pairs of the factor's kept entries, ascending by row then column: pair k is (pair_rows[k], pair_columns[k]).
 * Scratch needs ceil(T/32) words, the outputs a place for each pair, at most the lesser of rows_len and T. Refuses with
 * 1, 2, 3, 18 as selected entries does, then with 7 for the scratch, then with 7 for an output. Past the other refusals
 * and with scratch long enough, its first ceil(T/32) words end 0, also when an output is too short; the outputs are then
 * as they were. */
redstartgilt_pairs redstartgilt_from_cholesky_factor(
    size_t n, const uint32_t *starts, size_t starts_len, const uint32_t *rows, size_t rows_len, const double *values, size_t values_len,
    uint32_t *scratch, size_t scratch_len, uint32_t *pair_rows, size_t pair_rows_len, uint32_t *pair_columns, size_t pair_columns_len);

/* The pairs (a, b), a >= b, of columns of one operator row, equal ones too, each once, ascending by row then column. T is
 * that of ncols. Scratch needs ceil(T/32) words, the outputs a place for each pair, at most T: a row of k columns alone
 * has k(k+1)/2. Refuses with 1 for ncols above 4,096, more than 4,096 operator rows or 1,048,576 columns, with 9 as
 * operator variances does, and with 7 as the call above, which leaves scratch and outputs alike. */
redstartgilt_pairs redstartgilt_from_transformed_operator(
    size_t ncols, const uint32_t *row_starts, size_t row_starts_len, const uint32_t *columns, size_t columns_len, const double *weights, size_t weights_len,
    uint32_t *scratch, size_t scratch_len, uint32_t *pair_rows, size_t pair_rows_len, uint32_t *pair_columns, size_t pair_columns_len);

/* Whether two lists are permutations of 0 to n - 1 and each other's inverses. Refuses with 1 for a list above 4,096,
 * with 12 for unequal lengths, then element by element of orig_to_perm, the first fault deciding: 10 for an index of n
 * or more, 11 for one that came before, 12 where perm_to_orig does not lead back. Writes nothing. */
uint32_t redstartgilt_validate(const uint32_t *orig_to_perm, size_t orig_to_perm_len, const uint32_t *perm_to_orig, size_t perm_to_orig_len);

/* The inverse of a permutation: perm_to_orig[orig_to_perm[i]] is i. Needs n places, n being orig_to_perm_len. Refuses
 * with 1 for n above 4,096, then element by element with 10 and 11 as above, then with 7. */
uint32_t redstartgilt_from_orig_to_perm(const uint32_t *orig_to_perm, size_t orig_to_perm_len, uint32_t *perm_to_orig, size_t perm_to_orig_len);

/* Values in factor order put in original order: output[i] is input[orig_to_perm[i]]. Output needs n places, n being
 * orig_to_perm_len. Refuses with 1 for a list read that is above 4,096, with 4 for input_len not n, then element by
 * element with 10 and 11 as above, then with 7. */
uint32_t redstartgilt_permute_factor_to_original(
    const uint32_t *orig_to_perm, size_t orig_to_perm_len, const double *input, size_t input_len, double *output, size_t output_len);

/* The same for values with their marks: output[i] is input[orig_to_perm[i]] and output_marks[i] is
 * marks[orig_to_perm[i]], so both are of the same cell. Marks are bytes of any value. Both outputs need n places, n being
 * orig_to_perm_len. Refuses with 1 for a list read, marks too, that is above 4,096, with 4 for input_len or marks_len
 * not n, then element by element with 10 and 11 as above, then with 7 for either output too short; both are then as they
 * were. */
uint32_t redstartgilt_permute_factor_to_original_marked(
    const uint32_t *orig_to_perm, size_t orig_to_perm_len, const double *input, size_t input_len, const uint8_t *marks, size_t marks_len,
    double *output, size_t output_len, uint8_t *output_marks, size_t output_marks_len);

/* A floor of 0.0 under values: output[i] is values[i] where that is above the floor, else the floor, and floor_hits
 * counts the latter. Output needs a place for each value. Refuses with 1 for more than 1,048,576 values, with 13 for a
 * value that is not finite, then with 7. On a refusal floor is 0.0 and floor_hits 0. */
redstartgilt_floored redstartgilt_stabilize_variances_zero(const double *values, size_t values_len, double *output, size_t output_len);

/* The same with the floor max(|mean of the positive values|, 1) * scale; the mean is 1 if none is positive, and the sum
 * is in list order. Refuses with 14, between 13 and 7, for a scale that is not finite or below 0. */
redstartgilt_floored redstartgilt_stabilize_variances_positive_mean(
    const double *values, size_t values_len, double scale, double *output, size_t output_len);

/* How many values are below 0, and the least: from infinity, NaN passed over, the earlier of two zeros kept; 0.0 for no
 * values. Refuses nothing, at any length, and writes nothing. */
redstartgilt_least redstartgilt_count_and_least(const double *values, size_t values_len);

/* A refusal in words, by its number; of 0 that it is none, and of any other number that it is no refusal. The text is a
 * literal, to be printed by "%s" as it may have a %. */
static inline const char *redstartgilt_refusal_words(uint32_t number) {
    switch (number) {
    case REDSTARTGILT_ACCEPTED: return "accepted";
    case REDSTARTGILT_TOO_LARGE:
        return "too large: a dimension, a permutation or a number of operator rows above 4,096, or more than "
            "1,048,576 stored entries, requests, operator terms, row pairs or variances";
    case REDSTARTGILT_BROKEN_STARTS:
        return "broken starts: there must be n + 1 of them, from 0, never falling, to the number of rows, and as "
            "many values as rows";
    case REDSTARTGILT_BROKEN_ROWS:
        return "broken rows: the row indices of each column must be below n and ascend";
    case REDSTARTGILT_DIMENSION_MISMATCH:
        return "dimensions do not match: requests, permutation, pivots, operator or vector are of another dimension "
            "than the factor, or two lists that go together differ in length";
    case REDSTARTGILT_REQUEST_OUT_OF_RANGE:
        return "an index of a request, or of the pair whose chain is asked for, is outside: it must be below the "
            "dimension";
    case REDSTARTGILT_NON_POSITIVE_DEFINITE:
        return "not positive definite: a column of the factor has no diagonal entry, or one that is at most 0, or a "
            "pivot is at most 0";
    case REDSTARTGILT_TOO_SHORT:
        return "a list lent for results, requests, a chain, scratch or output is too short";
    case REDSTARTGILT_NOT_COVERED:
        return "not covered: the pair is not among the selected entries, or all diagonals need more entries than "
            "the limit of 10 times the stored entries";
    case REDSTARTGILT_BROKEN_OPERATOR:
        return "broken operator: its row starts must go from 0, never falling, to the number of columns, with as "
            "many weights, its columns must be below the dimension, row pairs must name its rows, and a row with "
            "ranges must have each column once";
    case REDSTARTGILT_INDEX_TOO_LARGE: return "an index of the permutation is not below its length";
    case REDSTARTGILT_DUPLICATE_ENTRY: return "the permutation has an index twice";
    case REDSTARTGILT_NOT_INVERSE: return "the two permutations are not each other's inverses";
    case REDSTARTGILT_NOT_FINITE: return "a variance is not finite";
    case REDSTARTGILT_BAD_SCALE: return "the scale of the floor is not finite, or is below 0";
    case REDSTARTGILT_OTHER_HEADER:
        return "another header: the first line of a request file must be exactly %%MatrixMarket matrix coordinate "
            "pattern symmetric";
    case REDSTARTGILT_MALFORMED_FILE:
        return "malformed request file: after comments it must have a line with two equal sizes of at most 4,096 "
            "and the number of entries, at most 1,048,576, then so many lines of two numbers";
    case REDSTARTGILT_FILE_INDEX_OUTSIDE:
        return "an index of the request file is outside: indices go from 1 to the size, and a row must be at least "
            "its column";
    case REDSTARTGILT_NOT_FINITE_ENTRY:
        return "an entry of the factor, on or below its diagonal, or a pivot is not finite";
    case REDSTARTGILT_DIAGONAL_NOT_ONE: return "a diagonal entry of a factor of whole numbers is not 1";
    case REDSTARTGILT_NUMBER_TOO_LARGE:
        return "a number is too large in size to be exact: beyond 2^53 an entry of a factor of whole numbers, or a "
            "product, a running sum or an entry of the recurrence; beyond 2^30 an entry at cells of a row with "
            "ranges; beyond 2^40 one at cells of a track's run";
    case REDSTARTGILT_BAD_WEIGHTS:
        return "bad weights: a low one is above its high one, one is beyond 1,024 in size, or there are more than 64";
    case REDSTARTGILT_BAD_WIDTH:
        return "bad width: it must be from 1 to 1,024, and no more than the length of the track";
    case REDSTARTGILT_PIVOT_DIAGONAL_NOT_ONE: return "a diagonal entry of a factor with pivots is not 1";
    case REDSTARTGILT_NO_REQUESTS:
        return "no requests: a file without entries would mean all diagonals, so an empty list is not written as one";
    default: return "no refusal of this library has this number";
    }
}

#ifdef __cplusplus
}
#endif

#endif
