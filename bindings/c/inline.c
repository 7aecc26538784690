/* Prints what the inline functions of redstartgilt.h give, for tests to compare; also C++. Without an argument, a line of
 * lengths for each line of two numbers on standard input. With one, the version and the bounds, the places for the requests
 * of texts of three bytes a line, then the words of each refusal number up to 40. */
#include <stdio.h>

#include <redstartgilt.h>

static uint8_t text[1 << 22];

int main(int argc, char **argv)
{
    (void)argv;
    if (argc > 1) {
        const size_t lengths[] = {0, 1, 12288, 12290, 12291, 300000, 3145727, 3145728, 3145731, sizeof text};
        printf("%s %d.%d.%d %d %d %d\n", REDSTARTGILT_VERSION,
            REDSTARTGILT_VERSION_MAJOR, REDSTARTGILT_VERSION_MINOR, REDSTARTGILT_VERSION_PATCH,
            REDSTARTGILT_MAX_DIMENSION, REDSTARTGILT_MAX_ENTRIES, REDSTARTGILT_STACK_BYTES);
        for (size_t place = 2; place < sizeof text; place += 3)
            text[place] = '\n';
        for (size_t place = 0; place < sizeof lengths / sizeof lengths[0]; place++)
            printf("%zu %zu\n", lengths[place], redstartgilt_request_places(text, lengths[place]));
        for (uint32_t number = 0; number <= 40; number++)
            printf("%s\n", redstartgilt_refusal_words(number));
        return 0;
    }
    size_t first, second;
    while (scanf("%zu %zu", &first, &second) == 2)
        printf("%zu %zu %zu %zu %zu %zu %zu %zu %zu\n",
            redstartgilt_pair_total(first), redstartgilt_result_places(first, second), redstartgilt_mark_words(first),
            redstartgilt_scratch_words(first), redstartgilt_chain_words(first), redstartgilt_chain_places(first),
            redstartgilt_default_limit(first), redstartgilt_request_file_bytes(first),
            redstartgilt_track_runs(first, second));
    return 0;
}
