/*
 * A list of matches gets its days twice, greedily and by Misra and Gries, and the list with fewer of them is printed.
 *
 *     (cd crates/capi && rt lib) && mkdir -p target
 *     cc -Iinclude examples/c/fewer.c crates/capi/out/libcapi.a -o target/fewer
 *     target/fewer < examples/six-clubs.file
 */
#include <stdio.h>
#include "wulgranite.h"

static int refused(uint32_t refusal)
{
    fprintf(stderr, "refused %u\n", (unsigned)refusal);
    return 1;
}

int main(void)
{
    /* A byte more than the longest file has, so that a longer one is refused and not cut short. */
    static uint8_t file[WG_MAX_FILE + 1];
    static uint16_t ends[2 * WG_MAX_EDGES], greedy[WG_MAX_EDGES], misra_gries[WG_MAX_EDGES];
    const uint16_t *dates;
    size_t length = fread(file, 1, sizeof file, stdin);
    size_t clubs = 0, matches = 0, tags = 0, method = 0, days = 0;
    uint32_t refusal;

    refusal = wg_read_graph_file(file, length, ends, 2 * WG_MAX_EDGES, greedy, WG_MAX_EDGES, &clubs, &matches, &tags, &method);
    if (refusal != WG_ACCEPTED) {
        return refused(refusal);
    }
    refusal = wg_greedy_edge_color(clubs, ends, 2 * matches, greedy, matches, &days);
    if (refusal != WG_ACCEPTED) {
        return refused(refusal);
    }
    printf("greedy: %zu days\n", days);
    refusal = wg_misra_gries_edge_color(clubs, ends, 2 * matches, misra_gries, matches, &days);
    if (refusal != WG_ACCEPTED) {
        return refused(refusal);
    }
    printf("Misra and Gries: %zu days\n", days);

    dates = wg_fewer_days(greedy, matches, misra_gries, matches, matches, &length) == WG_SECOND ? misra_gries : greedy;
    for (size_t match = 0; match < length; match++) {
        printf("%u-%u: day %u\n", (unsigned)ends[2 * match], (unsigned)ends[2 * match + 1], (unsigned)dates[match]);
    }
    return 0;
}
