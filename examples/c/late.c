/*
 * The last match of a list comes late, when the others have their days: it gets one, and some of the others may get another.
 *
 *     (cd crates/capi && rt lib) && mkdir -p target
 *     cc -Iinclude examples/c/late.c crates/capi/out/libcapi.a -o target/late
 *     target/late < examples/six-clubs.file
 */
#include <stdio.h>
#include "wulgranite.h"

static int refused(uint32_t refusal)
{
    fprintf(stderr, "refused %u\n", (unsigned)refusal);
    return 1;
}

int main(void)
{
    /* A byte more than the longest file has, so that a longer one is refused and not cut short. */
    static uint8_t file[WG_MAX_FILE + 1];
    static uint16_t ends[2 * WG_MAX_EDGES], before[WG_MAX_EDGES], after[WG_MAX_EDGES];
    size_t length = fread(file, 1, sizeof file, stdin);
    size_t clubs = 0, matches = 0, tags = 0, method = 0, others, days = 0;
    uint32_t refusal;

    refusal = wg_read_graph_file(file, length, ends, 2 * WG_MAX_EDGES, before, WG_MAX_EDGES, &clubs, &matches, &tags, &method);
    if (refusal != WG_ACCEPTED) {
        return refused(refusal);
    }
    others = matches == 0 ? 0 : matches - 1;
    refusal = wg_misra_gries_edge_color(clubs, ends, 2 * others, before, others, &days);
    if (refusal != WG_ACCEPTED) {
        return refused(refusal);
    }
    printf("before: %zu matches, %zu days\n", others, days);
    refusal = wg_misra_gries_add_edge(clubs, ends, 2 * matches, before, others, after, matches, &days);
    if (refusal != WG_ACCEPTED) {
        return refused(refusal);
    }
    printf("after: %zu matches, %zu days\n", matches, days);

    for (size_t match = 0; match < matches; match++) {
        printf("%u-%u: ", (unsigned)ends[2 * match], (unsigned)ends[2 * match + 1]);
        if (match < others) {
            printf("day %u before, ", (unsigned)before[match]);
        }
        printf("day %u after\n", (unsigned)after[match]);
    }
    return 0;
}
