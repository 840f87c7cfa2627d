/*
 * A small league: its matches in, a day for each out. Beside it, a list that is refused, and a list of no matches.
 *
 *     (cd crates/capi && rt lib) && mkdir -p target
 *     cc -Iinclude examples/c/league.c crates/capi/out/libcapi.a -o target/league
 *     target/league
 */
#include <stdio.h>
#include "wulgranite.h"

/* Each match as home and away. */
static void calendar(size_t clubs, const uint16_t *matches, size_t ends_len)
{
    uint16_t dates[WG_MAX_EDGES] = {0};
    size_t days = 0;
    uint32_t refusal = wg_misra_gries_edge_color(clubs, matches, ends_len, dates, ends_len / 2, &days);

    if (refusal != WG_ACCEPTED) {
        printf("refused %u\n", (unsigned)refusal);
        return;
    }
    printf("days %zu\n", days);
    for (size_t day = 0; day < days; day++) {
        printf("day %zu:", day);
        for (size_t match = 0; match < ends_len / 2; match++) {
            if (dates[match] == day) {
                printf(" %u-%u", (unsigned)matches[2 * match], (unsigned)matches[2 * match + 1]);
            }
        }
        printf("\n");
    }
}

int main(void)
{
    /* Four clubs, each against each. */
    static const uint16_t league[] = {0, 1, 2, 3, 0, 2, 1, 3, 0, 3, 1, 2};
    /* A match that stands twice. */
    static const uint16_t twice[] = {0, 1, 2, 3, 1, 0};

    calendar(4, league, sizeof league / sizeof *league);
    calendar(4, twice, sizeof twice / sizeof *twice);
    calendar(4, NULL, 0);
    return 0;
}
