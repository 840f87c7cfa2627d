/*
 * A list of matches is read from a file, gets its days, and is saved with them. A list that is saved already is read, too.
 *
 *     (cd crates/capi && rt lib) && mkdir -p target
 *     cc -Iinclude examples/c/save.c crates/capi/out/libcapi.a -o target/save
 *     target/save examples/six-clubs.file target/saved.file
 */
#include <stdio.h>
#include "wulgranite.h"

static int refused(uint32_t refusal)
{
    fprintf(stderr, "refused %u\n", (unsigned)refusal);
    return 1;
}

int main(int argc, char **argv)
{
    /* A byte more than the longest file has, so that a longer one is refused and not cut short. */
    static uint8_t file[WG_MAX_FILE + 1];
    static uint16_t ends[2 * WG_MAX_EDGES], dates[WG_MAX_EDGES];
    size_t length, clubs = 0, matches = 0, tags = 0, method = 0, days = 0;
    uint32_t refusal;
    FILE *stream;

    if (argc != 3) {
        fprintf(stderr, "usage: save LIST SAVED\n");
        return 2;
    }
    stream = fopen(argv[1], "rb");
    if (stream == NULL) {
        perror(argv[1]);
        return 2;
    }
    length = fread(file, 1, sizeof file, stream);
    if (ferror(stream)) {
        perror(argv[1]);
        fclose(stream);
        return 2;
    }
    fclose(stream);

    refusal = wg_read_graph_file(file, length, ends, 2 * WG_MAX_EDGES, dates, WG_MAX_EDGES, &clubs, &matches, &tags, &method);
    if (refusal != WG_ACCEPTED) {
        return refused(refusal);
    }
    refusal = wg_misra_gries_edge_color(clubs, ends, 2 * matches, dates, matches, &days);
    if (refusal != WG_ACCEPTED) {
        return refused(refusal);
    }
    refusal = wg_write_graph_file(clubs, ends, 2 * matches, dates, matches, WG_TAG_COLORS | WG_TAG_METHOD, WG_METHOD_MISRA_GRIES,
                                  file, sizeof file, &length);
    if (refusal != WG_ACCEPTED) {
        return refused(refusal);
    }

    stream = fopen(argv[2], "wb");
    if (stream == NULL) {
        perror(argv[2]);
        return 2;
    }
    if (fwrite(file, 1, length, stream) != length || fclose(stream) != 0) {
        perror(argv[2]);
        return 2;
    }
    printf("%zu clubs, %zu matches, %zu days: %zu bytes\n", clubs, matches, days, length);
    return 0;
}
