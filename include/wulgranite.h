/*
 * Wulgranite: graph colouring for calendars. The interface of crates/capi/out/libcapi.a (`rt lib` in crates/capi; x86-64 Linux).
 * C99 or later, and C++.
 *
 * A graph is a node count n and a list of ends: edge k joins the nodes ends[2k] and ends[2k + 1]; ends_len counts numbers, not edges.
 * A colour is a day, 0 to 65534. What a colouring reports as *days is how many different colours its answer has; 0 where it has none.
 *
 * Every call returns WG_ACCEPTED (0) or the number of the first check that refuses, in the order in which they are given below, save
 * wg_fewer_days, which refuses nothing. Where a call refuses, nothing is changed: no lent list, and no number behind a pointer. No
 * call keeps a pointer, allocates, prints or fails in another way; a call may use up to about 1 MB of stack. Calls may run at the same
 * time on different memory.
 *
 * What a caller keeps:
 *  - A list is a pointer and a count of elements: the pointer is aligned for its type, and that many elements can be read there (and
 *    written, unless it is const) and have been given values, those that the call is to fill too.
 *  - What a call may write (a list that is not const, the number behind a size_t pointer) overlaps nothing else that the call is
 *    handed, and nothing else reads or writes it during the call. Const lists may overlap one another.
 *  - The pointer of a list of no elements is not read: NULL will do. A size_t pointer is never NULL.
 */
#ifndef WULGRANITE_H
#define WULGRANITE_H

#include <stddef.h>
#include <stdint.h>

#ifdef __cplusplus
extern "C" {
#endif

enum {
    WG_MAX_NODES = 512,
    WG_MAX_EDGES = 4096,
    WG_MAX_FILE = 24591,
    WG_NONE = 65535 /* in a list of presets or of colours: none */
};

/* What a call returns, save wg_fewer_days. */
enum {
    WG_ACCEPTED = 0,
    WG_TOO_MANY_NODES = 1,     /* n is above WG_MAX_NODES */
    WG_ODD_ENDS = 2,           /* the list of ends has odd length */
    WG_TOO_MANY_ENDS = 3,      /* it has more than two ends for each of WG_MAX_EDGES edges */
    WG_END_OUTSIDE = 4,        /* an end is n or more */
    WG_WRONG_LENGTH = 5,       /* a lent list has not the length that the call names */
    WG_LOOP = 6,               /* an edge joins a node to itself */
    WG_DOUBLE_EDGE = 7,        /* two edges join the same nodes */
    WG_ODD_CLOSED_WALK = 8,    /* two colours do not suffice */
    WG_SHORT_LIST = 9,         /* the lent list is too short for the pairs */
    WG_BAD_FILE = 10,          /* the bytes are no graph file, or what is told does not make one */
    WG_BAD_STORED_COLORS = 11, /* a stored colour is too great, or two edges that share an end have the same one */
    WG_UNKNOWN_STRATEGY = 255
};

/* Strategies of the greedy colourings. */
enum {
    WG_DEGREE = 0,
    WG_SATURATION = 1,
    WG_INDEPENDENT_SET = 2
};

/* What wg_fewer_days returns: one of its two lists. */
enum {
    WG_FIRST = 0,
    WG_SECOND = 1
};

/* The fields of a graph file: bit t - 1 for tag t. */
enum {
    WG_TAG_NODES = 1,
    WG_TAG_ENDS = 2,
    WG_TAG_COLORS = 4,
    WG_TAG_METHOD = 8
};

/* How the list in a graph file was coloured. */
enum {
    WG_METHOD_DEGREE = 0,
    WG_METHOD_SATURATION = 1,
    WG_METHOD_INDEPENDENT_SET = 2,
    WG_METHOD_MISRA_GRIES = 3,
    WG_METHOD_UNNAMED = 255 /* the file does not say */
};

/*
 * The incidence table: starts gets n + 1 numbers, entries the edges of node 0, of node 1, and so on; node v has the entries from
 * starts[v] on, up to starts[v + 1]. *total is how many entries were written: a loop stands once, and the entries beyond stay.
 * Refuses by 1, 2, 3, 4; 5 unless starts_len is n + 1 and entries_len is ends_len.
 * On a refusal starts, entries and *total are unchanged.
 */
uint32_t wg_incidence(size_t n, const uint16_t *ends, size_t ends_len, uint16_t *starts, size_t starts_len,
                      uint16_t *entries, size_t entries_len, size_t *total);

/*
 * Two colours for the nodes: the lowest node of each component gets 1, neighbours the other of 0 and 1. *days is 2 where there is an
 * edge; without edges all nodes have the colour 1, and *days is 1, or 0 where there is no node.
 * Refuses by 1, 2, 3, 4; 5 unless colors_len is n; 8 where there is a closed walk of odd length, and only there.
 * On a refusal colors and *days are unchanged.
 */
uint32_t wg_two_color(size_t n, const uint16_t *ends, size_t ends_len, uint8_t *colors, size_t colors_len, size_t *days);

/*
 * Colours for the nodes so that neighbours differ: nodes with more edges first, each the smallest colour that no coloured neighbour
 * has. They are the colours below *days, none left out.
 * Refuses by 1, 2, 3, 4; 5 unless colors_len is n.
 * On a refusal colors and *days are unchanged.
 */
uint32_t wg_greedy_node_color(size_t n, const uint16_t *ends, size_t ends_len, uint16_t *colors, size_t colors_len, size_t *days);

/*
 * The same around presets, a number for each node: its colour, which stays, or WG_NONE. Two equal presets side by side stay too.
 * Presets may leave out colours: the days 9 and 0 are two.
 * Refuses by 1, 2, 3, 4; 5 unless presets_len and colors_len are n.
 * On a refusal colors and *days are unchanged.
 */
uint32_t wg_greedy_node_color_with_preset_colors(size_t n, const uint16_t *ends, size_t ends_len,
                      const uint16_t *presets, size_t presets_len, uint16_t *colors, size_t colors_len, size_t *days);

/*
 * The same by a strategy: WG_DEGREE, WG_SATURATION or WG_INDEPENDENT_SET. Without presets none of them leaves out a colour below *days.
 * Refuses by 1, 2, 3, 4; 5 unless presets_len and colors_len are n; 255 where strategy is another number.
 * On a refusal colors and *days are unchanged.
 */
uint32_t wg_greedy_node_color_with_coloring_strategy(size_t n, const uint16_t *ends, size_t ends_len,
                      const uint16_t *presets, size_t presets_len, uint8_t strategy, uint16_t *colors, size_t colors_len, size_t *days);

/*
 * Colours for the edges so that edges that share an end differ, chosen as wg_greedy_node_color does: the colours below *days, none
 * left out.
 * Refuses by 1, 2, 3, 4; 5 unless colors_len is the number of edges.
 * On a refusal colors and *days are unchanged.
 */
uint32_t wg_greedy_edge_color(size_t n, const uint16_t *ends, size_t ends_len, uint16_t *colors, size_t colors_len, size_t *days);

/*
 * The same around presets, a number for each edge, which may leave out colours, and by a strategy.
 * Refuses by 1, 2, 3, 4; 5 unless presets_len and colors_len are the number of edges; 255 where strategy is another number.
 * On a refusal colors and *days are unchanged.
 */
uint32_t wg_greedy_edge_color_with_coloring_strategy(size_t n, const uint16_t *ends, size_t ends_len,
                      const uint16_t *presets, size_t presets_len, uint8_t strategy, uint16_t *colors, size_t colors_len, size_t *days);

/*
 * The line list: for nodes rising, a pair of edge numbers for each two edges at the node, in the order of the incidence table. *pairs
 * is how many; list gets two numbers for each, and those beyond stay.
 * Refuses by 1, 2, 3, 4; 9 if list_len is less than two for each pair.
 * On a refusal list and *pairs are unchanged.
 */
uint32_t wg_line_graph(size_t n, const uint16_t *ends, size_t ends_len, uint16_t *list, size_t list_len, size_t *pairs);

/*
 * Colours for the edges by Misra and Gries: where D is the most edges that a node has, each edge gets a colour from 0 to D, and edges
 * that share an end differ. They are the colours below *days, none left out.
 * Refuses by 1, 2, 3, 4; 5 unless colors_len is the number of edges; 6 a loop; 7 a double edge.
 * On a refusal colors and *days are unchanged.
 */
uint32_t wg_misra_gries_edge_color(size_t n, const uint16_t *ends, size_t ends_len, uint16_t *colors, size_t colors_len, size_t *days);

/*
 * The last edge gets a colour too, by the step that it has in wg_misra_gries_edge_color, from the colours that are stored for the
 * others: stored[k] is that of edge k. colors gets a colour for each edge, from 0 to D, where D is the most edges that a node has with
 * the last one counted, and edges that share an end differ. The step may change the colours of the others, as it does in the whole
 * run. Colours that wg_misra_gries_edge_color gives the others become those that it gives all edges; other stored colours may leave
 * some out, and then the answer may, too. Where there is no edge, stored and colors are empty. It takes about as much stack as the
 * whole run.
 * Refuses by 1, 2, 3, 4; 5 unless stored_len is one less than the number of edges, or 0 where there is none, and colors_len is the
 * number of edges; 6 a loop; 7 a double edge; 11 where a stored colour is above D, as WG_NONE always is, or two edges that share an end
 * have the same one.
 * On a refusal colors and *days are unchanged.
 */
uint32_t wg_misra_gries_add_edge(size_t n, const uint16_t *ends, size_t ends_len, const uint16_t *stored, size_t stored_len,
                      uint16_t *colors, size_t colors_len, size_t *days);

/*
 * Of two lists of colours, WG_FIRST or WG_SECOND: whichever has fewer different colours among its first m numbers, the first list
 * where they have equally many. A list with WG_NONE among those m loses to one without; if both have it, the first is the answer.
 * *length is m: so many numbers at the front of that list. If m is above either length, it is 0, at the front of the first list.
 * Nothing is refused: the lists may have any numbers and any length, above WG_MAX_EDGES too, and may be the same one.
 */
uint32_t wg_fewer_days(const uint16_t *first, size_t first_len, const uint16_t *second, size_t second_len, size_t m, size_t *length);

/*
 * Reads a graph file: *nodes and *edges are its counts, bit t - 1 of *tags is set where tag t stood, and *method is tag 4's byte, or
 * WG_METHOD_UNNAMED where it did not stand. The ends go to the front of ends, two for each edge, and where tag 3 stood the colours to
 * the front of colors, one for each edge; numbers beyond stay. The node count, the ends and the colours are not tested: the other
 * calls do that.
 * A file has at most WG_MAX_FILE bytes, numbers of two bytes low byte first: tag 1, the length 2, n; then tag 2, the length of 4 for
 * each edge, the ends of at most WG_MAX_EDGES edges; then, if it has colours, tag 3, the length of 2 for each edge, the colours,
 * WG_NONE for none; behind them, if it says how they came about, tag 4, the length 1, one of the methods above; then the end.
 * Refuses by 10 where the bytes have another layout; 5 if ends_len is less than two for each edge, or colors_len less than the number
 * of colours in the file.
 * On a refusal ends, colors, *nodes, *edges, *tags and *method are unchanged.
 */
uint32_t wg_read_graph_file(const uint8_t *bytes, size_t bytes_len, uint16_t *ends, size_t ends_len,
                      uint16_t *colors, size_t colors_len, size_t *nodes, size_t *edges, size_t *tags, size_t *method);

/*
 * Writes a graph file to the front of output: the graph, with WG_TAG_COLORS in tags the colours, and with WG_TAG_METHOD too the
 * method. *length is the number of its bytes; those beyond stay. The other bits of tags are not looked at, so those that a reading
 * gave can be handed on; colours and a method that are not told are not looked at either. WG_MAX_FILE bytes are enough for every file.
 * Reading them gives the same n, ends, colours and method again; and a file that was read, written with its own tags and method, has
 * the same bytes again, unless its graph is refused.
 * Refuses by 1, 2, 3, 4; 10 where the method is told and is above 3, or the colours are not told with it; 5 if the colours are told and
 * colors_len is not the number of edges, or output_len is less than the file.
 * On a refusal output and *length are unchanged.
 */
uint32_t wg_write_graph_file(size_t n, const uint16_t *ends, size_t ends_len, const uint16_t *colors, size_t colors_len,
                      uint8_t tags, uint8_t method, uint8_t *output, size_t output_len, size_t *length);

#ifdef __cplusplus
}
#endif

#endif
